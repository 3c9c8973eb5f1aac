/* Dunrossel: the words of H, S, X, W, T for exact one-qubit matrices. For libdunrossel.a (tools/archive), x86-64 Linux.
 *
 * Numbers. omega is (1+i)/root two, an eighth root of one, omega^4 = -1. zw is z.a z.b z.c z.d w.a w.b w.c w.d; (a,b,c,d) is
 * a·omega^3 + b·omega^2 + c·omega + d. With k and n they are the matrix with rows [z, -conj(w)·omega^n] and
 * [w, conj(z)·omega^n] over root two to the k; n counts modulo 8. The matrix is unitary where the eight squares of zw sum to
 * 2^k and ab+bc+cd-da of z plus the same of w is 0.
 *
 * Letters, by rows: H = [1 1; 1 -1] over root two, S = [1 0; 0 i], T = [1 0; 0 omega], X = [0 1; 1 0], W = [omega 0; 0 omega],
 * I = [1 0; 0 1]. Words are bytes, one for each letter, with no zero at the end; the leftmost letter is the leftmost factor.
 * Every call that takes a word takes these six letters, so that an answer can be handed in again, and at most 4,096 of them.
 *
 * A normal word is at most one T, then any number of HT and SHT, then a tail: nothing, H or SH, then X at most once, S at most
 * 3 times, W at most 7 times, in this order, and I where all of that is empty. Every matrix here has exactly one.
 *
 * A slice is a pointer and the number of bytes behind it. Nothing is read or written through the pointer of an empty slice,
 * which may be NULL.
 *
 * out, place, tees and length ARE the result, beside the number that is returned: always written, whatever they held; all
 * zeros where the call is refused, but for a place, which counts bytes from 0. buf is lent memory of `room` bytes: a refusal
 * leaves it as it was, and so does an answer beyond the answer's length. syllables and rest are a slot's record, which
 * dunrossel_slot_add reads and writes: a refusal leaves it as it was.
 *
 * Every value of the numbers and bytes is answered or refused. What no function can test is the caller's to keep: each
 * pointer leads to as many elements as its declaration, or the len or room behind it, says, and no memory that is written
 * (out, place, tees, length, buf, and by dunrossel_slot_add syllables and rest) overlaps another argument's.
 *
 * The result is 0 or the number of a refusal; of several that hold, the first in the function's own list, which is their order.
 * No call keeps memory, a pointer or a state; calls may run side by side, where none writes what another reads or writes. A
 * later number comes through a new function: no out array grows.
 *
 * The archive needs memset, of the C library or of your own, and nothing else: no heap, no files, no start-up. A call takes
 * less than 8 KiB of stack. */
#ifndef DUNROSSEL_H
#define DUNROSSEL_H

#include <stddef.h>
#include <stdint.h>

enum {
    DUNROSSEL_ACCEPTED = 0,
    DUNROSSEL_LONG = 1,        /* the word has more than 4,096 letters */
    DUNROSSEL_LETTER = 2,      /* a byte is none of the letters I H S X W T; place: the first such */
    DUNROSSEL_EXPONENT = 3,    /* k is below 0 or over 60 */
    DUNROSSEL_COEFFICIENT = 4, /* one of zw is below -2^30 or over 2^30 */
    DUNROSSEL_UNITARY = 5,     /* the matrix isn't unitary */
    DUNROSSEL_DEEP = 6,        /* an ending of the word has reduced exponent over 60; place: the rightmost start of one */
    DUNROSSEL_ROOM = 7,        /* the answer has more bytes than `room` */
    DUNROSSEL_RECORD = 8,      /* the bench record is malformed */
    DUNROSSEL_STATEMENT = 9,   /* the text isn't a circuit; place: its first byte that can't continue one, or its length */
    DUNROSSEL_PHASE = 10,      /* a W, and OpenQASM 2.0 has no global phase; place: the leftmost */
    DUNROSSEL_SLOT = 17,       /* the slot's record is none that letters give */
    DUNROSSEL_FULL = 18        /* the slot has 4,096 syllables, and the letter needs one more */
};

/* The longest word that is taken; and the room that a call never finds too small, so that it doesn't refuse 7: the least such
 * for all but dunrossel_synthesise, dunrossel_synthesise_steps and dunrossel_qasm2_write. */
enum {
    DUNROSSEL_LETTERS = 4096,    /* the longest word, and room for a circuit's letters: dunrossel_qasm_read */
    DUNROSSEL_ENOUGH = 376,      /* for dunrossel_synthesise and dunrossel_synthesise_steps */
    DUNROSSEL_NORMAL = 5469,     /* for dunrossel_normalise: an answer may be longer than the word */
    DUNROSSEL_PHASE_FREE = 5464, /* for dunrossel_phase_free */
    DUNROSSEL_CIRCUIT = 57394    /* for dunrossel_qasm2_write and dunrossel_qasm3_write */
};

#ifdef __cplusplus
extern "C" {
#endif

/* The same matrix with the least k (0 to 60) and n from 0 to 7. out: k, n, then zw.
 * Refuses 3, 4, 5. */
uint8_t dunrossel_reduce(int64_t k, uint8_t n, const int64_t zw[8], int64_t out[10]);

/* The product of a word's letters (I H S X W T), reduced. out: k, n, then zw; *place: where a refusal 2 or 6 lies, else 0.
 * Refuses 1, 2, 6. */
uint8_t dunrossel_matrix(const uint8_t *word, size_t len, int64_t out[10], uint64_t *place);

/* Writes the normal word with the matrix of a word's letters (I H S X W T) into buf; DUNROSSEL_NORMAL bytes always do. The
 * same matrix gives the same bytes, and no word with it, of any length, has fewer T; so a normal word of at most 4,096 letters
 * is given back as it is, and an I put in anywhere changes nothing. An answer may itself have more than 4,096 letters: handed
 * in again it is refused 1. out: place of a refusal 2 (else 0), bytes written, T letters written.
 * Refuses 1, 2, 7. */
uint8_t dunrossel_normalise(const uint8_t *word, size_t len, uint8_t *buf, size_t room, uint64_t out[3]);

/* Writes the phase-free word of a word's letters (I H S X W T) into buf: the normal word with no W in its tail, a tail that
 * this leaves empty being I; DUNROSSEL_PHASE_FREE bytes always do. So W gives I, and T and TW both give TI. Two words give
 * the same bytes exactly when their matrices differ by a power of omega. It is itself a normal word, with as many T as
 * dunrossel_normalise's and no more bytes; at most 4,096 letters long, it is given back as it is by both calls. out: as
 * dunrossel_normalise's.
 * Refuses 1, 2, 7 (7 by the phase-free word's length). */
uint8_t dunrossel_phase_free(const uint8_t *word, size_t len, uint8_t *buf, size_t room, uint64_t out[3]);

/* Writes the normal word of a matrix, reduced or not, into buf: at most 6k+16 bytes, k reduced, so DUNROSSEL_ENOUGH always do;
 * and the bytes that dunrossel_normalise gives for any word with this matrix, this one too. out: 0, bytes written, T letters
 * written.
 * Refuses 3, 4, 5, 7. */
uint8_t dunrossel_synthesise(int64_t k, uint8_t n, const int64_t zw[8], uint8_t *buf, size_t room, uint64_t out[3]);

/* Writes what dunrossel_synthesise writes, and counts the steps in which the matrix was taken apart. A step multiplies the
 * reduced matrix by H·T^-m from the left, m from 0 to 3, and reduces it again, until k is 0. There are none where the reduced
 * k is 0, else 2k-1 of that k where the squares of the reduced z's four numbers sum to an odd number, and 2k-2 where to an even
 * one; so at most 119. A matrix that is handed in unreduced has the steps of the reduced one.
 * out: 0, bytes written, T letters written, steps.
 * Refuses 3, 4, 5, 7. */
uint8_t dunrossel_synthesise_steps(int64_t k, uint8_t n, const int64_t zw[8], uint8_t *buf, size_t room, uint64_t out[4]);

/* The number of T letters that dunrossel_synthesise writes for a matrix, reduced or not, worked out without making the word.
 * No word of any length with this matrix has fewer, and all of them have an even number of T if this is even, else an odd
 * one. *tees: that number. It is at most 2k, k reduced, where that k is over 0, and else at most 1; so at most 120. It is odd
 * exactly where n is.
 * Refuses 3, 4, 5. */
uint8_t dunrossel_t_count(int64_t k, uint8_t n, const int64_t zw[8], uint64_t *tees);

/* The rotation of a matrix U, reduced or not: what U·P·U* is, U* being the conjugate transpose, for P each of the three axes
 * X = [0 1; 1 0], Y = [0 -i; i 0], Z = [1 0; 0 -1]. It is three by three, rows and columns in the order X, Y, Z. Column j is
 * what the j-th axis becomes, and row i has how much of the i-th is in it: T turns X into (X + Y) over root two, so its first
 * column is 1, 1, 0 over root two. The rotation of a product is the product of the rotations; W changes nothing.
 * out: e, then the nine entries row by row, each two numbers p, q, for (p + q·root two) over root two to the e. This e is the
 * least, not below 0, with which all nine can be written so: the number that dunrossel_t_count answers. The square of p is at
 * most 2^e, that of q at most half of it.
 * Refuses 3, 4, 5. */
uint8_t dunrossel_rotation(int64_t k, uint8_t n, const int64_t zw[8], int64_t out[19]);

/* Cliffords (a,b,c,d) = E^a X^b S^c omega^d, any numbers taken; an answer has a in 0..2, b in 0..1, c in 0..3, d in 0..7.
 * E = H·S^3·omega^3, so H is (1,0,1,5) and S is (0,0,1,0). Nothing is refused. out: x times y. */
void dunrossel_clifford_product(const int32_t x[4], const int32_t y[4], int32_t out[4]);

/* out: the inverse of x. */
void dunrossel_clifford_inverse(const int32_t x[4], int32_t out[4]);

/* Parts x into an axis and a rest with a = 0, x being axis times rest. out: the axis (0 for none, 1 for H, 2 for SH), then
 * the rest's four numbers. */
void dunrossel_clifford_coset(const int32_t x[4], int32_t out[5]);

/* The four entries as floating point, row by row, real then imaginary part, each within 2^-50 of the exact value. out: these
 * eight.
 * Refuses 3, 4, 5. */
uint8_t dunrossel_view(int64_t k, uint8_t n, const int64_t zw[8], double out[8]);

/* What the bench program writes for a record, into out; the result is its number of bytes, those beyond are as before.
 * A record is the lines k= n= z= w=, each ended by LF, decimal numbers within 64 signed bits (n: 0 to 255), with no plus
 * sign, no leading zeros and no -0, z and w four of them parted by commas, no spaces, nothing after. The text has the lines
 * refusal= word= t= bytes= steps=: the number of the refusal, the normal word, its T letters, its length, and the steps as
 * dunrossel_synthesise_steps counts them. A refusal (8, 3, 4, 5, in this order) stands in the text, with an empty word, t=0,
 * bytes=0 and steps=0. */
size_t dunrossel_bench(const uint8_t *record, size_t len, uint8_t out[512]);

/* Circuits are OpenQASM on one qubit, to the byte, an LF after each line and nothing else:
 *
 *     OPENQASM 2.0;              OPENQASM 3.0;
 *     include "qelib1.inc";      include "stdgates.inc";
 *     qreg q[1];                 qubit[1] q;
 *
 * then a line for each statement: h q[0]; s q[0]; t q[0]; x q[0]; sdg q[0]; tdg q[0]; and in 3.0 gphase(pi/4); for W.
 * A circuit's first statement acts first, so it is the word's rightmost letter; these three lines alone are the empty word.
 *
 * Writes the circuit of a word's letters (I H S X W T) into buf, by h, s, t, x and gphase; I is left out. DUNROSSEL_CIRCUIT
 * bytes always do. out: place of a refusal 2 or 10 (else 0), bytes written.
 * Refuses 1, 2, 10, 7 in 2.0, and 1, 2, 7 in 3.0. */
uint8_t dunrossel_qasm2_write(const uint8_t *word, size_t len, uint8_t *buf, size_t room, uint64_t out[2]);
uint8_t dunrossel_qasm3_write(const uint8_t *word, size_t len, uint8_t *buf, size_t room, uint64_t out[2]);

/* Writes the letters of a circuit of either edition into buf, a word of H S X W T for every call that takes one: sdg is read as
 * SSS, tdg as TSSS. They have the circuit's own matrix, phase included, and of what was written they are the letters but for
 * I. The text may have any length; DUNROSSEL_LETTERS bytes of room always do. out: place of a refusal 9 (else 0), bytes
 * written.
 * Refuses 9, 1 (by the letters read), 7. */
uint8_t dunrossel_qasm_read(const uint8_t *text, size_t len, uint8_t *buf, size_t room, uint64_t out[2]);

/* A slot is for letters that come one after another, each behind the last, any number of them. Its record is their normal
 * word in numbers, and that word's length; the letters themselves are not kept:
 *
 *     syllables    a code for each syllable, from the left: 1 for T, 2 for HT, 3 for SHT; 0 at each place behind the last
 *     rest         how many syllables there are; how many bytes the text has; then a, b, c, d of the tail as a Clifford
 *
 * The text is that normal word: what dunrossel_normalise writes for the letters, where they are at most 4,096. It is the
 * letters of the syllables and then those of the tail, which dunrossel_clifford_coset parts: its axis, then X, S and W as often
 * as b, c and d of the rest say, and I where all of that is empty. The empty record, that of no letters, is all 0 but for
 * rest[1] = 1: its text is I. The longest text has 12,301 bytes: SHT 4,096 times, then SHXSSSWWWWWWW.
 *
 * A record is these numbers and nothing else: it may be copied, kept in a file, and handed in later or on another machine. No
 * call trusts it: each tests all of it, and refuses 17 unless there are letters, however many, that give it when they are
 * added one after another to the empty record. There are exactly where rest[0] is at most 4,096; each of the first rest[0]
 * codes is 2 or 3, or 1 at the very first place; all codes behind them are 0; a is below 3, b below 2, c below 4 and d below 8;
 * and rest[1] is the length of the text. Nothing is reduced or cut to fewer bits: a = 3 is refused, and so is 2^32 at any place
 * of rest. */

/* Adds a letter (I H S X W T) to a slot: its record becomes that of the letters so far and this one behind them. *length: the
 * bytes of the text then. T adds a syllable or takes the last one off; the other letters leave the syllables as they are. So a
 * slot with 4,096 syllables still takes I, H, S, X, W and a T that takes one off; a T that would add one is refused 18. A
 * refusal leaves every byte of the record as it was, and *length is 0. length may not point into rest.
 * Refuses 17, 2, 18. */
uint8_t dunrossel_slot_add(uint8_t letter, uint8_t syllables[4096], uint64_t rest[6], uint64_t *length);

/* *length: the bytes of a slot's text. The record is only read.
 * Refuses 17. */
uint8_t dunrossel_slot_length(const uint8_t syllables[4096], const uint64_t rest[6], uint64_t *length);

#ifdef __cplusplus
}
#endif

#endif
