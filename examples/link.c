/* Calls the library from C, prints what it answers, and checks it; the status is 1 if an answer is wrong.
 *
 *     tools/archive
 *     cc -Iinclude examples/link.c target/staticlib/libdunrossel.a -o link
 *     ./link */
#include "dunrossel.h"

#include <stdio.h>
#include <string.h>

static int wrong;

static void check(const char *what, int right)
{
    if (!right) {
        wrong++;
        printf("WRONG: %s\n", what);
    }
}

/* An answer as it is printed, held to the text it should be. */
static void word(const char *what, uint8_t refusal, const uint8_t *buf, const uint64_t out[3], const char *expected)
{
    printf("%s: refusal=%d word=%.*s t=%d\n", what, refusal, (int)out[1], (const char *)buf, (int)out[2]);
    check(what, refusal == 0 && out[1] == strlen(expected) && memcmp(buf, expected, out[1]) == 0);
}

static void words(void)
{
    const uint8_t *hsh = (const uint8_t *)"HSH", *shtt = (const uint8_t *)"SHTT", *tw = (const uint8_t *)"TW";
    const int64_t x[8] = {0, 0, 0, 0, 0, 0, 0, 1}, t[8] = {0, 0, 0, 1};
    uint8_t buf[DUNROSSEL_NORMAL]; /* enough for any word, and so for any matrix */
    uint64_t out[3];
    uint8_t refusal = dunrossel_normalise(hsh, 3, buf, sizeof buf, out);
    word("normalise HSH", refusal, buf, out, "SHXSSSW");
    refusal = dunrossel_phase_free(hsh, 3, buf, sizeof buf, out);
    word("phase-free HSH", refusal, buf, out, "SHXSSS");
    refusal = dunrossel_phase_free(tw, 2, buf, sizeof buf, out);
    word("phase-free TW", refusal, buf, out, "TI");
    refusal = dunrossel_normalise(shtt, 4, buf, sizeof buf, out);
    word("normalise SHTT", refusal, buf, out, "SHS");
    refusal = dunrossel_synthesise(0, 4, x, buf, sizeof buf, out);
    word("synthesise X", refusal, buf, out, "X");
    refusal = dunrossel_synthesise(0, 1, t, buf, sizeof buf, out);
    word("synthesise T", refusal, buf, out, "TI");
}

/* The same word, and in how many steps it was found: none where the reduced k is 0, else fewer than twice that k. */
static void steps(void)
{
    const int64_t h[8] = {0, 0, 0, 1, 0, 0, 0, 1}, t[8] = {0, 0, 0, 1};
    uint8_t buf[DUNROSSEL_ENOUGH];
    uint64_t out[4];
    uint8_t refusal = dunrossel_synthesise_steps(0, 1, t, buf, sizeof buf, out);
    word("synthesise T, its steps too", refusal, buf, out, "TI");
    check("no step", out[3] == 0);
    refusal = dunrossel_synthesise_steps(1, 4, h, buf, sizeof buf, out);
    word("synthesise H, its steps too", refusal, buf, out, "H");
    printf("steps=%d\n", (int)out[3]);
    check("one step", out[3] == 1);
    refusal = dunrossel_synthesise_steps(1, 4, h, buf, 0, out);
    check("no step where it is refused", refusal == DUNROSSEL_ROOM && out[3] == 0);
}

/* What a matrix costs, without its word; and how it turns the axes: T takes X to (X + Y) over root two, Y to (Y - X) over root
 * two, and leaves Z, which is root two over root two. */
static void turned(void)
{
    const int64_t t[8] = {0, 0, 0, 1}, rows[19] = {1, 1, 0, -1, 0, 0, 0, 1, 0, 1, 0, 0, 0, 0, 0, 0, 0, 0, 1};
    uint64_t tees;
    int64_t out[19];
    uint8_t refusal = dunrossel_t_count(0, 1, t, &tees);
    printf("T count of T: refusal=%d t=%d\n", refusal, (int)tees);
    check("T count of T", refusal == 0 && tees == 1);
    refusal = dunrossel_rotation(0, 1, t, out);
    printf("rotation of T: refusal=%d, over root two to the %d:\n", refusal, (int)out[0]);
    for (int i = 1; i < 19; i += 6)
        printf("    %d,%d %d,%d %d,%d\n", (int)out[i], (int)out[i + 1], (int)out[i + 2], (int)out[i + 3], (int)out[i + 4], (int)out[i + 5]);
    check("rotation of T", refusal == 0 && memcmp(out, rows, sizeof rows) == 0);
    check("no count where it is refused", dunrossel_t_count(61, 1, t, &tees) == DUNROSSEL_EXPONENT && tees == 0);
}

/* A word's matrix, and the matrix's word: the same bytes as normalising gives. */
static void there_and_back(void)
{
    const uint8_t *given = (const uint8_t *)"HTSHTXTTTHSW";
    int64_t m[10];
    uint64_t place, normal[3], out[3];
    uint8_t first[DUNROSSEL_ENOUGH], buf[DUNROSSEL_ENOUGH];
    check("matrix", dunrossel_matrix(given, 12, m, &place) == 0);
    printf("matrix of HTSHTXTTTHSW: k=%d n=%d z=%d,%d,%d,%d w=%d,%d,%d,%d\n", (int)m[0], (int)m[1], (int)m[2], (int)m[3],
           (int)m[4], (int)m[5], (int)m[6], (int)m[7], (int)m[8], (int)m[9]);
    check("normal word", dunrossel_normalise(given, 12, first, DUNROSSEL_ENOUGH - 1, normal) == 0);
    first[normal[1]] = 0;
    uint8_t refusal = dunrossel_synthesise(m[0], (uint8_t)m[1], m + 2, buf, sizeof buf, out);
    word("word of that matrix", refusal, buf, out, (const char *)first);
}

/* An answer handed in again is given back. */
static void again(void)
{
    const int64_t t[8] = {0, 0, 0, 1};
    uint64_t out[3];
    uint8_t first[DUNROSSEL_ENOUGH], buf[DUNROSSEL_ENOUGH];
    check("word of T", dunrossel_synthesise(0, 1, t, first, sizeof first, out) == 0);
    uint8_t refusal = dunrossel_normalise(first, out[1], buf, sizeof buf, out);
    word("that word normalised", refusal, buf, out, "TI");
}

/* A word's circuit, and the letters that are read from it: those of the word, but for I. */
static void circuits(void)
{
    const uint8_t *given = (const uint8_t *)"HTIW";
    const char *expected = "OPENQASM 3.0;\ninclude \"stdgates.inc\";\nqubit[1] q;\ngphase(pi/4);\nt q[0];\nh q[0];\n";
    uint8_t text[DUNROSSEL_CIRCUIT], buf[DUNROSSEL_LETTERS];
    uint64_t out[2];
    uint8_t refusal = dunrossel_qasm3_write(given, 4, text, sizeof text, out);
    size_t bytes = out[1];
    printf("circuit of HTIW: refusal=%d\n%.*s", refusal, (int)bytes, (const char *)text);
    check("circuit", refusal == 0 && bytes == strlen(expected) && memcmp(text, expected, bytes) == 0);
    refusal = dunrossel_qasm_read(text, bytes, buf, sizeof buf, out);
    printf("its letters: refusal=%d word=%.*s\n", refusal, (int)out[1], (const char *)buf);
    check("letters", refusal == 0 && out[1] == 3 && memcmp(buf, "HTW", 3) == 0);
    check("no W in 2.0", dunrossel_qasm2_write(given, 4, text, sizeof text, out) == DUNROSSEL_PHASE && out[0] == 3);
}

/* Letters added to a slot one after another, and the length of their normal word: HT is HTI, and HTSHTT is HTSHS, for the last T
 * meets SHT. A refusal changes nothing. */
static void slots(void)
{
    const char *letters = "HTSHTT";
    const uint64_t expected[6] = {1, 3, 3, 4, 6, 5};
    uint8_t syllables[4096] = {0};
    uint64_t rest[6] = {0, 1}, length; /* no letters yet: the text is I */
    printf("bytes of HTSHTT, letter by letter:");
    for (int i = 0; i < 6; i++) {
        check("a letter added", dunrossel_slot_add((uint8_t)letters[i], syllables, rest, &length) == 0 && length == expected[i]);
        printf(" %d", (int)length);
    }
    printf("\n");
    check("one syllable, HT, and the tail SHS", syllables[0] == 2 && syllables[1] == 0 && rest[0] == 1 && rest[1] == 5);
    check("no letter", dunrossel_slot_add('h', syllables, rest, &length) == DUNROSSEL_LETTER && length == 0);
    check("the slot as it was", dunrossel_slot_length(syllables, rest, &length) == 0 && length == 5);
    rest[1] = 6;
    check("a record that no letters give", dunrossel_slot_length(syllables, rest, &length) == DUNROSSEL_SLOT && length == 0);
}

static void numbers(void)
{
    const int64_t h[8] = {0, 0, 0, 1, 0, 0, 0, 1};
    double view[8];
    check("view of H", dunrossel_view(1, 4, h, view) == 0);
    printf("entries of H: %.16f %.16f %.16f %.16f\n", view[0], view[2], view[4], view[6]);
    check("entries of H", view[0] * view[0] > 0.4999999999999 && view[0] * view[0] < 0.5000000000001 && view[6] == -view[0]);

    const int32_t s[4] = {0, 0, 1, 0}, c[4] = {1, 0, 1, 5};
    int32_t product[4], inverse[4], parted[5];
    dunrossel_clifford_product(s, c, product);
    dunrossel_clifford_inverse(product, inverse);
    dunrossel_clifford_coset(product, parted);
    printf("S times H is (%d,%d,%d,%d), axis %d\n", product[0], product[1], product[2], product[3], parted[0]);
    check("S times H", product[0] == 2 && product[1] == 0 && product[2] == 0 && product[3] == 3 && parted[0] == 2);
    int32_t identity[4];
    dunrossel_clifford_product(product, inverse, identity);
    check("times its inverse", identity[0] == 0 && identity[1] == 0 && identity[2] == 0 && identity[3] == 0);
}

static void bench(void)
{
    const char *record = "k=1\nn=4\nz=0,0,0,1\nw=0,0,0,1\n", *expected = "refusal=0\nword=H\nt=0\nbytes=1\nsteps=1\n";
    uint8_t out[512];
    size_t size = dunrossel_bench((const uint8_t *)record, strlen(record), out);
    printf("%.*s", (int)size, (const char *)out);
    check("bench", size == strlen(expected) && memcmp(out, expected, size) == 0);
}

int main(void)
{
    words();
    steps();
    turned();
    there_and_back();
    again();
    circuits();
    slots();
    numbers();
    bench();
    printf("link.c: %d wrong\n", wrong);
    return wrong != 0;
}
