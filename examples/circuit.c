/* Words to circuits and back, from standard input to standard output:
 *
 *     tools/archive
 *     cc -Iinclude examples/circuit.c target/staticlib/libdunrossel.a -o circuit
 *     ./circuit 2 <examples/circuit2.word          writes OpenQASM 2.0
 *     ./circuit 3 <examples/circuit3.word          writes OpenQASM 3.0
 *     ./circuit letters <examples/circuit3.qasm    reads either and writes the word
 *
 * A word is a line of letters; its LF is no letter and may be missing. Where the library refuses, nothing is written, a
 * line on standard error says why and at which place, counted from 0, and the status is the refusal's number; it is 64 for
 * wrong usage, and 74 where standard input can't be read or standard output can't be written. */
#include "dunrossel.h"

#include <stdio.h>
#include <stdlib.h>
#include <string.h>

enum { USAGE = 64, FAILED = 74 };
enum { MOST = 1 << 28 }; /* bytes of input, so that one without end can't take all memory */

typedef uint8_t call(const uint8_t *given, size_t len, uint8_t *buf, size_t room, uint64_t *out);

static void stop(int status, const char *why)
{
    fprintf(stderr, "circuit: %s\n", why);
    exit(status);
}

/* All of standard input, never a part of it. */
static uint8_t *input(size_t *len)
{
    uint8_t *bytes = NULL;
    size_t room = 0, got = 1;
    for (*len = 0; got; *len += got) {
        if (*len == room) {
            room = room ? 2 * room : 1 << 16;
            if (room > MOST) stop(FAILED, "over 268435455 bytes on standard input; what is accepted has at most 57394");
            bytes = (uint8_t *)realloc(bytes, room);
            if (!bytes) stop(FAILED, "no memory for standard input");
        }
        got = fread(bytes + *len, 1, room - *len, stdin);
    }
    if (ferror(stdin)) stop(FAILED, "standard input can't be read");
    return bytes;
}

static int prints(uint8_t byte)
{
    return byte >= ' ' && byte <= '~';
}

static void show_byte(uint8_t byte)
{
    if (byte == '\n')
        fprintf(stderr, "LF");
    else if (byte == '\r')
        fprintf(stderr, "CR");
    else
        fprintf(stderr, prints(byte) ? "'%c'" : "byte %d", byte);
}

/* As much of a line as tells: the place is within its first 25 bytes, for up to there it begins a right line. */
static void show_line(const uint8_t *line, size_t len)
{
    for (size_t at = 0; at < len && line[at] != '\n'; at++) {
        if (at == 60) {
            fprintf(stderr, "...");
            break;
        }
        fprintf(stderr, prints(line[at]) ? "%c" : "\\x%02X", line[at]);
    }
}

/* Lines and columns as editors count them, from 1. */
static void show_statement(const uint8_t *text, size_t len, size_t place)
{
    size_t line = 1, start = 0;
    for (size_t at = 0; at < place; at++) {
        if (text[at] == '\n') {
            line++;
            start = at + 1;
        }
    }
    fprintf(stderr, "line %lu, column %lu: a circuit can't ", (unsigned long)line, (unsigned long)(place - start + 1));
    if (place < len) {
        fprintf(stderr, "have ");
        show_byte(text[place]);
    } else {
        fprintf(stderr, "end");
    }
    fprintf(stderr, " there: ");
    show_line(text + start, len - start);
}

static void explain(int refusal, const uint8_t *given, size_t len, size_t place)
{
    fprintf(stderr, "circuit: refused, ");
    switch (refusal) {
    case DUNROSSEL_LONG:
        fprintf(stderr, "1 Long: over 4096 letters (sdg is three, tdg four)");
        break;
    case DUNROSSEL_LETTER:
        fprintf(stderr, "2 Letter, place %lu: ", (unsigned long)place);
        show_byte(given[place]);
        fprintf(stderr, " is none of I H S X W T");
        break;
    case DUNROSSEL_STATEMENT:
        fprintf(stderr, "9 Statement, place %lu: ", (unsigned long)place);
        show_statement(given, len, place);
        break;
    case DUNROSSEL_PHASE:
        fprintf(stderr, "10 Phase, place %lu: W is a global phase, and OpenQASM 2.0 has none; 3.0 has", (unsigned long)place);
        break;
    default: /* 7 can't be: buf has room for every circuit and every word */
        fprintf(stderr, "%d", refusal);
    }
    fprintf(stderr, "\n");
}

static call *chosen(const char *what)
{
    if (strcmp(what, "2") == 0) return dunrossel_qasm2_write;
    if (strcmp(what, "3") == 0) return dunrossel_qasm3_write;
    if (strcmp(what, "letters") == 0) return dunrossel_qasm_read;
    stop(USAGE, "usage: circuit 2 <WORD, circuit 3 <WORD or circuit letters <CIRCUIT");
    return NULL;
}

int main(int argc, char **argv)
{
    call *job = chosen(argc == 2 ? argv[1] : "");
    static uint8_t buf[DUNROSSEL_CIRCUIT];
    uint64_t out[2]; /* place of a refusal, bytes written */
    size_t len;
    uint8_t *given = input(&len);
    if (job != dunrossel_qasm_read && len && given[len - 1] == '\n') len--;
    uint8_t refusal = job(given, len, buf, sizeof buf, out);
    if (refusal) explain(refusal, given, len, out[0]);
    free(given);
    if (refusal) return refusal;
    if (job == dunrossel_qasm_read) buf[out[1]++] = '\n';
    if (fwrite(buf, 1, out[1], stdout) != out[1] || fflush(stdout)) stop(FAILED, "standard output can't be written");
    return 0;
}
