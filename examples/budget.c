/* Budgets a dial: how many T each of its rotations costs, and all together, without making a word.
 *
 *     tools/archive
 *     cc -Iinclude examples/budget.c target/staticlib/libdunrossel.a -o budget
 *     ./budget examples/dial.records
 *
 * A file has one record or several, one behind the other, each as ./run takes it. A format of its own, a line a rotation, would
 * be shorter to read, but then what is budgeted would not be, to the byte, what the words are made from.
 *
 * Each record gives a line on standard output: its file, its first line there, and its T count or why it is refused. The last
 * line has the sum. The status is 0, and 1 where a record is refused or can't be read, its T then missing from the sum; it is
 * 64 for wrong usage, and 74 where standard output can't be written. */
#include "dunrossel.h"

#include <stdio.h>
#include <string.h>

enum { USAGE = 64, FAILED = 74 };
enum { LINE = 88 }; /* more than the longest line of a record, four numbers of 20 bytes, and a zero */

static struct { uint64_t tees, rotations, missing; } total;

static const struct { char name; int many; const char *what; } lines[4] = {
    {'k', 1, "k= and a number"},
    {'n', 1, "n= and a number from 0 to 255"},
    {'z', 4, "z= and four numbers"},
    {'w', 4, "w= and four numbers"},
};

static int digit(char byte)
{
    return byte >= '0' && byte <= '9';
}

/* What stands behind a number as a record has it, or NULL: none there, a zero in front, -0, or one beyond 64 signed bits. */
static const char *number(const char *at, int64_t *value)
{
    int minus = *at == '-';
    int64_t sum = 0; /* below 0, where there is room for one more */
    at += minus;
    if (!digit(*at) || (*at == '0' && (minus || digit(at[1])))) return NULL;
    for (; digit(*at); at++) {
        int units = *at - '0';
        if (sum < (INT64_MIN + units) / 10) return NULL;
        sum = 10 * sum - units;
    }
    if (!minus && sum == INT64_MIN) return NULL;
    *value = minus ? sum : -sum;
    return at;
}

/* Whether the next line is so, to the byte: its name, then numbers parted by commas, then LF. */
static int line(FILE *from, char name, int many, int64_t *numbers)
{
    char text[LINE];
    if (!fgets(text, sizeof text, from) || text[0] != name) return 0;
    const char *at = text + 1;
    for (int i = 0; i < many; i++) {
        if (*at != (i ? ',' : '=')) return 0;
        at = number(at + 1, numbers + i);
        if (!at) return 0;
    }
    return strcmp(at, "\n") == 0;
}

/* k, n, z and w, and how many lines were right: of a record, four. */
static int record(FILE *from, int64_t m[10])
{
    int64_t *to = m;
    for (int i = 0; i < 4; to += lines[i++].many) {
        if (!line(from, lines[i].name, lines[i].many, to)) return i;
        if (i == 1 && m[1] != (uint8_t)m[1]) return i;
    }
    return 4;
}

static const char *why(uint8_t refusal)
{
    switch (refusal) {
    case DUNROSSEL_EXPONENT:
        return "3 Exponent: k is below 0 or over 60";
    case DUNROSSEL_COEFFICIENT:
        return "4 Coefficient: a number of z or w is beyond 2^30 either way";
    case DUNROSSEL_UNITARY:
        return "5 Unitary: the matrix isn't unitary";
    default: /* the header has no other */
        return "by a number that is not known here";
    }
}

static void budget(const char *name, unsigned long at, const int64_t m[10])
{
    uint64_t tees; /* 0 where it is refused */
    uint8_t refusal = dunrossel_t_count(m[0], (uint8_t)m[1], m + 2, &tees);
    if (refusal)
        printf("%s:%lu: refused, %s\n", name, at, why(refusal));
    else
        printf("%s:%lu: t=%lu\n", name, at, (unsigned long)tees);
    total.tees += tees;
    total.rotations += !refusal;
    total.missing += refusal != 0;
}

static int more(FILE *from)
{
    int next = getc(from);
    return next != EOF && ungetc(next, from) == next;
}

/* Where a record ends can't be told once a line is wrong, so no more of that file is read. */
static void file(const char *name)
{
    int64_t m[10];
    unsigned long at = 1;
    int right;
    FILE *from = fopen(name, "rb");
    if (!from) {
        printf("%s: can't be opened\n", name);
        total.missing++;
        return;
    }
    do {
        right = record(from, m);
        if (right == 4) budget(name, at, m);
        at += (unsigned long)right;
    } while (right == 4 && more(from));
    if (ferror(from))
        printf("%s: can't be read\n", name);
    else if (right < 4)
        printf("%s:%lu: refused, 8 Record: not %s; nothing is read from here on\n", name, at, lines[right].what);
    total.missing += ferror(from) || right < 4;
    fclose(from);
}

int main(int argc, char **argv)
{
    if (argc < 2) {
        fprintf(stderr, "budget: usage: budget FILE..., of records as ./run takes them\n");
        return USAGE;
    }
    for (int i = 1; i < argc; i++) file(argv[i]);
    printf("total: t=%lu rotations=%lu missing=%lu\n", (unsigned long)total.tees, (unsigned long)total.rotations,
           (unsigned long)total.missing);
    if (fflush(stdout) || ferror(stdout)) {
        fprintf(stderr, "budget: standard output can't be written\n");
        return FAILED;
    }
    return total.missing != 0;
}
