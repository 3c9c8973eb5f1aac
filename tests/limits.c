/* The library either side of each limit, from C: what a refusal leaves alone and what it clears. The status is 1 if an
 * answer is wrong. */
#include "dunrossel.h"

#include <stdio.h>
#include <string.h>

static int wrong;

static void check(const char *what, int right)
{
    if (!right) {
        wrong++;
        printf("WRONG: %s\n", what);
    }
}

enum { MANY = 11014144 }; /* 4,096 once it is cut to 16 bits */
static uint8_t many[MANY], lent[1 << 16];

static void lend(void)
{
    memset(lent, '.', sizeof lent);
}

static void untouched_from(size_t bytes)
{
    size_t touched = 0;
    for (size_t i = bytes; i < sizeof lent; i++) touched += lent[i] != '.';
    check("lent memory untouched beyond the answer", touched == 0);
}

/* ---- jobs 3 and 5 */

typedef uint8_t writer(const uint8_t *, size_t, uint8_t *, size_t, uint64_t *);

static void refused(writer *job, size_t len, size_t room, uint8_t number, uint64_t place)
{
    uint64_t out[3] = {7, 7, 7};
    lend();
    uint8_t refusal = job(many, len, lent, room, out);
    printf("%lu letters, room %lu: refusal=%d place=%d\n", (unsigned long)len, (unsigned long)room, refusal, (int)out[0]);
    check("refusal", refusal == number && out[0] == place && out[1] == 0 && out[2] == 0);
    untouched_from(0);
}

static void filled(writer *job, size_t len, size_t room, const char *expected)
{
    uint64_t out[3] = {7, 7, 7};
    size_t bytes = strlen(expected), tees = 0;
    for (size_t i = 0; i < bytes; i++) tees += expected[i] == 'T';
    lend();
    uint8_t refusal = job(many, len, lent, room, out);
    printf("%lu letters, room %lu: refusal=%d bytes=%d\n", (unsigned long)len, (unsigned long)room, refusal, (int)out[1]);
    check("accepted", refusal == 0 && out[0] == 0 && out[1] == bytes && memcmp(lent, expected, bytes) == 0);
    check("T letters", out[2] == tees);
    untouched_from(bytes);
}

/* I alone, and HT over and over as a normal word: with XS it has 4,096 letters, with the I of an empty tail 4,097. */
static void identities(writer *job)
{
    static char word[4098];
    memset(many, 'I', sizeof many);
    refused(job, MANY, sizeof lent, DUNROSSEL_LONG, 0);
    refused(job, 4097, sizeof lent, DUNROSSEL_LONG, 0);
    filled(job, 4096, 1, "I");
    refused(job, 4096, 0, DUNROSSEL_ROOM, 0);
    many[4095] = 'i';
    refused(job, 4096, 0, DUNROSSEL_LETTER, 4095);
    for (size_t i = 0; i < 4096; i++) word[i] = i % 2 ? 'T' : 'H';
    memcpy(word + 4094, "XS", 3);
    memcpy(many, word, 4096);
    filled(job, 4096, 4096, word);
    refused(job, 4096, 4095, DUNROSSEL_ROOM, 0);
    memcpy(word + 4094, "HTI", 4);
    memcpy(many, word, 4097);
    filled(job, 4096, 4097, word);
    refused(job, 4096, 4096, DUNROSSEL_ROOM, 0);
    refused(job, 4097, sizeof lent, DUNROSSEL_LONG, 0); /* that answer, given back */
}

static void words(const char *what, writer *job, const char *hsh)
{
    uint64_t out[3] = {7, 7, 7};
    printf("%s\n", what);
    memset(many, 'T', sizeof many); /* eight T are the identity */
    refused(job, MANY, sizeof lent, DUNROSSEL_LONG, 0);
    refused(job, 4097, sizeof lent, DUNROSSEL_LONG, 0);
    filled(job, 4096, sizeof lent, "I");
    filled(job, 1, 2, "TI");
    refused(job, 1, 1, DUNROSSEL_ROOM, 0);
    refused(job, 1, 0, DUNROSSEL_ROOM, 0);
    filled(job, 4095, 4, "TSSS");
    refused(job, 4095, 3, DUNROSSEL_ROOM, 0);
    many[4095] = 'Z';
    refused(job, 4096, 0, DUNROSSEL_LETTER, 4095);
    memcpy(many, "HSH", 3);
    filled(job, 3, strlen(hsh), hsh);
    refused(job, 3, strlen(hsh) - 1, DUNROSSEL_ROOM, 0);
    check("an empty slice", job(NULL, 0, NULL, 0, out) == DUNROSSEL_ROOM && out[0] == 0 && out[1] == 0 && out[2] == 0);
    filled(job, 0, 1, "I");
    identities(job);
}

/* With just room enough, and with a byte less. */
static void just_fits(size_t len, const char *expected)
{
    filled(dunrossel_phase_free, len, strlen(expected), expected);
    refused(dunrossel_phase_free, len, strlen(expected) - 1, DUNROSSEL_ROOM, 0);
}

/* Job 5 on words with W: the I of a tail that it leaves empty counts. */
static void phase_free(void)
{
    static const char *const answers[][2] = {{"WT", "TI"}, {"TW", "TI"}, {"W", "I"}, {"HW", "H"}, {"XSW", "XS"}};
    static char word[4096];
    printf("phase_free, W\n");
    for (size_t i = 0; i < sizeof answers / sizeof *answers; i++) {
        memcpy(many, answers[i][0], strlen(answers[i][0]));
        just_fits(strlen(answers[i][0]), answers[i][1]);
    }
    memset(many, 'W', 4096);
    just_fits(8, "I");
    just_fits(4096, "I");
    many[0] = 'T';
    just_fits(4096, "TI");
    for (size_t i = 0; i < 4094; i++) many[i] = (uint8_t)(word[i] = i % 2 ? 'T' : 'H');
    memcpy(word + 4094, "I", 2);
    just_fits(4096, word); /* HT over and over, and two W */
}

/* The longest answer of all words: with just the room that always does, and with a byte less. */
static void longest(writer *job, const char *first, size_t room)
{
    uint64_t out[3] = {7, 7, 7};
    size_t lead = strlen(first), tees = 0;
    memcpy(many, first, lead);
    for (size_t i = lead; i < DUNROSSEL_LETTERS; i++) many[i] = (i - lead) % 2 ? 'T' : 'H';
    lend();
    uint8_t refusal = job(many, DUNROSSEL_LETTERS, lent, room, out);
    printf("%s and HT over and over, room %lu: refusal=%d bytes=%d\n", first, (unsigned long)room, refusal, (int)out[1]);
    for (size_t i = 0; i < room; i++) tees += lent[i] == 'T';
    check("the longest answer", refusal == 0 && out[0] == 0 && out[1] == room && out[2] == tees);
    untouched_from(room);
    refused(job, DUNROSSEL_LETTERS, room - 1, DUNROSSEL_ROOM, 0);
}

/* ---- job 2 */

static void matrix(size_t len, uint8_t number, uint64_t expected)
{
    int64_t out[10];
    uint64_t place = 7;
    memset(out, 1, sizeof out);
    uint8_t refusal = dunrossel_matrix(many, len, out, &place);
    printf("%lu letters: refusal=%d place=%d k=%d\n", (unsigned long)len, refusal, (int)place, (int)out[0]);
    check("matrix", refusal == number && place == expected);
    if (refusal)
        for (int i = 0; i < 10; i++) check("numbers of a refusal are 0", out[i] == 0);
}

static void matrices(void)
{
    printf("matrix\n");
    memset(many, 'T', sizeof many);
    matrix(MANY, DUNROSSEL_LONG, 0);
    matrix(4097, DUNROSSEL_LONG, 0);
    matrix(4096, 0, 0);
    matrix(0, 0, 0);
    many[4095] = 'Z';
    matrix(4096, DUNROSSEL_LETTER, 4095);
    for (size_t i = 0; i < 244; i++) many[i] = i % 2 ? 'T' : 'H';
    matrix(238, 0, 0);
    matrix(240, DUNROSSEL_DEEP, 0);
    matrix(244, DUNROSSEL_DEEP, 4);
}

/* ---- job 4, by both exports; its word is what `many` begins with */

typedef uint8_t synthesiser(int64_t, uint8_t, const int64_t *, uint8_t *, size_t, uint64_t *);

/* One export, which has so many numbers. Bytes and steps are 0 where it refuses. */
static void by(synthesiser *job, size_t numbers, const int64_t m[10], size_t room, uint8_t number, size_t bytes, uint64_t steps)
{
    uint64_t out[5] = {7, 7, 7, 7, 7};
    size_t tees = 0;
    for (size_t i = 0; i < bytes; i++) tees += many[i] == 'T';
    lend();
    uint8_t refusal = job(m[0], (uint8_t)m[1], m + 2, lent, room, out);
    printf("k=%d, room %lu: refusal=%d bytes=%d t=%d", (int)m[0], (unsigned long)room, refusal, (int)out[1], (int)out[2]);
    if (numbers > 3) printf(" steps=%d", (int)out[3]);
    printf("\n");
    check("synthesise", refusal == number && out[0] == 0 && out[1] == bytes && out[2] == tees);
    check("steps", numbers < 4 || out[3] == steps);
    check("nothing beyond the numbers", out[numbers] == 7);
    check("the word", memcmp(lent, many, bytes) == 0);
    untouched_from(bytes);
}

static void synthesised(const int64_t m[10], size_t room, uint8_t number, size_t bytes, uint64_t steps)
{
    by(dunrossel_synthesise, 3, m, room, number, bytes, steps);
    by(dunrossel_synthesise_steps, 4, m, room, number, bytes, steps);
}

/* With room enough, just room enough, a byte less and none. */
static void around(const int64_t m[10], size_t bytes, uint64_t steps)
{
    synthesised(m, DUNROSSEL_ENOUGH, 0, bytes, steps);
    synthesised(m, bytes, 0, bytes, steps);
    synthesised(m, bytes - 1, DUNROSSEL_ROOM, 0, 0);
    synthesised(m, 0, DUNROSSEL_ROOM, 0, 0);
}

/* The identity and H, reduced or not. HT 119 times has k = 60 and is its own normal word but for the I; with no T at its end
 * it has as many steps; HT 118 times has that k too, and a step less. */
static void synthesis(void)
{
    const int64_t one[3][10] = {{0, 0, 0, 0, 0, 1}, {1, 0, -1, 0, 1}, {60, 0, 0, 0, 0, 1 << 30}}, top = 1 << 29;
    const int64_t h[2][10] = {{1, 4, 0, 0, 0, 1, 0, 0, 0, 1}, {60, 4, -top, 0, top, 0, -top, 0, top}};
    int64_t m[10];
    uint64_t place;
    printf("synthesise\n");
    many[0] = 'I';
    for (size_t i = 0; i < 3; i++) around(one[i], 1, 0);
    many[0] = 'H';
    for (size_t i = 0; i < 2; i++) around(h[i], 1, 1);
    for (size_t i = 0; i < 238; i++) many[i] = i % 2 ? 'T' : 'H';
    check("deep", dunrossel_matrix(many, 236, m, &place) == 0 && m[0] == 60);
    many[236] = 'I';
    around(m, 237, 118);
    many[236] = 'H';
    check("deepest", dunrossel_matrix(many, 238, m, &place) == 0 && m[0] == 60);
    many[238] = 'I';
    around(m, 239, 119);
    check("deepest, a T less", dunrossel_matrix(many, 237, m, &place) == 0 && m[0] == 60);
    around(m, 237, 119);
}

/* ---- T count and rotation, beside jobs 4 and 7 */

typedef struct { double re, im; } entry;

/* One number times the other's conjugate. */
static entry times(entry x, entry y)
{
    const entry product = {x.re * y.re + x.im * y.im, x.im * y.re - x.re * y.im};
    return product;
}

/* The rotation of job 7's entries, row by row: U·P·U* has x + iy in its lower left and z in its upper left entry. */
static void seen(const double view[8], double rows[9])
{
    const entry a = {view[0], view[1]}, b = {view[2], view[3]}, c = {view[4], view[5]}, d = {view[6], view[7]};
    const entry ab = times(a, b), cb = times(c, b), da = times(d, a), ca = times(c, a), db = times(d, b);
    const double found[9] = {
        cb.re + da.re, cb.im - da.im, ca.re - db.re,
        cb.im + da.im, da.re - cb.re, ca.im - db.im,
        2 * ab.re, 2 * ab.im, times(a, a).re - times(b, b).re,
    };
    memcpy(rows, found, sizeof found);
}

/* Each entry is near that of job 7. */
static void near_view(int64_t k, uint8_t n, const int64_t zw[8], const int64_t out[19])
{
    const double root = 1.4142135623730951;
    double view[8], rows[9], power = 1;
    check("view", dunrossel_view(k, n, zw, view) == 0);
    seen(view, rows);
    for (int64_t i = 0; i < out[0]; i++) power *= root;
    for (int i = 0; i < 9; i++) {
        double gap = ((double)out[1 + 2 * i] + (double)out[2 + 2 * i] * root) / power - rows[i];
        check("an entry is what job 7's entries make it", gap > -1e-12 && gap < 1e-12);
    }
}

/* Each row times each row is 1 or 0, to the last bit but modulo 2^64; and a p is odd, else root two could be taken off. */
static void orthogonal(const int64_t out[19])
{
    const uint64_t one = out[0] < 64 ? (uint64_t)1 << out[0] : 0;
    int64_t odd = 0;
    for (int row = 1; row < 19; row += 6) {
        for (int other = 1; other < 19; other += 6) {
            uint64_t plain = 0, roots = 0;
            for (int i = 0; i < 6; i += 2) {
                uint64_t p = (uint64_t)out[row + i], q = (uint64_t)out[row + i + 1];
                plain += p * (uint64_t)out[other + i] + 2 * q * (uint64_t)out[other + i + 1];
                roots += p * (uint64_t)out[other + i + 1] + q * (uint64_t)out[other + i];
            }
            check("rows are orthogonal", plain == (row == other ? one : 0) && roots == 0);
        }
    }
    for (int i = 1; i < 19; i += 2) odd |= out[i];
    check("the exponent is the least", out[0] == 0 || odd % 2 != 0);
}

/* Both calls into memory that holds something else: job 4's refusal, its T letters, and nothing beyond the numbers. */
static void turned(const char *what, int64_t k, uint8_t n, const int64_t zw[8], uint8_t number, uint64_t tees, int64_t out[20])
{
    uint64_t count[2] = {7, 7}, letters[3] = {7, 7, 7};
    for (int i = 0; i < 20; i++) out[i] = -7;
    uint8_t counts = dunrossel_t_count(k, n, zw, count), turns = dunrossel_rotation(k, n, zw, out);
    printf("%s, k=%ld n=%d: refusal=%d t=%d\n", what, (long)k, n, counts, (int)count[0]);
    check("T count", counts == number && count[0] == tees);
    check("rotation", turns == number && out[0] == (int64_t)tees);
    check("one number and nineteen", count[1] == 7 && out[19] == -7);
    check("as job 4", dunrossel_synthesise(k, n, zw, lent, DUNROSSEL_ENOUGH, letters) == number && letters[2] == tees);
    if (number) {
        for (int i = 0; i < 19; i++) check("rotation of a refusal is 0", out[i] == 0);
    } else {
        near_view(k, n, zw, out);
        orthogonal(out);
    }
}

/* With the eight numbers doubled and k two more, as often as that goes, the answer is the same. */
static void raised(const char *word, int64_t m[10], uint64_t tees)
{
    int64_t out[20], again[20];
    turned(word, m[0], (uint8_t)m[1], m + 2, 0, tees, out);
    while (m[0] <= 58) {
        m[0] += 2;
        for (int i = 2; i < 10; i++) m[i] *= 2;
        turned(word, m[0], (uint8_t)m[1], m + 2, 0, tees, again);
        check("the same however it is written", memcmp(out, again, sizeof out) == 0);
    }
}

/* HT so many times behind a beginning: its k is 60, and every T counts. */
static void deep(const char *first, size_t times, uint64_t tees)
{
    int64_t m[10], out[20];
    uint64_t place;
    size_t lead = strlen(first);
    memcpy(many, first, lead);
    for (size_t i = 0; i < 2 * times; i++) many[lead + i] = i % 2 ? 'T' : 'H';
    check("k = 60", dunrossel_matrix(many, lead + 2 * times, m, &place) == 0 && m[0] == 60);
    turned("HT over and over", m[0], (uint8_t)m[1], m + 2, 0, tees, out);
}

static const struct { const char *word; uint64_t tees; } costs[] = {
    {"", 0}, {"X", 0}, {"SHXSSSWW", 0}, {"T", 1}, {"HTSH", 1}, {"THTW", 2}, {"TT", 0}, {"THHT", 0}, {"HTXHT", 2}, {"SHTHTSHTXSWWW", 3},
};

/* By hand: T, its inverse as n = 255 gives it, H, which turns X to Z, Y to -Y and Z to X, and S, which turns X to Y. */
static void rotations(void)
{
    const int64_t one[8] = {0, 0, 0, 1}, h[8] = {0, 0, 0, 1, 0, 0, 0, 1}, top[8] = {0, 0, 0, 1 << 30};
    const int64_t t[19] = {1, 1, 0, -1, 0, 0, 0, 1, 0, 1, 0, 0, 0, 0, 0, 0, 0, 0, 1};
    const int64_t back[19] = {1, 1, 0, 1, 0, 0, 0, -1, 0, 1, 0, 0, 0, 0, 0, 0, 0, 0, 1};
    const int64_t of_h[19] = {0, 0, 0, 0, 0, 1, 0, 0, 0, -1, 0, 0, 0, 1, 0, 0, 0, 0, 0};
    const int64_t of_s[19] = {0, 0, 0, -1, 0, 0, 0, 1, 0, 0, 0, 0, 0, 0, 0, 0, 0, 1, 0};
    int64_t out[20], m[10];
    uint64_t place;
    printf("T count and rotation\n");
    for (int n = 0; n < 256; n++) turned("k = 0", 0, (uint8_t)n, one, 0, (uint64_t)(n % 2), out);
    check("T by n = 255 backwards", memcmp(out, back, sizeof back) == 0);
    turned("2^30", 60, 255, top, 0, 1, out);
    check("the same of 2^30", memcmp(out, back, sizeof back) == 0);
    turned("T", 0, 1, one, 0, 1, out);
    check("rotation of T", memcmp(out, t, sizeof t) == 0);
    turned("H", 1, 4, h, 0, 0, out);
    check("rotation of H", memcmp(out, of_h, sizeof of_h) == 0);
    turned("S", 0, 2, one, 0, 0, out);
    check("rotation of S", memcmp(out, of_s, sizeof of_s) == 0);
    for (size_t i = 0; i < sizeof costs / sizeof *costs; i++) {
        check("a word", dunrossel_matrix((const uint8_t *)costs[i].word, strlen(costs[i].word), m, &place) == 0);
        raised(costs[i].word, m, costs[i].tees);
    }
    deep("", 118, 118);
    deep("", 119, 119);
    deep("T", 119, 120);
}

/* ---- triples that are refused, by every call that takes one */

static void triple(const char *what, int64_t k, const int64_t zw[8], uint8_t number)
{
    int64_t ten[10];
    double view[8];
    uint64_t out[3] = {7, 7, 7}, four[4] = {7, 7, 7, 7};
    int64_t turn[20];
    memset(ten, 1, sizeof ten);
    memset(view, 1, sizeof view);
    lend();
    uint8_t refusal = dunrossel_reduce(k, 0, zw, ten);
    printf("%s: refusal=%d\n", what, refusal);
    check("reduce refuses", refusal == number);
    check("view refuses", dunrossel_view(k, 0, zw, view) == number);
    check("synthesise refuses", dunrossel_synthesise(k, 0, zw, lent, DUNROSSEL_ENOUGH, out) == number);
    check("with steps too", dunrossel_synthesise_steps(k, 0, zw, lent, DUNROSSEL_ENOUGH, four) == number);
    for (int i = 0; i < 10; i++) check("numbers of a refusal are 0", ten[i] == 0);
    for (int i = 0; i < 8; i++) check("view of a refusal is 0", view[i] == 0);
    check("counts of a refusal are 0", out[0] == 0 && out[1] == 0 && out[2] == 0);
    for (int i = 0; i < 4; i++) check("counts and steps of a refusal are 0", four[i] == 0);
    turned("T count and rotation", k, 0, zw, number, 0, turn);
    untouched_from(0);
}

static void triples(void)
{
    const int64_t top = 1 << 30;
    const int64_t one[8] = {0, 0, 0, 1}, both[8] = {0, 0, 0, 1, 0, 0, 0, 1}, cross[8] = {0, 0, 1, 1};
    const int64_t deep[8] = {0, -top, 0, 0, top}, over[8] = {0, 0, 0, top + 1}, under[8] = {-top - 1};
    const int64_t least[8] = {0, 0, 0, 0, 0, 0, 0, INT64_MIN}, identity[8] = {0, 0, 0, top};
    int64_t ten[10];
    triple("k = -1", -1, one, DUNROSSEL_EXPONENT);
    triple("k = 61", 61, deep, DUNROSSEL_EXPONENT);
    triple("k = -2^63", INT64_MIN, least, DUNROSSEL_EXPONENT);
    triple("2^30 + 1", 60, over, DUNROSSEL_COEFFICIENT);
    triple("-2^30 - 1", 60, under, DUNROSSEL_COEFFICIENT);
    triple("-2^63", 0, least, DUNROSSEL_COEFFICIENT);
    triple("z = w = 1, k = 0", 0, both, DUNROSSEL_UNITARY);
    triple("the squares alone fit", 1, cross, DUNROSSEL_UNITARY);
    check("2^30 is accepted", dunrossel_reduce(60, 255, identity, ten) == 0 && ten[0] == 0 && ten[1] == 7 && ten[5] == 1);
}

/* ---- the bench record */

static void bench(const char *what, size_t len, const char *expected)
{
    uint8_t out[512];
    memset(out, '.', sizeof out);
    size_t size = dunrossel_bench(many, len, out);
    printf("%s: %.9s, %lu bytes\n", what, (const char *)out, (unsigned long)size);
    check("bench", size == strlen(expected) && memcmp(out, expected, strlen(expected)) == 0);
    for (size_t i = strlen(expected); i < sizeof out; i++) check("beyond the bench answer", out[i] == '.');
}

static void records(void)
{
    const char *right = "k=1\nn=4\nz=0,0,0,1\nw=0,0,0,1\n";
    const char *h = "refusal=0\nword=H\nt=0\nbytes=1\nsteps=1\n", *malformed = "refusal=8\nword=\nt=0\nbytes=0\nsteps=0\n";
    printf("bench\n");
    memset(many, 0, sizeof many);
    bench("no byte", 0, malformed);
    bench("zeros", MANY, malformed);
    memcpy(many, right, strlen(right));
    bench("a right record", strlen(right), h);
    bench("its last LF missing", strlen(right) - 1, malformed);
    bench("a byte more", strlen(right) + 1, malformed);
    bench("many more", MANY, malformed);
}

/* ---- circuits */

#define TWO "OPENQASM 2.0;\ninclude \"qelib1.inc\";\nqreg q[1];\n"
#define THREE "OPENQASM 3.0;\ninclude \"stdgates.inc\";\nqubit[1] q;\n"

enum { LINE = 8, LEAD = sizeof THREE - 1 };
static uint8_t text[LEAD + LINE * (size_t)MANY];

/* A call's whole answer: of out it may write only its two numbers. */
static void circuit(writer *job, const void *given, size_t len, size_t room, uint8_t number, uint64_t place, const void *expected, size_t bytes)
{
    uint64_t out[3] = {7, 7, 7};
    lend();
    uint8_t refusal = job((const uint8_t *)given, len, lent, room, out);
    printf("%lu bytes, room %lu: refusal=%d place=%d bytes=%d\n", (unsigned long)len, (unsigned long)room, refusal, (int)out[0], (int)out[1]);
    check("refusal", refusal == number && out[0] == place);
    check("answer", out[1] == bytes && memcmp(lent, expected, bytes) == 0);
    check("nothing beyond two numbers", out[2] == 7);
    untouched_from(bytes);
}

static void denied(writer *job, const void *given, size_t len, size_t room, uint8_t number, uint64_t place)
{
    circuit(job, given, len, room, number, place, "", 0);
}

/* Taken with just room enough, and with a byte less refused. */
static void exactly(writer *job, const void *given, size_t len, const void *expected, size_t bytes)
{
    circuit(job, given, len, bytes, 0, 0, expected, bytes);
    if (bytes) denied(job, given, len, bytes - 1, DUNROSSEL_ROOM, 0);
    if (bytes) denied(job, given, len, 0, DUNROSSEL_ROOM, 0);
}

/* Puts a line a number of times behind those that the text has, and gives its new length. */
static size_t put(size_t at, const char *line, size_t times)
{
    for (size_t size = strlen(line); times; times--, at += size) memcpy(text + at, line, size);
    return at;
}

static void writing(const char *header, writer *job)
{
    size_t head = put(0, header, 1), full = put(head, "h q[0];\n", 4096);
    printf("writing %.12s\n", header);
    memset(many, 'H', sizeof many);
    denied(job, many, MANY, sizeof lent, DUNROSSEL_LONG, 0);
    exactly(job, many, 4096, text, full);
    many[9] = 'Z';
    many[3] = 'W';
    denied(job, many, 4097, 0, DUNROSSEL_LONG, 0);
    denied(job, many, 4096, 0, DUNROSSEL_LETTER, 9);
    memset(many, 'I', 4097);
    denied(job, many, 4097, sizeof lent, DUNROSSEL_LONG, 0);
    exactly(job, many, 4096, header, head);
    exactly(job, NULL, 0, header, head);
    many[4095] = 0;
    denied(job, many, 4096, sizeof lent, DUNROSSEL_LETTER, 4095);
    uint64_t out[2] = {7, 7};
    check("no letter and no room", job(NULL, 0, NULL, 0, out) == DUNROSSEL_ROOM && out[0] == 0 && out[1] == 0);
}

static void phases(void)
{
    const char *spelt = THREE "gphase(pi/4);\nx q[0];\ngphase(pi/4);\nt q[0];\n";
    writer *two = dunrossel_qasm2_write, *three = dunrossel_qasm3_write;
    printf("phases\n");
    denied(two, "TWIXW", 5, 0, DUNROSSEL_PHASE, 1);
    denied(two, "TWIXw", 5, 0, DUNROSSEL_LETTER, 4);
    exactly(three, "TWIXW", 5, spelt, strlen(spelt));
    memset(many, 'X', 4095);
    many[4095] = 'W';
    denied(two, many, 4096, sizeof lent, DUNROSSEL_PHASE, 4095);
    memset(many, 'W', 4096);
    denied(two, many, 4096, sizeof lent, DUNROSSEL_PHASE, 0);
    put(put(0, THREE, 1), "gphase(pi/4);\n", 4096);
    exactly(three, many, 4096, text, DUNROSSEL_CIRCUIT);
}

/* The longest word, written and read back. */
static void back(void)
{
    static uint8_t spelt[DUNROSSEL_CIRCUIT], without[DUNROSSEL_LETTERS];
    uint64_t out[2];
    size_t bytes = 0;
    for (size_t i = 0; i < 4096; i++) {
        many[i] = (uint8_t)"HSXWTI"[i % 6];
        if (many[i] != 'I') without[bytes++] = many[i];
    }
    check("the longest word written", dunrossel_qasm3_write(many, 4096, spelt, sizeof spelt, out) == 0);
    exactly(dunrossel_qasm_read, spelt, out[1], without, bytes);
}

/* Of h lines that stand from LEAD on: the header is put so that it ends there. */
static void reading(const char *header)
{
    size_t head = strlen(header);
    const uint8_t *start = text + LEAD - head;
    writer *job = dunrossel_qasm_read;
    uint64_t out[2] = {7, 7};
    printf("reading %.12s\n", header);
    put(LEAD - head, header, 1);
    memset(many, 'H', 4096);
    denied(job, start, head + LINE * (size_t)MANY, sizeof lent, DUNROSSEL_LONG, 0);
    denied(job, start, head + LINE * (size_t)MANY - 1, 0, DUNROSSEL_STATEMENT, head + LINE * (size_t)MANY - 1);
    denied(job, start, head + LINE * 4097, 0, DUNROSSEL_LONG, 0);
    denied(job, start, head + LINE * 4097, sizeof lent, DUNROSSEL_LONG, 0);
    exactly(job, start, head + LINE * 4096, many, 4096);
    denied(job, start, head + LINE * 4096 - 1, 0, DUNROSSEL_STATEMENT, head + LINE * 4096 - 1);
    exactly(job, start, head, "", 0);
    check("the empty word into no memory", job(start, head, NULL, 0, out) == 0 && out[0] == 0 && out[1] == 0);
    out[0] = out[1] = 7;
    check("no text", job(NULL, 0, NULL, 0, out) == DUNROSSEL_STATEMENT && out[0] == 0 && out[1] == 0);
}

/* h lines, and then one that is read as several letters, so that these come leftmost. */
static void step(size_t plain, const char *line, const char *letters)
{
    size_t len = put(put(put(0, THREE, 1), "h q[0];\n", plain), line, 1), bytes = strlen(letters);
    memset(many, 'H', 4099);
    memcpy(many, letters, bytes);
    if (plain + bytes > 4096)
        denied(dunrossel_qasm_read, text, len, sizeof lent, DUNROSSEL_LONG, 0);
    else
        exactly(dunrossel_qasm_read, text, len, many, plain + bytes);
}

static void steps(void)
{
    printf("sdg and tdg\n");
    for (size_t plain = 4092; plain <= 4096; plain++) {
        step(plain, "sdg q[0];\n", "SSS");
        step(plain, "tdg q[0];\n", "TSSS");
    }
    for (size_t i = 0; i < 4096; i++) many[i] = i % 4 ? 'S' : 'T';
    exactly(dunrossel_qasm_read, text, put(put(0, TWO, 1), "tdg q[0];\n", 1024), many, 4096);
    /* 4,096 letters once they are cut to 16 bits, and 0 */
    denied(dunrossel_qasm_read, text, put(put(0, TWO, 1), "tdg q[0];\n", 17408), sizeof lent, DUNROSSEL_LONG, 0);
    denied(dunrossel_qasm_read, text, put(put(0, TWO, 1), "tdg q[0];\n", 16384), sizeof lent, DUNROSSEL_LONG, 0);
}

static const struct { const char *text; uint64_t place; } broken[] = {
    {"", 0},
    {"\n" TWO, 0},
    {"OPENQASM 4.0;\n", 9},
    {"OPENQASM 2.0;\r\n", 13},
    {"OPENQASM 2.0;\ninclude \"stdgates.inc\";\nqreg q[1];\n", 23},
    {"OPENQASM 2.0;\ninclude \"qelib1.inc\";\nqubit[1] q;\n", 37},
    {"OPENQASM 3.0;\ninclude \"qelib1.inc\";\nqubit[1] q;\n", 23},
    {"OPENQASM 3.0;\ninclude \"stdgates.inc\";\nqreg q[1];\n", 39},
    {TWO "gphase(pi/4);\n", 47},
    {TWO "h q[0];\ngphase(pi/4);\n", 55},
    {TWO "h q[0];\r\n", 54},
    {TWO "h q[0];\n\n", 55},
    {TWO "h q[0];\n ", 55},
    {TWO "h  q[0];\n", 49},
    {TWO "H q[0];\n", 47},
    {TWO "h q[1];\n", 51},
    {TWO "hdg q[0];\n", 48},
    {TWO "st q[0];\n", 48},
    {TWO "sdg q[0]\n", 55},
    {THREE "gphase(-pi/4);\n", 57},
    {THREE "gphase(pi/2);\n", 60},
    {THREE "gphase(pi/4);\r\n", 63},
    {THREE THREE, 50},
};

static void places(void)
{
    const char *whole = THREE "tdg q[0];\ngphase(pi/4);\nx q[0];\n";
    writer *job = dunrossel_qasm_read;
    printf("places\n");
    for (size_t i = 0; i < sizeof broken / sizeof *broken; i++)
        denied(job, broken[i].text, strlen(broken[i].text), 0, DUNROSSEL_STATEMENT, broken[i].place);
    denied(job, whole, strlen(whole) + 1, sizeof lent, DUNROSSEL_STATEMENT, strlen(whole)); /* its zero */
    for (size_t cut = 0; cut <= strlen(whole); cut++) {
        const char *letters = cut == 50 ? "" : cut == 60 ? "TSSS" : cut == 74 ? "WTSSS" : cut == 82 ? "XWTSSS" : NULL;
        if (letters)
            exactly(job, whole, cut, letters, strlen(letters));
        else
            denied(job, whole, cut, sizeof lent, DUNROSSEL_STATEMENT, cut);
    }
}

static void circuits(void)
{
    writing(TWO, dunrossel_qasm2_write);
    writing(THREE, dunrossel_qasm3_write);
    phases();
    back();
    put(LEAD, "h q[0];\n", MANY);
    reading(TWO);
    reading(THREE);
    steps();
    places();
}

/* ---- slots; where letters are handed to job 3 too, they are what `many` begins with */

/* A record and a length, with places behind each that no call may write. */
typedef struct {
    uint8_t syllables[4096 + 8];
    uint64_t rest[6 + 1], length[1 + 1];
} slot;

static void emptied(slot *s)
{
    memset(s, 0, sizeof *s);
    s->rest[1] = s->length[0] = 1; /* its text is I */
}

/* The text of a record, as the header has it, put into `text`. */
static size_t spelt(const slot *s)
{
    static const char *const letters[] = {"", "T", "HT", "SHT"}, *const axes[] = {"", "H", "SH"};
    const int32_t tail[4] = {(int32_t)s->rest[2], (int32_t)s->rest[3], (int32_t)s->rest[4], (int32_t)s->rest[5]};
    int32_t parted[5];
    size_t behind = 0;
    for (size_t i = 0; i < s->rest[0]; i++) behind = put(behind, letters[s->syllables[i] % 4], 1);
    dunrossel_clifford_coset(tail, parted);
    size_t axis = put(behind, axes[parted[0]], 1), x = put(axis, "X", (size_t)parted[2]), ess = put(x, "S", (size_t)parted[3]);
    size_t end = put(ess, "W", (size_t)parted[4]);
    return end == behind ? put(end, "I", 1) : end;
}

/* Whether a record is right but for its byte count, and nothing stands behind its parts. */
static int formed(const slot *s)
{
    static const uint64_t below[4] = {3, 2, 4, 8};
    int right = s->rest[0] <= 4096 && s->rest[6] == 0 && s->length[1] == 0;
    for (size_t i = 0; i < sizeof s->syllables; i++) {
        uint8_t code = s->syllables[i];
        right &= i < s->rest[0] ? code == 2 || code == 3 || (code == 1 && i == 0) : code == 0;
    }
    for (size_t i = 0; i < 4; i++) right &= s->rest[2 + i] < below[i];
    return right;
}

static void take(slot *s, char letter)
{
    s->length[0] = 7;
    check("a letter is taken", dunrossel_slot_add((uint8_t)letter, s->syllables, s->rest, s->length) == 0);
}

/* The record is right, and both calls answer the length of its text. */
static void sound(const slot *s)
{
    uint64_t length = 7;
    check("the record is right", formed(s));
    check("its length", s->rest[1] == spelt(s) && s->length[0] == s->rest[1]);
    check("its length alone", dunrossel_slot_length(s->syllables, s->rest, &length) == 0 && length == s->rest[1]);
}

static void add(slot *s, char letter)
{
    take(s, letter);
    sound(s);
}

static void add_all(slot *s, const char *letters, size_t times)
{
    for (; times; times--)
        for (const char *letter = letters; *letter; letter++) take(s, *letter);
    sound(s);
}

/* One more letter, with so many syllables and bytes then; the record that was handed in is kept. */
static void then(const slot *given, char letter, uint64_t count, uint64_t bytes)
{
    slot s;
    memcpy(&s, given, sizeof s);
    add(&s, letter);
    printf("slot of %d syllables, %c: %d syllables, %d bytes\n", (int)given->rest[0], letter, (int)s.rest[0], (int)s.rest[1]);
    check("syllables and bytes", s.rest[0] == count && s.rest[1] == bytes);
}

/* One more letter that is refused: every byte but the length, which is 0, is as it was. */
static void turned_down(const slot *given, int letter, uint8_t number)
{
    slot s;
    memcpy(&s, given, sizeof s);
    s.length[0] = 7;
    check("a letter is refused", dunrossel_slot_add((uint8_t)letter, s.syllables, s.rest, s.length) == number && s.length[0] == 0);
    s.length[0] = given->length[0];
    check("the record is as it was", memcmp(&s, given, sizeof s) == 0);
}

static size_t damages;

/* Both calls refuse it, whether the letter is one or not. */
static void damaged(const slot *given)
{
    slot s;
    memcpy(&s, given, sizeof s);
    turned_down(given, 'T', DUNROSSEL_SLOT);
    turned_down(given, 'Z', DUNROSSEL_SLOT);
    s.length[0] = 7;
    check("a length is refused", dunrossel_slot_length(s.syllables, s.rest, s.length) == DUNROSSEL_SLOT && s.length[0] == 0);
    s.length[0] = given->length[0];
    check("and nothing written", memcmp(&s, given, sizeof s) == 0);
    damages++;
}

/* Another code, which has another number of letters; then the byte count is made to fit, and the record may be right again. */
static void damaged_code(slot *s, size_t place, uint8_t code)
{
    uint8_t kept = s->syllables[place];
    uint64_t bytes = s->rest[1];
    if (code == kept) return;
    s->syllables[place] = code;
    damaged(s);
    s->rest[1] = bytes + code - kept;
    if (formed(s))
        check("another syllable", dunrossel_slot_length(s->syllables, s->rest, s->length) == 0 && s->length[0] == s->rest[1]);
    else
        damaged(s);
    s->rest[1] = bytes;
    s->syllables[place] = kept;
}

static void damaged_codes(slot *s)
{
    static const uint8_t codes[] = {0, 1, 2, 3, 4, 255};
    for (size_t i = 0; i < 4096; i++)
        for (size_t j = 0; j < sizeof codes; j++) damaged_code(s, i, codes[j]);
}

static void damaged_number(slot *s, size_t place, uint64_t value)
{
    uint64_t kept = s->rest[place];
    s->rest[place] = value;
    if (value != kept) damaged(s);
    s->rest[place] = kept;
}

/* Each number of rest: the first beyond its range, more by what a byte, 16, 32 or 63 bits would cut off, and the largest; the
 * counts also by one either way, and that of syllables as if all places had one. */
static void damaged_rest(slot *s)
{
    static const uint64_t beyond[6] = {4097, 12302, 3, 2, 4, 8};
    static const int bits[] = {8, 16, 32, 63};
    for (size_t i = 0; i < 6; i++) {
        damaged_number(s, i, beyond[i]);
        damaged_number(s, i, (uint64_t)-1);
        for (size_t j = 0; j < sizeof bits / sizeof *bits; j++) damaged_number(s, i, s->rest[i] + ((uint64_t)1 << bits[j]));
    }
    for (size_t i = 0; i < 2; i++) {
        damaged_number(s, i, s->rest[i] + 1);
        damaged_number(s, i, s->rest[i] - 1);
    }
    damaged_number(s, 0, 4096);
}

static void every_damage(slot *s)
{
    damages = 0;
    damaged_codes(s);
    damaged_rest(s);
    printf("slot of %d syllables: damaged in %d ways\n", (int)s->rest[0], (int)damages);
}

/* Every byte as a letter: six are taken. */
static void every_letter(const slot *given)
{
    int taken = 0;
    for (int byte = 0; byte < 256; byte++) {
        slot s;
        memcpy(&s, given, sizeof s);
        if (dunrossel_slot_add((uint8_t)byte, s.syllables, s.rest, s.length) == 0)
            taken++;
        else
            turned_down(given, byte, DUNROSSEL_LETTER);
    }
    check("six letters", taken == 6);
}

/* The record's text is what job 3 writes for so many letters. */
static void as_job_3(const slot *s, size_t len)
{
    uint64_t out[3];
    check("job 3", dunrossel_normalise(many, len, lent, sizeof lent, out) == 0);
    check("the text is job 3's", spelt(s) == out[1] && memcmp(text, lent, out[1]) == 0 && s->rest[0] == out[2]);
}

/* Letters by chance, and after each the record of those so far. */
static void by_chance(void)
{
    uint64_t chance = 1;
    printf("slots of letters by chance\n");
    for (int word = 0; word < 40; word++) {
        slot s;
        emptied(&s);
        for (size_t len = 0; len < 120;) {
            chance = chance * 6364136223846793005 + 1442695040888963407;
            many[len++] = (uint8_t)"TTTHHSXWI"[(chance >> 32) % 9];
            add(&s, (char)many[len - 1]);
            as_job_3(&s, len);
        }
    }
}

/* Behind these syllables every tail is right with its own byte count, and takes every letter as job 3 does. */
static void every_tail(slot *s)
{
    printf("slot of %d syllables: 192 tails\n", (int)s->rest[0]);
    for (uint64_t tail = 0; tail < 192; tail++) {
        s->rest[2] = tail / 64;
        s->rest[3] = tail / 32 % 2;
        s->rest[4] = tail / 8 % 4;
        s->rest[5] = tail % 8;
        size_t bytes = spelt(s);
        s->rest[1] = s->length[0] = bytes;
        sound(s);
        memcpy(many, text, bytes);
        for (const char *letter = "IHSXWT"; *letter; letter++) {
            slot more;
            memcpy(&more, s, sizeof more);
            add(&more, *letter);
            many[bytes] = (uint8_t)*letter;
            as_job_3(&more, bytes + 1);
        }
        s->rest[1] = bytes + 1;
        damaged(s);
        s->rest[1] = bytes - 1;
        damaged(s);
    }
}

/* 4,096 syllables: letters that need no more, that take one off, and that need one more; before it one is added. */
static void full(const char *first, const char *others, uint64_t bytes)
{
    slot s;
    emptied(&s);
    add_all(&s, first, 1);
    add_all(&s, others, 4094);
    check("4,095 syllables", s.rest[0] == 4095);
    add(&s, 'H');
    then(&s, 'T', 4096, bytes + 3);
    turned_down(&s, 'h', DUNROSSEL_LETTER);
    add(&s, 'T');
    for (const char *letter = "IHSXW"; *letter; letter++) then(&s, *letter, 4096, bytes + 3);
    then(&s, 'T', 4095, bytes + 2); /* HS */
    every_letter(&s);
    add(&s, 'H');
    turned_down(&s, 'T', DUNROSSEL_FULL);
    turned_down(&s, 't', DUNROSSEL_LETTER);
    s.rest[2] += 3;
    turned_down(&s, 'T', DUNROSSEL_SLOT);
    s.rest[2] -= 3;
    for (const char *letter = "IHSXW"; *letter; letter++) {
        slot again;
        memcpy(&again, &s, sizeof again);
        add(&again, *letter);
    }
    check("full and still the same", formed(&s) && s.rest[0] == 4096 && s.rest[1] == bytes + 3);
}

/* The longest text. A W more is its eighth. */
static void longest_slot(void)
{
    slot s;
    emptied(&s);
    add_all(&s, "SHT", 4096);
    add_all(&s, "SHXSSSWWWWWWW", 1);
    check("the longest text", s.rest[0] == 4096 && s.rest[1] == 12301 && s.length[0] == 12301);
    turned_down(&s, 'T', DUNROSSEL_FULL);
    then(&s, 'W', 4096, 12294);
    every_damage(&s);
}

static void slots(void)
{
    static const char *const words[] = {"", "T", "HT", "THTSHT"};
    slot s;
    printf("slots\n");
    for (size_t i = 0; i < sizeof words / sizeof *words; i++) {
        emptied(&s);
        add_all(&s, words[i], 1);
        every_letter(&s);
        every_tail(&s);
    }
    emptied(&s);
    then(&s, 'I', 0, 1);
    then(&s, 'H', 0, 1);
    then(&s, 'T', 1, 2);
    every_damage(&s);
    add_all(&s, "T", 8 * 625 + 1);
    check("5,001 letters that are one T", s.rest[0] == 1 && s.rest[1] == 2);
    then(&s, 'T', 0, 1); /* S */
    add_all(&s, "HTSHTXSW", 1);
    every_damage(&s);
    by_chance();
    full("HT", "HT", 8190);
    full("T", "SHT", 12283);
    longest_slot();
}

int main(void)
{
    words("normalise", dunrossel_normalise, "SHXSSSW");
    words("phase_free", dunrossel_phase_free, "SHXSSS");
    phase_free();
    longest(dunrossel_normalise, "XHXT", DUNROSSEL_NORMAL);
    longest(dunrossel_phase_free, "XT", DUNROSSEL_PHASE_FREE);
    matrices();
    synthesis();
    rotations();
    triples();
    records();
    circuits();
    slots();
    printf("limits.c: %d wrong\n", wrong);
    return wrong != 0;
}
