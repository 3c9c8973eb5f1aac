/* A console's slot: letters are added to it one after another, and after each line it says how many bytes their word takes.
 *
 *     tools/archive
 *     cc -Iinclude examples/slot.c target/staticlib/libdunrossel.a -o slot
 *     ./slot 16 <examples/slot.letters              a new slot, of 16 bytes
 *     ./slot 16 slot.kept <examples/slot.letters    goes on with the slot that slot.kept has, and keeps it there
 *
 * Standard input is lines of letters. The slot as it comes and each line give a line on standard output: the bytes of its text,
 * which is the normal word of all letters so far, and how many bytes the slot has left, or by how many the text is over; since=
 * is the line and column, counted from 1, of the letter since which it is. What is kept is the record as it lies in memory, 4096
 * codes and six numbers of eight bytes; where there is no such file, the slot is new.
 *
 * The status is 0 where the text fits when standard input ends, and 1 where it is over. Where a letter or the kept record is
 * refused, a line on standard error says why and where, the status is the refusal's number, and the file is as it was. It is 64
 * for wrong usage, and 74 where something can't be read or written. */
#include "dunrossel.h"

#include <stdio.h>
#include <stdlib.h>

enum { OVER = 1, USAGE = 64, FAILED = 74 };

static struct { uint8_t syllables[4096]; uint64_t rest[6]; } slot = {{0}, {0, 1}}; /* the empty record, whose text is I */
static struct { unsigned long line, column; } at, since;
static uint64_t room;

static void stop(int status, const char *what, const char *reason)
{
    fprintf(stderr, "slot: %s: %s\n", what, reason);
    exit(status);
}

/* Digits and nothing else; so few that they can't pass 64 bits. */
static int number(const char *text, uint64_t *value)
{
    const char *end = text;
    for (*value = 0; *end >= '0' && *end <= '9'; end++) *value = 10 * *value + (uint64_t)(*end - '0');
    return end != text && end - text < 19 && !*end;
}

static void show(uint64_t bytes)
{
    printf("bytes=%lu ", (unsigned long)bytes);
    if (bytes <= room)
        printf("left=%lu\n", (unsigned long)(room - bytes));
    else if (since.line)
        printf("over=%lu since=%lu:%lu\n", (unsigned long)(bytes - room), since.line, since.column);
    else
        printf("over=%lu\n", (unsigned long)(bytes - room));
    if (fflush(stdout) || ferror(stdout)) stop(FAILED, "standard output", "can't be written");
}

static const char *why(uint8_t refusal)
{
    switch (refusal) {
    case DUNROSSEL_LETTER:
        return "refused, 2 Letter: none of I H S X W T";
    case DUNROSSEL_SLOT:
        return "refused, 17 Slot: no letters give this record";
    case DUNROSSEL_FULL:
        return "refused, 18 Full: it needs a 4097th syllable";
    default: /* the header has no other */
        return "refused, by a number that is not known here";
    }
}

static void refuse(uint8_t refusal, uint8_t letter)
{
    fprintf(stderr, "slot: line %lu, column %lu, ", at.line, at.column);
    fprintf(stderr, letter > ' ' && letter <= '~' ? "'%c'" : "byte %d", letter);
    fprintf(stderr, ": %s\n", why(refusal));
    exit(refusal);
}

/* The length with one letter more. */
static uint64_t add(uint8_t letter, uint64_t before)
{
    uint64_t bytes;
    uint8_t refusal = dunrossel_slot_add(letter, slot.syllables, slot.rest, &bytes);
    if (refusal) refuse(refusal, letter);
    if (bytes > room && before <= room) since = at;
    return bytes;
}

static void show_line(uint64_t bytes)
{
    printf("line %lu: ", at.line);
    show(bytes);
}

/* All of standard input; an LF is no letter, and the last may be missing. */
static uint64_t fill(uint64_t bytes)
{
    int next;
    for (at.line = 1; (next = getc(stdin)) != EOF;) {
        if (next == '\n') {
            show_line(bytes);
            at.line++;
            at.column = 0;
        } else {
            at.column++;
            bytes = add((uint8_t)next, bytes);
        }
    }
    if (ferror(stdin)) stop(FAILED, "standard input", "can't be read");
    if (at.column) show_line(bytes);
    return bytes;
}

/* Whether there is such a file. Only its size is tested here: what it says is the library's to refuse. */
static int take(const char *name)
{
    FILE *from = fopen(name, "rb");
    if (!from) return 0;
    int whole = fread(&slot, sizeof slot, 1, from) == 1 && getc(from) == EOF;
    if (ferror(from)) stop(FAILED, name, "can't be read");
    if (!whole) stop(DUNROSSEL_SLOT, name, "refused, 17 Slot: a record has 4144 bytes");
    fclose(from);
    return 1;
}

/* In place, so that a full disk takes nothing from the file; a new one (x) never over one that could not be opened. */
static void keep(const char *name, int there)
{
    FILE *to = fopen(name, there ? "r+b" : "wbx");
    if (!to || fwrite(&slot, sizeof slot, 1, to) != 1 || fclose(to)) stop(FAILED, name, "can't be written");
}

int main(int argc, char **argv)
{
    uint64_t bytes;
    if (argc < 2 || argc > 3 || !number(argv[1], &room))
        stop(USAGE, "usage", "slot ROOM <LETTERS or slot ROOM FILE <LETTERS, ROOM in bytes");
    int there = argc == 3 && take(argv[2]);
    uint8_t refusal = dunrossel_slot_length(slot.syllables, slot.rest, &bytes);
    if (refusal) stop(refusal, there ? argv[2] : "a new slot", why(refusal));
    printf(there ? "kept: " : "new: ");
    show(bytes);
    bytes = fill(bytes);
    if (argc == 3) keep(argv[2], there);
    return bytes > room ? OVER : 0;
}
