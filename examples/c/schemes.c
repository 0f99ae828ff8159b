/* schemes PLACES SHARE FORMULA PROOF SHARE FORMULA PROOF: two schemes' rule books on one table of so many places, each with its share of them.
 * The formulas are read first, then a line or the end of either proof in turn. For each call it prints `BOOK number place lines rounds peak`,
 * and at the end `table PLACES taken COUNT`. It ends with 0 where both formulas are refuted, 1 where one is not or the table is not opened, 2
 * where a file was not taken or the use is wrong, 3 where a line could not be written. A refusal's meaning goes to standard error. */
#include "cablesalak_books.h"
#include <stdio.h>
#include <stdlib.h>

#define LONGEST 65536
#define MOST_PLACES 65536

/* A file's bytes, with room for one more than it may have, so that a file that is too long is noticed. Static, so that they take no stack. */
typedef struct {
    uint8_t bytes[LONGEST + 1];
    size_t length, read; /* how much of it has been passed to a call */
} text;

static text formula[2], proof[2];
static uint16_t memory[CABLESALAK_BOOKS_WORDS(MOST_PLACES)];
static cablesalak_books books;

/* Whether the file could be read and is not too long. */
static bool read_text(const char *name, text *into)
{
    FILE *file = fopen(name, "rb");
    if (!file)
        return false;
    into->length = fread(into->bytes, 1, sizeof into->bytes, file);
    bool failed = ferror(file) || into->length > LONGEST;
    fclose(file);
    return !failed;
}

/* Whether the word is a number of at most `most`. */
static bool read_number(const char *word, size_t most, size_t *into)
{
    char *end;
    unsigned long long number = strtoull(word, &end, 10);
    *into = (size_t)number;
    return *word >= '0' && *word <= '9' && !*end && number <= most;
}

/* How many bytes from `at` on are a line with the records before it; all of them where there is no line. */
static size_t line_length(const text *from, size_t at)
{
    size_t start = at;
    while (at < from->length) {
        switch (from->bytes[at]) {
        case 0x4E: at += 6; break;
        case 0x58: case 0x4B: at += 10; break;
        case 0x54: case 0x46: at += 2; break;
        case 0x44: at += 3; break;
        case 0x52: case 0x50: case 0x51: return at + 3 < from->length ? at + 3 - start : from->length - start;
        default: return from->length - start;
        }
    }
    return from->length - start;
}

/* Makes a call and prints its answer: whether it could be printed. A refusal is explained once. */
static bool call(bool second, const uint8_t *bytes, size_t length)
{
    bool bound = books.book[second].kept.stage >= CABLESALAK_STAGE_BOUND;
    cablesalak_booked said = cablesalak_books_call(&books, second, bytes, length);
    bool fine = said.number == CABLESALAK_REFUTED || said.number == CABLESALAK_ACCEPTED_SO_FAR;
    if (!bound && !fine)
        fprintf(stderr, "%c refused: %s\n", second ? 'B' : 'A', cablesalak_meaning(said.number));
    return printf("%c %u %zu %zu %llu %zu\n", second ? 'B' : 'A', said.number, said.place, said.lines, (unsigned long long)said.rounds,
                  said.peak) > 0;
}

/* Whether the book is refuted. */
static bool refuted(bool second)
{
    const cablesalak_kept *kept = &books.book[second].kept;
    return kept->stage == CABLESALAK_STAGE_BOUND && kept->number == CABLESALAK_REFUTED;
}

int main(int argc, char **argv)
{
    size_t places, shares[2];
    bool taken = argc == 8 && read_number(argv[1], MOST_PLACES, &places);
    for (int which = 0; which < 2 && taken; which++)
        taken = read_number(argv[2 + 3 * which], SIZE_MAX, &shares[which]) && read_text(argv[3 + 3 * which], &formula[which])
            && read_text(argv[4 + 3 * which], &proof[which]);
    if (!taken) {
        fputs("schemes PLACES SHARE FORMULA PROOF SHARE FORMULA PROOF: at most 65,536 places, files of at most 65,536 bytes\n", stderr);
        return 2;
    }
    books = cablesalak_books_in(memory, places);
    uint8_t opened = cablesalak_books_open(&books, shares[0], shares[1]);
    if (opened != CABLESALAK_ACCEPTED_SO_FAR) {
        fprintf(stderr, "not opened: %s\n", cablesalak_meaning(opened));
        return 1;
    }
    bool written = call(false, formula[0].bytes, formula[0].length) && call(true, formula[1].bytes, formula[1].length);
    while (written && (proof[0].read < proof[0].length || proof[1].read < proof[1].length))
        for (int which = 0; which < 2 && written; which++) {
            text *from = &proof[which];
            size_t length = line_length(from, from->read);
            if (from->read < from->length)
                written = call(which, from->bytes + from->read, length);
            from->read += length;
        }
    if (!written || printf("table %zu taken %zu\n", places, books.count) < 0 || fflush(stdout) != 0)
        return 3;
    return refuted(false) && refuted(true) ? 0 : 1;
}
