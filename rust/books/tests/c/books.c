/* Both calls from C, over memory between guards: sessions, what is shared, 7, 26 and 32. Prints nothing; ends with the line of the first
 * expectation that fails. */
#include "cablesalak_books.h"
#include <stdio.h>
#include <string.h>

#define EXPECT(holds) \
    do { \
        if (!(holds)) { \
            fprintf(stderr, "%s:%d: %s\n", __FILE__, __LINE__, #holds); \
            return 1; \
        } \
    } while (0)

#define PLACES 22
#define GUARD 0xA5
#define GUARDS 64

static const char A[] = "p cnf 2 4\n1 2 0\n-1 2 0\n1 -2 0\n-1 -2 0\n";
static const uint8_t two[] = {0x4E, 2, 0, 0, 1, 0, 0x52, 2, 0}, zero[] = {0x52, 0, 0}, end[] = {0x45};

static struct {
    uint8_t before[GUARDS];
    uint16_t words[CABLESALAK_BOOKS_WORDS(PLACES)];
    uint8_t after[GUARDS];
} memory;

static bool guarded(void)
{
    for (size_t at = 0; at < GUARDS; at++)
        if (memory.before[at] != GUARD || memory.after[at] != GUARD)
            return false;
    return true;
}

/* Whether the answer is these five numbers, and nothing outside the memory was written. */
static bool says(cablesalak_booked said, unsigned number, size_t place, size_t lines, uint64_t rounds, size_t peak)
{
    return said.number == number && said.place == place && said.lines == lines && said.rounds == rounds && said.peak == peak
        && guarded();
}

static bool same(cablesalak_kept left, cablesalak_kept right)
{
    return left.share == right.share && left.stage == right.stage && left.number == right.number && left.place == right.place
        && left.variables == right.variables && left.clauses == right.clauses && left.lines == right.lines
        && left.rounds == right.rounds && left.charge == right.charge && left.peak == right.peak && left.refuted == right.refuted;
}

/* Both books have case A; the first is refuted, the second has no line of its own. */
static int session(cablesalak_books *books)
{
    EXPECT(cablesalak_books_open(books, 10, 11) == CABLESALAK_SHARES_DO_NOT_FIT && guarded());
    EXPECT(cablesalak_books_open(books, 10, 10) == CABLESALAK_ACCEPTED_SO_FAR && guarded());
    EXPECT(books->count == 2 && books->book[0].kept.share == 10 && books->book[1].kept.stage == CABLESALAK_STAGE_FORMULA);
    EXPECT(says(cablesalak_books_call(books, false, (const uint8_t *)A, sizeof A - 1), 35, 38, 0, 0, 6));
    EXPECT(says(cablesalak_books_call(books, true, (const uint8_t *)A, sizeof A - 1), 35, 38, 0, 0, 6));
    EXPECT(books->count == 8 && books->book[0].kept.charge == 6 && books->book[1].kept.clauses == 4);
    EXPECT(says(cablesalak_books_call(books, false, two, sizeof two), 35, 9, 1, 0, 8));
    EXPECT(says(cablesalak_books_call(books, false, zero, sizeof zero), 35, 3, 2, 1, 8));
    EXPECT(books->book[0].kept.refuted == 1 && books->book[0].kept.stage == CABLESALAK_STAGE_LINES);
    EXPECT(says(cablesalak_books_call(books, true, zero, sizeof zero), 19, 0, 0, 0, 6));
    EXPECT(says(cablesalak_books_call(books, true, two, sizeof two), 19, 0, 0, 0, 6));
    EXPECT(says(cablesalak_books_call(books, false, end, sizeof end), 0, 0, 2, 1, 8));
    EXPECT(says(cablesalak_books_call(books, false, zero, 0), 0, 0, 2, 1, 8));
    EXPECT(books->book[1].kept.stage == CABLESALAK_STAGE_BOUND && books->book[1].kept.number == 19);
    return 0;
}

/* 26 and 7 leave what is lent and what is kept, and bind nothing. */
static int refusals(cablesalak_books *books)
{
    EXPECT(cablesalak_books_open(books, 10, 10) == CABLESALAK_ACCEPTED_SO_FAR);
    EXPECT(says(cablesalak_books_call(books, true, (const uint8_t *)A, sizeof A - 1), 35, 38, 0, 0, 6));
    cablesalak_books changed = *books;
    changed.book[1].kept.peak = 11;
    changed.book[1].kept.refuted = 200;
    EXPECT(says(cablesalak_books_call(&changed, true, two, sizeof two), CABLESALAK_NOT_IN_ORDER, 0, 0, 0, 0));
    EXPECT(changed.book[1].kept.peak == 11 && changed.book[1].kept.stage == CABLESALAK_STAGE_LINES);
    EXPECT(changed.book[1].kept.refuted == 200 && changed.count == 8);
    cablesalak_booked said = cablesalak_book(
        CABLESALAK_BOOKS_TABLE(books), CABLESALAK_BOOKS_LISTS(books, 1), books->scratch, CABLESALAK_BOOK_SCRATCH - 1, books->count,
        books->book[1].kept, two, sizeof two);
    EXPECT(says(said, CABLESALAK_WRONG_SIZE, 0, 0, 0, 0) && said.count == 8 && same(said.book, books->book[1].kept));
    cablesalak_opening opening = cablesalak_open(
        CABLESALAK_BOOKS_TABLE(books), CABLESALAK_BOOKS_LISTS(books, 0), books->book[1].own, PLACES - 1, books->book[1].members,
        CABLESALAK_BOOK_MEMBERS, books->book[1].struck, CABLESALAK_BOOK_MEMBERS, books->scratch, CABLESALAK_BOOK_SCRATCH, books->count,
        books->book[0].kept, changed.book[1].kept, 1, 1);
    EXPECT(opening.number == CABLESALAK_WRONG_SIZE && opening.count == 8 && same(opening.second, changed.book[1].kept) && guarded());
    EXPECT(says(cablesalak_books_call(books, true, two, sizeof two), 35, 9, 1, 0, 8));
    return 0;
}

int main(void)
{
    memset(&memory, GUARD, sizeof memory);
    cablesalak_books books = cablesalak_books_in(memory.words, PLACES);
    return session(&books) || refusals(&books);
}
