/* Two rule books that share one table, checked call by call, for C and C++ on x86-64 with the System V calling convention (Linux).
 *
 * Link target/staticlib/libbooks_export.a, which `rust/run archives books_export` writes once every function is proved. It needs nothing of
 * libexport.a; the two can be linked together. docs/LINKING.md has the commands, docs/THEOREMS.md what is proved,
 * crates/books_export/src/lib.rt the contracts that the words below render.
 *
 * Contents: results; the opening and a book's call; all lists and both books in one struct, the short way to make these calls.
 *
 * What is lent: as in cablesalak.h, every list as an address and a length, counted in places. An address is aligned for its type and not
 * null, also where the length is 0. A list that a call writes to overlaps no other. The table and its index are those of cablesalak.h.
 * Besides, for each book: its member list with as many marks, and a list `own` with a place for each of the table's, the numbers of the
 * nodes that are its own. What is kept for a book is a struct, passed by value and returned. The library keeps nothing between calls.
 *
 * What may be relied on. From the opening on, pass to each call the table, the index, the lists, the count and both books' structs just as
 * the opening or the last call of either book left them. Then
 *   - a book's calls get the same numbers, places, lines, rounds and peaks whatever the other book's calls are;
 *   - with 0 no assignment satisfies the book's formula;
 *   - the nodes in the member list have the values of the book's clauses and accepted lines.
 * Otherwise a call answers as told here all the same, with 26 where what it is lent does not fit, but its 0 and the nodes of earlier calls
 * say nothing of the formula. Nodes of a table in good order have equal numbers exactly when they have the same value under every
 * assignment, whichever book placed them.
 *
 * Stack: less than 1.625 MiB, whatever the table. Threads: calls at the same time are fine where no list that one of them writes to is lent
 * to another; the calls of two books on one table therefore follow one another. */
#ifndef CABLESALAK_BOOKS_H
#define CABLESALAK_BOOKS_H

#include "cablesalak_numbers.h"
#include <stdbool.h>
#include <stddef.h>
#include <stdint.h>

/* The least sizes of the lent lists; the marks are as many as the member list's places. */
#define CABLESALAK_BOOK_MEMBERS 2048
#define CABLESALAK_BOOK_SCRATCH 4096

/* How far a book is. Every byte above 2 is read as 2. */
enum cablesalak_stage {
    CABLESALAK_STAGE_FORMULA = 0, /* its formula is still to be read */
    CABLESALAK_STAGE_LINES = 1,   /* lines are awaited, or the end */
    CABLESALAK_STAGE_BOUND = 2    /* it is refused, or 0 was given: later calls repeat `number` and `place` */
};

/* What is kept for a book. Every byte may be anything: a struct that no call left is judged by what it holds. */
typedef struct {
    size_t share;      /* its share of places */
    uint8_t stage;     /* how far it is */
    uint8_t number;    /* what binds it; 0 where nothing does */
    size_t place;      /* its place; 0 where nothing binds it */
    uint8_t variables; /* that the header names: at most 64 */
    size_t clauses;    /* at most 1,024 */
    size_t lines;      /* the accepted lines: at most 1,024 */
    uint64_t rounds;   /* their rounds of unit propagation: at most 268,435,456 */
    size_t charge;     /* how many nodes are its own, whoever placed them: at most the share */
    size_t peak;       /* the greatest charge so far, dropped nodes included: at most the share */
    uint8_t refuted;   /* 0 unless an accepted line is the diagram 0 */
} cablesalak_kept;

/* The answer of a book's call. Lines, rounds and peak run on from the book's first call; with 7 and 26 all but the number and the count
 * are 0. */
typedef struct {
    uint8_t number;       /* 35: accepted so far; 0: refuted; else why not */
    size_t place;         /* byte offset in the call's bytes of what is refused, or with 0 of the end record; their length with 35 */
    size_t lines;         /* the book's accepted lines */
    uint64_t rounds;      /* their rounds of unit propagation */
    size_t peak;          /* the book's greatest charge */
    size_t count;         /* the shared table's count after the call: for the caller who lends the table, not for the books */
    cablesalak_kept book; /* what is kept for the book from now on; as lent with 7 and 26 */
} cablesalak_booked;

/* The answer of the opening. */
typedef struct {
    uint8_t number;         /* 35: opened; else why not */
    size_t count;           /* the table's count: 2, or as lent with a refusal */
    cablesalak_kept first;  /* what is kept for the books from now on; as lent with a refusal */
    cablesalak_kept second;
} cablesalak_opening;

#ifdef __cplusplus
extern "C" {
#endif

/* The table and all lists emptied and opened for two books with these shares.
 *
 * Tests, in this order: 7, the columns are of one length, 2 to 65,536, with twice as many heads and as many links, each member list has
 * 2,048 places or more and its marks just as many, each list `own` has a place for each of the table's, the scratch list has 4,096 or more;
 * 32, the shares' sum plus 2 is at most the table's places. Neither the count nor the two structs nor what the lists hold is judged.
 * Gives 7, 32, 35.
 *
 * With 35 all lists hold zeros and the count is 2. A refusal changes nothing. */
cablesalak_opening cablesalak_open(
    uint8_t *vars, size_t vars_length,
    uint16_t *lows, size_t lows_length,
    uint16_t *highs, size_t highs_length,
    uint16_t *heads, size_t heads_length,
    uint16_t *links, size_t links_length,
    uint16_t *first_own, size_t first_own_length,
    uint16_t *first_members, size_t first_members_length,
    uint8_t *first_struck, size_t first_struck_length,
    uint16_t *second_own, size_t second_own_length,
    uint16_t *second_members, size_t second_members_length,
    uint8_t *second_struck, size_t second_struck_length,
    uint16_t *scratch, size_t scratch_length,
    size_t count,
    cablesalak_kept first, cablesalak_kept second,
    size_t first_share, size_t second_share);

/* A book's call: the first one reads its formula (the bytes of a DIMACS CNF file), each later one a whole line, with the records before it,
 * or the end. Only the book's own lists are lent, and the other book's are not needed.
 *
 * Tests, in this order:
 *   7   the sizes, as above.
 *   26  the table is in good order, its index included; the book's members (the first clauses + lines places of its list) are below the
 *       count and their marks at most 1; the kept numbers are at most what is told at cablesalak_kept; the share plus 2 is at most the
 *       table's places; the book's own nodes and its members fit its share; there are as many free places as its share less its charge.
 *   then the bytes are judged as cablesalak_check judges them in a table of the share plus 2 places: 8 and 23 are given where the charge
 *       would pass the share, whoever placed a node. Bytes after a line are 11, at the first of them, just after 10. A call with neither
 *       line nor end is 10, at its length.
 * Gives 0 to 23, 26, 28, 29, 34, 35; in the first call 1 to 8, 26 and 35 alone.
 *
 * What it leaves:
 *   35       the nodes of the clauses, or of the line's entries, are in the shared table; those that were there are found again.
 *   0, and each refusal but 7 and 26   the table as it was; of a refused formula no member, else the members as they were; marks that the
 *            call set stay. From now on each call of this book gives the same five numbers, whatever its bytes, and changes nothing.
 *   7 and 26 everything as it was: neither binds a later call.
 * Places beyond the members, beyond their marks, beyond the charge in `own`, and the scratch list hold zeros after a call that changes
 * anything. */
cablesalak_booked cablesalak_book(
    uint8_t *vars, size_t vars_length,
    uint16_t *lows, size_t lows_length,
    uint16_t *highs, size_t highs_length,
    uint16_t *heads, size_t heads_length,
    uint16_t *links, size_t links_length,
    uint16_t *own, size_t own_length,
    uint16_t *members, size_t members_length,
    uint8_t *struck, size_t struck_length,
    uint16_t *scratch, size_t scratch_length,
    size_t count,
    cablesalak_kept book,
    const uint8_t *bytes, size_t bytes_length);

#ifdef __cplusplus
}
#endif

/* ---- All lists and both books in one struct: each call gets what the last one left.
 *
 *     static uint16_t memory[CABLESALAK_BOOKS_WORDS(4096)];
 *     cablesalak_books books = cablesalak_books_in(memory, 4096);
 *     uint8_t opened = cablesalak_books_open(&books, 2000, 1500);
 *     cablesalak_booked said = cablesalak_books_call(&books, false, formula, formula_length); */

/* How many words of memory they take. */
#define CABLESALAK_BOOKS_WORDS(places) \
    (7 * (size_t)(places) + 2 * CABLESALAK_BOOK_MEMBERS + CABLESALAK_BOOK_SCRATCH \
     + ((size_t)(places) + 2 * CABLESALAK_BOOK_MEMBERS + 1) / 2)

/* The lists of one book, and what is kept for it. */
typedef struct {
    uint16_t *own, *members;
    uint8_t *struck;
    cablesalak_kept kept;
} cablesalak_book_lists;

typedef struct {
    size_t places, count; /* of the table */
    uint16_t *lows, *highs, *heads, *links, *scratch;
    uint8_t *vars;
    cablesalak_book_lists book[2]; /* of the first book and of the second */
} cablesalak_books;

/* The lists of a table with so many places in CABLESALAK_BOOKS_WORDS(places) words. What they hold does not matter before the opening. */
static inline cablesalak_books cablesalak_books_in(uint16_t *memory, size_t places)
{
    static const cablesalak_kept none = {0, 0, 0, 0, 0, 0, 0, 0, 0, 0, 0};
    cablesalak_books books;
    books.places = places;
    books.count = 2;
    books.lows = memory;
    books.highs = books.lows + places;
    books.links = books.highs + places;
    books.heads = books.links + places;
    books.book[0].own = books.heads + 2 * places;
    books.book[1].own = books.book[0].own + places;
    books.book[0].members = books.book[1].own + places;
    books.book[1].members = books.book[0].members + CABLESALAK_BOOK_MEMBERS;
    books.scratch = books.book[1].members + CABLESALAK_BOOK_MEMBERS;
    books.vars = (uint8_t *)(books.scratch + CABLESALAK_BOOK_SCRATCH);
    books.book[0].struck = books.vars + places;
    books.book[1].struck = books.book[0].struck + CABLESALAK_BOOK_MEMBERS;
    books.book[0].kept = none;
    books.book[1].kept = none;
    return books;
}

/* The lists of the table, and those of a book, as arguments. */
#define CABLESALAK_BOOKS_TABLE(books) \
    (books)->vars, (books)->places, (books)->lows, (books)->places, (books)->highs, (books)->places, (books)->heads, \
        2 * (books)->places, (books)->links, (books)->places
#define CABLESALAK_BOOKS_LISTS(books, which) \
    (books)->book[which].own, (books)->places, (books)->book[which].members, CABLESALAK_BOOK_MEMBERS, (books)->book[which].struck, \
        CABLESALAK_BOOK_MEMBERS

/* cablesalak_open. Gives 7, 32, 35. */
static inline uint8_t cablesalak_books_open(cablesalak_books *books, size_t first_share, size_t second_share)
{
    cablesalak_opening said = cablesalak_open(
        CABLESALAK_BOOKS_TABLE(books), CABLESALAK_BOOKS_LISTS(books, 0), CABLESALAK_BOOKS_LISTS(books, 1), books->scratch,
        CABLESALAK_BOOK_SCRATCH, books->count, books->book[0].kept, books->book[1].kept, first_share, second_share);
    books->count = said.count;
    books->book[0].kept = said.first;
    books->book[1].kept = said.second;
    return said.number;
}

/* cablesalak_book of the first book (`second` false) or of the second. */
static inline cablesalak_booked cablesalak_books_call(cablesalak_books *books, bool second, const uint8_t *bytes, size_t bytes_length)
{
    const int which = second ? 1 : 0;
    cablesalak_booked said = cablesalak_book(
        CABLESALAK_BOOKS_TABLE(books), CABLESALAK_BOOKS_LISTS(books, which), books->scratch, CABLESALAK_BOOK_SCRATCH, books->count,
        books->book[which].kept, bytes, bytes_length);
    books->count = said.count;
    books->book[which].kept = said.book;
    return said;
}

/* The layout that the archive was compiled with. */
#if defined(__cplusplus) ? __cplusplus >= 201103L : __STDC_VERSION__ >= 201112L
#ifdef __cplusplus
#define CABLESALAK_BOOKS_LAYOUT(holds) static_assert(holds, "not the archive's layout")
#else
#define CABLESALAK_BOOKS_LAYOUT(holds) _Static_assert(holds, "not the archive's layout")
#endif
CABLESALAK_BOOKS_LAYOUT(sizeof(size_t) == 8 && sizeof(bool) == 1);
CABLESALAK_BOOKS_LAYOUT(sizeof(cablesalak_kept) == 80 && offsetof(cablesalak_kept, share) == 0);
CABLESALAK_BOOKS_LAYOUT(offsetof(cablesalak_kept, stage) == 8 && offsetof(cablesalak_kept, number) == 9);
CABLESALAK_BOOKS_LAYOUT(offsetof(cablesalak_kept, place) == 16 && offsetof(cablesalak_kept, variables) == 24);
CABLESALAK_BOOKS_LAYOUT(offsetof(cablesalak_kept, clauses) == 32 && offsetof(cablesalak_kept, lines) == 40);
CABLESALAK_BOOKS_LAYOUT(offsetof(cablesalak_kept, rounds) == 48 && offsetof(cablesalak_kept, charge) == 56);
CABLESALAK_BOOKS_LAYOUT(offsetof(cablesalak_kept, peak) == 64 && offsetof(cablesalak_kept, refuted) == 72);
CABLESALAK_BOOKS_LAYOUT(sizeof(cablesalak_booked) == 128 && offsetof(cablesalak_booked, number) == 0);
CABLESALAK_BOOKS_LAYOUT(offsetof(cablesalak_booked, place) == 8 && offsetof(cablesalak_booked, lines) == 16);
CABLESALAK_BOOKS_LAYOUT(offsetof(cablesalak_booked, rounds) == 24 && offsetof(cablesalak_booked, peak) == 32);
CABLESALAK_BOOKS_LAYOUT(offsetof(cablesalak_booked, count) == 40 && offsetof(cablesalak_booked, book) == 48);
CABLESALAK_BOOKS_LAYOUT(sizeof(cablesalak_opening) == 176 && offsetof(cablesalak_opening, number) == 0);
CABLESALAK_BOOKS_LAYOUT(offsetof(cablesalak_opening, count) == 8 && offsetof(cablesalak_opening, first) == 16);
CABLESALAK_BOOKS_LAYOUT(offsetof(cablesalak_opening, second) == 96);
#undef CABLESALAK_BOOKS_LAYOUT
#endif

#endif
