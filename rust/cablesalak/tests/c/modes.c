/* The calls that take a mode, the conversions and the workspace, from C: answers, and what every lent place holds. The version on
 * standard output. */
#include "cablesalak_workspace.h"
#include <stdio.h>
#include <stdlib.h>
#include <string.h>

#define PLACES 64
#define GUARD 8

/* Also where NDEBUG is set. */
#define EXPECT(holds) ((holds) ? (void)0 : fail(__LINE__, #holds))

static void fail(int line, const char *what)
{
    fprintf(stderr, "modes.c:%d: %s\n", line, what);
    exit(1);
}

/* A workspace between guards, its memory filled with anything. */
static uint16_t memory[GUARD + CABLESALAK_WORDS(PLACES) + GUARD];

static cablesalak_workspace dirty(void)
{
    memset(memory, 0xA5, sizeof memory);
    return cablesalak_workspace_in(memory + GUARD, PLACES);
}

static bool guarded(void)
{
    bool kept = true;
    for (size_t at = 0; at < GUARD; at++)
        kept = kept && memory[at] == 0xA5A5 && memory[GUARD + CABLESALAK_WORDS(PLACES) + at] == 0xA5A5;
    return kept;
}

/* The lists lie in the memory one after the other, to its end. */
static void laid_out(void)
{
    cablesalak_workspace work = dirty();
    const uint8_t *end = (const uint8_t *)(memory + GUARD + CABLESALAK_WORDS(PLACES));
    EXPECT(work.places == PLACES && work.count == 2 && work.lows == memory + GUARD);
    EXPECT(work.highs == work.lows + PLACES && work.links == work.highs + PLACES && work.heads == work.links + PLACES);
    EXPECT(work.members == work.heads + 2 * PLACES && work.scratch == work.members + 2048);
    EXPECT(work.vars == (uint8_t *)(work.scratch + 4096) && work.struck == work.vars + PLACES && work.struck + 2048 == end);
    EXPECT(CABLESALAK_WORDS(3) == 15 + 2048 + 4096 + 1026);
}

/* Zeros past the count, past the members and their marks, in the scratch list; nothing written outside. */
static bool left(const cablesalak_workspace *work, size_t members)
{
    bool zero = guarded();
    for (size_t k = work->count; k < PLACES; k++)
        zero = zero && work->vars[k] == 0 && work->lows[k] == 0 && work->highs[k] == 0 && work->links[k] == 0;
    for (size_t k = members; k < 2048; k++)
        zero = zero && work->members[k] == 0 && work->struck[k] == 0;
    for (size_t k = 0; k < 4096; k++)
        zero = zero && work->scratch[k] == 0;
    return zero;
}

typedef struct {
    const char *formula, *proof;
    size_t length;
    enum cablesalak_form form;
    bool consequence, in_proof;
    unsigned number;
    size_t place, lines, members;
} row;

#define PROOF(bytes) bytes, sizeof(bytes) - 1
#define ALL_FOUR "p cnf 2 4\n1 2 0\n-1 2 0\n1 -2 0\n-1 -2 0\n"
#define ONE "p cnf 2 1\n1 2 0\n"
/* An odd number of 1, 2, 3 by its clauses; as a RUP line and as a path line. */
#define ODD "p cnf 3 4\n1 2 3 0\n1 -2 -3 0\n-1 2 -3 0\n-1 -2 3 0\n"
#define ODD_ENTRY "\x58\x07\0\0\0\0\0\0\0\x01"

static const row rows[] = {
    {ALL_FOUR, PROOF("\x4E\x02\0\0\x01\0\x52\x02\0\x52\0\0\x45"), CABLESALAK_RECORDS, false, true, 0, 12, 2, 6},
    {ALL_FOUR, PROOF("\x4E\x02\0\0\x01\0\x51\x02\0\x51\0\0\x45"), CABLESALAK_RECORDS, true, true, 0, 12, 2, 6},
    {ALL_FOUR, PROOF("2 0\n0\n"), CABLESALAK_DRAT_TEXT, false, true, 0, 6, 2, 6},
    {ALL_FOUR, PROOF("\x61\x04\0\x61\0"), CABLESALAK_DRAT_BINARY, false, true, 0, 5, 2, 6},
    {ALL_FOUR, PROOF("\x61\x04\0\x61\0"), CABLESALAK_DRAT_BINARY, true, true, 0, 5, 2, 6},
    {ODD, PROOF(ODD_ENTRY "\x52\x02\0\x45"), CABLESALAK_RECORDS, false, true, 19, 10, 0, 4},
    {ODD, PROOF(ODD_ENTRY "\x51\x02\0\x45"), CABLESALAK_RECORDS, false, true, 20, 13, 1, 5},
    {ODD, PROOF(ODD_ENTRY "\x51\x02\0\x45"), CABLESALAK_RECORDS, true, true, 20, 13, 1, 5},
    {"p cnf 64 0\n", PROOF("\x58\xFF\xFF\xFF\xFF\xFF\xFF\xFF\xFF\x01\x51\x02\0"), CABLESALAK_RECORDS, false, true, 23, 0, 0, 0},
    {"p cnf 14 0\n", PROOF("\x58\xFF\x3F\0\0\0\0\0\0\x01\x51\x02\0"), CABLESALAK_RECORDS, false, true, 34, 10, 0, 0},
    {ONE, PROOF("\x4E\x01\0\0\x01\0\x54\x01\x50\x02\0\x45"), CABLESALAK_RECORDS, false, true, 20, 11, 1, 2},
    {ONE, PROOF("\x4E\x01\0\0\x01\0\x54\x01\x50\x02\0\x45"), CABLESALAK_RECORDS, true, true, 33, 8, 0, 1},
    {ONE, PROOF("\x50\x09"), CABLESALAK_RECORDS, true, true, 10, 0, 0, 1},
    {ONE, PROOF("\x50\x09\0"), CABLESALAK_RECORDS, true, true, 33, 0, 0, 1},
    {ONE, PROOF("1 0\n"), CABLESALAK_DRAT_TEXT, false, true, 20, 4, 1, 2},
    {ONE, PROOF("1 0\n"), CABLESALAK_DRAT_TEXT, true, true, 19, 0, 0, 1},
    {ONE, PROOF("\x61\x02\0"), CABLESALAK_DRAT_BINARY, true, true, 19, 0, 0, 1},
    {ONE, PROOF("\x61\x80\0"), CABLESALAK_DRAT_BINARY, false, true, 31, 1, 0, 1},
    {ONE, PROOF("\x61\x06\0"), CABLESALAK_DRAT_BINARY, false, true, 4, 1, 0, 1},
    {ONE, PROOF("\x61\x02"), CABLESALAK_DRAT_BINARY, false, true, 6, 0, 0, 1},
    {"p cnf 2 1\n1 2", PROOF("\x61\x02"), CABLESALAK_DRAT_BINARY, false, false, 6, 10, 0, 0},
    {ONE, PROOF("\n"), CABLESALAK_DRAT_BINARY, false, true, 9, 0, 0, 1},
};

/* The line that a report must give, and its status. */
static void report_of(const row *r, const cablesalak_checked *said)
{
    char wanted[CABLESALAK_LINE + 1];
    uint8_t line[CABLESALAK_LINE];
    int length = snprintf(wanted, sizeof wanted, "%u %zu %zu %llu %zu\n", said->number, said->place, said->lines,
                          (unsigned long long)said->rounds, said->peak);
    cablesalak_workspace work = dirty();
    memset(line, 0xA5, sizeof line);
    cablesalak_told told = cablesalak_workspace_report(&work, true, (const uint8_t *)r->formula, strlen(r->formula), true,
                                                       (const uint8_t *)r->proof, r->length, r->form, r->consequence, line);
    EXPECT(told.length == (size_t)length && memcmp(line, wanted, told.length) == 0 && told.status == (said->number != 0));
    for (size_t at = told.length; at < sizeof line; at++)
        EXPECT(line[at] == 0xA5);
    work.count = said->count;
    EXPECT(left(&work, r->members));
}

static void checks(void)
{
    for (size_t i = 0; i < sizeof rows / sizeof *rows; i++) {
        const row *r = &rows[i];
        cablesalak_workspace work = dirty();
        cablesalak_checked said =
            cablesalak_workspace_check(&work, (const uint8_t *)r->formula, strlen(r->formula), (const uint8_t *)r->proof,
                                       r->length, r->form, r->consequence);
        if (said.number != r->number || said.place != r->place)
            fprintf(stderr, "row %zu: %u at %zu\n", i, said.number, said.place);
        EXPECT(said.number == r->number && said.place == r->place && said.lines == r->lines);
        EXPECT(said.in_proof == r->in_proof && said.count == work.count && left(&work, r->members));
        EXPECT(cablesalak_evaluate(CABLESALAK_TABLE(&work), work.count, 1, 0).yes);
        report_of(r, &said);
    }
}

/* Every form from 2 on is binary; the calls without a mode are those of records and of texts. */
static void forms(void)
{
    const uint8_t *formula = (const uint8_t *)ALL_FOUR, *binary = (const uint8_t *)"\x61\x04\0\x61\0", *text = (const uint8_t *)"2 0 0";
    for (unsigned form = 2; form < 256; form++) {
        cablesalak_workspace work = dirty();
        cablesalak_checked said = cablesalak_check_in(CABLESALAK_TABLE(&work), 9, CABLESALAK_LISTS(&work), formula,
                                                      strlen(ALL_FOUR), binary, 5, (uint8_t)form, form % 2 == 1);
        EXPECT(said.number == 0 && said.place == 5 && said.lines == 2);
    }
    cablesalak_workspace work = dirty();
    cablesalak_checked said = cablesalak_check_text(CABLESALAK_TABLE(&work), 9, CABLESALAK_LISTS(&work), formula,
                                                    strlen(ALL_FOUR), text, 5);
    EXPECT(said.number == 0 && said.lines == 2);
    said = cablesalak_check(CABLESALAK_TABLE(&work), 9, CABLESALAK_LISTS(&work), formula, strlen(ALL_FOUR), text, 5);
    EXPECT(said.number == 9 && said.place == 0);
}

/* 7, 24 and 25 leave all as it is. */
static void nothing_done(void)
{
    static uint8_t longer[65537];
    const uint8_t *formula = (const uint8_t *)ALL_FOUR;
    uint8_t line[CABLESALAK_LINE];
    cablesalak_workspace work = dirty(), one = work;
    one.places = 1;
    cablesalak_checked said = cablesalak_workspace_check(&one, formula, strlen(ALL_FOUR), longer, 0, CABLESALAK_DRAT_TEXT, true);
    EXPECT(said.number == 7 && said.count == 2 && said.peak == 0 && !said.in_proof);
    cablesalak_told told =
        cablesalak_workspace_report(&work, true, longer, sizeof longer, false, longer, 0, CABLESALAK_RECORDS, false, line);
    EXPECT(told.status == 2 && told.length == 15 && memcmp(line, "24 65536 0 0 0\n", 15) == 0);
    told = cablesalak_workspace_report(&work, true, formula, strlen(ALL_FOUR), false, longer, 0, CABLESALAK_DRAT_BINARY, true, line);
    EXPECT(told.status == 2 && told.length == 11 && memcmp(line, "25 0 0 0 0\n", 11) == 0);
    for (size_t at = 0; at < sizeof memory / sizeof *memory; at++)
        EXPECT(memory[at] == 0xA5A5);
}

typedef cablesalak_converted conversion(const uint8_t *, size_t, uint8_t *, size_t);

/* A conversion with so many bytes of output between guards: what it says, what it puts, zeros behind. */
static void converts(conversion *convert, const char *proof, size_t length, size_t room, unsigned number, size_t place,
                     const char *result, size_t result_length)
{
    uint8_t out[64];
    memset(out, 0xA5, sizeof out);
    cablesalak_converted said = convert((const uint8_t *)proof, length, out + GUARD, room);
    EXPECT(said.number == number && said.place == place && said.length == result_length);
    EXPECT(memcmp(out + GUARD, result, result_length) == 0);
    for (size_t at = 0; at < sizeof out; at++)
        if (at < GUARD || GUARD + room <= at)
            EXPECT(out[at] == 0xA5);
        else if (GUARD + result_length <= at)
            EXPECT(out[at] == 0);
}

static void conversions(void)
{
    for (size_t room = 0; room < 12; room++) {
        if (room < 4) {
            converts(cablesalak_to_binary, PROOF("-64 0"), room, 7, 0, "", 0);
            converts(cablesalak_to_text, PROOF("\x61\x81\x01\0"), room, 7, 0, "", 0);
        } else {
            converts(cablesalak_to_binary, PROOF("-64 0"), room, 0, 0, PROOF("\x61\x81\x01\0"));
        }
        converts(cablesalak_to_text, PROOF("\x61\x80\0"), room, 31, 1, "", 0);
        converts(cablesalak_to_text, PROOF("\x61\x01"), room, 31, 1, "", 0);
        converts(cablesalak_to_text, PROOF("\x61\x02\x82\x01"), room, 4, 2, "", 0);
        converts(cablesalak_to_text, PROOF("\x61\x02"), room, 6, 0, "", 0);
        converts(cablesalak_to_text, PROOF("\x64\0\x62"), room, 9, 2, "", 0);
        converts(cablesalak_to_binary, PROOF("1 0 x"), room, 3, 4, "", 0);
        converts(cablesalak_to_binary, PROOF("1 65 0"), room, 4, 2, "", 0);
        converts(cablesalak_to_binary, PROOF("1 0 d 1"), room, 6, 4, "", 0);
        converts(cablesalak_to_binary, PROOF("c 1 0\n"), room, 0, 0, "", 0);
    }
    converts(cablesalak_to_text, PROOF("\x61\x81\x01\0\x64\x02\x03\x02\0"), 21, 0, 0, PROOF("-64 0\nd 1 -1 1 0\n"));
    converts(cablesalak_to_binary, PROOF("c\n-64 0 d 1\t-1 1\r0"), 9, 0, 0, PROOF("\x61\x81\x01\0\x64\x02\x03\x02\0"));
}

int main(void)
{
    laid_out();
    checks();
    forms();
    nothing_done();
    conversions();
    EXPECT(cablesalak_layout_2() == 2);
    printf("%s\n", CABLESALAK_VERSION);
    return 0;
}
