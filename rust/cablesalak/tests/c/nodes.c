/* The calls over a list of records beside those over columns: the same answers, and the same in every place. */
#include "cablesalak.h"
#include <stdio.h>
#include <stdlib.h>
#include <string.h>

#define PLACES 64
#define MEMBERS 2048
#define SCRATCH 4096

/* Also where NDEBUG is set. */
#define EXPECT(holds) ((holds) ? (void)0 : fail(__LINE__, #holds))

static void fail(int line, const char *what)
{
    fprintf(stderr, "nodes.c:%d: %s\n", line, what);
    exit(1);
}

static uint8_t vars[PLACES];
static uint16_t lows[PLACES], highs[PLACES];
static uint16_t heads[2][2 * PLACES], links[2][PLACES], members[2][MEMBERS], scratch[2][SCRATCH];
static uint8_t struck[2][MEMBERS];
static cablesalak_node nodes[PLACES];

/* Whatever stands in the lists before. */
static void dirty(void)
{
    memset(vars, 0x5A, sizeof vars);
    memset(lows, 0x5A, sizeof lows);
    memset(highs, 0x5A, sizeof highs);
    memset(heads, 0x5A, sizeof heads);
    memset(links, 0x5A, sizeof links);
    memset(members, 0x5A, sizeof members);
    memset(struck, 0x5A, sizeof struck);
    memset(scratch, 0x5A, sizeof scratch);
    memset(nodes, 0x5A, sizeof nodes);
}

static void same_places(void)
{
    for (size_t i = 0; i < PLACES; i++)
        EXPECT(nodes[i].var == vars[i] && nodes[i].low == lows[i] && nodes[i].high == highs[i]);
    EXPECT(memcmp(heads[0], heads[1], sizeof heads[0]) == 0 && memcmp(links[0], links[1], sizeof links[0]) == 0);
    EXPECT(memcmp(members[0], members[1], sizeof members[0]) == 0);
    EXPECT(memcmp(struck[0], struck[1], sizeof struck[0]) == 0);
    EXPECT(memcmp(scratch[0], scratch[1], sizeof scratch[0]) == 0);
}

/* Both checks in a mode; the number is this one. */
static void check_in(uint8_t form, bool consequence, const char *formula, const char *proof, size_t length, unsigned number)
{
    dirty();
    const uint8_t *text = (const uint8_t *)formula, *bytes = (const uint8_t *)proof;
    cablesalak_checked a = cablesalak_check_in(vars, PLACES, lows, PLACES, highs, PLACES, heads[0], 2 * PLACES, links[0], PLACES, 9,
                                               members[0], MEMBERS, struck[0], MEMBERS, scratch[0], SCRATCH, text,
                                               strlen(formula), bytes, length, form, consequence);
    cablesalak_checked b = cablesalak_check_nodes_in(nodes, PLACES, heads[1], 2 * PLACES, links[1], PLACES, 9, members[1], MEMBERS,
                                                     struck[1], MEMBERS, scratch[1], SCRATCH, text, strlen(formula), bytes,
                                                     length, form, consequence);
    EXPECT(a.number == number && b.number == number);
    EXPECT(a.in_proof == b.in_proof && a.place == b.place && a.lines == b.lines && a.rounds == b.rounds && a.count == b.count &&
           a.peak == b.peak);
    same_places();
}

/* Every form, in the profile and outside. */
static void modes(const char *all)
{
    const char *one = "p cnf 2 1\n1 2 0\n";
    for (int profile = 0; profile < 2; profile++) {
        check_in(CABLESALAK_RECORDS, profile, all, "\x4E\x02\0\0\x01\0\x51\x02\0\x51\0\0\x45", 13, 0);
        check_in(CABLESALAK_RECORDS, profile, "p cnf 14 0\n", "\x58\xFF\x3F\0\0\0\0\0\0\x01\x51\x02\0", 13, 34);
        check_in(CABLESALAK_RECORDS, profile, one, "\x4E\x01\0\0\x01\0\x54\x01\x50\x02\0\x45", 12, profile ? 33 : 20);
        check_in(CABLESALAK_DRAT_TEXT, profile, all, "2 0 d 2 1 0 0", 13, 0);
        check_in(CABLESALAK_DRAT_TEXT, profile, one, "1 0", 3, profile ? 19 : 20);
        check_in(CABLESALAK_DRAT_BINARY, profile, all, "\x61\x04\0\x64\x04\x02\0\x61\0", 9, 0);
        check_in(CABLESALAK_DRAT_BINARY, profile, one, "\x61\x02\0", 3, profile ? 19 : 20);
        check_in(CABLESALAK_DRAT_BINARY, profile, one, "\x61\x80\0", 3, 31);
        check_in(255, profile, one, "\x61\x80\0", 3, 31);
    }
}

/* Both checks with a table of so many places and so many marks; the number is this one. */
static void check(size_t places, size_t marks, const char *formula, const char *proof, size_t length, unsigned number)
{
    dirty();
    const uint8_t *text = (const uint8_t *)formula, *bytes = (const uint8_t *)proof;
    size_t chains = CABLESALAK_HEADS(places);
    cablesalak_checked a = cablesalak_check(vars, places, lows, places, highs, places, heads[0], chains, links[0], places, 9,
                                            members[0], MEMBERS, struck[0], marks, scratch[0], SCRATCH, text,
                                            strlen(formula), bytes, length);
    cablesalak_checked b = cablesalak_check_nodes(nodes, places, heads[1], chains, links[1], places, 9, members[1], MEMBERS,
                                                  struck[1], marks, scratch[1], SCRATCH, text, strlen(formula), bytes, length);
    EXPECT(a.number == number && b.number == number);
    EXPECT(a.in_proof == b.in_proof && a.place == b.place && a.lines == b.lines && a.rounds == b.rounds && a.count == b.count &&
           a.peak == b.peak);
    same_places();
    for (unsigned node = 0; number != 7 && node < 4; node++)
        for (uint64_t word = 0; word < 4; word++) {
            cablesalak_evaluated x = cablesalak_evaluate(vars, places, lows, places, highs, places, heads[0], chains, links[0],
                                                         places, a.count, (uint16_t)node, word);
            cablesalak_evaluated y = cablesalak_evaluate_nodes(nodes, places, heads[1], chains, links[1], places, b.count,
                                                               (uint16_t)node, word);
            EXPECT(x.number == y.number && x.yes == y.yes && x.count == y.count);
        }
}

/* Both calls for "at least k of the set" in the table that a check left, its count handed on; the number is this one. */
static size_t at_least(size_t places, size_t count, uint64_t set, unsigned k, unsigned number)
{
    size_t chains = CABLESALAK_HEADS(places);
    cablesalak_at_least_made a = cablesalak_at_least(vars, places, lows, places, highs, places, heads[0], chains, links[0],
                                                     places, count, set, (uint8_t)k);
    cablesalak_at_least_made b = cablesalak_at_least_nodes(nodes, places, heads[1], chains, links[1], places, count, set,
                                                           (uint8_t)k);
    EXPECT(a.number == number && b.number == number);
    EXPECT(a.node == b.node && a.count == b.count && a.counted == b.counted && a.excluded == b.excluded);
    same_places();
    return b.count;
}

/* "At least" in what a check left: sets of 0 to 64 variables, k at its edges, no room, a wrong count, wrong sizes. */
static void least(const char *formula, const char *proof, size_t length)
{
    const uint64_t sets[] = {0, 1, 6, 0xFF, 0xFFFFFFFF, 0x1FFFFFFFF, UINT64_MAX};
    check(PLACES, MEMBERS, formula, proof, length, 0);
    for (unsigned i = 0; i < sizeof sets / sizeof *sets; i++) {
        size_t count = at_least(PLACES, 8, sets[i], 0, 0);
        EXPECT(count == 8);
        EXPECT(at_least(PLACES, count, sets[i], 255, 0) == 8);
    }
    size_t grown = at_least(PLACES, 8, 0xFF, 4, 0);
    EXPECT(grown == 8 + 5 * 4);
    EXPECT(at_least(PLACES, grown, 0xFF, 4, 0) == grown);
    EXPECT(at_least(PLACES, grown, UINT64_MAX, 32, 23) == grown);
    EXPECT(at_least(PLACES, grown - 1, 0xFF, 4, 26) == grown - 1);
    EXPECT(at_least(1, 2, 0xFF, 4, 7) == 2);
    cablesalak_at_least_made some = cablesalak_at_least_nodes(nodes, PLACES, heads[1], 2 * PLACES, links[1], PLACES, grown,
                                                              0xF, 3);
    EXPECT(some.number == 0 && some.counted && some.excluded == 11);
}

/* After a check with this index: sizes that do not go with the table, and a wrong link. */
static void wrong_index(void)
{
    EXPECT(cablesalak_evaluate_nodes(nodes, PLACES, heads[1], 2 * PLACES, links[1], PLACES, 8, 1, 0).number == 0);
    EXPECT(cablesalak_evaluate_nodes(nodes, PLACES, heads[1], 2 * PLACES - 1, links[1], PLACES, 8, 1, 0).number == 7);
    EXPECT(cablesalak_evaluate_nodes(nodes, PLACES, heads[1], 2 * PLACES, links[1], PLACES - 1, 8, 1, 0).number == 7);
    links[1][PLACES - 1] = 2;
    EXPECT(cablesalak_evaluate_nodes(nodes, PLACES, heads[1], 2 * PLACES, links[1], PLACES, 8, 1, 0).number == 26);
}

int main(void)
{
    const char *all = "p cnf 2 4\n1 2 0\n-1 2 0\n1 -2 0\n-1 -2 0\n";
    const char case_a[] = "\x4E\x02\x00\x00\x01\x00\x52\x02\x00\x52\x00\x00\x45";
    const char strikings[] = "\x4E\x02\x00\x00\x01\x00\x52\x02\x00\x44\x00\x00\x44\x01\x00\x52\x00\x00\x45";
    check(PLACES, MEMBERS, all, case_a, 13, 0);
    wrong_index();
    least(all, case_a, 13);
    check(PLACES, MEMBERS, "p cnf 2 2\n1 2 0\n-1 2 0\n", case_a, 13, 19);
    check(PLACES, MEMBERS, "p cnf 2\n", case_a, 13, 1);
    check(PLACES, MEMBERS, all, case_a, 12, 10);
    check(PLACES, MEMBERS, all, strikings, 19, 0);
    EXPECT(struck[1][0] == 1 && struck[1][1] == 1 && struck[1][2] == 0 && struck[1][MEMBERS - 1] == 0);
    check(PLACES, MEMBERS, all, "\x44\x04\x00", 3, 28);
    check(PLACES, MEMBERS, all, "\x4B\x03\x00\x00\x00\x00\x00\x00\x00\x02\x52\x02\x00\x45", 14, 20);
    check(PLACES, MEMBERS, all, "\x58\x03\x00\x00\x00\x00\x00\x00\x00\x01\x52\x02\x00\x45", 14, 20);
    check(PLACES, MEMBERS, all, "\x58\x03\x00\x00\x00\x00\x00\x00\x00\x02\x45", 11, 29);
    check(PLACES, MEMBERS, all, "\x4B\x04\x00\x00\x00\x00\x00\x00\x00\x02\x45", 11, 12);
    check(3, MEMBERS, all, case_a, 13, 8);
    check(1, MEMBERS, all, case_a, 13, 7);
    check(PLACES, MEMBERS - 1, all, case_a, 13, 7);
    modes(all);
    return 0;
}
