/* Every call from C, as the header declares it: answers, what the lists hold, and the numbers' meanings on standard output. */
#include "cablesalak.h"
#include <stdio.h>
#include <stdlib.h>
#include <string.h>

#define PLACES 7
#define OF_SIZE(t, n) (t)->vars, n, (t)->lows, n, (t)->highs, n, (t)->heads, 2 * n, (t)->links, n
#define LISTS(t) OF_SIZE(t, PLACES)

/* Also where NDEBUG is set. */
#define EXPECT(holds) ((holds) ? (void)0 : fail(__LINE__, #holds))

static void fail(int line, const char *what)
{
    fprintf(stderr, "calls.c:%d: %s\n", line, what);
    exit(1);
}

typedef struct {
    uint8_t vars[PLACES];
    uint16_t lows[PLACES], highs[PLACES], heads[CABLESALAK_HEADS(PLACES)], links[CABLESALAK_LINKS(PLACES)];
} table;

/* The index of the nodes below the count, in a table of so many places. */
static void make_index(table *t, size_t places, size_t count)
{
    memset(t->heads, 0, sizeof t->heads);
    memset(t->links, 0, sizeof t->links);
    for (size_t k = 2; k < count; k++) {
        size_t chain = cablesalak_chain(t->vars[k], t->lows[k], t->highs[k], CABLESALAK_HEADS(places));
        t->links[k] = t->heads[chain];
        t->heads[chain] = (uint16_t)k;
    }
}

/* x2, not-x2, x1 xor x2 and x1 as nodes 2 to 5, and one free place. */
static table case_g(void)
{
    table t = {{0, 0, 2, 2, 1, 1, 0}, {0, 0, 0, 1, 2, 0, 0}, {0, 0, 1, 0, 3, 1, 0}, {0}, {0}};
    make_index(&t, PLACES, 6);
    return t;
}

static bool same(const table *t, const table *u)
{
    return memcmp(t->vars, u->vars, sizeof t->vars) == 0 && memcmp(t->lows, u->lows, sizeof t->lows) == 0 &&
           memcmp(t->highs, u->highs, sizeof t->highs) == 0 && memcmp(t->heads, u->heads, sizeof t->heads) == 0 &&
           memcmp(t->links, u->links, sizeof t->links) == 0;
}

/* Whether the index is that of the nodes below the count. */
static bool is_indexed(const table *t, size_t count)
{
    table u = *t;
    make_index(&u, PLACES, count);
    return same(t, &u);
}

static void is(cablesalak_single said, unsigned number, unsigned node, size_t count)
{
    EXPECT(said.number == number);
    EXPECT(said.node == node);
    EXPECT(said.count == count);
}

static void evaluations(void)
{
    table t = case_g();
    cablesalak_evaluated said = cablesalak_evaluate(LISTS(&t), 6, 4, 1);
    EXPECT(said.number == 0 && said.yes && said.count == 6);
    said = cablesalak_evaluate(LISTS(&t), 6, 4, 0xFFFFFFFFFFFFFFFFu);
    EXPECT(said.number == 0 && !said.yes && said.count == 6);
    said = cablesalak_evaluate(LISTS(&t), 6, 6, 1);
    EXPECT(said.number == CABLESALAK_NO_SUCH_NODE && !said.yes && said.count == 6);
    said = cablesalak_evaluate(LISTS(&t), 5, 1, 1);
    EXPECT(said.number == CABLESALAK_NOT_IN_ORDER && !said.yes && said.count == 5);
    said = cablesalak_evaluate(t.vars, PLACES, t.lows, PLACES - 1, t.highs, PLACES, t.heads, 2 * PLACES, t.links, PLACES, SIZE_MAX, 1, 1);
    EXPECT(said.number == CABLESALAK_WRONG_SIZE && !said.yes && said.count == SIZE_MAX);
    said = cablesalak_evaluate(t.vars, PLACES, t.lows, PLACES, t.highs, PLACES, t.heads, 2 * PLACES - 1, t.links, PLACES, 6, 1, 1);
    EXPECT(said.number == CABLESALAK_WRONG_SIZE && !said.yes && said.count == 6);
    t.links[6] = 2;
    said = cablesalak_evaluate(LISTS(&t), 6, 4, 1);
    EXPECT(said.number == CABLESALAK_NOT_IN_ORDER && !said.yes && said.count == 6);
}

static void granted(void)
{
    table t = case_g();
    is(cablesalak_conjunction(LISTS(&t), 6, 2, 3), 0, 0, 6);
    is(cablesalak_negation(LISTS(&t), 6, 2), 0, 3, 6);
    is(cablesalak_cofactor(LISTS(&t), 6, 5, 4), 0, 5, 6);
    is(cablesalak_cofactor_literals(LISTS(&t), 6, 4, 1, 0), 0, 3, 6);
    is(cablesalak_cofactor_literals(LISTS(&t), 6, 4, 0, 1), 0, 2, 6);
    is(cablesalak_cofactor(LISTS(&t), 6, 2, 4), 0, 6, 7);
    EXPECT(t.vars[6] == 1 && t.lows[6] == 1 && t.highs[6] == 0 && is_indexed(&t, 7));
}

static void is_least(cablesalak_at_least_made said, unsigned number, unsigned node, size_t count, bool counted, uint64_t excluded)
{
    EXPECT(said.number == number);
    EXPECT(said.node == node);
    EXPECT(said.count == count);
    EXPECT(said.counted == counted);
    EXPECT(said.excluded == excluded);
}

/* "At least one of 1, 2" takes the free place; what is a constant, or there already, takes none. */
static void at_least(void)
{
    table t = case_g();
    is_least(cablesalak_at_least(LISTS(&t), 6, 2, 1), 0, 2, 6, true, 1);
    is_least(cablesalak_at_least(LISTS(&t), 6, 3, 1), 0, 6, 7, true, 1);
    EXPECT(t.vars[6] == 1 && t.lows[6] == 2 && t.highs[6] == 1 && is_indexed(&t, 7));
    table before = t;
    is_least(cablesalak_at_least(LISTS(&t), 7, 3, 0), 0, 1, 7, true, 0);
    is_least(cablesalak_at_least(LISTS(&t), 7, 0, 1), 0, 0, 7, true, 1);
    is_least(cablesalak_at_least(LISTS(&t), 7, 0xFFFFFFFFu, 255), 0, 0, 7, true, 4294967296u);
    is_least(cablesalak_at_least(LISTS(&t), 7, 0x1FFFFFFFFu, 34), 0, 0, 7, false, 0);
    is_least(cablesalak_at_least(LISTS(&t), 7, 0xFFFFFFFFFFFFFFFFu, 0), 0, 1, 7, false, 0);
    /* "1 and 2" is no node, and there is no place. */
    is_least(cablesalak_at_least(LISTS(&t), 7, 3, 2), CABLESALAK_TABLE_FULL, 0, 7, false, 0);
    is_least(cablesalak_at_least(LISTS(&t), 6, 3, 1), CABLESALAK_NOT_IN_ORDER, 0, 6, false, 0);
    is_least(cablesalak_at_least(OF_SIZE(&t, 1), 9, 3, 1), CABLESALAK_WRONG_SIZE, 0, 9, false, 0);
    EXPECT(same(&t, &before));
}

static void refused(void)
{
    table t = case_g(), before = t;
    is(cablesalak_conjunction(LISTS(&t), 6, 6, 2), CABLESALAK_NO_SUCH_NODE, 0, 6);
    is(cablesalak_negation(LISTS(&t), 7, 2), CABLESALAK_NOT_IN_ORDER, 0, 7);
    is(cablesalak_cofactor(LISTS(&t), 6, 2, 0), CABLESALAK_COFACTOR_BY_ZERO, 0, 6);
    is(cablesalak_cofactor_literals(LISTS(&t), 6, 2, 3, 2), CABLESALAK_VARIABLE_TWICE, 0, 6);
    is(cablesalak_negation(OF_SIZE(&t, 1), 9, 4), CABLESALAK_WRONG_SIZE, 0, 9);
    EXPECT(same(&t, &before));
    /* A table of six places has other chains. */
    is(cablesalak_negation(OF_SIZE(&t, 6), 6, 4), CABLESALAK_NOT_IN_ORDER, 0, 6);
    EXPECT(same(&t, &before));
    make_index(&t, 6, 6);
    before = t;
    is(cablesalak_negation(OF_SIZE(&t, 6), 6, 4), CABLESALAK_TABLE_FULL, 0, 6);
    EXPECT(same(&t, &before));
}

/* Wrong sizes and a wrong index, of each call that makes nodes. */
static void wrong_index(void)
{
    table t = case_g();
    t.heads[cablesalak_chain(1, 2, 3, CABLESALAK_HEADS(PLACES))] = 0;
    table before = t;
    is(cablesalak_conjunction(LISTS(&t), 6, 2, 3), CABLESALAK_NOT_IN_ORDER, 0, 6);
    is(cablesalak_negation(LISTS(&t), 6, 2), CABLESALAK_NOT_IN_ORDER, 0, 6);
    is(cablesalak_cofactor(LISTS(&t), 6, 2, 0), CABLESALAK_NOT_IN_ORDER, 0, 6);
    is(cablesalak_cofactor_literals(LISTS(&t), 6, 2, 3, 2), CABLESALAK_NOT_IN_ORDER, 0, 6);
    is_least(cablesalak_at_least(LISTS(&t), 6, 3, 1), CABLESALAK_NOT_IN_ORDER, 0, 6, false, 0);
    EXPECT(same(&t, &before));
#define SHORT_LINKS (t.vars), PLACES, t.lows, PLACES, t.highs, PLACES, t.heads, 2 * PLACES, t.links, PLACES - 1
    is(cablesalak_conjunction(SHORT_LINKS, 6, 2, 3), CABLESALAK_WRONG_SIZE, 0, 6);
    is(cablesalak_negation(SHORT_LINKS, 6, 2), CABLESALAK_WRONG_SIZE, 0, 6);
    is(cablesalak_cofactor(SHORT_LINKS, 6, 2, 0), CABLESALAK_WRONG_SIZE, 0, 6);
    is(cablesalak_cofactor_literals(SHORT_LINKS, 6, 2, 3, 2), CABLESALAK_WRONG_SIZE, 0, 6);
    is_least(cablesalak_at_least(SHORT_LINKS, 6, 3, 1), CABLESALAK_WRONG_SIZE, 0, 6, false, 0);
    EXPECT(same(&t, &before));
}

#define FORMULA "p cnf 2 4\n1 2 0\n-1 2 0\n1 -2 0\n-1 -2 0\n"
static const uint8_t proof[] = {0x4E, 2, 0, 0, 1, 0, 0x52, 2, 0, 0x52, 0, 0, 0x45};
/* Clauses 0 and 1 struck out once the first line has used them; then clause 1 again. */
static const uint8_t strikings[] = {0x4E, 2, 0, 0, 1, 0, 0x52, 2, 0, 0x44, 0, 0, 0x44, 1, 0, 0x52, 0, 0, 0x45};
static const uint8_t twice[] = {0x44, 1, 0, 0x44, 1, 0};
/* "At least one of 2" in place of the first line's node, and "an odd number of 2" with a parity byte of 2. */
static const uint8_t least[] = {0x4B, 2, 0, 0, 0, 0, 0, 0, 0, 1, 0x52, 2, 0, 0x52, 0, 0, 0x45};
static const uint8_t parity[] = {0x58, 2, 0, 0, 0, 0, 0, 0, 0, 2};
static uint8_t vars[64], struck[2049];
static uint16_t lows[64], highs[64], heads[128], links[64], members[2048], scratch[4096];

static void dirty(void)
{
    memset(vars, 0xA5, sizeof vars);
    memset(lows, 0xA5, sizeof lows);
    memset(highs, 0xA5, sizeof highs);
    memset(heads, 0xA5, sizeof heads);
    memset(links, 0xA5, sizeof links);
    memset(members, 0xA5, sizeof members);
    memset(struck, 0xA5, sizeof struck);
    memset(scratch, 0xA5, sizeof scratch);
}

static cablesalak_checked check_indexed(size_t heads_length, size_t links_length, size_t struck_length, size_t scratch_length,
                                        const uint8_t *lines, size_t length)
{
    dirty();
    return cablesalak_check(vars, 64, lows, 64, highs, 64, heads, heads_length, links, links_length, 9, members, 2048,
                            struck, struck_length, scratch, scratch_length, (const uint8_t *)FORMULA, strlen(FORMULA),
                            lines, length);
}

static cablesalak_checked check(size_t struck_length, size_t scratch_length, const uint8_t *lines, size_t length)
{
    return check_indexed(128, 64, struck_length, scratch_length, lines, length);
}

/* A DRAT text as the proof of a formula. */
static cablesalak_checked check_text(size_t scratch_length, const char *formula, const char *text)
{
    dirty();
    return cablesalak_check_text(vars, 64, lows, 64, highs, 64, heads, 128, links, 64, 9, members, 2048, struck, 2048,
                                 scratch, scratch_length, (const uint8_t *)formula, strlen(formula), (const uint8_t *)text,
                                 strlen(text));
}

/* Whether the index that a check leaves is that of the nodes below the count. */
static bool left_indexed(size_t count)
{
    uint16_t right[128] = {0};
    bool is = true;
    for (size_t k = 0; k < 64; k++) {
        bool node = 2 <= k && k < count;
        size_t chain = node ? cablesalak_chain(vars[k], lows[k], highs[k], 128) : 0;
        is = is && links[k] == (node ? right[chain] : 0);
        if (node)
            right[chain] = (uint16_t)k;
    }
    return is && memcmp(heads, right, sizeof heads) == 0;
}

static bool tells_of(cablesalak_checked said, bool in_proof, unsigned number, size_t place, size_t lines, uint64_t rounds,
                     size_t count, size_t peak)
{
    return said.number == number && said.in_proof == in_proof && said.place == place && said.lines == lines &&
           said.rounds == rounds && said.count == count && said.peak == peak;
}

/* Of the proof, unless the number is 7. */
static bool says(cablesalak_checked said, unsigned number, size_t place, size_t lines, uint64_t rounds, size_t count,
                 size_t peak)
{
    return tells_of(said, number != CABLESALAK_WRONG_SIZE, number, place, lines, rounds, count, peak);
}

/* Whether just these marks are 1, a digit each, and the others 0. */
static bool marked(const char *marks)
{
    bool right = struck[2048] == 0xA5;
    for (size_t at = 0; at < 2048; at++)
        right = right && struck[at] == (at < strlen(marks) && marks[at] == '1' ? 1 : 0);
    return right;
}

/* A refusal with 7 changes nothing. */
static bool refused_for_size(cablesalak_checked said)
{
    return says(said, CABLESALAK_WRONG_SIZE, 0, 0, 0, 9, 0) && vars[0] == 0xA5 && members[2047] == 0xA5A5 &&
           struck[0] == 0xA5 && struck[2047] == 0xA5 && scratch[0] == 0xA5A5 && heads[127] == 0xA5A5 && links[63] == 0xA5A5;
}

static void checks(void)
{
    EXPECT(says(check(2048, 4096, proof, sizeof proof), CABLESALAK_REFUTED, 12, 2, 1, 8, 10));
    EXPECT(vars[7] == 1 && lows[7] == 1 && highs[7] == 5 && vars[8] == 0 && lows[63] == 0);
    EXPECT(members[0] == 3 && members[3] == 7 && members[4] == 2 && members[5] == 0 && members[2047] == 0);
    EXPECT(scratch[0] == 0 && scratch[4095] == 0 && marked("") && left_indexed(8));
    EXPECT(says(check(2048, 4096, proof + 9, 4), CABLESALAK_NOT_SHOWN, 0, 0, 0, 8, 8));
    EXPECT(says(check(2048, 4096, strikings, sizeof strikings), CABLESALAK_REFUTED, 18, 2, 1, 8, 10) && marked("11"));
    EXPECT(says(check(2048, 4096, twice, sizeof twice), CABLESALAK_NO_SUCH_MEMBER, 3, 0, 0, 8, 8) && marked("01"));
    EXPECT(says(check(2048, 4096, least, sizeof least), CABLESALAK_REFUTED, 16, 2, 1, 8, 10) && left_indexed(8));
    EXPECT(says(check(2048, 4096, parity, sizeof parity), CABLESALAK_NO_SUCH_PARITY, 0, 0, 0, 8, 8));
    EXPECT(refused_for_size(check(2048, 4095, proof, sizeof proof)));
    EXPECT(refused_for_size(check(2047, 4096, proof, sizeof proof)));
    EXPECT(refused_for_size(check(2049, 4096, proof, sizeof proof)));
    EXPECT(refused_for_size(check_indexed(127, 64, 2048, 4096, proof, sizeof proof)));
    EXPECT(refused_for_size(check_indexed(128, 63, 2048, 4096, proof, sizeof proof)));
}

/* Texts as proofs: a clause of either try, a striking, and 3 in the text and in the formula. */
static void texts(void)
{
    EXPECT(says(check_text(4096, FORMULA, "2 0\n0\n"), CABLESALAK_REFUTED, 6, 2, 1, 8, 10));
    EXPECT(members[0] == 3 && members[3] == 7 && members[4] == 2 && members[5] == 0 && members[2047] == 0);
    EXPECT(vars[8] == 0 && scratch[0] == 0 && scratch[4095] == 0 && marked("") && left_indexed(8));
    EXPECT(says(check_text(4096, "p cnf 2 1\n1 2 0\n", "1 0 d 2 1 0"), CABLESALAK_NO_ZERO_LINE, 11, 1, 0, 5, 6));
    EXPECT(marked("10") && left_indexed(5));
    EXPECT(says(check_text(4096, FORMULA, "d 2 0"), CABLESALAK_NO_SUCH_MEMBER, 0, 0, 0, 8, 8));
    EXPECT(says(check_text(4096, "p cnf 1 0", "x"), CABLESALAK_NOT_A_NUMBER, 0, 0, 0, 2, 2));
    EXPECT(tells_of(check_text(4096, "p cnf 1 1\nx", "x"), false, CABLESALAK_NOT_A_NUMBER, 10, 0, 0, 2, 2) && marked(""));
    EXPECT(refused_for_size(check_text(4095, FORMULA, "2 0\n0\n")));
}

/* The line at the start, what lies behind it as it was, and the status. */
static bool tells(bool formula_read, bool proof_read, const uint8_t *lines, size_t length, const char *line, unsigned status)
{
    uint8_t put[CABLESALAK_LINE];
    memset(put, 0xA5, sizeof put);
    cablesalak_told told =
        cablesalak_report(formula_read, (const uint8_t *)FORMULA, strlen(FORMULA), proof_read, lines, length, put);
    bool behind = true;
    for (size_t at = told.length; at < sizeof put; at++)
        behind = behind && put[at] == 0xA5;
    return behind && told.status == status && told.length == strlen(line) && memcmp(put, line, told.length) == 0;
}

static void reports(void)
{
    EXPECT(tells(true, true, proof, sizeof proof, "0 12 2 1 10\n", 0));
    EXPECT(tells(true, true, proof + 9, 4, "19 0 0 0 8\n", 1));
    EXPECT(tells(true, false, proof, sizeof proof, "25 0 0 0 0\n", 2));
    EXPECT(tells(false, true, proof, sizeof proof, "25 0 0 0 0\n", 2));
}

int main(void)
{
    evaluations();
    granted();
    at_least();
    refused();
    wrong_index();
    checks();
    texts();
    reports();
    for (unsigned number = 0; number < 256; number++)
        if (cablesalak_meaning(number) != 0)
            printf("%u %s\n", number, cablesalak_meaning(number));
    EXPECT(cablesalak_meaning(CABLESALAK_LAST_NUMBER) != 0 && cablesalak_meaning(CABLESALAK_LAST_NUMBER + 1) == 0);
    return 0;
}
