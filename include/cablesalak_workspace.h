/* All lists of a check in one struct, for C and C++: the short way to check and to report. The calls are those of cablesalak.h.
 *
 * A workspace lays the lists of a check, as short as they may be, into one piece of the caller's memory, static or allocated:
 *
 *     static uint16_t memory[CABLESALAK_WORDS(4096)];
 *     cablesalak_workspace work = cablesalak_workspace_in(memory, 4096);
 *     cablesalak_checked said =
 *         cablesalak_workspace_check(&work, formula, formula_length, proof, proof_length, CABLESALAK_RECORDS, false);
 *
 * What the memory holds before a check does not matter. */
#ifndef CABLESALAK_WORKSPACE_H
#define CABLESALAK_WORKSPACE_H

#include "cablesalak.h"

/* How many words of memory a workspace takes. */
#define CABLESALAK_WORDS(places) \
    (5 * (size_t)(places) + CABLESALAK_LEAST_MEMBERS + CABLESALAK_LEAST_SCRATCH + ((size_t)(places) + CABLESALAK_LEAST_MEMBERS + 1) / 2)

typedef struct {
    size_t places, count; /* of the table */
    uint16_t *lows, *highs, *heads, *links;
    uint16_t *members, *scratch;
    uint8_t *vars, *struck;
} cablesalak_workspace;

/* The workspace of a table with so many places in CABLESALAK_WORDS(places) words. */
static inline cablesalak_workspace cablesalak_workspace_in(uint16_t *memory, size_t places)
{
    cablesalak_workspace work;
    work.places = places;
    work.count = 2;
    work.lows = memory;
    work.highs = work.lows + places;
    work.links = work.highs + places;
    work.heads = work.links + CABLESALAK_LINKS(places);
    work.members = work.heads + CABLESALAK_HEADS(places);
    work.scratch = work.members + CABLESALAK_LEAST_MEMBERS;
    work.vars = (uint8_t *)(work.scratch + CABLESALAK_LEAST_SCRATCH);
    work.struck = work.vars + places;
    return work;
}

/* The lists of a workspace's table as arguments of a single call: cablesalak_negation(CABLESALAK_TABLE(&work), work.count, f). */
#define CABLESALAK_TABLE(work) \
    (work)->vars, (work)->places, (work)->lows, (work)->places, (work)->highs, (work)->places, (work)->heads, \
        CABLESALAK_HEADS((work)->places), (work)->links, CABLESALAK_LINKS((work)->places)

/* Its member list, marks and scratch list as arguments. */
#define CABLESALAK_LISTS(work) \
    (work)->members, CABLESALAK_LEAST_MEMBERS, (work)->struck, CABLESALAK_LEAST_MEMBERS, (work)->scratch, CABLESALAK_LEAST_SCRATCH

/* cablesalak_check_in over a workspace. */
static inline cablesalak_checked cablesalak_workspace_check(
    cablesalak_workspace *work,
    const uint8_t *formula, size_t formula_length,
    const uint8_t *proof, size_t proof_length,
    enum cablesalak_form form, bool consequence)
{
    cablesalak_checked said = cablesalak_check_in(
        CABLESALAK_TABLE(work), work->count, CABLESALAK_LISTS(work), formula, formula_length, proof, proof_length, (uint8_t)form,
        consequence);
    work->count = said.count;
    return said;
}

/* cablesalak_report_in over a workspace. The line does not give the table's count, which stays as it was: single calls may refuse the
 * table with 26 until the next check. */
static inline cablesalak_told cablesalak_workspace_report(
    cablesalak_workspace *work,
    bool formula_read, const uint8_t *formula, size_t formula_length,
    bool proof_read, const uint8_t *proof, size_t proof_length,
    enum cablesalak_form form, bool consequence,
    uint8_t line[CABLESALAK_LINE])
{
    return cablesalak_report_in(
        CABLESALAK_TABLE(work), CABLESALAK_LISTS(work), formula_read, formula, formula_length, proof_read, proof, proof_length,
        (uint8_t)form, consequence, line);
}

#endif
