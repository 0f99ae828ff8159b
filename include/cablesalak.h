/* The proved checker of diagram refutations, for C and C++ on x86-64 with the System V calling convention (Linux).
 *
 * Link target/staticlib/libexport.a, which `rust/run archives export` writes once every function is proved. docs/LINKING.md has
 * the commands, docs/THEOREMS.md what is proved, crates/export/src/lib.rt the contracts that the words below render.
 *
 * Contents: results; single calls; the check (cablesalak_check_in, and two calls with fewer parameters); conversions of DRAT proofs;
 * the program's line; the table as one list of records. cablesalak_workspace.h has all lists in one struct: the short way to check
 * and to report.
 *
 * What is lent. The library allocates nothing and keeps nothing between calls: the caller lends every list as an address and
 * a length, counted in places, not bytes. An address is aligned for its type and not null, also where the length is 0. A
 * list that a call writes to overlaps no other list of the call. Nothing else is asked: whatever the lengths, the count, the
 * node numbers and the contents, each call answers as told here, with 7 where a lent part is of wrong size.
 *
 * The table is three columns of one length, its size, 2 to 65,536: variables, low children, high children. Place k is node
 * k; places 0 and 1 stand for the constants 0 and 1. The count says how many places are taken, the constants' two among
 * them. The table is in good order when
 *   - places 0 and 1 and the places from the count on hold zeros, and 2 <= count <= size;
 *   - each node's variable is 1 to 64 and smaller than those of its children that are not constants;
 *   - children have smaller numbers than their parent; low differs from high; no two nodes are alike;
 *   - its index is right.
 *
 * The index is lent with the table: `heads`, twice as many as the table's places, and `links`, one for each place. A node's key
 * is its variable plus low times 12,582,917 plus high times 4,256,249, in 32 bits; its remainder by the number of heads picks
 * one of as many chains (cablesalak_chain). The index is right when each chain runs through its nodes from the highest number
 * down to a 0: its head is the highest, and a node's link the next lower; all other heads and links are 0. Every call leaves it
 * right, but for 7 and 26, which leave it as it was. A table of the constants alone has an index of zeros.
 *
 * A node has the value of its high where its variable is true, else of its low. In a table in good order two node numbers
 * are equal exactly when they have the same value under every assignment.
 *
 * Stack: a call takes less than 1.25 MiB, whatever the table (docs/BENCH.md has the measured figures).
 * Threads: calls at the same time are fine where no list that one of them writes to is lent to another. */
#ifndef CABLESALAK_H
#define CABLESALAK_H

#include "cablesalak_numbers.h"
#include <stdbool.h>
#include <stddef.h>
#include <stdint.h>

/* The version of header and library; the Rust crate has the same. */
#define CABLESALAK_VERSION "0.2.0"

/* Sizes of what is lent. Member list and scratch list may be longer; the marks are as many as the member list's places. */
#define CABLESALAK_LEAST_PLACES 2
#define CABLESALAK_MOST_PLACES 65536
#define CABLESALAK_HEADS(places) (2 * (size_t)(places))
#define CABLESALAK_LINKS(places) ((size_t)(places))
#define CABLESALAK_LEAST_MEMBERS 2048
#define CABLESALAK_LEAST_SCRATCH 4096

#ifdef __cplusplus
extern "C" {
#endif

/* The name has the version of the layout: parameters and results. An archive of another layout has another name, and a program that
 * includes this header does not link with it. Gives 2. */
uint32_t cablesalak_layout_2(void);

/* Evaluation's answer. */
typedef struct {
    uint8_t number; /* 0, or why it is refused */
    bool yes;       /* whether the node is 1; false with a refusal */
    size_t count;   /* as lent */
} cablesalak_evaluated;

/* The answer of a single call that makes nodes. */
typedef struct {
    uint8_t number; /* 0, or why it is refused */
    uint16_t node;  /* the node asked for; 0 with a refusal */
    size_t count;   /* the count after the call; as lent with a refusal */
} cablesalak_single;

/* The answer of the call for "at least k of a set". */
typedef struct {
    uint8_t number;    /* 0, or why it is refused */
    uint16_t node;     /* the node asked for; 0 with a refusal */
    size_t count;      /* the count after the call; as lent with a refusal */
    bool counted;      /* whether the excluded assignments are counted: not refused, and a set of at most 32 variables */
    uint64_t excluded; /* of the assignments of the set's variables, those under which the node is 0; 0 where not counted */
} cablesalak_at_least_made;

/* The answer of the check. */
typedef struct {
    uint8_t number;  /* 0: refuted; else why not */
    bool in_proof;   /* whether the place is in the proof; else it is in the formula, or the number is 7 */
    size_t place;    /* byte offset of what is refused, or with 0 of the end record; the text's length where it has none; 0 for 7 */
    size_t lines;    /* the accepted lines */
    uint64_t rounds; /* their rounds of unit propagation */
    size_t count;    /* the table's count after the call; as lent with 7 */
    size_t peak;     /* the greatest count that the check reached, dropped nodes included; 0 with 7 */
} cablesalak_checked;

/* The answer of a conversion. */
typedef struct {
    uint8_t number; /* 0, or why it is refused */
    size_t place;   /* byte offset of what is refused; 0 with 0 and with 7 */
    size_t length;  /* of the result; 0 with a refusal */
} cablesalak_converted;

/* The chain of a node in an index with so many heads, which are not none. A caller who writes rows puts node after node into its
 * chain, in the order of their numbers: links[k] = heads[chain], heads[chain] = k. */
static inline size_t cablesalak_chain(uint8_t var, uint16_t low, uint16_t high, size_t heads)
{
    return ((uint32_t)var + (uint32_t)low * 12582917u + (uint32_t)high * 4256249u) % heads;
}

/* ---- Single calls, on a table in good order.
 *
 * Each tests, in this order: 7, the columns are of one length, 2 to 65,536, with twice as many heads and as many links; 26, the
 * table is in good order, its index included; 13, its node numbers are below the count; then what is told with it; then 23,
 * there is room for the nodes to be made.
 * A refused call changes nothing. Else the nodes below the old count stay as they are, the new ones follow them, low side's
 * before high side's and children before their parent, and zeros follow those; the index is that of all of them. Only nodes of
 * the diagram asked for are placed, and one that is there already is found again: a full table refuses only what it does not
 * hold. */

/* Whether the node is 1 under the assignment that makes variable i true where bit i - 1 of the word is set.
 * Gives 0, 7, 26, 13. Writes to nothing. */
cablesalak_evaluated cablesalak_evaluate(
    const uint8_t *vars, size_t vars_length,
    const uint16_t *lows, size_t lows_length,
    const uint16_t *highs, size_t highs_length,
    const uint16_t *heads, size_t heads_length,
    const uint16_t *links, size_t links_length,
    size_t count, uint16_t node, uint64_t word);

/* The conjunction of f and g: 1 where both are. Gives 0, 7, 26, 13, 23. */
cablesalak_single cablesalak_conjunction(
    uint8_t *vars, size_t vars_length,
    uint16_t *lows, size_t lows_length,
    uint16_t *highs, size_t highs_length,
    uint16_t *heads, size_t heads_length,
    uint16_t *links, size_t links_length,
    size_t count, uint16_t f, uint16_t g);

/* The negation of f: 1 where f is 0. Gives 0, 7, 26, 13, 23. */
cablesalak_single cablesalak_negation(
    uint8_t *vars, size_t vars_length,
    uint16_t *lows, size_t lows_length,
    uint16_t *highs, size_t highs_length,
    uint16_t *heads, size_t heads_length,
    uint16_t *links, size_t links_length,
    size_t count, uint16_t f);

/* f cofactored by the diagram g: at each assignment f's value at the nearest one that satisfies g. The distance of two
 * assignments is the sum of 2^(64 - i) over the variables i on which they differ, so that variable 1 weighs most.
 * Gives 0, 7, 26, 13, 27 where g is 0, 23. */
cablesalak_single cablesalak_cofactor(
    uint8_t *vars, size_t vars_length,
    uint16_t *lows, size_t lows_length,
    uint16_t *highs, size_t highs_length,
    uint16_t *heads, size_t heads_length,
    uint16_t *links, size_t links_length,
    size_t count, uint16_t f, uint16_t g);

/* f with the variables of `positive` made true and those of `negative` made false, bit i - 1 for variable i.
 * Gives 0, 7, 26, 13, 15 where the two words share a bit, 23. */
cablesalak_single cablesalak_cofactor_literals(
    uint8_t *vars, size_t vars_length,
    uint16_t *lows, size_t lows_length,
    uint16_t *highs, size_t highs_length,
    uint16_t *heads, size_t heads_length,
    uint16_t *links, size_t links_length,
    size_t count, uint16_t f, uint64_t positive, uint64_t negative);

/* "At least k of the variables of `set`", bit i - 1 for variable i: 1 where so many of them are true. k = 0 gives 1, and k above
 * the set's size gives 0. For a set of n variables, n at most 32, it also tells how many of their 2^n assignments are excluded:
 * those with fewer than k true, all 2^n where k is above n. Gives 0, 7, 26, 23. */
cablesalak_at_least_made cablesalak_at_least(
    uint8_t *vars, size_t vars_length,
    uint16_t *lows, size_t lows_length,
    uint16_t *highs, size_t highs_length,
    uint16_t *heads, size_t heads_length,
    uint16_t *links, size_t links_length,
    size_t count, uint64_t set, uint8_t k);

/* ---- The check of a formula (the bytes of a DIMACS CNF file) and a proof (the bytes of a proof file).
 *
 * Number 0: no assignment satisfies the formula, whatever the proof's bytes and whatever the lent lists held before.
 * Tests 7 first: the columns are of one length, 2 to 65,536, with twice as many heads and as many links, the member list has 2,048
 * places or more and `struck` just as many, the scratch list has 4,096 or more. Then the formula is read in its order (1 to 6, 8),
 * then the proof, until a refusal or the end. At most 64 variables, 1,024 clauses and 1,024 lines. Neither the lent count nor what
 * the lists hold is judged: the check empties the table, its index and the lists first.
 *
 * What the lists hold afterwards:
 *   7                       what they held before.
 *   the formula is refused  zeros everywhere; the count is 2.
 *   any other               the table, in good order: the nodes of the clauses and of all entries of the accepted lines, in the
 *                           order in which they were made; zeros from the count on; its index. The member list: the clauses' nodes
 *                           in the formula's order, then the accepted lines' nodes, struck out or not; zeros above. `struck`: at
 *                           each member's place its mark, 1 once the proof struck it out, else 0; zeros above. The scratch list:
 *                           zeros. */

/* The form of the proof. */
enum cablesalak_form {
    /* Records (docs/FORMAT.md). 1 to 6 and 8 are the formula's. At most 4,096 entries in a line, and 4,096 paths of a path line. */
    CABLESALAK_RECORDS = 0,
    /* DRAT text: clauses of literals separated as in the formula, each closed by 0, the first literal being the pivot; a `d` before
     * a clause strikes out a member that is this clause; lines whose first byte is c are comments. An added clause is a line whose
     * one entry is its diagram: it passes by RUP, or by PR with the witness that makes the pivot true and its other literals false.
     * Of the proof's numbers 3 and 4 are at the token, 0 and 20 at the text's length, all others at the first byte of the clause or
     * of its `d`. */
    CABLESALAK_DRAT_TEXT = 1,
    /* Binary DRAT: the same clauses, opened by 61 (added) or 64 (struck out) and closed by a zero byte; variable v is 2 * v, its
     * negation 2 * v + 1, in groups of seven bits, lowest first, the top bit set on all but the last. Of the proof's numbers 9 is at
     * the byte, 31 and 4 at the literal, 0 and 20 at the proof's length, all others at the byte that opens the clause. */
    CABLESALAK_DRAT_BINARY = 2
};

/* The check of a proof in the form that is named (any above 2 is binary DRAT). With `consequence` it is in the consequence profile: each
 * accepted line is true under every assignment that satisfies the formula. There a PR line is refused with 33, and a DRAT clause with 19
 * where RUP does not show it; a proof in records without a PR line gets what it gets outside the profile.
 *
 *   form       gives
 *   records    0 to 23, 28, 29, 34; 33 in the profile
 *   text       0 to 8, 17, 19, 20, 22, 23, 28; 3, 4 and 6 are the formula's or the proof's, as `in_proof` tells
 *   binary     0 to 9, 17, 19, 20, 22, 23, 28, 31; 4 and 6 are the formula's or the proof's */
cablesalak_checked cablesalak_check_in(
    uint8_t *vars, size_t vars_length,
    uint16_t *lows, size_t lows_length,
    uint16_t *highs, size_t highs_length,
    uint16_t *heads, size_t heads_length,
    uint16_t *links, size_t links_length,
    size_t count,
    uint16_t *members, size_t members_length,
    uint8_t *struck, size_t struck_length,
    uint16_t *scratch, size_t scratch_length,
    const uint8_t *formula, size_t formula_length,
    const uint8_t *proof, size_t proof_length,
    uint8_t form, bool consequence);

/* cablesalak_check_in of records, outside the profile. */
cablesalak_checked cablesalak_check(
    uint8_t *vars, size_t vars_length,
    uint16_t *lows, size_t lows_length,
    uint16_t *highs, size_t highs_length,
    uint16_t *heads, size_t heads_length,
    uint16_t *links, size_t links_length,
    size_t count,
    uint16_t *members, size_t members_length,
    uint8_t *struck, size_t struck_length,
    uint16_t *scratch, size_t scratch_length,
    const uint8_t *formula, size_t formula_length,
    const uint8_t *proof, size_t proof_length);

/* cablesalak_check_in of a DRAT text, outside the profile. */
cablesalak_checked cablesalak_check_text(
    uint8_t *vars, size_t vars_length,
    uint16_t *lows, size_t lows_length,
    uint16_t *highs, size_t highs_length,
    uint16_t *heads, size_t heads_length,
    uint16_t *links, size_t links_length,
    size_t count,
    uint16_t *members, size_t members_length,
    uint8_t *struck, size_t struck_length,
    uint16_t *scratch, size_t scratch_length,
    const uint8_t *formula, size_t formula_length,
    const uint8_t *proof, size_t proof_length);

/* ---- Conversions of DRAT proofs.
 *
 * The result is put at the start of `out`, and zeros after it to its end. No clause is judged: both signs of a variable and repeats
 * stay. A refusal leaves `out` all zero. 7, that the result does not fit, comes last, with place 0. Twice the length of a text and
 * four times that of a binary proof are always room enough. */

/* A DRAT text in binary, without its comments. Gives 0, 3, 4 (a variable above 64), 6, 7. */
cablesalak_converted cablesalak_to_binary(const uint8_t *text, size_t text_length, uint8_t *out, size_t out_length);

/* A binary DRAT proof as text: single spaces, one clause a line ended by LF. Gives 0, 4, 6, 7, 9, 31. */
cablesalak_converted cablesalak_to_text(const uint8_t *binary, size_t binary_length, uint8_t *out, size_t out_length);

/* ---- The program's line.
 *
 * `number place lines rounds peak` and LF at the start of `line`; the places after it stay as they are. `formula_read` and `proof_read` say
 * whether the files could be read (25 where not); a text of over 65,536 bytes gives 24, so that of a longer file the first 65,537 bytes are
 * enough. The status is 0 for number 0 alone, 2 for 24 and 25, 1 for every other number. */
#define CABLESALAK_LINE 105

typedef struct {
    size_t length;  /* of the line, its LF included */
    uint8_t status; /* to end a program with */
} cablesalak_told;

/* What bin/refute prints of two files, the proof in records, with a table of 4,096 places of its own: takes less than 1.375 MiB of
 * stack. */
cablesalak_told cablesalak_report(
    bool formula_read, const uint8_t *formula, size_t formula_length,
    bool proof_read, const uint8_t *proof, size_t proof_length,
    uint8_t line[CABLESALAK_LINE]);

/* The line of cablesalak_check_in over the lent lists. They end as that leaves them; with 24 and 25 they stay as they are. */
cablesalak_told cablesalak_report_in(
    uint8_t *vars, size_t vars_length,
    uint16_t *lows, size_t lows_length,
    uint16_t *highs, size_t highs_length,
    uint16_t *heads, size_t heads_length,
    uint16_t *links, size_t links_length,
    uint16_t *members, size_t members_length,
    uint8_t *struck, size_t struck_length,
    uint16_t *scratch, size_t scratch_length,
    bool formula_read, const uint8_t *formula, size_t formula_length,
    bool proof_read, const uint8_t *proof, size_t proof_length,
    uint8_t form, bool consequence,
    uint8_t line[CABLESALAK_LINE]);

/* ---- The table as one list of records. The first two calls are in target/staticlib/libnodes.a (`rust/run archives nodes`), the checks in
 * libnode_check.a (`rust/run archives node_check`); the archives can be linked together.
 *
 * Each is the call of the same name over the list's three columns, with the index lent beside it: numbers, places, counts and
 * what the lists hold afterwards are those told there. A list of fewer than 2 or more than 65,536 places is refused with 7 and
 * stays as it is. They copy the list into columns and back, which takes 320 KiB of stack more. */
typedef struct {
    uint8_t var;
    uint16_t low;
    uint16_t high;
} cablesalak_node;

/* As cablesalak_evaluate. */
cablesalak_evaluated cablesalak_evaluate_nodes(
    const cablesalak_node *nodes, size_t nodes_length,
    const uint16_t *heads, size_t heads_length,
    const uint16_t *links, size_t links_length,
    size_t count, uint16_t node, uint64_t word);

/* As cablesalak_at_least. */
cablesalak_at_least_made cablesalak_at_least_nodes(
    cablesalak_node *nodes, size_t nodes_length,
    uint16_t *heads, size_t heads_length,
    uint16_t *links, size_t links_length,
    size_t count, uint64_t set, uint8_t k);

/* As cablesalak_check_in. */
cablesalak_checked cablesalak_check_nodes_in(
    cablesalak_node *nodes, size_t nodes_length,
    uint16_t *heads, size_t heads_length,
    uint16_t *links, size_t links_length,
    size_t count,
    uint16_t *members, size_t members_length,
    uint8_t *struck, size_t struck_length,
    uint16_t *scratch, size_t scratch_length,
    const uint8_t *formula, size_t formula_length,
    const uint8_t *proof, size_t proof_length,
    uint8_t form, bool consequence);

/* As cablesalak_check. */
cablesalak_checked cablesalak_check_nodes(
    cablesalak_node *nodes, size_t nodes_length,
    uint16_t *heads, size_t heads_length,
    uint16_t *links, size_t links_length,
    size_t count,
    uint16_t *members, size_t members_length,
    uint8_t *struck, size_t struck_length,
    uint16_t *scratch, size_t scratch_length,
    const uint8_t *formula, size_t formula_length,
    const uint8_t *proof, size_t proof_length);

/* Refers to the layout's symbol from every object that includes this header. */
#if defined(__GNUC__)
__attribute__((used)) static uint32_t (*const cablesalak_layout)(void) = cablesalak_layout_2;
#endif

#ifdef __cplusplus
}
#endif

/* The layout that the archive was compiled with. */
#if defined(__cplusplus) ? __cplusplus >= 201103L : __STDC_VERSION__ >= 201112L
#ifdef __cplusplus
#define CABLESALAK_LAYOUT(holds) static_assert(holds, "not the archive's layout")
#else
#define CABLESALAK_LAYOUT(holds) _Static_assert(holds, "not the archive's layout")
#endif
CABLESALAK_LAYOUT(sizeof(size_t) == 8 && sizeof(bool) == 1);
CABLESALAK_LAYOUT(sizeof(cablesalak_evaluated) == 16 && offsetof(cablesalak_evaluated, yes) == 1);
CABLESALAK_LAYOUT(offsetof(cablesalak_evaluated, number) == 0 && offsetof(cablesalak_evaluated, count) == 8);
CABLESALAK_LAYOUT(sizeof(cablesalak_single) == 16 && offsetof(cablesalak_single, node) == 2);
CABLESALAK_LAYOUT(offsetof(cablesalak_single, number) == 0 && offsetof(cablesalak_single, count) == 8);
CABLESALAK_LAYOUT(sizeof(cablesalak_at_least_made) == 32 && offsetof(cablesalak_at_least_made, number) == 0);
CABLESALAK_LAYOUT(offsetof(cablesalak_at_least_made, node) == 2 && offsetof(cablesalak_at_least_made, count) == 8);
CABLESALAK_LAYOUT(offsetof(cablesalak_at_least_made, counted) == 16 && offsetof(cablesalak_at_least_made, excluded) == 24);
CABLESALAK_LAYOUT(sizeof(cablesalak_node) == 6 && offsetof(cablesalak_node, var) == 0);
CABLESALAK_LAYOUT(offsetof(cablesalak_node, low) == 2 && offsetof(cablesalak_node, high) == 4);
CABLESALAK_LAYOUT(sizeof(cablesalak_checked) == 48 && offsetof(cablesalak_checked, number) == 0);
CABLESALAK_LAYOUT(offsetof(cablesalak_checked, in_proof) == 1);
CABLESALAK_LAYOUT(offsetof(cablesalak_checked, place) == 8 && offsetof(cablesalak_checked, lines) == 16);
CABLESALAK_LAYOUT(offsetof(cablesalak_checked, rounds) == 24 && offsetof(cablesalak_checked, count) == 32);
CABLESALAK_LAYOUT(offsetof(cablesalak_checked, peak) == 40);
CABLESALAK_LAYOUT(sizeof(cablesalak_converted) == 24 && offsetof(cablesalak_converted, number) == 0);
CABLESALAK_LAYOUT(offsetof(cablesalak_converted, place) == 8 && offsetof(cablesalak_converted, length) == 16);
CABLESALAK_LAYOUT(sizeof(cablesalak_told) == 16 && offsetof(cablesalak_told, length) == 0 && offsetof(cablesalak_told, status) == 8);
#undef CABLESALAK_LAYOUT
#endif

#endif
