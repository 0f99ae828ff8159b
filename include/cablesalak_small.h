/* The proved check of a formula of at most six variables by truth table, for C and C++ on x86-64 with the System V calling convention
 * (Linux): a second method beside the check over diagrams.
 *
 * Link target/staticlib/libsmall_export.a, which `rust/run archives small_export` writes once every function is proved: 10 KB of code, no
 * table and no index. It needs nothing of libexport.a; the two can be linked together. docs/LINKING.md has the commands,
 * docs/THEOREMS.md what is proved, crates/small_export/src/lib.rt the contract that the words below render.
 *
 * What is lent: as in cablesalak.h, every list as an address and a length, counted in places. An address is aligned for its type and not
 * null, also where the length is 0. A list that the call writes to overlaps no other.
 *
 * Stack: less than 48 KiB. Threads: calls at the same time are fine where no list that one of them writes to is lent to another. */
#ifndef CABLESALAK_SMALL_H
#define CABLESALAK_SMALL_H

#include "cablesalak_numbers.h"
#include <stdbool.h>
#include <stddef.h>
#include <stdint.h>

/* The least sizes of the lent lists; the marks are as many as the member list's places. */
#define CABLESALAK_SMALL_MEMBERS 2048
#define CABLESALAK_SMALL_SCRATCH 4096

/* The answer: cablesalak_checked without count and peak. */
typedef struct {
    uint8_t number;  /* 0: refuted; else why not */
    bool in_proof;   /* whether the place is in the proof; else it is in the formula, or the number is 7 */
    size_t place;    /* byte offset of what is refused, or with 0 of the end record; the text's length where it has none; 0 for 7 */
    size_t lines;    /* the accepted lines */
    uint64_t rounds; /* their rounds of unit propagation */
} cablesalak_small_checked;

#ifdef __cplusplus
extern "C" {
#endif

/* The check of a formula (the bytes of a DIMACS CNF file) and a proof in records.
 *
 * Number 0: no assignment satisfies the formula, whatever the proof's bytes and whatever the lent lists held before.
 * Tests 7 first: the member list has 2,048 places or more and `struck` just as many, the scratch list has 4,096 or more. Then the formula
 * is read: 2 where its header names more than six variables, used or not. Everything else is as cablesalak_check has it: for at most six
 * variables the five fields are the same wherever that call gives neither 7, 8 nor 23. Gives 0 to 7, 9 to 22, 28 and 29.
 *
 * 7 changes nothing; after every other number all three lists hold zeros. */
cablesalak_small_checked cablesalak_small(
    uint64_t *members, size_t members_length,
    uint8_t *struck, size_t struck_length,
    uint64_t *scratch, size_t scratch_length,
    const uint8_t *formula, size_t formula_length,
    const uint8_t *proof, size_t proof_length);

#ifdef __cplusplus
}
#endif

/* The layout that the archive was compiled with. */
#if defined(__cplusplus) ? __cplusplus >= 201103L : __STDC_VERSION__ >= 201112L
#ifdef __cplusplus
#define CABLESALAK_SMALL_LAYOUT(holds) static_assert(holds, "not the archive's layout")
#else
#define CABLESALAK_SMALL_LAYOUT(holds) _Static_assert(holds, "not the archive's layout")
#endif
CABLESALAK_SMALL_LAYOUT(sizeof(cablesalak_small_checked) == 32);
CABLESALAK_SMALL_LAYOUT(offsetof(cablesalak_small_checked, in_proof) == 1);
CABLESALAK_SMALL_LAYOUT(offsetof(cablesalak_small_checked, place) == 8);
CABLESALAK_SMALL_LAYOUT(offsetof(cablesalak_small_checked, lines) == 16);
CABLESALAK_SMALL_LAYOUT(offsetof(cablesalak_small_checked, rounds) == 24);
#undef CABLESALAK_SMALL_LAYOUT
#endif

#endif
