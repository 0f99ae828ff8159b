/* Why a check is refused: the offending piece of the formula or of the proof, and the true cause. The call is in
 * target/staticlib/libexplain.a (`rust/run archives explain`); link libexport.a with it, which has the version of the layout.
 *
 * What is lent, and how the lists end, is told in cablesalak.h. */
#ifndef CABLESALAK_WHY_H
#define CABLESALAK_WHY_H

#include "cablesalak.h"

/* The least length of the list for the literals: two words for each of at most 64 rounds. */
#define CABLESALAK_LEAST_FIXED 128

/* The answer. What belongs to no cause of the number is 0. */
typedef struct {
    uint8_t number;   /* the check's; 30 where the check did not refuse */
    bool in_proof;    /* whether the piece is of the proof; else it is of the formula, or the number is 7 or 30 */
    size_t start;     /* where the piece starts: the check's place; 0 for 7 and 30 */
    size_t end;       /* the place behind its last byte */
    uint8_t variable; /* 14: the record's variable */
    uint8_t child;    /* 14: that of the child that it is not before; the low child's if it is before neither */
    uint64_t word;    /* 18: the smallest assignment, read with variable 1 as the top digit, that agrees with the witness and makes the
                       * line false: bit i - 1 for variable i */
    size_t rounds;    /* 19: how many rounds of the last propagation fixed literals */
    bool has_member;  /* 19 of a PR line, or of a DRAT clause tried as one: */
    size_t member;    /*     the lowest live member that was not shown */
    size_t count;     /* the table's count after the call; as lent with 7 */
} cablesalak_explanation;

#ifdef __cplusplus
extern "C" {
#endif

/* Why the check of a proof in a form is refused (cablesalak_check_in). Gives the check's number, or 30 where the check does not refuse. 7 too
 * where `fixed` has fewer than 128 words.
 *
 * The piece is the line (1, 2), the token (3 to 6 and 8), the record or the clause at the check's place; one byte for 9 and 11; a cut record or
 * clause to the end; empty at a text's end and for 7 and 30. A line is without its LF; a DRAT clause goes to the end of its 0.
 *
 * With 19 the literals that the last propagation fixed stand in `fixed`, two words a round: the variables made true, then those made false,
 * bit i - 1 for variable i. They are those of a RUP line, of the path of a path line that failed, of the turn of the member that was not
 * shown; of a DRAT clause those of its last try. Zeros follow them; with every other number `fixed` ends as zeros, with 7 it stays as it is.
 * All other lists end as after the check. */
cablesalak_explanation cablesalak_why(
    uint8_t *vars, size_t vars_length,
    uint16_t *lows, size_t lows_length,
    uint16_t *highs, size_t highs_length,
    uint16_t *heads, size_t heads_length,
    uint16_t *links, size_t links_length,
    size_t count,
    uint16_t *members, size_t members_length,
    uint8_t *struck, size_t struck_length,
    uint16_t *scratch, size_t scratch_length,
    uint64_t *fixed, size_t fixed_length,
    const uint8_t *formula, size_t formula_length,
    const uint8_t *proof, size_t proof_length,
    uint8_t form, bool consequence);

#ifdef __cplusplus
}
#endif

/* The piece's first byte, in the caller's own bytes; it has end - start of them. */
static inline const uint8_t *cablesalak_piece(const cablesalak_explanation *why, const uint8_t *formula, const uint8_t *proof)
{
    return (why->in_proof ? proof : formula) + why->start;
}

#endif
