/* terminal FORMULA PROOF: the check of a site terminal. It prints `number place lines rounds` and ends with 0 for refuted, 1 for refused, 2
 * where a file was not taken or the use is wrong, 3 where the line could not be written. A refusal's meaning goes to standard error.
 *
 * The check by truth table alone is linked: formulas of at most six variables, no table, no index. With -DTWICE the check over diagrams is
 * linked too, and both methods have to agree; the status is 4 where they do not, which the theorem `calls-agree` excludes. */
#include "cablesalak_small.h"
#ifdef TWICE
#include "cablesalak.h"
#endif
#include <stdio.h>

#define LONGEST 65536

/* A file's bytes, with room for one more than it may have, so that a file that is too long is noticed. Static, so that they take no stack. */
typedef struct {
    uint8_t bytes[LONGEST + 1];
    size_t length;
} text;

static text formula, proof;
static uint64_t members[CABLESALAK_SMALL_MEMBERS], scratch[CABLESALAK_SMALL_SCRATCH];
static uint8_t struck[CABLESALAK_SMALL_MEMBERS];

/* Whether the file could be read and is not too long. */
static bool read_text(const char *name, text *into)
{
    FILE *file = fopen(name, "rb");
    if (!file)
        return false;
    into->length = fread(into->bytes, 1, sizeof into->bytes, file);
    bool failed = ferror(file) || into->length > LONGEST;
    fclose(file);
    return !failed;
}

#ifdef TWICE
#define PLACES CABLESALAK_MOST_PLACES
static uint8_t vars[PLACES], marks[CABLESALAK_LEAST_MEMBERS];
static uint16_t lows[PLACES], highs[PLACES], heads[CABLESALAK_HEADS(PLACES)], links[CABLESALAK_LINKS(PLACES)];
static uint16_t nodes[CABLESALAK_LEAST_MEMBERS], cells[CABLESALAK_LEAST_SCRATCH];

/* Whether the check over diagrams answers the same, or found no room. */
static bool agrees(cablesalak_small_checked said)
{
    cablesalak_checked other = cablesalak_check(
        vars, PLACES, lows, PLACES, highs, PLACES, heads, CABLESALAK_HEADS(PLACES), links, CABLESALAK_LINKS(PLACES), 0,
        nodes, CABLESALAK_LEAST_MEMBERS, marks, CABLESALAK_LEAST_MEMBERS, cells, CABLESALAK_LEAST_SCRATCH,
        formula.bytes, formula.length, proof.bytes, proof.length);
    if (other.number == CABLESALAK_FULL_AT_CLAUSE || other.number == CABLESALAK_TABLE_FULL)
        return true;
    return said.number == other.number && said.in_proof == other.in_proof && said.place == other.place && said.lines == other.lines
        && said.rounds == other.rounds;
}
#endif

int main(int argc, char **argv)
{
    if (argc != 3 || !read_text(argv[1], &formula) || !read_text(argv[2], &proof)) {
        fputs("terminal FORMULA PROOF: two files of at most 65,536 bytes\n", stderr);
        return 2;
    }
    cablesalak_small_checked said = cablesalak_small(
        members, CABLESALAK_SMALL_MEMBERS, struck, CABLESALAK_SMALL_MEMBERS, scratch, CABLESALAK_SMALL_SCRATCH,
        formula.bytes, formula.length, proof.bytes, proof.length);
#ifdef TWICE
    /* 2: more than six variables are for the other method alone. */
    if (said.number != CABLESALAK_HEADER_TOO_LARGE && !agrees(said)) {
        fputs("the two methods differ\n", stderr);
        return 4;
    }
#endif
    if (printf("%u %zu %zu %llu\n", said.number, said.place, said.lines, (unsigned long long)said.rounds) < 0 || fflush(stdout) != 0)
        return 3;
    if (said.number == CABLESALAK_HEADER_TOO_LARGE)
        fputs("refused: over six variables or 1,024 clauses\n", stderr);
    else if (said.number != CABLESALAK_REFUTED)
        fprintf(stderr, "refused: %s\n", cablesalak_meaning(said.number));
    return said.number == CABLESALAK_REFUTED ? 0 : 1;
}
