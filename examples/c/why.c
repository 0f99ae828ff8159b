/* why FORMULA PROOF [FORM]: why the check of two files is refused. FORM is r for records, which it is if none is given, t for DRAT text, b for
 * binary DRAT. It prints the number in words, the piece at fault as it stands in the file, and the cause; it ends with 0 where the check did not
 * refuse, 1 where it did, 2 where a file was not taken or the use is wrong. */
#include "cablesalak_why.h"
#include "cablesalak_workspace.h"
#include <ctype.h>
#include <stdio.h>
#include <string.h>

#define LONGEST 65536
#define PLACES 4096

typedef struct {
    uint8_t bytes[LONGEST + 1];
    size_t length;
} text;

/* Static, so that they take no stack. */
static text formula, proof;
static uint16_t memory[CABLESALAK_WORDS(PLACES)];
static uint64_t fixed[CABLESALAK_LEAST_FIXED];

/* Whether the file could be read and is not too long. */
static bool read_text(const char *name, text *into)
{
    FILE *file = fopen(name, "rb");
    if (!file)
        return false;
    into->length = fread(into->bytes, 1, sizeof into->bytes, file);
    bool failed = ferror(file) || into->length > LONGEST;
    fclose(file);
    return !failed;
}

/* The piece: text as it is, other bytes in hex. */
static void print_piece(const uint8_t *piece, size_t length)
{
    bool is_text = true;
    for (size_t i = 0; i < length; i++)
        is_text = is_text && (isprint(piece[i]) || isspace(piece[i]));
    for (size_t i = 0; i < length; i++)
        printf(is_text ? "%c" : i == 0 ? "%02X" : " %02X", piece[i]);
    putchar('\n');
}

/* The literals of a round, by variable. */
static void print_round(uint64_t positive, uint64_t negative)
{
    for (int v = 1; v <= 64; v++) {
        if (positive >> (v - 1) & 1)
            printf(" %d", v);
        if (negative >> (v - 1) & 1)
            printf(" -%d", v);
    }
}

static void print_cause(const cablesalak_explanation *why)
{
    switch (why->number) {
    case CABLESALAK_VARIABLE_ORDER:
        printf("variable %u is not before variable %u\n", why->variable, why->child);
        break;
    case CABLESALAK_WITNESS_FAILS:
        fputs("the line is false where these variables alone are true:", stdout);
        print_round(why->word, 0);
        putchar('\n');
        break;
    case CABLESALAK_NOT_SHOWN:
        if (why->has_member)
            printf("member %zu is not shown\n", why->member);
        for (size_t round = 0; round < why->rounds; round++) {
            printf("round %zu fixes", round + 1);
            print_round(fixed[2 * round], fixed[2 * round + 1]);
            putchar('\n');
        }
        puts("then no member has a unit, and there is no conflict");
        break;
    default:
        break;
    }
}

int main(int argc, char **argv)
{
    const char *forms = "rtb", *form = argc == 4 && strlen(argv[3]) == 1 ? strchr(forms, argv[3][0]) : argc == 3 ? forms : NULL;
    if (!form || !read_text(argv[1], &formula) || !read_text(argv[2], &proof)) {
        fputs("why FORMULA PROOF [r|t|b]: two files of at most 65,536 bytes\n", stderr);
        return 2;
    }
    cablesalak_workspace work = cablesalak_workspace_in(memory, PLACES);
    cablesalak_explanation why = cablesalak_why(
        CABLESALAK_TABLE(&work), work.count, CABLESALAK_LISTS(&work), fixed, CABLESALAK_LEAST_FIXED, formula.bytes, formula.length,
        proof.bytes, proof.length, (uint8_t)(form - forms), false);
    const char *meaning = cablesalak_meaning(why.number);
    printf("%u: %s\n", why.number, meaning ? meaning : "a number of a newer library");
    if (why.number == CABLESALAK_NOT_REFUSED)
        return 0;
    printf("byte %zu of the %s: ", why.start, why.in_proof ? "proof" : "formula");
    print_piece(cablesalak_piece(&why, formula.bytes, proof.bytes), why.end - why.start);
    print_cause(&why);
    return 1;
}
