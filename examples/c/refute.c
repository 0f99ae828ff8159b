/* refute FORMULA PROOF: prints the proved library's line on two files, `number place lines rounds peak`, and ends with its
 * status: 0 refuted (number 0), 1 refused, 2 a file was not taken; 3 where the line could not be written. A refusal's meaning
 * goes to standard error. The line's bytes and the status are cablesalak_report's, whose contract settles both; here are the two
 * reads and the write. */
#include "cablesalak.h"
#include <stdio.h>
#include <stdlib.h>

#define LONGEST 65536

/* A file's bytes, with room for one more than it may have, so that a file that is too long is seen. Static, so that they take no stack. */
typedef struct {
    uint8_t bytes[LONGEST + 1];
    size_t length;
} text;

static text formula, proof;

/* Whether the file could be read. */
static bool read_text(const char *name, text *into)
{
    FILE *file = name ? fopen(name, "rb") : NULL;
    if (!file)
        return false;
    into->length = fread(into->bytes, 1, sizeof into->bytes, file);
    bool failed = ferror(file);
    fclose(file);
    return !failed;
}

int main(int argc, char **argv)
{
    if (argc > 3) {
        fputs("refute FORMULA PROOF\n", stderr);
        return 2;
    }
    bool formula_read = read_text(argc > 1 ? argv[1] : NULL, &formula);
    bool proof_read = read_text(argc > 2 ? argv[2] : NULL, &proof);
    uint8_t line[CABLESALAK_LINE];
    cablesalak_told told = cablesalak_report(formula_read, formula.bytes, formula.length, proof_read, proof.bytes, proof.length, line);
    if (fwrite(line, 1, told.length, stdout) != told.length || fflush(stdout) != 0)
        return 3;
    if (told.status != 0)
        fprintf(stderr, "refused: %s\n", cablesalak_meaning((unsigned)strtoul((const char *)line, NULL, 10)));
    return told.status;
}
