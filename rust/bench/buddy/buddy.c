/* BuDDy 2.4 as a filter, for `bench --only single`: reads the commands `not`, `and`, `cof` and `lits` of docs/PROTOCOL.md and answers
 * each with `MICROSECONDS NODES`, the processor time of BuDDy's own operation on the same diagrams and the nodes of its result; `-` to
 * any other command.
 *
 * All nodes of the lent table are made and kept first, so that an operation finds what a call of the library finds. Such a call starts
 * with an empty memo, so each timed operation starts with empty caches: bdd_gbc, which is not timed, empties them and drops the result
 * of the operation before. The caches have as many cells as the library's memo, and the table is so large that no operation collects. */
#define _POSIX_C_SOURCE 200809L
#include <bdd.h>
#include <stdio.h>
#include <stdlib.h>
#include <string.h>
#include <time.h>

#define VARIABLES 64
#define MOST_PLACES 65536
#define REPEATS 40
#define TURNS 7

/* The diagrams at the places of the table that is lent. */
static BDD at_place[MOST_PLACES];

/* An operation and its operands: not, and, constrain by a diagram, restrict by the literals that are a conjunction. */
typedef struct {
    char kind;
    BDD f, g;
} operation;

static BDD result_of(const operation *asked)
{
    switch (asked->kind) {
    case 'n':
        return bdd_not(asked->f);
    case 'a':
        return bdd_apply(asked->f, asked->g, bddop_and);
    case 'c':
        return bdd_constrain(asked->f, asked->g);
    default:
        return bdd_restrict(asked->f, asked->g);
    }
}

/* The thread's processor time in nanoseconds. */
static double now(void)
{
    struct timespec time;
    clock_gettime(CLOCK_THREAD_CPUTIME_ID, &time);
    return 1e9 * (double)time.tv_sec + (double)time.tv_nsec;
}

/* The mean time of an operation, or of reading the clock where there is none: the least of several turns. */
static double spent(const operation *asked)
{
    double least = 0;
    for (int turn = 0; turn < TURNS; turn++) {
        double sum = 0;
        for (int repeat = 0; repeat < REPEATS; repeat++) {
            if (asked)
                bdd_gbc();
            double start = now();
            if (asked)
                result_of(asked);
            sum += now() - start;
        }
        if (turn == 0 || sum < least)
            least = sum;
    }
    return least / REPEATS;
}

/* The next word of a line as a number, 0 where there is none. */
static unsigned long long number(char **rest)
{
    char *word = strtok_r(NULL, " \n", rest);
    return word ? strtoull(word, NULL, 10) : 0;
}

/* Makes the nodes that are listed from place 2 on: whether each is one. */
static int make_nodes(char *listed)
{
    at_place[0] = bdd_false();
    at_place[1] = bdd_true();
    int place = 2;
    for (char *rest, *row = strtok_r(listed, ";", &rest); row; row = strtok_r(NULL, ";", &rest)) {
        int variable, low, high;
        if (place == MOST_PLACES || sscanf(row, "%d,%d,%d", &variable, &low, &high) != 3)
            return 0;
        if (variable < 1 || VARIABLES < variable || low < 0 || place <= low || high < 0 || place <= high)
            return 0;
        at_place[place++] = bdd_addref(bdd_ite(bdd_ithvar(variable - 1), at_place[high], at_place[low]));
    }
    return 1;
}

/* The conjunction of the literals of two words. */
static BDD cube(unsigned long long positive, unsigned long long negative)
{
    BDD all = bdd_true();
    for (int variable = VARIABLES - 1; variable >= 0; variable--) {
        if (!((positive | negative) >> variable & 1))
            continue;
        BDD literal = positive >> variable & 1 ? bdd_ithvar(variable) : bdd_nithvar(variable);
        BDD more = bdd_addref(bdd_apply(literal, all, bddop_and));
        bdd_delref(all);
        all = more;
    }
    return all;
}

/* Starts BuDDy for a table of so many places. */
static void start(long places)
{
    int cells = places <= 64 ? 1024 : places <= 4096 ? 8192 : 131072;
    bdd_init((int)(2 * places + 1000), cells);
    /* Else it says on standard output that it collects. */
    bdd_gbc_hook(NULL);
    bdd_setvarnum(VARIABLES);
}

/* Answers a command whose word is one of the four; the rest is as the bench writes it. */
static void answer(const char *word, char **rest)
{
    long places = (long)number(rest);
    number(rest);
    char *listed = strtok_r(NULL, " \n", rest);
    if (places < 2 || MOST_PLACES < places || !listed) {
        puts("-");
        return;
    }
    start(places);
    if (make_nodes(listed)) {
        operation asked = {word[0], at_place[number(rest) % MOST_PLACES], bdd_true()};
        if (asked.kind == 'l') {
            unsigned long long positive = number(rest);
            asked.g = cube(positive, number(rest));
        } else if (asked.kind != 'n')
            asked.g = at_place[number(rest) % MOST_PLACES];
        double time = spent(&asked) - spent(NULL);
        printf("%.3f %d\n", time < 0 ? 0 : time / 1000, bdd_nodecount(result_of(&asked)));
    } else
        puts("-");
    bdd_done();
}

int main(void)
{
    char *line = NULL;
    size_t room = 0;
    while (getline(&line, &room, stdin) >= 0) {
        char *rest, *word = strtok_r(line, " \n", &rest);
        if (word && (!strcmp(word, "not") || !strcmp(word, "and") || !strcmp(word, "cof") || !strcmp(word, "lits")))
            answer(word, &rest);
        else
            puts("-");
        fflush(stdout);
    }
    free(line);
    return 0;
}
