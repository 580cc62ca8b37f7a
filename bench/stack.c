/* How deep in the stack each call of the library stands. A call is made on a stack of its own, painted beforehand; its depth is what it wrote
 * over, its arguments included, less what an empty call writes over. */
#define _XOPEN_SOURCE 700
#include <math.h>
#include <stdio.h>
#include <stdlib.h>
#include <string.h>
#include <ucontext.h>

#include "vunchrem.h"

enum call { OPEN, FIRST_STEP, BEGIN, SUPPLY, ACCEPT, DROP, OPEN_BY_TABLE, WHOLE_STEP, EXPONENTIAL, PHI_ACTION, PHI_GROWN, ERROR_NORM, BRING_OVER, NOTHING };
enum { STACK = 1 << 20, PAINT = 0xa5, SESSION_CALLS = EXPONENTIAL, CALLS = NOTHING, LARGEST = 20 };

static const char *const calls[CALLS] = {"open", "first step", "begin", "supply", "accept", "drop", "by table", "whole step", "exponential", "phi action", "phi, grown",
                                         "error norm", "bring over"};
static const char *const schemes[] = {
    "LawsonEuler", "NorsettEuler", "Etdrk2", "Etdrk3", "Etdrk4", "HochOst4", "Exp4", "Epirk4s3A",
    "Epirk4s3B", "Epirk5s3", "Exprb53s3", "Epirk5P1", "Epirk5P2", "Etd2", "Exprb32", "Exprb43"};
static const double step = 0.01, tolerance = 1e-6;

/* What the calls are handed, outside of the painted stack. */
static vunchrem_session s;
static vunchrem_reply r;
static uint64_t scheme, n, wish, order;
static double absolute[VUNCHREM_VECTOR], u[VUNCHREM_VECTOR], du[VUNCHREM_VECTOR], none[VUNCHREM_VECTOR], old[VUNCHREM_OLD_FIGURES];
static double jacobian[VUNCHREM_MATRIX], matrix[LARGEST * LARGEST], out[LARGEST * LARGEST];
static unsigned char table[VUNCHREM_RECORDS * VUNCHREM_RECORD];
static size_t table_len;
static enum call next;

#define SESSION s.numbers, VUNCHREM_NUMBERS, s.figures, VUNCHREM_FIGURES
#define REPLY r.words, VUNCHREM_WORDS, r.told, 1

/* Makes the next call. */
static void make(void) {
    enum { V = VUNCHREM_VECTOR };
    switch (next) {
    case OPEN: vunchrem_open(scheme, n, 0, 0.0, tolerance, absolute, V, u, V, du, V, none, V, SESSION, REPLY); break;
    case FIRST_STEP: vunchrem_first_step(SESSION, INFINITY, REPLY); break;
    case BEGIN: vunchrem_begin(SESSION, step, wish, jacobian, VUNCHREM_MATRIX, out, n, REPLY); break;
    case SUPPLY: vunchrem_supply(SESSION, r.words[VUNCHREM_ASK_PLACE_AT], du, V, out, n, REPLY); break;
    case ACCEPT: vunchrem_accept(SESSION, du, V, REPLY); break;
    case DROP: vunchrem_drop(SESSION, REPLY); break;
    case OPEN_BY_TABLE: vunchrem_open_by_table(scheme, n, 0.0, tolerance, absolute, V, u, V, table, table_len, SESSION, REPLY); break;
    case WHOLE_STEP: vunchrem_whole_step(step, table, table_len, SESSION, REPLY); break;
    case EXPONENTIAL: vunchrem_exponential(n, matrix, n * n, out, n * n, REPLY); break;
    case PHI_ACTION: vunchrem_phi_action(n, order, step, matrix, n * n, u, n, out, n, REPLY); break;
    case PHI_GROWN: /* numbers that it squares grow beyond the doubles */
        vunchrem_phi_action(n, order, -1500.0 * step, matrix, n * n, u, n, out, n, REPLY);
        break;
    case ERROR_NORM: vunchrem_error_norm(n, tolerance, absolute, V, none, V, u, V, u, V, REPLY); break;
    case BRING_OVER: /* it has no reply */
        if (vunchrem_bring_over(s.numbers, VUNCHREM_NUMBERS, old, VUNCHREM_OLD_FIGURES, s.figures, VUNCHREM_FIGURES) == 0)
            r.words[VUNCHREM_OUTCOME_AT] = VUNCHREM_RESTING;
        break;
    case NOTHING: break;
    }
}

/* Bytes of a painted stack that a call writes over. */
static size_t written(enum call call) {
    static unsigned char stack[STACK] __attribute__((aligned(64)));
    static ucontext_t here, there;
    size_t kept = 0;
    next = call;
    memset(stack, PAINT, STACK);
    getcontext(&there);
    there.uc_stack.ss_sp = stack;
    there.uc_stack.ss_size = STACK;
    there.uc_link = &here;
    makecontext(&there, make, 0);
    swapcontext(&here, &there);
    while (kept < STACK && stack[kept] == PAINT)
        kept++;
    return STACK - kept;
}

/* Where we are; the depth of each call there; the greatest depth of each call, and where that was. */
static char place[64], where[CALLS][64];
static size_t depth[CALLS], deepest[CALLS];

/* Makes a call and notes its depth. A refused one could end early, so none is to be refused. */
static void measure(enum call call) {
    size_t d;
    r.words[VUNCHREM_OUTCOME_AT] = VUNCHREM_REFUSED;
    d = written(call);
    if (r.words[VUNCHREM_OUTCOME_AT] == VUNCHREM_REFUSED) {
        fprintf(stderr, "bench/stack: %s was refused: %s\n", calls[call], place);
        exit(1);
    }
    d -= written(NOTHING);
    if (d > depth[call])
        depth[call] = d;
    if (d > deepest[call]) {
        deepest[call] = d;
        strcpy(where[call], place);
    }
}

/* A chain of n coupled cells with a mild nonlinearity, its Jacobian's entries about 100, so that the exponentials square: the derivative at a
 * state, and the linear part of size * size entries. */
static void chain(const double *at) {
    uint64_t i;
    memset(du, 0, sizeof du);
    for (i = 0; i < n; i++)
        du[i] = 100.0 * ((i > 0 ? 0.5 * at[i - 1] : 0.0) - at[i] + (i + 1 < n ? 0.25 * at[i + 1] : 0.0)) + 0.1 * at[i] * at[i];
}

static void linear(double *m, uint64_t size) {
    uint64_t row, column;
    for (row = 0; row < size; row++)
        for (column = 0; column < size; column++)
            m[row * size + column] = row == column ? -100.0 : row == column + 1 ? 50.0 : row + 1 == column ? 25.0 : 0.0;
}

static void add(uint64_t target, enum vunchrem_kind kind, uint64_t j, uint64_t k, double c) {
    vunchrem_put_record(table + table_len, target, kind, j, k, c);
    table_len += VUNCHREM_RECORD;
}

/* The chain's right-hand side as a table. */
static void tabled(void) {
    uint64_t i;
    table_len = 0;
    for (i = 0; i < n; i++) {
        add(i, VUNCHREM_LINEAR, i, 0, -100.0);
        if (i > 0)
            add(i, VUNCHREM_LINEAR, i - 1, 0, 50.0);
        if (i + 1 < n)
            add(i, VUNCHREM_LINEAR, i + 1, 0, 25.0);
        add(i, VUNCHREM_PRODUCT, i, i, 0.1);
    }
}

/* A state of n entries, and a tolerance for each. */
static void start(void) {
    uint64_t i;
    memset(u, 0, sizeof u);
    memset(absolute, 0, sizeof absolute);
    for (i = 0; i < n; i++) {
        u[i] = 1.0 + 0.1 * (double)i;
        absolute[i] = tolerance;
    }
}

/* Begins an attempt and answers every question. */
static void attempt(void) {
    measure(BEGIN);
    while (r.words[VUNCHREM_OUTCOME_AT] == VUNCHREM_ASK) {
        chain(out);
        measure(SUPPLY);
    }
}

/* Two steps, the second with a history under Etd2, and an attempt that is dropped; where the Jacobian is differenced, two whole steps by a table,
 * too. */
static void run(void) {
    int i;
    memset(jacobian, 0, sizeof jacobian);
    if (wish)
        linear(jacobian, n);
    start();
    chain(u);
    measure(OPEN);
    for (i = 0; i < 2; i++) {
        measure(FIRST_STEP);
        attempt();
        chain(out);
        measure(ACCEPT);
    }
    attempt();
    measure(DROP);
    if (wish)
        return;
    tabled();
    measure(OPEN_BY_TABLE);
    for (i = 0; i < 2; i++)
        measure(WHOLE_STEP);
}

/* Makes a bare call and prints its depth. */
static void bare(enum call call) {
    memset(depth, 0, sizeof depth);
    linear(matrix, n);
    if (call != EXPONENTIAL)
        start();
    measure(call);
    printf("%-12s %-20s %6zu\n", calls[call], place, depth[call]);
}

static int deeper(const void *a, const void *b) {
    size_t x = deepest[*(const int *)a], y = deepest[*(const int *)b];
    return (x < y) - (x > y);
}

int main(void) {
    static const uint64_t sizes[] = {1, VUNCHREM_VECTOR, LARGEST};
    int i, c, sorted[CALLS];

    printf("Bytes of stack, the most of each call in two steps and a dropped one.\n\n%-12s %2s  %-11s", "scheme", "n", "Jacobian");
    for (c = 0; c < SESSION_CALLS; c++)
        printf(" %10s", calls[c]);
    printf("\n");
    for (scheme = 0; scheme < 16; scheme++)
        for (i = 0; i < 4; i++) {
            n = sizes[i / 2];
            wish = i % 2 == 0;
            sprintf(place, "%s, n = %d, %s", schemes[scheme], (int)n, wish ? "supplied" : "differenced");
            memset(depth, 0, sizeof depth);
            run();
            printf("%-12s %2d  %-11s", schemes[scheme], (int)n, wish ? "supplied" : "differenced");
            for (c = 0; c < SESSION_CALLS; c++)
                if (depth[c] > 0)
                    printf(" %10zu", depth[c]);
                else
                    printf(" %10s", "-");
            printf("\n");
        }

    printf("\n");
    for (i = 0; i < 3; i++) {
        n = sizes[i];
        sprintf(place, "size = %d", (int)n);
        bare(EXPONENTIAL);
    }
    for (i = 0; i < 2; i++)
        for (order = 1; order <= 4; order++) {
            n = sizes[i];
            sprintf(place, "n = %d, order = %d", (int)n, (int)order);
            bare(PHI_ACTION);
            bare(PHI_GROWN);
        }
    for (i = 0; i < 2; i++) {
        n = sizes[i];
        sprintf(place, "n = %d", (int)n);
        bare(ERROR_NORM);
    }
    for (i = 0; i < 2; i++) {
        n = s.numbers[VUNCHREM_N_AT] = sizes[i];
        sprintf(place, "n = %d", (int)n);
        bare(BRING_OVER);
    }

    printf("\nThe deepest of each call:\n");
    for (c = 0; c < CALLS; c++)
        sorted[c] = c;
    qsort(sorted, CALLS, sizeof *sorted, deeper);
    for (c = 0; c < CALLS; c++)
        printf("%-12s %6zu  %s\n", calls[sorted[c]], deepest[sorted[c]], where[sorted[c]]);
    printf("\nThe deepest of all: %zu bytes.\n", deepest[sorted[0]]);
    return 0;
}
