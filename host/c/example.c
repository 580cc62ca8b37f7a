/* A stiff pair, u0' = -1000 (u0 - cos t) and u1' = u0 - u1, each with a tolerance of its own, stepped by Exprb32 from t = 0 to 0.1; then a NaN
 * answer, a huge word and a wrong length; then answers that come twice; then the session saved and restored; then what is counted; then whole steps
 * by a table. */
#include <math.h>
#include <stdio.h>
#include <stdlib.h>
#include <string.h>

#include "vunchrem.h"

enum { N = 2 };

static vunchrem_session s;
static vunchrem_reply r;
static uint64_t products;
static const double absolute[VUNCHREM_VECTOR] = {1e-9, 1e-6}, none[VUNCHREM_MATRIX];
static unsigned char saved[VUNCHREM_BYTES], again[VUNCHREM_BYTES], old[VUNCHREM_OLD_BYTES];

#define SESSION s.numbers, VUNCHREM_NUMBERS, s.figures, VUNCHREM_FIGURES
#define REPLY r.words, VUNCHREM_WORDS, r.told, 1

static void check(const char *what, int holds) {
    printf("%s ... %s\n", what, holds ? "ok" : "WRONG");
    if (!holds)
        exit(1);
}

/* The derivative at t and u, with +0.0 past n. */
static void f(double t, const double *u, double du[16]) {
    memset(du, 0, 16 * sizeof *du);
    du[0] = -1000.0 * (u[0] - cos(t));
    du[1] = u[0] - u[1];
}

/* Whether the three counts of the last call are these. */
static int counts(uint64_t first, uint64_t second, uint64_t third) {
    const uint64_t *k = r.words + VUNCHREM_COUNTS_AT;
    return k[0] == first && k[1] == second && k[2] == third;
}

/* One step by a right-hand side: begin with a differenced Jacobian, answer every question, accept. Returns 0, or the refusal's number with the
 * attempt dropped. The products of the step are left in products. */
static int step_by(void (*rhs)(double, const double *, double *), double h) {
    double u[N], du[16];
    vunchrem_begin(SESSION, h, 0, none, VUNCHREM_MATRIX, u, N, REPLY);
    if (r.words[VUNCHREM_OUTCOME_AT] == VUNCHREM_REFUSED)
        return (int)r.words[VUNCHREM_REFUSAL_AT];
    while (r.words[VUNCHREM_OUTCOME_AT] == VUNCHREM_ASK) {
        rhs(r.told[0], u, du);
        vunchrem_supply(SESSION, r.words[VUNCHREM_ASK_PLACE_AT], du, 16, u, N, REPLY);
    }
    if (r.words[VUNCHREM_OUTCOME_AT] == VUNCHREM_READY) {
        products = r.words[VUNCHREM_READY_PRODUCTS_AT];
        rhs(s.figures[VUNCHREM_TIME_AT] + h, u, du);
        vunchrem_accept(SESSION, du, 16, REPLY);
    }
    if (r.words[VUNCHREM_OUTCOME_AT] == VUNCHREM_REFUSED) {
        int k = (int)r.words[VUNCHREM_REFUSAL_AT];
        vunchrem_drop(SESSION, REPLY);
        return k;
    }
    return 0;
}

static int step(double h) {
    return step_by(f, h);
}

/* Whether a session is this one, bit for bit. */
static int same(const vunchrem_session *a) {
    return memcmp(a, &s, sizeof s) == 0;
}

/* Whether the last call was refused by this number and left the session and the output, two places that held -1.5. */
static int refused(uint64_t number, const vunchrem_session *kept, const double *out) {
    return r.words[VUNCHREM_OUTCOME_AT] == VUNCHREM_REFUSED && r.words[VUNCHREM_REFUSAL_AT] == number && counts(0, 0, 0) && same(kept) &&
           out[0] == -1.5 && out[1] == -1.5;
}

/* Every question of a step is answered twice, as by two detectors: the second answer comes when the next question is open, or the candidate there. */
static void twice(void) {
    static const double nan_answer[16] = {NAN};
    double u[N], du[16], out[N] = {-1.5, -1.5};
    vunchrem_session kept = s, once;
    uint64_t place, asked = 0;
    check("a step, each question answered once", step(0.01) == 0);
    once = s;
    s = kept;
    vunchrem_begin(SESSION, 0.01, 0, none, VUNCHREM_MATRIX, u, N, REPLY);
    while (r.words[VUNCHREM_OUTCOME_AT] == VUNCHREM_ASK) {
        vunchrem_reply next;
        place = r.words[VUNCHREM_ASK_PLACE_AT];
        check("questions have the places 0, 1, 2 and so on", place == asked++ && counts(place, 0, 0));
        f(r.told[0], u, du);
        kept = s;
        vunchrem_supply(SESSION, place + 1, du, 16, out, N, REPLY);
        check("an answer to the next question is refused by 9", refused(VUNCHREM_QUESTION, &kept, out));
        vunchrem_supply(SESSION, (UINT64_C(1) << 32) + place, nan_answer, 16, out, N, REPLY);
        check("and one to a question that there never is", refused(VUNCHREM_QUESTION, &kept, out));
        vunchrem_supply(SESSION, place, du, 16, u, N, REPLY);
        next = r;
        kept = s;
        vunchrem_supply(SESSION, place, du, 16, out, N, REPLY);
        check("the same answer again is refused, the last by 7",
              refused(next.words[VUNCHREM_OUTCOME_AT] == VUNCHREM_ASK ? VUNCHREM_QUESTION : VUNCHREM_PHASE, &kept, out));
        r = next;
    }
    check("three questions", asked == 3 && r.words[VUNCHREM_READY_RHS_AT] == asked);
    f(s.figures[VUNCHREM_TIME_AT] + 0.01, u, du);
    vunchrem_accept(SESSION, du, 16, REPLY);
    check("the step ends as with each answer once, bit for bit", same(&once));
}

static void saving(void) {
    static const size_t wrong[] = {0, 1, VUNCHREM_OLD_BYTES - 1, VUNCHREM_OLD_BYTES + 1, VUNCHREM_BYTES - 1, VUNCHREM_BYTES + 1};
    const size_t tolerances = VUNCHREM_NUMBERS + 8 * VUNCHREM_ABSOLUTE_AT, behind = tolerances + 8;
    double u[N] = {0.0}, du[16];
    vunchrem_session kept, end;
    size_t k;

    /* in mid-attempt, with one answer supplied */
    vunchrem_begin(SESSION, 0.01, 0, none, VUNCHREM_MATRIX, u, N, REPLY);
    f(r.told[0], u, du);
    vunchrem_supply(SESSION, r.words[VUNCHREM_ASK_PLACE_AT], du, 16, u, N, REPLY);
    kept = s;
    check("a session is saved", s.numbers[VUNCHREM_COUNT_AT] == 1 && vunchrem_save(&s, saved, VUNCHREM_BYTES) == VUNCHREM_BYTES_DONE);
    vunchrem_drop(SESSION, REPLY);
    check("and restored in mid-attempt, bit for bit", vunchrem_restore(&s, saved, VUNCHREM_BYTES) == VUNCHREM_BYTES_DONE && same(&kept));
    vunchrem_drop(SESSION, REPLY);

    /* bytes of the old layout, which had one tolerance, beside a session that has it for each component */
    for (k = 0; k < N; k++)
        s.figures[VUNCHREM_ABSOLUTE_AT + k] = 1e-6;
    kept = s;
    vunchrem_save(&s, saved, VUNCHREM_BYTES);
    memcpy(old, saved, behind);
    memcpy(old + behind, saved + tolerances + 8 * VUNCHREM_VECTOR, VUNCHREM_OLD_BYTES - behind);
    check("a step", step(0.01) == 0);
    end = s;
    check("bytes of the old layout are brought over", vunchrem_restore(&s, old, VUNCHREM_OLD_BYTES) == VUNCHREM_BYTES_DONE && same(&kept));
    check("and the run goes on, bit for bit", step(0.01) == 0 && same(&end));

    for (k = 0; k < sizeof wrong / sizeof *wrong; k++)
        check("bytes of another length are not restored", vunchrem_restore(&s, saved, wrong[k]) == VUNCHREM_BYTES_LENGTH && same(&end));
    printf("%s\n", vunchrem_bytes_words(VUNCHREM_BYTES_LENGTH));
    memcpy(again, saved, VUNCHREM_BYTES);
    check("nor is a session saved into less room", vunchrem_save(&s, again, VUNCHREM_BYTES - 1) == VUNCHREM_BYTES_ROOM);
    check("and nothing is written", memcmp(again, saved, VUNCHREM_BYTES) == 0);

    s.numbers[VUNCHREM_N_AT] = 257;
    vunchrem_save(&s, saved, VUNCHREM_BYTES);
    vunchrem_restore(&s, saved, VUNCHREM_BYTES);
    vunchrem_drop(SESSION, REPLY);
    check("an n that no byte holds is saved as 255, and refused by 1", saved[VUNCHREM_N_AT] == 255 && r.words[VUNCHREM_REFUSAL_AT] == VUNCHREM_SIZE);
    s = end;
}

static void counting(void) {
    static const double x[3] = {0.5, 1.0, -2147483648.0}, tolerance[16] = {1e-9}, u[16] = {1.0}, du[16] = {-64.0}, rate[VUNCHREM_MATRIX] = {-64.0};
    static const uint64_t squarings[3] = {0, 1, 32};
    double e[1], v[1];
    uint64_t terms;
    int k;

    for (k = 0; k < 3; k++) {
        vunchrem_exponential(1, &x[k], 1, e, 1, REPLY);
        printf("exp(%g) = %.17g\n", x[k], e[0]);
        check("bare exponential", r.words[VUNCHREM_OUTCOME_AT] == VUNCHREM_FILLED && fabs(e[0] - exp(x[k])) < 1e-14);
        check("its terms", r.words[VUNCHREM_FILLED_TERMS_AT] == 15);
        check("and its squarings", r.words[VUNCHREM_FILLED_SQUARINGS_AT] == squarings[k] && counts(15, squarings[k], 0));
    }
    vunchrem_exponential(1, none, 1, e, 1, REPLY);
    check("the series of 0 stops at its first term", e[0] == 1.0 && counts(1, 0, 0));

    /* u' = -64 u by NorsettEuler, whose step is one phi action. The row -32 -64 is halved eight times. */
    vunchrem_phi_action(1, 1, 0.5, rate, 1, du, 1, v, 1, REPLY);
    terms = r.words[VUNCHREM_FILLED_TERMS_AT];
    check("the terms and squarings of a phi action", terms >= 1 && terms <= 15 && counts(terms, 8, 0));
    vunchrem_open(VUNCHREM_NORSETT_EULER, 1, 0, 0.0, 1e-6, tolerance, 16, u, 16, du, 16, none, 16, SESSION, REPLY);
    check("open has no counts", r.words[VUNCHREM_OUTCOME_AT] == VUNCHREM_RESTING && counts(0, 0, 0));
    vunchrem_begin(SESSION, 0.5, 1, rate, VUNCHREM_MATRIX, e, 1, REPLY);
    check("a step by one phi action", r.words[VUNCHREM_OUTCOME_AT] == VUNCHREM_READY && e[0] == 1.0 + 0.5 * v[0]);
    check("asks nothing, with one Jacobian", r.words[VUNCHREM_READY_RHS_AT] == 0 && r.words[VUNCHREM_READY_JACOBIANS_AT] == 1);
    check("and has the products of that", r.words[VUNCHREM_READY_PRODUCTS_AT] == terms + 8 && counts(0, 1, terms + 8));
    vunchrem_drop(SESSION, REPLY);
    check("drop has no counts", r.words[VUNCHREM_OUTCOME_AT] == VUNCHREM_RESTING && counts(0, 0, 0));
    vunchrem_begin(SESSION, 0.5, 0, none, VUNCHREM_MATRIX, e, 1, REPLY);
    check("a question has its place, the first one 0", r.words[VUNCHREM_OUTCOME_AT] == VUNCHREM_ASK && counts(0, 0, 0));
    memset(r.words, 0xff, sizeof r.words);
    vunchrem_begin(SESSION, 0.5, 0, none, VUNCHREM_MATRIX, e, 1, REPLY);
    check("a refusal has none", r.words[VUNCHREM_OUTCOME_AT] == VUNCHREM_REFUSED && counts(0, 0, 0));
}

/* The derivative that the table below gives, in its order. */
static void g(double t, const double *u, double du[16]) {
    memset(du, 0, 16 * sizeof *du);
    du[0] = -100.0 * u[0] + (3.0 * u[1]) * t;
    du[1] = (0.5 + 1.0 * u[0]) + (-1.0 * u[0]) * u[1];
}

static void by_table(void) {
    enum { RECORDS = 5, LENGTH = RECORDS * VUNCHREM_RECORD, MOST = VUNCHREM_RECORDS * VUNCHREM_RECORD };
    static const unsigned char many[MOST + VUNCHREM_RECORD];
    static const double u[16] = {1.0, 2.0};
    unsigned char table[LENGTH];
    double du[16];
    vunchrem_session kept, end;
    int k;

    vunchrem_put_record(table, 0, VUNCHREM_LINEAR, 0, 0, -100.0);
    vunchrem_put_record(table + 1 * VUNCHREM_RECORD, 0, VUNCHREM_TIMED, 1, 0, 3.0);
    vunchrem_put_record(table + 2 * VUNCHREM_RECORD, 1, VUNCHREM_CONSTANT, 0, 0, 0.5);
    vunchrem_put_record(table + 3 * VUNCHREM_RECORD, 1, VUNCHREM_LINEAR, 0, 0, 1.0);
    vunchrem_put_record(table + 4 * VUNCHREM_RECORD, 1, VUNCHREM_PRODUCT, 0, 1, -1.0);

    g(0.25, u, du);
    vunchrem_open(VUNCHREM_EXPRB43, N, 0, 0.25, 1e-6, absolute, 16, u, 16, du, 16, none, 16, SESSION, REPLY);
    kept = s;
    vunchrem_open_by_table(VUNCHREM_EXPRB43, N, 0.25, 1e-6, absolute, 16, u, 16, table, LENGTH, SESSION, REPLY);
    check("open by a table is open with its derivative", r.words[VUNCHREM_OUTCOME_AT] == VUNCHREM_RESTING && same(&kept));
    for (k = 0; k < 10; k++)
        check("a step by the calls", step_by(g, 0.01) == 0);
    end = s;
    s = kept;
    for (k = 0; k < 10; k++) {
        vunchrem_whole_step(0.01, table, LENGTH, SESSION, REPLY);
        check("a whole step by the table", r.words[VUNCHREM_OUTCOME_AT] == VUNCHREM_RESTING && counts(0, 0, 0));
    }
    printf("u(%g) = %.9f, %.9f\n", s.figures[VUNCHREM_TIME_AT], s.figures[VUNCHREM_STATE_AT], s.figures[VUNCHREM_STATE_AT + 1]);
    check("both end in the same session, bit for bit", same(&end));

    vunchrem_whole_step(0.0, table, LENGTH - 1, SESSION, REPLY);
    check("a table of another length is refused by 8", r.words[VUNCHREM_REFUSAL_AT] == VUNCHREM_TABLE && same(&end));
    table[LENGTH - VUNCHREM_RECORD] = N;
    vunchrem_whole_step(0.0, table, LENGTH, SESSION, REPLY);
    check("and one with a target that is not there", r.words[VUNCHREM_REFUSAL_AT] == VUNCHREM_TABLE && same(&end));
    table[LENGTH - VUNCHREM_RECORD] = 1;
    vunchrem_whole_step(0.0, table, LENGTH, SESSION, REPLY);
    check("a whole step 0 by 5", r.words[VUNCHREM_REFUSAL_AT] == VUNCHREM_STEP && same(&end));
    vunchrem_put_record(table, 0, VUNCHREM_PRODUCT, 1, 1, 1e308);
    vunchrem_whole_step(0.01, table, LENGTH, SESSION, REPLY);
    check("a derivative that overflows by 3", r.words[VUNCHREM_REFUSAL_AT] == VUNCHREM_NOT_FINITE && same(&end));
    check("a wrong length of another slice gives 1", vunchrem_whole_step(0.01, table, LENGTH, s.numbers, 4, s.figures, VUNCHREM_FIGURES, REPLY) == 1);
    check("and touches nothing", same(&end));
    vunchrem_put_record(table, 0, VUNCHREM_LINEAR, 257, 0, 1.0);
    check("a number above 255 is written as 255", table[2] == 255);
    vunchrem_open_by_table(VUNCHREM_EXPRB43, N, 0.25, 1e-6, absolute, 16, u, 16, table, LENGTH, SESSION, REPLY);
    check("and refused by 8", r.words[VUNCHREM_REFUSAL_AT] == VUNCHREM_TABLE);
    vunchrem_open_by_table(VUNCHREM_EXPRB43, N, 0.25, 1e-6, absolute, 16, u, 16, table, 0, SESSION, REPLY);
    check("an empty table is taken", r.words[VUNCHREM_OUTCOME_AT] == VUNCHREM_RESTING && s.figures[VUNCHREM_DERIVATIVE_AT] == 0.0);
    vunchrem_open_by_table(VUNCHREM_EXPRB43, N, 0.25, 1e-6, absolute, 16, u, 16, many, MOST, SESSION, REPLY);
    check("and one with the most records", r.words[VUNCHREM_OUTCOME_AT] == VUNCHREM_RESTING);
    vunchrem_whole_step(0.01, many, sizeof many, SESSION, REPLY);
    check("one more is refused by 8", r.words[VUNCHREM_REFUSAL_AT] == VUNCHREM_TABLE);
}

int main(void) {
    double u[16] = {0.0}, du[16], out[N] = {-1.5, -1.5}, bad[16] = {0.0};
    vunchrem_session kept;
    uint64_t place;
    int k = 0;

    f(0.0, u, du);
    vunchrem_open(VUNCHREM_EXPRB32, N, 0, 0.0, 1e-6, absolute, 16, u, 16, du, 16, none, 16, SESSION, REPLY);
    check("open", r.words[VUNCHREM_OUTCOME_AT] == VUNCHREM_RESTING);
    while (k < 10 && step(0.01) == 0)
        k++;
    printf("u0(%g) = %.9f, cos = %.9f\n", s.figures[VUNCHREM_TIME_AT], s.figures[VUNCHREM_STATE_AT], cos(s.figures[VUNCHREM_TIME_AT]));
    check("ten steps", k == 10 && fabs(s.figures[VUNCHREM_STATE_AT] - cos(0.1)) < 1e-2);
    printf("%d matrix products in the last\n", (int)products);
    check("of three exponentials, at most 47 products each", products >= 3 && products <= 3 * 47);

    kept = s;
    check("step 0 is refused by 5", step(0.0) == VUNCHREM_STEP && same(&kept));

    vunchrem_begin(SESSION, 0.01, 0, none, VUNCHREM_MATRIX, u, N, REPLY);
    place = r.words[VUNCHREM_ASK_PLACE_AT];
    kept = s;
    bad[0] = NAN;
    vunchrem_supply(SESSION, place, bad, 16, out, N, REPLY);
    check("a NaN answer is refused by 3, and leaves session and output", refused(VUNCHREM_NOT_FINITE, &kept, out));
    bad[0] = 1e308;
    vunchrem_supply(SESSION, place, bad, 16, out, N, REPLY);
    check("a huge word is refused by 6", r.words[VUNCHREM_REFUSAL_AT] == VUNCHREM_ARITHMETIC && same(&kept));
    vunchrem_drop(SESSION, REPLY);

    kept = s;
    check("a wrong length gives 1", vunchrem_drop(s.numbers, 4, s.figures, VUNCHREM_FIGURES, REPLY) == 1);
    check("and touches nothing", same(&kept));

    twice();
    saving();

    check("a scheme that no byte holds is refused by 2", (s.numbers[VUNCHREM_SCHEME_AT] = 256 + 14, vunchrem_drop(SESSION, REPLY) == 0) &&
          r.words[VUNCHREM_REFUSAL_AT] == VUNCHREM_SCHEME && s.numbers[VUNCHREM_SCHEME_AT] == 256 + 14);

    counting();
    by_table();
    return 0;
}
