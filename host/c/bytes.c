/* The header's saving and restoring, and its names for the counts, for host/c/same.rs to call. */
#include "vunchrem.h"

/* Restores bytes over a session of threes, saves what is there then, and returns what restoring came to. */
uint32_t restore_and_save(const unsigned char *bytes, size_t length, unsigned char *saved, size_t saved_length) {
    vunchrem_session s;
    uint32_t code;
    size_t k;
    for (k = 0; k < VUNCHREM_NUMBERS; k++)
        s.numbers[k] = 3;
    for (k = 0; k < VUNCHREM_FIGURES; k++)
        s.figures[k] = 3.0;
    code = vunchrem_restore(&s, bytes, length);
    vunchrem_save(&s, saved, saved_length);
    return code;
}

/* The terms and squarings of the exponential of a matrix. */
void reach_of(uint64_t size, const double *m, size_t m_len, double *out, size_t out_len, uint64_t reach[2]) {
    vunchrem_reply r;
    vunchrem_exponential(size, m, m_len, out, out_len, r.words, VUNCHREM_WORDS, r.told, 1);
    reach[0] = r.words[VUNCHREM_FILLED_TERMS_AT];
    reach[1] = r.words[VUNCHREM_FILLED_SQUARINGS_AT];
}

/* Restores a session at rest with n components, takes a step with this Jacobian of 256 places up to Ready, every question answered by zeros, and
 * leaves the right-hand sides, Jacobians and products. Returns the outcome. */
uint64_t counts_of(const unsigned char *bytes, size_t length, size_t n, double step, const double *jacobian, uint64_t counts[3]) {
    static const double zeros[VUNCHREM_VECTOR];
    double out[VUNCHREM_VECTOR];
    vunchrem_session s;
    vunchrem_reply r;
    if (vunchrem_restore(&s, bytes, length) != VUNCHREM_BYTES_DONE)
        return VUNCHREM_REFUSED;
    vunchrem_begin(s.numbers, VUNCHREM_NUMBERS, s.figures, VUNCHREM_FIGURES, step, 1, jacobian, VUNCHREM_MATRIX, out, n, r.words, VUNCHREM_WORDS, r.told, 1);
    while (r.words[VUNCHREM_OUTCOME_AT] == VUNCHREM_ASK)
        vunchrem_supply(s.numbers, VUNCHREM_NUMBERS, s.figures, VUNCHREM_FIGURES, r.words[VUNCHREM_ASK_PLACE_AT], zeros, VUNCHREM_VECTOR, out, n,
                        r.words, VUNCHREM_WORDS, r.told, 1);
    counts[0] = r.words[VUNCHREM_READY_RHS_AT];
    counts[1] = r.words[VUNCHREM_READY_JACOBIANS_AT];
    counts[2] = r.words[VUNCHREM_READY_PRODUCTS_AT];
    return r.words[VUNCHREM_OUTCOME_AT];
}

/* A record by the header. */
void record_of(unsigned char *record, size_t target, size_t kind, size_t j, size_t k, double c) {
    vunchrem_put_record(record, target, kind, j, k, c);
}

/* Opens a run by a table, takes whole steps until one is refused or all are made, and saves the session. Returns the last refusal, 0 where there is none. */
uint64_t whole_steps(uint64_t scheme, uint64_t n, const double *absolute, const double *state, const unsigned char *table, size_t table_len,
                     double step, size_t steps, unsigned char *saved) {
    vunchrem_session s;
    vunchrem_reply r;
    vunchrem_open_by_table(scheme, n, 0.0, 1e-6, absolute, VUNCHREM_VECTOR, state, VUNCHREM_VECTOR, table, table_len,
                           s.numbers, VUNCHREM_NUMBERS, s.figures, VUNCHREM_FIGURES, r.words, VUNCHREM_WORDS, r.told, 1);
    while (steps-- > 0 && r.words[VUNCHREM_OUTCOME_AT] == VUNCHREM_RESTING)
        vunchrem_whole_step(step, table, table_len, s.numbers, VUNCHREM_NUMBERS, s.figures, VUNCHREM_FIGURES, r.words, VUNCHREM_WORDS, r.told, 1);
    vunchrem_save(&s, saved, VUNCHREM_BYTES);
    return r.words[VUNCHREM_REFUSAL_AT];
}
