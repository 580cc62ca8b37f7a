/* The stepping core for programs in C. Link target/staticlib/liblibrary.a.
 *
 * A session crosses as two arrays that the caller holds: 5 numbers and 643 figures. Every function tests every length itself and requires
 * nothing of the numbers. A slice is a pointer and a length; the pointer is not NULL, and no two slices of one call overlap.
 *
 * Each function returns 0 where the call was made, and 1 where a length is another than its own; then nothing is touched. What the call tells
 * stands in words[5] and told[1], see vunchrem_reply. A call works on the session where it stands; a refused one leaves it, and the output that it
 * was lent, as they were. A refused open overwrites the session that it was handed, by one that any call refuses by 1. */
#ifndef VUNCHREM_H
#define VUNCHREM_H

#include <stddef.h>
#include <stdint.h>
#include <string.h>

#ifdef __cplusplus
extern "C" {
#endif

/* The schemes, by number. */
enum vunchrem_scheme {
    VUNCHREM_LAWSON_EULER, VUNCHREM_NORSETT_EULER, VUNCHREM_ETDRK2, VUNCHREM_ETDRK3, VUNCHREM_ETDRK4, VUNCHREM_HOCH_OST4,
    VUNCHREM_EXP4, VUNCHREM_EPIRK4S3A, VUNCHREM_EPIRK4S3B, VUNCHREM_EPIRK5S3, VUNCHREM_EXPRB53S3, VUNCHREM_EPIRK5P1,
    VUNCHREM_EPIRK5P2, VUNCHREM_ETD2, VUNCHREM_EXPRB32, VUNCHREM_EXPRB43
};

/* What a call came to: words[VUNCHREM_OUTCOME_AT]. */
enum vunchrem_outcome {
    VUNCHREM_REFUSED, VUNCHREM_ASK, VUNCHREM_READY, VUNCHREM_RESTING, VUNCHREM_FIRST_STEP, VUNCHREM_FILLED, VUNCHREM_NORM
};

/* Why a call was refused: words[VUNCHREM_REFUSAL_AT], 0 where it was not. */
enum vunchrem_refusal {
    VUNCHREM_SIZE = 1,       /* a dimension, size, order or length does not fit */
    VUNCHREM_SCHEME = 2,     /* no such scheme, or a history under another scheme than Etd2 */
    VUNCHREM_NOT_FINITE = 3, /* a number is infinite or NaN */
    VUNCHREM_TOLERANCE = 4,  /* a tolerance is not finite and positive */
    VUNCHREM_STEP = 5,       /* the step is zero or not finite, or the largest step is NaN or below 2^-52 */
    VUNCHREM_ARITHMETIC = 6, /* the step's arithmetic is too large to be trusted */
    VUNCHREM_PHASE = 7,      /* the session is in another phase */
    VUNCHREM_TABLE = 8,      /* a table has a wrong length, or a record that breaks a rule, see VUNCHREM_RECORD */
    VUNCHREM_QUESTION = 9    /* an answer to another question than the open one, see vunchrem_supply */
};

/* Bytes of a table's record, and the most records of a table, which has no header and may be empty. Each record is one term of the right-hand side,
 * added to one component of the derivative, the target, in the order in which they stand, from +0.0 on. Byte 0 is the target, byte 1 the kind,
 * byte 2 j and byte 3 k, each zero where the kind does not use it, bytes 4 to 7 are zero, and bytes 8 to 15 are c, a finite double, lowest byte
 * first. Target, j and k are below n. */
#define VUNCHREM_RECORD 16
#define VUNCHREM_RECORDS 256

/* The kinds of a record. */
enum vunchrem_kind {
    VUNCHREM_CONSTANT, /* c */
    VUNCHREM_LINEAR,   /* c * u_j */
    VUNCHREM_PRODUCT,  /* (c * u_j) * u_k */
    VUNCHREM_TIMED     /* (c * u_j) * time */
};

/* The largest dimension. */
#define VUNCHREM_MOST VUNCHREM_VECTOR

/* Places of a vector, of a Jacobian, of the answers. */
#define VUNCHREM_VECTOR 16
#define VUNCHREM_MATRIX (VUNCHREM_VECTOR * VUNCHREM_VECTOR)
#define VUNCHREM_ANSWERS (20 * VUNCHREM_VECTOR)

/* Where each of a session's numbers stands, and how many there are. */
#define VUNCHREM_SCHEME_AT 0
#define VUNCHREM_N_AT (VUNCHREM_SCHEME_AT + 1)
#define VUNCHREM_HISTORY_AT (VUNCHREM_N_AT + 1)
#define VUNCHREM_ATTEMPT_AT (VUNCHREM_HISTORY_AT + 1)
#define VUNCHREM_COUNT_AT (VUNCHREM_ATTEMPT_AT + 1)
#define VUNCHREM_NUMBERS (VUNCHREM_COUNT_AT + 1)

/* Where each of its figures stands, and how many there are. */
#define VUNCHREM_TIME_AT 0
#define VUNCHREM_STEP_AT (VUNCHREM_TIME_AT + 1)
#define VUNCHREM_RELATIVE_AT (VUNCHREM_STEP_AT + 1)
#define VUNCHREM_ABSOLUTE_AT (VUNCHREM_RELATIVE_AT + 1)
#define VUNCHREM_STATE_AT (VUNCHREM_ABSOLUTE_AT + VUNCHREM_VECTOR)
#define VUNCHREM_DERIVATIVE_AT (VUNCHREM_STATE_AT + VUNCHREM_VECTOR)
#define VUNCHREM_PREVIOUS_AT (VUNCHREM_DERIVATIVE_AT + VUNCHREM_VECTOR)
#define VUNCHREM_JACOBIAN_AT (VUNCHREM_PREVIOUS_AT + VUNCHREM_VECTOR)
#define VUNCHREM_ANSWERS_AT (VUNCHREM_JACOBIAN_AT + VUNCHREM_MATRIX)
#define VUNCHREM_FIGURES (VUNCHREM_ANSWERS_AT + VUNCHREM_ANSWERS)

/* How many there were under the old layout, which had one absolute tolerance. */
#define VUNCHREM_OLD_FIGURES (VUNCHREM_FIGURES - VUNCHREM_VECTOR + 1)

/* Bytes of a saved session, under either layout: one for each number, eight for each figure. */
#define VUNCHREM_BYTES (VUNCHREM_NUMBERS + 8 * VUNCHREM_FIGURES)
#define VUNCHREM_OLD_BYTES (VUNCHREM_NUMBERS + 8 * VUNCHREM_OLD_FIGURES)

/* Where each word of a reply stands, and how many there are. */
#define VUNCHREM_OUTCOME_AT 0
#define VUNCHREM_REFUSAL_AT (VUNCHREM_OUTCOME_AT + 1)
#define VUNCHREM_COUNTS_AT (VUNCHREM_REFUSAL_AT + 1)
#define VUNCHREM_COUNTS 3
#define VUNCHREM_WORDS (VUNCHREM_COUNTS_AT + VUNCHREM_COUNTS)

/* Which of the counts is which. Of Ask: the question's place in the attempt, from 0, which vunchrem_supply wants back; the others are 0. Of Ready: the
 * right-hand sides that the attempt asked for; the Jacobians, 1; the matrix products, which are the terms and squarings of every exponential that the
 * published Rust makes in the pass, repeats counted, at most 1598. Of Filled: the terms of the series, 1 to 15, and the squarings, 0 to 32, one more for
 * each doubling of the matrix; the third is 0. With every other outcome all three are 0. */
#define VUNCHREM_ASK_PLACE_AT VUNCHREM_COUNTS_AT
#define VUNCHREM_READY_RHS_AT VUNCHREM_COUNTS_AT
#define VUNCHREM_READY_JACOBIANS_AT (VUNCHREM_COUNTS_AT + 1)
#define VUNCHREM_READY_PRODUCTS_AT (VUNCHREM_COUNTS_AT + 2)
#define VUNCHREM_FILLED_TERMS_AT VUNCHREM_COUNTS_AT
#define VUNCHREM_FILLED_SQUARINGS_AT (VUNCHREM_COUNTS_AT + 1)

/* A session: scheme, n, history (0 none, 1 held), attempt (0 none, 1 Jacobian supplied, 2 differenced), count of answers; and time, step,
 * relative tolerance, absolute tolerances 16, state 16, derivative 16, history 16, Jacobian 256, answers 320. Entries past n and places not in
 * use are +0.0. A scheme above 255 counts as 255, a history above 1 as held, an attempt above 2 as differenced. */
typedef struct {
    uint64_t numbers[VUNCHREM_NUMBERS];
    double figures[VUNCHREM_FIGURES];
} vunchrem_session;

/* What a call tells: outcome, refusal and three counts (Ask's, Ready's or Filled's, else 0); and Ask's time, Ready's error norm, the first step or
 * the norm, else +0.0. */
typedef struct {
    uint64_t words[VUNCHREM_WORDS];
    double told[1];
} vunchrem_reply;

/* Opens a run. absolute, each component's own tolerance, state, derivative and previous have 16 places; held is 0 where there is no history. */
uint32_t vunchrem_open(uint64_t scheme, uint64_t n, uint64_t held, double time, double relative,
                       const double *absolute, size_t absolute_len, const double *state, size_t state_len,
                       const double *derivative, size_t derivative_len, const double *previous, size_t previous_len,
                       uint64_t *numbers, size_t numbers_len, double *figures, size_t figures_len,
                       uint64_t *words, size_t words_len, double *told, size_t told_len);

/* Begins an attempt. wish 0 differences the Jacobian, whose 256 places are then +0.0; otherwise it is given, n * n entries row by row. The first
 * question, or the candidate, fills out, which has n places. */
uint32_t vunchrem_begin(uint64_t *numbers, size_t numbers_len, double *figures, size_t figures_len, double step, uint64_t wish,
                        const double *jacobian, size_t jacobian_len, double *out, size_t out_len,
                        uint64_t *words, size_t words_len, double *told, size_t told_len);

/* Supplies the derivative that a question asked for, 16 places, with the place that came with that question. The next question, or the candidate,
 * fills out, which has n places. Where another question is open the answer is refused by 9, and where none is open any more by 7: a duplicate or
 * late one changes nothing. Places count from 0 again in each attempt of each session: an answer that is left over from an earlier attempt, accepted
 * or dropped, or from another session is not recognised by its place, and is taken where the open question has the same one. */
uint32_t vunchrem_supply(uint64_t *numbers, size_t numbers_len, double *figures, size_t figures_len, uint64_t place,
                         const double *answer, size_t answer_len, double *out, size_t out_len,
                         uint64_t *words, size_t words_len, double *told, size_t told_len);

/* Accepts the candidate, with the derivative there, 16 places. */
uint32_t vunchrem_accept(uint64_t *numbers, size_t numbers_len, double *figures, size_t figures_len,
                         const double *derivative, size_t derivative_len,
                         uint64_t *words, size_t words_len, double *told, size_t told_len);

/* Drops the attempt, if there is one. */
uint32_t vunchrem_drop(uint64_t *numbers, size_t numbers_len, double *figures, size_t figures_len,
                       uint64_t *words, size_t words_len, double *told, size_t told_len);

/* The first step that the run's figures suggest, at most largest. */
uint32_t vunchrem_first_step(const uint64_t *numbers, size_t numbers_len, const double *figures, size_t figures_len, double largest,
                             uint64_t *words, size_t words_len, double *told, size_t told_len);

/* The exponential of a matrix of size 1 to 20, row by row; m and out have size * size places. Its counts say how far it went. */
uint32_t vunchrem_exponential(uint64_t size, const double *m, size_t m_len, double *out, size_t out_len,
                              uint64_t *words, size_t words_len, double *told, size_t told_len);

/* The phi function of order 1 to 4 of scale_a times the matrix a, on n numbers. Its counts are those of its exponential, of size n + order. */
uint32_t vunchrem_phi_action(uint64_t n, uint64_t order, double scale_a, const double *a, size_t a_len,
                             const double *input, size_t input_len, double *out, size_t out_len,
                             uint64_t *words, size_t words_len, double *told, size_t told_len);

/* The scaled error norm of n entries; absolute, error, state and candidate have 16 places. */
uint32_t vunchrem_error_norm(uint64_t n, double relative, const double *absolute, size_t absolute_len, const double *error, size_t error_len,
                             const double *state, size_t state_len, const double *candidate, size_t candidate_len,
                             uint64_t *words, size_t words_len, double *told, size_t told_len);

/* Brings over a session of the old layout: its figures, old, with the tolerance in each of the first n places (in all, if n is above 16). The
 * numbers stay as they are. Nothing is judged: the next call judges the session. */
uint32_t vunchrem_bring_over(const uint64_t *numbers, size_t numbers_len, const double *old, size_t old_len, double *figures, size_t figures_len);

/* Opens a run whose derivative is the table's at time and state, with no history; absolute and state have 16 places, the table any length. Refused as
 * vunchrem_open refuses with a derivative of +0.0, then by 8, then by 3 where the derivative is not finite. */
uint32_t vunchrem_open_by_table(uint64_t scheme, uint64_t n, double time, double relative,
                                const double *absolute, size_t absolute_len, const double *state, size_t state_len,
                                const unsigned char *table, size_t table_len,
                                uint64_t *numbers, size_t numbers_len, double *figures, size_t figures_len,
                                uint64_t *words, size_t words_len, double *told, size_t told_len);

/* One whole step of a session at rest: the Jacobian is differenced, every question answered by the table, and the candidate accepted whatever its error
 * norm, with the table's derivative there. The table has any length. Refused first by what is wrong with the session, then by 8, then by 5, then as the step
 * comes: by 3 where a derivative is not finite, by 6 for the arithmetic. The outcome is Resting, or Refused with the session as it came. */
uint32_t vunchrem_whole_step(double step, const unsigned char *table, size_t table_len,
                             uint64_t *numbers, size_t numbers_len, double *figures, size_t figures_len,
                             uint64_t *words, size_t words_len, double *told, size_t told_len);

/* What saving and restoring come to; vunchrem_bytes_words has it in words. */
enum vunchrem_bytes_code { VUNCHREM_BYTES_DONE, VUNCHREM_BYTES_ROOM, VUNCHREM_BYTES_LENGTH };

static inline const char *vunchrem_bytes_words(uint32_t code) {
    switch (code) {
    case VUNCHREM_BYTES_DONE: return "done";
    case VUNCHREM_BYTES_ROOM: return "the room for a saved session is not of VUNCHREM_BYTES bytes";
    case VUNCHREM_BYTES_LENGTH: return "these are no bytes of a saved session: neither VUNCHREM_BYTES nor VUNCHREM_OLD_BYTES of them";
    default: return "no such code";
    }
}

/* A double as eight bytes, the lowest first; every NaN as 0x7ff8000000000000. */
static inline void vunchrem_put_double(unsigned char *bytes, double x) {
    uint64_t bits;
    size_t i;
    memcpy(&bits, &x, sizeof bits);
    if ((bits & UINT64_C(0x7fffffffffffffff)) > UINT64_C(0x7ff0000000000000))
        bits = UINT64_C(0x7ff8000000000000);
    for (i = 0; i < 8; i++)
        bytes[i] = (unsigned char)(bits >> 8 * i & 0xff);
}

/* Writes a record, VUNCHREM_RECORD bytes; j and k are 0 where the kind does not use them. A number above 255 is written as 255, which no call takes. */
static inline void vunchrem_put_record(unsigned char *record, size_t target, size_t kind, size_t j, size_t k, double c) {
    const size_t numbers[4] = {target, kind, j, k};
    size_t i;
    for (i = 0; i < 4; i++)
        record[i] = numbers[i] < 255 ? (unsigned char)numbers[i] : 255;
    memset(record + 4, 0, 4);
    vunchrem_put_double(record + 8, c);
}

/* Doubles from eight bytes each. */
static inline void vunchrem_get_doubles(double *x, const unsigned char *bytes, size_t count) {
    size_t i, k;
    for (k = 0; k < count; k++) {
        uint64_t bits = 0;
        for (i = 0; i < 8; i++)
            bits |= (uint64_t)bytes[8 * k + i] << 8 * i;
        memcpy(&x[k], &bits, sizeof bits);
    }
}

/* Saves a session into VUNCHREM_BYTES bytes, the same on every machine: the image that the program console shows. Its attempt and the answers so
 * far are in them, the open question is not. A number above what its byte holds counts as the most that it holds: 255, of a history 1, of an
 * attempt 2; so an n of 257, which is refused, does not turn into 1. Where length is another, nothing is written. */
static inline uint32_t vunchrem_save(const vunchrem_session *session, unsigned char *bytes, size_t length) {
    static const unsigned char most[VUNCHREM_NUMBERS] = {255, 255, 1, 2, 255};
    size_t k;
    if (length != VUNCHREM_BYTES)
        return VUNCHREM_BYTES_ROOM;
    for (k = 0; k < VUNCHREM_NUMBERS; k++)
        bytes[k] = session->numbers[k] < most[k] ? (unsigned char)session->numbers[k] : most[k];
    for (k = 0; k < VUNCHREM_FIGURES; k++)
        vunchrem_put_double(bytes + VUNCHREM_NUMBERS + 8 * k, session->figures[k]);
    return VUNCHREM_BYTES_DONE;
}

/* Brings back a saved session. Bytes of the old layout are told by their length and brought over, by way of 5 KB of stack; bytes of any other length
 * leave the session as it was. Nothing else is judged: the next call judges the session. */
static inline uint32_t vunchrem_restore(vunchrem_session *session, const unsigned char *bytes, size_t length) {
    uint64_t numbers[VUNCHREM_NUMBERS];
    size_t k;
    if (length != VUNCHREM_BYTES && length != VUNCHREM_OLD_BYTES)
        return VUNCHREM_BYTES_LENGTH;
    for (k = 0; k < VUNCHREM_NUMBERS; k++)
        numbers[k] = bytes[k];
    if (length == VUNCHREM_BYTES) {
        vunchrem_get_doubles(session->figures, bytes + VUNCHREM_NUMBERS, VUNCHREM_FIGURES);
    } else {
        double old[VUNCHREM_OLD_FIGURES];
        vunchrem_get_doubles(old, bytes + VUNCHREM_NUMBERS, VUNCHREM_OLD_FIGURES);
        if (vunchrem_bring_over(numbers, VUNCHREM_NUMBERS, old, VUNCHREM_OLD_FIGURES, session->figures, VUNCHREM_FIGURES) != 0)
            return VUNCHREM_BYTES_LENGTH;
    }
    memcpy(session->numbers, numbers, sizeof numbers);
    return VUNCHREM_BYTES_DONE;
}

#ifdef __cplusplus
}
#endif

#endif
