/* Writes the header's constants as crates/layout writes those of the core's crate `image`: host/test compares the two. */
#include <stdio.h>

#include "vunchrem.h"

#define SAY(name) printf(#name " %06d\n", (int)VUNCHREM_##name)

int main(void) {
    SAY(VECTOR);
    SAY(MATRIX);
    SAY(ANSWERS);
    SAY(SCHEME_AT);
    SAY(N_AT);
    SAY(HISTORY_AT);
    SAY(ATTEMPT_AT);
    SAY(COUNT_AT);
    SAY(NUMBERS);
    SAY(TIME_AT);
    SAY(STEP_AT);
    SAY(RELATIVE_AT);
    SAY(ABSOLUTE_AT);
    SAY(STATE_AT);
    SAY(DERIVATIVE_AT);
    SAY(PREVIOUS_AT);
    SAY(JACOBIAN_AT);
    SAY(ANSWERS_AT);
    SAY(FIGURES);
    SAY(OLD_FIGURES);
    SAY(BYTES);
    SAY(OLD_BYTES);
    SAY(OUTCOME_AT);
    SAY(REFUSAL_AT);
    SAY(COUNTS_AT);
    SAY(COUNTS);
    SAY(WORDS);
    SAY(REFUSED);
    SAY(ASK);
    SAY(READY);
    SAY(RESTING);
    SAY(FIRST_STEP);
    SAY(FILLED);
    SAY(NORM);
    return 0;
}
