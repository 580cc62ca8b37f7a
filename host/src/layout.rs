//! How many numbers, figures and words cross to the core, where each field stands among them, and the outcomes' numbers: as the core's crate
//! `image` has them. The tests compare them with what that crate says (crates/layout/stdout).

macro_rules! constants {
    ($($name:ident = $value:expr;)*) => {
        $(
            #[allow(dead_code)]
            pub const $name: usize = $value;
        )*
        #[cfg(test)]
        pub const ALL: &[(&str, usize)] = &[$((stringify!($name), $name)),*];
    };
}

constants! {
    VECTOR = 16;
    MATRIX = VECTOR * VECTOR;
    ANSWERS = 20 * VECTOR;
    // among the numbers
    SCHEME_AT = 0;
    N_AT = SCHEME_AT + 1;
    HISTORY_AT = N_AT + 1;
    ATTEMPT_AT = HISTORY_AT + 1;
    COUNT_AT = ATTEMPT_AT + 1;
    NUMBERS = COUNT_AT + 1;
    // among the figures
    TIME_AT = 0;
    STEP_AT = TIME_AT + 1;
    RELATIVE_AT = STEP_AT + 1;
    ABSOLUTE_AT = RELATIVE_AT + 1;
    STATE_AT = ABSOLUTE_AT + VECTOR;
    DERIVATIVE_AT = STATE_AT + VECTOR;
    PREVIOUS_AT = DERIVATIVE_AT + VECTOR;
    JACOBIAN_AT = PREVIOUS_AT + VECTOR;
    ANSWERS_AT = JACOBIAN_AT + MATRIX;
    FIGURES = ANSWERS_AT + ANSWERS;
    // under the old layout, which had one absolute tolerance
    OLD_FIGURES = FIGURES - VECTOR + 1;
    // bytes of a saved session: one for each number, eight for each figure
    BYTES = NUMBERS + 8 * FIGURES;
    OLD_BYTES = NUMBERS + 8 * OLD_FIGURES;
    // among the words of a reply; its counts mean something else with each outcome
    OUTCOME_AT = 0;
    REFUSAL_AT = OUTCOME_AT + 1;
    COUNTS_AT = REFUSAL_AT + 1;
    COUNTS = 3;
    WORDS = COUNTS_AT + COUNTS;
    // the outcomes
    REFUSED = 0;
    ASK = 1;
    READY = 2;
    RESTING = 3;
    FIRST_STEP = 4;
    FILLED = 5;
    NORM = 6;
}
