//! The model's image and replies have the layout that the core's crate `image` has: crates/layout writes its constants, and the gate holds that
//! program to its stdout.

use oracle::console::{self, BRING_OVER, BYTES, FIGURES, NUMBERS, SHOW, image, put_answer};
use oracle::model::{ANSWERS, Answer, Attempt, PLACES, Session};
use oracle::old_session::{OLD_BYTES, OLD_FIGURES, OldSession};

fn constant(name: &str) -> usize {
    let lines = include_str!("../../crates/layout/stdout").lines();
    let mut found = lines.filter_map(|line| line.strip_prefix(name)?.strip_prefix(' '));
    let value = found.next().unwrap_or_else(|| panic!("no {name}"));
    assert!(found.next().is_none(), "{name} twice");
    value.parse().unwrap()
}

// The number at a place, and the figure.
fn number(bytes: &[u8], name: &str) -> u8 {
    bytes[constant(name)]
}

fn figure(bytes: &[u8], at: usize) -> f64 {
    let at = constant("NUMBERS") + 8 * at;
    f64::from_le_bytes(bytes[at..at + 8].try_into().unwrap())
}

#[test]
fn an_image_has_its_fields_where_the_core_has_them() {
    assert_eq!(constant("VECTOR"), PLACES);
    assert_eq!(constant("MATRIX"), PLACES * PLACES);
    assert_eq!(constant("ANSWERS"), ANSWERS * PLACES);
    assert_eq!(constant("NUMBERS"), NUMBERS);
    assert_eq!(constant("FIGURES"), FIGURES);
    assert_eq!(constant("BYTES"), BYTES);
    // A different number in every place, in the order of the fields.
    let mut next = 0.0;
    let mut one = || {
        next += 1.0;
        next
    };
    let mut session = Session::blank();
    (session.scheme, session.n, session.count) = (201, 202, 203);
    (session.history_held, session.attempt) = (true, Attempt::Differenced);
    session.time = one();
    session.step = one();
    session.relative = one();
    session.absolute = std::array::from_fn(|_| one());
    session.state = std::array::from_fn(|_| one());
    session.derivative = std::array::from_fn(|_| one());
    session.history = std::array::from_fn(|_| one());
    session.jacobian = std::array::from_fn(|_| one());
    session.answers = std::array::from_fn(|_| std::array::from_fn(|_| one()));
    let bytes = image(&session);
    assert_eq!(bytes.len(), BYTES);
    assert_eq!(number(&bytes, "SCHEME_AT"), session.scheme);
    assert_eq!(number(&bytes, "N_AT"), session.n);
    assert_eq!(number(&bytes, "HISTORY_AT"), 1);
    assert_eq!(number(&bytes, "ATTEMPT_AT"), 2);
    assert_eq!(number(&bytes, "COUNT_AT"), session.count);
    assert_eq!(figure(&bytes, constant("TIME_AT")), session.time);
    assert_eq!(figure(&bytes, constant("STEP_AT")), session.step);
    assert_eq!(figure(&bytes, constant("RELATIVE_AT")), session.relative);
    for i in 0..PLACES {
        assert_eq!(figure(&bytes, constant("ABSOLUTE_AT") + i), session.absolute[i]);
        assert_eq!(figure(&bytes, constant("STATE_AT") + i), session.state[i]);
        assert_eq!(figure(&bytes, constant("DERIVATIVE_AT") + i), session.derivative[i]);
        assert_eq!(figure(&bytes, constant("PREVIOUS_AT") + i), session.history[i]);
    }
    for i in 0..PLACES * PLACES {
        assert_eq!(figure(&bytes, constant("JACOBIAN_AT") + i), session.jacobian[i]);
    }
    for i in 0..ANSWERS * PLACES {
        assert_eq!(figure(&bytes, constant("ANSWERS_AT") + i), session.answers[i / PLACES][i % PLACES]);
    }
}

/// The page's order of an old image: the numbers, then every figure in its turn.
#[test]
fn an_old_image_has_one_tolerance() {
    assert_eq!(constant("OLD_FIGURES"), OLD_FIGURES);
    assert_eq!(constant("OLD_BYTES"), OLD_BYTES);
    let figures: Vec<f64> = (1..=OLD_FIGURES).map(|place| place as f64).collect();
    let places = |from: usize| std::array::from_fn(|i| figures[from + i]);
    let mut session = Session::blank();
    (session.scheme, session.n, session.count) = (201, 3, 203);
    (session.history_held, session.attempt) = (true, Attempt::Supplied);
    (session.time, session.step, session.relative) = (1.0, 2.0, 3.0);
    session.state = places(4);
    session.derivative = places(20);
    session.history = places(36);
    session.jacobian = std::array::from_fn(|i| figures[52 + i]);
    session.answers = std::array::from_fn(|i| places(308 + PLACES * i));
    let mut bytes = Vec::new();
    OldSession::of(&session, 4.0).put(&mut bytes);
    let doubles: Vec<u8> = figures.iter().flat_map(|figure| figure.to_le_bytes()).collect();
    assert_eq!(bytes, [&[201, 3, 1, 1, 203][..], &doubles].concat());
    // Brought over, it is the same session with that tolerance in its first three places.
    session.absolute[..3].fill(4.0);
    let mut script = vec![BRING_OVER];
    script.extend(bytes);
    script.push(SHOW);
    assert_eq!(console::run(&script), image(&session));
}

#[test]
fn a_reply_has_the_outcomes_number() {
    for (name, answer) in [
        ("REFUSED", Answer::Refused(7)),
        ("ASK", Answer::Ask { place: 2, time: 1.0 }),
        ("READY", Answer::Ready { norm: 1.0, right_hand_sides: 2, jacobians: 1, products: 3 }),
        ("RESTING", Answer::Resting),
        ("FIRST_STEP", Answer::FirstStep(1.0)),
        ("FILLED", Answer::Filled { terms: 1, squarings: 2 }),
        ("NORM", Answer::Norm(1.0)),
    ] {
        let mut reply = Vec::new();
        put_answer(&mut reply, &answer);
        assert_eq!(usize::from(reply[0]), constant(name), "{name}");
    }
}

#[test]
fn a_reply_has_three_counts() {
    let counts = |answer: Answer| {
        let mut reply = Vec::new();
        put_answer(&mut reply, &answer);
        assert_eq!(reply.len(), 22);
        [10, 14, 18].map(|at| u32::from_le_bytes(reply[at..at + 4].try_into().unwrap()))
    };
    let ready = Answer::Ready { norm: 1.0, right_hand_sides: 20, jacobians: 1, products: 1598 };
    assert_eq!(counts(ready), [20, 1, 1598]);
    assert_eq!(counts(Answer::Filled { terms: 15, squarings: 32 }), [15, 32, 0]);
    assert_eq!(counts(Answer::Ask { place: 19, time: 1.0 }), [19, 0, 0]);
    let others = [Answer::Refused(6), Answer::Resting];
    for answer in others.into_iter().chain([Answer::FirstStep(1.0), Answer::Norm(1.0)]) {
        assert_eq!(counts(answer), [0; 3], "{answer:?}");
    }
}
