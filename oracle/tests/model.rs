//! The model of document 01's session.

use oracle::bits::{pattern, same};
use oracle::bytes::Reader;
use oracle::compare::first_difference;
use oracle::console::{self, BEFORE, Call, Console, NUMBERS, WHOLE_STEP, image, put_call, read_call};
use oracle::field::Field;
use oracle::fixed_script::fixed_script;
use oracle::model::{Answer, Attempt, Opening, PLACES, Session, bare_exponential, bare_phi_action, vector};
use oracle::pass::ETD2;
use oracle::random::Random;
use oracle::random_script::{damaged, random_script};
use oracle::refused::{self, Kind};
use oracle::script::{
    BEHIND_9, PRODUCTS, SQUARINGS, STEPS_REFUSED, STRAYS, Script, TABLES_REFUSED, TERMS, Tally,
};
use oracle::table::{RULES, Record, Table, bytes_of};
use oracle::tolerances::alike;
use oracle::{OdeProblem, SolveOptions, SolverStats, compared, published, watch};

fn calls_of(script: &[u8]) -> Vec<Call> {
    let mut reader = Reader::new(script);
    std::iter::from_fn(|| read_call(&mut reader)).collect()
}

/// Three steps of the published kernel, of the compared one, whose exponentials are noted, and of the model.
fn beside_the_kernel(scheme: usize, n: usize, supplied: bool, random: &mut Random) {
    let field = Field::new(n, 2.0, random);
    let mut state: Vec<f64> = (0..n).map(|_| random.unit()).collect();
    let jacobian = field.jacobian(&state);
    let mut time = 0.5;
    let (relative, absolute) = (1e-3, 1e-6);
    let rhs = |derivative: &mut [f64], u: &[f64], _: &(), t: f64| {
        derivative.copy_from_slice(&field.at(t, u));
        Ok(())
    };
    let problem =
        if supplied { OdeProblem::with_jacobian(rhs, jacobian.clone()) } else { OdeProblem::new(rhs) };
    let options = SolveOptions::tolerances(relative, absolute);
    let mut kernel = published::kernel(n, scheme);
    let mut noted_kernel = compared::kernel(n, scheme);
    let mut stats = SolverStats::default();
    kernel.initialize(&problem, &state, time, &mut stats).unwrap();
    noted_kernel.initialize(&problem, &state, time, &mut stats).unwrap();

    let (answer, mut session) = Session::open(&Opening {
        scheme: scheme as u8,
        n: n as u8,
        history_held: false,
        time,
        relative,
        absolute: alike(n, absolute),
        state: vector(&state),
        derivative: vector(&field.at(time, &state)),
        history: vector(&[]),
    });
    assert_eq!(answer, Answer::Resting);
    for step in [0.1, 0.05, 0.05] {
        let mut candidate = vec![0.0; n];
        let mut counted = SolverStats::default();
        let norm = kernel
            .attempt_step(&problem, &state, time, step, &mut candidate, &options, &mut counted)
            .unwrap();
        let mut noted_candidate = vec![0.0; n];
        let watch = watch::start();
        noted_kernel
            .attempt_step(&problem, &state, time, step, &mut noted_candidate, &options, &mut stats)
            .unwrap();
        let products = watch::products(&watch.exponentials());
        assert!(same(&noted_candidate, &candidate));

        let mut handed = [0.0; PLACES * PLACES];
        if supplied {
            handed[..n * n].copy_from_slice(&jacobian);
        }
        let mut lent = vec![BEFORE; n];
        let mut told = session.begin(supplied, step, &handed, &mut lent);
        while let (Answer::Ask { place, time }, session) = told {
            let answer = vector(&field.at(time, &lent));
            told = session.supply(place, &answer, &mut lent);
        }
        let ready = Answer::Ready {
            norm,
            right_hand_sides: counted.rhs_evaluations as u32,
            jacobians: counted.jacobian_evaluations as u32,
            products,
        };
        assert_eq!(told.0, ready);
        assert!(same(&lent, &candidate));

        time += step;
        kernel.accept_step(&problem, &candidate, time, &mut stats).unwrap();
        noted_kernel.accept_step(&problem, &candidate, time, &mut stats).unwrap();
        let (answer, next) = told.1.accept(&vector(&field.at(time, &candidate)));
        assert_eq!(answer, Answer::Resting);
        assert!(same(&next.state[..n], &candidate) && next.time == time);
        assert_eq!(next.history_held, scheme == ETD2);
        state = candidate;
        session = next;
    }
}

#[test]
fn the_model_steps_as_the_published_kernel_does() {
    let mut random = Random::new(60);
    for scheme in 0..16 {
        for n in [1, 2, 5] {
            beside_the_kernel(scheme, n, true, &mut random);
            beside_the_kernel(scheme, n, false, &mut random);
        }
    }
}

#[test]
fn a_refused_call_changes_nothing() {
    let mut refused = 0;
    for seed in 100..120 {
        let mut console = Console::default();
        for call in calls_of(&random_script(seed, 500).bytes) {
            let before = image(&console.session);
            let told = console.call(&call, &mut Vec::new());
            if let Some(Answer::Refused(number)) = told.answer {
                assert!((1..=9).contains(&number));
                assert!(number != 9 || matches!(call, Call::Supply { .. }));
                assert!(told.lent.iter().all(|place| *place == BEFORE));
                let after = image(&console.session);
                let blank = image(&Session::blank());
                let expected = if matches!(call, Call::Open(_)) { blank } else { before };
                assert!(after == expected, "{call:?}");
                refused += 1;
            }
            if let Some(Answer::Ready { norm, .. } | Answer::Norm(norm)) = told.answer {
                assert!(!norm.is_nan());
            }
        }
    }
    assert!(refused > 500);
}

#[test]
fn the_fixed_script_covers_every_op_and_refusal() {
    let script = fixed_script();
    let seen = |op: &'static str, outcome: &str| {
        assert!(script.tally.outcomes.contains_key(&(op, outcome.to_string())), "{op}: {outcome}");
    };
    for (op, numbers) in [
        ("open", &[1, 2, 3, 4][..]),
        ("begin", &[1, 2, 3, 4, 5, 6, 7]),
        ("supply", &[1, 2, 3, 4, 5, 6, 7, 9]),
        ("accept", &[1, 2, 3, 4, 5, 6, 7]),
        ("drop", &[1, 2, 3, 4, 5]),
        ("first step", &[1, 2, 3, 4, 5]),
        ("whole step", &[1, 2, 3, 4, 5, 6, 7, 8]),
        ("bare exponential", &[1, 3, 6]),
        ("bare phi action", &[1, 3, 6]),
        ("bare error norm", &[1, 3, 4]),
    ] {
        for number in numbers {
            seen(op, &format!("refused by {number}"));
        }
    }
    for (op, outcome) in [
        ("open", "resting"),
        ("begin", "ask"),
        ("begin", "ready"),
        ("supply", "ask"),
        ("supply", "ready"),
        ("accept", "resting"),
        ("drop", "resting"),
        ("first step", "first step"),
        ("bare exponential", "filled"),
        ("bare phi action", "filled"),
        ("bare error norm", "norm"),
        ("show", "done"),
        ("load", "done"),
        ("bring over", "done"),
        ("whole step", "resting"),
    ] {
        seen(op, outcome);
    }
    every_kind_of_tolerance_was_seen(&script.tally, 1);
    every_kind_of_old_session_was_seen(&script.tally, &[1, 2, 3, 4, 5], 1);
    every_kind_of_whole_step_was_seen(&script.tally, 1);
    every_kind_of_stray_was_seen(&script.tally, 1);
    let largest = |count: &str| script.tally.largest[count];
    assert_eq!((largest(PRODUCTS), largest(TERMS), largest(SQUARINGS)), (1583, 15, 32));
    for scheme in 0..16 {
        for supplied in [true, false] {
            assert!(script.tally.ready.contains_key(&(scheme, supplied)));
        }
    }
    assert_eq!(console::run(&script.bytes), script.replies);
}

/// What oracle compare runs a program over.
#[test]
fn the_random_scripts_cover_what_a_host_can_do() {
    let mut tally = Tally::default();
    for seed in 0..120 {
        tally.add(&random_script(seed, 1000).tally);
    }
    for scheme in 0..16 {
        for supplied in [true, false] {
            assert!(tally.ready.contains_key(&(scheme, supplied)), "scheme {scheme}");
        }
    }
    for n in 1..=16 {
        assert!(tally.dimensions.contains_key(&n), "dimension {n}");
    }
    for number in 1..=5 {
        for place in ["the session", "what is handed in"] {
            let kind = format!("refused by {number} on {place}");
            assert!(tally.kinds.contains_key(&*kind), "{kind}");
        }
    }
    for (op, numbers) in [
        ("open", &[1, 2, 3, 4][..]),
        ("begin", &[1, 2, 3, 4, 5, 6, 7]),
        ("supply", &[1, 2, 3, 4, 5, 6, 7, 9]),
        ("accept", &[1, 2, 3, 4, 5, 6, 7]),
        ("drop", &[1, 2, 3, 4, 5]),
        ("first step", &[1, 2, 3, 4, 5]),
        ("whole step", &[1, 2, 3, 4, 5, 6, 7, 8]),
        ("bare exponential", &[1, 3, 6]),
        ("bare phi action", &[1, 3, 6]),
        ("bare error norm", &[1, 3, 4]),
    ] {
        for number in numbers {
            let outcome = format!("refused by {number}");
            assert!(tally.outcomes.contains_key(&(op, outcome)), "{op} by {number}");
        }
    }
    for kind in [
        "answers of a smooth right-hand side",
        "answers out of the air",
        "begun soft (row sums of h J up to 1)",
        "begun between (row sums of h J up to 100)",
        "begun stiff (row sums of h J above 100)",
        "calls with a huge finite word",
        "row sums beside a power of two",
    ] {
        assert!(tally.kinds[kind] > 50, "{kind}");
    }
    assert!(tally.outcomes[&("load", "done".into())] > 50);
    every_kind_of_tolerance_was_seen(&tally, 5);
    every_kind_of_old_session_was_seen(&tally, &[1, 2, 3, 4, 5, 6, 7], 5);
    every_kind_of_whole_step_was_seen(&tally, 5);
    every_kind_of_stray_was_seen(&tally, 5);
    seen_often(&tally, STRAYS, "accepted after some", 200);
    assert!((0..16).all(|scheme| tally.stepped[&scheme] > 50));
    for (holder, figure) in [
        ("tolerances of open", "opened"),
        ("tolerances of a session", "norm"),
        ("tolerances of a session", "first step"),
        ("tolerances of the bare error norm", "norm"),
    ] {
        for kind in ["equal", "unequal"] {
            seen_often(&tally, holder, &format!("{figure} by {kind} ones"), 100);
        }
    }
    seen_often(&tally, OLD, "accepted in the attempt they came with", 50);
    let largest = |count: &str| tally.largest[count];
    assert_eq!((largest(TERMS), largest(SQUARINGS)), (15, 32));
    assert!((1200..=1598).contains(&largest(PRODUCTS)), "{}", largest(PRODUCTS));
}

const OLD: &str = "sessions brought over";

fn seen_often(tally: &Tally, heading: &'static str, what: &str, least: usize) {
    let count = tally.seen.get(&(heading, what.to_string())).copied().unwrap_or(0);
    assert!(count >= least, "{heading}: {what} {count}");
}

/// Each single one bad, in every kind of place, and what stands past n.
fn every_kind_of_tolerance_was_seen(tally: &Tally, least: usize) {
    for holder in ["tolerances of open", "tolerances of a session", "tolerances of the bare error norm"] {
        for what in ["one NaN", "one infinite", "one +0.0", "one -0.0", "one negative"] {
            seen_often(tally, holder, what, least);
        }
        for what in ["bad in the first place", "bad in the last of several", "bad between"] {
            seen_often(tally, holder, what, least);
        }
        for what in ["a number past n", "-0.0 past n"] {
            seen_often(tally, holder, what, least);
        }
    }
}

fn every_kind_of_old_session_was_seen(tally: &Tally, refusals: &[u8], least: usize) {
    for what in ["at rest", "in an attempt", "n 0", "n above 16", "ready", "first step"] {
        seen_often(tally, OLD, what, least);
    }
    seen_often(tally, OLD, "accepted in the attempt they came with", least);
    for number in refusals {
        seen_often(tally, OLD, &format!("refused by {number}"), least);
    }
}

/// Taken by every scheme, refused for each rule by itself, and on the way in every place.
fn every_kind_of_whole_step_was_seen(tally: &Tally, least: usize) {
    for scheme in 0..16 {
        assert!(tally.stepped.get(&scheme).is_some_and(|count| *count >= least), "scheme {scheme}");
    }
    for rule in RULES {
        seen_often(tally, TABLES_REFUSED, rule, least);
    }
    for place in [
        "by 3 on a column's answer",
        "by 3 on a stage's answer",
        "by 3 at the candidate",
        "by 3 at a new time not finite",
        "by 6 before any answer",
        "by 6 on a column's answer",
        "by 6 on a stage's answer",
        "by 6 at a new time not finite",
    ] {
        seen_often(tally, STEPS_REFUSED, place, least);
    }
}

/// Answers to another question, before and behind 9.
fn every_kind_of_stray_was_seen(tally: &Tally, least: usize) {
    for what in ["early", "late", "past all places", "255", "accepted after some"] {
        seen_often(tally, STRAYS, what, least);
    }
    for number in [1, 2, 7, 9] {
        seen_often(tally, STRAYS, &format!("refused by {number}"), least);
    }
    for number in [7, 9] {
        seen_often(tally, STRAYS, &format!("a duplicate refused by {number}"), least);
    }
    for told in ["1", "3", "3 on the session", "4 on the session", "5 on the session", "6"] {
        seen_often(tally, BEHIND_9, &format!("refused by {told}"), least);
    }
    for told in ["ask", "ready"] {
        seen_often(tally, BEHIND_9, told, least);
    }
}

/// The checks on a session and on what is handed in, each with everything after it wrong too.
#[test]
fn checks_run_in_the_order_of_document_01() {
    let mut session = Session::open(&Opening {
        scheme: 2,
        n: 1,
        history_held: false,
        time: 0.0,
        relative: 1.0,
        absolute: vector(&[1.0]),
        state: vector(&[1.0]),
        derivative: vector(&[2.0]),
        history: vector(&[]),
    })
    .1;
    session.attempt = Attempt::Supplied;
    session.count = 2;
    session.answers[0][0] = f64::NAN;
    session.answers[1][0] = 1.0;
    session.state[1] = 1.0;
    session.relative = 0.0;
    let refused = |session: &Session| session.clone().accept(&vector(&[f64::NAN])).0;
    assert_eq!(refused(&session), Answer::Refused(1));
    session.state[1] = 0.0;
    assert_eq!(refused(&session), Answer::Refused(2));
    session.answers[1][0] = 0.0;
    session.count = 0;
    session.answers[0][0] = 0.0;
    session.derivative[0] = f64::INFINITY;
    assert_eq!(refused(&session), Answer::Refused(7));
    session.count = 1;
    assert_eq!(refused(&session), Answer::Refused(4));
    session.relative = 1.0;
    assert_eq!(refused(&session), Answer::Refused(5));
    session.step = 1.0;
    assert_eq!(refused(&session), Answer::Refused(3));
    session.derivative[0] = 2.0;
    assert_eq!(refused(&session), Answer::Refused(3));
    session.time = f64::MAX;
    session.step = f64::MAX;
    assert_eq!(session.clone().accept(&vector(&[1.0])).0, Answer::Refused(6));
}

fn open(scheme: u8, time: f64, state: f64, derivative: f64) -> Session {
    let (answer, session) = Session::open(&Opening {
        scheme,
        n: 1,
        history_held: false,
        time,
        relative: 1.0,
        absolute: vector(&[1.0]),
        state: vector(&[state]),
        derivative: vector(&[derivative]),
        history: vector(&[]),
    });
    assert_eq!(answer, Answer::Resting);
    session
}

/// J = [0]: the matrix [0 2; 0 0] takes two terms and two squarings, [0 1; 0 0] a squaring less, and [0] a term alone.
/// LawsonEuler exponentiates the last, Etd2 the last and the first.
#[test]
fn an_attempt_tells_its_products() {
    let products =
        |scheme: u8, step: f64, f0: f64| match begin(&open(scheme, 0.0, 1.0, f0), true, step, &[0.0], 1).0 {
            Answer::Ready { products, .. } => products,
            answer => panic!("{answer:?}"),
        };
    assert_eq!(products(1, 1.0, 2.0), 4);
    assert_eq!(products(1, 0.5, 2.0), 4);
    assert_eq!(products(1, 1.0, 1.0), 3);
    assert_eq!(products(0, 1.0, 2.0), 1);
    assert_eq!(products(ETD2 as u8, 1.0, 2.0), 5);
}

fn begin(session: &Session, supplied: bool, step: f64, entries: &[f64], lent: usize) -> (Answer, Session) {
    let mut jacobian = [0.0; PLACES * PLACES];
    jacobian[..entries.len()].copy_from_slice(entries);
    session.clone().begin(supplied, step, &jacobian, &mut vec![BEFORE; lent])
}

#[test]
fn what_is_handed_in_is_checked_in_the_order_of_document_01() {
    let session = open(2, 0.0, 1.0, 2.0);
    let nan = f64::NAN;
    for (number, (supplied, step, entries, lent)) in [
        (1, (true, 0.0, &[nan, 1.0][..], 1)),
        (1, (true, 0.0, &[nan], 2)),
        (1, (false, 0.0, &[1.0], 1)),
        (1, (false, 1.0, &[-0.0], 1)),
        (5, (true, 0.0, &[nan], 1)),
        (5, (false, f64::INFINITY, &[], 1)),
        (3, (true, 1.0, &[nan], 1)),
        (6, (true, 1.0, &[1e12], 1)),
    ] {
        let (answer, _) = begin(&session, supplied, step, entries, lent);
        assert_eq!(answer, Answer::Refused(number));
    }
    let (_, asking) = begin(&session, true, 0.5, &[0.0], 1);
    for (number, (values, lent)) in
        [(1, (&[nan, 1.0][..], 1)), (1, (&[nan], 0)), (3, (&[nan], 1)), (6, (&[1e300], 1))]
    {
        let (answer, _) = asking.clone().supply(0, &vector(values), &mut vec![BEFORE; lent]);
        assert_eq!(answer, Answer::Refused(number));
    }
    for (number, largest) in [(5, nan), (5, f64::EPSILON.next_down()), (5, f64::NEG_INFINITY)] {
        assert_eq!(asking.clone().first_step(largest).0, Answer::Refused(number));
    }
    assert_eq!(asking.clone().first_step(f64::EPSILON).0, Answer::FirstStep(f64::EPSILON));
    // Here 0.01 / scale is 0.01 / (2 / (1 + 1)).
    assert_eq!(asking.clone().first_step(f64::INFINITY).0, Answer::FirstStep(0.01));
    assert_eq!(asking.first_step(0.005).0, Answer::FirstStep(0.005));
}

/// Each kind of docs/DIFFERENCES.md is refused by 6, in the call in which the Rust would come to it.
#[test]
fn each_kind_is_refused_by_6_in_its_own_call() {
    for Kind { name, input, schemes } in refused::kinds() {
        for scheme in schemes.iter().copied() {
            let session = open(scheme as u8, input.time, input.state, input.f0);
            let entry = input.jacobian.map_or(vec![], |entry| vec![entry]);
            let mut told = begin(&session, input.jacobian.is_some(), input.step, &entry, 1);
            let mut calls = 1;
            while let (Answer::Ask { place, .. }, session) = told {
                let answer = input.answers[(calls - 1).min(input.answers.len() - 1)];
                told = session.supply(place, &vector(&[answer]), &mut [BEFORE]);
                calls += 1;
            }
            if let (Answer::Ready { .. }, session) = told {
                assert_eq!(session.clone().accept(&vector(&[f64::NAN])).0, Answer::Refused(3));
                told = session.accept(&vector(&[0.0]));
                calls += 1;
            }
            assert_eq!(told.0, Answer::Refused(6), "{name}, scheme {scheme}");
            let expected = match (name, scheme) {
                ("a differenced Jacobian entry not finite", _) => 2,
                ("J u not finite" | "f0 - J u not finite", _) => 1,
                ("a row sum infinite, by an entry of h J", _) => 1,
                // The first two stages are over half a step, and Exprb53s3's over less than the whole.
                ("a row sum just above 2^31", 1 | 2 | 6 | 11 | 12 | 14 | 15) => 1,
                ("a row sum just above 2^31", 3) => 2,
                ("an asked state infinite, J zero", _) => 1,
                ("an asked state infinite, in differencing", _) => 1,
                ("an asked time not finite", 2 | 14) => 1,
                ("an asked time not finite", 3 | 15) => 2,
                ("an asked time not finite", 4 | 5) => 3,
                ("a candidate not finite", _) => 1,
                ("an error entry not finite", _) => 3,
                ("the accepted time not finite", _) => 2,
                _ => continue,
            };
            assert_eq!(calls, expected, "{name}, scheme {scheme}");
        }
    }
}

#[test]
fn a_differenced_column_is_tested_when_its_own_answer_is_in() {
    let (_, session) = Session::open(&Opening {
        scheme: 1,
        n: 2,
        history_held: false,
        time: 0.0,
        relative: 1.0,
        absolute: vector(&[1.0, 1.0]),
        state: vector(&[0.0, 0.0]),
        derivative: vector(&[0.0, 0.0]),
        history: vector(&[]),
    });
    let (_, asking) = begin(&session, false, 1.0, &[], 2);
    let supply = |entry: f64| asking.clone().supply(0, &vector(&[0.0, entry]), &mut [BEFORE; 2]).0;
    assert_eq!(supply(oracle::bits::power_of_two(998)), Answer::Refused(6));
    assert_eq!(supply(oracle::bits::power_of_two(997)), Answer::Ask { place: 1, time: 0.0 });
}

#[test]
fn a_row_sum_of_2_to_the_31_is_admitted_and_the_next_double_is_not() {
    let largest = oracle::bits::power_of_two(31);
    let exponential = |entry: f64| bare_exponential(1, &[entry], &mut [BEFORE]);
    let furthest = Answer::Filled { terms: 15, squarings: 32 };
    assert_eq!(exponential(largest), furthest);
    assert_eq!(exponential(-largest), furthest);
    assert_eq!(exponential(largest.next_up()), Answer::Refused(6));
    let phi = |input: f64| bare_phi_action(1, 1, 1.0, &[-0.5 * largest], &[input], &mut [BEFORE]);
    let furthest = Answer::Filled { terms: 12, squarings: 32 };
    assert_eq!(phi(0.5 * largest), furthest);
    // The sum of the next double rounds to 2^31, that of the one after it does not.
    assert_eq!(phi((0.5 * largest).next_up()), furthest);
    assert_eq!(phi((0.5 * largest).next_up().next_up()), Answer::Refused(6));
}

#[test]
fn a_resting_session_with_answers_is_refused_by_2() {
    let mut session = open(2, 0.0, 1.0, 2.0);
    session.count = 1;
    assert_eq!(session.clone().drop_attempt().0, Answer::Refused(2));
    session.answers[0][0] = 1.0;
    assert_eq!(session.clone().drop_attempt().0, Answer::Refused(2));
    // Past the count the place is not in use.
    session.count = 0;
    assert_eq!(session.drop_attempt().0, Answer::Refused(1));
}

#[test]
fn drop_brings_back_the_session_as_it_was_before_begin() {
    let (_, ready) = begin(&open(ETD2 as u8, 0.0, 1.0, 2.0), true, 0.5, &[-1.0], 1);
    let (answer, resting) = ready.accept(&vector(&[1.5]));
    assert_eq!(answer, Answer::Resting);
    assert!(resting.history_held && resting.history[0] == 3.0);
    for (supplied, entries) in [(true, &[-2.0][..]), (false, &[])] {
        let (_, attempt) = begin(&resting, supplied, 0.25, entries, 1);
        assert!(image(&attempt) != image(&resting));
        let (answer, dropped) = attempt.drop_attempt();
        assert_eq!(answer, Answer::Resting);
        assert!(image(&dropped) == image(&resting));
    }
}

/// A session may hold answers past a question that would have been refused.
#[test]
fn every_node_of_a_forged_session_is_tested_again() {
    let huge = oracle::bits::power_of_two(1023);
    // Of HochOst4's four questions the third is at an infinite time.
    let mut session = open(5, huge, 1.0, 0.0);
    session.attempt = Attempt::Supplied;
    session.step = huge;
    session.count = 3;
    let supply = |session: &Session| session.clone().supply(3, &vector(&[0.0]), &mut [BEFORE]).0;
    assert_eq!(supply(&session), Answer::Refused(6));
    session.time = 0.0;
    // Its 5 phi_1, 18 phi_2 and 11 phi_3 of zeros have no, one and two ones above the diagonal: 1, 2 and 3 terms, and a
    // squaring where there is a one.
    let products = 5 + 18 * 3 + 11 * 4;
    assert_eq!(supply(&session), Answer::Ready { norm: 0.0, right_hand_sides: 4, jacobians: 1, products });
    // Etdrk2 past an exponential that is refused, its candidate finite.
    let mut session = open(2, 0.0, 1.0, 1.0);
    session.attempt = Attempt::Supplied;
    session.step = 1.0;
    session.count = 1;
    session.answers[0][0] = 1.0;
    session.jacobian[0] = -2147483650.0;
    assert_eq!(session.clone().accept(&vector(&[0.0])).0, Answer::Refused(6));
    session.jacobian[0] = -2147483640.0;
    assert_eq!(session.accept(&vector(&[0.0])).0, Answer::Resting);
}

/// Flips the components of `mask` in a vector, or the entries of a matrix just one of whose row and column is in it.
fn flip_vector(values: &mut [f64], mask: u32) {
    for (place, value) in values.iter_mut().enumerate() {
        if mask >> place & 1 == 1 {
            *value = -*value;
        }
    }
}

fn flip_matrix(values: &mut [f64], n: usize, mask: u32) {
    for row in 0..n {
        for column in 0..n {
            if (mask >> row ^ mask >> column) & 1 == 1 {
                let place = row * n + column;
                values[place] = -values[place];
            }
        }
    }
}

fn flipped_call(call: &Call, n: usize, mask: u32) -> Call {
    let mut call = call.clone();
    match &mut call {
        Call::Open(opening) => {
            flip_vector(&mut opening.state, mask);
            flip_vector(&mut opening.derivative, mask);
            if opening.history_held {
                flip_vector(&mut opening.history, mask);
            }
        }
        Call::Begin { supplied: true, jacobian, .. } => flip_matrix(&mut jacobian[..], n, mask),
        Call::Supply { answer, .. } => flip_vector(answer, mask),
        Call::Accept { derivative } => flip_vector(derivative, mask),
        _ => {}
    }
    call
}

fn flipped_session(session: &Session, n: usize, mask: u32) -> Session {
    let mut session = session.clone();
    flip_vector(&mut session.state, mask);
    flip_vector(&mut session.derivative, mask);
    if session.history_held {
        flip_vector(&mut session.history, mask);
    }
    if session.attempt == Attempt::Supplied {
        flip_matrix(&mut session.jacobian, n, mask);
    }
    let count = usize::from(session.count);
    for answer in &mut session.answers[..count] {
        flip_vector(answer, mask);
    }
    session
}

/// An image with its zeros all +0.
fn without_zero_signs(session: &Session) -> Vec<u64> {
    let bytes = image(session);
    let (head, doubles) = bytes.split_at(NUMBERS);
    let doubles = doubles.chunks(8).map(|chunk| {
        let x = f64::from_le_bytes(chunk.try_into().unwrap());
        pattern(if x == 0.0 { 0.0 } else { x })
    });
    head.iter().map(|byte| u64::from(*byte)).chain(doubles).collect()
}

/// Demand 3 on the model: two runs, one flipped, over an opening and the calls after it.
#[test]
fn mirrored_runs_are_each_others_flips() {
    let mut random = Random::new(70);
    let mut steps = 0;
    for seed in 200..240 {
        let mut plain = Console::default();
        let mut mirrored = Console::default();
        let (mut n, mut mask) = (0, 0);
        for call in calls_of(&random_script(seed, 600).bytes) {
            match &call {
                Call::Open(opening) => {
                    n = usize::from(opening.n).min(PLACES);
                    mask = random.draw() as u32 & ((1 << n) - 1);
                }
                // Left out: bare calls, sessions altered in between, Jacobians differenced.
                Call::Begin { supplied: true, .. } => {}
                Call::Supply { .. } | Call::Accept { .. } | Call::Drop | Call::FirstStep { .. } => {}
                _ => continue,
            }
            let one = plain.call(&call, &mut Vec::new());
            let other = mirrored.call(&flipped_call(&call, n, mask), &mut Vec::new());
            assert_eq!(one.answer, other.answer, "seed {seed}: {call:?}");
            let mut lent = one.lent.clone();
            if !matches!(one.answer, Some(Answer::Refused(_))) {
                flip_vector(&mut lent, mask);
            }
            // Zeros of either sign are equal.
            assert!(lent == other.lent, "seed {seed}: {call:?}");
            let flipped = flipped_session(&plain.session, n, mask);
            assert_eq!(without_zero_signs(&flipped), without_zero_signs(&mirrored.session));
            steps += usize::from(matches!(one.answer, Some(Answer::Ready { .. })) && mask != 0);
        }
    }
    assert!(steps > 300, "{steps}");
}

#[test]
fn a_changed_byte_of_a_reply_is_found() {
    let script = random_script(7, 100);
    assert_eq!(first_difference(&script.bytes, &script.replies), None);
    let mut changed = script.replies.clone();
    let last = changed.len() - 1;
    changed[last] ^= 1;
    assert!(first_difference(&script.bytes, &changed).is_some());
    assert!(first_difference(&script.bytes, &script.replies[..last]).is_some());
    changed = script.replies.clone();
    changed.push(0);
    assert!(first_difference(&script.bytes, &changed).is_some());
}

/// What oracle compare sends as a bad line's script: still calls, and other ones.
#[test]
fn a_damaged_script_is_another_and_has_calls() {
    let mut calls = 0;
    for seed in 0..20 {
        let script = random_script(seed, 300);
        let bytes = damaged(&script.bytes, seed);
        assert!(bytes != script.bytes);
        let replayed = Script::replay(&bytes);
        assert_eq!(replayed.replies, console::run(&bytes));
        calls += replayed.tally.calls();
    }
    assert!(calls > 1000, "{calls}");
}

#[test]
fn a_script_ends_where_the_page_says() {
    let mut good = Vec::new();
    put_call(&mut good, &Call::Drop);
    let reply = console::run(&good);
    assert_eq!(reply.len(), 22);
    let too_many = [&[6, 1, 1, 2, 1, 0][..], &[0; 513 * 8]].concat();
    let too_long = [&[2, 0][..], &[0; PLACES * 8], &[1, 2]].concat();
    let table = |length: u16, bytes: usize| {
        [&[WHOLE_STEP, 0, 0, 0, 0, 0, 0, 0xe0, 0x3f][..], &length.to_le_bytes(), &vec![0; bytes]].concat()
    };
    // Of the table's bytes one is missing, or there are more than may be.
    let (cut, wide) = (table(32, 31), table(8193, 8193));
    let ends: [&[u8]; 5] = [&[WHOLE_STEP + 1], &[255], &[5, 0, 0], &too_many, &too_long];
    assert_eq!(console::run(&cut), []);
    assert_eq!(console::run(&[&good[..], &cut].concat()), reply);
    assert_eq!(console::run(&[&good[..], &cut[..9]].concat()), reply);
    assert_eq!(console::run(&[&good[..], &wide, &good].concat()), reply);
    assert_eq!(console::run(&[&good[..], &table(8192, 8192), &good].concat()).len(), 3 * reply.len());
    for end in ends {
        let script = [&good[..], end, &good].concat();
        assert_eq!(console::run(&script), reply);
    }
}

/// u' = 2 from 1 over a step of 1, then over one of -0.5.
#[test]
fn small_whole_steps_are_as_worked_by_hand() {
    let table = bytes_of(&[Record::constant(0, 2.0)]);
    for scheme in [0, 1, ETD2 as u8] {
        let (answer, one) = open(scheme, 0.0, 1.0, 2.0).whole_step(1.0, &table);
        assert_eq!((answer, one.time, one.state[0], one.derivative[0]), (Answer::Resting, 1.0, 3.0, 2.0));
        let (answer, two) = one.whole_step(-0.5, &table);
        assert_eq!((answer, two.time, two.state[0], two.derivative[0]), (Answer::Resting, 0.5, 2.0, 2.0));
        let held = usize::from(scheme) == ETD2;
        assert_eq!((two.history_held, two.history[0]), (held, if held { 2.0 } else { 0.0 }));
    }
}

/// Three whole steps, and three of the published kernel with the table as its right-hand side.
#[test]
fn a_whole_step_is_the_published_kernels() {
    let mut random = Random::new(61);
    for scheme in 0..16u8 {
        for n in [1, 3, 6] {
            let records: Vec<Record> = (0..n as u8)
                .flat_map(|i| {
                    let (j, k) = (random.below(n) as u8, random.below(n) as u8);
                    let mut c = || random.unit();
                    [
                        Record::linear(i, -2.0 + c(), i),
                        Record::product(i, 0.3 * c(), j, k),
                        Record::constant(i, c()),
                        Record::by_time(i, 0.3 * c(), k),
                    ]
                })
                .collect();
            let bytes = bytes_of(&records);
            let table = Table::read(&bytes, n).unwrap();
            let rhs = |derivative: &mut [f64], u: &[f64], _: &(), t: f64| {
                // In the record's own order, without the table's loop.
                for (i, entry) in derivative.iter_mut().enumerate() {
                    let terms = records.iter().filter(|r| usize::from(r.target) == i).map(|r| {
                        let (j, k) = (usize::from(r.j), usize::from(r.k));
                        [r.c, r.c * u[j], r.c * u[j] * u[k], r.c * u[j] * t][usize::from(r.kind)]
                    });
                    *entry = terms.fold(0.0, |sum, term| sum + term);
                }
                Ok(())
            };
            let problem = OdeProblem::new(rhs);
            let (mut time, mut state) = (0.5, (0..n).map(|_| random.unit()).collect::<Vec<f64>>());
            let options = SolveOptions::tolerances(1e-3, 1e-6);
            let mut stats = SolverStats::default();
            let mut kernel = published::kernel(n, usize::from(scheme));
            kernel.initialize(&problem, &state, time, &mut stats).unwrap();
            let (answer, mut session) = Session::open(&Opening {
                scheme,
                n: n as u8,
                history_held: false,
                time,
                relative: 1e-3,
                absolute: alike(n, 1e-6),
                state: vector(&state),
                derivative: table.derivative(time, &state),
                history: vector(&[]),
            });
            assert_eq!(answer, Answer::Resting);
            for step in [0.1, 0.05, -0.02] {
                let mut candidate = vec![0.0; n];
                kernel
                    .attempt_step(&problem, &state, time, step, &mut candidate, &options, &mut stats)
                    .unwrap();
                time += step;
                kernel.accept_step(&problem, &candidate, time, &mut stats).unwrap();
                state = candidate;
                let (answer, next) = session.whole_step(step, &bytes);
                assert_eq!(answer, Answer::Resting);
                assert!(next.time == time && same(&next.state[..n], &state));
                assert!(same(&next.derivative, &table.derivative(time, &state)));
                assert_eq!((next.attempt, next.history_held), (Attempt::None, usize::from(scheme) == ETD2));
                session = next;
            }
        }
    }
}

/// The session's checks, then 8, then the step's 5; then begin, the answers and accept.
#[test]
fn a_whole_step_is_refused_in_its_order() {
    let number = |session: &Session, step: f64, table: &[u8]| {
        let before = image(session);
        let (answer, after) = session.clone().whole_step(step, table);
        assert!(answer == Answer::Resting || image(&after) == before);
        match answer {
            Answer::Refused(number) => number,
            _ => 0,
        }
    };
    let good = open(2, 0.0, 1.0, -1.0);
    let bad_table = [0; 15];
    let wrong = |wrong: &dyn Fn(&mut Session)| {
        let mut session = good.clone();
        wrong(&mut session);
        number(&session, 0.0, &bad_table)
    };
    assert_eq!(wrong(&|s| (s.n, s.scheme) = (0, 16)), 1);
    assert_eq!(wrong(&|s| (s.state[1], s.scheme) = (-0.0, 16)), 1);
    assert_eq!(wrong(&|s| (s.scheme, s.attempt, s.relative) = (16, Attempt::Supplied, 0.0)), 2);
    assert_eq!(wrong(&|s| (s.attempt, s.step, s.relative) = (Attempt::Supplied, f64::NAN, 0.0)), 7);
    assert_eq!(wrong(&|s| (s.relative, s.time) = (0.0, f64::NAN)), 4);
    assert_eq!(wrong(&|s| s.derivative[0] = f64::INFINITY), 3);
    assert_eq!(wrong(&|_| ()), 8);
    let decay = bytes_of(&[Record::linear(0, -1.0, 0)]);
    for step in [0.0, -0.0, f64::NAN, f64::INFINITY] {
        assert_eq!(number(&good, step, &bad_table), 8);
        assert_eq!(number(&good, step, &decay), 5);
    }
    assert_eq!(number(&good, 0.5, &decay), 0);
    for (attempt, count) in [(Attempt::Supplied, 0), (Attempt::Supplied, 1), (Attempt::Differenced, 0)] {
        let session = Session { attempt, count, step: 0.5, ..good.clone() };
        assert_eq!(number(&session, 0.5, &decay), 7);
    }
}

/// A derivative that overflows is 3, at a column, a stage and the candidate, also where the new time is not finite; a new time
/// not finite is 6 where the derivative does not take it.
#[test]
fn a_derivative_that_overflows_is_refused_by_3_and_a_time_by_6() {
    let number = |scheme: u8, time: f64, state: f64, step: f64, records: &[Record]| {
        let table = bytes_of(records);
        let derivative = Table::read(&table, 1).unwrap().derivative(time, &[state])[0];
        let derivative = if derivative.is_finite() { derivative } else { 0.0 };
        let session = open(scheme, time, state, derivative);
        let (answer, after) = session.clone().whole_step(step, &table);
        assert!(image(&after) == image(&session));
        let (walked, _, calls) = session.step_by_table(step, &Table::read(&table, 1).unwrap());
        assert_eq!(walked, answer);
        (answer, calls)
    };
    let far = oracle::bits::power_of_two(1023);
    let curved = [Record::constant(0, 1.0), Record::product(0, 1e-300, 0, 0)];
    let three = Answer::Refused(3);
    let six = Answer::Refused(6);
    assert_eq!(number(1, 0.0, 1e160, 0.5, &[Record::product(0, 1.0, 0, 0)]), (three, 1));
    assert_eq!(number(2, 0.0, 1.0, 1e308, &curved), (three, 2));
    assert_eq!(number(1, 0.0, 1.0, 1e308, &curved), (three, 2));
    assert_eq!(number(0, 0.0, 1.0, 1e308, &curved), (three, 2));
    assert_eq!(number(1, far, 1.0, far, &[Record::by_time(0, 0.0, 0)]), (three, 2));
    assert_eq!(number(1, far, 1.0, far, &[]), (six, 2));
    // Etdrk2 asks at the new time.
    assert_eq!(number(2, far, 1.0, far, &[Record::by_time(0, 0.0, 0)]), (six, 1));
    assert_eq!(number(1, 0.0, f64::MAX, 0.5, &[]), (six, 0));
    assert_eq!(number(1, 0.0, 1.0, 0.5, &[Record::linear(0, 1e12, 0)]), (six, 1));
}

/// Accepted whatever its error norm: a host would give this one up.
#[test]
fn a_whole_step_is_taken_whatever_its_norm() {
    let session = Session { relative: 1e-300, absolute: vector(&[1e-300]), ..open(15, 0.0, 1.0, 1.0) };
    let table = bytes_of(&[Record::product(0, 1.0, 0, 0)]);
    let mut lent = [BEFORE];
    let mut told = session.clone().begin(false, 0.5, &[0.0; PLACES * PLACES], &mut lent);
    while let (Answer::Ask { place, .. }, asking) = told {
        told = asking.supply(place, &vector(&[lent[0] * lent[0]]), &mut lent);
    }
    assert!(matches!(told.0, Answer::Ready { norm, .. } if norm > 1e100), "{:?}", told.0);
    let (answer, next) = session.whole_step(0.5, &table);
    assert_eq!((answer, next.time, next.state[0]), (Answer::Resting, 0.5, lent[0]));
}
