//! What docs/DIFFERENCES.md says of the Rust where document 01 refuses by 6.

use oracle::refused::{Fate, Input, fate, kinds};

const HANGS: Fate = Fate::Hangs { squarings: u32::MAX };

/// What becomes of the kind's input under each of its schemes.
fn fates(name: &str) -> Vec<(usize, Fate)> {
    let kind = kinds().into_iter().find(|kind| kind.name == name).unwrap();
    kind.schemes.iter().map(|scheme| (*scheme, fate(*scheme, &kind.input))).collect()
}

fn all(name: &str, wanted: Fate) {
    for (scheme, fate) in fates(name) {
        assert_eq!(fate, wanted, "{name}, scheme {scheme}");
    }
}

fn of(name: &str, wanted: impl Fn(&Fate) -> bool) -> Vec<usize> {
    fates(name).into_iter().filter(|(_, fate)| wanted(fate)).map(|(scheme, _)| scheme).collect()
}

fn goes_on(fate: &Fate) -> bool {
    matches!(fate, Fate::GoesOn { .. } | Fate::OldState)
}

#[test]
fn an_infinite_norm_makes_every_scheme_square_4294967295_times() {
    all("a differenced Jacobian entry not finite", HANGS);
    all("a row sum infinite, by an entry of h J", HANGS);
    all("a row sum infinite, by the input column", HANGS);
    all("a row sum of 2^1023, which doubled is infinite", HANGS);
    all("an asked state infinite, J not zero", HANGS);
}

#[test]
fn what_is_not_finite_at_the_start_ends_in_three_ways() {
    let name = "J u not finite";
    assert_eq!(of(name, |fate| *fate == HANGS), [13]);
    assert_eq!(of(name, |fate| *fate == Fate::Errs), [0, 2, 3, 4, 5, 14, 15]);
    assert_eq!(of(name, goes_on), [1, 6, 7, 8, 9, 10, 11, 12]);
    let name = "f0 - J u not finite";
    assert_eq!(of(name, |fate| *fate == HANGS), [13, 14]);
    assert_eq!(of(name, |fate| *fate == Fate::Errs), [0, 1, 2, 8, 11, 12]);
    assert_eq!(of(name, goes_on), [3, 4, 5, 6, 7, 9, 10, 15]);
}

#[test]
fn a_count_of_1024_hands_the_old_state_back() {
    let name = "a row sum whose count comes to 1024";
    assert_eq!(of(name, |fate| *fate == Fate::OldState), [1, 2, 14]);
    assert_eq!(of(name, |fate| matches!(fate, Fate::GoesOn { .. })), [0]);
    assert_eq!(of(name, |fate| *fate == HANGS), [13]);
}

#[test]
fn a_huge_negative_entry_goes_on_and_a_positive_one_errs() {
    assert_eq!(of("a row sum just above 2^31", goes_on).len(), 16);
    assert_eq!(of("a row sum above 2^40, J negative", goes_on).len(), 16);
    all("a row sum above 2^40, J positive", Fate::Errs);
}

#[test]
fn nan_on_the_way_is_passed_over_or_errs_at_the_candidate() {
    all("a row sum NaN: 2 h is infinite, and times 0 it is NaN", Fate::OldState);
    all("a row sum NaN: h^2 is 0, a coefficient over it is infinite, and times 0 it is NaN", Fate::Errs);
    all("an asked state infinite, J zero", Fate::Errs);
    all("an asked state NaN: a coefficient over h^2 times 0, as above", Fate::Errs);
    all("a candidate not finite", Fate::Errs);
}

#[test]
fn an_error_that_is_not_finite_goes_on_with_an_infinite_norm() {
    let infinite = |fate: &Fate| matches!(fate, Fate::GoesOn { norm, .. } if *norm == f64::INFINITY);
    assert_eq!(of("an error entry not finite", infinite), [15]);
}

#[test]
fn a_state_or_time_that_is_not_finite_is_asked_all_the_same() {
    assert_eq!(of("an asked state infinite, in differencing", goes_on).len(), 16);
    assert_eq!(of("an asked time not finite", goes_on), [2, 3, 4, 5]);
    assert_eq!(of("the accepted time not finite", goes_on), [0, 1, 13]);
}

/// Document 01 refuses such a step by 5.
#[test]
fn a_step_that_is_not_finite_hangs_or_errs() {
    let step_of = |jacobian: f64, step: f64| Input {
        jacobian: Some(jacobian),
        time: 0.0,
        state: 1.0,
        f0: 1.0,
        step,
        answers: vec![1.0],
    };
    for scheme in 0..16 {
        assert_eq!(fate(scheme, &step_of(-1.0, f64::INFINITY)), HANGS, "scheme {scheme}");
        assert_eq!(fate(scheme, &step_of(0.0, f64::INFINITY)), Fate::Errs, "scheme {scheme}");
        assert_eq!(fate(scheme, &step_of(-1.0, f64::NAN)), Fate::Errs, "scheme {scheme}");
        assert_eq!(fate(scheme, &step_of(0.0, f64::NAN)), Fate::Errs, "scheme {scheme}");
    }
}
