//! How far the exponentials go: the terms and squarings that the compared copy notes.

use oracle::bits::{power_of_two, same};
use oracle::bytes::Reader;
use oracle::field::Field;
use oracle::pass::{self, ETD2, Outcome, STIFFEST, Start};
use oracle::random::Random;
use oracle::squaring_list::traded;
use oracle::watch::{self, Exponential, products};
use oracle::{OdeProblem, SolveError, SolverStats, compared, lists, published};
use std::cell::Cell;

const HOCH_OST4: usize = 5;

/// The definition of a step, with the number of exponentials by scheme.
const DEFINITION: &str = include_str!("../../crates/methods/specs/Step.antt");

/// Exponentials by scheme, without a history and with one, as the definition has them.
fn exponentials() -> Vec<[usize; 2]> {
    let mut lines = DEFINITION.lines().filter_map(|line| line.strip_prefix("exponential_table held = "));
    let line = lines.next().expect("no table of exponentials in crates/methods/specs/Step.antt");
    assert!(lines.next().is_none(), "two tables of exponentials");
    let table = line.strip_suffix(" ∷ []").expect(line);
    let number = |word: &str| word.parse().unwrap_or_else(|_| panic!("{word} is no number of exponentials"));
    let entry = |entry: &str| match entry.split(' ').collect::<Vec<_>>()[..] {
        [always] => [number(always); 2],
        ["cond", "held", with, without] => [number(without), number(with)],
        _ => panic!("{entry} is no entry of exponentials"),
    };
    table.split(" ∷ ").map(entry).collect()
}

/// Terms and squarings of one exponential.
fn counts(matrix: &[f64], size: usize) -> (u32, u32) {
    let watch = watch::start();
    compared::matrix_exp(matrix, size);
    let only = watch.only();
    (only.terms, only.squarings)
}

#[test]
fn a_term_is_what_is_added_to_the_identity() {
    // The first term is added before it is looked at.
    assert_eq!(counts(&[0.0], 1), (1, 0));
    assert_eq!(counts(&[power_of_two(-60)], 1), (1, 0));
    // Above the diagonal alone the second term is zero, and added.
    assert_eq!(counts(&[0.0, 0.5, 0.0, 0.0], 2), (2, 0));
    assert_eq!(counts(&[0.0, 1.0, 0.0, 0.0], 2), (2, 1));
    assert_eq!(counts(&[0.5], 1), (15, 0));
    assert_eq!(counts(&[-0.5], 1), (15, 0));
    assert_eq!(counts(&[0.5_f64.next_up()], 1), (12, 1));
    assert_eq!(counts(&[8.0], 1), (15, 4));
    assert_eq!(counts(&[8.0_f64.next_up()], 1), (12, 5));
    assert_eq!(counts(&[power_of_two(31)], 1), (15, 32));
}

/// The series by its loop variable, the squarings by doubling, and the exponential that comes of them.
fn worked_out_beside(matrix: &[f64], size: usize) -> ((u32, u32), Vec<f64>) {
    let largest = |values: &[f64], from: f64| values.iter().fold(from, |most, value| most.max(value.abs()));
    let sums = matrix.chunks(size).map(|row| row.iter().map(|entry| entry.abs()).sum::<f64>());
    let norm = sums.fold(0.0, f64::max);
    let squarings = (0..=32).find(|s| power_of_two(*s) >= 2.0 * norm).unwrap();
    let scaled: Vec<f64> = matrix.iter().map(|entry| entry / power_of_two(squarings)).collect();
    let mut result: Vec<f64> =
        (0..size * size).map(|at| if at % (size + 1) == 0 { 1.0 } else { 0.0 }).collect();
    let mut term = result.clone();
    let ends = |k: &u32| {
        term = compared::mat_mul(&term, &scaled, size);
        term.iter_mut().for_each(|entry| *entry /= f64::from(*k));
        result.iter_mut().zip(&term).for_each(|(entry, added)| *entry += added);
        largest(&term, 0.0) <= f64::EPSILON * largest(&result, 1.0)
    };
    let last = (1..=128).find(ends).unwrap_or(128);
    for _ in 0..squarings {
        result = compared::mat_mul(&result, &result, size);
    }
    ((last, squarings as u32), result)
}

#[test]
fn the_counts_are_those_of_the_series_worked_out_beside() {
    let mut random = Random::new(90);
    let mut seen = [[false; 33]; 2];
    for turn in 0..3000 {
        let size = if turn % 100 == 0 { 20 } else { 1 + random.below(6) };
        let reach = power_of_two(random.below(44) as i32 - 13) / size as f64;
        // All entries, those above the diagonal, those of the diagonal.
        let wanted = |at: usize| match turn % 3 {
            0 => true,
            1 => at % size > at / size,
            _ => at % size == at / size,
        };
        let matrix: Vec<f64> =
            (0..size * size).map(|at| if wanted(at) { reach * random.unit() } else { 0.0 }).collect();
        let (expected, exponential) = worked_out_beside(&matrix, size);
        assert_eq!(counts(&matrix, size), expected, "turn {turn}");
        assert!(same(&compared::matrix_exp(&matrix, size), &exponential), "turn {turn}");
        seen[0][expected.0 as usize] = true;
        seen[1][expected.1 as usize] = true;
    }
    assert!(seen[0][1..=15].iter().all(|seen| *seen), "{:?}", seen[0]);
    assert!(seen[1][..=31].iter().all(|seen| *seen), "{:?}", seen[1]);
}

#[test]
fn a_watch_sees_what_comes_after_its_start() {
    let exponential = |entry: f64| compared::matrix_exp(&[entry], 1);
    exponential(1.0);
    let outer = watch::start();
    assert!(outer.exponentials().is_empty());
    exponential(0.5);
    let inner = watch::start();
    assert!(inner.exponentials().is_empty());
    exponential(power_of_two(31).next_up());
    assert!(!inner.only().admitted && !inner.all_admitted() && !outer.all_admitted());
    let later = watch::start();
    exponential(8.0);
    assert_eq!(later.only(), Exponential { admitted: true, terms: 15, squarings: 4 });
    assert_eq!(inner.exponentials().len(), 2);
    assert_eq!(outer.exponentials().len(), 3);
    // Which of them ends first is the same to the others.
    drop(outer);
    exponential(2.0);
    assert!(later.all_admitted() && !inner.all_admitted());
    assert_eq!((later.exponentials().len(), inner.exponentials().len()), (2, 3));
    assert_eq!(products(&later.exponentials()), 19 + 17);
    drop((inner, later));
    assert!(watch::start().exponentials().is_empty());
}

/// The exponentials of a pass whose answers are these at the asked times and states, if it ends in a candidate.
fn ended(start: &Start, mut answer: impl FnMut(f64, &[f64]) -> Vec<f64>) -> Option<Vec<Exponential>> {
    let mut answers = Vec::new();
    loop {
        match pass::run(start, &answers) {
            Outcome::Refused => return None,
            Outcome::Ask { time, state } => answers.push(answer(time, &state)),
            Outcome::Candidate { exponentials, .. } => return Some(exponentials),
        }
    }
}

/// A start anywhere on a field, which is there for the answers.
fn along(scheme: usize, n: usize, stiffness: f64, step: f64, random: &mut Random) -> (Start, Field) {
    let field = Field::new(n, stiffness, random);
    let time = random.unit();
    let state: Vec<f64> = (0..n).map(|_| 2.0 * random.unit()).collect();
    let start = Start {
        scheme,
        time,
        step,
        f0: field.at(time, &state),
        jacobian: field.jacobian(&state),
        history: (scheme == ETD2 && random.chance(2)).then(|| (0..n).map(|_| random.unit()).collect()),
        state,
    };
    (start, field)
}

/// A Jacobian, a derivative and answers that have nothing to do with one another. Above the diagonal alone the
/// Jacobian may be large.
fn arbitrary(scheme: usize, n: usize, random: &mut Random) -> (Start, f64) {
    let (mut start, _) = along(scheme, n, 1.0, random.pick(&[1.0, -0.5, 8.0]), random);
    let above = random.chance(2);
    let reach = power_of_two(random.below(if above { 30 } else { 8 }) as i32 - 4) / n as f64;
    for (at, entry) in start.jacobian.iter_mut().enumerate() {
        *entry = if above && at % n <= at / n { 0.0 } else { reach * random.unit() };
    }
    let size = power_of_two(random.below(36) as i32 - 10);
    start.f0.fill_with(|| size * random.unit());
    (start, size)
}

/// Every dimension, soft and stiff, forwards and back, Etd2 with a history and without.
#[test]
fn a_pass_takes_the_exponentials_of_the_definition() {
    let table = exponentials();
    assert_eq!(table.len(), 16);
    let mut random = Random::new(92);
    for (scheme, expected) in table.iter().enumerate() {
        assert_eq!(expected[0] != expected[1], scheme == ETD2);
        for (turn, n) in (1..=16).cycle().take(64).enumerate() {
            let (stiffness, step) = [(0.0, -0.5), (1.0, 0.1), (1e3, 0.1), (3e4, 0.5)][turn / 16];
            for held in [false, true] {
                let (mut start, field) = along(scheme, n, stiffness, step, &mut random);
                if scheme == ETD2 {
                    start.history = held.then(|| vec![0.25; n]);
                }
                let noted = ended(&start, |time, state| field.at(time, state)).expect("a candidate");
                assert_eq!(noted.len(), expected[usize::from(held)], "{}", published::name(scheme));
            }
        }
    }
    // No scheme takes as many as HochOst4.
    let most = table.iter().flatten().max().unwrap();
    assert_eq!((*most, table[HOCH_OST4]), (34, [34; 2]));
    assert_eq!(table.iter().flatten().filter(|count| *count == most).count(), 2);
}

#[test]
fn no_exponential_takes_more_than_15_terms_and_32_squarings() {
    let mut random = Random::new(91);
    let (mut most_terms, mut most_squarings, mut most_products) = (0, 0, 0);
    for scheme in 0..16 {
        let (mut soft, mut stiff) = (0, 0);
        for turn in 0..600 {
            let n = if turn % 60 == 0 { 16 } else { 1 + random.below(4) };
            let noted = if turn % 3 == 0 {
                let (start, size) = arbitrary(scheme, n, &mut random);
                ended(&start, |_, _| (0..n).map(|_| size * random.unit()).collect())
            } else {
                let step = random.pick(&[1.0, 1.0, 0.125, 64.0, -0.25]);
                let stiffness = power_of_two(random.below(36) as i32 - 8);
                let (start, field) = along(scheme, n, stiffness, step, &mut random);
                ended(&start, |time, state| field.at(time, state))
            };
            let Some(noted) = noted else { continue };
            for exponential in &noted {
                let Exponential { admitted, terms, squarings } = *exponential;
                assert!(admitted && (1..=15).contains(&terms) && squarings <= 32, "{exponential:?}");
                assert!(exponential.products() <= 47, "{exponential:?}");
                most_terms = most_terms.max(terms);
                most_squarings = most_squarings.max(squarings);
            }
            assert!(noted.len() <= 34 && products(&noted) <= 1598, "{}", published::name(scheme));
            if scheme == HOCH_OST4 {
                most_products = most_products.max(products(&noted));
            }
            if noted.iter().any(|exponential| exponential.squarings > 10) {
                stiff += 1;
            } else {
                soft += 1;
            }
        }
        assert!(soft > 100 && stiff > 100, "{}: {soft} soft, {stiff} stiff", published::name(scheme));
    }
    assert_eq!((most_terms, most_squarings), (15, 32));
    assert!(most_products > 1500, "{most_products}");
}

fn stiffest(scheme: usize, held: bool) -> Vec<Exponential> {
    let start = Start {
        scheme,
        time: 0.0,
        step: 1.0,
        state: vec![0.0],
        f0: vec![1.0],
        jacobian: vec![STIFFEST],
        history: held.then(|| vec![1.0]),
    };
    ended(&start, |_, _| vec![0.0]).unwrap()
}

/// Over the whole step 15 terms and 32 squarings are 47 products, over half of it there is a squaring less. Of HochOst4's
/// 34 exponentials 15 are over half the step.
#[test]
fn a_pass_of_hoch_ost4_comes_to_1583_products() {
    let noted = stiffest(HOCH_OST4, false);
    let of = |squarings: u32| {
        noted.iter().filter(|noted| (noted.terms, noted.squarings) == (15, squarings)).count()
    };
    assert_eq!((of(32), of(31), noted.len()), (19, 15, 34));
    assert_eq!(products(&noted), 19 * 47 + 15 * 46);
}

#[test]
fn the_stiffest_pass_of_each_scheme_ends() {
    let without_history = (0..16).map(|scheme| products(&stiffest(scheme, false)));
    let expected = [47, 47, 94, 422, 561, 1583, 316, 232, 233, 368, 325, 228, 323, 94, 141, 422];
    assert_eq!(without_history.collect::<Vec<_>>(), expected);
    assert_eq!(products(&stiffest(ETD2, true)), 188);
}

/// A pass of the list, read from its record and run without a pause.
fn run_in_one(record: &mut Reader) -> Option<(usize, usize, bool, Vec<Exponential>)> {
    let [scheme, n, held, count] =
        [record.byte()?, record.byte()?, record.byte()?, record.byte()?].map(usize::from);
    let (time, step) = (record.double()?, record.double()?);
    let (state, f0) = (record.doubles(n)?, record.doubles(n)?);
    let (jacobian, history) = (record.doubles(n * n)?, record.doubles(n)?);
    let answers = record.doubles(n * count)?;
    let turn = Cell::new(0);
    let rhs = |derivative: &mut [f64], _: &[f64], _: &(), _: f64| {
        let answer = answers[n * turn.get()..].get(..n).ok_or(SolveError::Unanswered)?;
        turn.set(turn.get() + 1);
        derivative.copy_from_slice(answer);
        Ok(())
    };
    let problem = OdeProblem::new(rhs);
    let history = (held == 1).then_some(&history[..]);
    let mut stats = SolverStats::default();
    let watch = watch::start();
    let _ = compared::perform_step(scheme, &problem, &state, time, step, &f0, &jacobian, history, &mut stats);
    Some((scheme, n, held == 1, watch.exponentials()))
}

#[test]
fn the_list_of_passes_has_their_counts() {
    let table = exponentials();
    let list = lists::all().into_iter().find(|list| list.name == "methods_run").unwrap();
    let mut input = Reader::new(&list.input);
    let mut output = Reader::new(&list.output);
    let mut candidates = 0;
    while let Some((scheme, n, held, noted)) = run_in_one(&mut input) {
        match output.byte().unwrap() {
            0 => {}
            1 => drop(output.doubles(1 + n).unwrap()),
            2 => {
                let told = (output.long().unwrap() as usize, output.long().unwrap());
                assert_eq!(told, (noted.len(), products(&noted)), "{}", published::name(scheme));
                assert_eq!(told.0, table[scheme][usize::from(held)], "{}", published::name(scheme));
                output.doubles(n).unwrap();
                assert!(output.byte().unwrap() <= 1);
                output.doubles(2 * n).unwrap();
                candidates += 1;
            }
            other => panic!("a reply of {other}"),
        }
    }
    assert_eq!((input.left(), output.left()), (0, 0));
    assert!(candidates > 800, "{candidates}");
}

/// An exponential of the list; where it is not refused, its terms, its squarings and itself.
struct Raised {
    size: usize,
    matrix: Vec<f64>,
    filled: Option<((u32, u32), Vec<f64>)>,
}

/// Squarings of the list: both arrays before and after so many rounds.
struct Squared {
    size: usize,
    count: u8,
    before: [Vec<f64>; 2],
    after: [Vec<f64>; 2],
}

impl Squared {
    fn finite(&self) -> bool {
        self.after.iter().all(|array| pass::all_finite(array))
    }

    /// Whether the two arrays, each finite and not zero, can be told from one another.
    fn lasts(&self) -> bool {
        let zero = self.after.iter().any(|array| array.iter().all(|entry| *entry == 0.0));
        self.finite() && !zero && !same(&self.after[0], &self.after[1])
    }
}

fn list_of_matrices() -> (Vec<Raised>, Vec<Squared>) {
    let list = lists::all().into_iter().find(|list| list.name == "matrix_run").unwrap();
    let mut input = Reader::new(&list.input);
    let mut output = Reader::new(&list.output);
    let (mut raised, mut squared) = (Vec::new(), Vec::new());
    while let Some(kind) = input.byte() {
        let size = usize::from(input.byte().unwrap());
        let array = |reader: &mut Reader| reader.doubles(size * size).unwrap();
        match kind {
            0 => {
                let matrix = array(&mut input);
                let filled = (output.byte() != Some(0)).then(|| {
                    let told = (output.byte().unwrap().into(), output.byte().unwrap().into());
                    (told, array(&mut output))
                });
                raised.push(Raised { size, matrix, filled });
            }
            1 => {
                let count = input.byte().unwrap();
                let before = [array(&mut input), array(&mut input)];
                let after = [array(&mut output), array(&mut output)];
                squared.push(Squared { size, count, before, after });
            }
            other => panic!("a record of kind {other}"),
        }
    }
    assert_eq!(output.left(), 0);
    (raised, squared)
}

#[test]
fn the_list_of_matrices_has_their_counts() {
    let mut filled = 0;
    for raised in list_of_matrices().0 {
        let Some((told, listed)) = raised.filled else { continue };
        let (expected, exponential) = worked_out_beside(&raised.matrix, raised.size);
        assert_eq!(told, expected);
        assert!(same(&listed, &exponential));
        filled += 1;
    }
    assert!(filled > 700, "{filled}");
}

/// The matrix whose squares are 2, 4, 16, and the shear, whose powers count up.
#[test]
fn the_last_two_powers_stand_where_the_rounds_leave_them() {
    let two = [[2.0, 7.0], [2.0, 4.0], [16.0, 4.0], [16.0, 256.0], [65536.0, 256.0]];
    for (count, expected) in (0..).zip(two) {
        assert_eq!(traded(&[2.0], &[7.0], count, 1), expected.map(|entry| vec![entry]), "{count} rounds");
    }
    let shear = |by: f64| [1.0, by, 0.0, 1.0];
    for (count, first, second) in [(0, 0, None), (1, 0, Some(1)), (31, 30, Some(31)), (32, 32, Some(31))] {
        let second = second.map_or([7.0; 4], |rounds| shear(power_of_two(rounds)));
        let after = traded(&shear(1.0), &[7.0; 4], count, 2);
        assert_eq!(after, [shear(power_of_two(first)), second], "{count} rounds");
    }
}

/// The oracle puts the last two powers in their places; here they come there round by round.
#[test]
fn the_squarings_of_the_list_are_those_of_arrays_that_trade_their_parts() {
    for Squared { size, count, before, after } in list_of_matrices().1 {
        let mut arrays = before;
        for from in [0, 1].into_iter().cycle().take(count.into()) {
            arrays[1 - from] = compared::mat_mul(&arrays[from], &arrays[from], size);
        }
        assert!(
            arrays.iter().zip(&after).all(|(traded, listed)| same(traded, listed)),
            "{count} of size {size}"
        );
    }
}

#[test]
fn the_squarings_of_the_list_have_every_size_and_every_count() {
    let squared = list_of_matrices().1;
    let some = |wanted: &dyn Fn(&Squared) -> bool| squared.iter().any(wanted);
    for count in 0..=32 {
        assert!(some(&|record| record.count == count && record.lasts()), "{count} rounds");
    }
    for size in 1..=20 {
        // None, the fewest and the most of either parity.
        for count in [0, 1, 2, 31, 32] {
            let listed = |record: &Squared| record.size == size && record.count == count && record.lasts();
            assert!(some(&listed), "{count} rounds of size {size}");
        }
    }
    let not_finite = squared.iter().filter(|record| !record.finite()).count();
    assert!(not_finite > 100, "{not_finite}");
}
