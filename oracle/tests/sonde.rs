//! The model of the program `sonde`, and the inputs that a program is run over.

use oracle::bits::power_of_two;
use oracle::bytes::{put_double, put_doubles};
use oracle::console::{Call, Console};
use oracle::inputs::{Reached, Unread, difference, ends_quietly};
use oracle::model::{Answer, Opening, vector};
use oracle::random_input::{Case, decay, fixed, inputs, longest};
use oracle::sonde::{Input, Run, UNWRITTEN, logging, run};
use oracle::table::{Record, Table, bytes_of};
use std::collections::BTreeMap;
use std::path::Path;

fn refusal(input: &Input) -> Option<u8> {
    run(&input.bytes()).refusal
}

#[test]
fn an_input_has_its_fields_in_their_order() {
    let mut bytes = vec![2, 15, 3, 1];
    put_doubles(&mut bytes, &[1.0, 2.0, 3.0, 4.0, 5.0, 6.0, 7.0]);
    bytes.extend([9; 5]);
    let input = Input::read(&bytes).unwrap();
    assert_eq!((input.n, input.scheme, input.count), (2, 15, 259));
    assert_eq!((input.time, input.step, input.relative), (1.0, 2.0, 3.0));
    assert_eq!(
        (&input.absolute[..], &input.state[..], &input.table[..]),
        (&[4.0, 5.0][..], &[6.0, 7.0][..], &[9; 5][..])
    );
    assert_eq!(input.bytes(), bytes);
}

/// The same run by the console's calls: opened with the table's derivative, then whole steps.
#[test]
fn a_run_is_an_open_and_whole_steps() {
    for scheme in 0..16 {
        let input = Input { scheme, ..logging() };
        let table = Table::read(&input.table, 3).unwrap();
        let mut console = Console::default();
        let open = Call::Open(Opening {
            scheme,
            n: 3,
            history_held: false,
            time: input.time,
            relative: input.relative,
            absolute: vector(&input.absolute),
            state: vector(&input.state),
            derivative: table.derivative(input.time, &input.state),
            history: vector(&[]),
        });
        assert_eq!(console.call(&open, &mut Vec::new()).answer, Some(Answer::Resting));
        let mut output = Vec::new();
        for _ in 0..input.count {
            let call = Call::WholeStep { step: input.step, table: input.table.clone() };
            assert_eq!(console.call(&call, &mut Vec::new()).answer, Some(Answer::Resting));
            put_double(&mut output, console.session.time);
            put_doubles(&mut output, &console.session.state[..3]);
        }
        assert_eq!(output.len(), 40 * 32);
        assert_eq!(run(&input.bytes()), Run { output, opened: true, steps: 40, refusal: None });
    }
}

/// u' = 2 twice over a step of 1, then u' = t u, by NorsettEuler.
#[test]
fn small_runs_are_as_worked_by_hand() {
    let [one, two, three, five] = [[0xf0, 0x3f], [0, 0x40], [8, 0x40], [0x14, 0x40]].map(|end| {
        let mut bytes = [0; 8];
        bytes[6..].copy_from_slice(&end);
        bytes
    });
    let head = [&[1, 1, 2, 0][..], &[0; 8], &one, &one, &one, &one].concat();
    let output = [one, three, two, five].concat();
    let expected = Run { output, opened: true, steps: 2, refusal: None };
    assert_eq!(run(&[&head[..], &[0; 8], &two].concat()), expected);
    assert_eq!(expected.status(), 0);

    // At time 0 nothing grows; from 1 on it grows as the exponential, once around.
    let Run { output, steps, .. } = run(&[&head[..], &[0, 3, 0, 0, 0, 0, 0, 0], &one].concat());
    assert_eq!((steps, &output[..24]), (2, &[one, one, two].concat()[..]));
    let last = f64::from_le_bytes(output[24..].try_into().unwrap());
    assert!((last - std::f64::consts::E).abs() < 1e-15, "{last}");

    // A third component is no component of one: 8, and nothing before it.
    let refused = run(&[&head[..], &[2, 0, 0, 0, 0, 0, 0, 0], &one].concat());
    assert_eq!((&refused.output[..], refused.status()), (&[8][..], 1));
}

/// Everything wrong at once, then one thing less each time.
#[test]
fn refusals_come_in_their_order() {
    let ladder: Vec<Run> = fixed()
        .iter()
        .filter(|case| case.kind == "in the order of the refusals")
        .map(|case| run(&case.bytes))
        .collect();
    let numbers: Vec<u8> = ladder.iter().map(|run| run.refusal.unwrap_or(0)).collect();
    assert_eq!(numbers, [1, 2, 4, 3, 8, 3, 0, 0, 1, 2, 4, 3, 8, 3, 5, 0]);
    for run in ladder {
        assert_eq!(run.output[16 * run.steps..], Vec::from_iter(run.refusal));
    }
}

#[test]
fn an_input_cut_short_of_its_table_is_refused_by_1() {
    let bytes = decay().bytes();
    let head = bytes.len() - 16;
    for end in 0..=bytes.len() {
        let expected = match end {
            _ if end < head => Some(1),
            _ if (end - head) % 16 != 0 => Some(8),
            _ => None,
        };
        let run = run(&bytes[..end]);
        assert_eq!(run.refusal, expected, "{end}");
        assert_eq!(run.output.len(), if expected.is_some() { 1 } else { 16 });
    }
    // Cut short comes before everything else that is wrong.
    assert_eq!(run(&[1, 16, 1, 0]).output, [1]);
    assert_eq!(run(&[]).output, [1]);
}

#[test]
fn n_not_from_1_to_16_is_refused_by_1_cut_short_or_not() {
    for n in [0, 17, 18, 128, 255] {
        let many = vec![1.0; usize::from(n)];
        let bytes = Input { n, scheme: 16, absolute: many.clone(), state: many, ..decay() }.bytes();
        for end in (0..=bytes.len()).step_by(3).chain([bytes.len()]) {
            assert_eq!(run(&bytes[..end]).output, [1]);
        }
    }
    for n in 1..=16 {
        let many = vec![1.0; usize::from(n)];
        assert_eq!(refusal(&Input { n, absolute: many.clone(), state: many, ..decay() }), None);
    }
}

#[test]
fn what_open_refuses_comes_before_the_table() {
    let bad_table = Input { table: vec![0; 15], ..decay() };
    assert_eq!(refusal(&bad_table), Some(8));
    assert_eq!(refusal(&Input { scheme: 16, ..bad_table.clone() }), Some(2));
    for bad in [0.0, -1.0, f64::NAN, f64::INFINITY] {
        assert_eq!(refusal(&Input { relative: bad, ..bad_table.clone() }), Some(4));
        assert_eq!(refusal(&Input { absolute: vec![bad], ..bad_table.clone() }), Some(4));
    }
    for bad in [f64::NAN, f64::from_bits(0x7ff0_0000_0000_0001), f64::INFINITY, f64::NEG_INFINITY] {
        assert_eq!(refusal(&Input { time: bad, ..bad_table.clone() }), Some(3));
        assert_eq!(refusal(&Input { state: vec![bad], ..bad_table.clone() }), Some(3));
        // The step is judged by the steps, after the table.
        assert_eq!(refusal(&Input { step: bad, ..bad_table.clone() }), Some(8));
        assert_eq!(refusal(&Input { step: bad, ..decay() }), Some(5));
    }
    // Tables of any length are read.
    let long = bytes_of(&vec![Record::constant(0, 0.0); 5000]);
    assert_eq!(refusal(&Input { table: long, ..decay() }), Some(8));
}

#[test]
fn without_steps_nothing_is_written_but_a_refusal() {
    let none = Input { count: 0, ..decay() };
    let nothing = Run { opened: true, ..Run::default() };
    assert_eq!(run(&none.bytes()), nothing);
    assert_eq!(run(&Input { step: f64::NAN, ..none.clone() }.bytes()), nothing);
    assert_eq!(refusal(&Input { table: vec![1], ..none.clone() }), Some(8));
    // The derivative at the opening is looked at whether there are steps or not.
    let squared = bytes_of(&[Record::product(0, 1.0, 0, 0)]);
    let overflowing = Input { state: vec![1e200], table: squared, ..none };
    assert_eq!(run(&overflowing.bytes()).output, [3]);
    assert_eq!(run(&Input { count: 5, step: 0.0, ..overflowing }.bytes()).output, [3]);
}

/// Seven steps of 2^1021, and the eighth comes to an infinite time: 6, but 3 where the table takes the time.
#[test]
fn a_run_that_is_refused_on_the_way_has_written_its_steps() {
    for (records, number) in [(vec![], 6), (vec![Record::by_time(0, 0.0, 0)], 3)] {
        let table = bytes_of(&records);
        let input = Input { count: u16::MAX, step: power_of_two(1021), table, ..decay() };
        let mut output = Vec::new();
        for step in 1..=7 {
            put_doubles(&mut output, &[f64::from(step) * power_of_two(1021), 1.0]);
        }
        output.push(number);
        assert_eq!(run(&input.bytes()), Run { output, opened: true, steps: 7, refusal: Some(number) });
    }
}

#[test]
fn the_largest_step_count_is_taken_to_its_end() {
    let run = run(&longest().bytes());
    assert_eq!((run.output.len(), run.steps, run.refusal), (65_535 * 16, 65_535, None));
}

/// What oracle inputs runs a program over.
#[test]
fn the_inputs_reach_every_scheme_and_refusal() {
    let mut reached = Reached::default();
    let mut overflows_at_opening = 0;
    for case in inputs(5).take(fixed().len() + 2000) {
        let run = run(&case.bytes);
        reached.add(&case, &run);
        overflows_at_opening += usize::from(case.kind == "huge coefficients" && !run.opened);
    }
    assert!(overflows_at_opening >= 5, "{overflows_at_opening}");
    for kind in [
        "valid",
        "one rule of the table broken",
        "cut at a random byte",
        "cut at every byte",
        "n not 1 to 16",
        "no scheme",
        "a bad tolerance",
        "a time or state not finite",
        "a step zero or not finite",
        "huge coefficients",
        "no steps",
        "65,535 steps, refused on the way",
        "over 4,096 bytes of table",
        "overflows late",
        "several things wrong",
        "bits flipped",
    ] {
        assert!(reached.kinds.get(kind).is_some_and(|count| *count >= 10), "{kind}");
    }
    // Beside those of the longest run.
    let steps: usize = reached.steps.values().sum();
    assert!(steps > 65_535 + 10_000, "{steps}");
    for scheme in 0..16 {
        assert!(reached.steps[&scheme] > 150, "{scheme}");
    }
    let often = |counts: &BTreeMap<u8, usize>, least: usize| -> Vec<u8> {
        assert!(counts.values().all(|count| *count >= least), "{counts:?}");
        counts.keys().copied().collect()
    };
    assert_eq!(often(&reached.at_opening, 10), [1, 2, 3, 4, 8]);
    assert_eq!(often(&reached.in_first_step, 10), [3, 5, 6]);
    assert_eq!(often(&reached.on_the_way, 5), [3, 6]);
    assert!(reached.finished > 200);
}

/// No random run takes the largest step count to its end, so that the inputs are soon through.
#[test]
fn a_random_input_of_65535_steps_is_refused_on_the_way() {
    let of_that_kind = |case: &Case| case.kind == "65,535 steps, refused on the way";
    for case in inputs(6).take(3000).filter(of_that_kind) {
        let run = run(&case.bytes);
        assert!(run.refusal.is_some() && run.steps < 5000, "{} steps", run.steps);
    }
}

#[test]
fn a_changed_output_or_status_is_found() {
    let finished = run(&decay().bytes());
    let refused = run(&Input { count: 2, table: vec![1], ..decay() }.bytes());
    for (run, status) in [(&finished, 0), (&refused, 1)] {
        assert_eq!(difference(run, &run.output, Some(status)), None);
        for other in [Some(1 - status), Some(UNWRITTEN), None] {
            assert!(difference(run, &run.output, other).is_some());
        }
        let mut changed = run.output.clone();
        changed[0] ^= 1;
        for output in [&run.output[1..], &[&run.output[..], &[0]].concat(), &changed] {
            assert!(difference(run, output, Some(status)).is_some());
        }
    }
}

/// cat dies of a broken pipe, and complains elsewhere; true says nothing and ends as if all had been written.
#[test]
fn a_program_that_does_not_end_quietly_is_found() {
    let quiet = |program: &str| -> Vec<Unread> {
        let ends_quietly = |way: &Unread| ends_quietly(Path::new(program), *way).unwrap().is_ok();
        Unread::ALL.into_iter().filter(ends_quietly).collect()
    };
    assert_eq!(quiet("/bin/cat"), [Unread::BrokenPipe]);
    assert_eq!(quiet("/bin/true"), []);
}
