//! The fixed script's whole steps: every scheme, every refusal in its order, each rule of the table broken by itself, and
//! what overflows on the way. Behind each refused one the session is shown.

use crate::bits::power_of_two;
use crate::console::Call;
use crate::fixed_script::{difference, in_attempt, opening, opening_of_three, resting};
use crate::model::{Opening, PLACES, Session, vector};
use crate::script::Script;
use crate::table::{RECORDS, Record, Table, bytes_of};
use crate::tolerances::alike;

pub fn whole_steps(script: &mut Script) {
    every_scheme(script);
    phases(script);
    rules_of_the_table(script);
    tables_at_the_edge(script);
    overflows(script);
}

fn step_with(step: f64, records: &[Record]) -> Call {
    Call::WholeStep { step, table: bytes_of(records) }
}

/// Three components, every kind of record, each component the target of several.
fn table_of_three() -> Vec<Record> {
    vec![
        Record::linear(1, -2.0, 0),
        Record::linear(0, 1.0, 1),
        Record::constant(1, 0.75),
        Record::product(2, 0.5, 1, 1),
        Record::linear(2, -0.375, 2),
        Record::linear(1, -0.5, 1),
        Record::by_time(2, 0.125, 0),
        Record::product(0, -0.1, 0, 2),
        Record::by_time(0, -0.3, 2),
        Record::constant(2, -0.2),
    ]
}

/// The opening with the derivative that the table gives.
fn opened_with(opening: Opening, records: &[Record]) -> Call {
    let n = usize::from(opening.n);
    let table = Table::read(&bytes_of(records), n).expect("it is well-formed");
    let derivative = table.derivative(opening.time, &opening.state[..n]);
    Call::Open(Opening { derivative, ..opening })
}

/// Three steps on end, so that Etd2 comes to hold a history and to use it; the derivative that the run is opened with need
/// not be the table's.
fn every_scheme(script: &mut Script) {
    let records = table_of_three();
    for scheme in 0..16 {
        let opening = Opening { scheme, time: 0.25, state: vector(&[1.0, -0.5, 0.75]), ..opening_of_three() };
        script.call(&opened_with(opening.clone(), &records));
        for step in [0.125, 0.03, -0.01] {
            script.call(&step_with(step, &records));
        }
        script.call(&Call::Show);
        script.call(&Call::Open(Opening { derivative: vector(&[-0.1, 2.0, -3.0]), ..opening }));
        script.call(&step_with(1e-9, &records));
        script.call(&Call::Show);
    }
}

/// The session is wanted at rest; its tests come before the table's, the table's before the step's.
fn phases(script: &mut Script) {
    let decay = [Record::linear(0, -1.0, 0)];
    for session in [in_attempt(0), in_attempt(1)] {
        script.call(&Call::Load(Box::new(session)));
        for call in [step_with(0.5, &decay), Call::WholeStep { step: 0.0, table: vec![0; 15] }] {
            script.call(&call);
            script.call(&Call::Show);
        }
        script.call(&Call::Drop);
        script.call(&step_with(0.5, &decay));
        script.call(&Call::Show);
    }
    // In the middle of an attempt that differences.
    script.call(&Call::Load(Box::new(resting())));
    script.call(&difference(0.5, 1));
    script.call(&step_with(0.5, &decay));
    script.call(&Call::Show);
    script.call(&Call::Load(Box::new(resting())));
    for step in [0.0, -0.0, f64::NAN, f64::INFINITY, f64::NEG_INFINITY] {
        script.call(&Call::WholeStep { step, table: vec![0; 15] });
        script.call(&Call::Show);
        script.call(&step_with(step, &decay));
        script.call(&Call::Show);
    }
    // A NaN in the session comes before the table, and before the step.
    script.call(&Call::Load(Box::new(Session { time: f64::NAN, ..resting() })));
    script.call(&Call::WholeStep { step: 0.0, table: vec![0; 15] });
    script.call(&Call::Show);
}

/// Each rule broken by itself, in the first, a middle and the last record.
fn rules_of_the_table(script: &mut Script) {
    let [one, product, by_time] =
        [Record::linear(0, 1.0, 1), Record::product(0, 1.0, 1, 2), Record::by_time(0, 1.0, 1)];
    let constant = Record::constant(0, 1.0);
    let mut bad = vec![
        Record { target: 3, ..one },
        Record { target: 255, ..constant },
        Record { kind: 4, ..constant },
        Record { kind: 255, ..constant },
        Record { j: 3, ..one },
        Record { j: 3, ..product },
        Record { j: 3, ..by_time },
        Record { j: 255, ..one },
        Record { k: 3, ..product },
        Record { k: 255, ..product },
        Record { j: 1, ..constant },
        Record { k: 1, ..constant },
        Record { k: 1, ..one },
        Record { k: 1, ..by_time },
    ];
    for place in 0..4 {
        let mut reserved = [0; 4];
        reserved[place] = 1 << place;
        bad.push(Record { reserved, ..[constant, one, product, by_time][place] });
    }
    for c in [f64::INFINITY, f64::NEG_INFINITY, f64::NAN, f64::from_bits(0xfff0_0000_0000_0001)] {
        bad.extend([constant, one, product, by_time].map(|record| Record { c, ..record }));
    }
    script.call(&Call::Open(opening_of_three()));
    for (turn, record) in bad.into_iter().enumerate() {
        let mut records = table_of_three();
        let places = [0, 5, records.len()];
        records.insert(places[turn % 3], record);
        script.call(&step_with(0.01, &records));
        script.call(&Call::Show);
    }
    for length in [1, 8, 15, 17, 31, 4095, 4097, 4111, 4112, 4113, 8176, 8191, 8192] {
        let mut table = bytes_of(&[one; 512]);
        table.truncate(length);
        script.call(&Call::WholeStep { step: 0.01, table });
        script.call(&Call::Show);
    }
}

/// Well-formed tables: empty, of 256 records, with the last component of sixteen, and coefficients at the ends of the doubles.
fn tables_at_the_edge(script: &mut Script) {
    script.call(&Call::Open(opening_of_three()));
    script.call(&step_with(1e-9, &[]));
    script.call(&Call::Show);
    script.call(&step_with(0.5, &[]));
    script.call(&Call::Show);
    let last = PLACES as u8 - 1;
    let full: Vec<Record> = (0..RECORDS)
        .map(|place| {
            let (target, other) = (place as u8 % 16, place as u8 / 16);
            let c = (place as f64 - 100.0) / 1024.0;
            match place % 4 {
                0 => Record::constant(target, c),
                1 => Record::linear(target, c, other),
                2 => Record::product(target, c, other, last - other),
                _ => Record::by_time(target, c, other),
            }
        })
        .collect();
    let whole = Opening {
        scheme: 15,
        n: PLACES as u8,
        time: 1.5,
        absolute: alike(PLACES, 1e-6),
        state: std::array::from_fn(|i| 0.25 * i as f64 - 2.0),
        ..opening(15, 0.0, 0.0)
    };
    script.call(&opened_with(whole, &full));
    for _ in 0..2 {
        script.call(&step_with(0.0625, &full));
    }
    script.call(&step_with(0.0625, &[Record::product(last, -1.0, last, last), Record::linear(0, 1.0, last)]));
    script.call(&Call::Show);
    // Zeros of either sign, the least double, and the largest times zero.
    let ends = [
        Record::constant(0, -0.0),
        Record::linear(0, 5e-324, 0),
        Record::product(0, -0.0, 0, 0),
        Record::linear(0, f64::MAX, 1),
        Record::by_time(0, f64::MIN, 1),
    ];
    let zero = Opening { n: 2, absolute: vector(&[1.0, 1.0]), ..opening(5, -1.0, 0.0) };
    script.call(&opened_with(zero, &ends[..3]));
    script.call(&step_with(0.5, &ends[..3]));
    script.call(&Call::Show);
    script.call(&step_with(0.5, &ends));
    script.call(&Call::Show);
}

/// A derivative that overflows at a column, a stage and the candidate; a time that does; and the refusals by 6 on the way.
fn overflows(script: &mut Script) {
    let far = power_of_two(1023);
    let decay = [Record::linear(0, -1.0, 0)];
    let curved = [Record::constant(0, 1.0), Record::product(0, 1e-300, 0, 0)];
    let at = |scheme, time, state, derivative| Opening { time, ..opening(scheme, state, derivative) };
    // At a column, then at the stage of Etdrk2 and the candidate of LawsonEuler and NorsettEuler.
    let mut cases = vec![(at(1, 0.0, 1e160, 1.0), 0.5, vec![Record::product(0, 1.0, 0, 0)])];
    for scheme in [2, 0, 1] {
        cases.push((at(scheme, 0.0, 1.0, 1.0), 1e308, curved.to_vec()));
    }
    // The sum overflows and not a term; infinities of both signs give a NaN.
    cases.push((at(1, 0.0, 1.0, 0.0), 1.0, vec![Record::constant(0, f64::MAX); 2]));
    cases.push((
        at(1, 0.0, 1e200, 0.0),
        1.0,
        vec![Record::product(0, 1.0, 0, 0), Record::product(0, -1.0, 0, 0)],
    ));
    // The new time is infinite: by 3 where the table takes it, otherwise by 6.
    let least = power_of_two(-1074);
    cases.push((at(1, far, 1.0, 0.0), far, vec![Record::by_time(0, 0.0, 0)]));
    cases.push((at(1, far, 1.0, least * far), far, vec![Record::by_time(0, least, 0)]));
    cases.push((at(1, far, 1.0, 0.0), far, vec![]));
    cases.push((at(1, far, 1.0, 0.0), far, vec![Record::linear(0, 0.0, 0)]));
    cases.push((at(13, -far, 1.0, 0.0), -far, vec![]));
    // A stage's time is infinite.
    cases.push((at(2, far, 1.0, 0.0), far, vec![]));
    cases.push((at(4, far, 1.0, 0.0), far, vec![Record::by_time(0, 0.0, 0)]));
    // A column that is moved to infinity, a differenced entry that is infinite, a row sum above 2^31, J u infinite.
    cases.push((at(1, 0.0, f64::MAX, 0.0), 0.5, decay.to_vec()));
    cases.push((at(1, 0.0, 1.0, 0.0), 0.5, vec![Record::constant(0, power_of_two(1000))]));
    cases.push((at(1, 0.0, 1.0, 1e12), 0.5, vec![Record::linear(0, 1e12, 0)]));
    cases.push((at(15, 0.0, 1e300, 1e300), 0.5, vec![Record::linear(0, 1e20, 0)]));
    // A candidate that is infinite.
    cases.push((at(1, 0.0, 1.0, 1000.0), 1.0, vec![Record::linear(0, 1000.0, 0)]));
    for (opening, step, records) in cases {
        script.call(&Call::Open(opening));
        script.call(&step_with(step, &records));
        script.call(&Call::Show);
    }
    // In the last of several components, and after a step that was taken.
    script.call(&opened_with(opening_of_three(), &[]));
    script.call(&step_with(0.5, &[Record::constant(2, 1.0)]));
    script.call(&step_with(1.0, &[Record::product(2, 1e300, 2, 2), Record::linear(0, -1.0, 0)]));
    script.call(&Call::Show);
    script.call(&step_with(1.0, &[Record::linear(0, -1.0, 0)]));
    script.call(&Call::Show);
}
