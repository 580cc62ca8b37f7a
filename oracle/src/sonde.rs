//! The program `sonde` (docs/SONDE.md) by the model: a run from an opening and a table, one whole step after the other.

use crate::bytes::{Reader, put_double, put_doubles};
use crate::lists::List;
use crate::model::{Answer, Opening, PLACES, Session, Vector};
use crate::table::{Record, Table, bytes_of};

/// The exit status of a program whose output takes no more.
pub const UNWRITTEN: i32 = 2;

/// What the program reads; n says how many tolerances and states there are.
#[derive(Clone, Debug)]
pub struct Input {
    pub n: u8,
    pub scheme: u8,
    pub count: u16,
    pub time: f64,
    pub step: f64,
    pub relative: f64,
    pub absolute: Vec<f64>,
    pub state: Vec<f64>,
    pub table: Vec<u8>,
}

impl Input {
    /// Nothing if the bytes are cut short of the table, or n is above 16.
    pub fn read(bytes: &[u8]) -> Option<Self> {
        let mut reader = Reader::new(bytes);
        let n = reader.byte()?;
        let places = Some(usize::from(n)).filter(|places| *places <= PLACES)?;
        Some(Self {
            n,
            scheme: reader.byte()?,
            count: reader.short()?,
            time: reader.double()?,
            step: reader.double()?,
            relative: reader.double()?,
            absolute: reader.doubles(places)?,
            state: reader.doubles(places)?,
            table: reader.bytes(reader.left())?.to_vec(),
        })
    }

    pub fn bytes(&self) -> Vec<u8> {
        let mut out = vec![self.n, self.scheme];
        out.extend(self.count.to_le_bytes());
        let figures = [self.time, self.step, self.relative];
        // As they are: not every NaN is written the same.
        out.extend(figures.iter().chain(&self.absolute).chain(&self.state).flat_map(|x| x.to_le_bytes()));
        out.extend(&self.table);
        out
    }

    /// The run at rest with this derivative, or the number of the refusal.
    fn open(&self, derivative: Vector) -> Result<Session, u8> {
        let places = |values: &[f64]| {
            let mut vector = [0.0; PLACES];
            vector[..values.len()].copy_from_slice(values);
            vector
        };
        let (answer, session) = Session::open(&Opening {
            scheme: self.scheme,
            n: self.n,
            history_held: false,
            time: self.time,
            relative: self.relative,
            absolute: places(&self.absolute),
            state: places(&self.state),
            derivative,
            history: [0.0; PLACES],
        });
        match answer {
            Answer::Refused(number) => Err(number),
            _ => Ok(session),
        }
    }
}

/// What the program writes, and how far the run came.
#[derive(Clone, Debug, Default, Eq, PartialEq)]
pub struct Run {
    pub output: Vec<u8>,
    /// Whether it came to its steps.
    pub opened: bool,
    /// The steps that were taken.
    pub steps: usize,
    /// The number that ended the run before its end.
    pub refusal: Option<u8>,
}

impl Run {
    /// The program's exit status.
    pub fn status(&self) -> i32 {
        i32::from(self.refusal.is_some())
    }
}

pub fn run(input: &[u8]) -> Run {
    let mut run = Run::default();
    run.refusal = take_steps(input, &mut run).err();
    run.output.extend(run.refusal);
    run
}

fn take_steps(input: &[u8], run: &mut Run) -> Result<(), u8> {
    let input = Input::read(input).ok_or(1)?;
    input.open([0.0; PLACES])?;
    let table = Table::read(&input.table, usize::from(input.n)).ok_or(8)?;
    let mut session = input.open(table.derivative(input.time, &input.state))?;
    run.opened = true;
    for _ in 0..input.count {
        let (answer, next) = session.whole_step(input.step, &input.table);
        if let Answer::Refused(number) = answer {
            return Err(number);
        }
        session = next;
        put_double(&mut run.output, session.time);
        put_doubles(&mut run.output, &session.state[..usize::from(input.n)]);
        run.steps += 1;
    }
    Ok(())
}

/// Five seconds of a sonde on its cable, eight frames a second: the stretch beyond the hanging tool's, its speed, and the
/// detector's temperature over the well's, which friction heats and the mud, warmer with time, cools.
pub fn logging() -> Input {
    let table = [
        Record::linear(0, 1.0, 1),
        Record::linear(1, -39.5, 0),
        Record::linear(1, -0.75, 1),
        Record::constant(1, 0.4),
        Record::product(2, 1.6, 1, 1),
        Record::linear(2, -0.2, 2),
        Record::by_time(2, 0.015, 2),
        Record::constant(2, 0.05),
    ];
    Input {
        n: 3,
        scheme: 15,
        count: 40,
        time: 0.0,
        step: 0.125,
        relative: 1e-6,
        absolute: vec![1e-4, 1e-3, 1e-2],
        state: vec![0.35, 0.0, 4.0],
        table: bytes_of(&table),
    }
}

pub fn list() -> List {
    let input = logging().bytes();
    let Run { output, steps, refusal, .. } = run(&input);
    assert_eq!(refusal, None);
    List { name: "sonde", input, output, summary: format!("{steps} steps, finished") }
}
