//! The program `sonde`, target/bin/sonde, beside the crate: the same steps, bit for bit, the same refusals, and its exit status.
use std::fs::File;
use std::io::{Read, Write};
use std::process::{Command, Stdio};
use std::time::Duration;
use vunchrem::{Refusal, Scheme, Session, Table};

const MEGABYTE: usize = 1 << 20;

// A run as the program reads it.
#[derive(Clone)]
struct Run {
    n: u8,
    scheme: u8,
    steps: u16,
    time: f64,
    step: f64,
    relative: f64,
    absolute: Vec<f64>,
    state: Vec<f64>,
    table: Table,
}

impl Run {
    fn bytes(&self) -> Vec<u8> {
        let mut bytes = vec![self.n, self.scheme];
        bytes.extend(self.steps.to_le_bytes());
        for x in [self.time, self.step, self.relative]
            .iter()
            .chain(&self.absolute)
            .chain(&self.state)
        {
            bytes.extend(x.to_le_bytes());
        }
        bytes.extend(self.table.as_bytes());
        bytes
    }

    // What the crate makes of it: the output and the exit status.
    fn by_the_crate(&self) -> (Vec<u8>, i32) {
        let mut written = Vec::new();
        let refusal = match self.walk(&mut written) {
            Ok(()) => return (written, 0),
            Err(refusal) => refusal,
        };
        written.push(refusal.number());
        (written, 1)
    }

    fn walk(&self, written: &mut Vec<u8>) -> Result<(), Refusal> {
        let scheme = Scheme::ALL[usize::from(self.scheme)];
        let mut s = Session::open_by_table(
            scheme,
            self.time,
            &self.state,
            self.relative,
            &self.absolute,
            &self.table,
        )?;
        for _ in 0..self.steps {
            s.whole_step(self.step, &self.table)?;
            written.extend(s.time().to_le_bytes());
            written.extend(s.state().iter().flat_map(|x| x.to_le_bytes()));
        }
        Ok(())
    }
}

fn program() -> Command {
    let mut command = Command::new("target/bin/sonde");
    command.stdin(Stdio::piped()).stderr(Stdio::piped());
    command
}

// Output and exit status of the program, which is handed its input in pieces of this many bytes, with a rest before each, and says nothing besides.
fn in_pieces(input: &[u8], piece: usize, rest: Duration) -> (Vec<u8>, i32) {
    let mut child = program().stdout(Stdio::piped()).spawn().expect("target/bin/sonde");
    let (mut stdin, input) = (child.stdin.take().unwrap(), input.to_vec());
    // A run that is refused early may leave some of its input unread.
    let writer = std::thread::spawn(move || {
        input.chunks(piece).all(|bytes| {
            std::thread::sleep(rest);
            stdin.write_all(bytes).is_ok()
        })
    });
    let output = child.wait_with_output().unwrap();
    writer.join().unwrap();
    assert!(output.stderr.is_empty());
    (output.stdout, output.status.code().expect("an exit, no signal"))
}

fn by_the_program(input: &[u8]) -> (Vec<u8>, i32) {
    in_pieces(input, usize::MAX, Duration::ZERO)
}

fn run(scheme: Scheme, n: usize, steps: u16) -> Run {
    let u = |j: usize| (j % n) as f64;
    let table = (0..n).fold(Table::new(), |table, j| {
        table
            .linear(j, -3.0 - 20.0 * u(j), j)
            .constant(j, 1.0 + 0.5 * u(j))
            .product(j, 0.25, j, (j + 1) % n)
            .timed(j, -0.5, (j + 2) % n)
    });
    Run {
        n: n as u8,
        scheme: scheme as u8,
        steps,
        time: 0.5,
        step: 0.03,
        relative: 1e-6,
        absolute: (0..n).map(|j| 1e-9 * (1.0 + u(j))).collect(),
        state: (0..n).map(|j| 1.0 - 0.1 * u(j)).collect(),
        table,
    }
}

// A run of two components, altered.
fn altered(alter: impl Fn(&mut Run)) -> Run {
    let mut altered = run(Scheme::Exprb43, 2, 3);
    alter(&mut altered);
    altered
}

fn refused_by(number: u8, input: &[u8]) {
    assert_eq!(by_the_program(input), (vec![number], 1));
}

#[test]
fn runs_are_those_of_the_crate() {
    for scheme in Scheme::ALL {
        for n in [1, 2, 3, 16] {
            let run = run(scheme, n, 5);
            let (written, status) = by_the_program(&run.bytes());
            assert_eq!((written.len(), status), (5 * 8 * (1 + n), 0), "{scheme:?}, n is {n}");
            assert!(run.by_the_crate() == (written, 0), "{scheme:?}, n is {n}");
        }
    }
}

#[test]
fn a_run_without_a_step_or_a_table() {
    let none = altered(|run| run.steps = 0);
    assert_eq!(by_the_program(&none.bytes()), (vec![], 0));
    let none = altered(|run| (run.steps, run.step) = (0, 0.0));
    assert_eq!(by_the_program(&none.bytes()), (vec![], 0));
    let empty = altered(|run| run.table = Table::new());
    assert_eq!(by_the_program(&empty.bytes()), empty.by_the_crate());
    let long = altered(|run| (run.steps, run.step) = (1000, 1e-3));
    assert_eq!(by_the_program(&long.bytes()), long.by_the_crate());
}

#[test]
fn an_input_may_come_in_pieces() {
    let run = run(Scheme::Etd2, 3, 5);
    for piece in [3, 8, 100] {
        let rest = Duration::from_millis(3);
        assert_eq!(in_pieces(&run.bytes(), piece, rest), run.by_the_crate());
    }
}

#[test]
fn an_input_cut_short_is_1() {
    let whole = run(Scheme::Exp4, 2, 3).bytes();
    let head = 4 + 8 * (3 + 2 + 2);
    for length in 0..head {
        refused_by(1, &whole[..length]);
    }
    // in the table it is 8, unless it is cut between two records
    for length in (head..whole.len()).filter(|length| (length - head) % 16 != 0) {
        refused_by(8, &whole[..length]);
    }
    // before anything else that is wrong
    let bad = altered(|run| (run.scheme, run.relative) = (16, f64::NAN)).bytes();
    refused_by(1, &bad[..head - 1]);
    refused_by(2, &bad);
    for n in [17, 255] {
        refused_by(1, &[n]);
        refused_by(1, &[vec![n], vec![0; MEGABYTE]].concat());
    }
    refused_by(1, &[0; 28]);
    let widest = run(Scheme::Exp4, 16, 3).bytes();
    for length in [4, 27, 28, 155, 156, 283] {
        refused_by(1, &widest[..length]);
    }
}

#[test]
fn refusals_come_in_their_order() {
    let bad = Table::from_bytes([255; 16]);
    // with everything that comes later wrong, too
    let later = |run: &mut Run| (run.step, run.table) = (0.0, bad.clone());
    refused_by(
        2,
        &altered(|run| (later(run), run.scheme = 16, run.relative = 0.0).0).bytes(),
    );
    refused_by(2, &altered(|run| (later(run), run.scheme = 255).0).bytes());
    refused_by(
        4,
        &altered(|run| (later(run), run.relative = -1.0, run.time = f64::NAN).0).bytes(),
    );
    refused_by(
        4,
        &altered(|run| (later(run), run.absolute[1] = 0.0, run.state[0] = f64::NAN).0).bytes(),
    );
    refused_by(3, &altered(|run| (later(run), run.time = f64::INFINITY).0).bytes());
    refused_by(3, &altered(|run| (later(run), run.state[1] = f64::NAN).0).bytes());
    refused_by(8, &altered(later).bytes());
    refused_by(8, &altered(|run| (run.steps, run.table) = (0, bad.clone())).bytes());
    let huge = Table::new().product(0, 1e308, 0, 0).constant(0, 1e308);
    let both = Table::from_bytes([huge.as_bytes(), bad.as_bytes()].concat());
    refused_by(8, &altered(|run| run.table = both.clone()).bytes());
    refused_by(3, &altered(|run| (run.step, run.table) = (0.0, huge.clone())).bytes());
    refused_by(3, &altered(|run| (run.steps, run.table) = (0, huge.clone())).bytes());
    for step in [0.0, -0.0, f64::NAN, f64::NEG_INFINITY] {
        refused_by(5, &altered(|run| run.step = step).bytes());
    }
    refused_by(6, &altered(|run| run.table = Table::new().linear(0, 1e300, 0)).bytes());
    let records = |count: usize| altered(|run| run.table = Table::from_bytes(vec![0; 16 * count]));
    assert_eq!(by_the_program(&records(256).bytes()), records(256).by_the_crate());
    for count in [257, 1000, MEGABYTE / 16] {
        refused_by(8, &records(count).bytes());
    }
}

#[test]
fn a_refusal_in_mid_run_ends_it() {
    // u0' = 2^30 u0 t from u0 = 0: the state stays, and the Jacobian grows with time until its exponential is refused
    for scheme in Scheme::ALL {
        let growing = altered(|run| {
            (run.scheme, run.steps, run.time, run.step) = (scheme as u8, u16::MAX, 0.0, 1.0);
            (run.state, run.table) = (
                vec![0.0, 1.0],
                Table::new().timed(0, 2f64.powi(30), 0).linear(1, -1.0, 1),
            );
        });
        let (written, status) = by_the_program(&growing.bytes());
        assert_eq!((written.len() % 24, status), (1, 1), "{scheme:?}");
        assert!(written.len() > 24 && written.last() == Some(&6), "{scheme:?}");
        assert!(growing.by_the_crate() == (written, 1), "{scheme:?}");
    }
}

// Exit status of a run with this output, None where a signal ended it; it says nothing.
fn ended(input: &[u8], output: impl Into<Stdio>) -> Option<i32> {
    let mut child = program().stdout(output).spawn().expect("target/bin/sonde");
    child.stdin.take().unwrap().write_all(input).unwrap();
    let (mut said, status) = (String::new(), child.wait().unwrap());
    child.stderr.take().unwrap().read_to_string(&mut said).unwrap();
    assert_eq!(said, "");
    status.code()
}

#[test]
fn output_that_takes_no_more_is_2() {
    for input in [run(Scheme::Exprb32, 2, 3).bytes(), vec![]] {
        let full = File::options().write(true).open("/dev/full").unwrap();
        assert_eq!(ended(&input, full), Some(2));
        // a pipe whose reader is gone, with SIGPIPE at its default
        let (reader, writer) = std::io::pipe().unwrap();
        drop(reader);
        assert_eq!(ended(&input, writer), Some(2));
    }
}
