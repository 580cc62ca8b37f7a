//! The core as the program `console` at the end of a pipe (docs/CONSOLE.md), behind the calls of the crate
//! `vunchrem` (host/). The demo runs on this where host/ is not there.

use std::io::{Read, Write};
use std::process::{Child, ChildStdin, ChildStdout, Command, Stdio};

const PLACES: usize = 16;

#[derive(Clone, Copy)]
pub enum Scheme {
    Etdrk2 = 2,
}

/// A call that was refused, by its number (docs/RULES.md).
#[derive(Clone, Copy, Debug)]
pub struct Refusal(u8);

impl Refusal {
    pub fn number(self) -> u8 {
        self.0
    }
}

/// A step that was made, and its matrix products.
pub struct Stepped {
    pub products: u32,
}

/// A run of the core. A refused step leaves it as it was.
pub struct Session {
    program: Child,
    input: Option<ChildStdin>,
    output: ChildStdout,
    n: usize,
    time: f64,
    state: Vec<f64>,
}

struct Reply {
    outcome: u8,
    refusal: u8,
    figure: f64,
    /// Of Ask the place of the question and zeros, of Ready the right-hand sides, the Jacobians and the products.
    counts: [u32; 3],
}

const ASK: u8 = 1;
const READY: u8 = 2;

/// The bytes of a reply before the lent places: outcome, refusal, figure, counts.
const FIXED: usize = 1 + 1 + 8 + 3 * 4;

fn put(bytes: &mut Vec<u8>, values: &[f64], places: usize) {
    for place in 0..places {
        bytes.extend(values.get(place).copied().unwrap_or(0.0).to_le_bytes());
    }
}

impl Session {
    pub fn open(
        scheme: Scheme,
        time: f64,
        state: &[f64],
        derivative: &[f64],
        relative: f64,
        absolute: &[f64],
    ) -> Result<Self, Refusal> {
        let path = std::env::var("CONSOLE").unwrap_or("target/bin/console".into());
        let mut program = Command::new(&path)
            .stdin(Stdio::piped())
            .stdout(Stdio::piped())
            .spawn()
            .unwrap_or_else(|error| panic!("{path}: {error}"));
        let (input, output) = (program.stdin.take(), program.stdout.take().expect("it is piped"));
        let mut session = Self { program, input, output, n: state.len(), time, state: state.to_vec() };
        let mut call = vec![0, scheme as u8, state.len() as u8, 0];
        put(&mut call, &[time, relative], 2);
        put(&mut call, absolute, PLACES);
        put(&mut call, state, PLACES);
        put(&mut call, derivative, PLACES);
        put(&mut call, &[], PLACES);
        let reply = session.call(&call, &mut []);
        if reply.refusal == 0 { Ok(session) } else { Err(Refusal(reply.refusal)) }
    }

    pub fn time(&self) -> f64 {
        self.time
    }

    pub fn state(&self) -> &[f64] {
        &self.state
    }

    /// One step with a differenced Jacobian: begins, answers what is asked, accepts.
    pub fn step(
        &mut self,
        step: f64,
        mut derivative: impl FnMut(f64, &[f64], &mut [f64]),
    ) -> Result<Stepped, Refusal> {
        let n = self.n;
        let mut shown = vec![0.0; n];
        let mut answer = vec![0.0; n];
        let length = (n as u16).to_le_bytes();
        let mut call = vec![1, 0];
        put(&mut call, &[step], 1);
        put(&mut call, &[], PLACES * PLACES);
        call.extend(length);
        let mut reply = self.call(&call, &mut shown);
        while reply.outcome == ASK {
            derivative(reply.figure, &shown, &mut answer);
            let [place, ..] = reply.counts;
            call.clear();
            call.extend([2, place as u8]);
            put(&mut call, &answer, PLACES);
            call.extend(length);
            reply = self.call(&call, &mut shown);
        }
        let [_, _, products] = reply.counts;
        if reply.outcome == READY {
            derivative(self.time + step, &shown, &mut answer);
            call.clear();
            call.push(3);
            put(&mut call, &answer, PLACES);
            reply = self.call(&call, &mut []);
        }
        if reply.refusal != 0 {
            self.call(&[4], &mut []);
            return Err(Refusal(reply.refusal));
        }
        self.time += step;
        self.state = shown;
        Ok(Stepped { products })
    }

    fn call(&mut self, call: &[u8], lent: &mut [f64]) -> Reply {
        let mut bytes = vec![0; FIXED + 8 * lent.len()];
        let input = self.input.as_mut().expect("it is open until the session ends");
        input.write_all(call).and_then(|()| self.output.read_exact(&mut bytes)).expect("the console answers");
        let double = |at: usize| f64::from_le_bytes(bytes[at..at + 8].try_into().expect("eight bytes"));
        let count = |at: usize| u32::from_le_bytes(bytes[at..at + 4].try_into().expect("four bytes"));
        for (place, value) in lent.iter_mut().enumerate() {
            *value = double(FIXED + 8 * place);
        }
        let counts = [count(10), count(14), count(18)];
        Reply { outcome: bytes[0], refusal: bytes[1], figure: double(2), counts }
    }
}

impl Drop for Session {
    fn drop(&mut self) {
        drop(self.input.take());
        let _ = self.program.wait();
    }
}
