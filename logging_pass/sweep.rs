//! The same bit flipped in each frame of the pass in turn: what the published Rust and this core make of it.

use crate::model::{Between, FRAMES, N, State, Words, derivative, flipped, sent, time};
use crate::steppers::{Core, Fault, Stepper};
use oracle::watch::Unbearable;
use oracle::{OdeProblem, SolveError, SolveOptions, SolverStats, observed};
use std::collections::BTreeMap;
use std::panic::{AssertUnwindSafe, catch_unwind};

const ETDRK2: usize = 2;

/// A flip makes a reading below 1 this large. One from 1 to 2 becomes infinite or NaN, which the Rust finds too, and a
/// larger one tiny.
const HUGE: f64 = 1e300;

/// The frame with the damaged word and the one after it, by the observed copy: the published text, but where it would
/// square a matrix thousands of times it stops and says so.
fn published(state: &State, frames: [(f64, Words); 3]) -> &'static str {
    let mut kernel = observed::kernel(N, ETDRK2);
    let mut state = *state;
    let mut stats = SolverStats::default();
    let options = SolveOptions::tolerances(1e-6, 1e-6);
    for turn in 0..2 {
        let between = Between { from: frames[turn], to: frames[turn + 1] };
        let (from, to) = (between.from.0, between.to.0);
        let problem = OdeProblem::new(move |du: &mut [f64], u: &[f64], _: &(), t: f64| {
            derivative(&between, t, u, du);
            Ok(())
        });
        let mut candidate = [0.0; N];
        let step = catch_unwind(AssertUnwindSafe(|| -> Result<(), SolveError> {
            if turn == 0 {
                kernel.initialize(&problem, &state, from, &mut stats)?;
            }
            kernel.attempt_step(&problem, &state, from, to - from, &mut candidate, &options, &mut stats)?;
            kernel.accept_step(&problem, &candidate, to, &mut stats)
        }));
        match step {
            Err(panic) if panic.is::<Unbearable>() => return "hangs (4294967295 squarings)",
            Err(panic) => std::panic::resume_unwind(panic),
            Ok(Err(_)) => return "gives an error",
            Ok(Ok(())) if candidate.map(f64::to_bits) == state.map(f64::to_bits) => {
                return "hands the old state back as a good step";
            }
            Ok(Ok(())) => state = candidate,
        }
    }
    "goes on with another state, called good"
}

/// `states` are the good ones, frame by frame.
pub fn report(states: &[State]) -> String {
    // The observed copy's panic is a message and no fault.
    std::panic::set_hook(Box::new(|panic| {
        if !panic.payload().is::<Unbearable>() {
            eprintln!("{panic}");
        }
    }));
    let mut rust: BTreeMap<&str, usize> = BTreeMap::new();
    let mut core: BTreeMap<String, usize> = BTreeMap::new();
    let mut damaged = 0;
    for frame in 1..FRAMES {
        let bad = flipped(sent(frame));
        if !bad.lateral.is_finite() || bad.lateral < HUGE {
            continue;
        }
        damaged += 1;
        let frames =
            [(time(frame - 1), sent(frame - 1)), (time(frame), bad), (time(frame + 1), sent(frame + 1))];
        let state = &states[frame - 1];
        *rust.entry(published(state, frames)).or_default() += 1;
        let between = Between { from: frames[0], to: frames[1] };
        let told = match Core::new(*state, &between).step(&between) {
            Ok(_) => "calls it good".into(),
            Err(Fault::Refused(number)) => format!("refuses it by {number}"),
            Err(Fault::NotFinite) => "not finite".into(),
        };
        *core.entry(told).or_default() += 1;
    }
    let _ = std::panic::take_hook();
    let mut text = format!("the same bit flipped in each frame in turn, {damaged} huge words:\n");
    for (what, count) in &rust {
        text += &format!("  Rust as published {what}: {count}\n");
    }
    for (what, count) in &core {
        text += &format!("  this core {what}: {count}\n");
    }
    text
}
