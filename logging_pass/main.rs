//! A logging pass of a gamma sonde, stepped four ways.

mod model;
mod plot;
mod steppers;
mod sweep;
// The core: the crate of host/, the console at the end of a pipe, or the oracle's model (logging_pass/test).
#[cfg(host)]
extern crate vunchrem;
#[cfg(not(any(host, model)))]
#[path = "pipe.rs"]
mod vunchrem;
#[cfg(model)]
#[path = "stand_in.rs"]
mod vunchrem;

use model::{Between, DAMAGED, DEPTH, FRAMES, State, received, start, time};
use std::io::{IsTerminal, Write};
use std::path::Path;
use steppers::{Core, Explicit, Fault, Published, Series, Stepper, reference};

/// A depth that is off by more is another bed.
pub const BED: f64 = 0.5;

/// What a run left of the pass: its state after each frame, why a frame was not stepped, and the matrix products of a
/// step where they are told.
pub struct Run {
    pub name: &'static str,
    pub states: Vec<State>,
    pub faults: Vec<Option<Fault>>,
    pub products: Vec<Option<u32>>,
}

/// The host, the same for all four. A frame that is not stepped is marked, its words are left out, and the last
/// good state stays; the next frame's step then runs from the last good frame.
fn host(name: &'static str, mut stepper: Box<dyn Stepper>, progress: &mut Progress) -> Run {
    let mut run = Run { name, states: vec![stepper.state()], faults: vec![None], products: vec![None] };
    let mut good = 0;
    for frame in 1..=FRAMES {
        let between = Between { from: (time(good), received(good)), to: (time(frame), received(frame)) };
        let made = stepper.step(&between);
        if made.is_ok() {
            good = frame;
        }
        run.faults.push(made.err());
        run.products.push(made.ok().flatten());
        run.states.push(stepper.state());
        progress.show(name, frame);
    }
    run
}

/// One line that is written over on a terminal; elsewhere a line for each run.
struct Progress {
    terminal: bool,
}

impl Progress {
    fn show(&mut self, name: &str, frame: usize) {
        if self.terminal && (frame % 100 == 0 || frame == FRAMES) {
            eprint!("\r\x1b[Kdemo: {name}: frame {frame} of {FRAMES}");
        } else if !self.terminal && frame == FRAMES {
            eprintln!("demo: {name}: {frame} frames");
        }
        let _ = std::io::stderr().flush();
    }

    fn end(&self) {
        if self.terminal {
            eprint!("\r\x1b[K");
        }
    }
}

/// The depth error at a frame.
pub fn error(run: &Run, reference: &[State], frame: usize) -> f64 {
    run.states[frame][DEPTH] - reference[frame][DEPTH]
}

fn metres(x: f64) -> String {
    if !x.is_finite() || x.abs() >= 1e6 {
        format!("{x:.0e}")
    } else if x.abs() >= 0.1 {
        format!("{x:.2}")
    } else {
        format!("{x:.4}")
    }
}

fn table(runs: &[Run], reference: &[State]) -> String {
    let mut text = format!(
        "{:<22} {:>7} {:>9} {:>11} {:>15} {:>13} {:>11}\n",
        "run", "frames", "refused", "not finite", "silently wrong", "largest off", "off at end"
    );
    for run in runs {
        let refused: Vec<u8> = run
            .faults
            .iter()
            .flatten()
            .filter_map(|f| if let Fault::Refused(n) = f { Some(*n) } else { None })
            .collect();
        let mut by_number: Vec<String> = Vec::new();
        for number in 1..=7 {
            let count = refused.iter().filter(|n| **n == number).count();
            if count > 0 {
                by_number.push(format!("{count} by {number}"));
            }
        }
        let not_finite = run.faults.iter().flatten().filter(|f| **f == Fault::NotFinite).count();
        let off = |frame: usize| error(run, reference, frame);
        let silently = (1..=FRAMES).filter(|f| run.faults[*f].is_none() && off(*f).abs() > BED).count();
        let good = (1..=FRAMES).filter(|f| run.faults[*f].is_none());
        let largest = good.map(|f| off(f).abs()).fold(0.0, f64::max);
        text += &format!(
            "{:<22} {:>7} {:>9} {:>11} {:>15} {:>11} m {:>9} m\n",
            run.name,
            FRAMES,
            if by_number.is_empty() { "0".into() } else { by_number.join(", ") },
            not_finite,
            silently,
            metres(largest),
            metres(off(FRAMES)),
        );
    }
    text
}

/// What each run did with the damaged word and with the frame after it.
fn at_the_damaged_word(runs: &[Run]) -> String {
    let word = received(DAMAGED).lateral;
    let sent = model::sent(DAMAGED).lateral;
    let mut text = format!("frame {DAMAGED}: one bit of a word flipped, {sent:.3} m/s2 read as {word:.3e}\n");
    for run in &runs[2..] {
        let told = |frame: usize| match run.faults[frame] {
            Some(Fault::Refused(number)) => format!("frame {frame} refused by {number}"),
            Some(Fault::NotFinite) => format!("frame {frame} not finite"),
            None if run.states[frame].map(f64::to_bits) == run.states[frame - 1].map(f64::to_bits) => {
                format!("frame {frame} called good, the old state to the bit")
            }
            None => format!("frame {frame} called good"),
        };
        text += &format!("  {}: {}; {}\n", run.name, told(DAMAGED), told(DAMAGED + 1));
    }
    let bits = |run: usize, frame: usize| runs[run].states[frame].map(f64::to_bits);
    let same = (0..=FRAMES).take_while(|frame| bits(2, *frame) == bits(3, *frame)).count();
    text += &format!("  up to frame {} the two have the same state to the bit\n", same - 1);
    text
}

fn main() {
    if std::env::args().nth(1).as_deref() == Some("--sweep") {
        print!("{}", sweep::report(&reference(256)));
        return;
    }
    let out = std::env::args().nth(1).unwrap_or("target/demo".into());
    let out = Path::new(&out);
    let mut progress = Progress { terminal: std::io::stderr().is_terminal() };
    let reference = reference(256);
    let first = Between { from: (time(0), received(0)), to: (time(1), received(1)) };
    let steppers: [(&str, Box<dyn Stepper>); 4] = [
        ("explicit rule", Box::new(Explicit(start()))),
        ("bare power series", Box::new(Series(start()))),
        ("Rust as published", Box::new(Published::new(start(), &first))),
        ("this core", Box::new(Core::new(start(), &first))),
    ];
    let runs: Vec<Run> =
        steppers.into_iter().map(|(name, stepper)| host(name, stepper, &mut progress)).collect();
    progress.end();
    print!("{}", table(&runs, &reference));
    print!("{}", at_the_damaged_word(&runs));
    let written = std::fs::create_dir_all(out)
        .and_then(|()| std::fs::write(out.join("pass.csv"), plot::csv(&runs, &reference)))
        .and_then(|()| std::fs::write(out.join("pass.svg"), plot::svg(&runs, &reference)));
    if let Err(error) = written {
        eprintln!("demo: {}: {error}", out.display());
        std::process::exit(1);
    }
    println!("written: {0}/pass.csv, {0}/pass.svg", out.display());
}
