//! The program `sonde` beside the model, over many inputs, byte by byte.

use crate::compare::outcome_of;
use crate::random_input::{Case, fixed, inputs, longest};
use crate::sonde::{self, Run, UNWRITTEN};
use std::collections::BTreeMap;
use std::fs::File;
use std::io::{self, Read, Write};
use std::os::unix::process::ExitStatusExt;
use std::path::Path;
use std::process::{Command, ExitStatus, Stdio};
use std::time::{Duration, Instant};

/// How long a program may take to end once nobody reads what it writes.
const PATIENCE: Duration = Duration::from_secs(20);
/// The number of a broken pipe's signal.
const SIGPIPE: i32 = 13;

/// What the inputs reached.
#[derive(Clone, Debug, Default, Eq, PartialEq)]
pub struct Reached {
    pub kinds: BTreeMap<&'static str, usize>,
    /// Steps taken, by scheme.
    pub steps: BTreeMap<u8, usize>,
    pub finished: usize,
    /// The refusals by number: before the first step was tried.
    pub at_opening: BTreeMap<u8, usize>,
    /// In the first step.
    pub in_first_step: BTreeMap<u8, usize>,
    /// After at least one step.
    pub on_the_way: BTreeMap<u8, usize>,
}

impl Reached {
    pub fn add(&mut self, case: &Case, run: &Run) {
        *self.kinds.entry(case.kind).or_default() += 1;
        if run.steps > 0 {
            *self.steps.entry(case.bytes[1]).or_default() += run.steps;
        }
        let refused = match run {
            Run { opened: false, .. } => &mut self.at_opening,
            Run { steps: 0, .. } => &mut self.in_first_step,
            _ => &mut self.on_the_way,
        };
        match run.refusal {
            None => self.finished += 1,
            Some(number) => *refused.entry(number).or_default() += 1,
        }
    }

    fn report(&self) -> String {
        let list = |counts: &BTreeMap<u8, usize>| {
            let items: Vec<String> = counts.iter().map(|(key, count)| format!("{key}: {count}")).collect();
            items.join(", ")
        };
        let steps: usize = self.steps.values().sum();
        let mut text = format!("  steps taken: {steps}; by scheme {}\n", list(&self.steps));
        text += &format!("  finished: {}\n", self.finished);
        for (place, counts) in [
            ("at the opening", &self.at_opening),
            ("in the first step", &self.in_first_step),
            ("after a step", &self.on_the_way),
        ] {
            text += &format!("  refused {place} by {}\n", list(counts));
        }
        for (kind, count) in &self.kinds {
            text += &format!("  {kind}: {count}\n");
        }
        text
    }
}

/// Where a program that ended with this exit status, if it ended by none of its own, parts from the model.
pub fn difference(run: &Run, output: &[u8], status: Option<i32>) -> Option<String> {
    if run.output != output {
        let same = run.output.iter().zip(output).take_while(|(a, b)| a == b).count();
        return Some(format!(
            "the outputs differ at byte {same}: the model writes {} bytes ({} steps, refusal {:?}), the program {}",
            run.output.len(),
            run.steps,
            run.refusal,
            output.len()
        ));
    }
    (status != Some(run.status()))
        .then(|| format!("the exit status is {status:?}, not {} (refusal {:?})", run.status(), run.refusal))
}

/// Runs the fixed inputs and so many random ones of a seed; tells what they reached, and whether every byte and every
/// exit status was the model's.
pub fn run(program: &Path, count: usize, seed: u64) -> io::Result<bool> {
    let mut reached = Reached::default();
    let cases = fixed().len() + count;
    for (number, case) in inputs(seed).take(cases).enumerate() {
        let run = sonde::run(&case.bytes);
        let (output, status) = outcome_of(program, &case.bytes)?;
        if let Some(difference) = difference(&run, &output, status.code()) {
            eprintln!("input {number} of seed {seed} ({}): {difference}", case.kind);
            return Ok(false);
        }
        reached.add(&case, &run);
    }
    for way in Unread::ALL {
        if let Err(complaint) = ends_quietly(program, way)? {
            eprintln!("{way:?}: {complaint}");
            return Ok(false);
        }
    }
    println!("{cases} inputs, every output and exit status the same");
    print!("{}", reached.report());
    println!("  ends quietly where its output takes no more: {:?}", Unread::ALL);
    Ok(true)
}

/// The ways in which a program's output takes no more.
#[derive(Clone, Copy, Debug, Eq, PartialEq)]
pub enum Unread {
    BrokenPipe,
    /// A broken pipe whose signal is ignored.
    SignalIgnored,
    Closed,
    FullDevice,
}

impl Unread {
    pub const ALL: [Self; 4] = [Self::BrokenPipe, Self::SignalIgnored, Self::Closed, Self::FullDevice];

    /// A broken pipe's signal may end the program before it has a status.
    fn allows(self, status: ExitStatus) -> bool {
        status.code() == Some(UNWRITTEN) || (self == Self::BrokenPipe && status.signal() == Some(SIGPIPE))
    }
}

/// Whether the program, with much to write, ends within [`PATIENCE`] by a status that says so, and says nothing on standard
/// error; what it did instead if not.
pub fn ends_quietly(program: &Path, way: Unread) -> io::Result<Result<(), String>> {
    let program = std::path::absolute(program)?;
    let by_shell = |line: &str| {
        let mut command = Command::new("sh");
        command.arg("-c").arg(line).arg(&program);
        command
    };
    let mut command = match way {
        Unread::BrokenPipe | Unread::FullDevice => Command::new(&program),
        Unread::SignalIgnored => by_shell("trap '' PIPE; exec \"$0\""),
        Unread::Closed => by_shell("exec \"$0\" >&-"),
    };
    command.stdin(Stdio::piped()).stderr(Stdio::piped());
    command.stdout(match way {
        Unread::FullDevice => File::create("/dev/full")?.into(),
        _ => Stdio::piped(),
    });
    let mut child = command.spawn()?;
    drop(child.stdout.take());
    let mut input = child.stdin.take().expect("it is piped");
    let feeder = std::thread::spawn(move || drop(input.write_all(&longest().bytes())));
    let start = Instant::now();
    let status = loop {
        if let Some(status) = child.try_wait()? {
            break Some(status);
        }
        if start.elapsed() > PATIENCE {
            child.kill()?;
            child.wait()?;
            break None;
        }
        std::thread::sleep(Duration::from_millis(5));
    };
    let _ = feeder.join();
    let mut told = String::new();
    if let Some(mut errors) = child.stderr.take() {
        errors.read_to_string(&mut told)?;
    }
    Ok(match status {
        None => Err(format!("the program goes on for {} seconds", PATIENCE.as_secs())),
        Some(_) if !told.is_empty() => Err(format!("the program says {told:?}")),
        Some(status) if !way.allows(status) => Err(format!("the program ends by {status}")),
        Some(_) => Ok(()),
    })
}
