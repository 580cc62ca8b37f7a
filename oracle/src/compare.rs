//! A console of the port beside the model, over many random scripts, byte by byte.

use crate::bytes::Reader;
use crate::console::{Console, read_call};
use crate::random_script::{damaged, random_script};
use crate::script::{Script, Tally};
use std::io::{self, IsTerminal, Write};
use std::path::Path;
use std::process::{Command, ExitStatus, Stdio};

/// Calls per script.
const CALLS: usize = 1000;

/// Feeds a script to the program and gives what it writes.
pub fn replies_of(program: &Path, script: &[u8]) -> io::Result<Vec<u8>> {
    outcome_of(program, script).map(|(replies, _)| replies)
}

/// Feeds these bytes to the program and gives what it writes, and how it ended.
pub fn outcome_of(program: &Path, bytes: &[u8]) -> io::Result<(Vec<u8>, ExitStatus)> {
    let mut child = Command::new(program).stdin(Stdio::piped()).stdout(Stdio::piped()).spawn()?;
    let mut input = child.stdin.take().expect("it is piped");
    let bytes = bytes.to_vec();
    // A program that stops reading is judged by what it wrote.
    let feeder = std::thread::spawn(move || drop(input.write_all(&bytes)));
    let output = child.wait_with_output()?;
    let _ = feeder.join();
    Ok((output.stdout, output.status))
}

/// Where two replies part: the call's number from 0, what it is, and the place in its reply.
pub fn first_difference(script: &[u8], replies: &[u8]) -> Option<String> {
    let mut console = Console::default();
    let mut reader = Reader::new(script);
    let mut before = 0;
    let mut number = 0;
    while let Some(call) = read_call(&mut reader) {
        let mut reply = Vec::new();
        let told = console.call(&call, &mut reply);
        let theirs = &replies[before.min(replies.len())..(before + reply.len()).min(replies.len())];
        if theirs != reply {
            let same = theirs.iter().zip(&reply).take_while(|(a, b)| a == b).count();
            let words = format!("{call:?}");
            let short: String = words.chars().take(400).collect();
            return Some(format!(
                "call {number} differs at byte {same} of its reply of {} bytes\n  {short}\n  \
                 the model tells {:?}, the program outcome, refusal {:?}",
                reply.len(),
                told.answer,
                &theirs[..theirs.len().min(2)],
            ));
        }
        before += reply.len();
        number += 1;
    }
    (replies.len() > before).then(|| format!("{} bytes too many", replies.len() - before))
}

/// Runs so many scripts from a seed on, each as it is and damaged; tells the outcomes, and whether every byte was the
/// model's.
pub fn run(program: &Path, scripts: u64, seed: u64) -> io::Result<bool> {
    let terminal = io::stderr().is_terminal();
    let tenth = scripts.div_ceil(10).max(1);
    let mut whole = Tally::default();
    let mut broken = Tally::default();
    for turn in 0..scripts {
        let seed = seed.wrapping_add(turn);
        let script = random_script(seed, CALLS);
        let bad_line = damaged(&script.bytes, seed);
        let bad = Script::replay(&bad_line);
        for (kind, bytes, expected) in
            [("script", &script.bytes, &script.replies), ("damaged script", &bad_line, &bad.replies)]
        {
            let replies = replies_of(program, bytes)?;
            if replies != *expected {
                let difference = first_difference(bytes, &replies).unwrap_or("the replies differ".into());
                eprintln!("\n{kind} {seed}: {difference}");
                return Ok(false);
            }
        }
        whole.add(&script.tally);
        broken.add(&bad.tally);
        // One line that is written over on a terminal; elsewhere a line for each tenth.
        let (done, calls) = (turn + 1, whole.calls() + broken.calls());
        if terminal && (done % 10 == 0 || done == scripts) {
            eprint!("\r{done} of {scripts} scripts, {calls} calls");
        } else if !terminal && (done % tenth == 0 || done == scripts) {
            eprintln!("{done} of {scripts} scripts, {calls} calls");
        }
    }
    if terminal {
        eprintln!();
    }
    println!("{} calls in {scripts} scripts, every reply the same", whole.calls());
    print!("{}", whole.report());
    println!("{} calls in the same scripts damaged on the way, every reply the same", broken.calls());
    print!("{}", broken.report());
    Ok(true)
}
