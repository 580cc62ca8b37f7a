//! The oracle's commands.

use std::io::{Read, Write};
use std::path::Path;

const USAGE: &str = "\
usage: oracle COMMAND
  search            the norms on which the published squaring count and document 01's step 2 differ
  refused           what the Rust does with each kind of input that document 01 refuses by 6
  order             the order of each scheme, seen as the step is halved
  lists FOLDER [NAME...]
                    writes the fixed lists, all or those named, below FOLDER:
                    float_run, matrix_run, methods_run, console, sonde
  lists --check FOLDER [NAME...]
                    makes them anew and compares them with the files
  console           reads a script of calls (docs/CONSOLE.md) and writes the replies, by the model of document 01
  script SEED       writes a random script of about 1000 calls
  compare PROGRAM SCRIPTS [SEED]
                    runs so many random scripts, from that seed on, through PROGRAM and through the model,
                    and tells what they reach and the largest counts
  sonde             reads an input (docs/SONDE.md) and writes the output, by the model; ends by 1 where it is refused
  inputs PROGRAM COUNT [SEED]
                    runs fixed inputs and so many random ones through PROGRAM, a sonde, and through the model,
                    exit statuses too, and tells what they reach
  input SEED NUMBER writes the input of that number, from 0, that inputs runs with that seed";

fn main() {
    let arguments: Vec<String> = std::env::args().skip(1).collect();
    let words: Vec<&str> = arguments.iter().map(String::as_str).collect();
    match words[..] {
        ["search"] => print(&oracle::search::report()),
        ["refused"] => print(&oracle::refused::report()),
        ["order"] => print(&oracle::order::report()),
        ["lists", "--check", folder, ref names @ ..] => {
            let (good, told) = oracle::lists::check(Path::new(folder), names).unwrap_or_else(fail);
            print(&told);
            if !good {
                std::process::exit(1);
            }
        }
        ["lists", folder, ref names @ ..] => {
            print(&oracle::lists::write(Path::new(folder), names).unwrap_or_else(fail));
        }
        ["console"] => {
            let mut script = Vec::new();
            std::io::stdin().read_to_end(&mut script).unwrap_or_else(fail);
            write(&oracle::console::run(&script));
        }
        ["script", seed] => match seed.parse() {
            Ok(seed) => write(&oracle::random_script::random_script(seed, 1000).bytes),
            Err(_) => usage(),
        },
        ["sonde"] => {
            let mut input = Vec::new();
            std::io::stdin().read_to_end(&mut input).unwrap_or_else(fail);
            let run = oracle::sonde::run(&input);
            let mut stdout = std::io::stdout();
            let written = stdout.write_all(&run.output).and_then(|()| stdout.flush());
            std::process::exit(written.map_or(oracle::sonde::UNWRITTEN, |()| run.status()));
        }
        ["inputs", program, count] => inputs(program, count, "0"),
        ["inputs", program, count, seed] => inputs(program, count, seed),
        ["input", seed, number] => {
            let (Ok(seed), Ok(number)) = (seed.parse(), number.parse()) else { usage() };
            let case = oracle::random_input::inputs(seed).nth(number).expect("there is no last one");
            write(&case.bytes);
        }
        ["compare", program, scripts] => compare(program, scripts, "0"),
        ["compare", program, scripts, seed] => compare(program, scripts, seed),
        _ => usage(),
    }
}

fn compare(program: &str, scripts: &str, seed: &str) {
    let (Ok(scripts), Ok(seed)) = (scripts.parse(), seed.parse()) else { usage() };
    let same = oracle::compare::run(Path::new(program), scripts, seed).unwrap_or_else(fail);
    if !same {
        std::process::exit(1);
    }
}

fn inputs(program: &str, count: &str, seed: &str) {
    let (Ok(count), Ok(seed)) = (count.parse(), seed.parse()) else { usage() };
    let same = oracle::inputs::run(Path::new(program), count, seed).unwrap_or_else(fail);
    if !same {
        std::process::exit(1);
    }
}

fn usage() -> ! {
    eprintln!("{USAGE}");
    std::process::exit(2);
}

fn print(text: &str) {
    write(text.as_bytes());
}

/// Writes to standard output; a reader who has gone away is no error.
fn write(bytes: &[u8]) {
    let _ = std::io::stdout().write_all(bytes);
}

fn fail<T>(error: std::io::Error) -> T {
    eprintln!("oracle: {error}");
    std::process::exit(1);
}
