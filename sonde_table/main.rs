//! The text of a run to the table of its right-hand side and to the input of the program `sonde`; the program's output to text and to curves.
//! docs/SONDE.md has the text's rules and an example.

mod curve;
mod output;
#[allow(dead_code)]
#[path = "../host/src/scheme.rs"]
mod scheme;
#[allow(dead_code)]
#[path = "../host/src/table.rs"]
mod table;
#[cfg(test)]
mod tests;
mod text;

use std::io::{ErrorKind, Read, Write};
use std::process::exit;
use table::Table;
use text::Text;

const USAGE: &str = "usage: sonde_table table FILE           the table, to standard output
       sonde_table input FILE           the whole input of the program sonde
       sonde_table hex FILE             the table in words: each record's bytes, and its term
       sonde_table csv FILE < OUTPUT    what the program wrote for that input, as lines of text
       sonde_table svg FILE < OUTPUT    the same as curves, a picture in SVG";

fn hex(text: &Text) -> String {
    let bytes = text.table();
    let mut lines = String::new();
    for (record, bytes) in text.records.iter().zip(bytes.as_bytes().chunks(Table::RECORD)) {
        let octets: Vec<String> = bytes.iter().map(|byte| format!("{byte:02x}")).collect();
        let parts = [&octets[..4], &octets[4..8], &octets[8..]].map(|part| part.join(" "));
        lines += &format!("{}   {}\n", parts.join("  "), record.said);
    }
    lines
}

fn made(command: &str, text: &str) -> Result<Vec<u8>, String> {
    let text = Text::parse(text).map_err(|error| error.to_string())?;
    let written = || -> Result<(text::Start, output::Output), String> {
        let start = text.start().map_err(|error| error.to_string())?;
        let mut bytes = Vec::new();
        std::io::stdin().read_to_end(&mut bytes).map_err(|error| format!("standard input: {error}"))?;
        let output = output::Output::read(&bytes, start.n)?;
        Ok((start, output))
    };
    match command {
        "table" => Ok(text.table().as_bytes().to_vec()),
        "input" => text.input().map_err(|error| error.to_string()),
        "hex" => Ok(hex(&text).into_bytes()),
        "csv" => written().map(|(start, output)| output.csv(start.n).into_bytes()),
        _ => written().and_then(|(start, output)| curve::svg(&text, &start, &output)).map(String::into_bytes),
    }
}

fn main() {
    let arguments: Vec<String> = std::env::args().skip(1).collect();
    let [command, file] = &arguments[..] else {
        eprintln!("{USAGE}");
        exit(2);
    };
    if !["table", "input", "hex", "csv", "svg"].contains(&command.as_str()) {
        eprintln!("{USAGE}");
        exit(2);
    }
    let text = std::fs::read_to_string(file).map_err(|error| error.to_string());
    let bytes = text.and_then(|text| made(command, &text)).unwrap_or_else(|words| {
        eprintln!("sonde_table: {file}: {words}");
        exit(1);
    });
    let mut out = std::io::stdout();
    if let Err(error) = out.write_all(&bytes).and_then(|()| out.flush()) {
        if error.kind() != ErrorKind::BrokenPipe {
            eprintln!("sonde_table: standard output: {error}");
        }
        exit(1);
    }
}
