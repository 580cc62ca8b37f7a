//! docs/CLAIMS.md is opened: every name in backquotes, every file and every must-fail edit that it names is there, and every edit is named.

use std::collections::HashSet;
use std::fs;
use std::path::{Path, PathBuf};

const CLAIMS: &str = include_str!("../../docs/CLAIMS.md");

/// The repository: oracle/test hands the path of this file to the compiler.
fn root() -> PathBuf {
    Path::new(file!()).ancestors().nth(3).unwrap().to_path_buf()
}

fn files(folder: &Path, found: &mut Vec<PathBuf>) {
    for entry in fs::read_dir(folder).unwrap() {
        let path = entry.unwrap().path();
        if path.is_dir() {
            // What the toolchain keeps of a crate is none of the repository's.
            if !path.ends_with("out") {
                files(&path, found);
            }
        } else {
            found.push(path);
        }
    }
}

/// Every file that a claim may name.
fn all_files() -> Vec<PathBuf> {
    let root = root();
    let mut found = Vec::new();
    for folder in ["crates", "oracle", "host", "sonde_table", "docs", "logging_pass", "bench"] {
        files(&root.join(folder), &mut found);
    }
    // The pages on the port and on the design pass quote names that are gone.
    found.retain(|path| !["docs/CLAIMS.md", "docs/PORT.md", "docs/DESIGN-PASS.md"].iter().any(|page| path.ends_with(page)));
    found
}

fn words(text: &str) -> impl Iterator<Item = &str> {
    text.split(|c: char| c.is_whitespace() || "(){}[],;:.`'\"|*".contains(c)).filter(|word| !word.is_empty())
}

/// The rows of the page's tables.
fn rows() -> impl Iterator<Item = (usize, &'static str)> {
    CLAIMS.lines().enumerate().filter(|(_, line)| line.starts_with('|'))
}

/// The names in backquotes, with their lines.
fn names() -> Vec<(usize, &'static str)> {
    let lines = rows();
    lines
        .flat_map(|(number, line)| line.split('`').skip(1).step_by(2).map(move |name| (number + 1, name)))
        .collect()
}

fn edit(name: &str) -> Option<PathBuf> {
    let (folder, label) = name.split_once('/')?;
    let folder = root().join("crates").join(folder);
    (folder.is_dir() && !name.starts_with('.'))
        .then(|| folder.join("must-fail").join(format!("{label}.edit")))
}

#[test]
fn every_name_stands_somewhere() {
    let root = root();
    let texts: Vec<String> = all_files().iter().filter_map(|path| fs::read_to_string(path).ok()).collect();
    let known: HashSet<&str> = texts.iter().flat_map(|text| words(text)).collect();
    let mut missing = Vec::new();
    for (line, name) in names() {
        let command = name.split(' ').next().unwrap();
        let there = match edit(name) {
            Some(path) => path.is_file(),
            None if command.contains('/') => root.join(command).exists(),
            None => words(name).all(|word| known.contains(word)),
        };
        if !there {
            missing.push(format!("{line}: `{name}`"));
        }
    }
    assert!(missing.is_empty(), "docs/CLAIMS.md names what is nowhere: {missing:#?}");
}

#[test]
fn every_file_is_there() {
    let known = all_files();
    for (number, line) in rows() {
        for word in line.split(|c: char| c.is_whitespace() || "(),;`|".contains(c)) {
            let end = word.rsplit_once('.').map_or("", |(_, end)| end);
            if ["antt", "rt", "rs", "md"].contains(&end) {
                assert!(
                    known.iter().any(|path| path.ends_with(word)),
                    "docs/CLAIMS.md:{}: no {word}",
                    number + 1
                );
            }
        }
    }
}

#[test]
fn every_must_fail_edit_is_named() {
    for path in all_files().iter().filter(|path| path.extension().is_some_and(|end| end == "edit")) {
        let label = path.file_stem().unwrap().to_str().unwrap();
        let folder = path.ancestors().nth(2).unwrap().file_name().unwrap().to_str().unwrap();
        assert!(
            CLAIMS.contains(&format!("`{folder}/{label}`")),
            "docs/CLAIMS.md does not name {folder}/{label}"
        );
    }
}
