//! The fixed lists: what goes into a program of the port, and what must come out of it.

use crate::{fixed_script, float_list, matrix_list, pass_list, sonde};
use std::io;
use std::path::Path;

pub struct List {
    /// The program's crate.
    pub name: &'static str,
    pub input: Vec<u8>,
    pub output: Vec<u8>,
    pub summary: String,
}

pub fn all() -> Vec<List> {
    vec![float_list::list(), matrix_list::list(), pass_list::list(), fixed_script::list(), sonde::list()]
}

/// The lists of these names, in their own order; all of them if none is named.
fn named(names: &[&str]) -> io::Result<Vec<List>> {
    let mut lists = all();
    if let Some(name) = names.iter().find(|name| !lists.iter().any(|list| list.name == **name)) {
        return Err(io::Error::other(format!("there is no list {name}")));
    }
    lists.retain(|list| names.is_empty() || names.contains(&list.name));
    Ok(lists)
}

/// Writes each list to its folder below `folder`.
pub fn write(folder: &Path, names: &[&str]) -> io::Result<String> {
    let mut told = String::new();
    for list in named(names)? {
        let place = folder.join(list.name);
        std::fs::create_dir_all(&place)?;
        std::fs::write(place.join("stdin"), &list.input)?;
        std::fs::write(place.join("stdout"), &list.output)?;
        told += &line(&list);
    }
    Ok(told)
}

/// Whether the files below `folder` are the lists, byte for byte.
pub fn check(folder: &Path, names: &[&str]) -> io::Result<(bool, String)> {
    let mut told = String::new();
    let mut good = true;
    for list in named(names)? {
        for (file, bytes) in [("stdin", &list.input), ("stdout", &list.output)] {
            let path = folder.join(list.name).join(file);
            if std::fs::read(&path)? != *bytes {
                told += &format!("{} is not the oracle's\n", path.display());
                good = false;
            }
        }
        told += &line(&list);
    }
    Ok((good, told))
}

fn line(list: &List) -> String {
    format!(
        "{}: {} bytes in, {} bytes out; {}\n",
        list.name,
        list.input.len(),
        list.output.len(),
        list.summary
    )
}
