//! The text of a run: lines that set the run up, and one line for each term of its right-hand side.

use crate::scheme::Scheme;
use crate::table::Table;
use std::collections::BTreeMap;
use std::fmt;

/// The largest dimension.
pub const MOST: usize = 16;

/// What is wrong with a text, and in which line if it is one.
#[derive(Debug, PartialEq)]
pub struct Error {
    pub line: Option<usize>,
    pub words: String,
}

impl fmt::Display for Error {
    fn fmt(&self, f: &mut fmt::Formatter<'_>) -> fmt::Result {
        match self.line {
            Some(line) => write!(f, "line {line}: {}", self.words),
            None => f.write_str(&self.words),
        }
    }
}

/// One term: c, c·u_j, (c·u_j)·u_k or (c·u_j)·time.
#[derive(Clone, Copy, Debug, PartialEq)]
pub enum Term {
    Constant(f64),
    Linear(f64, usize),
    Product(f64, usize, usize),
    Timed(f64, usize),
}

/// A term's line, without its comment, and what it says.
#[derive(Debug, PartialEq)]
pub struct Record {
    pub line: usize,
    pub said: String,
    pub target: usize,
    pub term: Term,
}

/// What a text says. A line that sets something up is kept with its number.
#[derive(Debug, Default)]
pub struct Text {
    set_up: BTreeMap<&'static str, (usize, Vec<String>)>,
    pub title: String,
    /// The name of time, and those of components with their lines.
    pub time: String,
    pub names: BTreeMap<usize, (usize, String)>,
    pub n: Option<usize>,
    pub records: Vec<Record>,
}

/// The lines that set a run up, in the order of the program's input.
const SET_UP: [&str; 8] = ["n", "scheme", "steps", "time", "step", "relative", "absolute", "state"];

/// How a run starts.
#[derive(Debug, PartialEq)]
pub struct Start {
    pub n: usize,
    pub scheme: u8,
    pub steps: u16,
    pub time: f64,
    pub step: f64,
    pub relative: f64,
    pub absolute: Vec<f64>,
    pub state: Vec<f64>,
}

fn number(word: &str) -> Result<f64, String> {
    match word.parse::<f64>() {
        Ok(x) if x.is_finite() => Ok(x),
        Ok(_) => Err(format!("'{word}' is not finite as a double")),
        Err(_) => Err(format!("'{word}' is no number")),
    }
}

fn component(word: &str) -> Result<usize, String> {
    let digits =
        word.strip_prefix('u').filter(|rest| !rest.is_empty() && rest.bytes().all(|b| b.is_ascii_digit()));
    let Some(digits) = digits else {
        return Err(format!("'{word}' is no component such as u0"));
    };
    digits.parse().ok().filter(|j| *j < MOST).ok_or(format!("'{word}' is no component: they are u0 to u15"))
}

fn term(words: &str) -> Result<Term, String> {
    let factors: Vec<&str> = words.split('*').map(str::trim).collect();
    if factors[0] == "t" || factors[0].starts_with('u') {
        return Err(format!("a number comes first, as in 1.0*{}", factors[0]));
    }
    let c = number(factors[0])?;
    match factors[1..] {
        [] => Ok(Term::Constant(c)),
        ["t"] => {
            Err("t comes behind a component, as in 2.0*u0*t; for time alone hold a component at 1".into())
        }
        [j] => Ok(Term::Linear(c, component(j)?)),
        ["t", _] => Err("t comes last, as in 2.0*u0*t".into()),
        [j, "t"] => Ok(Term::Timed(c, component(j)?)),
        [j, k] => Ok(Term::Product(c, component(j)?, component(k)?)),
        _ => Err("a term has a number and at most two factors behind it".into()),
    }
}

fn scheme(word: &str) -> Result<u8, String> {
    let named = Scheme::ALL.into_iter().find(|scheme| format!("{scheme:?}").eq_ignore_ascii_case(word));
    let numbered = || Scheme::ALL.into_iter().find(|scheme| (*scheme as u8).to_string() == word);
    let scheme = named.or_else(numbered).ok_or_else(|| {
        let names: Vec<String> = Scheme::ALL.iter().map(|scheme| format!("{scheme:?}")).collect();
        format!("'{word}' is no scheme: a number from 0 to 15, or one of {}", names.join(", "))
    })?;
    Ok(scheme as u8)
}

impl Text {
    pub fn parse(text: &str) -> Result<Text, Error> {
        let mut parsed = Text::default();
        for (at, line) in text.lines().enumerate() {
            let said = line.split('#').next().unwrap_or("").trim();
            if !said.is_empty() {
                parsed.line(at + 1, said).map_err(|words| Error { line: Some(at + 1), words })?;
            }
        }
        parsed.components()?;
        Ok(parsed)
    }

    fn line(&mut self, line: usize, said: &str) -> Result<(), String> {
        if let Some((target, right)) = said.split_once("+=") {
            if self.records.len() == Table::RECORDS {
                return Err(format!("a table has at most {} terms", Table::RECORDS));
            }
            let (target, term) = (component(target.trim())?, term(right.trim())?);
            self.records.push(Record { line, said: said.into(), target, term });
            return Ok(());
        }
        let (word, rest) = said.split_once(char::is_whitespace).unwrap_or((said, ""));
        let rest = rest.trim();
        match word {
            "title" => self.title = rest.into(),
            "name" => {
                let (named, name) = rest.split_once(char::is_whitespace).unwrap_or((rest, ""));
                if named == "t" {
                    self.time = name.trim().into();
                } else {
                    self.names.insert(component(named)?, (line, name.trim().into()));
                }
            }
            _ => {
                let Some(key) = SET_UP.into_iter().find(|key| *key == word) else {
                    return Err(format!(
                        "neither a term such as u1 += -4.0*u0 nor a line of title, name, {}",
                        SET_UP.join(", ")
                    ));
                };
                let words = rest.split_whitespace().map(String::from).collect();
                if let Some((first, _)) = self.set_up.insert(key, (line, words)) {
                    return Err(format!("a second line '{key}'; the first is line {first}"));
                }
            }
        }
        Ok(())
    }

    // Every component that is spoken of is below n, where n is said.
    fn components(&mut self) -> Result<(), Error> {
        if !self.set_up.contains_key("n") {
            return Ok(());
        }
        let n = self.one("n", |word| {
            let n = word.parse().ok().filter(|n| (1..=MOST).contains(n));
            n.ok_or(format!("n is a whole number from 1 to {MOST}"))
        })?;
        for record in &self.records {
            let (j, k) = match record.term {
                Term::Constant(_) => (0, 0),
                Term::Linear(_, j) | Term::Timed(_, j) => (j, 0),
                Term::Product(_, j, k) => (j, k),
            };
            let above = [record.target, j, k].into_iter().find(|j| *j >= n);
            if let Some(j) = above {
                let words = format!("u{j} is not there: n is {n}");
                return Err(Error { line: Some(record.line), words });
            }
        }
        if let Some((j, (line, _))) = self.names.range(n..).next() {
            return Err(Error { line: Some(*line), words: format!("u{j} is not there: n is {n}") });
        }
        self.n = Some(n);
        Ok(())
    }

    fn words(&self, key: &str) -> Result<(usize, &[String]), Error> {
        let missing = || Error {
            line: None,
            words: format!("no line '{key}': the program's input has {}", SET_UP.join(", ")),
        };
        self.set_up.get(key).map(|(line, words)| (*line, &words[..])).ok_or_else(missing)
    }

    fn one<T>(&self, key: &str, read: impl Fn(&str) -> Result<T, String>) -> Result<T, Error> {
        let (line, words) = self.words(key)?;
        let value = match words {
            [word] => read(word),
            _ => Err(format!("'{key}' has one value, here are {}", words.len())),
        };
        value.map_err(|words| Error { line: Some(line), words })
    }

    fn each(&self, key: &str, n: usize, one_for_all: bool) -> Result<Vec<f64>, Error> {
        let (line, words) = self.words(key)?;
        let values: Result<Vec<f64>, String> = words.iter().map(|word| number(word)).collect();
        let values = values.and_then(|values| match values.len() {
            len if len == n => Ok(values),
            1 if one_for_all => Ok(vec![values[0]; n]),
            len => Err(format!("'{key}' has n values, which are {n}; here are {len}")),
        });
        values.map_err(|words| Error { line: Some(line), words })
    }

    /// How the run starts; every line that sets it up is there.
    pub fn start(&self) -> Result<Start, Error> {
        self.words("n")?;
        let n = self.n.expect("a line 'n' was read");
        Ok(Start {
            n,
            scheme: self.one("scheme", scheme)?,
            steps: self.one("steps", |word| {
                word.parse().map_err(|_| format!("'{word}' is no number of steps from 0 to {}", u16::MAX))
            })?,
            time: self.one("time", number)?,
            step: self.one("step", number)?,
            relative: self.one("relative", number)?,
            absolute: self.each("absolute", n, true)?,
            state: self.each("state", n, false)?,
        })
    }

    pub fn table(&self) -> Table {
        self.records.iter().fold(Table::new(), |table, record| match record.term {
            Term::Constant(c) => table.constant(record.target, c),
            Term::Linear(c, j) => table.linear(record.target, c, j),
            Term::Product(c, j, k) => table.product(record.target, c, j, k),
            Term::Timed(c, j) => table.timed(record.target, c, j),
        })
    }

    /// The whole input of the program.
    pub fn input(&self) -> Result<Vec<u8>, Error> {
        let start = self.start()?;
        let mut bytes = vec![start.n as u8, start.scheme];
        bytes.extend(start.steps.to_le_bytes());
        let figures =
            [start.time, start.step, start.relative].into_iter().chain(start.absolute).chain(start.state);
        bytes.extend(figures.flat_map(f64::to_le_bytes));
        bytes.extend(self.table().as_bytes());
        Ok(bytes)
    }
}
