//! What the program writes: for each accepted step its time and state, and the number of the refusal if one ended the run.

use std::fmt::Write;

#[derive(Debug, PartialEq)]
pub struct Output {
    /// Time and the n entries of the state, for each step.
    pub steps: Vec<Vec<f64>>,
    pub refusal: Option<u8>,
}

impl Output {
    pub fn read(bytes: &[u8], n: usize) -> Result<Output, String> {
        let row = 8 * (1 + n);
        let rows = bytes.chunks_exact(row);
        let refusal = match rows.remainder() {
            [] => None,
            [number] => Some(*number),
            _ => {
                let words = format!(
                    "{} bytes are no output of a run with n {n}: {row} for each step, one for a refusal",
                    bytes.len()
                );
                return Err(words);
            }
        };
        let double = |b: &[u8]| f64::from_le_bytes(b.try_into().expect("chunks of 8"));
        Ok(Output { steps: rows.map(|row| row.chunks_exact(8).map(double).collect()).collect(), refusal })
    }

    /// A line for each step, every number in the fewest digits that give it back.
    pub fn csv(&self, n: usize) -> String {
        let mut text = String::from("time");
        for j in 0..n {
            write!(text, ",u{j}").unwrap();
        }
        for step in &self.steps {
            let figures: Vec<String> = step.iter().map(|x| format!("{x:?}")).collect();
            write!(text, "\n{}", figures.join(",")).unwrap();
        }
        text.push('\n');
        if let Some(number) = self.refusal {
            writeln!(text, "refused by {number}").unwrap();
        }
        text
    }
}
