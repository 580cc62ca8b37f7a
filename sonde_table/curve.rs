//! The curves of a run as a picture (SVG): a strip for each component that has a name in the text, or for all where none has.

use crate::output::Output;
use crate::text::{Start, Text};
use std::fmt::Write;

const WIDTH: f64 = 960.0;
const LEFT: f64 = 92.0;
const RIGHT: f64 = 930.0;
const TOP: f64 = 84.0;
const STRIP: f64 = 150.0;
const GAP: f64 = 44.0;
const INK: &str = "#222222";
/// Colours that stay apart for every eye, taken in turn.
const COLOURS: [&str; 4] = ["#0072b2", "#00a878", "#d55e00", "#a2559b"];

/// An axis from one value to another, laid over a stretch of the picture.
struct Axis {
    values: (f64, f64),
    places: (f64, f64),
}

impl Axis {
    fn place(&self, value: f64) -> f64 {
        let (from, to) = self.values;
        self.places.0 + (self.places.1 - self.places.0) * ((value - from) / (to - from))
    }

    /// Round values on the axis, at most seven, and their words.
    fn marks(&self) -> Vec<(f64, String)> {
        let (least, most) = (self.values.0.min(self.values.1), self.values.0.max(self.values.1));
        let spacings = (-320i32..=308).flat_map(|power| [1, 2, 5].map(|digit| (digit, power)));
        for (digit, power) in spacings {
            let spacing: f64 = format!("{digit}e{power}").parse().unwrap();
            let (first, last) = ((least / spacing).ceil(), (most / spacing).floor());
            if spacing > 0.0 && last - first < 7.0 {
                let marks = (0..=(last - first) as i32).map(|k| (first + f64::from(k)) * spacing);
                let decimals = if power < 0 { -power as usize } else { 0 };
                let words =
                    |x: f64| if power.abs() > 5 { format!("{x:.1e}") } else { format!("{x:.decimals$}") };
                return marks.map(|x| (x, words(x + 0.0))).collect();
            }
        }
        Vec::new()
    }
}

fn escaped(words: &str) -> String {
    words.replace('&', "&amp;").replace('<', "&lt;").replace('>', "&gt;")
}

fn line(svg: &mut String, from: (f64, f64), to: (f64, f64), colour: &str, more: &str) {
    let ((x1, y1), (x2, y2)) = (from, to);
    writeln!(svg, r#"<line x1="{x1:.1}" y1="{y1:.1}" x2="{x2:.1}" y2="{y2:.1}" stroke="{colour}"{more}/>"#)
        .unwrap();
}

fn words(svg: &mut String, x: f64, y: f64, anchor: &str, size: u32, words: &str) {
    let words = escaped(words);
    writeln!(
        svg,
        r#"<text x="{x:.1}" y="{y:.1}" font-size="{size}" fill="{INK}" text-anchor="{anchor}">{words}</text>"#
    )
    .unwrap();
}

/// The least and the largest of the values with a margin; None where one is not finite, or they are too far apart for a double.
fn range(values: &[f64]) -> Option<(f64, f64)> {
    if !values.iter().all(|x| x.is_finite()) {
        return None;
    }
    let least = values.iter().copied().fold(f64::INFINITY, f64::min);
    let most = values.iter().copied().fold(f64::NEG_INFINITY, f64::max);
    let margin = if most > least { 0.06 * (most - least) } else { 0.1 * most.abs().max(1.0) };
    let (from, to) = (least - margin, most + margin);
    (to - from).is_finite().then_some((from, to))
}

pub fn svg(text: &Text, start: &Start, output: &Output) -> Result<String, String> {
    let shown: Vec<usize> =
        if text.names.is_empty() { (0..start.n).collect() } else { text.names.keys().copied().collect() };
    let mut times = vec![start.time];
    times.extend(output.steps.iter().map(|step| step[0]));
    let last = times[times.len() - 1];
    let height = TOP + (STRIP + GAP) * shown.len() as f64 + 22.0;
    let mut svg = format!(
        r##"<svg xmlns="http://www.w3.org/2000/svg" viewBox="0 0 {WIDTH} {height}" width="{WIDTH}" height="{height}" font-family="DejaVu Sans, Verdana, Helvetica, Arial, sans-serif">
<rect width="{WIDTH}" height="{height}" fill="#ffffff"/>
"##
    );
    words(&mut svg, LEFT, 34.0, "start", 19, &text.title);
    // A run that made no step has a time axis all the same.
    let end = if last == start.time { last + 0.1 * last.abs().max(1.0) } else { last };
    let across = Axis { values: (start.time, end), places: (LEFT, RIGHT) };
    for (strip, j) in shown.iter().copied().enumerate() {
        let mut values = vec![start.state[j]];
        values.extend(output.steps.iter().map(|step| step[1 + j]));
        let too_far =
            || format!("the values of u{j} or of time are not finite, or too far apart to be drawn");
        let (from, to) = range(&values).filter(|_| range(&times).is_some()).ok_or_else(too_far)?;
        let top = TOP + (STRIP + GAP) * strip as f64;
        let upward = Axis { values: (from, to), places: (top + STRIP, top) };
        for (value, label) in upward.marks() {
            let y = upward.place(value);
            line(&mut svg, (LEFT, y), (RIGHT, y), "#e6e6e6", "");
            words(&mut svg, LEFT - 8.0, y + 4.5, "end", 13, &label);
        }
        for (value, label) in across.marks() {
            let x = across.place(value);
            line(&mut svg, (x, top + STRIP), (x, top + STRIP + 5.0), INK, "");
            words(&mut svg, x, top + STRIP + 19.0, "middle", 13, &label);
        }
        let (width, colour) = (RIGHT - LEFT, COLOURS[strip % COLOURS.len()]);
        writeln!(svg, r#"<rect x="{LEFT}" y="{top:.1}" width="{width:.1}" height="{STRIP}" fill="none" stroke="{INK}"/>"#).unwrap();
        let points: Vec<String> = times
            .iter()
            .zip(&values)
            .map(|(time, value)| format!("{:.1},{:.1}", across.place(*time), upward.place(*value)))
            .collect();
        let points = points.join(" ");
        writeln!(svg, r#"<polyline points="{points}" fill="none" stroke="{colour}" stroke-width="1.8" stroke-linejoin="round"/>"#).unwrap();
        if output.refusal.is_some() {
            let x = across.place(last);
            line(&mut svg, (x, top), (x, top + STRIP), INK, r#" stroke-width="1.4" stroke-dasharray="5 4""#);
        }
        let name = text.names.get(&j).map(|(_, name)| name).filter(|name| !name.is_empty());
        let name = name.map_or(format!("u{j}"), |name| format!("u{j}: {name}"));
        words(&mut svg, LEFT, top - 8.0, "start", 14, &name);
    }
    let time = if text.time.is_empty() { "t" } else { &text.time };
    let refusal = output.refusal.map_or(String::new(), |number| format!(", then refused by {number}"));
    let end = format!("{time}; {} steps{refusal}", output.steps.len());
    words(&mut svg, 0.5 * (LEFT + RIGHT), height - 14.0, "middle", 14, &end);
    svg.push_str("</svg>\n");
    Ok(svg)
}
