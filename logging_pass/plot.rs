//! The pass as a table of figures (CSV) and as a picture (SVG).

use crate::model::{DAMAGED, DEPTH, FRAME, FRAMES, State, is_slack, received, time};
use crate::steppers::Fault;
use crate::{Run, error};
use std::fmt::Write;

/// The core among the runs.
const CORE: usize = 3;

pub fn csv(runs: &[Run], reference: &[State]) -> String {
    let mut text = String::from("frame,time_s,axial_m_s2,lateral_m_s2,reference_depth_m");
    for name in ["explicit", "series", "published", "core"] {
        write!(text, ",{name}_depth_m,{name}_mark").unwrap();
    }
    text.push_str(",products\n");
    for frame in 0..=FRAMES {
        let words = received(frame);
        write!(text, "{frame},{},{:.6},{}", time(frame), words.axial, number(words.lateral)).unwrap();
        write!(text, ",{}", number(reference[frame][DEPTH])).unwrap();
        for run in runs {
            let mark = match run.faults[frame] {
                None => "good".into(),
                Some(Fault::NotFinite) => "not finite".into(),
                Some(Fault::Refused(number)) => format!("refused by {number}"),
            };
            write!(text, ",{},{mark}", number(run.states[frame][DEPTH])).unwrap();
        }
        // Those of the core's step; none where no step was made.
        let products = runs[CORE].products[frame];
        writeln!(text, ",{}", products.map_or(String::new(), |count| count.to_string())).unwrap();
    }
    text
}

fn number(x: f64) -> String {
    if x.abs() < 1e6 { format!("{x:.6}") } else { format!("{x:e}") }
}

const WIDTH: f64 = 960.0;
const HEIGHT: f64 = 924.0;
const LEFT: f64 = 76.0;
const RIGHT: f64 = 930.0;
const LAST: f64 = 300.0; // s

/// Colours that stay apart for every eye, and the width of each run's line; the last lies on top.
const LINES: [(&str, f64); 4] = [("#d55e00", 2.2), ("#a2559b", 2.2), ("#0072b2", 4.0), ("#00a878", 1.8)];
const TRUTH: &str = "#c4c4c4";
const INK: &str = "#222222";

/// A part of the picture with its own vertical axis.
struct Panel {
    top: f64,
    bottom: f64,
    /// The values at the top and at the bottom.
    from: f64,
    to: f64,
}

fn x(time: f64) -> f64 {
    LEFT + (RIGHT - LEFT) * time / LAST
}

impl Panel {
    fn y(&self, value: f64) -> f64 {
        self.top + (self.bottom - self.top) * (value - self.from) / (self.to - self.from)
    }

    fn holds(&self, value: f64) -> bool {
        let (least, most) = (self.from.min(self.to), self.from.max(self.to));
        least <= value && value <= most
    }

    fn axes(&self, svg: &mut String, label: &str, marks: &[f64]) {
        for mark in marks {
            let y = self.y(*mark);
            line(svg, (LEFT, y), (RIGHT, y), "#e6e6e6", 1.0, "");
            text(svg, LEFT - 8.0, y + 4.5, "end", 13.0, INK, &format!("{mark}"));
        }
        for second in (0..=300).step_by(30) {
            let x = x(f64::from(second));
            line(svg, (x, self.bottom), (x, self.bottom + 5.0), INK, 1.0, "");
            text(svg, x, self.bottom + 20.0, "middle", 13.0, INK, &format!("{second}"));
        }
        writeln!(
            svg,
            r#"<rect x="{LEFT}" y="{:.1}" width="{:.1}" height="{:.1}" fill="none" stroke="{INK}"/>"#,
            self.top,
            RIGHT - LEFT,
            self.bottom - self.top
        )
        .unwrap();
        let middle = 0.5 * (self.top + self.bottom);
        writeln!(
            svg,
            r#"<text x="22" y="{middle:.1}" font-size="14" fill="{INK}" text-anchor="middle" transform="rotate(-90 22 {middle:.1})">{label}</text>"#
        )
        .unwrap();
    }

    /// Draws values frame by frame; a curve that leaves the panel ends at its edge with a cross, whose place is given.
    fn curve(&self, svg: &mut String, values: &[f64], colour: &str, width: f64) -> Option<(f64, f64)> {
        let mut points = String::new();
        let mut left = None;
        for (frame, value) in values.iter().enumerate() {
            let x = x(time(frame));
            if !self.holds(*value) {
                let up = (*value < self.from) == (self.from < self.to);
                let edge = if up { self.top } else { self.bottom };
                write!(points, "{x:.1},{edge:.1}").unwrap();
                left = Some((x, edge));
                break;
            }
            // Two points a second are enough for the eye.
            if frame % 4 == 0 {
                write!(points, "{x:.1},{:.1} ", self.y(*value)).unwrap();
            }
        }
        writeln!(
            svg,
            r#"<polyline points="{}" fill="none" stroke="{colour}" stroke-width="{width}" stroke-linejoin="round"/>"#,
            points.trim_end()
        )
        .unwrap();
        if let Some((x, y)) = left {
            let arm = 6.0;
            line(svg, (x - arm, y - arm), (x + arm, y + arm), colour, 3.0, "");
            line(svg, (x - arm, y + arm), (x + arm, y - arm), colour, 3.0, "");
        }
        left
    }

    /// Draws the count of each step, from the frame before to its own; a frame without one is a gap.
    fn steps(&self, svg: &mut String, counts: &[Option<u32>], colour: &str, width: f64) {
        let mut path = String::new();
        let mut last = None;
        for (frame, count) in counts.iter().enumerate() {
            if *count == last {
                continue;
            }
            let start = x(time(frame) - FRAME);
            if last.is_some() {
                write!(path, "H{start:.1}").unwrap();
            }
            if let Some(count) = count {
                let y = self.y(f64::from(*count));
                let way = if last.is_some() { format!("V{y:.1}") } else { format!("M{start:.1},{y:.1}") };
                path.push_str(&way);
            }
            last = *count;
        }
        if last.is_some() {
            write!(path, "H{:.1}", x(time(counts.len() - 1))).unwrap();
        }
        writeln!(svg, r#"<path d="{path}" fill="none" stroke="{colour}" stroke-width="{width}"/>"#).unwrap();
    }
}

fn line(svg: &mut String, from: (f64, f64), to: (f64, f64), colour: &str, width: f64, more: &str) {
    writeln!(
        svg,
        r#"<line x1="{:.1}" y1="{:.1}" x2="{:.1}" y2="{:.1}" stroke="{colour}" stroke-width="{width}"{more}/>"#,
        from.0, from.1, to.0, to.1
    )
    .unwrap();
}

/// Text over a pale edge, so that a line behind it does not cut it.
fn text(svg: &mut String, x: f64, y: f64, anchor: &str, size: f64, colour: &str, words: &str) {
    writeln!(
        svg,
        r##"<text x="{x:.1}" y="{y:.1}" font-size="{size}" fill="{colour}" text-anchor="{anchor}" stroke="#ffffff" stroke-width="3" stroke-opacity="0.85" paint-order="stroke">{words}</text>"##
    )
    .unwrap();
}

/// The stretches of time in which the cable is slack.
fn slack(reference: &[State]) -> Vec<(f64, f64)> {
    let mut stretches: Vec<(f64, f64)> = Vec::new();
    for (frame, state) in reference.iter().enumerate() {
        if !is_slack(state) {
            continue;
        }
        match stretches.last_mut() {
            Some(last) if last.1 >= time(frame) => last.1 = time(frame + 1),
            _ => stretches.push((time(frame), time(frame + 1))),
        }
    }
    stretches
}

pub fn svg(runs: &[Run], reference: &[State]) -> String {
    let depth = Panel { top: 112.0, bottom: 440.0, from: 295.0, to: 425.0 };
    let off = Panel { top: 500.0, bottom: 740.0, from: 6.0, to: -2.0 };
    let counts = runs[CORE].products.iter().flatten().map(|count| f64::from(*count));
    let (least, most) = (counts.clone().fold(f64::INFINITY, f64::min), counts.fold(0.0, f64::max));
    let products = Panel { top: 802.0, bottom: 866.0, from: most + 2.0, to: least - 2.0 };
    let mut svg = format!(
        r##"<svg xmlns="http://www.w3.org/2000/svg" viewBox="0 0 {WIDTH} {HEIGHT}" width="{WIDTH}" height="{HEIGHT}" font-family="DejaVu Sans, Verdana, Helvetica, Arial, sans-serif">
<rect width="{WIDTH}" height="{HEIGHT}" fill="#ffffff"/>
"##
    );
    text(&mut svg, LEFT, 34.0, "start", 19.0, INK, "One logging pass of a gamma sonde, stepped four ways");
    legend(&mut svg, runs);

    let damaged = x(time(DAMAGED));
    for panel in [&depth, &off, &products] {
        for (from, to) in slack(reference) {
            writeln!(
                svg,
                r##"<rect x="{:.1}" y="{:.1}" width="{:.1}" height="{:.1}" fill="#f4ecd8"/>"##,
                x(from),
                panel.top,
                x(to) - x(from),
                panel.bottom - panel.top
            )
            .unwrap();
        }
    }
    depth.axes(&mut svg, "tool depth (m)", &[300.0, 320.0, 340.0, 360.0, 380.0, 400.0, 420.0]);
    off.axes(&mut svg, "depth error (m), down positive", &[-2.0, 0.0, 2.0, 4.0, 6.0]);
    line(&mut svg, (LEFT, off.y(0.0)), (RIGHT, off.y(0.0)), "#888888", 1.0, "");
    products.axes(&mut svg, "products", &[least, most]);
    let caption = format!(
        "matrix products of each step of this core, {least} to {most}; most where the cable is stiff"
    );
    text(&mut svg, LEFT, products.top - 9.0, "start", 13.0, INK, &caption);
    text(&mut svg, 0.5 * (LEFT + RIGHT), 908.0, "middle", 14.0, INK, "time (s), eight frames a second");

    for panel in [&depth, &off, &products] {
        line(&mut svg, (damaged, panel.top), (damaged, panel.bottom), INK, 1.4, r#" stroke-dasharray="5 4""#);
    }
    let truth: Vec<f64> = reference.iter().map(|state| state[DEPTH]).collect();
    depth.curve(&mut svg, &truth, TRUTH, 8.0);
    let mut ends = Vec::new();
    for (run, (colour, width)) in runs.iter().zip(LINES) {
        let depths: Vec<f64> = run.states.iter().map(|state| state[DEPTH]).collect();
        let errors: Vec<f64> = (0..=FRAMES).map(|frame| error(run, reference, frame)).collect();
        depth.curve(&mut svg, &depths, colour, width);
        ends.push(off.curve(&mut svg, &errors, colour, width));
    }
    products.steps(&mut svg, &runs[CORE].products, LINES[CORE].0, LINES[CORE].1);

    let note = format!("damaged word, frame {DAMAGED}");
    text(&mut svg, damaged + 8.0, depth.top + 20.0, "start", 13.0, INK, &note);
    // What became of each run, beside its curve.
    let words: [&[&str]; 2] = [
        &["explicit rule breaks up", "as the cable comes tight"],
        &["power series loses", "its figures on", "stiff cable"],
    ];
    for (run, rows) in words.iter().enumerate() {
        let Some((at, edge)) = ends[run] else { continue };
        let (anchor, shift) = if run == 0 { ("end", -12.0) } else { ("start", 12.0) };
        let first = if edge < off.y(0.0) { edge + 24.0 } else { edge - 44.0 };
        for (row, words) in rows.iter().enumerate() {
            text(&mut svg, at + shift, first + 17.0 * row as f64, anchor, 13.0, LINES[run].0, words);
        }
    }
    let end = |run: usize| error(&runs[run], reference, FRAMES);
    let published = [format!("Rust as published: {:.1} m off,", end(2)), "every frame called good".into()];
    for (row, words) in published.iter().enumerate() {
        let y = off.y(2.4) + 17.0 * row as f64;
        text(&mut svg, RIGHT - 10.0, y, "end", 13.0, LINES[2].0, words);
    }
    let core = format!("this core: frame refused, {:.2} m off at the end", end(CORE));
    text(&mut svg, RIGHT - 10.0, off.y(0.0) + 22.0, "end", 13.0, "#007a57", &core);
    svg.push_str("</svg>\n");
    svg
}

fn legend(svg: &mut String, runs: &[Run]) {
    let mut at = LEFT;
    let y = 74.0;
    let truth = ("fine reference", TRUTH, 8.0);
    let lines = runs.iter().zip(LINES).map(|(run, (colour, width))| (run.name, colour, width));
    for (name, colour, width) in std::iter::once(truth).chain(lines) {
        line(svg, (at, y - 4.5), (at + 30.0, y - 4.5), colour, width, "");
        text(svg, at + 38.0, y, "start", 13.0, INK, name);
        at += 38.0 + 7.6 * name.len() as f64 + 22.0;
    }
    writeln!(svg, r##"<rect x="{LEFT}" y="87" width="30" height="13" fill="#f4ecd8"/>"##).unwrap();
    text(svg, LEFT + 38.0, 98.0, "start", 13.0, INK, "cable slack");
    text(
        svg,
        LEFT + 150.0,
        98.0,
        "start",
        13.0,
        INK,
        "&#10005; a curve leaves the picture and does not come back",
    );
}
