//! The text, the bytes made of it, and the program's output read back.
use crate::curve;
use crate::made;
use crate::output::Output;
use crate::scheme::Scheme;
use crate::text::{Error, Term, Text};

const CABLE: &str = include_str!("cable.txt");

fn terms(text: &str) -> Vec<(usize, Term)> {
    Text::parse(text).unwrap().records.iter().map(|record| (record.target, record.term)).collect()
}

// A text's error: its line, 0 if it is none, and its words.
fn error(text: &str) -> (usize, String) {
    let Error { line, words } = Text::parse(text).and_then(|text| text.input()).unwrap_err();
    (line.unwrap_or(0), words)
}

fn refused(line: &str, words: &str) {
    let (at, said) = error(&format!("# first\n\n{line}"));
    assert_eq!(at, 3, "{line}: {said}");
    assert!(said.contains(words), "{line}: {said}");
}

#[test]
fn each_kind_of_term() {
    let text = "u1 += -4.0*u0\n\n  # nothing\nu2 += 0.5\nu0+=-1.0*u0*u1 # both\n\tu15  +=  +2e-3 * u11 * t\n";
    let expected = [
        (1, Term::Linear(-4.0, 0)),
        (2, Term::Constant(0.5)),
        (0, Term::Product(-1.0, 0, 1)),
        (15, Term::Timed(2e-3, 11)),
    ];
    assert_eq!(terms(text), expected);
    assert_eq!(terms(&text.replace('\n', "\r\n")), expected);
    assert_eq!(terms(""), []);
}

#[test]
fn a_record_has_its_bytes() {
    let table = |text: &str| made("table", text).unwrap();
    assert_eq!(table("u1 += 1.0"), [1, 0, 0, 0, 0, 0, 0, 0, 0, 0, 0, 0, 0, 0, 0xf0, 0x3f]);
    assert_eq!(table("u2 += -2.0*u3"), [2, 1, 3, 0, 0, 0, 0, 0, 0, 0, 0, 0, 0, 0, 0, 0xc0]);
    assert_eq!(table("u15 += 0.1*u4*u5")[..8], [15, 2, 4, 5, 0, 0, 0, 0]);
    assert_eq!(table("u15 += 0.1*u4*u5")[8..], 0.1f64.to_le_bytes());
    assert_eq!(table("u0 += -0.0*u7*t"), [0, 3, 7, 0, 0, 0, 0, 0, 0, 0, 0, 0, 0, 0, 0, 0x80]);
    assert_eq!(table("u0 += 1\nu0 += 2").len(), 32);
    assert_eq!(table("# none"), []);
    assert_eq!(
        made("hex", "u1 += 1.0 # one").unwrap(),
        b"01 00 00 00  00 00 00 00  00 00 00 00 00 00 f0 3f   u1 += 1.0\n"
    );
}

#[test]
fn terms_that_are_none() {
    refused("u0 += u1", "a number comes first");
    refused("u0 += t", "a number comes first");
    refused("u0 += ", "'' is no number");
    refused("u0 += 1.0*", "'' is no component");
    refused("u0 += one", "'one' is no number");
    refused("u0 += 1.0*u0 + 2.0*u1", "'u0 + 2.0' is no component");
    refused("u0 += 1e999", "'1e999' is not finite");
    refused("u0 += inf*u0", "'inf' is not finite");
    refused("u0 += nan", "'nan' is not finite");
    refused("u0 += 2.0*t", "hold a component at 1");
    refused("u0 += 2.0*t*u0", "t comes last");
    refused("u0 += 2.0*u0*u0*u0", "at most two factors");
    refused("u0 += 2.0*u0*t*t", "at most two factors");
    refused("u16 += 1.0", "u0 to u15");
    refused("u0 += 1.0*u16", "u0 to u15");
    refused("u0 += 1.0*u0*u99999999999999999999", "u0 to u15");
    refused("u += 1.0", "'u' is no component");
    refused("v0 += 1.0", "'v0' is no component");
    refused("u+1 += 1.0", "'u+1' is no component");
    refused("u0 = 1.0", "neither a term");
}

#[test]
fn components_are_below_n() {
    for (text, line) in [
        ("n 2\nu1 += 1.0\nu2 += 1.0", 3),
        ("u0 += 1.0*u2\nn 2", 1),
        ("u0 += 1.0*u2*u0\nn 2", 1),
        ("u0 += 1.0*u0*u2\nn 2", 1),
        ("u0 += 1.0*u2*t\nn 2", 1),
        ("n 2\nname u2 x", 2),
    ] {
        assert_eq!(error(text), (line, "u2 is not there: n is 2".into()), "{text}");
    }
    assert_eq!(terms("n 3\nu2 += 1.0*u2*u2").len(), 1);
}

#[test]
fn at_most_256_terms() {
    let lines = |count: usize| "u0 += 1.0\n".repeat(count);
    assert_eq!(made("table", &lines(256)).unwrap().len(), 4096);
    assert_eq!(error(&lines(257)), (257, "a table has at most 256 terms".into()));
}

#[test]
fn the_input_has_its_bytes() {
    let bytes = made("input", CABLE).unwrap();
    assert_eq!(bytes.len(), 4 + 8 * (3 + 4 + 4) + 8 * 16);
    assert_eq!(bytes[..4], [4, 15, 240, 0]);
    let figures = [0.0, 0.125, 1e-6, 1e-6, 1e-6, 1e-3, 1e-6, 0.0, 0.0, 0.0, 1.0];
    assert_eq!(bytes[4..92], figures.map(f64::to_le_bytes).concat());
    assert_eq!(bytes[92..], made("table", CABLE).unwrap());
    let steps = |count: &str| made("input", &CABLE.replace("240", count)).unwrap()[2..4].to_vec();
    assert_eq!((steps("0"), steps("65535"), steps("258")), (vec![0, 0], vec![255, 255], vec![2, 1]));
    let one = made("input", &CABLE.replace("1e-6 1e-6 1e-3 1e-6", "0.5")).unwrap();
    assert_eq!(one[28..60], [0.5; 4].map(f64::to_le_bytes).concat());
}

#[test]
fn schemes_by_name_and_number() {
    for scheme in Scheme::ALL {
        for word in [format!("{scheme:?}"), format!("{scheme:?}").to_lowercase(), (scheme as u8).to_string()]
        {
            let text = CABLE.replace("Exprb43", &word);
            assert_eq!(Text::parse(&text).unwrap().start().unwrap().scheme, scheme as u8, "{word}");
        }
    }
    for word in ["16", "-1", "Rk4", "01", ""] {
        assert_eq!(error(&CABLE.replace("Exprb43", word)).0, 4, "'{word}'");
    }
}

#[test]
fn lines_that_set_a_run_up() {
    let with = |key: &str, line: &str| {
        let lines: Vec<&str> = CABLE
            .lines()
            .map(|old| if old.split_whitespace().next() == Some(key) { line } else { old })
            .collect();
        error(&lines.join("\n"))
    };
    for key in ["n", "scheme", "steps", "time", "step", "relative", "absolute", "state"] {
        let (line, words) = with(key, "");
        assert!(line == 0 && words.starts_with(&format!("no line '{key}'")), "{words}");
        let (line, _) = with(key, key);
        assert!(line > 0, "'{key}' without a value");
        let (line, words) = error(&format!("{CABLE}{key} 1"));
        assert!(line == CABLE.lines().count() + 1 && words.contains("a second line"), "{words}");
    }
    assert_eq!(with("n", "n 0"), (3, "n is a whole number from 1 to 16".into()));
    assert_eq!(with("n", "n 17"), (3, "n is a whole number from 1 to 16".into()));
    assert_eq!(with("steps", "steps 65536").0, 5);
    assert_eq!(with("steps", "steps -1").0, 5);
    assert_eq!(with("step", "step 0.1 s"), (7, "'step' has one value, here are 2".into()));
    assert_eq!(with("time", "time soon"), (6, "'soon' is no number".into()));
    assert_eq!(
        with("absolute", "absolute 1 1"),
        (9, "'absolute' has n values, which are 4; here are 2".into())
    );
    assert_eq!(with("state", "state 1"), (10, "'state' has n values, which are 4; here are 1".into()));
    assert_eq!(with("state", "speed 1").0, 10);
}

#[test]
fn output_is_read_back() {
    let row = |x: [f64; 2]| x.map(f64::to_le_bytes).concat();
    let steps = [row([0.1, -0.0]), row([0.2, 1e300])].concat();
    let read = Output::read(&steps, 1).unwrap();
    assert_eq!(read.refusal, None);
    assert_eq!(read.csv(1), "time,u0\n0.1,-0.0\n0.2,1e300\n");
    let refused = Output::read(&[&steps[..], &[6]].concat(), 1).unwrap();
    assert_eq!((refused.steps.len(), refused.refusal), (2, Some(6)));
    assert!(refused.csv(1).ends_with("\nrefused by 6\n"));
    assert_eq!(Output::read(&[8], 1).unwrap().csv(1), "time,u0\nrefused by 8\n");
    assert_eq!(Output::read(&[], 1).unwrap().csv(1), "time,u0\n");
    assert!(Output::read(&steps[..18], 1).is_err());
}

#[test]
fn a_picture_of_any_run() {
    let text = Text::parse(&CABLE.replace("a heated", "a <hot> &")).unwrap();
    let start = text.start().unwrap();
    let of = |steps: &[[f64; 5]], refusal| {
        let output = Output { steps: steps.iter().map(|step| step.to_vec()).collect(), refusal };
        curve::svg(&text, &start, &output)
    };
    for (steps, refusal) in [
        (&[][..], None),
        (&[], Some(8)),
        (&[[0.125, 0.0, 0.0, 0.0, 1.0]], None),
        (&[[0.0, 1e-300, 1e300, -5e-324, 1.0]], Some(3)),
        (&[[0.1, 0.5, -7.0, 3.0, 1.0], [0.2, 0.6, -8.0, 3.0, 1.0]], Some(6)),
    ] {
        let svg = of(steps, refusal).unwrap();
        assert!(svg.ends_with("</svg>\n") && svg.contains("a &lt;hot&gt; &amp;"));
        assert!(!svg.contains("NaN") && !svg.contains("inf"), "{svg}");
        assert_eq!(svg.contains("refused by"), refusal.is_some());
        assert!(svg.contains(">time (s); "));
        assert_eq!(svg.matches("<polyline").count(), 3);
    }
    assert!(of(&[[0.1, 1e308, 0.0, 0.0, 1.0], [0.2, -1e308, 0.0, 0.0, 1.0]], None).is_err());
    assert!(of(&[[0.1, f64::NAN, 0.0, 0.0, 1.0]], None).is_err());
    // without a step, from any time
    let none = Output { steps: vec![], refusal: None };
    for time in ["-1e300", "0", "7", "1e16", "1e300"] {
        let text = Text::parse(&CABLE.replace("time      0", &format!("time {time}"))).unwrap();
        let svg = curve::svg(&text, &text.start().unwrap(), &none).unwrap();
        assert!(!svg.contains("NaN") && !svg.contains("inf"), "{svg}");
    }
}
