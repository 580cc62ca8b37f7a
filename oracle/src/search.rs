//! Where the published squaring count and document 01's step 2 differ.

use crate::bits::{above, power_of_two, show};
use crate::random::Random;
use crate::{bits, compared, exact, published};

/// The text of the line that step 2 replaces.
pub const PUBLISHED_LINE: &str = "(norm / 0.5).log2().ceil() as u32";

/// The published count, by that line.
pub fn published_squarings(norm: f64) -> u32 {
    if norm <= 0.5 { 0 } else { (norm / 0.5).log2().ceil() as u32 }
}

/// The count of step 2, for a norm up to 2^31.
pub fn exact_squarings(norm: f64) -> u32 {
    if norm <= 0.5 { 0 } else { exact::squarings(norm) }
}

/// How many neighbours on each side of a power of two are tried.
const NEIGHBOURS: i64 = 64;
/// How many other norms are tried.
const OTHERS: usize = 1_000_000;

/// The norms near 2^k on which the counts differ, smallest first.
pub fn differing_norms(k: i32) -> Vec<f64> {
    (-NEIGHBOURS..=NEIGHBOURS)
        .map(|places| above(power_of_two(k), places))
        .filter(|norm| *norm <= exact::LARGEST_NORM)
        .filter(|norm| published_squarings(*norm) != exact_squarings(*norm))
        .collect()
}

fn exponential_differs(x: f64) -> bool {
    let ours = compared::matrix_exp(&[x], 1);
    let theirs = published::matrix_exp(&[x], 1);
    !bits::same(&ours, &theirs)
}

/// The derivatives tried in [`differing_step`].
const DERIVATIVES: [f64; 6] = [1.0, 0.5, 2.0, 0.25, 1.5, 0.75];

/// A step of NorsettEuler whose augmented matrix has this norm and whose candidate differs: n = 1, u = 0, h = 1,
/// J = [f0 - norm]. Gives f0.
pub fn differing_step(norm: f64) -> Option<f64> {
    DERIVATIVES.into_iter().find(|f0| {
        let jacobian = [f0 - norm];
        let ours = compared::phi_action(&jacobian, 1.0, 1, &[*f0]);
        let theirs = published::phi_action(&jacobian, 1.0, 1, &[*f0]);
        jacobian[0].abs() + f0 == norm && !bits::same(&ours, &theirs)
    })
}

/// Every norm found, smallest first, as a table.
pub fn report() -> String {
    let mut lines = vec![
        "Squaring counts of the 1x1 matrices [x] and [-x]: the published line, and step 2.".into(),
        "A step: NorsettEuler, n = 1, u = 0, step 1, J = [f0 - x], whose augmented matrix has norm x.".into(),
        format!("Tried: each power of two from 2^-1 to 2^31 with {NEIGHBOURS} neighbours on each side."),
        String::new(),
        "x                 pattern             line  step 2  exp [x]  exp [-x]  a step".into(),
    ];
    let mut total = 0;
    let mut in_bits = 0;
    for k in -1..=31 {
        for x in differing_norms(k) {
            let word = |differs| if differs { "differs" } else { "same" };
            let (plus, minus) = (exponential_differs(x), exponential_differs(-x));
            lines.push(format!(
                "{:<17} {:#018x}  {:<4}  {:<6}  {:<7}  {:<8}  {}",
                name(x, k),
                x.to_bits(),
                published_squarings(x),
                exact_squarings(x),
                word(plus),
                word(minus),
                differing_step(x).map_or("none found".into(), |f0| format!("differs at f0 = {f0}")),
            ));
            total += 1;
            in_bits += usize::from(plus || minus);
        }
    }
    lines.push(String::new());
    lines.push(format!("The counts differ on {total} norms, the exponential of [x] or [-x] on {in_bits}."));
    let found = other_norms();
    lines.push(format!("Of {OTHERS} other norms between 0.5 and 2^31, {} differ.", found.len()));
    lines.extend(found.iter().map(|x| format!("  {} {:#018x}", show(*x), x.to_bits())));
    lines.push(String::new());
    lines.push("Beyond 2^31, where document 01 refuses, the published line gives:".into());
    for (words, norm) in [
        ("the least norm whose count is 1024", least_norm_of_1024()),
        ("the largest norm whose count is 1024", power_of_two(1023).next_down()),
        ("2^1023", power_of_two(1023)),
    ] {
        let count = published_squarings(norm);
        let divisor = 2.0_f64.powi(count as i32);
        lines.push(format!("  {words}, {:#018x}: {count} squarings, divisor {divisor:?}", norm.to_bits()));
    }
    lines.join("\n") + "\n"
}

/// By halving between 2^1022, whose count is 1023, and the double below 2^1023, whose count is 1024.
fn least_norm_of_1024() -> f64 {
    let mut low = power_of_two(1022).to_bits();
    let mut high = power_of_two(1023).to_bits() - 1;
    while high - low > 1 {
        let middle = low + (high - low) / 2;
        if published_squarings(f64::from_bits(middle)) == 1024 {
            high = middle;
        } else {
            low = middle;
        }
    }
    f64::from_bits(high)
}

fn name(x: f64, k: i32) -> String {
    let places = x.to_bits() as i64 - power_of_two(k).to_bits() as i64;
    format!("2^{k} {places:+} places")
}

/// Norms away from the powers of two on which the counts differ.
pub fn other_norms() -> Vec<f64> {
    let mut random = Random::new(8);
    let lowest = 0.5_f64.to_bits();
    let span = (exact::LARGEST_NORM.to_bits() - lowest) as usize;
    let mut found: Vec<f64> = (0..OTHERS)
        .map(|_| f64::from_bits(lowest + random.below(span) as u64))
        .filter(|norm| published_squarings(*norm) != exact_squarings(*norm))
        .collect();
    found.sort_by(f64::total_cmp);
    found
}
