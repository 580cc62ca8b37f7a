//! Doubles as patterns.

/// The pattern that crosses a pipe: a NaN's payload is open, so every NaN is written the same.
pub fn pattern(x: f64) -> u64 {
    if x.is_nan() { 0x7ff8_0000_0000_0000 } else { x.to_bits() }
}

pub fn same(left: &[f64], right: &[f64]) -> bool {
    left.len() == right.len() && left.iter().zip(right).all(|(l, r)| pattern(*l) == pattern(*r))
}

/// 2 to a power from -1074 to 1023, exactly.
pub fn power_of_two(exponent: i32) -> f64 {
    match exponent {
        -1074..=-1023 => f64::from_bits(1 << (exponent + 1074)),
        -1022..=1023 => f64::from_bits(((exponent + 1023) as u64) << 52),
        _ => panic!("2^{exponent} is no double"),
    }
}

/// The double so many places above, counted in patterns; x is positive.
pub fn above(x: f64, places: i64) -> f64 {
    f64::from_bits(x.to_bits().wrapping_add_signed(places))
}

/// For a reader: powers of two and their neighbours by name, whole numbers as they are, others by their pattern.
pub fn show(x: f64) -> String {
    if x.is_nan() {
        return "NaN".into();
    }
    if x.is_infinite() || (x.abs() < 1e6 && x == x.trunc()) {
        return format!("{x:?}");
    }
    let sign = if x < 0.0 { "-" } else { "" };
    let magnitude = x.abs();
    if magnitude == f64::MAX {
        return format!("{sign}(2^1024 - 2^971)");
    }
    if magnitude.is_subnormal() && magnitude.to_bits().is_power_of_two() {
        return format!("{sign}2^{}", magnitude.to_bits().trailing_zeros() as i32 - 1074);
    }
    for places in -1..=1 {
        let neighbour = above(magnitude, -places);
        if neighbour.to_bits() << 12 == 0 && neighbour.is_normal() {
            let exponent = (neighbour.to_bits() >> 52) as i32 - 1023;
            return match places {
                0 => format!("{sign}2^{exponent}"),
                1 => format!("{sign}(the double above 2^{exponent})"),
                _ => format!("{sign}(the double below 2^{exponent})"),
            };
        }
    }
    format!("{x:?} ({:#018x})", x.to_bits())
}
