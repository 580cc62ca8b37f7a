//! The published text, its three copies, and the figures of this toolchain's library.

use oracle::bits::{power_of_two, same};
use oracle::exact::{ExactPowi, squarings};
use oracle::random::Random;
use oracle::search;
use std::hint::black_box;
use std::path::PathBuf;

const MATRIX: &str = include_str!("../published/src/solvers/exponential/general/matrix.rs");

fn root() -> PathBuf {
    // The test's own path is target/oracle/test-ground.
    let test = std::env::current_exe().unwrap();
    test.ancestors().nth(3).unwrap().to_path_buf()
}

#[test]
fn the_published_copy_begins_with_every_published_byte() {
    let published = root().join("oracle/published/src/solvers/exponential");
    let copy = root().join("target/oracle/published");
    for name in [
        "general.rs",
        "general/engine.rs",
        "general/evaluation.rs",
        "general/matrix.rs",
        "general/methods.rs",
    ] {
        let text = std::fs::read(published.join(name)).unwrap();
        let copied = std::fs::read(copy.join(name)).unwrap();
        assert!(copied.starts_with(&text), "{name}");
        let door = copied.len() > text.len();
        assert_eq!(door, ["general.rs", "general/engine.rs"].contains(&name));
    }
}

#[test]
fn the_quoted_line_stands_in_the_published_file() {
    assert_eq!(MATRIX.matches(search::PUBLISHED_LINE).count(), 1);
}

#[test]
fn schemes_are_numbered_as_the_enum_has_them() {
    for scheme in 0..16 {
        assert_eq!(oracle::published::number(scheme), scheme);
    }
    assert_eq!(oracle::published::name(0), "LawsonEuler");
    assert_eq!(oracle::published::name(15), "Exprb43");
}

#[test]
fn the_library_takes_powers_as_document_01_does() {
    let mut random = Random::new(1);
    for _ in 0..200_000 {
        let x = random.any_pattern();
        for exponent in 1..=4 {
            let library = black_box(x).powi(black_box(exponent));
            assert!(same(&[library], &[x.exact_powi(exponent)]), "{x:e}^{exponent}");
        }
        // With the exponent in sight the compiler may unroll the product.
        let unrolled = [x.powi(2), x.powi(3), x.powi(4)];
        assert!(same(&unrolled, &[x.exact_powi(2), x.exact_powi(3), x.exact_powi(4)]));
    }
    for exponent in 0..=32 {
        let library = black_box(2.0_f64).powi(black_box(exponent));
        assert_eq!(library, power_of_two(exponent));
        assert_eq!(library, 2.0.exact_powi(exponent));
    }
}

#[test]
fn the_library_sums_from_the_first_item_on() {
    assert_eq!([-0.0_f64].iter().sum::<f64>().to_bits(), (-0.0_f64).to_bits());
    // So a product of zeros keeps its sign in J u; from +0.0 it would not.
    let product = oracle::published::mat_vec(&[0.0], &[-1.0])[0];
    assert_eq!(product.to_bits(), (-0.0_f64).to_bits());
    assert_eq!((0.0 + product).to_bits(), 0.0_f64.to_bits());
}

#[test]
fn step_2_gives_the_least_count() {
    let mut norms: Vec<f64> = (-1..=31)
        .flat_map(|k| [power_of_two(k).next_up(), power_of_two(k), power_of_two(k).next_down()])
        .filter(|norm| (0.5..=power_of_two(31)).contains(norm) && *norm > 0.5)
        .collect();
    let mut random = Random::new(2);
    norms.extend((0..10_000).map(|_| (1.0 + random.unit()) * power_of_two(random.below(31) as i32)));
    for norm in norms.into_iter().filter(|norm| *norm > 0.5) {
        let s = squarings(norm) as i32;
        assert!(power_of_two(s) >= 2.0 * norm, "{norm:e}");
        assert!(power_of_two(s - 1) < 2.0 * norm, "{norm:e}");
    }
    assert_eq!(squarings(8.0_f64.next_up()), 5);
    assert_eq!(squarings(power_of_two(31)), 32);
}

#[test]
fn the_counts_differ_from_the_double_above_8_on() {
    for k in -1..=2 {
        assert!(search::differing_norms(k).is_empty());
    }
    for k in 3..=30 {
        let norm = power_of_two(k).next_up();
        assert_eq!(search::differing_norms(k)[0], norm);
        assert!(search::differing_step(norm).is_some());
    }
    assert!(search::other_norms().is_empty());
    assert_eq!(search::published_squarings(8.0_f64.next_up()), 4);
}
