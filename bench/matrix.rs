// Times matrix_exp of the published Rust and of the port on the same matrices, and with `--cfg before` an earlier state of the port too;
// checks that the results are the same to the bit.
use std::hint::black_box;

mod rounds;

#[allow(dead_code)]
#[path = "../host/src/raw.rs"]
mod raw;

// The same with the earlier library's symbol, as bench/matrix writes it.
#[cfg(before)]
#[allow(dead_code)]
#[path = "../target/bench/raw_before.rs"]
mod raw_before;

#[allow(dead_code)]
mod published {
    include!(env!("PUBLISHED"));
}

// Puts the exponential of a matrix of size n into out.
type Exponential = fn(m: &[f64], out: &mut Vec<f64>, n: usize);

fn rust(m: &[f64], out: &mut Vec<f64>, n: usize) {
    *out = published::matrix_exp(m, n);
}

// The exponential of the port, by this function of a library.
macro_rules! exponential {
    ($name:ident, $call:path) => {
        fn $name(m: &[f64], out: &mut Vec<f64>, n: usize) {
            let mut words = [0u64; 5];
            let mut told = [0.0];
            // SAFETY: each pointer and length is that of an array, slice or vector that is lent for the call; no two overlap.
            let code = unsafe {
                $call(
                    n as u64,
                    m.as_ptr(),
                    m.len(),
                    out.as_mut_ptr(),
                    out.len(),
                    words.as_mut_ptr(),
                    words.len(),
                    told.as_mut_ptr(),
                    told.len(),
                )
            };
            // Outcome 5: out is filled.
            assert!(code == 0 && words[0] == 5);
        }
    };
}

exponential!(port, raw::vunchrem_exponential);
#[cfg(before)]
exponential!(before, raw_before::vunchrem_exponential_before);

const COUNT: usize = 2 + cfg!(before) as usize;

// What is timed, in turns.
const TIMED: [(&str, Exponential); COUNT] = [
    ("Rust", rust),
    #[cfg(before)]
    ("before", before),
    ("port", port),
];

// A matrix with entries of both signs whose largest row sum is about `sum`.
fn matrix(n: usize, sum: f64) -> Vec<f64> {
    let mut seed: u64 = 88172645463325252 + n as u64;
    (0..n * n)
        .map(|_| {
            seed ^= seed << 13;
            seed ^= seed >> 7;
            seed ^= seed << 17;
            let unit = (seed >> 11) as f64 / (1u64 << 53) as f64;
            (2.0 * unit - 1.0) * 2.0 * sum / n as f64
        })
        .collect()
}

// The bits of an exponential; every NaN has the same.
fn bits(exponential: Exponential, m: &[f64], n: usize) -> Vec<u64> {
    let mut out = vec![0.0; n * n];
    exponential(m, &mut out, n);
    out.iter().map(|x| if x.is_nan() { f64::NAN.to_bits() } else { x.to_bits() }).collect()
}

// Nanoseconds for one call of each.
fn times(m: &[f64], n: usize) -> [f64; COUNT] {
    let mut calls = TIMED.map(|(_, exponential)| {
        let mut out = vec![0.0; n * n];
        move || exponential(black_box(m), black_box(&mut out), black_box(n))
    });
    rounds::times(calls.each_mut().map(|call| call as &mut dyn FnMut()))
}

// The times, the port's over the Rust's, and of an earlier state its own over the Rust's and the port's over it.
fn row(times: [f64; COUNT]) -> String {
    let (rust, port) = (times[0], times[COUNT - 1]);
    let mut cells: Vec<String> = times.iter().map(|time| format!("{time:12.0}")).collect();
    cells.push(format!("{:7.2}", port / rust));
    if let [rust, before, port] = times[..] {
        cells.push(format!("{:11.2} {:11.2}", before / rust, port / before));
    }
    cells.join(" ")
}

// The names over such a row.
fn header() -> String {
    let mut cells: Vec<String> =
        TIMED.iter().map(|(name, _)| format!("{:>12}", format!("{name} ns"))).collect();
    cells.push(format!("{:>7}", "ratio"));
    if cfg!(before) {
        cells.push(format!("{:>11} {:>11}", "before/Rust", "port/before"));
    }
    cells.join(" ")
}

fn main() {
    println!("size  row sums {}", header());
    for (name, sum) in [("soft", 0.4), ("stiff", 1000.0)] {
        for n in [1, 2, 3, 4, 6, 8, 12, 16, 20] {
            let m = matrix(n, sum);
            let results = TIMED.map(|(_, exponential)| bits(exponential, &m, n));
            let same = results.iter().all(|result| *result == results[0]);
            println!("{n:4}  {name:8} {}{}", row(times(&m, n)), if same { "" } else { "  DIFFERS" });
        }
    }
}
