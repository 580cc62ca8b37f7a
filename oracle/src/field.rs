//! A right-hand side for the lists: smooth, coupled and made of the four operations alone, so that its bits are the
//! same everywhere.

use crate::random::Random;

pub struct Field {
    n: usize,
    linear: Vec<f64>,
    curve: Vec<f64>,
    drive: Vec<f64>,
}

impl Field {
    /// `stiffness` is the size of the linear part's diagonal.
    pub fn new(n: usize, stiffness: f64, random: &mut Random) -> Self {
        let mut linear: Vec<f64> = (0..n * n).map(|_| random.unit() / n as f64).collect();
        for i in 0..n {
            linear[i * n + i] -= stiffness * (1.0 + 0.5 * random.unit());
        }
        Self {
            n,
            linear,
            curve: (0..n).map(|_| random.unit()).collect(),
            drive: (0..n).map(|_| 0.3 * random.unit()).collect(),
        }
    }

    pub fn dimension(&self) -> usize {
        self.n
    }

    /// f_i = sum_j A_ij u_j + c_i u_i u_(i+1) / (1 + u_i^2) + d_i t
    pub fn at(&self, time: f64, u: &[f64]) -> Vec<f64> {
        (0..self.n)
            .map(|i| {
                let row = &self.linear[i * self.n..(i + 1) * self.n];
                let linear = row.iter().zip(u).fold(0.0, |sum, (a, u)| sum + a * u);
                let next = u[(i + 1) % self.n];
                linear + self.curve[i] * u[i] * next / (1.0 + u[i] * u[i]) + self.drive[i] * time
            })
            .collect()
    }

    /// The derivative of f by u, row by row.
    pub fn jacobian(&self, u: &[f64]) -> Vec<f64> {
        let n = self.n;
        let mut entries = self.linear.clone();
        for i in 0..n {
            let next = (i + 1) % n;
            let below = 1.0 + u[i] * u[i];
            entries[i * n + i] += self.curve[i] * u[next] * (1.0 - u[i] * u[i]) / (below * below);
            entries[i * n + next] += self.curve[i] * u[i] / below;
        }
        entries
    }
}
