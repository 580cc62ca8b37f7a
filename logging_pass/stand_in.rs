//! The oracle's model of the core behind the calls of the crate `vunchrem`, for logging_pass/test: the picture can then
//! be made without the toolchain.

use oracle::model::{Answer, Opening, PLACES, Session as Model, Vector};

#[derive(Clone, Copy)]
pub enum Scheme {
    Etdrk2 = 2,
}

#[derive(Clone, Copy, Debug)]
pub struct Refusal(u8);

impl Refusal {
    pub fn number(self) -> u8 {
        self.0
    }
}

pub struct Stepped {
    pub products: u32,
}

pub struct Session(Model);

fn vector(values: &[f64]) -> Vector {
    let mut vector = [0.0; PLACES];
    vector[..values.len()].copy_from_slice(values);
    vector
}

impl Session {
    pub fn open(
        scheme: Scheme,
        time: f64,
        state: &[f64],
        derivative: &[f64],
        relative: f64,
        absolute: &[f64],
    ) -> Result<Self, Refusal> {
        let opening = Opening {
            scheme: scheme as u8,
            n: state.len() as u8,
            history_held: false,
            time,
            relative,
            absolute: vector(absolute),
            state: vector(state),
            derivative: vector(derivative),
            history: vector(&[]),
        };
        match Model::open(&opening) {
            (Answer::Refused(number), _) => Err(Refusal(number)),
            (_, session) => Ok(Self(session)),
        }
    }

    pub fn time(&self) -> f64 {
        self.0.time
    }

    pub fn state(&self) -> &[f64] {
        &self.0.state[..usize::from(self.0.n)]
    }

    pub fn step(
        &mut self,
        step: f64,
        mut derivative: impl FnMut(f64, &[f64], &mut [f64]),
    ) -> Result<Stepped, Refusal> {
        let n = usize::from(self.0.n);
        let mut shown = vec![0.0; n];
        let mut answer = vec![0.0; n];
        let (mut told, mut session) = self.0.clone().begin(false, step, &[0.0; PLACES * PLACES], &mut shown);
        while let Answer::Ask { place, time } = told {
            derivative(time, &shown, &mut answer);
            (told, session) = session.supply(place, &vector(&answer), &mut shown);
        }
        let mut stepped = Stepped { products: 0 };
        if let Answer::Ready { products, .. } = told {
            stepped.products = products;
            derivative(session.time + step, &shown, &mut answer);
            (told, session) = session.accept(&vector(&answer));
        }
        if let Answer::Refused(number) = told {
            return Err(Refusal(number));
        }
        self.0 = session;
        Ok(stepped)
    }
}
