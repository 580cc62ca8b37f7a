//! The sonde's model and the words of one logging pass. SI units; depth, speed and cable count downward.

/// Seconds between frames: eight frames a second, exact in binary.
pub const FRAME: f64 = 0.125;
/// Frames of the pass: five minutes.
pub const FRAMES: usize = 2400;
/// The frame that carries the damaged word.
pub const DAMAGED: usize = 1472;

/// State: cable paid out (m), cable speed at the sheave (m/s), tool depth (m), tool speed (m/s), detector temperature (K).
pub const N: usize = 5;
pub const CABLE: usize = 0;
pub const CABLE_SPEED: usize = 1;
pub const DEPTH: usize = 2;
pub const SPEED: usize = 3;
pub const TEMPERATURE: usize = 4;
pub type State = [f64; N];

const MASS: f64 = 20.0; // kg
const WEIGHT: f64 = 130.0; // N, in mud
const DRAG: f64 = 260.0; // N s/m
const STIFFNESS: f64 = 8.0e5; // N: the cable's, times its length; a tight one pulls with this times its strain
const DAMPING: f64 = 60.0; // N s/m, tight
const LOCK: f64 = 320.0; // N: above it the armour wires lie on each other
const LOCKED_STIFFNESS: f64 = 4.0; // times the cable's
const LOCKED_DAMPING: f64 = 8000.0; // N s/m
const TAKE_UP: f64 = 1.0e-5; // strain over which a slack cable comes tight
const LOCK_UP: f64 = 2.0e-5; // strain over which the armour locks
const WALL: f64 = 1.0; // s/m: rubbing along the wall, per lateral acceleration
const PLAN_TIME: f64 = 60.0; // s: the cable speed is held to the plan this slowly
const DETECTOR_TIME: f64 = 90.0; // s
const START: f64 = 420.0; // m of cable

/// What a frame carries: the accelerometer's two words, m/s².
#[derive(Clone, Copy)]
pub struct Words {
    pub axial: f64,
    pub lateral: f64,
}

/// The words between two frames, as the model takes them: straight lines from one frame to the next.
#[derive(Clone, Copy)]
pub struct Between {
    pub from: (f64, Words),
    pub to: (f64, Words),
}

impl Between {
    fn at(&self, time: f64) -> Words {
        let weight = (time - self.from.0) / (self.to.0 - self.from.0);
        let line = |from: f64, to: f64| (1.0 - weight) * from + weight * to;
        Words {
            axial: line(self.from.1.axial, self.to.1.axial),
            lateral: line(self.from.1.lateral, self.to.1.lateral),
        }
    }
}

/// 0 below, rising to x above, smooth over `width`.
fn ramp(x: f64, width: f64) -> f64 {
    0.5 * (x + (x * x + width * width).sqrt())
}

/// 0 below, rising to 1 above, smooth over `width`.
fn switch(x: f64, width: f64) -> f64 {
    0.5 * (1.0 + x / (x * x + width * width).sqrt())
}

fn strain(u: &[f64]) -> f64 {
    (u[DEPTH] - u[CABLE]) / u[CABLE]
}

fn tension(u: &[f64]) -> f64 {
    let strain = strain(u);
    let past = strain - LOCK / STIFFNESS;
    let spring = STIFFNESS * (ramp(strain, TAKE_UP) + LOCKED_STIFFNESS * ramp(past, LOCK_UP));
    let damping = DAMPING * switch(strain, TAKE_UP) + LOCKED_DAMPING * switch(past, LOCK_UP);
    spring + damping * (u[SPEED] - u[CABLE_SPEED])
}

pub fn is_slack(u: &[f64]) -> bool {
    strain(u) < 0.0
}

/// The right-hand side.
pub fn derivative(between: &Between, time: f64, u: &[f64], du: &mut [f64]) {
    let words = between.at(time);
    let force = WEIGHT - tension(u) - DRAG * u[SPEED];
    du[CABLE] = u[CABLE_SPEED];
    du[CABLE_SPEED] = words.axial - (u[CABLE_SPEED] - planned_speed(time)) / PLAN_TIME;
    du[DEPTH] = u[SPEED];
    du[SPEED] = force / MASS - WALL * words.lateral * u[SPEED];
    du[TEMPERATURE] = (288.0 + 0.03 * u[DEPTH] - u[TEMPERATURE]) / DETECTOR_TIME;
}

/// The winch by plan: (from s, to s, to this speed m/s), each change a smooth one.
const PLAN: [(f64, f64, f64); 7] = [
    (8.0, 12.0, -0.5),  // log up
    (60.0, 64.0, 1.2),  // back down to repeat a stretch: faster than the tool sinks, the cable goes slack
    (70.0, 74.0, -0.8), // up again, briskly: the cable comes tight
    (90.0, 94.0, -0.5),
    (170.0, 174.0, 1.2), // the same once more; the damaged word falls into the turn upward
    (182.0, 186.0, -0.8),
    (202.0, 206.0, -0.5),
];

fn planned(time: f64) -> (f64, f64) {
    let mut speed = 0.0;
    let mut acceleration = 0.0;
    for (from, to, next) in PLAN {
        if time >= to {
            speed = next;
        } else if time > from {
            let x = (time - from) / (to - from);
            acceleration = (next - speed) * 6.0 * x * (1.0 - x) / (to - from);
            speed += (next - speed) * x * x * (3.0 - 2.0 * x);
            break;
        }
    }
    (speed, acceleration)
}

fn planned_speed(time: f64) -> f64 {
    planned(time).0
}

pub fn time(frame: usize) -> f64 {
    frame as f64 * FRAME
}

/// The words as the accelerometer sent them.
pub fn sent(frame: usize) -> Words {
    let time = time(frame);
    // A little shaking that is the same in every run; more of it in the tight stretch of the hole.
    let shake = ((frame * 7919 + 13) % 101) as f64 / 101.0 - 0.5;
    let x = (time - 120.0) / 12.0;
    let tight_hole = if x.abs() < 1.0 { 13.0 * (1.0 - x * x) * (1.0 - x * x) } else { 0.0 };
    Words { axial: planned(time).1, lateral: 0.7 + 0.2 * shake + tight_hole }
}

/// The words with one bit of one of them, the highest of its exponent, not as it was sent.
pub fn flipped(words: Words) -> Words {
    Words { lateral: f64::from_bits(words.lateral.to_bits() ^ 1 << 62), ..words }
}

/// The words as they were received.
pub fn received(frame: usize) -> Words {
    if frame == DAMAGED { flipped(sent(frame)) } else { sent(frame) }
}

/// Hanging still.
pub fn start() -> State {
    let stretch = WEIGHT / STIFFNESS * START;
    [START, 0.0, START + stretch, 0.0, 288.0 + 0.03 * START]
}
