//! The program `console` by the model: a script of calls in, the replies out.

use crate::bytes::{Reader, put_double, put_doubles};
use crate::model::{
    ANSWERS, Answer, Attempt, Matrix, Opening, PLACES, Session, Vector, bare_error_norm, bare_exponential,
    bare_phi_action,
};
use crate::old_session::OldSession;

pub const OPEN: u8 = 0;
pub const BEGIN: u8 = 1;
pub const SUPPLY: u8 = 2;
pub const ACCEPT: u8 = 3;
pub const DROP: u8 = 4;
pub const FIRST_STEP: u8 = 5;
pub const EXPONENTIAL: u8 = 6;
pub const PHI_ACTION: u8 = 7;
pub const ERROR_NORM: u8 = 8;
pub const SHOW: u8 = 9;
pub const LOAD: u8 = 10;
pub const BRING_OVER: u8 = 11;
pub const WHOLE_STEP: u8 = 12;

/// The most entries, inputs or lent places of a call.
const MOST: usize = 512;
/// The most bytes of table of a call.
const MOST_TABLE: usize = 8192;
/// What each lent place holds before a call.
pub const BEFORE: f64 = -1.5;

/// The bytes at the head of an image, each a number.
pub const NUMBERS: usize = 5;
/// The doubles of an image: time, step and the relative tolerance; four vectors; the Jacobian; the answers.
pub const FIGURES: usize = 3 + 4 * PLACES + PLACES * PLACES + ANSWERS * PLACES;
pub const BYTES: usize = NUMBERS + 8 * FIGURES;

/// A call as it stands in a script.
#[derive(Clone, Debug)]
pub enum Call {
    Open(Opening),
    Begin { supplied: bool, step: f64, jacobian: Box<Matrix>, lent: usize },
    Supply { place: u8, answer: Vector, lent: usize },
    Accept { derivative: Vector },
    Drop,
    FirstStep { largest: f64 },
    Exponential { size: u8, entries: Vec<f64>, lent: usize },
    PhiAction { n: u8, order: u8, scale_a: f64, matrix: Vec<f64>, input: Vec<f64>, lent: usize },
    ErrorNorm { n: u8, relative: f64, absolute: Vector, error: Vector, state: Vector, candidate: Vector },
    Show,
    Load(Box<Session>),
    BringOver(Box<OldSession>),
    WholeStep { step: f64, table: Vec<u8> },
}

/// The console's session between calls.
pub struct Console {
    pub session: Session,
}

/// What became of a call: its answer, if it has one, and the lent places as the call left them.
pub struct Told {
    pub answer: Option<Answer>,
    pub lent: Vec<f64>,
}

impl Default for Console {
    fn default() -> Self {
        Self { session: Session::blank() }
    }
}

impl Console {
    /// Makes the call and writes its reply.
    pub fn call(&mut self, call: &Call, reply: &mut Vec<u8>) -> Told {
        let session = std::mem::replace(&mut self.session, Session::blank());
        let places = match call {
            Call::Begin { lent, .. }
            | Call::Supply { lent, .. }
            | Call::Exponential { lent, .. }
            | Call::PhiAction { lent, .. } => *lent,
            _ => 0,
        };
        let mut lent = vec![BEFORE; places];
        let (answer, session) = match call {
            Call::Open(opening) => Session::open(opening),
            Call::Begin { supplied, step, jacobian, .. } => {
                session.begin(*supplied, *step, jacobian, &mut lent)
            }
            Call::Supply { place, answer, .. } => session.supply(*place, answer, &mut lent),
            Call::Accept { derivative } => session.accept(derivative),
            Call::Drop => session.drop_attempt(),
            Call::FirstStep { largest } => session.first_step(*largest),
            Call::WholeStep { step, table } => session.whole_step(*step, table),
            Call::Exponential { size, entries, .. } => (bare_exponential(*size, entries, &mut lent), session),
            Call::PhiAction { n, order, scale_a, matrix, input, .. } => {
                let answer = bare_phi_action(*n, *order, *scale_a, matrix, input, &mut lent);
                (answer, session)
            }
            Call::ErrorNorm { n, relative, absolute, error, state, candidate } => {
                let answer = bare_error_norm(*n, *relative, absolute, error, state, candidate);
                (answer, session)
            }
            Call::Show => {
                put_image(reply, &session);
                self.session = session;
                return Told { answer: None, lent };
            }
            Call::Load(image) => {
                self.session = (**image).clone();
                return Told { answer: None, lent };
            }
            Call::BringOver(image) => {
                self.session = image.brought_over();
                return Told { answer: None, lent };
            }
        };
        self.session = session;
        put_answer(reply, &answer);
        put_doubles(reply, &lent);
        Told { answer: Some(answer), lent }
    }
}

/// The replies to a whole script.
pub fn run(script: &[u8]) -> Vec<u8> {
    let mut console = Console::default();
    let mut reader = Reader::new(script);
    let mut replies = Vec::new();
    while let Some(call) = read_call(&mut reader) {
        console.call(&call, &mut replies);
    }
    replies
}

/// The next call; none at the end, in a call cut short, or where the page ends the run.
pub fn read_call(reader: &mut Reader) -> Option<Call> {
    Some(match reader.byte()? {
        OPEN => Call::Open(Opening {
            scheme: reader.byte()?,
            n: reader.byte()?,
            history_held: reader.byte()? != 0,
            time: reader.double()?,
            relative: reader.double()?,
            absolute: reader.array()?,
            state: reader.array()?,
            derivative: reader.array()?,
            history: reader.array()?,
        }),
        BEGIN => Call::Begin {
            supplied: reader.byte()? != 0,
            step: reader.double()?,
            jacobian: Box::new(reader.array()?),
            lent: length(reader)?,
        },
        SUPPLY => Call::Supply { place: reader.byte()?, answer: reader.array()?, lent: length(reader)? },
        ACCEPT => Call::Accept { derivative: reader.array()? },
        DROP => Call::Drop,
        FIRST_STEP => Call::FirstStep { largest: reader.double()? },
        EXPONENTIAL => {
            let size = reader.byte()?;
            let entries = length(reader)?;
            let lent = length(reader)?;
            Call::Exponential { size, entries: reader.doubles(entries)?, lent }
        }
        PHI_ACTION => {
            let n = reader.byte()?;
            let order = reader.byte()?;
            let scale_a = reader.double()?;
            let entries = length(reader)?;
            let inputs = length(reader)?;
            let lent = length(reader)?;
            Call::PhiAction {
                n,
                order,
                scale_a,
                matrix: reader.doubles(entries)?,
                input: reader.doubles(inputs)?,
                lent,
            }
        }
        ERROR_NORM => Call::ErrorNorm {
            n: reader.byte()?,
            relative: reader.double()?,
            absolute: reader.array()?,
            error: reader.array()?,
            state: reader.array()?,
            candidate: reader.array()?,
        },
        SHOW => Call::Show,
        LOAD => Call::Load(Box::new(read_image(reader)?)),
        BRING_OVER => Call::BringOver(Box::new(OldSession::read(reader)?)),
        WHOLE_STEP => {
            let step = reader.double()?;
            let bytes = usize::from(reader.short()?);
            if bytes > MOST_TABLE {
                return None;
            }
            Call::WholeStep { step, table: reader.bytes(bytes)?.to_vec() }
        }
        _ => return None,
    })
}

fn length(reader: &mut Reader) -> Option<usize> {
    let length = usize::from(reader.short()?);
    (length <= MOST).then_some(length)
}

fn read_image(reader: &mut Reader) -> Option<Session> {
    Some(Session {
        scheme: reader.byte()?,
        n: reader.byte()?,
        history_held: reader.byte()? != 0,
        attempt: attempt_of(reader.byte()?),
        count: reader.byte()?,
        time: reader.double()?,
        step: reader.double()?,
        relative: reader.double()?,
        absolute: reader.array()?,
        state: reader.array()?,
        derivative: reader.array()?,
        history: reader.array()?,
        jacobian: reader.array()?,
        answers: read_vectors(reader)?,
    })
}

pub(crate) fn attempt_of(byte: u8) -> Attempt {
    match byte {
        0 => Attempt::None,
        1 => Attempt::Supplied,
        _ => Attempt::Differenced,
    }
}

pub(crate) fn byte_of(attempt: Attempt) -> u8 {
    match attempt {
        Attempt::None => 0,
        Attempt::Supplied => 1,
        Attempt::Differenced => 2,
    }
}

pub(crate) fn read_vectors<const N: usize>(reader: &mut Reader) -> Option<[Vector; N]> {
    let mut vectors = [[0.0; PLACES]; N];
    for vector in &mut vectors {
        *vector = reader.array()?;
    }
    Some(vectors)
}

pub(crate) fn put_vectors(out: &mut Vec<u8>, vectors: &[Vector]) {
    for vector in vectors {
        put_doubles(out, vector);
    }
}

pub fn put_image(out: &mut Vec<u8>, session: &Session) {
    let held = u8::from(session.history_held);
    out.extend([session.scheme, session.n, held, byte_of(session.attempt), session.count]);
    put_doubles(out, &[session.time, session.step, session.relative]);
    put_vectors(out, &[session.absolute, session.state, session.derivative, session.history]);
    put_doubles(out, &session.jacobian);
    put_vectors(out, &session.answers);
}

/// A session's image.
pub fn image(session: &Session) -> Vec<u8> {
    let mut bytes = Vec::new();
    put_image(&mut bytes, session);
    bytes
}

pub fn put_answer(out: &mut Vec<u8>, answer: &Answer) {
    let (outcome, refusal, figure, counts) = match *answer {
        Answer::Refused(number) => (0, number, 0.0, [0; 3]),
        Answer::Ask { place, time } => (1, 0, time, [u32::from(place), 0, 0]),
        Answer::Ready { norm, right_hand_sides, jacobians, products } => {
            (2, 0, norm, [right_hand_sides, jacobians, products])
        }
        Answer::Resting => (3, 0, 0.0, [0; 3]),
        Answer::FirstStep(step) => (4, 0, step, [0; 3]),
        Answer::Filled { terms, squarings } => (5, 0, 0.0, [terms, squarings, 0]),
        Answer::Norm(norm) => (6, 0, norm, [0; 3]),
    };
    out.extend([outcome, refusal]);
    put_double(out, figure);
    for count in counts {
        out.extend(count.to_le_bytes());
    }
}

/// A call as bytes of a script.
pub fn put_call(out: &mut Vec<u8>, call: &Call) {
    let put_length = |out: &mut Vec<u8>, length: usize| out.extend((length as u16).to_le_bytes());
    match call {
        Call::Open(opening) => {
            let held = u8::from(opening.history_held);
            out.extend([OPEN, opening.scheme, opening.n, held]);
            put_doubles(out, &[opening.time, opening.relative]);
            put_vectors(out, &[opening.absolute, opening.state, opening.derivative, opening.history]);
        }
        Call::Begin { supplied, step, jacobian, lent } => {
            out.extend([BEGIN, u8::from(*supplied)]);
            put_double(out, *step);
            put_doubles(out, &jacobian[..]);
            put_length(out, *lent);
        }
        Call::Supply { place, answer, lent } => {
            out.extend([SUPPLY, *place]);
            put_doubles(out, answer);
            put_length(out, *lent);
        }
        Call::Accept { derivative } => {
            out.push(ACCEPT);
            put_doubles(out, derivative);
        }
        Call::Drop => out.push(DROP),
        Call::FirstStep { largest } => {
            out.push(FIRST_STEP);
            put_double(out, *largest);
        }
        Call::Exponential { size, entries, lent } => {
            out.extend([EXPONENTIAL, *size]);
            put_length(out, entries.len());
            put_length(out, *lent);
            put_doubles(out, entries);
        }
        Call::PhiAction { n, order, scale_a, matrix, input, lent } => {
            out.extend([PHI_ACTION, *n, *order]);
            put_double(out, *scale_a);
            put_length(out, matrix.len());
            put_length(out, input.len());
            put_length(out, *lent);
            put_doubles(out, matrix);
            put_doubles(out, input);
        }
        Call::ErrorNorm { n, relative, absolute, error, state, candidate } => {
            out.extend([ERROR_NORM, *n]);
            put_double(out, *relative);
            put_vectors(out, &[*absolute, *error, *state, *candidate]);
        }
        Call::Show => out.push(SHOW),
        Call::Load(image) => {
            out.push(LOAD);
            put_image(out, image);
        }
        Call::BringOver(image) => {
            out.push(BRING_OVER);
            image.put(out);
        }
        Call::WholeStep { step, table } => {
            out.push(WHOLE_STEP);
            put_double(out, *step);
            put_length(out, table.len());
            out.extend(table);
        }
    }
}
