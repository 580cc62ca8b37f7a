//! What the crate adds to the core: the driver, questions as values, one tolerance or one for each component, saving; that a refusal leaves the session
//! alone; and which count is which.
use super::*;

mod by_table;
mod questions;

// The session's numbers and the bits of its figures.
fn bits(s: &Session) -> (Vec<u64>, Vec<u64>) {
    (s.numbers.to_vec(), s.figures.iter().map(|x| x.to_bits()).collect())
}

// A stiff pair: u0' = -1000 (u0 - cos t) , u1' = u0 - u1.
fn pair(t: f64, u: &[f64], du: &mut [f64]) {
    du[0] = -1000.0 * (u[0] - t.cos());
    du[1] = u[0] - u[1];
}

#[test]
fn the_layout_is_that_of_the_core() {
    let lines: String = layout::ALL
        .iter()
        .map(|(name, value)| format!("{name} {value:06}\n"))
        .collect();
    assert_eq!(lines, include_str!("../../crates/layout/stdout"));
}

const PAIR: [f64; 4] = [-1000.0, 0.0, 1.0, -1.0];

fn open(scheme: Scheme) -> Session {
    open_by(scheme, 1e-9)
}

fn open_by<'a>(scheme: Scheme, absolute: impl Into<Tolerance<'a>>) -> Session {
    let mut f0 = [0.0; 2];
    pair(0.0, &[1.0, 0.0], &mut f0);
    Session::open(scheme, 0.0, &[1.0, 0.0], &f0, 1e-6, absolute).unwrap()
}

// u1 of the pair at t = 1, u0 = cos t but for some thousandths: (cos 1 + sin 1 - exp(-1)) / 2.
fn near_end(u1: f64) -> bool {
    (u1 - 0.5 * (1f64.cos() + 1f64.sin() - (-1f64).exp())).abs() < 0.02
}

#[test]
fn every_scheme_steps_over_a_stiff_problem() {
    for scheme in Scheme::ALL {
        let mut s = open(scheme);
        for _ in 0..100 {
            let done = s.step(0.01, pair).unwrap();
            assert_eq!(done.jacobians, 1);
            assert!(done.right_hand_sides >= 2, "two questions difference the Jacobian");
            assert!(
                (1..=47 * EXPONENTIALS[scheme as usize]).contains(&done.products),
                "{scheme:?}: {done:?}"
            );
        }
        assert!((s.time() - 1.0).abs() < 1e-9);
        assert!(near_end(s.state()[1]), "{scheme:?} ended at {:?}", s.state());
    }
}

#[test]
fn a_given_jacobian_asks_less() {
    let mut s = open(Scheme::Exprb32);
    let done = s.step_with_jacobian(0.01, &PAIR, pair).unwrap();
    assert_eq!((done.right_hand_sides, done.jacobians), (1, 1));
    assert!(done.error_norm >= 0.0);
}

#[test]
fn the_driver_is_the_calls() {
    let mut a = open(Scheme::Exprb43);
    let mut b = a.clone();
    let done = a.step(0.02, pair).unwrap();
    let mut progress = b.begin(0.02, None).unwrap();
    let ready = loop {
        match progress {
            Progress::Ask(question) => {
                let mut du = [0.0; 2];
                pair(question.time(), question.state(), &mut du);
                progress = b.answer(question, &du).unwrap();
            }
            Progress::Ready {
                error_norm,
                right_hand_sides,
                jacobians,
                products,
                candidate,
            } => {
                let mut du = [0.0; 2];
                pair(b.time() + 0.02, &candidate, &mut du);
                b.accept(&du).unwrap();
                break Stepped {
                    error_norm,
                    right_hand_sides,
                    jacobians,
                    products,
                };
            }
        }
    };
    assert_eq!(done, ready);
    assert_eq!(bits(&a), bits(&b));
}

#[test]
fn a_nan_answer_is_refused_and_can_be_supplied_again() {
    let mut s = open(Scheme::Etdrk2);
    let Progress::Ask(mut question) = s.begin(0.01, None).unwrap() else {
        panic!("a differenced Jacobian asks")
    };
    let (kept, asked) = (bits(&s), question.clone());
    for (answer, refusal) in [
        (&[f64::NAN, 0.0][..], Refusal::NotFinite),
        (&[0.0, f64::INFINITY], Refusal::NotFinite),
        (&[0.0], Refusal::Size),
    ] {
        let back = s.answer(question, answer).unwrap_err();
        assert_eq!((back.refusal, &back.question), (refusal, &asked));
        assert_eq!(bits(&s), kept);
        question = back.question;
    }
    let mut du = [0.0; 2];
    pair(question.time(), question.state(), &mut du);
    assert!(s.answer(question, &du).is_ok());
}

#[test]
fn refusals_leave_the_session_bit_for_bit() {
    let mut s = open(Scheme::Etd2);
    s.step(0.01, pair).unwrap();
    let kept = bits(&s);
    assert_eq!(s.begin(0.0, None), Err(Refusal::Step));
    assert_eq!(s.begin(f64::NAN, None), Err(Refusal::Step));
    assert_eq!(s.begin(0.1, Some(&[1.0])), Err(Refusal::Size));
    assert_eq!(s.begin(0.1, Some(&[f64::NAN; 4])), Err(Refusal::NotFinite));
    assert_eq!(s.begin(1.0, Some(&[2f64.powi(40); 4])), Err(Refusal::Arithmetic));
    assert_eq!(s.supply(0, &[0.0, 0.0]), Err(Refusal::Phase));
    assert_eq!(s.accept(&[0.0, 0.0]), Err(Refusal::Phase));
    assert_eq!(s.accept(&[0.0]), Err(Refusal::Phase));
    assert_eq!(s.first_step(f64::NAN), Err(Refusal::Step));
    assert_eq!(bits(&s), kept);
    assert_eq!(s.drop_attempt(), Ok(()));
    assert_eq!(bits(&s), kept);
}

#[test]
fn a_length_is_tested_before_the_arithmetic() {
    let mut s = Session::open(Scheme::NorsettEuler, 1e308, &[1.0], &[0.0], 1.0, 1.0).unwrap();
    s.begin(1e308, Some(&[0.0])).unwrap();
    assert_eq!(s.accept(&[0.0]), Err(Refusal::Arithmetic));
    assert_eq!(s.accept(&[]), Err(Refusal::Size));
}

#[test]
fn a_refused_step_drops_its_attempt() {
    let mut s = open(Scheme::Exp4);
    let kept = bits(&s);
    let mut asked = 0;
    let refused = s.step(0.01, |t, u, du| {
        asked += 1;
        pair(t, u, du);
        if asked == 3 {
            du[1] = f64::NAN;
        }
    });
    assert_eq!(refused, Err(Refusal::NotFinite));
    assert_eq!(bits(&s), kept);
    assert!(s.step(0.01, pair).is_ok());
}

#[test]
fn a_huge_word_is_refused() {
    let mut s = open(Scheme::Exprb32);
    let kept = bits(&s);
    let refused = s.step(0.01, |t, u, du| {
        pair(t, u, du);
        du[0] += 1e300 * (u[0] - 1.0);
    });
    assert_eq!(refused, Err(Refusal::Arithmetic));
    assert_eq!(bits(&s), kept);
}

#[test]
fn a_step_leaves_an_attempt_alone() {
    let mut s = open(Scheme::Etdrk4);
    s.begin(0.01, Some(&PAIR)).unwrap();
    let kept = bits(&s);
    assert_eq!(s.step(0.01, pair), Err(Refusal::Phase));
    assert_eq!(bits(&s), kept);
    s.drop_attempt().unwrap();
    assert_eq!(bits(&s), bits(&open(Scheme::Etdrk4)));
}

#[test]
fn open_refuses_by_number() {
    let open = |u: &[f64], f: &[f64], r: f64| Session::open(Scheme::Exp4, 0.0, u, f, r, 1e-9).map(drop);
    assert_eq!(open(&[0.0; 17], &[0.0; 17], 1e-6), Err(Refusal::Size));
    assert_eq!(open(&[], &[], 1e-6), Err(Refusal::Size));
    assert_eq!(open(&[0.0], &[0.0, 0.0], 1e-6), Err(Refusal::Size));
    assert_eq!(open(&[0.0], &[0.0], 0.0), Err(Refusal::Tolerance));
    assert_eq!(open(&[f64::NAN], &[0.0], 1e-6), Err(Refusal::NotFinite));
    let history = |scheme| Session::open_with_history(scheme, 0.0, &[1.0], &[2.0], 1.0, 1.0, &[1.0]).map(drop);
    assert_eq!(history(Scheme::Exp4), Err(Refusal::Scheme));
    assert_eq!(history(Scheme::Etd2), Ok(()));
}

#[test]
fn known_values() {
    let candidate = |scheme, history: Option<&[f64]>| {
        let mut s = match history {
            None => Session::open(scheme, 0.0, &[1.0], &[2.0], 1.0, 1.0),
            Some(h) => Session::open_with_history(scheme, 0.0, &[1.0], &[2.0], 1.0, 1.0, h),
        }
        .unwrap();
        match s.begin(1.0, Some(&[0.0])).unwrap() {
            Progress::Ready { candidate, .. } => candidate[0],
            Progress::Ask(_) => panic!("these schemes ask nothing"),
        }
    };
    assert_eq!(candidate(Scheme::NorsettEuler, None), 3.0);
    assert_eq!(candidate(Scheme::LawsonEuler, None), 3.0);
    assert_eq!(candidate(Scheme::Etd2, None), 3.0);
    assert_eq!(candidate(Scheme::Etd2, Some(&[1.0])), 3.5);
    let s = Session::open(Scheme::Exp4, 0.0, &[1.0], &[2.0], 1.0, 1.0).unwrap();
    assert_eq!(s.first_step(0.005), Ok(0.005));
}

#[test]
fn bare_calls_refuse() {
    assert_eq!(exponential(21, &[0.0; 441]), Err(Refusal::Size));
    assert_eq!(exponential(0, &[]), Err(Refusal::Size));
    assert_eq!(exponential(1, &[f64::NAN]), Err(Refusal::NotFinite));
    assert_eq!(exponential(1, &[2f64.powi(40)]), Err(Refusal::Arithmetic));
    assert_eq!(phi_action(5, 1.0, &[0.0], &[1.0]), Err(Refusal::Size));
    assert_eq!(error_norm(0.0, 1.0, &[1.0], &[0.0], &[0.0]), Err(Refusal::Tolerance));
    assert_eq!(error_norm(1.0, 1.0, &[1.0], &[0.0, 0.0], &[0.0]), Err(Refusal::Size));
}

// The exponentials of a pass of each scheme in the published module, repeats counted; of Etd2 with a history.
const EXPONENTIALS: [u32; 16] = [1, 1, 2, 9, 12, 34, 7, 5, 5, 8, 7, 5, 7, 4, 3, 9];

fn reach(terms: u32, squarings: u32) -> Result<Reach, Refusal> {
    Ok(Reach { terms, squarings })
}

#[test]
fn an_exponential_tells_how_far_it_went() {
    let of = |size, m: &[f64]| exponential(size, m).map(|(_, reach)| reach);
    for size in 1..=20 {
        assert_eq!(of(size, &vec![0.0; size * size]), reach(1, 0), "the first term is zero");
    }
    // 0.5^14 / 14! = 7.0e-16 is more than 2^-52 times the sum, 3.7e-16, and 0.5^15 / 15! = 2.3e-17 is less
    assert_eq!(of(1, &[0.5]), reach(15, 0));
    assert_eq!(of(1, &[-0.5]), reach(15, 0));
    // just above it is halved, and the series is that of 0.25: 0.25^11 / 11! = 6.0e-15, 0.25^12 / 12! = 1.2e-16
    assert_eq!(of(1, &[0.5f64.next_up()]), reach(12, 1));
    // halved until 0.5 is left: each doubling is one squaring more
    for k in 0..=31 {
        assert_eq!(of(1, &[2f64.powi(k)]), reach(15, k as u32 + 1), "2^{k}");
        assert_eq!(of(1, &[-2f64.powi(k)]), reach(15, k as u32 + 1), "-2^{k}");
    }
    // the largest row sum counts, here 0.5 + 0.5 = 1; the matrix is nilpotent, its third power zero
    assert_eq!(of(3, &[0.0, 0.5, -0.5, 0.0, 0.0, 0.25, 0.0, 0.0, 0.0]), reach(3, 1));
}

// What phi_action exponentiates: scale * matrix with the input in the next column, and ones above the diagonal behind it.
fn augmented(order: usize, scale: f64, matrix: &[f64], input: &[f64]) -> Vec<f64> {
    let (n, size) = (input.len(), input.len() + order);
    let mut m = vec![0.0; size * size];
    for row in 0..n {
        for column in 0..n {
            m[row * size + column] = scale * matrix[row * n + column];
        }
        m[row * size + n] = input[row];
    }
    for row in n..size - 1 {
        m[row * size + row + 1] = 1.0;
    }
    m
}

#[test]
fn a_phi_action_tells_how_far_its_exponential_went() {
    let of = |order, m: &[f64], v: &[f64]| phi_action(order, 1.0, m, v).map(|(_, reach)| reach);
    // of order 1 the matrix is zero, its first term too; from order 2 on there are ones above the diagonal, and the power of that order is zero
    for (order, expected) in [(1, reach(1, 0)), (2, reach(2, 1)), (3, reach(3, 1)), (4, reach(4, 1))] {
        assert_eq!(of(order, &[0.0], &[0.0]), expected);
        assert_eq!(of(order, &[0.0; 256], &[0.0; 16]), expected);
    }
    assert_eq!(of(1, &[0.0], &[0.5]), reach(2, 0));
    assert_eq!(of(1, &[0.0], &[-2.0]), reach(2, 2));
    assert_eq!(of(4, &[0.0], &[2.0]), reach(5, 2));
    for order in 1..=4 {
        for scale in [1e-3, 0.01, -0.5, 7.0] {
            let input = [3.0, -0.25];
            let (_, expected) = exponential(2 + order, &augmented(order, scale, &PAIR, &input)).unwrap();
            assert_eq!(phi_action(order, scale, &PAIR, &input).unwrap().1, expected);
        }
    }
}

// The products of an attempt with a given Jacobian, every question answered by the same.
fn products(mut s: Session, step: f64, jacobian: &[f64], answer: &[f64]) -> u32 {
    let mut progress = s.begin(step, Some(jacobian)).unwrap();
    loop {
        match progress {
            Progress::Ask(question) => progress = s.answer(question, answer).unwrap(),
            Progress::Ready { products, .. } => return products,
        }
    }
}

#[test]
fn a_pass_adds_up_its_exponentials() {
    let f0 = [3.0, -0.25];
    let open = |scheme| Session::open(scheme, 0.0, &[1.0, 2.0], &f0, 1.0, 1.0).unwrap();
    for h in [1e-4, 0.01, -0.01, 100.0] {
        // LawsonEuler exponentiates h J, NorsettEuler takes phi_1 of it on the derivative
        let (_, e) = exponential(2, &PAIR.map(|x| h * x)).unwrap();
        let (_, phi) = phi_action(1, h, &PAIR, &f0).unwrap();
        assert_eq!(
            products(open(Scheme::LawsonEuler), h, &PAIR, &[]),
            e.terms + e.squarings
        );
        assert_eq!(
            products(open(Scheme::NorsettEuler), h, &PAIR, &[]),
            phi.terms + phi.squarings
        );
    }
    // Etdrk2 with J = 0, f = 2 at the start and the answer 5. phi_1 on 2: 2 terms and 2 squarings. phi_2 on 5 - 2: the rows 0 3 0, 0 0 1 and 0 0 0
    // have 3 squarings and, their third power being zero, 3 terms.
    let s = Session::open(Scheme::Etdrk2, 0.0, &[1.0], &[2.0], 1.0, 1.0).unwrap();
    assert_eq!(products(s, 1.0, &[0.0], &[5.0]), 2 + 2 + 3 + 3);
}

#[test]
fn every_exponential_of_the_published_module_is_counted() {
    // With J = 0, a derivative of 0 and answers of 0 an exponential and phi_1 have 1 term and no squaring; phi_2, phi_3 and phi_4 have 2, 3 and 4
    // terms and one squaring (the test of phi actions says why): 1, 1, 3, 4 and 5 products. How many of each a pass of the published module has:
    let counted = [
        (Scheme::LawsonEuler, [1, 0, 0, 0, 0]),
        (Scheme::NorsettEuler, [0, 1, 0, 0, 0]),
        (Scheme::Etdrk2, [0, 1, 1, 0, 0]),
        (Scheme::Etdrk3, [0, 3, 3, 3, 0]),
        (Scheme::Etdrk4, [0, 4, 4, 4, 0]),
        // phi_1: one each in u2, u3, u4, u5 and at the end. phi_2: 2 in u3, 3 in u4, 10 in u5, 3 at the end. phi_3: 8 in u5, 3 at the end. In u5 a52
        // stands four times, twice of itself and twice in a54, with two of phi_2 and two of phi_3 each; a54 has one more of phi_2.
        (Scheme::HochOst4, [0, 5, 18, 11, 0]),
        (Scheme::Exp4, [0, 7, 0, 0, 0]),
        (Scheme::Epirk4s3A, [0, 3, 0, 1, 1]),
        (Scheme::Epirk4s3B, [0, 1, 2, 1, 1]),
        (Scheme::Epirk5s3, [0, 2, 2, 3, 1]),
        (Scheme::Exprb53s3, [0, 3, 0, 3, 1]),
        (Scheme::Epirk5P1, [0, 4, 0, 1, 0]),
        (Scheme::Epirk5P2, [0, 4, 2, 1, 0]),
        (Scheme::Etd2, [1, 1, 2, 0, 0]),
        (Scheme::Exprb32, [0, 1, 0, 2, 0]),
        (Scheme::Exprb43, [0, 3, 0, 3, 3]),
    ];
    for n in [1, 16] {
        let zero = vec![0.0; n];
        for (scheme, calls) in counted {
            let s = match scheme {
                Scheme::Etd2 => Session::open_with_history(scheme, 0.0, &zero, &zero, 1.0, 1.0, &zero),
                _ => Session::open(scheme, 0.0, &zero, &zero, 1.0, 1.0),
            };
            let expected: u32 = calls
                .iter()
                .zip([1, 1, 3, 4, 5])
                .map(|(calls, each)| calls * each)
                .sum();
            assert_eq!(calls.iter().sum::<u32>(), EXPONENTIALS[scheme as usize], "{scheme:?}");
            assert_eq!(
                products(s.unwrap(), 0.5, &vec![0.0; n * n], &zero),
                expected,
                "{scheme:?}, n is {n}"
            );
        }
    }
    let zero = |scheme| Session::open(scheme, 0.0, &[0.0], &[0.0], 1.0, 1.0).unwrap();
    assert_eq!(products(zero(Scheme::HochOst4), 1.0, &[0.0], &[0.0]), 103);
    assert_eq!(
        products(zero(Scheme::Etd2), 1.0, &[0.0], &[0.0]),
        2,
        "without a history"
    );
}

#[test]
fn products_grow_with_stiffness_up_to_their_bound() {
    for scheme in Scheme::ALL {
        let mut last = 0;
        for rate in [1.0, 1e2, 1e4, 1e6] {
            let mut s = Session::open(scheme, 0.0, &[1.0], &[-rate], 1.0, 1.0).unwrap();
            let done = s
                .step_with_jacobian(1.0, &[-rate], |_, u, du| du[0] = -rate * u[0])
                .unwrap();
            assert!(last < done.products, "{scheme:?} at {rate}: {done:?} after {last}");
            assert!(done.products <= 47 * EXPONENTIALS[scheme as usize]);
            last = done.products;
        }
    }
    assert_eq!(EXPONENTIALS.iter().max(), Some(&34));
}

#[test]
fn refusals_have_numbers_and_words() {
    for k in 1..=9 {
        let r = Refusal::of(k);
        assert_eq!(r.number() as u64, k);
        assert!(r.to_string().starts_with(&format!("refused by {k}: ")));
    }
}

#[test]
fn schemes_have_their_numbers_and_orders() {
    let orders = [1, 1, 2, 3, 4, 4, 4, 4, 4, 5, 5, 5, 5, 2, 3, 4];
    for (k, scheme) in Scheme::ALL.into_iter().enumerate() {
        assert_eq!(scheme as usize, k);
        assert_eq!(scheme.order(), orders[k]);
    }
}

#[test]
fn one_tolerance_is_the_same_for_each_component() {
    let same = [1e-9; 2];
    for scheme in Scheme::ALL {
        let mut one = open_by(scheme, 1e-9);
        assert_eq!(one.absolute(), same);
        assert_eq!(one.relative(), 1e-6);
        let done = one.step(0.01, pair).unwrap();
        for mut each in [
            open_by(scheme, &same),
            open_by(scheme, &same[..]),
            open_by(scheme, &same.to_vec()),
        ] {
            assert_eq!(each.step(0.01, pair).unwrap(), done);
            assert_eq!(bits(&each), bits(&one));
            assert_eq!(each.first_step(f64::INFINITY), one.first_step(f64::INFINITY));
        }
    }
    let norm = |absolute: Tolerance| error_norm(1e-3, absolute, &[1.0, -0.1, 0.3], &[1.0, 2.0, 3.0], &[0.0; 3]);
    assert_eq!(norm(1e-3.into()), norm((&[1e-3; 3]).into()));
}

#[test]
fn each_component_has_its_own_tolerance() {
    let (forth, back) = ([1e-9, 1e-6], [1e-6, 1e-9]);
    assert_eq!(open_by(Scheme::Exp4, &forth).absolute(), forth);
    for scheme in [Scheme::Exprb32, Scheme::Exprb43] {
        let norm = |absolute: Tolerance| open_by(scheme, absolute).step(0.01, pair).unwrap().error_norm;
        let norms = [
            norm(1e-9.into()),
            norm((&forth).into()),
            norm((&back).into()),
            norm(1e-6.into()),
        ];
        assert!(
            norms.iter().enumerate().all(|(k, x)| !norms[..k].contains(x)),
            "{scheme:?}: {norms:?}"
        );
    }
    let norm = error_norm(1.0, &[1.0, 4.0], &[3.0, 8.0], &[0.0; 2], &[0.0; 2]);
    assert_eq!(norm, Ok(((9.0 + 4.0) / 2f64).sqrt()));
}

#[test]
fn tolerances_are_refused() {
    let u = [1.0, 2.0, 3.0];
    let refused = |absolute: &[f64]| {
        let open = Session::open(Scheme::Etd2, 0.0, &u, &u, 1.0, absolute).map(drop);
        let with_history = Session::open_with_history(Scheme::Etd2, 0.0, &u, &u, 1.0, absolute, &u).map(drop);
        let norm = error_norm(1.0, absolute, &u, &u, &u).map(drop);
        assert_eq!((open, with_history), (norm, norm));
        norm
    };
    assert_eq!(refused(&[1.0; 3]), Ok(()));
    for n in [0, 1, 2, 4, 16, 17] {
        assert_eq!(refused(&vec![1.0; n]), Err(Refusal::Size), "{n} of them");
        assert_eq!(refused(&vec![f64::NAN; n]), Err(Refusal::Size), "{n} of them");
    }
    for bad in [0.0, -0.0, -1.0, f64::NAN, f64::INFINITY] {
        for at in 0..u.len() {
            let mut absolute = [1.0; 3];
            absolute[at] = bad;
            assert_eq!(refused(&absolute), Err(Refusal::Tolerance), "{bad} at {at}");
        }
    }
    let one = |u: &[f64], absolute: f64| Session::open(Scheme::Exp4, 0.0, u, u, 1.0, absolute).map(drop);
    assert_eq!(one(&u, f64::NAN), Err(Refusal::Tolerance));
    assert_eq!(one(&[], 1.0), Err(Refusal::Size));
    assert_eq!(one(&[1.0; 16], 1.0), Ok(()));
    assert_eq!(one(&[1.0; 17], 1.0), Err(Refusal::Size));
}

// A step of the pair, call by call, with something between the calls; what each call but the last told.
fn calls(s: &mut Session, jacobian: Option<&[f64]>, between: fn(&mut Session)) -> Vec<Progress> {
    between(s);
    let mut told = vec![s.begin(0.01, jacobian).unwrap()];
    loop {
        between(s);
        let mut du = [0.0; 2];
        match told.last().unwrap().clone() {
            Progress::Ask(question) => {
                pair(question.time(), question.state(), &mut du);
                told.push(s.answer(question, &du).unwrap());
            }
            Progress::Ready { candidate, .. } => {
                pair(s.time() + 0.01, &candidate, &mut du);
                s.accept(&du).unwrap();
                return told;
            }
        }
    }
}

fn restored(s: &Session) -> Session {
    Session::restore(&s.save()).unwrap()
}

// The bytes of a session as the old layout had them: the first tolerance for all.
fn old(new: &[u8]) -> Vec<u8> {
    [&new[..37], &new[157..]].concat()
}

#[test]
fn a_saved_session_goes_on_bit_for_bit() {
    for scheme in Scheme::ALL {
        for jacobian in [None, Some(&PAIR[..])] {
            let (mut kept, mut saved) = (open_by(scheme, &[1e-9, 1e-6]), open_by(scheme, &[1e-9, 1e-6]));
            for _ in 0..2 {
                let told = calls(&mut kept, jacobian, |_| {});
                assert_eq!(calls(&mut saved, jacobian, |s| *s = restored(s)), told);
                assert_eq!(bits(&saved), bits(&kept));
            }
        }
    }
}

#[test]
fn old_bytes_are_brought_over() {
    for scheme in Scheme::ALL {
        let (mut kept, mut saved) = (open_by(scheme, 1e-6), open_by(scheme, 1e-6));
        for _ in 0..2 {
            let told = calls(&mut kept, None, |_| {});
            assert_eq!(
                calls(&mut saved, None, |s| *s = Session::restore(&old(&s.save())).unwrap()),
                told
            );
            assert_eq!(bits(&saved), bits(&kept));
        }
    }
    for n in 1..=16 {
        let u: Vec<f64> = (1..=n).map(f64::from).collect();
        let s = Session::open_with_history(Scheme::Etd2, 1.0, &u, &u, 1e-6, 1e-9, &u).unwrap();
        assert_eq!(bits(&Session::restore(&old(&s.save())).unwrap()), bits(&s), "n is {n}");
    }
    // of a forged n too: none of the places, or all of them
    for (n, tolerances) in [(0, [0.0; 16]), (17, [1e-6; 16]), (255, [1e-6; 16])] {
        let mut bytes = old(&open_by(Scheme::Exp4, 1e-6).save());
        bytes[1] = n;
        let mut s = Session::restore(&bytes).unwrap();
        assert_eq!(s.figures[layout::ABSOLUTE_AT..layout::STATE_AT], tolerances);
        assert_eq!(s.drop_attempt(), Err(Refusal::Size));
    }
}

#[test]
fn bytes_of_another_length_are_an_error_in_words() {
    let good = open(Scheme::Exp4).save();
    for length in [0, 1, 5, 628, 5028, 5030, 5148, 5150] {
        let bytes: Vec<u8> = good.iter().copied().cycle().take(length).collect();
        let error = Session::restore(&bytes).map(drop).unwrap_err();
        assert_eq!(error, RestoreError::Length(length));
        let words = error.to_string();
        assert!(
            words.contains(" 5149 bytes") && words.contains(" 5029 ") && words.ends_with(&format!(" {length}")),
            "{words}"
        );
    }
}

#[test]
fn saved_bytes_are_the_image_of_the_console() {
    let u = |x: f64| [x, x + 0.5, x + 0.25];
    let mut s =
        Session::open_with_history(Scheme::Etd2, 0.1, &u(1.0), &u(2.0), 1e-6, &[1e-3, 1e-2, 1e-4], &u(3.0)).unwrap();
    s.begin(-0.5, None).unwrap();
    s.supply(0, &u(4.0)).unwrap();
    s.supply(1, &u(5.0)).unwrap();
    let bytes = s.save();
    assert_eq!(bytes.len(), 5149);
    assert_eq!(bytes[..5], [13, 3, 1, 2, 2]);
    let mut at = 5;
    let mut next = |values: &[f64], places: usize| {
        for k in 0..places {
            assert_eq!(
                bytes[at..at + 8],
                values.get(k).unwrap_or(&0.0).to_le_bytes(),
                "at {at}"
            );
            at += 8;
        }
    };
    next(&[0.1, -0.5, 1e-6], 3);
    next(&[1e-3, 1e-2, 1e-4], 16);
    next(&u(1.0), 16);
    next(&u(2.0), 16);
    next(&u(3.0), 16);
    next(&[], 256);
    next(&u(4.0), 16);
    next(&u(5.0), 16);
    next(&[], 18 * 16);
    assert_eq!(at, 5149);
}

#[test]
fn every_nan_is_saved_as_one() {
    let mut bytes = open(Scheme::Exp4).save();
    for pattern in [
        0x7ff0_0000_0000_0001u64,
        0xfff8_0000_0000_0000,
        0x7fff_ffff_ffff_ffff,
        0x7ff8_0000_0000_0000,
    ] {
        bytes[157..165].copy_from_slice(&pattern.to_le_bytes());
        let mut s = Session::restore(&bytes).unwrap();
        assert!(s.state()[0].is_nan());
        assert_eq!(s.save()[157..165], 0x7ff8_0000_0000_0000u64.to_le_bytes());
        assert_eq!(s.drop_attempt(), Err(Refusal::NotFinite));
    }
    bytes[157..165].copy_from_slice(&f64::NEG_INFINITY.to_le_bytes());
    assert!(Session::restore(&bytes).unwrap().save() == bytes);
}

// Places that a question may have, and others.
const PLACES: [u64; 8] = [0, 1, 2, 19, 255, 256, 1 << 32, u64::MAX];

// Every call on a session refuses it by this number, with vectors of every length, and leaves it alone.
fn refused_by_all(s: &mut Session, refusal: Refusal) {
    let kept = bits(s);
    for length in [0, 1, 2, 16, 17, 256, 289] {
        let x = vec![0.0; length];
        assert_eq!(s.begin(0.01, Some(&x)), Err(refusal));
        for place in PLACES {
            assert_eq!(s.supply(place, &x), Err(refusal));
        }
        assert_eq!(s.accept(&x), Err(refusal));
        assert_eq!(s.step_with_jacobian(0.01, &x, pair), Err(refusal));
    }
    assert_eq!(s.begin(0.01, None), Err(refusal));
    assert_eq!(s.step(0.01, pair), Err(refusal));
    assert_eq!(s.first_step(1.0), Err(refusal));
    assert_eq!(s.drop_attempt(), Err(refusal));
    for shown in [s.state(), s.derivative(), s.absolute()] {
        assert_eq!(shown.len(), (s.numbers[layout::N_AT] as usize).min(16));
    }
    assert_eq!(bits(s), kept);
    assert_eq!(bits(&restored(s)), kept);
}

#[test]
fn forged_bytes_are_refused_by_the_next_call() {
    let mut s = open(Scheme::Exprb43);
    let rest = s.save();
    s.begin(0.01, None).unwrap();
    s.supply(0, &[0.0; 2]).unwrap();
    let asking = s.save();
    let forged = |bytes: &[u8], at: usize, with: &[u8]| {
        let mut bytes = bytes.to_vec();
        bytes[at..at + with.len()].copy_from_slice(with);
        Session::restore(&bytes).unwrap()
    };
    let one = 1f64.to_le_bytes();
    for bytes in [&rest, &asking] {
        for n in [0, 1, 17, 255] {
            refused_by_all(&mut forged(bytes, 1, &[n]), Refusal::Size);
        }
        // behind the tolerances, the state, the derivative, and in the history that is not held
        for at in [45, 157 + 16, 285 + 16, 413] {
            refused_by_all(&mut forged(bytes, at, &one), Refusal::Size);
        }
        for (at, number) in [(0, 16), (0, 255), (2, 1), (4, 255)] {
            refused_by_all(&mut forged(bytes, at, &[number]), Refusal::Scheme);
        }
        for (at, x, refusal) in [
            (21, -1.0, Refusal::Tolerance),
            (29, 0.0, Refusal::Tolerance),
            (37, f64::NAN, Refusal::Tolerance),
            (5, f64::NAN, Refusal::NotFinite),
            (157, f64::INFINITY, Refusal::NotFinite),
        ] {
            let mut s = forged(bytes, at, &x.to_le_bytes());
            assert_eq!((s.drop_attempt(), s.first_step(1.0)), (Err(refusal), Err(refusal)));
        }
    }
    assert_eq!(
        forged(&asking, 13, &0f64.to_le_bytes()).drop_attempt(),
        Err(Refusal::Step)
    );
    // the session is tested before a length that does not fit, the phase before its tolerances
    let mut s = forged(&rest, 29, &0f64.to_le_bytes());
    assert_eq!(
        (s.accept(&[]), s.begin(0.01, Some(&[]))),
        (Err(Refusal::Phase), Err(Refusal::Tolerance))
    );
    // the place of the question after the phase, and before the tolerances
    for (place, refusal) in [(0, Refusal::Question), (1, Refusal::Tolerance)] {
        assert_eq!(
            forged(&asking, 29, &0f64.to_le_bytes()).supply(place, &[]),
            Err(refusal)
        );
        assert_eq!(
            forged(&rest, 29, &0f64.to_le_bytes()).supply(place, &[]),
            Err(Refusal::Phase)
        );
    }
    // an attempt above 2 counts as 2
    let mut s = forged(&asking, 3, &[7]);
    assert!(s.save() == asking);
    assert!(s.supply(1, &[0.0; 2]).is_ok());
}
