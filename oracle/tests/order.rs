//! The order of each scheme, as docs/DIFFERENCES.md tells it.

use oracle::order::*;
use oracle::pass::ETD2;
use oracle::published;

const EPIRK5S3: usize = 9;
/// Exp4 to Epirk5P2, Exprb32 and Exprb43: made for problems without time.
const WITHOUT_TIME: [usize; 9] = [6, 7, 8, 9, 10, 11, 12, 14, 15];

fn near(order: f64, whole: usize) -> bool {
    (order - whole as f64).abs() < 0.15
}

#[test]
fn with_the_exact_jacobian_all_but_two_have_their_order() {
    for scheme in 0..16 {
        let order = observed(scheme, Problem::Autonomous, Given::Exact);
        let claimed = published::order(scheme);
        let wanted = match scheme {
            EPIRK5S3 => 2,
            ETD2 => 1,
            1 | 3 => claimed + 1,
            _ => claimed,
        };
        assert!(near(order, wanted), "{} has {order}", published::name(scheme));
    }
}

#[test]
fn one_coefficient_holds_epirk5s3_down() {
    let as_published = observed(EPIRK5S3, Problem::Autonomous, Given::Exact);
    assert!((observed_epirk5s3(EPIRK5S3_PUBLISHED) - as_published).abs() < 0.01);
    assert!(near(observed_epirk5s3(EPIRK5S3_BY_CONDITION), 5));
}

#[test]
fn etd2_has_its_order_where_the_jacobian_stays_the_same() {
    assert!(near(observed(ETD2, Problem::Autonomous, Given::Constant), 2));
    assert!(near(observed(ETD2, Problem::Driven, Given::Constant), 2));
}

#[test]
fn driven_in_time_the_etd_schemes_keep_their_order_and_the_others_do_not() {
    for scheme in 0..=5 {
        let order = observed(scheme, Problem::Driven, Given::Exact);
        assert!(near(order, published::order(scheme)), "{}", published::name(scheme));
    }
    for scheme in WITHOUT_TIME {
        let order = observed(scheme, Problem::Driven, Given::Exact);
        assert!(order < 2.1, "{} has {order}", published::name(scheme));
    }
}

#[test]
fn with_time_as_a_component_they_have_it_again() {
    for scheme in WITHOUT_TIME.into_iter().filter(|scheme| *scheme != EPIRK5S3) {
        let order = observed(scheme, Problem::DrivenByComponent, Given::Exact);
        assert!(near(order, published::order(scheme)), "{}", published::name(scheme));
    }
}
