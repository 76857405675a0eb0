//! The checker of trains takes every right report, whichever of the equally good
//! stands it shows, and no other.

mod common;

use common::train_definition::{due, stands_that_give, Due};
use common::{train_case, truck};
use second::generator::train::case;
use second::train::checker::check;
use second::train::{call, Rating, TrainCase, TrainStand};

/// A report buffer with this rating, the rest as before the call.
fn with_rating(case: &TrainCase, rating: &Rating) -> Vec<u8> {
    let mut report = case.report.clone();
    report[..72].copy_from_slice(&rating.bytes());
    report
}

#[track_caller]
fn refuses(case: &TrainCase, report: &[u8], result: u64, reason: &str) {
    let fault = check(case, report, result).expect_err(reason);
    assert!(fault.contains(reason), "{fault}, not {reason}");
}

/// What is due by the definitions alone passes, with the solver's stands.
#[test]
fn right_reports_to_generated_trains_pass() {
    for seed in 0..2000 {
        let case = case(seed);
        let (result, report) = match due(&case, &[1]) {
            Due::Refused(result) => {
                let mut report = case.report.clone();
                report.iter_mut().take(72).for_each(|byte| *byte = 0);
                (result, report)
            }
            Due::Values { greatest, least } => {
                let rating = Rating {
                    greatest,
                    least,
                    difference: greatest - least,
                    ..Rating::of_bytes(&call(&case).1)
                };
                (0, with_rating(&case, &rating))
            }
        };
        assert_eq!(check(&case, &report, result), Ok(()), "seed {seed}");
    }
}

/// Each stand at a station that gives a value is taken, and no other.
#[test]
fn equally_good_stands_are_free() {
    let line = [(0, 100), (100, 0), (0, -50), (-50, 0)];
    for mode in [1, 2] {
        let case = train_case(25, &line, &[(10, 0), (30, 50)], mode);
        let right = Rating::of_bytes(&call(&case).1);
        let good = [
            stands_that_give(&case, 0, right.greatest),
            stands_that_give(&case, 1, right.least),
        ];
        let mut taken = 0;
        for way in [0, 1] {
            for side in [0, 1] {
                for station in -4..=6 {
                    let stand = TrainStand { way, side, station };
                    let gives = |question: usize| {
                        good[question].iter().any(|good| {
                            [good.way, good.side, good.leftmost] == [way, side, station]
                        })
                    };
                    let mut rating = right;
                    rating.greatest_stand = stand;
                    let passes = check(&case, &with_rating(&case, &rating), 0).is_ok();
                    assert_eq!(passes, gives(0), "{stand:?}");
                    taken += usize::from(passes);
                    rating = right;
                    rating.least_stand = stand;
                    let passes = check(&case, &with_rating(&case, &rating), 0).is_ok();
                    assert_eq!(passes, gives(1), "{stand:?}");
                }
            }
        }
        assert_eq!(taken, [2, 4][mode as usize - 1]);
    }
}

/// A zero line makes every stand in range equally good, and none past it.
#[test]
fn stands_out_of_range_are_refused() {
    // The train is 3 pieces long, the line 4.
    let case = train_case(2, &[(0, 0); 4], &[(9, 0), (9, 6)], 1);
    let right = Rating::of_bytes(&call(&case).1);
    for station in [-3, 0, 4] {
        for (way, side) in [(0, 0), (0, 1), (1, 0), (1, 1)] {
            let mut rating = right;
            rating.greatest_stand = TrainStand { way, side, station };
            rating.least_stand = TrainStand { way, side, station };
            assert_eq!(check(&case, &with_rating(&case, &rating), 0), Ok(()));
        }
    }
    for number in [-4, 5, i64::MIN, i64::MAX] {
        let mut rating = right;
        rating.greatest_stand.station = number;
        let reason = format!("greatest's stand: its station is {number}");
        refuses(&case, &with_rating(&case, &rating), 0, &reason);
        rating = right;
        rating.least_stand.station = number;
        let reason = format!("least's stand: its station is {number}");
        refuses(&case, &with_rating(&case, &rating), 0, &reason);
    }
    for number in [-1, 2, 256, 1 << 32, i64::MIN, i64::MAX] {
        let mut rating = right;
        rating.greatest_stand.way = number;
        let reason = format!("its way round is {number}");
        refuses(&case, &with_rating(&case, &rating), 0, &reason);
        rating = right;
        rating.least_stand.side = number;
        let reason = format!("its side is {number}");
        refuses(&case, &with_rating(&case, &rating), 0, &reason);
    }
}

/// The truck's stands are the only ones, so every change of a number is wrong.
#[test]
fn each_number_changed_is_refused() {
    let case = truck(1);
    let (result, report) = call(&case);
    assert_eq!((result, check(&case, &report, result)), (0, Ok(())));
    let right = Rating::of_bytes(&report).numbers();
    let reasons = [
        "greatest is",
        "least is",
        "difference is",
        "greatest's stand",
        "greatest's stand",
        "greatest's stand",
        "least's stand",
        "least's stand",
        "least's stand",
    ];
    for (at, reason) in reasons.into_iter().enumerate() {
        for change in [-1, 1, 1 << 32, i64::MIN] {
            let mut numbers = right;
            numbers[at] = numbers[at].wrapping_add(change);
            let report = with_rating(&case, &Rating::of_numbers(numbers));
            refuses(&case, &report, 0, reason);
        }
    }
    // A lower value with a stand that gives it: 120 at 21 and 27, 60 at 45.
    let mut rating = Rating::of_numbers(right);
    rating.greatest_stand.station += 1;
    rating.greatest -= 20 * 300;
    rating.difference -= 20 * 300;
    refuses(&case, &with_rating(&case, &rating), 0, "greatest is 130800");
}

#[test]
fn each_byte_changed_is_refused() {
    let mut wrong_report = truck(1);
    wrong_report.mode = 3;
    let mut short_report = truck(1);
    short_report.report.truncate(40);
    let mut wrong_axle = truck(2);
    wrong_axle.train[2].load = 401;
    for case in [truck(1), wrong_report, short_report, wrong_axle] {
        let (result, report) = call(&case);
        assert_eq!(check(&case, &report, result), Ok(()));
        for at in 0..report.len() {
            for change in [1, 0x80, 0xFF] {
                let mut changed = report.clone();
                changed[at] ^= change;
                assert!(check(&case, &changed, result).is_err(), "byte {at}");
            }
        }
        refuses(&case, &report[1..], result, "the report's length");
        let mut longer = report.clone();
        longer.push(0);
        refuses(&case, &longer, result, "the report's length");
    }
}

#[test]
fn the_buffer_as_it_was_is_refused() {
    let case = truck(1);
    refuses(&case, &case.report, 0, "greatest is");
    let mut refused = truck(1);
    refused.h = 3;
    refuses(&refused, &refused.report, 2, "byte 0 of a refusal's report");
    let mut past = call(&case).1;
    past[72] = 0;
    refuses(&case, &past, 0, "byte 72, past the report,");
}

#[test]
fn a_wrong_result_is_refused() {
    let case = truck(1);
    let report = call(&case).1;
    for result in [1, 2, 10, 256, 10 + 256, u64::MAX] {
        assert!(check(&case, &report, result).is_err(), "{result}");
    }
    refuses(&case, &report, 256, "place is 1, 0 is due");
    let mut case = truck(1);
    case.train[2].load = 0;
    let (result, report) = call(&case);
    assert_eq!(result, 10 + 256 * 3);
    for wrong in [0, 2, 10, 10 + 256, 10 + 256 * 2, 10 + 256 * 4, 11 + 256 * 3] {
        assert!(check(&case, &report, wrong).is_err(), "{wrong}");
    }
    refuses(&case, &report, 10 + 256 * 2, "place is 2, 3 is due");
    refuses(&case, &report, 2, "refusal is 2, 10 is due");
}
