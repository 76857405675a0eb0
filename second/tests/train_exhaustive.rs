//! 02 "Rating trucks": every stand of tiny trains on k-ths for k from 1 to 4, and
//! of generated ones at stations and halves: none goes further than the report,
//! and the values are attained.

mod common;

use common::train_case;
use common::train_definition::{due, Due};
use second::generator::train::case;
use second::train::checker::check;
use second::train::{call, rate, TrainCase};

#[track_caller]
fn is_reported(case: &TrainCase, ks: &[i64]) {
    let (result, report) = call(case);
    let answer = rate(case);
    match due(case, ks) {
        Due::Refused(due) => assert_eq!(result, due, "{case:?}"),
        Due::Values { greatest, least } => {
            let rating = answer.rating;
            let found = [rating.greatest, rating.least, rating.difference];
            assert_eq!(found, [greatest, least, greatest - least], "{case:?}");
        }
    }
    assert_eq!(check(case, &report, result), Ok(()), "{case:?}");
}

#[test]
fn tiny_trains_on_tiny_lines() {
    let lines: [&[(i64, i64)]; 8] = [
        &[(6, 10)],
        &[(-3, 0), (7, 2)],
        &[(9, 9), (-4, -8)],
        &[(0, -5), (-5, -1), (-1, 0)],
        &[(0, 0), (0, 4)],
        &[(5, 0), (0, -5), (5, 0), (-2, -7)],
        &[(0, 8), (-8, 0), (0, 8), (-8, 0)],
        &[(0, 0), (0, 0), (0, 0)],
    ];
    let distances: [&[u32]; 7] = [
        &[0],
        &[0, 0],
        &[0, 25],
        &[0, 50],
        &[0, 25, 50],
        &[0, 0, 25, 100],
        &[0, 25, 25, 150, 500],
    ];
    for line in lines {
        for distances in distances {
            for loads in [[3, 1, 4, 1, 5], [1, 1, 1, 1, 1], [400, 7, 2, 90, 30]] {
                let axles: Vec<(u32, u32)> =
                    loads.into_iter().zip(distances.iter().copied()).collect();
                for mode in [1, 2] {
                    is_reported(&train_case(25, line, &axles, mode), &[1, 2, 3, 4]);
                }
            }
        }
    }
}

#[test]
fn generated_trains() {
    for seed in 0..3000 {
        is_reported(&case(seed), &[1, 2]);
    }
}
