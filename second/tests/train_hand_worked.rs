//! 02 "Rating trucks": small trains whose ratings are worked out by hand.

mod common;

use common::train_definition::stands_that_give;
use common::{train_case, truck};
use second::train::{rate, Rating, TrainCase};

fn rating(case: &TrainCase) -> Rating {
    let answer = rate(case);
    assert_eq!((answer.refusal, answer.place), (0, 0));
    answer.rating
}

/// Way round, side and station of the two stands.
fn stands(rating: &Rating) -> [[i64; 3]; 2] {
    [rating.greatest_stand, rating.least_stand].map(|stand| [stand.way, stand.side, stand.station])
}

fn values(rating: &Rating) -> [i64; 3] {
    [rating.greatest, rating.least, rating.difference]
}

/// 50 kN on the crown of a triangle: 50 * 100 = 5000. The least is 0, at an end.
#[test]
fn one_axle() {
    let rating = rating(&train_case(10, &[(0, 100), (100, 0)], &[(50, 0)], 1));
    assert_eq!(values(&rating), [5000, 0, 5000]);
    assert_eq!(stands(&rating), [[0, 0, 1], [0, 0, 0]]);
}

/// At station 1 the line jumps from -40 to 60: 100 * 60 from the right, 100 *
/// -40 from the left.
#[test]
fn an_axle_at_a_jump() {
    let rating = rating(&train_case(10, &[(0, -40), (60, 0)], &[(100, 0)], 1));
    assert_eq!(values(&rating), [6000, -4000, 10000]);
    assert_eq!(stands(&rating), [[0, 1, 1], [0, 0, 1]]);
}

/// Station 1 has 10 to its left and 0 to its right, station 2 has 0 and 10. The
/// axles are a piece apart: with a side each they would count 20, with one side
/// they count 10.
#[test]
fn all_axles_take_one_side() {
    let line = [(0, 10), (0, 0), (10, 0)];
    let rating = rating(&train_case(5, &line, &[(1, 0), (1, 5)], 1));
    assert_eq!(values(&rating), [10, 0, 10]);
    // Station 0 from the left: 0 and 10.
    assert_eq!(stands(&rating)[0], [0, 0, 0]);
}

/// Ordinates at stations 0 to 4: 0, 100, 0, -50, 0, without jumps; axles of 10
/// and 30 kN, 2 pieces apart. For the leftmost axle at -2 to 4:
///   as given, 10 o(s) + 30 o(s + 2): 0, 3000, 0, 1000 - 1500, 0, -500, 0
///   turned, 30 o(s) + 10 o(s + 2): 0, 1000, 0, 3000 - 500, 0, -1500, 0
/// Greatest 3000 as given at -1, its first axle off the line; least -1500
/// turned at 3, its other axle off the line.
#[test]
fn both_ways_round() {
    let line = [(0, 100), (100, 0), (0, -50), (-50, 0)];
    let rating = rating(&train_case(25, &line, &[(10, 0), (30, 50)], 1));
    assert_eq!(values(&rating), [3000, -1500, 4500]);
    assert_eq!(stands(&rating), [[0, 0, -1], [1, 0, 3]]);
}

/// The same with each axle that relieves dropped, axle by axle: at 1 as given
/// 10 * 100 and 30 * -50 come to 1000 for greatest and -1500 for least, so that
/// -1500 is found as given already. For greatest 3000 stays: as given at -1, and
/// turned at 1, where the other axle no longer takes 500 off.
#[test]
fn relieving_axles_are_dropped() {
    let line = [(0, 100), (100, 0), (0, -50), (-50, 0)];
    let case = train_case(25, &line, &[(10, 0), (30, 50)], 2);
    let rating = rating(&case);
    assert_eq!(values(&rating), [3000, -1500, 4500]);
    assert_eq!(stands(&rating), [[0, 0, -1], [0, 0, 1]]);
    let attained = stands_that_give(&case, 0, 3000);
    let at = attained.iter().map(|stand| (stand.way, stand.leftmost));
    assert_eq!(
        at.collect::<Vec<_>>(),
        [(0, -1), (0, -1), (1, 1), (1, 1)],
        "either side, as the line has no jumps"
    );
}

/// One level piece of 5 m below 0 and two axles 5 m apart: only one can be on,
/// 100 * -10. With the second on the line's left end, the first is at -1. With
/// three more on the first they count together, 400 * -10.
#[test]
fn a_train_longer_than_its_line() {
    let line = [(-10, -10)];
    let pair = rating(&train_case(50, &line, &[(100, 0), (100, 50)], 1));
    assert_eq!(values(&pair), [0, -1000, 1000]);
    assert_eq!(stands(&pair), [[0, 0, -1], [0, 1, -1]]);
    let axles = [(100, 0), (100, 0), (100, 0), (100, 0), (100, 50)];
    let grouped = rating(&train_case(50, &line, &axles, 1));
    assert_eq!(values(&grouped), [0, -4000, 4000]);
    // As given with the group at 0 from the right.
    assert_eq!(stands(&grouped)[1], [0, 1, 0]);
}

/// Where every stand that touches the line raises, the least is that of a train
/// wholly off it: 0, at the lowest station from the left.
#[test]
fn a_train_wholly_off_the_line() {
    let line = [(7, 7); 3];
    let axles = [(1, 0), (1, 1), (1, 2), (1, 500)];
    let rating = rating(&train_case(1, &line, &axles, 1));
    // Three axles on at once, at 0, 1 and 2 from the right.
    assert_eq!(values(&rating), [21, 0, 21]);
    assert_eq!(stands(&rating), [[0, 1, 0], [0, 0, -500]]);
}

/// All load in one place on the highest and the lowest ordinate: 12 * 400 *
/// 5000 either way.
#[test]
fn the_largest_values() {
    let line = [(5000, 5000), (-5000, -5000)];
    for mode in [1, 2] {
        let rating = rating(&train_case(1, &line, &[(400, 0); 12], mode));
        assert_eq!(values(&rating), [24_000_000, -24_000_000, 48_000_000]);
        assert_eq!(stands(&rating), [[0, 1, 0], [0, 1, 1]]);
    }
}

/// Zero lines: everything is 0, and the stands are the first.
#[test]
fn a_line_of_zeros() {
    for mode in [1, 2] {
        let rating = rating(&train_case(2, &[(0, 0); 4], &[(9, 0), (9, 6)], mode));
        assert_eq!(values(&rating), [0, 0, 0]);
        assert_eq!(stands(&rating), [[0, 0, -3], [0, 0, -3]]);
    }
}

/// The truck line falls by 20 a piece and jumps by 1000 at station 20; the axles
/// of 60, 120 and 120 kN stand 18 and 24 pieces from the first.
///
/// Greatest, turned: 120 at the jump from the right, 1000 - 400 = 600; 120 at
/// 26, 480; 60 at 44, 120: 72000 + 57600 + 7200 = 136800.
/// Least, as given: the first off the line at -4; 120 at 14, -280; 120 at the
/// jump from the left, -400: -33600 - 48000 = -81600.
/// No other stand gives them.
#[test]
fn a_truck_on_the_truck_line() {
    let case = truck(1);
    let rating = rating(&case);
    assert_eq!(values(&rating), [136_800, -81_600, 218_400]);
    assert_eq!(stands(&rating), [[1, 1, 20], [0, 0, -4]]);
    assert_eq!(stands_that_give(&case, 0, 136_800).len(), 1);
    assert_eq!(stands_that_give(&case, 1, -81_600).len(), 1);
}

/// With relieving axles dropped the values are the same. The greatest's stand is
/// still the only one; the least's has an equal: turned at 14, where the axle of
/// 60 kN at station 38 no longer takes 60 * 240 off. The first is shown.
#[test]
fn a_truck_without_its_relieving_axles() {
    let case = truck(2);
    let rating = rating(&case);
    assert_eq!(values(&rating), [136_800, -81_600, 218_400]);
    assert_eq!(stands(&rating), [[1, 1, 20], [0, 0, -4]]);
    assert_eq!(stands_that_give(&case, 0, 136_800).len(), 1);
    let least = stands_that_give(&case, 1, -81_600);
    let least = least
        .iter()
        .map(|stand| [stand.way, stand.side, stand.leftmost]);
    assert_eq!(least.collect::<Vec<_>>(), [[0, 0, -4], [1, 0, 14]]);
}

/// The report's numbers stand in its order and come back from its bytes.
#[test]
fn a_rating_as_bytes() {
    let numbers = [1, -2, 3, 4, 5, -6, 7, 8, i64::MIN];
    let rating = Rating::of_numbers(numbers);
    assert_eq!(rating.numbers(), numbers);
    assert_eq!(values(&rating), [1, -2, 3]);
    assert_eq!(stands(&rating), [[4, 5, -6], [7, 8, i64::MIN]]);
    let bytes = rating.bytes();
    assert_eq!(bytes.len(), 72);
    assert_eq!(bytes[..10], [1, 0, 0, 0, 0, 0, 0, 0, 0xFE, 0xFF]);
    assert_eq!(Rating::of_bytes(&bytes), rating);
}
