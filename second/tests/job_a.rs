//! 01 "The host and the program": Job A's four lines, and its placements.

mod common;

use common::five_lanes;
use second::job_a::job_a;
use second::{report, solve};

#[test]
fn prints_the_four_lines_of_01() {
    let answer = solve(&job_a().bytes(), &mut [0; 20]);
    let expected = "\
normal greatest 162556875 least 0
overload greatest 263981250 least 0
service greatest 299451781250 row 1 least 80000000000 row 1
ultimate greatest 491971875000 row 2 least 96000000000 row 2
";
    assert_eq!(report::report(&answer), expected);
}

#[test]
fn job_a_has_the_words_01_lists() {
    let words = job_a().words();
    let header = [1, 10, 20, 40, 720, 1, 1300, 1, 2, 2];
    assert_eq!(words[..10], header);
    assert_eq!(words[10..14], [0, 50, 50, 100]);
    assert_eq!(words[28..32], [450, 500, 500, 450]);
    assert_eq!(words[48..50], [50, 0]);
    assert_eq!(words[50..53], [900, 850, 800]);
    assert_eq!(
        words[68..],
        [0, 80000, 1, 1, 1, 1350, 1, 2, 2, 1500, 2, 1, 1000, 0, 1, 1200, 0]
    );
}

/// Lane 1's best ordinate is 57000/80 = 712.5 and lane 2's 21000/80 = 262.5,
/// each at its lane's left limit: 150 cm and 510 cm. 0.9 of both is 877.5,
/// above 712.5, so normal loads both lanes; overload adds lane 2 to the HO lane.
#[test]
fn normal_and_overload_load_both_lanes() {
    let mut patch = [9; 22];
    let account = solve(&job_a().bytes(), &mut patch).account;
    let normal = account.normal_greatest;
    assert_eq!(normal.set, 0b11);
    assert_eq!(five_lanes(&normal).map(|lane| lane.entry), [1, 1, 0, 0, 0]);
    assert_eq!(
        five_lanes(&normal).map(|lane| lane.centre),
        [300, 1020, 0, 0, 0]
    );
    let overload = account.overload_greatest;
    assert_eq!(overload.set, 0b11);
    assert_eq!(
        five_lanes(&overload).map(|lane| lane.entry),
        [3, 1, 0, 0, 0]
    );
    assert_eq!(
        five_lanes(&overload).map(|lane| lane.centre),
        [300, 1020, 0, 0, 0]
    );
    assert_eq!(patch[..20], [1; 20]);
    assert_eq!(patch[20..], [9, 9]);
}
