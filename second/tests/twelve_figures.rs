//! 01 "Twelve figures to prove", as one table.

mod common;

use common::{level_job, pieces};
use second::job::Job;
use second::job_a::job_a;
use second::lanes::{breakpoint_centres, centre_limits, lane_count, transverse_ordinate};
use second::line::longitudinal_effect;
use second::loads::{dynamic_factor, Direction, Element};
use second::solve;

/// One piece, h 50, ordinates -10, -10; W 300, all transverse -1000; kind 1 at
/// 1300.
fn lowering_piece() -> Job {
    Job {
        dynamic_kind: 1,
        dynamic_value: 1300,
        pieces: pieces(&[(-10, -10)]),
        ..level_job(300, 50, vec![-1000; 7])
    }
}

fn lane_counts(widths: &[i64]) -> Vec<i64> {
    widths
        .iter()
        .map(|&width| lane_count(width) as i64)
        .collect()
}

/// The refusal and place of Job A at this width; its transverse line is left
/// as it is, since refusal 2 comes before the word count.
fn refusal_at_width(width: i64) -> [i64; 2] {
    let job = Job { width, ..job_a() };
    let answer = solve(&job.bytes(), &mut [0; 20]);
    [answer.refusal as i64, answer.place as i64]
}

fn fill_factors(fills: &[i64]) -> Vec<i64> {
    fills.iter().map(|&fill| dynamic_factor(3, fill)).collect()
}

/// Limits of a Job A lane's centre, from n-ths of a cm to whole cm.
fn centre_limits_in_cm(lane: usize) -> Vec<i64> {
    let limits = centre_limits(&job_a(), lane);
    assert!(limits.start() % 2 == 0 && limits.end() % 2 == 0);
    vec![limits.start() / 2, limits.end() / 2]
}

fn best_ordinate(lane: usize) -> i64 {
    let job = job_a();
    let ordinates = breakpoint_centres(&job, lane)
        .into_iter()
        .map(|centre| transverse_ordinate(&job, lane, centre));
    ordinates.max().unwrap()
}

#[test]
fn the_twelve_figures() {
    let piece = lowering_piece();
    let last = solve(&piece.bytes(), &mut [0]).account;
    let refused_widths = [refusal_at_width(299), refusal_at_width(2080)].concat();
    let longitudinal = longitudinal_effect;
    let (raising, lowering) = (Direction::Raising, Direction::Lowering);
    let table: [(&str, Vec<i64>, &[i64]); 12] = [
        ("i", lane_counts(&[599, 600, 969, 970]), &[1, 2, 2, 3]),
        ("ii", lane_counts(&[1340, 2079]), &[4, 5]),
        ("iii", refused_widths, &[2, 4, 2, 4]),
        (
            "iv",
            fill_factors(&[0, 50, 100, 101]),
            &[1300, 1150, 1000, 1000],
        ),
        (
            "v",
            vec![longitudinal(&job_a(), Element::Hn, raising)],
            &[1900000],
        ),
        (
            "vi",
            vec![longitudinal(&job_a(), Element::Ho, raising)],
            &[3100000],
        ),
        ("vii", centre_limits_in_cm(0), &[150, 210]),
        ("viii", vec![best_ordinate(0)], &[57000]),
        ("ix", vec![best_ordinate(1)], &[21000]),
        (
            "x",
            vec![longitudinal(&piece, Element::Hn, lowering)],
            &[-23000],
        ),
        (
            "xi",
            vec![longitudinal(&piece, Element::Ho, lowering)],
            &[-39000],
        ),
        (
            "xii",
            vec![last.normal_greatest.value, last.normal_least.value],
            &[2242500, 0],
        ),
    ];
    for (figure, found, expected) in table {
        assert_eq!(found, expected, "figure ({figure})");
    }
}
