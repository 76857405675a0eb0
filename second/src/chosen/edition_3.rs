//! Cases of edition 3 chosen by hand: a side of the median that counts nothing; every
//! pair of lane counts; lanes of differing ordinates on both sides, ones that tie across
//! the median and ones of both signs; sides of differing n with centres anywhere in their
//! lanes; the largest sums and the longest job; ordinates at each edition's limits; and
//! what refuses such a job, in edition_3/refused.rs.

mod refused;

use super::overload_lanes::{self, lane_ordinates, uneven_line, SPANS};
use super::{
    chains_of, level_piece, longest_level_line, most_across, most_rows, of_job, piece_of_its_own,
    sixteen_effects,
};
use crate::edition::Edition;
use crate::generator::Case;
use crate::job::{Job, Piece};

/// Ordinates on one side, a lane each, beside another side that counts nothing.
pub const ON_ONE_SIDE: [&[i64]; 4] = [
    &[650],
    &[650, 950, 350],
    &[1000, -450, 250, -150],
    &[120, 990, -340, 560, 780],
];

/// The narrowest and the widest carriageway of each number of lanes, from one on.
pub const NARROWEST: [i64; 5] = [300, 600, 970, 1340, 1710];
pub const WIDEST: [i64; 5] = [599, 969, 1339, 1709, 2079];

/// A width of each number of lanes whose lanes end within a centimetre, from two on.
pub const UNEVEN_WIDTHS: [i64; 5] = [437, 701, 1100, 1403, 2079];

/// Ordinates on both sides, a lane each, from the left.
const ORDINATES: [(&[i64], &[i64]); 34] = [
    // Ten lanes that differ: rising, falling, by turns, and highest at the median.
    (&[100, 200, 300, 400, 500], &[600, 700, 800, 900, 1000]),
    (&[1000, 900, 800, 700, 600], &[500, 400, 300, 200, 100]),
    (&[100, 1000, 300, 800, 500], &[600, 700, 400, 900, 200]),
    (&[200, 400, 600, 800, 1000], &[900, 700, 500, 300, 100]),
    (&[-950, 900, -850, 800, -750], &[700, -650, 600, -550, 500]),
    // Six to nine lanes that differ.
    (&[300, 900, 500], &[800, 400, 700]),
    (&[900], &[350, 450, 550, 650, 750]),
    (&[350, 450, 550, 650, 750], &[900, 250]),
    (&[500, 1000, 700, 600], &[400, 900, 800]),
    (&[300, 500, 700, 900], &[200, 400, 600, 800]),
    (&[150, 450, 750, 950], &[250, 350, 550, 650, 850]),
    (&[850, 650, 550, 350, 250], &[950, 750, 450, 150]),
    // Lanes that tie across the median: HO's own, those beside it, all.
    (&[500], &[500]),
    (&[900, 400], &[900, 400]),
    (&[900, 400], &[400, 900]),
    (&[700, 300, 500], &[700]),
    (&[600], &[1000, 600, 600]),
    (&[0, 800], &[800, 0]),
    (&[700; 3], &[700; 3]),
    (&[700; 5], &[700; 5]),
    (&[800, 800, 0, 0, 0], &[0, 0, 0, 800, 800]),
    // Normal loads one side, or a lane of each; overload all.
    (&[1000, 950], &[30, 20]),
    (&[30, 20], &[1000, 950]),
    (&[1000, 20], &[900, 30, 10]),
    (&[10, 10, 10, 10, 10], &[1000, 10, 10, 10, 10]),
    (&[1000, 990, 980, 970, 960], &[50, 40, 30, 20, 10]),
    // Each question has a side of its own, or lanes of both.
    (&[1000], &[-1000]),
    (&[-1000, -800], &[900, 700]),
    (&[1000, -900, 800], &[-700, 600, -500]),
    (&[-400, -600, -800, -1000], &[500, 700, 900]),
    (&[900, -200, 500, -700, 300], &[-300, 700, -500, 200, -900]),
    // Effects that are not whole.
    (&[333, 1], &[777]),
    (&[1, 3, -7], &[11, 13]),
    (&[17, 19, 23, 29], &[31, -37, 41, -43, 47]),
];

/// Ordinates on the uneven line, a lane each: HO goes furthest on another side than HN.
const ON_THE_UNEVEN_LINE: [(&[i64], &[i64]); 6] = [
    (&[700], &[-1000]),
    (&[-1000], &[700]),
    (&[700, 400], &[-1000, 100]),
    (&[-1000, 300, -200], &[700, 690, 680]),
    (&[700, 690, 680, 670], &[660, 650, -1000]),
    (&[100, -1000, 200, 300, 400], &[500, 600, 700, 650, 640]),
];

pub(super) fn cases() -> Vec<Case> {
    let accepted = jobs().iter().map(of_job).collect();
    [accepted, refused::cases()].concat()
}

fn jobs() -> Vec<Job> {
    [
        beside_nothing(),
        every_pair_of_lane_counts(),
        ORDINATES
            .map(|(first, second)| lanes_job(first, second))
            .to_vec(),
        with_spans(),
        on_the_uneven_line(),
        centres_anywhere(),
        largest(),
        ordinates_at_limits(),
        vec![longest()],
    ]
    .concat()
}

/// Lanes of 400 cm on both sides of the median, whose centres, from 150 to 250 cm into
/// them, all have the lane's ordinate; the line is 8 over 5 m, then -6 over 5 m; two rows
/// with traffic.
pub fn lanes_job(first: &[i64], second: &[i64]) -> Job {
    let job = overload_lanes::lanes_job(Edition::Two, first);
    job.with_second_carriageway(400 * second.len() as i64, lane_ordinates(second))
}

/// A deck as edition 2 has it, then the same beside a side that counts nothing, of one
/// lane and of as many as there are, to its right and to its left.
fn beside_nothing() -> Vec<Job> {
    let mut jobs = vec![];
    for ordinates in ON_ONE_SIDE {
        jobs.push(overload_lanes::lanes_job(Edition::Two, ordinates));
        for nothing in [&[0][..], &[0; 5]] {
            jobs.push(lanes_job(ordinates, nothing));
            jobs.push(lanes_job(nothing, ordinates));
        }
    }
    jobs
}

/// Transverse ordinates of 1000 throughout both widths: every lane is loaded.
pub fn level_job(first: i64, second: i64) -> Job {
    let mut job = lanes_job(&[], &[]);
    job.width = first;
    job.transverse = vec![1000; ordinates_across(&job, first)];
    with_second_width(job, second, 1000)
}

/// The job with another second width, level at this ordinate.
fn with_second_width(mut job: Job, second: i64, ordinate: i64) -> Job {
    job.further_header[2] = second;
    job.second_transverse = vec![ordinate; ordinates_across(&job, second)];
    job
}

fn ordinates_across(job: &Job, width: i64) -> usize {
    (width as usize).div_ceil(job.spacing as usize) + 1
}

/// The narrowest beside the widest, either way round.
fn every_pair_of_lane_counts() -> Vec<Job> {
    let mut jobs = vec![];
    for narrow in NARROWEST {
        for wide in WIDEST {
            jobs.push(level_job(narrow, wide));
            jobs.push(level_job(wide, narrow));
        }
    }
    jobs
}

fn with_spans() -> Vec<Job> {
    let some = ORDINATES.iter().step_by(5);
    some.flat_map(|(first, second)| {
        let job = lanes_job(first, second);
        SPANS.map(|(greatest, least)| job.clone().with_spans(greatest, least))
    })
    .collect()
}

/// Lanes of both sides over the uneven line.
pub fn uneven_line_job(first: &[i64], second: &[i64]) -> Job {
    Job {
        pieces: uneven_line(),
        ..lanes_job(first, second)
    }
}

fn on_the_uneven_line() -> Vec<Job> {
    let signs = [1, -1];
    let jobs = ON_THE_UNEVEN_LINE.iter().flat_map(|(first, second)| {
        signs.map(|sign| {
            let signed = |ordinates: &[i64]| -> Vec<i64> {
                ordinates.iter().map(|ordinate| sign * ordinate).collect()
            };
            uneven_line_job(&signed(first), &signed(second))
        })
    });
    jobs.collect()
}

/// The first side slopes down, the second is a saw of another step, so that the best
/// centres are at limits of lanes, which are n-ths of a cm, and within them.
pub fn sloped_job(first: i64, second: i64) -> Job {
    let mut job = with_second_width(level_job(first, second), second, 0);
    job.spacing = 37;
    job.transverse = (0..ordinates_across(&job, first) as i64)
        .map(|at| 950 - 31 * at)
        .collect();
    job.second_transverse = (0..ordinates_across(&job, second) as i64)
        .map(|at| at * 333 % 1001 - 200)
        .collect();
    job
}

fn centres_anywhere() -> Vec<Job> {
    let pairs = UNEVEN_WIDTHS
        .iter()
        .flat_map(|&first| UNEVEN_WIDTHS.map(|second| (first, second)));
    pairs
        .map(|(first, second)| sloped_job(first, second))
        .collect()
}

/// All of the line at 500 or at -500, all of both widest sides at 1000 or at -1000, alike
/// or not, and the greatest dynamic factor.
pub fn largest_job(ordinate: i64, across: i64, second_across: i64) -> Job {
    let widest = WIDEST[4];
    let mut job = with_second_width(level_job(widest, widest), widest, second_across);
    job.transverse.fill(across);
    (job.dynamic_kind, job.dynamic_value) = (1, 1300);
    job.pieces = longest_level_line(ordinate);
    job
}

fn largest() -> Vec<Job> {
    let mut jobs = vec![];
    for ordinate in [500, -500] {
        for (across, second) in [(1000, 1000), (-1000, -1000), (1000, -1000), (-1000, 1000)] {
            jobs.push(largest_job(ordinate, across, second));
        }
    }
    jobs
}

/// Edition 3's furthest ordinates, and in editions 1 and 2 those and theirs.
fn ordinates_at_limits() -> Vec<Job> {
    let mut jobs = vec![];
    for ordinate in [500, -500] {
        let mut job = lanes_job(&[310], &[420, 530]);
        job.pieces[0] = level_piece(ordinate);
        jobs.push(job);
    }
    for edition in [Edition::One, Edition::Two] {
        for ordinate in [500, 501, -501, 5000, -5000] {
            let mut job = overload_lanes::lanes_job(edition, &[310]);
            job.pieces[0] = level_piece(ordinate);
            jobs.push(job);
        }
    }
    jobs
}

/// Every section as long as it may be: 4143 words, 16572 bytes.
pub fn longest() -> Job {
    let mut job = lanes_job(&[], &[]);
    (job.piece_length, job.spacing, job.width) = (1, 10, 2079);
    let tenth = |piece: Piece| Piece {
        left: piece.left / 10,
        right: piece.right / 10,
    };
    job.pieces = (0..1000).map(piece_of_its_own).map(tenth).collect();
    job.transverse = most_across(71);
    job.further_header[2] = 2079;
    job.second_transverse = most_across(97);
    job.effects = sixteen_effects();
    job.records = chains_of(16);
    job.rows = most_rows();
    job
}
