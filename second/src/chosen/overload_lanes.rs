//! Cases of additional overload lanes chosen by hand, of editions 1 and 2: lanes of
//! differing ordinates in every order, equal ones, ones of both signs and ones that
//! give 0; lines on which HO goes furthest in another lane than HN; every number of
//! lanes at its widths; the largest sums.

use super::{bare_job, level_piece, longest_level_line, of_job};
use crate::edition::Edition;
use crate::generator::Case;
use crate::job::{Job, Piece, Row, LIVE_NORMAL, LIVE_OVERLOAD, SERVICE, ULTIMATE};

/// Ordinates, a lane each, that are stored in every order.
pub const IN_EVERY_ORDER: [&[i64]; 3] = [
    &[500, 800, 1000],
    &[300, 500, 700, 900],
    &[200, 400, 600, 800, 1000],
];

/// Further ordinates, a lane each, from the left.
const ORDINATES: [&[i64]; 28] = [
    // Lanes that tie: beside HO, with HO, all.
    &[700, 1000, 700, 500],
    &[600, 1000, 600],
    &[500, 700, 1000, 700, 700],
    &[900, 900, 400],
    &[400, 900, 300, 900],
    &[500, 500, 500],
    &[500, 500, 500, 500],
    &[500, 500, 500, 500, 500],
    // Lanes that give 0: beside others, all but one, all.
    &[0, 800, 0, 600, 0],
    &[0, 0, 800, 600, 700],
    &[800, 0, 600],
    &[0, 0, 0, 700],
    &[0, 0, 0, 0, 1000],
    &[0, 0, 0, 0, 0],
    // Normal leaves lanes out that overload loads.
    &[1000, 100, 100],
    &[100, 100, 100, 100, 1000],
    &[1000, 40, 30, 20, 10],
    // Both signs: the questions differ in their HO lane, in the order of the others
    // or in both.
    &[1000, -1000],
    &[1000, 800, -1000],
    &[-1000, -800, 1000],
    &[1000, 800, -1000, 600],
    &[-1000, -800, 1000, -600],
    &[800, -400, 600, -1000, -200],
    &[-1000, 900, 1000, 800, -900],
    &[-600, -500, 1000],
    &[-200, -1000, -400, -600, -800],
    // Effects that are not whole.
    &[333, 1000, 777],
    &[1, 3, -7, 11, 13],
];

/// The dynamic factor of kind 1 that the last two of `ORDINATES` have, too.
pub const FRACTIONAL: i64 = 1001;

/// Spans by sign whose factors are 1299 and 1064, either way.
pub const SPANS: [(i64, i64); 2] = [(122, 2000), (2000, 122)];

/// Widths next to where the number of lanes changes, and the widest.
pub const WIDTHS: [i64; 9] = [599, 600, 969, 970, 1339, 1340, 1709, 1710, 2079];

/// Ordinates on the uneven line, a lane each; they are stored with either sign.
const ON_THE_UNEVEN_LINE: [&[i64]; 5] = [
    &[700, -1000],
    &[700, -1000, 400],
    &[-1000, 700, 400, -500],
    &[700, 690, -1000, 680, 670],
    &[300, -200, 100, 700, -1000],
];

pub fn cases() -> impl Iterator<Item = Case> {
    jobs().into_iter().map(|job| of_job(&job))
}

fn jobs() -> Vec<Job> {
    [
        in_every_order(),
        in_both_editions(),
        with_spans(),
        on_the_uneven_line(),
        WIDTHS.map(level_job).to_vec(),
        largest(),
    ]
    .concat()
}

/// Lanes of 400 cm, whose centres, from 150 to 250 cm into them, all have the lane's
/// ordinate; the line is 8 over 5 m, then -6 over 5 m; two rows with traffic.
pub fn lanes_job(edition: Edition, ordinates: &[i64]) -> Job {
    let further_header = vec![0; edition.header_words() - Edition::One.header_words()];
    Job {
        width: 400 * ordinates.len() as i64,
        transverse: lane_ordinates(ordinates),
        pieces: vec![level_piece(8), level_piece(-6)],
        rows: vec![
            Row::new(SERVICE, LIVE_NORMAL, 1350, 0),
            Row::new(ULTIMATE, LIVE_OVERLOAD, 1500, 0),
        ],
        ..bare_job(edition, further_header)
    }
}

/// The transverse ordinates of such lanes.
pub(super) fn lane_ordinates(ordinates: &[i64]) -> Vec<i64> {
    let mut transverse = vec![0; 8 * ordinates.len() + 1];
    for (lane, &ordinate) in ordinates.iter().enumerate() {
        transverse[8 * lane + 3..=8 * lane + 5].fill(ordinate);
    }
    transverse
}

/// The ordinates' every order, in edition 1 and in edition 2 by turns.
fn in_every_order() -> Vec<Job> {
    let orders = IN_EVERY_ORDER
        .iter()
        .flat_map(|ordinates| orders(ordinates));
    let editions = [Edition::One, Edition::Two].into_iter().cycle();
    let jobs = orders.zip(editions);
    jobs.map(|(ordinates, edition)| lanes_job(edition, &ordinates))
        .collect()
}

/// Every order of these numbers, which differ.
pub fn orders(numbers: &[i64]) -> Vec<Vec<i64>> {
    let mut orders = vec![vec![]];
    for &number in numbers {
        let with_number = |order: &Vec<i64>| {
            let order = order.clone();
            (0..=order.len()).map(move |at| [&order[..at], &[number], &order[at..]].concat())
        };
        orders = orders.iter().flat_map(with_number).collect();
    }
    orders
}

/// The further ordinates, and the last two with that factor.
fn in_both_editions() -> Vec<Job> {
    let mut jobs = vec![];
    for edition in [Edition::One, Edition::Two] {
        jobs.extend(ORDINATES.map(|ordinates| lanes_job(edition, ordinates)));
        let fractional = &ORDINATES[ORDINATES.len() - 2..];
        jobs.extend(fractional.iter().map(|ordinates| Job {
            dynamic_kind: 1,
            dynamic_value: FRACTIONAL,
            ..lanes_job(edition, ordinates)
        }));
    }
    jobs
}

fn with_spans() -> Vec<Job> {
    let lists = IN_EVERY_ORDER.into_iter().chain(ORDINATES);
    lists
        .flat_map(|ordinates| {
            let job = lanes_job(Edition::Two, ordinates);
            SPANS.map(|(greatest, least)| job.clone().with_spans(greatest, least))
        })
        .collect()
}

/// A line of 5 along 20 m, then from 0 to -10 along 5 m: the long part is the further
/// one for HN, the high one for HO.
pub(super) fn uneven_line() -> Vec<Piece> {
    let fall = Piece {
        left: 0,
        right: -10,
    };
    [vec![level_piece(5); 4], vec![fall]].concat()
}

/// Lanes over the uneven line.
pub fn uneven_line_job(edition: Edition, ordinates: &[i64]) -> Job {
    Job {
        pieces: uneven_line(),
        ..lanes_job(edition, ordinates)
    }
}

fn on_the_uneven_line() -> Vec<Job> {
    let mut jobs = vec![];
    for ordinates in ON_THE_UNEVEN_LINE {
        for side in [1, -1] {
            let ordinates: Vec<i64> = ordinates.iter().map(|ordinate| side * ordinate).collect();
            let editions = [Edition::One, Edition::Two];
            jobs.extend(editions.map(|edition| uneven_line_job(edition, &ordinates)));
        }
    }
    jobs
}

/// Transverse ordinates of 1000 throughout this width.
pub fn level_job(width: i64) -> Job {
    let mut job = lanes_job(Edition::One, &[]);
    job.width = width;
    job.transverse = vec![1000; 1 + (width + job.spacing - 1) as usize / job.spacing as usize];
    job
}

/// All of the line at 5000 or at -5000, all of the widest deck at 1000 or at -1000, and
/// the greatest dynamic factor.
pub fn largest_job(edition: Edition, ordinate: i64, across: i64) -> Job {
    let widest = level_job(WIDTHS[WIDTHS.len() - 1]);
    Job {
        dynamic_kind: 1,
        dynamic_value: 1300,
        pieces: longest_level_line(ordinate),
        width: widest.width,
        transverse: vec![across; widest.transverse.len()],
        ..lanes_job(edition, &[])
    }
}

fn largest() -> Vec<Job> {
    let mut jobs = vec![];
    for edition in [Edition::One, Edition::Two] {
        for (ordinate, across) in [(5000, 1000), (-5000, 1000), (5000, -1000), (-5000, -1000)] {
            jobs.push(largest_job(edition, ordinate, across));
        }
    }
    jobs
}
