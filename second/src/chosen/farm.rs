//! Cases of edition 4 chosen by hand: a short farm job at each limit of its own
//! and past it, alone and with other faults beside it.

use super::{bare_job, changed_job, fronts, longest_level_line, of_job};
use crate::edition::Edition;
use crate::farm;
use crate::generator::Case;
use crate::job::{Effect, Job};
use crate::sections::{BARRIERS, DYNAMIC_VALUE, EDITION, EFFECTS, PIECES, RECORDS, ROWS, WIDTH};
use crate::words::{Change, WORD_BYTES};

/// Places in the short farm job.
const LEFT_ORDINATE: usize = 11;
const RIGHT_ORDINATE: usize = 12;
const FIRST_EFFECT: usize = 20;

/// Widths at, next to and far from the ends of the bands.
const WIDTHS: [i64; 11] = [299, 300, 301, 369, 370, 371, 429, 430, 431, 2079, 2080];

/// Words 0 that are no farm job's; of these only 2 is of an edition.
const OTHER_EDITIONS: [i32; 9] = [0, 2, 3, 5, -4, 260, 0x0400_0000, i32::MIN, i32::MAX];

/// Changes of the short farm job's words.
const CHANGES: [&[Change]; 39] = [
    // Words 7, 8 and 9 one off, as edition 1 may have them, and far off.
    &[(EFFECTS, 10)],
    &[(EFFECTS, 12)],
    &[(EFFECTS, 0)],
    &[(EFFECTS, i32::MIN)],
    &[(EFFECTS, i32::MAX)],
    &[(ROWS, -1)],
    &[(ROWS, 1)],
    &[(ROWS, 20)],
    &[(ROWS, i32::MIN)],
    &[(RECORDS, -1)],
    &[(RECORDS, 1)],
    &[(RECORDS, 512)],
    &[(RECORDS, i32::MAX)],
    // The barriers.
    &[(BARRIERS, 0)],
    &[(BARRIERS, 4)],
    &[(BARRIERS, -1)],
    &[(BARRIERS, 257)],
    &[(BARRIERS, i32::MIN)],
    &[(BARRIERS, i32::MAX)],
    // The lowest of several.
    &[(EFFECTS, 10), (ROWS, 1), (RECORDS, 1), (BARRIERS, 0)],
    &[(RECORDS, 1), (BARRIERS, 4)],
    &[(PIECES, 21), (BARRIERS, 4)],
    &[(DYNAMIC_VALUE, 1), (BARRIERS, 4)],
    // 2 beside a width of no band, which calls for more words too.
    &[(WIDTH, 431), (BARRIERS, 0)],
    &[(WIDTH, 2079), (BARRIERS, 4)],
    &[(WIDTH, 599), (EFFECTS, 12)],
    &[(WIDTH, 2080), (BARRIERS, 0)],
    // 11 beside 3, 4, 5 and 6.
    &[(WIDTH, 371)],
    &[(WIDTH, 431)],
    &[(WIDTH, 2079)],
    &[(PIECES, 2), (BARRIERS, 3)],
    &[(LEFT_ORDINATE, 5001), (BARRIERS, 3)],
    &[(LEFT_ORDINATE, 65541), (BARRIERS, 3)],
    &[(RIGHT_ORDINATE, -8), (BARRIERS, 3)],
    &[(FIRST_EFFECT, i32::MAX), (BARRIERS, 3)],
    &[(FIRST_EFFECT + 1, 2), (BARRIERS, 3)],
    // Edition 1 with a farm job's words.
    &[(EDITION, 1)],
    // The lower of two faults of 6, and 5 before it.
    &[(FIRST_EFFECT + 1, 2), (FIRST_EFFECT + 6, i32::MIN)],
    &[(RIGHT_ORDINATE, -8), (FIRST_EFFECT + 1, 2)],
];

pub(super) fn cases() -> Vec<Case> {
    [
        widths(),
        editions_and_lengths(),
        CHANGES.map(|changes| with(changes, 1)).to_vec(),
        // 9 beside everything.
        CHANGES.map(|changes| with(changes, 0)).to_vec(),
        effect_faults(),
        largest(),
    ]
    .concat()
}

/// One piece, W 300 without barriers, a different value for each effect: 42
/// words.
pub(super) fn short_farm_job() -> Job {
    let value = |number: i64| number * number * if number % 2 == 0 { 1000 } else { -700 };
    Job {
        effects: effects(value),
        ..bare_job(Edition::Four, vec![1])
    }
}

/// The effects of a value for each number from 0.
fn effects(value: impl Fn(i64) -> i64) -> Vec<Effect> {
    farm::effects(std::array::from_fn(|number| value(number as i64)))
}

/// The short farm job's words changed, with a patch buffer of so many bytes.
fn with(changes: &[Change], patch_bytes: usize) -> Case {
    changed_job(&short_farm_job(), changes, patch_bytes)
}

/// Each width with each barriers, and the transverse ordinates it calls for.
fn widths() -> Vec<Case> {
    let mut cases = vec![];
    for width in WIDTHS {
        for barriers in 1..=3 {
            let mut job = short_farm_job();
            job.width = width;
            job.further_header = vec![barriers];
            let ordinates = (width as usize).div_ceil(job.spacing as usize) + 1;
            job.transverse.resize(ordinates, 77);
            cases.push(of_job(&job));
        }
    }
    cases
}

/// Other editions, and the front of the job up to its header and a word more.
fn editions_and_lengths() -> Vec<Case> {
    let editions = OTHER_EDITIONS.map(|edition| with(&[(EDITION, edition)], 1));
    let header = Edition::Four.header_words() * WORD_BYTES;
    let fronts = fronts(&short_farm_job(), header - WORD_BYTES..=header + WORD_BYTES);
    editions.into_iter().chain(fronts).collect()
}

/// Each effect with the other mark, with marks past both, and with values past
/// their limits.
fn effect_faults() -> Vec<Case> {
    let mut cases = vec![];
    for number in 0..farm::EFFECTS.len() {
        let value = FIRST_EFFECT + 2 * number;
        let other = 3 - farm::mark(number) as i32;
        for mark in [other, 0, 3] {
            cases.push(with(&[(value + 1, mark)], 1));
        }
        for past in [1_000_000_001, -1_000_000_001, i32::MIN] {
            cases.push(with(&[(value, past)], 1));
        }
    }
    cases
}

/// The longest line of the longest pieces, every number at an end of its limits:
/// all of one sign, and effects of both.
fn largest() -> Vec<Case> {
    let mut cases = vec![];
    for sign in [1, -1] {
        for changing in [false, true] {
            let turned = |number: i64| if changing && number % 2 == 1 { -1 } else { 1 };
            let mut job = short_farm_job();
            job.pieces = longest_level_line(5000 * sign);
            job.transverse = vec![1000; 7];
            (job.dynamic_kind, job.dynamic_value) = (1, 1300);
            job.effects = effects(|number| 1_000_000_000 * sign * turned(number));
            cases.push(of_job(&job));
        }
    }
    cases
}
