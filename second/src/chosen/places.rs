//! Cases refused at kinds of places where no other stored case of their edition is: a
//! short job of each edition, each time with one fault. tests/stored_reach.rs lists the
//! kinds.

use super::farm::short_farm_job;
use super::{
    bare_job, changed_job, fronts, level_piece, of_job, with_short_second_carriageway, with_words,
};
use crate::edition::Edition;
use crate::generator::Case;
use crate::job::{
    Effect, Job, Record, Row, ALWAYS_PRESENT, LIVE_NONE, LIVE_NORMAL, LIVE_OVERLOAD,
    MAY_BE_LEFT_OUT, SERVICE, ULTIMATE,
};
use crate::sections::{
    Sections, DYNAMIC_KIND, DYNAMIC_VALUE, EDITION, PIECES, PIECE_LENGTH, SPACING, WIDTH,
};
use crate::words::{halves, Change, WORD_BYTES};

/// -65531 is 5 in its low sixteen bits.
const FIVE_IN_16_BITS: i32 = -65_531;

/// Ordinates past 5000, by their places in the line.
const IN_LINE: [Change; 6] = [
    (1, -5001),
    (1, 5001),
    (2, 5001),
    (3, -5001),
    (4, 5001),
    (4, FIVE_IN_16_BITS),
];

/// Dynamic values next to the limits of their kind.
const BELOW_KIND_1: &[Change] = &[(DYNAMIC_KIND, 1), (DYNAMIC_VALUE, 999)];
const ABOVE_KIND_1: &[Change] = &[(DYNAMIC_KIND, 1), (DYNAMIC_VALUE, 1301)];
const BELOW_KIND_2: &[Change] = &[(DYNAMIC_VALUE, -1)];
const ABOVE_KIND_2: &[Change] = &[(DYNAMIC_VALUE, 1)];
const BELOW_KIND_3: &[Change] = &[(DYNAMIC_KIND, 3), (DYNAMIC_VALUE, -1)];
const ABOVE_KIND_3: &[Change] = &[(DYNAMIC_KIND, 3), (DYNAMIC_VALUE, 5001)];

/// Those of an edition.
pub fn cases(edition: Edition) -> Vec<Case> {
    let job = short_job(edition);
    let sections = Sections::called_for_by(&job.words());
    let faults = match edition {
        Edition::One => of_edition_1(&sections),
        Edition::Two => of_edition_2(&sections),
        Edition::Three => of_edition_3(&sections),
        Edition::Four => of_edition_4(&sections),
    };
    let faults = faults.iter();
    let mut cases: Vec<Case> = faults.map(|fault| changed_job(&job, fault, 3)).collect();
    cases.extend(of_other_lengths(&job));
    cases
}

/// Three pieces, W 300 and, with two carriageways, 350. But for a farm job three effects
/// and three rows of every live kind; the second row's chain has the third row's for its
/// tail, and the last record is on none.
pub fn short_job(edition: Edition) -> Job {
    let pieces = vec![level_piece(8), level_piece(-6), level_piece(7)];
    let tables = |edition, further_header| Job {
        pieces: pieces.clone(),
        effects: vec![
            Effect::new(5_000_000, ALWAYS_PRESENT),
            Effect::new(-7_000_000, MAY_BE_LEFT_OUT),
            Effect::new(3_000_000, MAY_BE_LEFT_OUT),
        ],
        rows: vec![
            Row::new(SERVICE, LIVE_NORMAL, 1350, 1),
            Row::new(ULTIMATE, LIVE_OVERLOAD, 1500, 2),
            Row::new(ULTIMATE, LIVE_NONE, 0, 3),
        ],
        records: vec![
            Record::new(1, 1000, 0),
            Record::new(2, 1200, 3),
            Record::new(1, 1100, 4),
            Record::new(3, 900, 0),
            Record::new(2, 800, 0),
        ],
        ..bare_job(edition, further_header)
    };
    match edition {
        Edition::One => tables(edition, vec![]),
        Edition::Two => tables(edition, vec![0; 2]),
        Edition::Three => with_short_second_carriageway(tables(Edition::Two, vec![0; 2])),
        Edition::Four => Job {
            pieces,
            ..short_farm_job()
        },
    }
}

/// Faults of a section that starts here, by their places within it.
fn at(start: usize, faults: &[Change]) -> Vec<Vec<Change>> {
    let fault = |&(within, word): &Change| vec![(start + within, word)];
    faults.iter().map(fault).collect()
}

/// Faults of the header, each with the words that it rests on.
fn in_header(faults: &[&[Change]]) -> Vec<Vec<Change>> {
    faults.iter().map(|fault| fault.to_vec()).collect()
}

fn of_edition_1(sections: &Sections) -> Vec<Vec<Change>> {
    [
        in_header(&[&[(EDITION, 257)]]),
        at(
            sections.line.start,
            &[(1, -5001), (1, 5001), (4, -5001), (4, 5001)],
        ),
        at(sections.rows.start, &[(3, 6), (6, -1), (6, 3001)]),
        // The tail's last record leads to itself.
        at(sections.records.start, &[(11, 4)]),
    ]
    .concat()
}

fn of_edition_2(sections: &Sections) -> Vec<Vec<Change>> {
    [
        in_header(&[
            &[(PIECE_LENGTH, 0)],
            &[(PIECE_LENGTH, 51)],
            &[(PIECES, 0)],
            &[(PIECES, 1001)],
            &[(WIDTH, 299)],
            &[(WIDTH, 2080)],
            BELOW_KIND_1,
            ABOVE_KIND_3,
        ]),
        at(sections.line.start, &IN_LINE),
        at(sections.transverse.start, &[(6, -1001), (6, 1001)]),
        live_factors(sections),
        at(sections.rows.start, &[(2, 3001), (3, 6)]),
        at(sections.records.start, &[(0, 4), (1, 3001)]),
        chains(sections),
        vec![same_effect_before_the_tail(sections)],
    ]
    .concat()
}

fn of_edition_3(sections: &Sections) -> Vec<Vec<Change>> {
    let value = |value: i64| {
        let [low, high] = halves(value);
        vec![
            (sections.effects.start, low),
            (sections.effects.start + 1, high),
        ]
    };
    let most = Edition::Three.most_effect();
    [
        in_header(&[
            &[(PIECE_LENGTH, 51)],
            &[(PIECES, 0)],
            &[(SPACING, 9)],
            &[(DYNAMIC_KIND, 0)],
            BELOW_KIND_1,
            ABOVE_KIND_1,
            BELOW_KIND_2,
            ABOVE_KIND_2,
            BELOW_KIND_3,
            ABOVE_KIND_3,
        ]),
        at(sections.line.start, &[(2, 501), (3, -501), (0, -8)]),
        vec![value(-most - 1), value(most + 1)],
        live_factors(sections),
        at(sections.rows.start, &[(2, -1), (5, -1)]),
        // The last is of the record that is on no chain.
        at(sections.records.start, &[(3, 0), (14, -1)]),
        chains(sections),
    ]
    .concat()
}

fn of_edition_4(sections: &Sections) -> Vec<Vec<Change>> {
    [
        in_header(&[
            &[(PIECE_LENGTH, 51)],
            &[(PIECES, 0)],
            &[(PIECES, 1001)],
            BELOW_KIND_1,
            ABOVE_KIND_1,
            BELOW_KIND_2,
            BELOW_KIND_3,
            ABOVE_KIND_3,
        ]),
        at(sections.line.start, &IN_LINE),
        at(
            sections.transverse.start,
            &[(0, -1001), (3, FIVE_IN_16_BITS), (6, 1001)],
        ),
        // Pieces that fall through 0.
        at(sections.line.start, &[(1, -8), (5, -7)]),
    ]
    .concat()
}

/// Those of the row with overload and of the row without traffic.
fn live_factors(sections: &Sections) -> Vec<Vec<Change>> {
    at(
        sections.rows.start,
        &[(6, -1), (6, 3001), (10, -1), (10, 1)],
    )
}

/// The second row's chain comes back to its second record; so it does after a first row
/// that names an effect twice; it names an effect in its first record and in its last.
fn chains(sections: &Sections) -> Vec<Vec<Change>> {
    let records = sections.records.start;
    let comes_back = (records + 11, 3);
    vec![
        vec![comes_back],
        vec![comes_back, (records + 2, 5), (records + 12, 1)],
        vec![(records + 9, 2)],
    ]
}

/// The third row starts with the last record, which names the tail's effect and goes on
/// with the tail.
fn same_effect_before_the_tail(sections: &Sections) -> Vec<Change> {
    let records = sections.records.start;
    vec![
        (sections.rows.start + 11, 5),
        (records + 12, 3),
        (records + 14, 4),
    ]
}

/// Tables left out, and bytes of the job or of the patch buffer too few or too many.
fn of_other_lengths(job: &Job) -> Vec<Case> {
    match job.edition {
        Edition::One => vec![without_effects(job)],
        Edition::Two => vec![a_byte_over(job), without_effects(job), without_records(job)],
        Edition::Three => vec![without_effects(job), without_records(job)],
        Edition::Four => {
            let a_word_more = with_words(of_job(job), |words| words.push(0));
            let others = [a_word_more, changed_job(job, &[], 0)];
            fronts(job, WORD_BYTES..=WORD_BYTES).chain(others).collect()
        }
    }
}

/// The records name effects all the same.
fn without_effects(job: &Job) -> Case {
    of_job(&Job {
        effects: vec![],
        ..job.clone()
    })
}

/// The rows name records all the same.
fn without_records(job: &Job) -> Case {
    of_job(&Job {
        records: vec![],
        ..job.clone()
    })
}

fn a_byte_over(job: &Job) -> Case {
    let mut case = of_job(job);
    case.job.push(0);
    case
}
