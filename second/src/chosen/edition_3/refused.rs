//! Cases that refuse a job of edition 3, or nearly do: each word of its header, the word
//! count, ordinates of the line and of both transverse sections, the tables and the patch
//! buffer; alone and with other faults beside them.

use super::super::{
    changed_job, fronts, of_job, short_job_of_edition_2, with_short_second_carriageway, with_words,
};
use super::overload_lanes;
use crate::edition::Edition;
use crate::generator::Case;
use crate::job::Job;
use crate::sections::{
    DYNAMIC_KIND, DYNAMIC_VALUE, EDITION, EFFECTS, PIECES, PIECE_LENGTH, RECORDS, ROWS,
    SECOND_WIDTH, SPACING, SPAN_FOR_LEAST, WIDTH,
};
use crate::words::{Change, WORD_BYTES};

/// Places in the short job.
const WORD_11: usize = 11;
const LINE: [usize; 4] = [13, 14, 15, 16];
const TRANSVERSE: [usize; 2] = [17, 23];
const SECOND_TRANSVERSE: [usize; 2] = [24, 31];
const HIGH_HALF: usize = 33;
const MARK: usize = 34;
const ROW: usize = 35;
const RECORD: usize = 43;

/// Words that are no widths.
const NO_WIDTHS: [i32; 9] = [
    299,
    2080,
    0,
    -1,
    -300,
    65_836,
    0x0100_0000,
    i32::MIN,
    i32::MAX,
];

/// Faults of the words before the second width.
const HEADER_FAULTS: [Change; 13] = [
    (PIECE_LENGTH, 3),
    (PIECES, 21),
    (SPACING, 51),
    (WIDTH, 299),
    (DYNAMIC_KIND, 5),
    (DYNAMIC_VALUE, 1),
    (EFFECTS, 17),
    (ROWS, 0),
    (ROWS, 33),
    (RECORDS, 513),
    (RECORDS, -1),
    (SPAN_FOR_LEAST, 1),
    (WORD_11, 1),
];

/// Faults that come after 2, by their refusal: 3 to 8.
const LATER_FAULTS: [&[Change]; 11] = [
    &[(PIECES, 3)],
    &[(LINE[0], 501)],
    &[(TRANSVERSE[0], 1001)],
    &[(SECOND_TRANSVERSE[1], -1001)],
    &[(LINE[1], -8)],
    &[(HIGH_HALF, 23_284)],
    &[(MARK, 0)],
    &[(ROW, 3)],
    &[(RECORD + 1, 3001)],
    &[(RECORD + 2, 1)],
    &[(RECORD + 2, 2)],
];

/// A fault of each word of an effect, a row and a record but those above.
const TABLE_FAULTS: [Change; 10] = [
    (HIGH_HALF, -23_285),
    (MARK, 3),
    (ROW, 0),
    (ROW + 1, 3),
    (ROW + 2, 3001),
    (ROW + 3, 3),
    (ROW + 7, -1),
    (RECORD, 2),
    (RECORD + 1, -1),
    (RECORD + 5, 3),
];

/// Kinds with values that are good for them.
const KINDS: [(i32, i32); 4] = [(1, 1200), (2, 0), (3, 50), (4, 150)];

const WORDS_10: [i32; 7] = [-1, 0, 1, 120, 2000, 2001, i32::MIN];

/// Ordinates past edition 3's limits; those to 5000 are lawful in other editions.
const PAST_500: [i32; 8] = [501, -501, 5000, -5000, 5001, 65_541, i32::MIN, i32::MAX];
const PAST_1000: [i32; 5] = [1001, -1001, 65_541, i32::MIN, i32::MAX];

/// One ordinate of each section, each at fault.
const SECTION_FAULTS: [Change; 3] = [
    (LINE[3], -501),
    (TRANSVERSE[1], -1001),
    (SECOND_TRANSVERSE[0], 1001),
];

pub(super) fn cases() -> Vec<Case> {
    [
        second_widths(),
        header_faults(),
        kinds_and_words_10_and_11(),
        word_counts(),
        ordinates(),
        later_faults(),
        editions_and_lengths(),
        one_carriageway(),
    ]
    .concat()
}

/// The short job of edition 2 with a factor of 1150 and a second carriageway: 49 words.
fn short_job() -> Job {
    let mut job = with_short_second_carriageway(short_job_of_edition_2());
    (job.dynamic_kind, job.dynamic_value) = (1, 1150);
    job
}

/// The short job's words changed, with a patch buffer of so many bytes.
fn with(changes: &[Change], patch_bytes: usize) -> Case {
    changed_job(&short_job(), changes, patch_bytes)
}

fn all_with(changes: impl IntoIterator<Item = Vec<Change>>) -> Vec<Case> {
    let changes = changes.into_iter();
    changes.map(|changes| with(&changes, 2)).collect()
}

/// The short job; its second width at fault; widths at the limits, of as many words as
/// are due and of others.
fn second_widths() -> Vec<Case> {
    let mut cases = vec![of_job(&short_job())];
    cases.extend(all_with(NO_WIDTHS.map(|width| vec![(SECOND_WIDTH, width)])));
    for (width, ordinates) in [(300, 7), (599, 13), (600, 13), (2079, 43)] {
        let mut job = short_job();
        job.further_header[2] = width;
        cases.push(of_job(&job));
        job.second_transverse.resize(ordinates, 25);
        cases.push(of_job(&job));
    }
    cases
}

/// Each word of the header, alone, before the second width, and beside each later fault;
/// so the second width.
fn header_faults() -> Vec<Case> {
    let mut changes: Vec<Vec<Change>> = vec![];
    for fault in HEADER_FAULTS {
        changes.push(vec![fault]);
        changes.push(vec![fault, (SECOND_WIDTH, 299)]);
        changes.push(vec![fault, (SECOND_WIDTH, 2080)]);
    }
    for later in LATER_FAULTS {
        changes.push([later, &[(SECOND_WIDTH, 299)]].concat());
        changes.push([later, &[(SECOND_WIDTH, i32::MAX)]].concat());
        changes.push([later, &[(WIDTH, 2080)]].concat());
    }
    let mut cases = all_with(changes);
    cases.push(with(&[(SECOND_WIDTH, 2080)], 0));
    cases
}

fn kinds_and_words_10_and_11() -> Vec<Case> {
    let mut changes = vec![];
    for (kind, value) in KINDS {
        let kind = [(DYNAMIC_KIND, kind), (DYNAMIC_VALUE, value)];
        for word in WORDS_10 {
            changes.push([&kind[..], &[(SPAN_FOR_LEAST, word)]].concat());
        }
        changes.push([&kind[..], &[(SPAN_FOR_LEAST, 120), (WORD_11, 1)]].concat());
        changes.push([&kind[..], &[(SPAN_FOR_LEAST, 0), (WORD_11, -1)]].concat());
        let two = [(SPAN_FOR_LEAST, -1), (SECOND_WIDTH, 0)];
        changes.push([&kind[..], &two].concat());
    }
    for word in [0, 2001] {
        changes.push(vec![
            (DYNAMIC_KIND, 4),
            (DYNAMIC_VALUE, word),
            (SPAN_FOR_LEAST, 120),
        ]);
    }
    all_with(changes)
}

/// The second section left out, a word short, a word long or as long as the first; the
/// widths exchanged, which calls for as many words; either width, or both, calling for
/// more or fewer.
fn word_counts() -> Vec<Case> {
    let mut cases = vec![];
    for length in [0, 1, 7, 9, 43] {
        let mut job = short_job();
        job.second_transverse.resize(length, 4);
        cases.push(of_job(&job));
    }
    for length in [0, 6, 8] {
        let mut job = short_job();
        job.transverse.resize(length, 4);
        cases.push(of_job(&job));
    }
    for words in [1, 8] {
        let more = |case: Case| with_words(case, |all| all.resize(all.len() + words, 1));
        let fewer = |case: Case| with_words(case, |all| all.truncate(all.len() - words));
        cases.extend([more(of_job(&short_job())), fewer(of_job(&short_job()))]);
    }
    let exchanged = vec![(WIDTH, 350), (SECOND_WIDTH, 300)];
    let changes = [
        exchanged.clone(),
        vec![(WIDTH, 350)],
        vec![(SECOND_WIDTH, 351)],
        vec![(WIDTH, 301)],
        vec![(WIDTH, 400), (SECOND_WIDTH, 300)],
        vec![(SPACING, 49)],
        vec![(SPACING, 10)],
        vec![(EFFECTS, 0)],
        vec![(PIECE_LENGTH, 1), (PIECES, 1000)],
        vec![(SECOND_WIDTH, 400), (LINE[0], 501), (MARK, 0)],
        [exchanged, vec![(SECOND_TRANSVERSE[1], 1001)]].concat(),
    ];
    cases.extend(all_with(changes));
    cases
}

/// Ordinates at and past the limits at each place; faults in two sections and in all;
/// beside a piece of two signs and beside later faults.
fn ordinates() -> Vec<Case> {
    let mut changes = vec![];
    for place in LINE {
        changes.extend(PAST_500.map(|word| vec![(place, word)]));
    }
    for side in [1, -1] {
        changes.push(vec![(LINE[0], 500 * side), (LINE[1], 500 * side)]);
        changes.push(vec![(LINE[2], 0), (LINE[3], 500 * side)]);
    }
    for place in [TRANSVERSE, SECOND_TRANSVERSE].concat() {
        changes.extend(PAST_1000.map(|word| vec![(place, word)]));
        changes.extend([1000, -1000].map(|word| vec![(place, word)]));
    }
    let [line, first, second] = SECTION_FAULTS;
    changes.extend([
        vec![line, first],
        vec![line, second],
        vec![first, second],
        vec![line, first, second],
    ]);
    for fault in SECTION_FAULTS {
        // A piece of two signs before it and after it; the tables.
        for other in [(LINE[1], -8), (LINE[2], 6), (MARK, 3), (RECORD + 2, 1)] {
            changes.push(vec![fault, other]);
        }
    }
    all_with(changes)
}

/// Each fault that comes after 2 alone, beside a fault of the tables and without a patch
/// buffer; a patch buffer too short, one long enough and one longer.
fn later_faults() -> Vec<Case> {
    let mut cases = vec![];
    for faults in LATER_FAULTS {
        cases.push(with(faults, 0));
        if !faults.contains(&(ROW, 3)) {
            cases.push(with(&[faults, &[(ROW, 3)]].concat(), 2));
        }
    }
    let of_chains = [(RECORD + 2, 1), (RECORD + 2, 2)];
    for fault in TABLE_FAULTS.into_iter().chain(of_chains) {
        cases.push(with(&[fault], 2));
    }
    let crossings = [(LINE[1], -8), (LINE[3], 6)];
    cases.extend(crossings.map(|fault| with(&[fault], 2)));
    cases.extend([0, 1, 3, 1000].map(|bytes| with(&[], bytes)));
    cases
}

/// Too few bytes for its header and for the whole, and other words 0; as another edition
/// it has other words too many or too few.
fn editions_and_lengths() -> Vec<Case> {
    let header = Edition::Three.header_words() * WORD_BYTES;
    let mut cases: Vec<Case> = fronts(&short_job(), 0..=4).collect();
    cases.extend(fronts(&short_job(), 40..=header + 4));
    cases.extend(fronts(&short_job(), 193..=195));
    for edition in [0, 1, 2, 4, 5, -3, 259, 0x0300_0000] {
        cases.push(with(&[(EDITION, edition)], 2));
        cases.push(with(&[(EDITION, edition), (SECOND_WIDTH, 299)], 2));
    }
    cases
}

/// Ordinates past the limits of a job with one carriageway.
fn one_carriageway() -> Vec<Case> {
    let mut cases = vec![];
    for edition in [Edition::One, Edition::Two] {
        let job = overload_lanes::lanes_job(edition, &[310]);
        let first = edition.header_words();
        for word in [5001, -5001] {
            cases.push(changed_job(&job, &[(first, word)], 2));
            cases.push(changed_job(&job, &[(first + 3, word)], 2));
        }
    }
    cases
}
