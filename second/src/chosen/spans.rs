//! Cases with spans by sign chosen by hand: a short job with the spans that the
//! factor turns at, for each question; traffic formed in every way; the kind and the
//! spans at fault, alone and with other faults beside them; kind 4 in other editions.

use super::edition_2::sixteen_in_a_row;
use super::farm::short_farm_job;
use super::{
    bare_job, changed_job, fronts, level_piece, longest_level_line, of_job, short_job_of_edition_2,
};
use crate::edition::Edition;
use crate::generator::spans::{TURNS, WHOLE};
use crate::generator::Case;
use crate::job::{Effect, Job, Row, ALWAYS_PRESENT, LIVE_NORMAL, SERVICE};
use crate::sections::{
    DYNAMIC_KIND, DYNAMIC_VALUE, EDITION, EFFECTS, PIECES, PIECE_LENGTH, RECORDS, ROWS,
    SPAN_FOR_LEAST,
};
use crate::words::{Change, WORD_BYTES};

/// Places in the short job.
const WORD_11: usize = 11;
const FIRST_ORDINATE: usize = 12;
const TRANSVERSE: usize = 16;
const MARK: usize = 25;
const RECORD: usize = 34;

/// Spans further along: a few steps on from where the curve turns, such as would be
/// near there in metres, and in between.
const FURTHER: [i64; 9] = [2, 12, 13, 118, 123, 124, 129, 1000, 1999];

/// The span for the other question beside these, and beside WHOLE.
const OTHER: i64 = 700;

/// Pairs whose factors differ either way, by much and by one thousandth.
const UNEQUAL: [(i64, i64); 4] = [(122, 2000), (2000, 122), (121, 122), (122, 121)];

/// Words that are no spans.
const NO_SPANS: [i32; 8] = [0, -1, 2001, -120, 65_656, 0x0100_0000, i32::MIN, i32::MAX];

/// Kinds with values that are good for them, where they are kinds.
const KINDS: [(i32, i32); 11] = [
    (1, 1200),
    (2, 0),
    (3, 50),
    (4, 150),
    (0, 150),
    (5, 150),
    (-1, 150),
    (260, 150),
    (0x0400_0000, 150),
    (i32::MIN, 150),
    (i32::MAX, 150),
];

const WORDS_10: [i32; 11] = [-1, 0, 1, 119, 120, 121, 122, 2000, 2001, i32::MIN, i32::MAX];

/// What is put at word 6 of editions that have no kind 4.
const VALUES_ELSEWHERE: [i32; 10] = [0, 1, 120, 121, 1000, 1300, 2000, 2001, i32::MIN, i32::MAX];

/// Words 0 that are not the short job's; 1, 3 and 4 are other editions'.
const OTHER_EDITIONS: [i32; 6] = [0, 1, 3, 4, 5, 258];

/// No fault of the short job, and those that come after 2.
const LATER_FAULTS: [&[Change]; 8] = [
    &[],
    &[(PIECES, 3)],
    &[(FIRST_ORDINATE, 5001)],
    &[(TRANSVERSE, -1001)],
    &[(FIRST_ORDINATE, -8)],
    &[(MARK, 0)],
    &[(RECORD + 2, 1)],
    &[(RECORD + 2, 2)],
];

pub(super) fn cases() -> Vec<Case> {
    [
        factors(),
        forms(),
        largest(),
        kinds_and_words_10(),
        spans_at_fault(),
        beside_header_faults(),
        beside_later_faults(),
        editions_and_lengths(),
        elsewhere(),
    ]
    .concat()
}

/// The short job of edition 2 with these spans: 40 words.
fn short_job(greatest: i64, least: i64) -> Job {
    short_job_of_edition_2().with_spans(greatest, least)
}

/// The short job's words changed, with a patch buffer of so many bytes.
fn with(changes: &[Change], patch_bytes: usize) -> Case {
    changed_job(&short_job(150, 900), changes, patch_bytes)
}

/// Every pair of turns; each further span, each at which the curve is whole and those
/// next to it, for each question.
fn factors() -> Vec<Case> {
    let pairs = TURNS.map(|greatest| TURNS.map(|least| (greatest, least)));
    let around = WHOLE.map(|span| [span - 1, span, span + 1]);
    let further = FURTHER.iter().chain(around.as_flattened());
    let further = further.flat_map(|&span| [(span, OTHER), (OTHER, span)]);
    let all = pairs.as_flattened().iter().copied().chain(further);
    all.map(|(greatest, least)| of_job(&short_job(greatest, least)))
        .collect()
}

/// Traffic of raising elements alone, of lowering ones alone and of both side by
/// side, so that the factor's question is neither the direction's nor the line's
/// sign: lines above 0, below 0 and of both signs, under ordinates of either sign on
/// one lane, and of both signs across two lanes and five.
fn forms() -> Vec<Case> {
    const LINES: [&[i64]; 3] = [&[8], &[-8], &[8, -6]];
    let mut cases = vec![];
    for (greatest, least) in UNEQUAL {
        let job = short_job(greatest, least);
        for line in LINES {
            for ordinate in [501, -501] {
                let mut job = job.clone();
                job.pieces = line.iter().map(|&ordinate| level_piece(ordinate)).collect();
                job.transverse = vec![ordinate; 7];
                cases.push(of_job(&job));
            }
        }
        for (width, ordinates, fall) in [(600, 13, 150), (2079, 43, 45)] {
            let mut job = job.clone();
            job.width = width;
            job.transverse = (0..ordinates).map(|at| 901 - fall * at).collect();
            cases.push(of_job(&job));
        }
    }
    cases
}

/// The largest rows and the largest traffic: with the greatest factor for both
/// questions, for one and for none.
fn largest() -> Vec<Case> {
    let mut cases = vec![];
    for (greatest, least) in [(120, 120), (121, 2000), (2000, 121), (2000, 2000)] {
        for side in [1, -1] {
            let mut job = sixteen_in_a_row().with_spans(greatest, least);
            let value = side * Edition::Two.most_effect();
            job.effects = vec![Effect::new(value, ALWAYS_PRESENT); 16];
            job.pieces = longest_level_line(5000 * side);
            cases.push(of_job(&job));
        }
    }
    cases
}

/// Every pair of kind and word 10.
fn kinds_and_words_10() -> Vec<Case> {
    let mut cases = vec![];
    for (kind, value) in KINDS {
        for word in WORDS_10 {
            let kind = [(DYNAMIC_KIND, kind), (DYNAMIC_VALUE, value)];
            cases.push(with(&[kind[0], kind[1], (SPAN_FOR_LEAST, word)], 2));
        }
    }
    cases
}

/// One span that is none, or both; and another kind beside the spans.
fn spans_at_fault() -> Vec<Case> {
    let mut cases = vec![];
    for word in NO_SPANS {
        cases.push(with(&[(DYNAMIC_VALUE, word)], 2));
        for other in [0, 2001, i32::MIN] {
            cases.push(with(&[(DYNAMIC_VALUE, word), (SPAN_FOR_LEAST, other)], 2));
        }
        cases.push(with(&[(DYNAMIC_KIND, 0), (DYNAMIC_VALUE, word)], 2));
    }
    for word in [-120, 65_656, 0x0100_0000] {
        cases.push(with(&[(SPAN_FOR_LEAST, word)], 2));
    }
    for kind in 1..=3 {
        cases.push(with(&[(DYNAMIC_KIND, kind)], 2));
        cases.push(with(&[(DYNAMIC_KIND, kind), (DYNAMIC_VALUE, -1)], 2));
        cases.push(with(&[(DYNAMIC_KIND, kind), (SPAN_FOR_LEAST, 0)], 2));
    }
    cases
}

/// Each other word of the header but the kind at fault, alone, beside each span and
/// beside word 11; and word 11 alone and after the kind.
fn beside_header_faults() -> Vec<Case> {
    let mut cases = vec![];
    for place in (PIECE_LENGTH..DYNAMIC_KIND).chain([EFFECTS, ROWS, RECORDS, WORD_11]) {
        for word in [0, 2001] {
            let (greatest, least) = ((DYNAMIC_VALUE, word), (SPAN_FOR_LEAST, word));
            cases.push(with(&[(place, -1), greatest], 2));
            cases.push(with(&[(place, -1), least], 2));
        }
        cases.push(with(&[(place, -1)], 2));
        if place != WORD_11 {
            cases.push(with(&[(place, -1), (WORD_11, 1)], 2));
        }
    }
    cases.push(with(&[(WORD_11, 1)], 2));
    cases.push(with(&[(DYNAMIC_KIND, 5), (WORD_11, 1)], 2));
    cases
}

/// The kind or a span at fault beside each later fault, with a patch buffer and
/// without; and each later fault with sound spans.
fn beside_later_faults() -> Vec<Case> {
    const FAULTS: [Change; 3] = [
        (DYNAMIC_KIND, 5),
        (DYNAMIC_VALUE, 2002),
        (SPAN_FOR_LEAST, 2002),
    ];
    let mut cases = vec![];
    for later in LATER_FAULTS {
        for fault in FAULTS {
            for patch_bytes in [2, 0] {
                let faults = [&[fault], later].concat();
                cases.push(with(&faults, patch_bytes));
            }
        }
        let sound = [(DYNAMIC_VALUE, 2000), (SPAN_FOR_LEAST, 1)];
        cases.push(with(&[&sound, later].concat(), 0));
    }
    cases
}

/// Other editions, and the front of the job about its header: with sound spans, and
/// with none for least.
fn editions_and_lengths() -> Vec<Case> {
    let header = Edition::Two.header_words() * WORD_BYTES;
    let lengths = header - WORD_BYTES..=header + WORD_BYTES;
    let mut cases: Vec<Case> = OTHER_EDITIONS
        .iter()
        .map(|&edition| with(&[(EDITION, edition)], 2))
        .collect();
    for least in [900, 0] {
        cases.extend(fronts(&short_job(150, least), lengths.clone()));
    }
    cases
}

/// Kind 4 in jobs of editions 1 and 4 that are sound but for it, alone and beside each
/// word before it.
fn elsewhere() -> Vec<Case> {
    let edition_1 = Job {
        rows: vec![Row::new(SERVICE, LIVE_NORMAL, 1350, 0)],
        ..bare_job(Edition::One, vec![])
    };
    let mut cases = vec![];
    for job in [edition_1, short_farm_job()] {
        for value in VALUES_ELSEWHERE {
            let kind = [(DYNAMIC_KIND, 4), (DYNAMIC_VALUE, value)];
            cases.push(changed_job(&job, &kind, 1));
        }
        for place in PIECE_LENGTH..DYNAMIC_KIND {
            let changes = [(place, -1), (DYNAMIC_KIND, 4), (DYNAMIC_VALUE, 120)];
            cases.push(changed_job(&job, &changes, 1));
        }
    }
    cases
}
