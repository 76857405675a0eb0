//! Cases of edition 2 chosen by hand: a short job at each limit of its own and
//! past it, alone and with other faults beside it; the largest rows and the most
//! words.

use super::{bare_job, chains_of, changed_job, fronts, longest_level_line, most_across, of_job};
use crate::edition::Edition;
use crate::generator::Case;
use crate::job::{
    Effect, Job, Piece, Record, Row, ALWAYS_PRESENT, LIVE_NONE, LIVE_NORMAL, LIVE_OVERLOAD,
    MAY_BE_LEFT_OUT, SERVICE, ULTIMATE,
};
use crate::sections::{DYNAMIC_VALUE, EDITION, EFFECTS, PIECES, PIECE_LENGTH, RECORDS, ROWS};
use crate::words::{halves, Change, WORD_BYTES};

/// Places in the short job.
const WORD_10: usize = 10;
const WORD_11: usize = 11;
const LEFT_ORDINATE: usize = 12;
const RIGHT_ORDINATE: usize = 13;
const TRANSVERSE: usize = 14;
const EFFECT: usize = 21;
const MARK: usize = EFFECT + 2;
const SECOND_EFFECT: usize = EFFECT + 3;
const SECOND_MARK: usize = SECOND_EFFECT + 2;
const ROW: usize = 27;
const RECORD: usize = 35;

const MOST: i64 = 100_000_000_000_000;

/// Lawful values: around 0, around the ends of a signed and of an unsigned word,
/// at the limits and next to them, and low halves with the top bit set.
const VALUES: [i64; 28] = [
    0,
    1,
    -1,
    (1 << 31) - 1,
    1 << 31,
    (1 << 31) + 1,
    -(1 << 31) + 1,
    -(1 << 31),
    -(1 << 31) - 1,
    (1 << 32) - 1,
    1 << 32,
    (1 << 32) + 1,
    -(1 << 32) + 1,
    -(1 << 32),
    -(1 << 32) - 1,
    3 << 31,
    -(3 << 31),
    (7 << 32) - 1,
    -(7 << 32) + 1,
    23283 << 32,
    -(23283 << 32),
    (23283 << 32) - 1,
    -(23283 << 32) - 1,
    MOST - 1,
    MOST,
    -MOST + 1,
    -MOST,
    1_000_000_001,
];

/// Values outside, with low halves that are lawful values by themselves or not.
const PAST: [i64; 14] = [
    MOST + 1,
    -MOST - 1,
    (23284 << 32) - 1,
    23284 << 32,
    (23284 << 32) + 5,
    (23285 << 32) - 1,
    -(23284 << 32),
    -(23284 << 32) - 1,
    -(23285 << 32),
    -(23285 << 32) + 5,
    i64::MAX,
    i64::MIN,
    i64::MAX - (1 << 32) + 1,
    i64::MIN + (1 << 32) - 1,
];

/// Words 0 that are not the short job's; 1, 3 and 4 are other editions'.
const OTHER_EDITIONS: [i32; 9] = [0, 1, 3, 4, 5, -2, 258, 0x0200_0000, i32::MIN];

/// Changes of the short job's words.
const CHANGES: [&[Change]; 43] = [
    // Words 10 and 11, with what other editions may have there.
    &[(WORD_10, 1)],
    &[(WORD_10, -1)],
    &[(WORD_10, 3)],
    &[(WORD_10, 1000)],
    &[(WORD_10, 0x0100_0000)],
    &[(WORD_10, i32::MIN)],
    &[(WORD_10, i32::MAX)],
    &[(WORD_11, 1)],
    &[(WORD_11, -1)],
    &[(WORD_11, 0x0100_0000)],
    &[(WORD_11, i32::MIN)],
    &[(WORD_11, i32::MAX)],
    // The lowest of several.
    &[(WORD_10, 1), (WORD_11, 1)],
    &[(RECORDS, 513), (WORD_10, 1)],
    &[(ROWS, 0), (WORD_11, 1)],
    &[(EFFECTS, 17), (WORD_10, -1), (WORD_11, -1)],
    &[(DYNAMIC_VALUE, 1), (WORD_10, 1)],
    &[(PIECES, 21), (WORD_11, 1)],
    // Edition 1's limits of the counts.
    &[(EFFECTS, -1)],
    &[(EFFECTS, 17)],
    &[(ROWS, 33)],
    &[(RECORDS, -1)],
    &[(RECORDS, 513)],
    // 2 beside 3, 4, 5 and 6.
    &[(PIECES, 2), (WORD_10, 1)],
    &[(LEFT_ORDINATE, 5001), (WORD_11, 1)],
    &[(RIGHT_ORDINATE, -8), (WORD_11, 1)],
    &[(MARK, 0), (WORD_10, 1)],
    // 3: an effect more or fewer moves the count by three, beside a row by four.
    &[(EFFECTS, 3)],
    &[(EFFECTS, 1)],
    &[(EFFECTS, 0)],
    &[(EFFECTS, 16)],
    &[(EFFECTS, 1), (ROWS, 3)],
    // 4 and 5 before 6.
    &[(TRANSVERSE, 1001), (MARK, 3)],
    &[(RIGHT_ORDINATE, -8), (EFFECT + 1, i32::MAX)],
    // 6 at the lower of two places.
    &[(EFFECT + 1, 23284), (MARK, 3)],
    &[(MARK, 3), (SECOND_EFFECT + 1, -23285)],
    &[(SECOND_EFFECT + 1, i32::MIN), (ROW, 3)],
    &[(SECOND_MARK, 0), (ROW, 0)],
    &[(ROW, 3), (RECORD, 0)],
    // 6 before 7 and 8, and each of these.
    &[(SECOND_EFFECT + 1, 23284), (RECORD + 2, 1)],
    &[(RECORD + 2, 1)],
    &[(RECORD + 3, 1)],
    &[(RECORD + 3, 1), (RECORD + 5, 1)],
];

pub(super) fn cases() -> Vec<Case> {
    [
        values(),
        effect_faults(),
        header_faults(),
        table_faults(),
        editions_and_lengths(),
        CHANGES.map(|changes| with(changes, 1)).to_vec(),
        // 9 beside everything.
        CHANGES.map(|changes| with(changes, 0)).to_vec(),
        largest_rows(),
        distant_and_close_rows(),
        most_words(),
    ]
    .concat()
}

/// One piece, W 300, two effects that both of two rows count: 41 words.
fn short_job() -> Job {
    Job {
        effects: vec![
            Effect::new(5_000_000_000, ALWAYS_PRESENT),
            Effect::new(-7_000_000_000, MAY_BE_LEFT_OUT),
        ],
        rows: vec![
            Row::new(SERVICE, LIVE_NORMAL, 1350, 1),
            Row::new(ULTIMATE, LIVE_OVERLOAD, 1500, 1),
        ],
        records: vec![Record::new(1, 1000, 2), Record::new(2, 1200, 0)],
        ..bare_job(Edition::Two, vec![0, 0])
    }
}

/// The short job's words changed, with a patch buffer of so many bytes.
fn with(changes: &[Change], patch_bytes: usize) -> Case {
    changed_job(&short_job(), changes, patch_bytes)
}

/// Each value as the effect that is always present and as the other.
fn values() -> Vec<Case> {
    let with_value = |(at, value): (usize, i64)| {
        let mut job = short_job();
        job.effects[at].value = value;
        of_job(&job)
    };
    let each = |at: usize| VALUES.map(|value| (at, value));
    [each(0), each(1)]
        .concat()
        .into_iter()
        .map(with_value)
        .collect()
}

/// Values outside and marks that are none, of either effect, alone and together.
fn effect_faults() -> Vec<Case> {
    let mut cases = vec![];
    for at in [EFFECT, SECOND_EFFECT] {
        for value in PAST {
            let [low, high] = halves(value);
            cases.push(with(&[(at, low), (at + 1, high)], 1));
        }
        // The low half is named with the high one of an accepted value, too.
        for low in [276_447_233, -1, i32::MIN] {
            cases.push(with(&[(at, low), (at + 1, 23283), (at + 2, 0)], 1));
        }
        for mark in [0, 3, -1, 258, i32::MIN, i32::MAX] {
            cases.push(with(&[(at + 2, mark)], 1));
        }
    }
    cases
}

/// Each word of the header beside words 10 and 11.
fn header_faults() -> Vec<Case> {
    let places = PIECE_LENGTH..=RECORDS;
    let beside = |further: usize| {
        let fault = move |place: usize| with(&[(place, -1), (further, 1)], 1);
        places.clone().map(fault)
    };
    beside(WORD_10).chain(beside(WORD_11)).collect()
}

/// Each word of a row and of a record, alone and beside a value past a limit,
/// with its mark and without.
fn table_faults() -> Vec<Case> {
    let mut cases = vec![];
    for place in (ROW..ROW + 4).chain(RECORD..RECORD + 3) {
        let fault = (place, -1);
        cases.push(with(&[fault], 1));
        for high in [23284, -23285] {
            let past = (SECOND_EFFECT + 1, high);
            cases.push(with(&[past, fault], 1));
            cases.push(with(&[past, (SECOND_MARK, 0), fault], 1));
        }
    }
    cases
}

/// Other editions, and the front of the job from ten words to its header and a
/// word more.
fn editions_and_lengths() -> Vec<Case> {
    let editions = OTHER_EDITIONS.map(|edition| with(&[(EDITION, edition)], 1));
    let header = Edition::Two.header_words() * WORD_BYTES;
    let lengths = Edition::One.header_words() * WORD_BYTES..=header + WORD_BYTES;
    let fronts = fronts(&short_job(), lengths);
    editions.into_iter().chain(fronts).collect()
}

/// Rows of all sixteen effects at a limit and at the largest factor, with the
/// largest traffic there is: of one sign, of half and half, and changing from
/// effect to effect; always present or not.
fn largest_rows() -> Vec<Case> {
    const SIGNS: [fn(usize) -> i64; 3] = [
        |_| 1,
        |at| if at < 8 { 1 } else { -1 },
        |at| if at % 2 == 0 { 1 } else { -1 },
    ];
    let mut cases = vec![];
    for side in [1, -1] {
        for sign in SIGNS {
            for mark in [ALWAYS_PRESENT, MAY_BE_LEFT_OUT] {
                let mut job = sixteen_in_a_row();
                let value = |at| Effect::new(MOST * side * sign(at), mark);
                job.effects = (0..16).map(value).collect();
                job.pieces = longest_level_line(5000 * side);
                cases.push(of_job(&job));
            }
        }
    }
    cases
}

/// Five lanes, all sixteen effects on one chain, and rows of every live kind.
pub(super) fn sixteen_in_a_row() -> Job {
    let mut job = short_job();
    (job.width, job.transverse) = (2079, vec![1000; 43]);
    (job.dynamic_kind, job.dynamic_value) = (1, 1300);
    job.rows = vec![
        Row::new(SERVICE, LIVE_NORMAL, 3000, 1),
        Row::new(ULTIMATE, LIVE_NONE, 0, 1),
        Row::new(ULTIMATE, LIVE_OVERLOAD, 3000, 1),
    ];
    let next = |number| if number < 16 { number + 1 } else { 0 };
    job.records = (1..=16)
        .map(|number| Record::new(number, 3000, next(number)))
        .collect();
    job
}

/// Rows of opposite signs, as far apart as two without traffic can be, in either
/// order; and rows that differ by a thousandth of N·U either way.
fn distant_and_close_rows() -> Vec<Case> {
    let mut opposite = sixteen_in_a_row();
    opposite.effects = vec![Effect::new(MOST, ALWAYS_PRESENT); 16];
    opposite.effects[8..].fill(Effect::new(-MOST, ALWAYS_PRESENT));
    for number in [8, 16] {
        opposite.records[number - 1].next = 0;
    }
    opposite.rows = vec![
        Row::new(SERVICE, LIVE_NONE, 0, 1),
        Row::new(SERVICE, LIVE_NONE, 0, 9),
    ];
    let mut turned = opposite.clone();
    turned.rows.reverse();

    let mut close = sixteen_in_a_row();
    close.effects = vec![Effect::new(MOST, ALWAYS_PRESENT); 16];
    close.effects[15].value = 1;
    close.records[14].next = 0;
    close.records[15] = Record::new(16, 1, 1);
    close.rows = vec![
        Row::new(ULTIMATE, LIVE_NONE, 0, 1),
        Row::new(ULTIMATE, LIVE_NONE, 0, 16),
    ];
    let mut closer = close.clone();
    closer.effects[15].value = -1;
    [opposite, turned, close, closer]
        .iter()
        .map(of_job)
        .collect()
}

/// Every section as long as it may be, 3933 words, and a word more.
fn most_words() -> Vec<Case> {
    let mut job = short_job();
    (job.piece_length, job.spacing, job.width) = (1, 10, 2079);
    job.pieces = vec![Piece { left: 3, right: 4 }; 1000];
    job.transverse = most_across(71);
    let value = |at: i64| Effect::new((at - 8) * 11_111_111_111_111, MAY_BE_LEFT_OUT);
    job.effects = (0..16).map(value).collect();
    let state = |at: usize| [SERVICE, ULTIMATE][at % 2];
    job.rows = (0..32)
        .map(|at| Row::new(state(at), LIVE_NORMAL, 1500 - at as i64, 16 * at + 1))
        .collect();
    job.records = chains_of(16);
    let most = of_job(&job);
    let mut more = most.clone();
    more.job.extend([0; WORD_BYTES]);
    vec![most, more]
}
