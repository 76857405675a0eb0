//! Cases chosen by hand for what the generated ones do not reach. To add one,
//! write its builder, with the reason above it, and put it at the end of
//! BUILDERS; or, where words of Job A changed will do, put them into PAST_LIMITS.
//! Those of edition 4 are in chosen/farm.rs, those of edition 2 in
//! chosen/edition_2.rs, those with spans by sign in chosen/spans.rs, those of edition 3
//! in chosen/edition_3.rs. Those of additional overload lanes, in
//! chosen/overload_lanes.rs, and those of the records walked, in chosen/records_walked.rs,
//! go with no one stream. Those of chosen/places.rs, refused at places where no other is,
//! end each edition's.

mod edition_2;
pub mod edition_3;
mod farm;
pub mod overload_lanes;
pub mod places;
pub mod records_walked;
mod spans;

use crate::edition::Edition;
use crate::generator::{Case, Stream};
use crate::job::{
    Effect, Job, Piece, Record, Row, ALWAYS_PRESENT, LIVE_NORMAL, LIVE_OVERLOAD, MAY_BE_LEFT_OUT,
    SERVICE, ULTIMATE,
};
use crate::job_a::job_a;
use crate::sections::{
    DYNAMIC_KIND, DYNAMIC_VALUE, EFFECTS, PIECES, PIECE_LENGTH, RECORDS, ROWS, WIDTH,
};
use crate::words::{bytes_of, changed, words_of, Change};
use std::ops::RangeInclusive;

const BUILDERS: [fn() -> Case; 8] = [
    most_words,
    one_word_past_the_most,
    longest_return,
    longest_chain,
    normal_under_32_bits,
    normal_past_32_bits,
    overload_under_32_bits,
    overload_past_32_bits,
];

/// Places of Job A's first effect, its two rows and its two records.
const EFFECT: usize = 69;
const ROW: usize = 71;
const RECORD: usize = 79;

/// Changes of Job A, the last of each to a word outside its limits: next to a
/// limit, or as far from it as a word can be, where no generated case is refused
/// for it.
pub const PAST_LIMITS: [&[Change]; 51] = [
    // h next to a piece length, of a piece length in its low six bits, and far.
    &[(PIECE_LENGTH, 6)],
    &[(PIECE_LENGTH, 9)],
    &[(PIECE_LENGTH, 11)],
    &[(PIECE_LENGTH, 24)],
    &[(PIECE_LENGTH, 26)],
    &[(PIECE_LENGTH, 65)],
    &[(PIECE_LENGTH, i32::MIN)],
    &[(PIECE_LENGTH, i32::MAX)],
    // No pieces, fewer than none, one too many for h 10, and the most.
    &[(PIECES, 0)],
    &[(PIECES, -1)],
    &[(PIECES, 101)],
    &[(PIECES, i32::MAX)],
    // W far below.
    &[(WIDTH, i32::MIN)],
    // The dynamic value of each kind.
    &[(DYNAMIC_VALUE, i32::MIN)],
    &[(DYNAMIC_KIND, 2), (DYNAMIC_VALUE, -1)],
    &[(DYNAMIC_KIND, 2), (DYNAMIC_VALUE, 1)],
    &[(DYNAMIC_KIND, 2), (DYNAMIC_VALUE, i32::MAX)],
    &[(DYNAMIC_KIND, 3), (DYNAMIC_VALUE, 5001)],
    // An effect, a row and records too many; no rows; far.
    &[(EFFECTS, 17)],
    &[(ROWS, 0)],
    &[(ROWS, 33)],
    &[(ROWS, i32::MIN)],
    &[(RECORDS, i32::MAX)],
    // An effect's value and its mark.
    &[(EFFECT, i32::MIN)],
    &[(EFFECT, i32::MAX)],
    &[(EFFECT + 1, 3)],
    &[(EFFECT + 1, i32::MIN)],
    &[(EFFECT + 1, i32::MAX)],
    // A row's state and its live kind.
    &[(ROW, i32::MIN)],
    &[(ROW + 1, 3)],
    &[(ROW + 1, i32::MIN)],
    &[(ROW + 1, i32::MAX)],
    // Its live factor, of kind 0 and of another.
    &[(ROW + 1, 0), (ROW + 2, -1)],
    &[(ROW + 1, 0), (ROW + 2, i32::MIN)],
    &[(ROW + 1, 0), (ROW + 2, i32::MAX)],
    &[(ROW + 2, -1)],
    &[(ROW + 2, 3001)],
    &[(ROW + 2, i32::MIN)],
    &[(ROW + 2, i32::MAX)],
    // A record's effect, of one; its factor; its next, of two.
    &[(RECORD, -1)],
    &[(RECORD, 2)],
    &[(RECORD, i32::MIN)],
    &[(RECORD, i32::MAX)],
    &[(RECORD + 1, -1)],
    &[(RECORD + 1, 3001)],
    &[(RECORD + 1, i32::MIN)],
    &[(RECORD + 1, i32::MAX)],
    &[(RECORD + 2, -1)],
    &[(RECORD + 2, 3)],
    &[(RECORD + 2, i32::MIN)],
    &[(RECORD + 2, i32::MAX)],
];

/// All chosen cases.
pub fn all() -> impl Iterator<Item = Case> {
    Stream::ALL.into_iter().flat_map(stored_after)
}

/// The chosen cases that are stored after a stream's generated ones: those that go with
/// it, after the last of edition 2 those of additional overload lanes and after all the
/// others those of the records walked.
pub fn stored_after(stream: Stream) -> impl Iterator<Item = Case> {
    let of_lanes = (stream == Stream::Spans).then(overload_lanes::cases);
    let of_records = (stream == Stream::Three).then(records_walked::cases);
    cases(stream)
        .chain(of_lanes.into_iter().flatten())
        .chain(of_records.into_iter().flatten())
}

/// The chosen cases that go with a stream, in the order in which they are stored.
pub fn cases(stream: Stream) -> impl Iterator<Item = Case> {
    let mut cases: Vec<Case> = match stream {
        Stream::One => {
            let built = BUILDERS.into_iter().map(|build| build());
            built
                .chain(PAST_LIMITS.into_iter().map(changed_job_a))
                .collect()
        }
        Stream::Two => edition_2::cases(),
        Stream::Four => farm::cases(),
        Stream::Spans => return spans::cases().into_iter(),
        Stream::Three => edition_3::cases(),
    };
    cases.extend(places::cases(stream.edition()));
    cases.into_iter()
}

/// Job A with words changed.
fn changed_job_a(changes: &[Change]) -> Case {
    with_words(job_a_with(|_| ()), |words| *words = changed(words, changes))
}

/// Every section as long as it may be: 3915 words.
fn most_words() -> Case {
    job_a_with(|job| {
        (job.piece_length, job.spacing, job.width) = (1, 10, 2079);
        job.pieces = (0..1000).map(piece_of_its_own).collect();
        job.transverse = most_across(71);
        job.effects = sixteen_effects();
        job.records = chains_of(16);
        job.rows = most_rows();
    })
}

/// A count of words that no header calls for.
fn one_word_past_the_most() -> Case {
    with_words(most_words(), |words| words.push(0))
}

/// A chain that comes back only after all 512 records.
fn longest_return() -> Case {
    job_a_with(|job| {
        job.effects = sixteen_effects();
        job.records = chains_of(512);
        job.records[511].next = 1;
    })
}

/// A chain through all 512 records that ends, and so names effects again.
fn longest_chain() -> Case {
    job_a_with(|job| {
        job.effects = sixteen_effects();
        job.records = chains_of(512);
    })
}

/// A traffic value is the quotient of two whole numbers: three times the dynamic
/// factor times the lanes' sum in n g-ths, by 800000 n g. The dividend of normal
/// greatest is just within 32 bits.
fn normal_under_32_bits() -> Case {
    small_traffic(40, vec![1; 9], 1113)
}

/// It is just past 32 bits.
fn normal_past_32_bits() -> Case {
    small_traffic(40, vec![1; 9], 1114)
}

/// The dividend of overload greatest is just within 32 bits.
fn overload_under_32_bits() -> Case {
    small_traffic(37, vec![0, 0, 0, 0, 0, 10, 0, 0, 0, 0], 1116)
}

/// It is just past 32 bits.
fn overload_past_32_bits() -> Case {
    small_traffic(37, vec![0, 0, 0, 0, 0, 10, 0, 0, 0, 0], 1117)
}

/// A line of 1 dm with one ordinate, under one lane of 300 cm.
fn small_traffic(spacing: i64, transverse: Vec<i64>, dynamic_value: i64) -> Case {
    job_a_with(|job| {
        (job.piece_length, job.spacing, job.width) = (1, spacing, 300);
        job.pieces = vec![Piece { left: 0, right: 1 }];
        job.transverse = transverse;
        job.dynamic_value = dynamic_value;
    })
}

/// Job A with some of it changed, and a patch buffer of a byte a piece.
fn job_a_with(change: impl FnOnce(&mut Job)) -> Case {
    let mut job = job_a();
    change(&mut job);
    of_job(&job)
}

/// The job with a patch buffer of a byte a piece.
fn of_job(job: &Job) -> Case {
    Case {
        job: job.bytes(),
        patch: vec![0xA5; job.pieces.len()],
    }
}

/// The job with words changed and a patch buffer of so many bytes.
fn changed_job(job: &Job, changes: &[Change], patch_bytes: usize) -> Case {
    Case {
        job: bytes_of(&changed(&job.words(), changes)),
        patch: vec![0xA5; patch_bytes],
    }
}

/// The front of the job, in each of these lengths in bytes.
fn fronts(job: &Job, lengths: RangeInclusive<usize>) -> impl Iterator<Item = Case> {
    let whole = of_job(job);
    lengths.map(move |length| {
        let mut case = whole.clone();
        case.job.truncate(length);
        case
    })
}

/// One piece of 5 m under one lane, without effects, rows and records.
fn bare_job(edition: Edition, further_header: Vec<i64>) -> Job {
    Job {
        edition,
        piece_length: 50,
        spacing: 50,
        width: 300,
        dynamic_kind: 2,
        dynamic_value: 0,
        further_header,
        pieces: vec![level_piece(8)],
        transverse: vec![100, 250, 333, 500, 21, -70, -900],
        second_transverse: vec![],
        effects: vec![],
        rows: vec![],
        records: vec![],
    }
}

/// Two pieces of both signs, W 300, an effect and two rows with traffic.
fn short_job_of_edition_2() -> Job {
    Job {
        pieces: vec![level_piece(8), level_piece(-6)],
        effects: vec![Effect::new(5_000_000_000, ALWAYS_PRESENT)],
        rows: vec![
            Row::new(SERVICE, LIVE_NORMAL, 1350, 1),
            Row::new(ULTIMATE, LIVE_OVERLOAD, 1500, 2),
        ],
        records: vec![Record::new(1, 1000, 0), Record::new(1, 1200, 0)],
        ..bare_job(Edition::Two, vec![0; 2])
    }
}

/// A job of edition 2 with a second carriageway of 350 cm, whose ordinates are 50 cm
/// apart.
fn with_short_second_carriageway(job: Job) -> Job {
    job.with_second_carriageway(350, vec![-60, 900, 70, 640, 510, 480, -220, 990])
}

/// The longest line of the longest pieces, level at this ordinate.
fn longest_level_line(ordinate: i64) -> Vec<Piece> {
    vec![level_piece(ordinate); 20]
}

fn level_piece(ordinate: i64) -> Piece {
    Piece {
        left: ordinate,
        right: ordinate,
    }
}

/// The case with some of its job's words changed.
fn with_words(case: Case, change: impl FnOnce(&mut Vec<i32>)) -> Case {
    let mut words = words_of(&case.job);
    change(&mut words);
    Case {
        job: bytes_of(&words),
        ..case
    }
}

/// Pieces that differ from each other, the sign changing every seven.
fn piece_of_its_own(number: i64) -> Piece {
    let sign = if number / 7 % 2 == 0 { 1 } else { -1 };
    Piece {
        left: sign * (number * 37 % 5000 + 1),
        right: sign * (number * 53 % 5000 + 1),
    }
}

/// Effects of both signs, all of which may be left out.
fn sixteen_effects() -> Vec<Effect> {
    (0..16)
        .map(|at| Effect {
            value: at * 60_000_000 - 450_000_000,
            mark: MAY_BE_LEFT_OUT,
        })
        .collect()
}

/// As many ordinates as a carriageway can have, which differ by this step.
fn most_across(step: i64) -> Vec<i64> {
    (0..209).map(|at| at * step % 2001 - 1000).collect()
}

/// All 32 rows, of both states with either traffic, each with a chain of sixteen records.
fn most_rows() -> Vec<Row> {
    (0..32).map(|at| row_of_its_own(at, 16 * at + 1)).collect()
}

/// Rows, from 0 on, that differ in their live factors, the state changing with each and
/// the traffic with every other.
fn row_of_its_own(at: usize, first: usize) -> Row {
    let (state, live_kind) = (1 + at as i64 % 2, 1 + at as i64 / 2 % 2);
    Row::new(state, live_kind, 1500 - at as i64, first)
}

/// All 512 records, in chains of this length that name the sixteen effects in
/// turn.
fn chains_of(length: usize) -> Vec<Record> {
    (1..=512)
        .map(|number| Record {
            effect: (number - 1) % 16 + 1,
            factor: 1000 + number as i64,
            next: if number % length == 0 { 0 } else { number + 1 },
        })
        .collect()
}
