//! Cases in one file, and in another what is due for each.

use crate::chosen;
use crate::generator::{self, Case, Stream};
use crate::report::report;
use crate::solve::solve;

/// The two files' contents.
#[derive(Debug, Clone, Default, PartialEq, Eq)]
pub struct Stored {
    /// Each case as `case_bytes` has it.
    pub jobs: Vec<u8>,
    /// Each case as `case_lines` has it.
    pub expected: String,
}

/// All cases to store.
pub fn stored() -> Stored {
    let mut stored = Stored::default();
    for case in cases() {
        stored.jobs.extend(case_bytes(&case));
        stored.expected += &case_lines(&case);
    }
    stored
}

/// The cases to store: the generated ones, then those chosen by hand, stream by
/// stream.
pub fn cases() -> impl Iterator<Item = Case> {
    let of_stream = |stream| generated_cases(stream).chain(chosen::stored_after(stream));
    Stream::ALL.into_iter().flat_map(of_stream)
}

/// How many of a stream's cases are stored.
fn cases_of(stream: Stream) -> usize {
    match stream {
        Stream::One => 1700,
        Stream::Four | Stream::Two | Stream::Spans | Stream::Three => 400,
    }
}

/// The most bytes of a case that is stored whatever its seed; two carriageways take
/// more.
fn short_case_bytes(stream: Stream) -> usize {
    match stream {
        Stream::Three => 600,
        _ => 400,
    }
}

/// Of the seeds of longer cases, one in so many is stored.
const LONG_CASE_SEEDS: u64 = 32;

/// A stream's first cases from seed 0 on: every short one and few of the others,
/// so that many fit in a small file.
pub fn generated_cases(stream: Stream) -> impl Iterator<Item = Case> {
    let to_store = move |seed: u64| {
        let case = generator::case(stream, seed);
        let short = case.job.len() + case.patch.len() <= short_case_bytes(stream);
        (short || seed.is_multiple_of(LONG_CASE_SEEDS)).then_some(case)
    };
    (0..).filter_map(to_store).take(cases_of(stream))
}

/// The job's length and the patch buffer's, in two bytes each, low byte first;
/// then the patch buffer and the job.
pub fn case_bytes(case: &Case) -> Vec<u8> {
    let length = |bytes: &[u8]| {
        let length = u16::try_from(bytes.len()).expect("no case is longer than 65535 bytes");
        length.to_le_bytes()
    };
    [
        &length(&case.job)[..],
        &length(&case.patch),
        &case.patch,
        &case.job,
    ]
    .concat()
}

/// The job's four lines or its refusal, then the patch buffer after the call and the
/// records walked, 0 where the job is refused.
pub fn case_lines(case: &Case) -> String {
    let mut patch = case.patch.clone();
    let answer = solve(&case.job, &mut patch);
    format!(
        "{}patch {} records {}\n",
        report(&answer),
        weighted_sum(&patch),
        answer.account.records_walked
    )
}

/// The sum of the bytes, each times its number from 1 on.
pub fn weighted_sum(bytes: &[u8]) -> u64 {
    (1..)
        .zip(bytes)
        .map(|(number, &byte)| number * u64::from(byte))
        .sum()
}
