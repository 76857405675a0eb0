//! The stream of calls that write a form: jobs with their tables spelled in every way,
//! damaged and farm jobs, plain bytes, and buffers of every length.

mod differing;
mod spelling;
mod tables;

pub use differing::{differing, differing_in, Difference};
pub use spelling::respelled;

use super::plain::plain_bytes;
use super::{damaged, faults_of, Stream};
use crate::form::{standard, write, WriteCase, REPORT_BYTES};
use crate::job::Job;
use crate::rng::Rng;
use tables::fill;

/// The streams of the editions that are written.
const WRITTEN: [Stream; 4] = [Stream::One, Stream::Two, Stream::Spans, Stream::Three];

/// The refusal of a short patch buffer, which a call that lends none does not have.
const SHORT_PATCH: u64 = 9;

/// More bytes than any form has.
const AMPLE: usize = 20_000;

/// The case of a seed: about two in three jobs sound, of editions 1 to 3.
pub fn case(seed: u64) -> WriteCase {
    let mut rng = Rng::new(seed);
    let stream = rng.pick(&WRITTEN);
    let job = match rng.below(20) {
        0..=12 => sound_job(&mut rng, stream).bytes(),
        13..=16 => damaged_job(&mut rng, stream),
        17 => super::sound_job(&mut rng, Stream::Four).bytes(),
        18 => damaged_job(&mut rng, Stream::Four),
        _ => plain_bytes(&mut rng, stream).job,
    };
    let form_bytes = output_length(&mut rng, &job);
    let report_bytes = report_length(&mut rng);
    WriteCase {
        job,
        form: other_than_zeros(&mut rng, form_bytes),
        report: other_than_zeros(&mut rng, report_bytes),
    }
}

/// A job of editions 1 to 3 that no refusal is due for: as its stream has it, spelled
/// anew, in standard form, or with as many factors as there can be.
pub fn sound_job(rng: &mut Rng, stream: Stream) -> Job {
    let job = super::sound_job(rng, stream);
    match rng.below(8) {
        0..=2 => job,
        3..=5 => respelled(rng, &job),
        6 => standard(&job),
        _ => fill(rng, job),
    }
}

/// A sound job with one to three faults.
fn damaged_job(rng: &mut Rng, stream: Stream) -> Vec<u8> {
    let count = rng.pick(&[1, 1, 1, 2, 3]);
    let mut faults = faults_of(stream.edition()).to_vec();
    faults.retain(|&fault| fault != SHORT_PATCH);
    rng.shuffle(&mut faults);
    damaged(rng, stream, &faults[..count]).job
}

/// As many bytes as the job's form has or, where it has none, the job: or one short, fewer
/// or more, none, or as many as the job.
fn output_length(rng: &mut Rng, job: &[u8]) -> usize {
    let written = write(&WriteCase {
        job: job.to_vec(),
        form: vec![0; AMPLE],
        report: vec![0; REPORT_BYTES],
    });
    let due = match written.refusal {
        0 => written.form.len(),
        _ => job.len(),
    };
    let short = |by: usize| due.saturating_sub(by);
    match rng.below(16) {
        0..=5 => due,
        6..=8 => due + rng.pick(&[1, 3, 4, 12, 200]),
        9..=10 => short(1),
        11 => short(rng.pick(&[2, 3, 4, 8, 12])),
        12 => rng.index(due + 1),
        13 => rng.index(60),
        14 => 0,
        _ => job.len(),
    }
}

/// As many bytes as a report has, or more; now and then fewer.
fn report_length(rng: &mut Rng) -> usize {
    match rng.below(16) {
        0 => rng.index(REPORT_BYTES),
        1..=4 => REPORT_BYTES + rng.pick(&[1, 4, 8, 100]),
        _ => REPORT_BYTES,
    }
}

fn other_than_zeros(rng: &mut Rng, length: usize) -> Vec<u8> {
    (0..length).map(|_| rng.between(1, 255) as u8).collect()
}
