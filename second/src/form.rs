//! 02 "One way to write a job": the standard form of an accepted job of editions 1 to 3,
//! and the call that writes it.

pub mod agree;
pub mod checker;
pub mod page;
pub mod refusals;

pub use agree::agree;

use crate::job::{Job, Record, Row};
use crate::words;

/// What a call lends, its two buffers with their contents before the call.
#[derive(Debug, Clone, PartialEq, Eq)]
pub struct WriteCase {
    pub job: Vec<u8>,
    /// The output buffer.
    pub form: Vec<u8>,
    /// The report buffer.
    pub report: Vec<u8>,
}

/// The bytes of a report: one number, the form's length in bytes, low byte first.
pub const REPORT_BYTES: usize = 8;

/// The answer to a call: a form, or a refusal without one.
#[derive(Debug, Clone, PartialEq, Eq, Default)]
pub struct WriteAnswer {
    /// The refusal's number; 0 for a form.
    pub refusal: u64,
    /// The refusal's place; 0 for a form.
    pub place: u64,
    /// Empty on a refusal.
    pub form: Vec<u8>,
}

/// An accepted job with its records as the standard form has them: numbered in row
/// order, each row's own, rising by effect, without factors of 0, and no others.
pub fn standard(job: &Job) -> Job {
    let mut records = Vec::new();
    let mut rows = Vec::new();
    for row in &job.rows {
        let chain = standard_chain(job, row);
        let before = records.len();
        let number = |at: usize| if at < chain.len() { before + at + 1 } else { 0 };
        rows.push(Row {
            first: number(0),
            ..*row
        });
        let numbered = chain.iter().enumerate();
        records.extend(numbered.map(|(at, record)| Record {
            next: number(at + 1),
            ..*record
        }));
    }
    Job {
        rows,
        records,
        ..job.clone()
    }
}

/// The records of a row whose factor is not 0, rising by effect.
fn standard_chain(job: &Job, row: &Row) -> Vec<Record> {
    let mut chain = job.chain(row);
    chain.retain(|record| record.factor != 0);
    chain.sort_by_key(|record| record.effect);
    chain
}

/// The standard form's bytes.
pub fn standard_form(job: &Job) -> Vec<u8> {
    standard(job).bytes()
}

/// Answers a call.
pub fn write(case: &WriteCase) -> WriteAnswer {
    if let Some(refusal) = refusals::refusal(case) {
        return WriteAnswer {
            refusal: refusal.number,
            place: refusal.place,
            form: vec![],
        };
    }
    let job = Job::decode(&words::words_of(&case.job));
    WriteAnswer {
        form: standard_form(&job),
        ..WriteAnswer::default()
    }
}

/// The number that a call gives back, the output buffer after it and the report buffer
/// after it: the form at the front of the one, its length as far as the other goes, and
/// the bytes past them as before.
pub fn call(case: &WriteCase) -> (u64, Vec<u8>, Vec<u8>) {
    let answer = write(case);
    let mut form = case.form.clone();
    form[..answer.form.len()].copy_from_slice(&answer.form);
    let mut report = case.report.clone();
    for (byte, due) in report.iter_mut().zip(report_bytes(answer.form.len())) {
        *byte = due;
    }
    (256 * answer.place + answer.refusal, form, report)
}

/// The report of a form of so many bytes.
pub fn report_bytes(form_bytes: usize) -> [u8; REPORT_BYTES] {
    (form_bytes as u64).to_le_bytes()
}
