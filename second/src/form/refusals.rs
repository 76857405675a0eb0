//! 02 "One way to write a job": the refusals of its call. A short report buffer counts
//! with 2 before the job is looked at; the job's 1 to 8 follow, then 12.

use super::{standard_form, WriteCase, REPORT_BYTES};
use crate::edition::Edition;
use crate::job::Job;
use crate::refusals::{test, test_job, Refusal};
use crate::words::words_of;

/// The refusal due for a case.
pub fn refusal(case: &WriteCase) -> Option<Refusal> {
    test_all(case).err()
}

fn test_all(case: &WriteCase) -> Result<(), Refusal> {
    let short_report = case.report.len() < REPORT_BYTES;
    test(2, short_report.then_some(0))?;
    let of_edition_4 = Edition::of_words(&words_of(&case.job)) == Some(Edition::Four);
    test(1, of_edition_4.then_some(0))?;
    test_job(&case.job)?;
    test(12, short_output(case))
}

/// 12: an output buffer too short for the form of an accepted job; the form's bytes.
fn short_output(case: &WriteCase) -> Option<usize> {
    let due = standard_form(&Job::decode(&words_of(&case.job))).len();
    (case.form.len() < due).then_some(due)
}
