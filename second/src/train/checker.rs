//! Judges a train's report of any origin: the result, the values and every other
//! byte by equality, the two stands by the rules they must keep and the value
//! they must give, since equally good ones are free.

use super::placement::reported_placement;
use super::{rate, Rating, Train, TrainCase, REPORT_BYTES};
use crate::checker::same;
use crate::loads::Question;

/// Whether this result and this report buffer after the call are right for a
/// case; what is wrong first, where they aren't.
pub fn check(case: &TrainCase, after: &[u8], result: u64) -> Result<(), String> {
    let due = rate(case);
    same("refusal", result % 256, due.refusal)?;
    same("place", result / 256, due.place)?;
    same("the report's length", after.len(), case.report.len())?;
    let (report, past) = after.split_at(after.len().min(REPORT_BYTES));
    let bytes_past = past.iter().zip(&case.report[report.len()..]);
    for (at, (&found, &before)) in (REPORT_BYTES..).zip(bytes_past) {
        same(&format!("byte {at}, past the report,"), found, before)?;
    }
    if due.refusal != 0 {
        for (at, &found) in report.iter().enumerate() {
            same(&format!("byte {at} of a refusal's report"), found, 0)?;
        }
        return Ok(());
    }

    let rating = Rating::of_bytes(report);
    same("greatest", rating.greatest, due.rating.greatest)?;
    same("least", rating.least, due.rating.least)?;
    same("difference", rating.difference, due.rating.difference)?;
    let train = Train::of(case);
    check_stand(&train, &rating, Question::Greatest)
        .map_err(|fault| format!("greatest's stand: {fault}"))?;
    check_stand(&train, &rating, Question::Least).map_err(|fault| format!("least's stand: {fault}"))
}

/// The stand shown is lawful and gives its value.
fn check_stand(train: &Train, rating: &Rating, question: Question) -> Result<(), String> {
    let placement = reported_placement(train, rating.stand(question))?;
    same(
        "its effect",
        placement.effect_times_k(train, question),
        rating.value(question).into(),
    )
}
