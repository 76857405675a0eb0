//! Judges a written form of any origin. What is due is fully determined, so every byte is
//! held to equality; before that the form is held to what 02 says of it, by code of its
//! own, and the writer is asked only whether written again it is the same.

use super::{agree, report_bytes, standard_form, write, WriteCase, REPORT_BYTES};
use crate::account::{Account, State};
use crate::checker::same;
use crate::job::Job;
use crate::loads::{Live, Question};
use crate::refusals;
use crate::sections::{Sections, EDITION, RECORDS, WORDS_PER_RECORD, WORDS_PER_ROW};
use crate::solve::solve;
use crate::words::{words_of, WORD_BYTES};

/// Whether this result and these buffers after the call are right for a case; what is
/// wrong first, where they aren't.
pub fn check(
    case: &WriteCase,
    form_after: &[u8],
    report_after: &[u8],
    result: u64,
) -> Result<(), String> {
    let due = write(case);
    same("refusal", result % 256, due.refusal)?;
    same("place", result / 256, due.place)?;
    check_report(case, report_after, due.form.len())?;
    same(
        "the output buffer's length",
        form_after.len(),
        case.form.len(),
    )?;
    let (form, past) = form_after.split_at(due.form.len());
    let before = &case.form[form.len()..];
    same_bytes("past the form,", form.len(), past, before)?;
    if due.refusal != 0 {
        return Ok(());
    }
    check_form(&case.job, form)?;
    same_bytes("of the form", 0, form, &due.form)
}

/// Each byte from a place on is as it should be.
fn same_bytes(of: &str, from: usize, found: &[u8], due: &[u8]) -> Result<(), String> {
    for (at, (&found, &due)) in (from..).zip(found.iter().zip(due)) {
        same(&format!("byte {at} {of}"), found, due)?;
    }
    Ok(())
}

/// The report is the form's length as far as its buffer goes, the rest as before.
fn check_report(case: &WriteCase, after: &[u8], form_bytes: usize) -> Result<(), String> {
    same("the report's length", after.len(), case.report.len())?;
    let (report, past) = after.split_at(after.len().min(REPORT_BYTES));
    let before = &case.report[report.len()..];
    same_bytes("past the report,", REPORT_BYTES, past, before)?;
    let due = report_bytes(form_bytes);
    same_bytes("of the report", 0, report, &due[..report.len()])
}

/// Whether these bytes have all that 02 says of the standard form of an accepted job; what
/// they lack first, where they haven't.
pub fn check_form(job: &[u8], form: &[u8]) -> Result<(), String> {
    let accepted = refusals::test_job(form);
    accepted.map_err(|refusal| format!("the form is refused: {refusal:?}"))?;
    let [job_words, form_words] = [job, form].map(words_of);
    same(
        "the form's edition",
        form_words[EDITION],
        job_words[EDITION],
    )?;
    check_words_before_records(&job_words, &form_words)?;
    let [job_read, form_read] = [&job_words, &form_words].map(|words| Job::decode(words));
    same("the form agrees", agree(&job_read, &form_read), true)?;
    check_records(&form_read)?;
    same("the form's length", form.len(), form_bytes(&job_read))?;
    same(
        "written again it is the same",
        standard_form(&form_read) == form,
        true,
    )?;
    check_what_carries_over(job, form, job_read.pieces.len())
}

/// The words before the records are the job's, but for C and each row's first record.
fn check_words_before_records(job: &[i32], form: &[i32]) -> Result<(), String> {
    let [sections, of_form] = [job, form].map(Sections::called_for_by);
    same(
        "the form's first record's place",
        of_form.records.start,
        sections.records.start,
    )?;
    let first_record = |place: usize| {
        let within = place.checked_sub(sections.rows.start);
        within.is_some_and(|within| within % WORDS_PER_ROW == WORDS_PER_ROW - 1)
    };
    let places = 0..sections.records.start;
    for place in places.filter(|&place| place != RECORDS && !first_record(place)) {
        same(&format!("word {place}"), form[place], job[place])?;
    }
    Ok(())
}

/// The records of a form are numbered from 1 on in row order: a row's first is the next
/// number or the row has none; within a row effects rise, no factor is 0 and each record
/// leads to the following one, the last to none. There are no others.
fn check_records(form: &Job) -> Result<(), String> {
    let mut due = 1;
    for (number, row) in (1..).zip(&form.rows) {
        let mut found = row.first;
        let mut effect_before = 0;
        while found != 0 {
            same(&format!("row {number}'s record"), found, due)?;
            let record = form.records[found - 1];
            if record.effect <= effect_before {
                return Err(format!("record {found}'s effect does not rise"));
            }
            if record.factor == 0 {
                return Err(format!("record {found}'s factor is 0"));
            }
            (effect_before, found, due) = (record.effect, record.next, due + 1);
        }
    }
    same("the number of records", form.records.len(), due - 1)
}

/// The length that a job's form has: a record is there for each factor that is not 0.
fn form_bytes(job: &Job) -> usize {
    let factors = job.rows.iter().flat_map(|row| {
        let effects = 1..=job.effects.len();
        effects.map(|effect| agree::factor(job, row, effect))
    });
    let records = factors.filter(|&factor| factor != 0).count();
    let sections = Sections::called_for_by(&job.words());
    WORD_BYTES * (sections.records.start + WORDS_PER_RECORD * records)
}

/// Values, governing rows and patch bytes of the form are the job's, and its records
/// walked are all that it has.
fn check_what_carries_over(job: &[u8], form: &[u8], pieces: usize) -> Result<(), String> {
    let answers = [job, form].map(|bytes| {
        let mut patch = vec![0xC3; pieces];
        (solve(bytes, &mut patch).account, patch)
    });
    let [(of_job, job_patch), (of_form, form_patch)] = answers;
    same_bytes("of the patch buffer", 0, &form_patch, &job_patch)?;
    for live in Live::BOTH {
        for question in Question::BOTH {
            let value = |account: &Account| account.traffic(live, question).value;
            let name = format!("{live:?} {question:?}");
            same(&name, value(&of_form), value(&of_job))?;
        }
    }
    check_state("service", &of_form.service, &of_job.service)?;
    check_state("ultimate", &of_form.ultimate, &of_job.ultimate)?;
    let records = words_of(form)[RECORDS];
    same("records walked", of_form.records_walked, records.into())
}

/// A state of the form has rows where the job's has, and its values and their rows.
fn check_state(name: &str, of_form: &State, of_job: &State) -> Result<(), String> {
    let rows = format!("whether {name} has rows");
    same(&rows, of_form.present, of_job.present)?;
    for question in Question::BOTH {
        let name = format!("{name} {question:?}");
        let (found, due) = (of_form.governing(question), of_job.governing(question));
        same(&name, found.value, due.value)?;
        same(&format!("{name}'s row"), found.row, due.row)?;
    }
    Ok(())
}
