//! A writer with a slip gives another result or other bytes for some generated case, and
//! the checker finds it there.

mod common;

use common::streams::reach_all;
use second::edition::Edition;
use second::form::checker::check;
use second::form::{call, standard, standard_form, write, WriteCase, REPORT_BYTES};
use second::generator::form::case;
use second::job::{Job, Record};
use second::refusals;
use second::words::{bytes_of, halves, joined, words_of};
use std::collections::BTreeSet;

/// A result, the output buffer after the call and the report buffer after it.
type Outcome = (u64, Vec<u8>, Vec<u8>);

/// A slip in the form, as the bytes that it gives for an accepted job.
type FormSlip = fn(&Job) -> Vec<u8>;

const FORM_SLIPS: [(&str, FormSlip); 22] = [
    ("the job as it is", |job| job.bytes()),
    ("records in chain order", |job| {
        written(job, |chain| chain.retain(|record| record.factor != 0))
    }),
    ("effects falling", |job| {
        written(job, |chain| {
            chain.retain(|record| record.factor != 0);
            chain.sort_by_key(|record| std::cmp::Reverse(record.effect));
        })
    }),
    ("factors rising", |job| {
        written(job, |chain| {
            chain.retain(|record| record.factor != 0);
            chain.sort_by_key(|record| (record.factor, record.effect));
        })
    }),
    ("factors of 0 kept", |job| {
        written(job, |chain| chain.sort_by_key(|record| record.effect))
    }),
    ("effects of 0 dropped", |job| {
        let values = job.effects.clone();
        written(job, |chain| {
            chain.retain(|record| record.factor != 0 && values[record.effect - 1].value != 0);
            chain.sort_by_key(|record| record.effect);
        })
    }),
    ("a chain ended at a factor of 0", |job| {
        written(job, |chain| {
            let end = chain.iter().position(|record| record.factor == 0);
            chain.truncate(end.unwrap_or(chain.len()));
            chain.sort_by_key(|record| record.effect);
        })
    }),
    ("shared tails kept", |job| with_shared_tails(job).bytes()),
    ("rows with one chain share it", |job| {
        let mut form = standard(job);
        for (at, row) in job.rows.iter().enumerate() {
            let mut rows = job.rows.iter();
            let first = rows.position(|other| other.first == row.first);
            form.rows[at].first = form.rows[first.expect("itself")].first;
        }
        form.bytes()
    }),
    ("the last record's next not 0", |job| {
        let mut form = standard(job);
        let records = form.records.len();
        for number in 1..records {
            form.records[number - 1].next = number + 1;
        }
        form.bytes()
    }),
    ("the last record leads to itself", |job| {
        let mut form = standard(job);
        for (number, record) in (1..).zip(&mut form.records) {
            record.next = record.next.max(number);
        }
        form.bytes()
    }),
    ("the first record of an empty row not 0", |job| {
        let mut form = standard(job);
        let mut number = 1;
        for row in &mut form.rows {
            let length = standard(job).chain(row).len();
            row.first = number;
            number += length;
        }
        form.bytes()
    }),
    ("the first record as it was", |job| {
        let mut form = standard(job);
        for (row, was) in form.rows.iter_mut().zip(&job.rows) {
            row.first = was.first;
        }
        form.bytes()
    }),
    ("C as it was", |job| {
        let mut words = standard(job).words();
        words[9] = job.records.len() as i32;
        bytes_of(&words)
    }),
    ("numbered by effect first", |job| {
        renumbered(job, |row, effect| (effect, row))
    }),
    ("numbered from the last row", |job| {
        let rows = job.rows.len();
        renumbered(job, |row, effect| (rows - row, effect))
    }),
    ("numbered from the end of a chain", |job| {
        renumbered(job, |row, effect| (row, 17 - effect))
    }),
    ("unused records kept", |job| {
        let mut form = standard(job);
        let used = used(job);
        let numbered = (1..).zip(&job.records);
        let unused = numbered.filter(|(number, _)| !used.contains(number));
        let ended = unused.map(|(_, record)| Record { next: 0, ..*record });
        form.records.extend(ended);
        form.bytes()
    }),
    ("the last row's records left out", |job| {
        let mut form = standard(job);
        let last = form.rows.len() - 1;
        let length = form.chain(&form.rows[last]).len();
        form.records.truncate(form.records.len() - length);
        form.rows[last].first = 0;
        form.bytes()
    }),
    ("rows without a record left out", |job| {
        let mut form = standard(job);
        form.rows.retain(|row| row.first != 0);
        form.bytes()
    }),
    ("no live factor in a row without effects", |job| {
        let mut form = standard(job);
        for row in &mut form.rows {
            row.live_factor *= i64::from(row.first != 0);
        }
        form.bytes()
    }),
    ("the low byte of C", |job| {
        let mut words = standard(job).words();
        words[9] %= 256;
        bytes_of(&words)
    }),
];

/// In a job with effects of two halves.
const WIDE_SLIP: (&str, FormSlip) = ("the high half from the low one", |job| {
    let mut form = standard(job);
    for effect in &mut form.effects {
        let low = halves(effect.value)[0];
        effect.value = joined(low, low >> 31);
    }
    form.bytes()
});

/// A form of own records, whose chains are changed so before they are numbered.
fn written(job: &Job, change: impl Fn(&mut Vec<Record>)) -> Vec<u8> {
    let mut form = job.clone();
    form.records.clear();
    for row in &mut form.rows {
        let mut chain = job.chain(row);
        change(&mut chain);
        let before = form.records.len();
        let end = before + chain.len();
        row.first = if chain.is_empty() { 0 } else { before + 1 };
        form.records.extend(chain);
        for (number, record) in (before + 1..).zip(&mut form.records[before..]) {
            record.next = if number < end { number + 1 } else { 0 };
        }
    }
    form.bytes()
}

/// The form with a tail that is there already taken over.
fn with_shared_tails(job: &Job) -> Job {
    let form = standard(job);
    let mut shared = form.clone();
    shared.records.clear();
    for row in &mut shared.rows {
        let chain = form.chain(row).into_iter().rev();
        row.first = chain.fold(0, |next, record| {
            let record = Record { next, ..record };
            let there = shared.records.iter().position(|other| *other == record);
            let at = there.unwrap_or(shared.records.len());
            if there.is_none() {
                shared.records.push(record);
            }
            at + 1
        });
    }
    shared
}

/// The form's records numbered by what this gives for their row, from 0, and effect.
fn renumbered(job: &Job, order: impl Fn(usize, usize) -> (usize, usize)) -> Vec<u8> {
    let mut form = standard(job);
    let of_row = |number: usize| {
        let of_rows = form.rows.iter().filter(|row| row.first != 0);
        of_rows.filter(|row| row.first <= number).count()
    };
    let keys = (1..).zip(&form.records).map(|(number, record)| {
        let row = of_row(number);
        (order(row, record.effect), number)
    });
    let mut keys: Vec<_> = keys.collect();
    keys.sort_unstable();
    let number_of = |was: usize| {
        let place = keys.iter().position(|&(_, number)| number == was);
        place.map_or(0, |at| at + 1)
    };
    let numbered = keys.iter().map(|&(_, was)| {
        let record = form.records[was - 1];
        Record {
            next: number_of(record.next),
            ..record
        }
    });
    let records = numbered.collect();
    for row in &mut form.rows {
        row.first = number_of(row.first);
    }
    form.records = records;
    form.bytes()
}

/// The records on some chain.
fn used(job: &Job) -> BTreeSet<usize> {
    let mut used = BTreeSet::new();
    for row in &job.rows {
        let mut number = row.first;
        while number != 0 {
            used.insert(number);
            number = job.records[number - 1].next;
        }
    }
    used
}

/// A call whose form is the slip's, and all else as it should be for such a form.
fn call_with(case: &WriteCase, slip: FormSlip) -> Outcome {
    let Some(job) = accepted(case) else {
        return call(case);
    };
    let form = slip(&job);
    if case.form.len() < form.len() {
        return outcome(case, 256 * form.len() as u64 + 12, &[], 0);
    }
    outcome(case, 0, &form, form.len())
}

/// This result, these bytes at the output buffer's front as far as it goes, and a report
/// of this length.
fn outcome(case: &WriteCase, result: u64, front: &[u8], length: usize) -> Outcome {
    let (mut form, mut report) = (case.form.clone(), case.report.clone());
    put(&mut form, front);
    put(&mut report, &length.to_le_bytes());
    (result, form, report)
}

/// Puts these bytes at the front, as far as there is room.
fn put(buffer: &mut [u8], front: &[u8]) {
    for (byte, &of_front) in buffer.iter_mut().zip(front) {
        *byte = of_front;
    }
}

/// The job of a case that 12 alone may be due for.
fn accepted(case: &WriteCase) -> Option<Job> {
    let accepted = [0, 12].contains(&write(case).refusal);
    accepted.then(|| Job::decode(&words_of(&case.job)))
}

/// The form of a case that 12 alone may be due for, and its length.
fn form_of(case: &WriteCase) -> Option<(Vec<u8>, usize)> {
    let form = standard_form(&accepted(case)?);
    let length = form.len();
    Some((form, length))
}

/// The form of a case refused by 12.
fn too_long(case: &WriteCase) -> Option<(Vec<u8>, usize)> {
    form_of(case).filter(|&(_, length)| length > case.form.len())
}

/// What a case with a short report gives with a whole one.
fn with_whole_report(case: &WriteCase) -> Option<Outcome> {
    let longer = WriteCase {
        report: vec![0xC3; REPORT_BYTES],
        ..case.clone()
    };
    (case.report.len() < REPORT_BYTES).then(|| call(&longer))
}

/// A slip of the call, as what it gives for a case that it goes wrong in.
type CallSlip = fn(&WriteCase) -> Option<Outcome>;

const CALL_SLIPS: [(&str, CallSlip); 22] = [
    ("written before 12 is tested", |case| {
        let (form, length) = too_long(case)?;
        Some(outcome(case, 256 * length as u64 + 12, &form, 0))
    }),
    ("cleared before 12 is tested", |case| {
        let (form, length) = too_long(case)?;
        let zeros = vec![0; form.len()];
        Some(outcome(case, 256 * length as u64 + 12, &zeros, 0))
    }),
    ("12's place in words", |case| {
        let (_, length) = too_long(case)?;
        Some(outcome(case, 64 * length as u64 + 12, &[], 0))
    }),
    ("12's place that of the buffer", |case| {
        too_long(case)?;
        Some(outcome(case, 256 * case.form.len() as u64 + 12, &[], 0))
    }),
    ("12's place that of the job", |case| {
        too_long(case)?;
        Some(outcome(case, 256 * case.job.len() as u64 + 12, &[], 0))
    }),
    ("12's place 0", |case| {
        too_long(case)?;
        Some(outcome(case, 12, &[], 0))
    }),
    ("12 with the form's length", |case| {
        let (_, length) = too_long(case)?;
        Some(outcome(case, 256 * length as u64 + 12, &[], length))
    }),
    ("9 for 12", |case| {
        let (_, length) = too_long(case)?;
        Some(outcome(case, 256 * length as u64 + 9, &[], 0))
    }),
    ("a short buffer filled", |case| {
        let (form, length) = too_long(case)?;
        Some(outcome(case, 0, &form, length))
    }),
    ("12 by the job's length", |case| {
        let (_, length) = form_of(case)?;
        let result = 256 * length as u64 + 12;
        (case.form.len() < case.job.len()).then(|| outcome(case, result, &[], 0))
    }),
    ("12 at the form's own length", |case| {
        let (_, length) = form_of(case)?;
        let result = 256 * length as u64 + 12;
        (case.form.len() == length).then(|| outcome(case, result, &[], 0))
    }),
    ("12 before the job's own", |case| {
        let (result, _, _) = call(case);
        let of_job = (3..=8).contains(&(result % 256)) && case.form.len() < case.job.len();
        of_job.then(|| outcome(case, 256 * case.job.len() as u64 + 12, &[], 0))
    }),
    ("bytes past the form cleared", |case| {
        let (mut form, length) = form_of(case)?;
        form.resize(case.form.len().max(length), 0);
        (case.form.len() > length).then(|| outcome(case, 0, &form, length))
    }),
    ("the report in words", |case| {
        let (form, length) = form_of(case)?;
        (case.form.len() >= length).then(|| outcome(case, 0, &form, length / 4))
    }),
    ("the report of four bytes", |case| {
        let (result, form, mut report) = call(case);
        report[4.min(case.report.len())..].copy_from_slice(case.report.get(4..)?);
        Some((result, form, report))
    }),
    ("bytes past the report cleared", |case| {
        let (result, form, mut report) = call(case);
        report.get_mut(REPORT_BYTES..)?.fill(0);
        Some((result, form, report))
    }),
    ("a short report left as it was", |case| {
        let (result, form, _) = call(case);
        (case.report.len() < REPORT_BYTES).then(|| (result, form, case.report.clone()))
    }),
    ("a short report taken", |case| {
        let (result, form, report) = with_whole_report(case)?;
        let lent = case.report.len();
        (result == 0).then(|| (result, form, report[..lent].to_vec()))
    }),
    ("a short report after the job's own", |case| {
        let (result, _, _) = with_whole_report(case)?;
        let of_job = (1..=8).contains(&(result % 256));
        of_job.then(|| outcome(case, result, &[], 0))
    }),
    ("a short report after 12", |case| {
        let (result, _, _) = with_whole_report(case)?;
        (result % 256 == 12).then(|| outcome(case, result, &[], 0))
    }),
    ("edition 4 written", |case| {
        let farm = Edition::of_words(&words_of(&case.job)) == Some(Edition::Four);
        let fits = case.form.len() >= case.job.len();
        let good = refusals::refusal(&case.job, 1000).is_none();
        (farm && fits && good).then(|| outcome(case, 0, &case.job, case.job.len()))
    }),
    ("edition 4 refused by its own", |case| {
        let farm = Edition::of_words(&words_of(&case.job)) == Some(Edition::Four);
        let refusal = refusals::refusal(&case.job, 1000).filter(|_| farm)?;
        let result = 256 * refusal.place + refusal.number;
        Some(outcome(case, result, &[], 0))
    }),
];

/// Whether the checker finds this outcome wrong, which it does exactly where it is not
/// the right one.
#[track_caller]
fn shows(case: &WriteCase, given: &Outcome) -> bool {
    let (result, form, report) = given;
    let wrong = check(case, form, report, *result).is_err();
    assert_eq!(wrong, *given != call(case));
    wrong
}

/// The slips that show in a case; those in the form behind its edition.
fn shown(case: &WriteCase) -> Vec<String> {
    let mut shown = vec![];
    if let Some(job) = accepted(case) {
        let edition = job.edition.number();
        let wide = (edition != 1).then_some(WIDE_SLIP);
        for (name, slip) in FORM_SLIPS.into_iter().chain(wide) {
            if shows(case, &call_with(case, slip)) {
                shown.push(label(edition, name));
            }
        }
    }
    for (name, slip) in CALL_SLIPS {
        if slip(case).is_some_and(|given| shows(case, &given)) {
            shown.push(name.into());
        }
    }
    shown
}

fn label(edition: i32, slip: &str) -> String {
    format!("edition {edition}: {slip}")
}

fn expected() -> BTreeSet<String> {
    let of_edition = |edition: i32| {
        let wide = (edition != 1).then_some(WIDE_SLIP);
        let slips = FORM_SLIPS.into_iter().chain(wide);
        slips.map(move |(name, _)| label(edition, name))
    };
    let of_call = CALL_SLIPS.map(|(name, _)| name.into());
    (1..=3).flat_map(of_edition).chain(of_call).collect()
}

#[test]
fn every_slip_shows_in_generated_cases() {
    reach_all((0..1000).map(case), shown, expected());
}
