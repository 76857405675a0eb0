//! 02 "One way to write a job": small jobs whose standard forms are written out by hand,
//! and calls with buffers of every length.

mod common;

use common::{small_farm_job, two_lane_job};
use second::edition::Edition;
use second::form::checker::{check, check_form};
use second::form::{call, standard, standard_form, WriteCase};
use second::job::Job;
use second::words::{bytes_of, words_of};

/// A call with buffers of these lengths, full of 0xC3.
fn lent(job: &[u8], form_bytes: usize, report_bytes: usize) -> WriteCase {
    WriteCase {
        job: job.to_vec(),
        form: vec![0xC3; form_bytes],
        report: vec![0xC3; report_bytes],
    }
}

/// The job's form is this one, also by the checker, and its own form is itself.
#[track_caller]
fn is_written_as(job: &[i32], form: &[i32]) {
    let [job, form] = [job, form].map(bytes_of);
    for bytes in [&job, &form] {
        let case = lent(bytes, form.len(), 8);
        let (result, written, report) = call(&case);
        assert_eq!((result, words_of(&written)), (0, words_of(&form)));
        assert_eq!(report, (form.len() as u64).to_le_bytes());
        assert_eq!(check(&case, &written, &report, result), Ok(()));
        assert_eq!(check_form(bytes, &form), Ok(()));
    }
}

/// Of edition 1: one piece, two effects, two rows, four records. Row 1 has effect 2 and
/// then effect 1, row 2 a factor of 0 alone; record 2 is on no chain.
const SMALL_JOB: [i32; 43] = [
    1, 50, 1, 50, 300, 2, 0, 2, 2, 4, //
    8, 0, // the line
    9, 8, 7, 6, 5, 4, 3, // across
    1000, 1, -2, 2, // the effects
    1, 1, 1350, 3, 2, 0, 0, 1, // the rows
    1, 0, 0, 1, 7, 2, 2, 1200, 4, 1, 1000, 0, // the records
];

/// Its form, byte by byte: 37 words, with two records of row 1 and none of row 2.
#[rustfmt::skip]
const SMALL_FORM: [u8; 148] = [
    1, 0, 0, 0, 50, 0, 0, 0, 1, 0, 0, 0, 50, 0, 0, 0, 0x2C, 1, 0, 0,
    2, 0, 0, 0, 0, 0, 0, 0, 2, 0, 0, 0, 2, 0, 0, 0, 2, 0, 0, 0,
    8, 0, 0, 0, 0, 0, 0, 0,
    9, 0, 0, 0, 8, 0, 0, 0, 7, 0, 0, 0, 6, 0, 0, 0, 5, 0, 0, 0, 4, 0, 0, 0, 3, 0, 0, 0,
    0xE8, 3, 0, 0, 1, 0, 0, 0, 0xFE, 0xFF, 0xFF, 0xFF, 2, 0, 0, 0,
    1, 0, 0, 0, 1, 0, 0, 0, 0x46, 5, 0, 0, 1, 0, 0, 0,
    2, 0, 0, 0, 0, 0, 0, 0, 0, 0, 0, 0, 0, 0, 0, 0,
    1, 0, 0, 0, 0xE8, 3, 0, 0, 2, 0, 0, 0,
    2, 0, 0, 0, 0xB0, 4, 0, 0, 0, 0, 0, 0,
];

#[test]
fn a_form_byte_by_byte() {
    let job = Job::decode(&SMALL_JOB);
    assert_eq!(standard_form(&job), SMALL_FORM);
    is_written_as(&SMALL_JOB, &words_of(&SMALL_FORM));
}

/// Rows 1 and 2 share a chain, effects 1 and 2, which ends row 3's after effect 4; row 4
/// has effect 3; record 5 is on no chain. Written out there are eight records, not five,
/// so the form is longer than its job by nine words.
#[test]
fn shared_tails_are_written_out() {
    let job = two_lane_job().words();
    let mut form = job.clone();
    form[9] = 8;
    for (place, first) in [(45, 1), (49, 3), (53, 5), (57, 8)] {
        form[place] = first;
    }
    form.truncate(58);
    form.extend([1, 1000, 2, 2, 1500, 0]); // row 1
    form.extend([1, 1000, 4, 2, 1500, 0]); // row 2
    form.extend([1, 1000, 6, 2, 1500, 7, 4, 1200, 0]); // row 3
    form.extend([3, 1000, 0]); // row 4
    assert_eq!((job.len(), form.len()), (73, 82));
    is_written_as(&job, &form);
}

/// Of edition 2, with spans by sign and effects of three words: the halves of -2 are -2 and
/// -1, those of 2 ^ 32 + 5 are 5 and 1, then comes 0. Row 1 has effect 3, a factor of 0 for
/// effect 1 and effect 2; row 2 has the same; row 3 has none.
#[test]
fn a_form_of_edition_2() {
    let before_rows = [
        2, 50, 1, 50, 300, 4, 120, 3, 3, 0, 200, 0, //
        8, 8, //
        1, 2, 3, 4, 5, 6, 7, //
        -2, -1, 2, 5, 1, 1, 0, 0, 2, //
    ];
    let with = |records: i32, rest: &[i32]| {
        let mut words = [&before_rows[..], rest].concat();
        words[9] = records;
        words
    };
    let rows_and_records = [
        1, 2, 1500, 2, 1, 2, 1500, 2, 2, 1, 0, 0, // the rows
        1, 0, 3, 3, 900, 1, 2, 3000, 0, // the records
    ];
    let written = [
        1, 2, 1500, 1, 1, 2, 1500, 3, 2, 1, 0, 0, // the rows
        2, 3000, 2, 3, 900, 0, 2, 3000, 4, 3, 900, 0, // the records
    ];
    is_written_as(&with(3, &rows_and_records), &with(4, &written));
}

/// Of edition 3: a second width, 301, with a section of its own. Row 1 has none, row 2 an
/// effect; row 3 falls from effect 2 to effect 1.
#[test]
fn a_form_of_edition_3() {
    let before_rows = [
        3, 50, 1, 50, 300, 1, 1300, 2, 3, 0, 0, 0, 301, //
        -500, 0, //
        1, 2, 3, 4, 5, 6, 7, //
        8, 7, 6, 5, 4, 3, 2, 1, //
        100, 0, 1, 200, 0, 2, //
    ];
    let with = |records: i32, rest: &[i32]| {
        let mut words = [&before_rows[..], rest].concat();
        words[9] = records;
        words
    };
    let rows_and_records = [
        2, 0, 0, 0, 2, 0, 0, 2, 1, 1, 5, 1, // the rows
        2, 20, 2, 1, 10, 0, // the records
    ];
    let written = [
        2, 0, 0, 0, 2, 0, 0, 1, 1, 1, 5, 2, // the rows
        1, 10, 0, 1, 10, 3, 2, 20, 0, // the records
    ];
    is_written_as(&with(2, &rows_and_records), &with(3, &written));
}

/// Without effects there are no records, and the job is its form.
#[test]
fn a_job_without_effects_is_its_form() {
    let mut job = common::level_job(300, 50, vec![1000; 7]);
    is_written_as(&job.words(), &job.words());
    job.edition = Edition::Two;
    job.further_header = vec![0, 0];
    is_written_as(&job.words(), &job.words());
}

/// An effect of value 0 keeps its record; a factor of 0 does not, whatever its effect.
#[test]
fn factors_are_dropped_but_not_effects() {
    let mut job = two_lane_job();
    job.effects.iter_mut().for_each(|effect| effect.value = 0);
    assert_eq!(standard(&job).records.len(), 8);
    job.records.iter_mut().for_each(|record| record.factor = 0);
    let written = standard(&job);
    assert_eq!(written.records, []);
    assert!(written.rows.iter().all(|row| row.first == 0));
}

/// The result and both buffers after a call.
#[track_caller]
fn gives(case: &WriteCase, result: u64, form: &[u8], report: &[u8]) {
    let given = call(case);
    assert_eq!(given, (result, form.to_vec(), report.to_vec()));
    assert_eq!(check(case, form, report, result), Ok(()));
}

/// The form is at the buffer's front; bytes past it, and past the report, stay.
#[test]
fn longer_buffers_keep_the_bytes_past() {
    let job = bytes_of(&SMALL_JOB);
    for (past_form, past_report) in [(0, 0), (1, 0), (0, 1), (24, 8), (1000, 100)] {
        let case = lent(&job, 148 + past_form, 8 + past_report);
        let form = [&SMALL_FORM[..], &vec![0xC3; past_form]].concat();
        let mut report = vec![0xC3; 8 + past_report];
        report[..8].copy_from_slice(&[148, 0, 0, 0, 0, 0, 0, 0]);
        gives(&case, 0, &form, &report);
    }
}

/// The job's own 172 bytes would do; those of a buffer one short of 148 or shorter stay.
#[test]
fn a_short_output_buffer_is_refused_with_12() {
    let job = bytes_of(&SMALL_JOB);
    for length in [0, 1, 8, 40, 144, 147] {
        let mut report = vec![0; 8];
        gives(
            &lent(&job, length, 8),
            256 * 148 + 12,
            &vec![0xC3; length],
            &report,
        );
        report.extend([0xC3; 3]);
        gives(
            &lent(&job, length, 11),
            256 * 148 + 12,
            &vec![0xC3; length],
            &report,
        );
    }
    // A form longer than its job: 328 bytes of 292.
    let job = two_lane_job().bytes();
    gives(&lent(&job, 292, 8), 256 * 328 + 12, &[0xC3; 292], &[0; 8]);
}

/// A short report counts before anything of the job or of the output buffer, and is
/// cleared.
#[test]
fn a_short_report_is_refused_with_2() {
    let mut uneven = bytes_of(&SMALL_JOB);
    uneven.push(0);
    let farm = small_farm_job([1; 11]).bytes();
    for job in [bytes_of(&SMALL_JOB), vec![], uneven, farm] {
        for (form, report) in [(148, 0), (148, 7), (147, 1), (0, 4)] {
            let case = lent(&job, form, report);
            gives(&case, 2, &vec![0xC3; form], &vec![0; report]);
        }
    }
}

/// A refused job gets its own refusal, whatever the output buffer; an edition 4 job, good
/// or bad, gets 1.
#[test]
fn a_refused_job_gets_its_refusal() {
    let spoiled = |place: usize, word: i32| {
        let mut words = SMALL_JOB;
        words[place] = word;
        bytes_of(&words)
    };
    let farm = small_farm_job([1; 11]);
    let mut bad_farm = farm.clone();
    bad_farm.width = 2079;
    let mut short_farm = farm.bytes();
    short_farm.truncate(44);
    for (job, number, place) in [
        (vec![], 1, 0),
        (spoiled(0, 5), 1, 0),
        (spoiled(4, 299), 2, 4),
        (spoiled(9, 3), 3, 40),
        (spoiled(12, 1001), 4, 12),
        (spoiled(11, -1), 5, 10),
        (spoiled(32, 3001), 6, 32),
        (spoiled(42, 3), 7, 23),
        (spoiled(37, 1), 8, 23),
        (farm.bytes(), 1, 0),
        (bad_farm.bytes(), 1, 0),
        (short_farm, 1, 0),
    ] {
        for length in [0, 147, 148, 1000] {
            let case = lent(&job, length, 9);
            let report = [0, 0, 0, 0, 0, 0, 0, 0, 0xC3];
            gives(&case, 256 * place + number, &vec![0xC3; length], &report);
        }
    }
}
