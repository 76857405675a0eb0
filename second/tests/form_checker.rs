//! The checker of written forms takes every right answer and finds every tampering, and
//! what it asks of a form finds any other form without a look at the one due.

mod common;

use common::{small_farm_job, two_lane_job};
use second::form::checker::{check, check_form};
use second::form::{call, standard, standard_form, WriteCase};
use second::generator::form::{case, differing, respelled, sound_job};
use second::generator::Stream;
use second::job::{Job, Record};
use second::rng::Rng;
use second::spelled_job::spelled_job;

#[test]
fn right_answers_pass() {
    for seed in 0..1500 {
        let case = case(seed);
        let (result, form, report) = call(&case);
        assert_eq!(check(&case, &form, &report, result), Ok(()), "{seed}");
    }
}

/// A call and what it gave.
#[derive(Clone)]
struct Given {
    case: WriteCase,
    result: u64,
    form: Vec<u8>,
    report: Vec<u8>,
}

impl Given {
    fn of(job: &[u8], form_bytes: usize, report_bytes: usize) -> Given {
        let case = WriteCase {
            job: job.to_vec(),
            form: vec![0xC3; form_bytes],
            report: vec![0xC3; report_bytes],
        };
        let (result, form, report) = call(&case);
        Given {
            case,
            result,
            form,
            report,
        }
    }

    fn check(&self) -> Result<(), String> {
        check(&self.case, &self.form, &self.report, self.result)
    }
}

/// A change, with words of the reason that it is refused for.
type Change<T> = (&'static str, fn(&mut T));

/// The call passes, but each change is refused for its reason.
#[track_caller]
fn refuses(given: &Given, changes: &[Change<Given>]) {
    assert_eq!(given.check(), Ok(()));
    for (reason, change) in changes {
        let mut changed = given.clone();
        change(&mut changed);
        let fault = changed.check().expect_err(reason);
        assert!(fault.contains(reason), "not for {reason}, but {fault}");
    }
}

/// Changes of a call that wrote the spelled job's form, of 280 bytes; C, at byte 36, is 7.
const TAMPERINGS: [Change<Given>; 20] = [
    ("refusal is 12", |given| given.result = 12 + 256 * 280),
    ("refusal is 1", |given| given.result = 1),
    ("place is 280", |given| given.result = 256 * 280),
    ("place", |given| given.result = 1 << 63),
    ("byte 0 of the report", |given| given.report[0] += 1),
    ("byte 1 of the report", |given| given.report[1] = 0),
    ("byte 7 of the report", |given| given.report[7] = 1),
    ("byte 8 past the report", |given| given.report[8] = 0),
    ("byte 9 past the report", |given| given.report[9] = 0),
    ("the report's length", |given| given.report.truncate(9)),
    ("the report's length", |given| given.report.push(0xC3)),
    ("the output buffer's length", |given| given.form.push(0xC3)),
    ("the output buffer's length", |given| {
        given.form.truncate(280)
    }),
    ("byte 280 past the form", |given| given.form[280] = 0),
    ("byte 282 past the form", |given| given.form[282] = 0),
    ("the form is refused", |given| given.form[0] = 4),
    ("the form is refused", |given| given.form[36] = 8),
    ("the form is refused", |given| given.form.fill(0xC3)),
    ("word 1 is 10", |given| given.form[4] = 10),
    ("record 3's effect does not rise", |given| {
        // Row 1's records 2 and 3 exchanged.
        given.form[208..216].copy_from_slice(&[3, 0, 0, 0, 0xE8, 3, 0, 0]);
        given.form[220..228].copy_from_slice(&[2, 0, 0, 0, 0xE8, 3, 0, 0]);
    }),
];

#[test]
fn tampering_with_a_written_form_is_found() {
    let given = Given::of(&spelled_job().bytes(), 283, 10);
    assert_eq!(given.result, 0);
    refuses(&given, &TAMPERINGS);
}

/// No byte of the form may be another, and none of the report.
#[test]
fn every_byte_counts() {
    let given = Given::of(&spelled_job().bytes(), 283, 10);
    for by in [1, 2, 0x80, 0xFF] {
        for at in 0..given.form.len() {
            let mut changed = given.clone();
            changed.form[at] ^= by;
            assert!(changed.check().is_err(), "byte {at} by {by}");
        }
        for at in 0..given.report.len() {
            let mut changed = given.clone();
            changed.report[at] ^= by;
            assert!(changed.check().is_err(), "byte {at} by {by}");
        }
    }
}

/// A job refused for the buffer, itself or for its edition, and a short report.
#[test]
fn tampering_with_a_refusal_is_found() {
    let farm = small_farm_job([1; 11]).bytes();
    let job = spelled_job().bytes();
    for (given, result) in [
        (Given::of(&job, 279, 9), 12 + 256 * 280),
        (Given::of(&job[..288], 279, 9), 3 + 256 * 73),
        (Given::of(&farm, 279, 9), 1),
    ] {
        assert_eq!(given.result, result);
        refuses(
            &given,
            &[
                ("refusal is 0", |given| given.result = 0),
                ("place", |given| given.result += 256),
                ("byte 0 past the form", |given| given.form[0] = 1),
                ("byte 278 past the form", |given| given.form[278] = 0),
                ("byte 0 of the report", |given| given.report[0] = 0x18),
                ("byte 1 of the report", |given| given.report[1] = 1),
                ("byte 7 of the report", |given| given.report[7] = 0xC3),
                ("byte 8 past the report", |given| given.report[8] = 0),
            ],
        );
    }
    let given = Given::of(&job, 280, 7);
    assert_eq!(given.result, 2);
    refuses(
        &given,
        &[
            ("refusal is 0", |given| given.result = 0),
            ("refusal is 9", |given| given.result = 9),
            ("place", |given| given.result += 256),
            ("byte 0 past the form", |given| given.form[0] = 1),
            ("byte 0 of the report", |given| given.report[0] = 0x18),
            ("byte 6 of the report", |given| given.report[6] = 0xC3),
        ],
    );
}

/// Changes of the spelled job's form.
const OTHER_FORMS: [Change<Job>; 18] = [
    ("the form is refused", |form| form.width = 299),
    ("the form is refused", |form| form.records[2].next = 1),
    ("place", |form| form.pieces.truncate(3)),
    ("word 4 ", |form| form.width = 399),
    ("word 6 ", |form| form.dynamic_value = 1299),
    ("word 12", |form| form.pieces[1].left = 124),
    ("word 18", |form| form.transverse[0] = 799),
    ("word 27", |form| form.effects[0].value += 1),
    ("word 30", |form| form.effects[1].mark = 1),
    ("word 33", |form| form.rows[0].state = 2),
    ("word 38", |form| form.rows[1].live_kind = 1),
    ("word 39", |form| form.rows[1].live_factor = 999),
    ("agrees is false", |form| form.records[0].factor = 999),
    ("agrees is false", |form| form.rows[3].first = 1),
    ("factor is 0", |form| {
        form.rows[3].first = 8;
        form.records.push(Record::new(2, 0, 0));
    }),
    ("row 2's record is 6", |form| {
        // Rows 2 and 3 in each other's place.
        (form.rows[1].first, form.rows[2].first) = (6, 4);
        form.records[3..].rotate_left(2);
        (form.records[3].next, form.records[5].next) = (5, 7);
    }),
    ("the number of records is 8", |form| {
        form.records.push(Record::new(1, 1000, 8))
    }),
    ("does not rise", |form| {
        (form.records[5].effect, form.records[5].factor) = (2, 1350);
        (form.records[6].effect, form.records[6].factor) = (1, 1200);
    }),
];

/// Each is refused by what is asked of a form.
#[test]
fn what_is_asked_of_a_form_finds_any_other() {
    let job = spelled_job();
    let form = standard(&job);
    assert_eq!(check_form(&job.bytes(), &form.bytes()), Ok(()));
    for (reason, change) in OTHER_FORMS {
        let mut changed = form.clone();
        change(&mut changed);
        let fault = check_form(&job.bytes(), &changed.bytes()).expect_err(reason);
        assert!(fault.contains(reason), "not for {reason}, but {fault}");
    }
}

/// Rows 1 and 2 have one chain, of the first two of eight records, and what follows is
/// numbered from 3 on.
#[test]
fn a_shared_chain_is_found() {
    let job = two_lane_job();
    let mut form = standard(&job);
    form.records.drain(2..4);
    for (row, first) in [(1, 1), (2, 3), (3, 6)] {
        form.rows[row].first = first;
    }
    (form.records[2].next, form.records[3].next) = (4, 5);
    let fault = check_form(&job.bytes(), &form.bytes());
    assert_eq!(fault, Err("row 2's record is 1, 3 is due".into()));
}

/// Of a job's spellings the form alone passes, and of a differing job none.
#[test]
fn no_other_spelling_passes_as_a_form() {
    for stream in [Stream::One, Stream::Two, Stream::Spans, Stream::Three] {
        for seed in 0..60 {
            let mut rng = Rng::new(seed);
            let job = sound_job(&mut rng, stream);
            let (bytes, form) = (job.bytes(), standard_form(&job));
            for _ in 0..3 {
                let other = respelled(&mut rng, &job).bytes();
                assert_eq!(check_form(&bytes, &other).is_ok(), other == form);
            }
            let other = differing(&mut rng, &job).expect("a word can be another");
            assert!(check_form(&bytes, &standard_form(&other)).is_err());
        }
    }
}
