//! A kernel with a slip in the spans by sign or in their factors gives another account
//! of some case: of a generated one, and of one chosen by hand.

mod common;

use common::streams::{answer_to, reach_all};
use second::account::Account;
use second::chosen;
use second::generator::{case, Case, Stream};
use second::job::{Job, SERVICE, ULTIMATE};
use second::loads::{Live, Question};
use second::solve::account_of;
use second::words::words_of;
use std::collections::BTreeSet;

/// The spans of a job, for greatest and for least.
fn spans(job: &Job) -> [i64; 2] {
    [job.dynamic_value, job.further_header[0]]
}

/// The right factors of spans in dm.
fn factors(spans: [i64; 2]) -> [i64; 2] {
    level_to(120, spans, curve)
}

/// 1000 and 150000/(L + 380), L in dm, rounded up: one more than 149999 divided.
fn curve(span: i64) -> i64 {
    1001 + 149_999 / (span + 380)
}

/// The factors where the curve is level to this span.
fn level_to(end: i64, spans: [i64; 2], curve: fn(i64) -> i64) -> [i64; 2] {
    spans.map(|span| if span <= end { 1300 } else { curve(span) })
}

/// A slip, as the factors for greatest and for least that it takes.
type Slip = fn(&Job) -> [i64; 2];

const SLIPS: [(&str, Slip); 13] = [
    ("word 6 for both", |job| factors([spans(job)[0]; 2])),
    ("word 10 for both", |job| factors([spans(job)[1]; 2])),
    ("exchanged", |job| {
        let [greatest, least] = spans(job);
        factors([least, greatest])
    }),
    // Where the line has one sign, every element is raising, or lowering.
    ("by direction", |job| {
        let [greatest, least] = spans(job);
        let ends = || {
            job.pieces
                .iter()
                .flat_map(|piece| [piece.left, piece.right])
        };
        if ends().all(|ordinate| ordinate >= 0) {
            factors([greatest; 2])
        } else if ends().all(|ordinate| ordinate <= 0) {
            factors([least; 2])
        } else {
            factors([greatest, least])
        }
    }),
    ("rounded down", |job| {
        level_to(120, spans(job), |span| 1000 + 150_000 / (span + 380))
    }),
    ("rounded to the nearest", |job| {
        level_to(120, spans(job), |span| {
            1000 + (150_000 + (span + 380) / 2) / (span + 380)
        })
    }),
    ("a thousandth added where whole", |job| {
        level_to(120, spans(job), |span| 1001 + 150_000 / (span + 380))
    }),
    ("never level", |job| level_to(0, spans(job), curve)),
    ("level to 122", |job| level_to(122, spans(job), curve)),
    ("level all along", |job| level_to(2000, spans(job), |_| 0)),
    ("decimetres as metres", |job| {
        level_to(12, spans(job), |span| 1001 + 14_999 / (span + 38))
    }),
    ("whole metres", |job| {
        level_to(120, spans(job), |span| 1001 + 14_999 / (span / 10 + 38))
    }),
    ("as a fill", |job| {
        spans(job).map(|span| (1300 - 3 * span).max(1000))
    }),
];

/// What an account gives for a question: normal, overload, service and ultimate.
fn values(account: &Account, question: Question) -> [(String, i64); 4] {
    let live = |live| {
        let value = account.traffic(live, question).value;
        (format!("{live:?} {question:?}"), value)
    };
    let state = |name: &str, state| {
        let value = account.state(state).governing(question).value;
        (format!("{name} {question:?}"), value)
    };
    [
        live(Live::Normal),
        live(Live::Overload),
        state("service", SERVICE),
        state("ultimate", ULTIMATE),
    ]
}

/// The account of a job whose dynamic factor is this one for both questions.
fn with_factor(job: &Job, factor: i64) -> Account {
    let mut job = job.clone();
    (job.dynamic_kind, job.dynamic_value) = (1, factor);
    account_of(&job)
}

/// The slips that show in a case, with what they show in.
fn shown(case: &Case) -> Vec<String> {
    let answer = answer_to(case);
    let words = words_of(&case.job);
    if answer.refusal != 0 || words[5] != 4 {
        return vec![];
    }
    let job = Job::decode(&words);
    let right = factors(spans(&job));
    let mut labels = vec![];
    for (at, question) in Question::BOTH.into_iter().enumerate() {
        let due = values(&answer.account, question);
        assert_eq!(values(&with_factor(&job, right[at]), question), due);
        for (name, slip) in SLIPS {
            let factor = slip(&job)[at];
            if factor == right[at] {
                continue;
            }
            let found = values(&with_factor(&job, factor), question);
            let differing = found.iter().zip(&due).filter(|(found, due)| found != due);
            labels.extend(differing.map(|((value, _), _)| format!("{name}: {value}")));
        }
    }
    labels
}

/// Every slip in every value, but that a question's own word is no slip of it.
fn expected() -> BTreeSet<String> {
    let mut expected = BTreeSet::new();
    for (name, _) in SLIPS {
        for question in Question::BOTH {
            let own_word = match question {
                Question::Greatest => "word 6 for both",
                Question::Least => "word 10 for both",
            };
            if name != own_word {
                let values = ["Normal", "Overload", "service", "ultimate"];
                expected.extend(values.map(|value| format!("{name}: {value} {question:?}")));
            }
        }
    }
    expected
}

#[test]
fn every_slip_shows_in_generated_cases() {
    let cases = (0..1500).map(|seed| case(Stream::Spans, seed));
    reach_all(cases, shown, expected());
}

#[test]
fn every_slip_shows_in_chosen_cases() {
    reach_all(chosen::cases(Stream::Spans), shown, expected());
}
