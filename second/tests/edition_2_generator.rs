//! The generator reaches every refusal and kind of place of a job of edition 2,
//! every kind of value and the largest rows.

mod common;

use common::streams::{
    answer_to, header_word_labels, refusal_labels, refusals_due, refusals_of_tables_due,
    section_labels, shape_labels, shapes_due, state_labels, states_due, texts, Asked,
};
use second::account::Account;
use second::edition::Edition;
use second::generator::{Case, Stream};
use second::job::Job;
use second::loads::Question;
use second::sections::Sections;
use second::words::{joined, words_of};
use std::collections::BTreeSet;
use std::ops::Range;

const MOST: i64 = 100_000_000_000_000;

/// What is worth reaching about a case.
fn labels(case: &Case) -> Vec<String> {
    let answer = answer_to(case);
    if answer.refusal != 0 {
        return refusal_labels(Edition::Two, case, &answer, place_labels);
    }
    let job = Job::decode(&words_of(&case.job));
    if job.edition != Edition::Two {
        return vec![];
    }
    let mut labels = job_labels(&job);
    labels.extend(value_labels(&job));
    labels.extend(state_labels(&job, &answer.account));
    labels.extend(size_labels(&answer.account));
    labels
}

fn place_labels(words: &[i32], number: u64, place: usize) -> Vec<String> {
    if number == 2 {
        return header_labels(words, place);
    }
    let mut labels = section_labels(words, place);
    let sections = Sections::called_for_by(words);
    if sections.effects.contains(&place) {
        labels.extend(effect_labels(words, &sections, place));
    }
    labels
}

fn header_labels(words: &[i32], place: usize) -> Vec<String> {
    let mut labels = header_word_labels(words, place);
    for later in [10, 11] {
        if place < later && words[later] != 0 {
            labels.push(format!("word {place} before {later}"));
        }
    }
    labels
}

/// What of an effect is at fault.
fn effect_labels(words: &[i32], sections: &Sections, place: usize) -> Vec<String> {
    if (place - sections.effects.start) % 3 == 2 {
        return vec![format!("mark {}", words[place])];
    }
    let (low, high) = (words[place], words[place + 1]);
    let value = joined(low, high);
    let side = if value > 0 { "above" } else { "below" };
    let mut labels = vec![format!("{side} its limits")];
    let mut reached = |holds: bool, label: &str| {
        if holds {
            labels.push(format!("{side}, {label}"));
        }
    };
    reached(value.abs_diff(0) == MOST as u64 + 1, "by 1");
    reached(high == 23_283 || high == -23_284, "a limit's high half");
    reached(high == 23_284 || high == -23_285, "the next high half");
    reached(high == i32::MAX || high == i32::MIN, "the last high half");
    reached(low == 0, "a low half of 0");
    reached(low < 0, "the low half's top bit");
    reached(!(1..=2).contains(&words[place + 2]), "before its mark");
    let row_fault = |rows: &Range<usize>| {
        let mut states = words[rows.clone()].iter().step_by(4);
        states.any(|state| !(1..=2).contains(state))
    };
    reached(row_fault(&sections.rows), "before a row");
    labels
}

fn job_labels(job: &Job) -> Vec<String> {
    let mut labels = shape_labels(job);
    labels.push(format!("{} effects", job.effects.len()));
    labels.push(format!("{} rows", job.rows.len()));
    labels.push(format!("{} records", job.records.len()));
    for row in &job.rows {
        labels.push(format!("live kind {}", row.live_kind));
        let chain = job.chain(row);
        labels.push(format!("a chain of {}", chain.len()));
        if chain.len() == 16 && chain.iter().all(|record| record.factor == 3000) {
            let signs: BTreeSet<i64> = job.effects.iter().map(|e| e.value.signum()).collect();
            let at_limits = job.effects.iter().all(|effect| effect.value.abs() == MOST);
            if at_limits {
                labels.push(format!("sixteen at their limits, signs {signs:?}"));
            }
        }
    }
    labels
}

fn value_labels(job: &Job) -> Vec<String> {
    let mut labels = vec![];
    for (number, effect) in (1..).zip(&job.effects) {
        let (value, mark) = (effect.value, effect.mark);
        labels.push(format!("value {value}"));
        if value.abs() == MOST {
            labels.push(format!("{value} marked {mark}"));
            labels.push(format!("effect {number} is {value}"));
        }
        let (low, high) = (value as i32, value >> 32);
        if low < 0 {
            labels.push(format!(
                "the low half's top bit, high half {}",
                high.signum()
            ));
        }
        if high == -1 {
            labels.push("a high half of -1".into());
        }
    }
    labels
}

/// How large the values of the states are.
fn size_labels(account: &Account) -> Vec<String> {
    let mut labels = vec![];
    for (name, state) in [("service", account.service), ("ultimate", account.ultimate)] {
        for question in Question::BOTH {
            let size = state.governing(question).value.unsigned_abs();
            let named = [
                ("past 4.8e18", size > 4_800_000_000_000_000_000),
                ("is the largest", size == 4_800_115_362_000_000_000),
                ("past 32 bits", size > 1 << 32),
            ];
            let holding = named.into_iter().filter(|(_, holds)| *holds);
            labels.extend(holding.map(|(label, _)| format!("{name} {question:?} {label}")));
        }
    }
    labels
}

fn expected_refusals() -> Vec<String> {
    let mut expected = texts(&[
        "4: piece word 0",
        "4: piece word 1",
        "4: transverse word 0",
        "5: piece word 0",
    ]);
    expected.extend(refusals_due());
    expected.extend(refusals_of_tables_due());
    expected.extend([40, 43, 44, 47].map(|bytes| format!("1: {bytes} bytes")));
    expected.extend([0, 5, -2].map(|edition| format!("1: edition {edition}")));
    expected.extend((1..=11).map(|place| format!("2: word {place}")));
    for place in [10, 11] {
        expected.extend([1, -1].map(|word| format!("2: word {place} is {word}")));
        expected.push(format!("2: word {place} is far off"));
        expected.extend((1..place).map(|lower| format!("2: word {lower} before {place}")));
    }
    expected.extend((2..=8).map(|number| format!("{number}: before 9")));
    expected
}

fn expected_effect_faults() -> Vec<String> {
    let mut expected = texts(&["6: effect word 2"]);
    expected.extend([0, 3].map(|mark| format!("6: mark {mark}")));
    for side in ["above", "below"] {
        expected.push(format!("6: {side} its limits"));
        for label in [
            "by 1",
            "a limit's high half",
            "the next high half",
            "the last high half",
            "a low half of 0",
            "the low half's top bit",
            "before its mark",
            "before a row",
        ] {
            expected.push(format!("6: {side}, {label}"));
        }
    }
    expected
}

fn expected_jobs() -> Vec<String> {
    let mut expected = texts(&[
        "a chain of 0",
        "a chain of 16",
        "sixteen at their limits, signs {1}",
        "sixteen at their limits, signs {-1}",
        "sixteen at their limits, signs {-1, 1}",
        "a high half of -1",
        "the low half's top bit, high half -1",
        "the low half's top bit, high half 0",
        "the low half's top bit, high half 1",
    ]);
    expected.extend(shapes_due(1..=5, 1..=3));
    expected.extend((0..=2).map(|kind| format!("live kind {kind}")));
    expected.extend([0, 1, 16].map(|effects| format!("{effects} effects")));
    expected.extend([1, 32].map(|rows| format!("{rows} rows")));
    expected.extend([0, 512].map(|records| format!("{records} records")));
    for side in [1, -1] {
        let around = [1 << 31, 1 << 32].map(|end| [end - 1, end, end + 1]);
        let values = [0, 1, MOST - 1, MOST].into_iter().chain(around.concat());
        expected.extend(values.map(|value| format!("value {}", side * value)));
        let limit = side * MOST;
        expected.extend([1, 2].map(|mark| format!("{limit} marked {mark}")));
        expected.extend((1..=16).map(|effect| format!("effect {effect} is {limit}")));
    }
    expected
}

fn expected_sizes() -> Vec<String> {
    let mut expected = vec![];
    for question in Question::BOTH {
        for name in ["service", "ultimate"] {
            let sizes = ["past 4.8e18", "past 32 bits"];
            expected.extend(sizes.map(|size| format!("{name} {question:?} {size}")));
        }
        expected.push(format!("ultimate {question:?} is the largest"));
    }
    expected
}

stream_tests!(Asked {
    stream: Stream::Two,
    labels,
    expected: &[
        expected_refusals,
        expected_effect_faults,
        expected_jobs,
        states_due,
        expected_sizes,
    ],
    seeds: 20_000,
    with_chosen: true,
    order: &[1, 2, 3, 4, 5, 6, 7, 8, 9],
    admitted_since: &[Edition::Three],
    least_of_3: 180,
    sum: 15_329_208_469_268_208_468,
});
