//! Edition 4's stream reaches every refusal, by every cause and kind of place,
//! every built-in row in every question, and every shape of farm job.

mod common;

use common::streams::{
    answer_to, header_word_labels, refusal_labels, refusals_due, shape_labels, shapes_due, texts,
    Asked,
};
use second::account::{Account, Governing};
use second::combination::Part;
use second::edition::Edition;
use second::farm;
use second::generator::{Case, Stream};
use second::job::Job;
use second::line::patch_byte;
use second::loads::Question;
use second::sections::Sections;
use second::words::words_of;
use std::collections::BTreeSet;
use std::ops::Range;

/// What is worth reaching about a case.
fn labels(case: &Case) -> Vec<String> {
    let answer = answer_to(case);
    if answer.refusal != 0 {
        return refusal_labels(Edition::Four, case, &answer, place_labels);
    }
    let job = Job::decode(&words_of(&case.job));
    if job.edition != Edition::Four {
        return vec![];
    }
    let mut labels = job_labels(&job);
    labels.extend(outcome_labels(&job, &answer.account));
    labels
}

fn place_labels(words: &[i32], number: u64, place: usize) -> Vec<String> {
    match number {
        2 => header_labels(words, place),
        11 => width_labels(words),
        6 => effect_labels(words, place),
        _ => ordinate_labels(words, place),
    }
}

fn header_labels(words: &[i32], place: usize) -> Vec<String> {
    let mut labels = header_word_labels(words, place);
    if place == 10 && !(300..=430).contains(&words[4]) {
        labels.push("before 11".into());
    }
    labels
}

/// The width with its barriers, and what is at fault besides.
fn width_labels(words: &[i32]) -> Vec<String> {
    let mut labels = vec![format!("W {}, barriers {}", words[4], words[10])];
    let sections = Sections::called_for_by(words);
    if words.len() == sections.words_due() {
        let faults = later_faults(words, &sections);
        labels.extend(faults.iter().map(|later| format!("before {later}")));
    } else {
        labels.push("before 3".into());
    }
    labels
}

/// Whether 4, 5 and 6 apply.
fn later_faults(words: &[i32], sections: &Sections) -> Vec<u64> {
    let section = |section: &Range<usize>| words[section.clone()].iter().map(|&w| i64::from(w));
    let line: Vec<i64> = section(&sections.line).collect();
    let effects: Vec<i64> = section(&sections.effects).collect();
    let too_far = line.iter().any(|word| word.abs() > 5000)
        || section(&sections.transverse).any(|word| word.abs() > 1000);
    let crossing = line.chunks(2).any(|piece| piece[0] * piece[1] < 0);
    let wrong_effect = effects
        .chunks(2)
        .enumerate()
        .any(|(at, effect)| effect[1] != 1 + i64::from(at >= 3) || effect[0].abs() > 1_000_000_000);
    let faults = [(4, too_far), (5, crossing), (6, wrong_effect)];
    let applying = faults.into_iter().filter(|(_, applies)| *applies);
    applying.map(|(number, _)| number).collect()
}

fn effect_labels(words: &[i32], place: usize) -> Vec<String> {
    let within = place - Sections::called_for_by(words).effects.start;
    let (effect, word) = (within / 2 + 1, words[place]);
    match within % 2 {
        0 => vec![format!("value of effect {effect}"), format!("value {word}")],
        _ => vec![format!("mark {word} of effect {effect}")],
    }
}

fn ordinate_labels(words: &[i32], place: usize) -> Vec<String> {
    let sections = Sections::called_for_by(words);
    let in_line = sections.line.contains(&place);
    vec![if in_line {
        "a piece"
    } else {
        "a transverse ordinate"
    }
    .into()]
}

fn job_labels(job: &Job) -> Vec<String> {
    let barriers = job.further_header[0];
    let mut labels = shape_labels(job);
    match job.width {
        300 | 370 | 430 => labels.push(format!("W {}, barriers {barriers}", job.width)),
        _ => labels.push(format!("W between, barriers {barriers}")),
    }
    let mut reached = |holds: bool, label: &str| {
        if holds {
            labels.push(label.into());
        }
    };
    let bytes: BTreeSet<u8> = job.pieces.iter().map(patch_byte).collect();
    reached(bytes == [0].into(), "zero line");
    reached(bytes == [1].into(), "line above 0");
    reached(bytes == [2].into(), "line below 0");
    reached(
        bytes.contains(&1) && bytes.contains(&2),
        "line of both signs",
    );
    let longest = job.pieces.len() as i64 * job.piece_length == 1000;
    let level = |ordinate: i64| {
        let mut pieces = job.pieces.iter();
        pieces.all(|piece| piece.left == ordinate && piece.right == ordinate)
    };
    for (ordinate, name) in [(5000, "above"), (-5000, "below")] {
        reached(
            longest && level(ordinate),
            &format!("longest line far {name} 0"),
        );
    }
    for most in [1_000_000_000, -1_000_000_000] {
        let all = job.effects.iter().all(|effect| effect.value == most);
        reached(all, &format!("all effects {most}"));
        for (number, effect) in (1..).zip(&job.effects) {
            reached(effect.value == most, &format!("effect {number} is {most}"));
        }
    }
    labels
}

fn outcome_labels(job: &Job, account: &Account) -> Vec<String> {
    let mut labels = vec![];
    let states = [("service", account.service), ("ultimate", account.ultimate)];
    for (name, state) in states {
        for question in Question::BOTH {
            let governing = state.governing(question);
            labels.push(format!("{name} {question:?}: row {}", governing.row));
            labels.push(format!("{name} {question:?}: k {}", governing.k));
            if governing.traffic_left_out == 1 {
                labels.push(format!("{name} {question:?}: traffic left out"));
            }
            if is_tied(job, account, governing, question) {
                labels.push(format!("{name} {question:?}: equal rows"));
            }
            if governing.row == 16 && job.effects[0].value == 0 {
                labels.push(format!("{name} {question:?}: either k"));
            }
        }
    }
    for (name, traffic) in [
        ("greatest", account.normal_greatest),
        ("least", account.normal_least),
    ] {
        labels.push(format!("normal {name}: entry {}", traffic.lanes[0].entry));
        if traffic.value.abs() == 7_127_250_000 {
            labels.push(format!("the largest normal {name}"));
        }
    }
    labels
}

/// Whether a later row of the state comes to the same value.
fn is_tied(job: &Job, account: &Account, governing: &Governing, question: Question) -> bool {
    let last = if governing.row <= 10 { 10 } else { 20 };
    let rows = farm::combinations();
    let mut later = rows[governing.row as usize..last].iter();
    later.any(|row| {
        let mut variants = row.variants.iter();
        variants.any(|variant| {
            let effects: i64 = variant
                .parts
                .iter()
                .map(|part| unless_it_holds_back(job, part, question))
                .sum();
            let live = row
                .live
                .map_or(0, |live| account.traffic(live, question).value);
            effects + row.live_factor * live == governing.value
        })
    })
}

/// What an effect counts in a row; 0 where it is better left out.
fn unless_it_holds_back(job: &Job, part: &Part, question: Question) -> i64 {
    let effect = job.effects[part.effect - 1];
    let counts = part.factor * 1000 * effect.value;
    if effect.mark == 2 && question.beats(0, counts) {
        0
    } else {
        counts
    }
}

fn expected_refusals() -> Vec<String> {
    let mut expected = texts(&[
        "2: before 11",
        "4: a piece",
        "4: a transverse ordinate",
        "5: a piece",
    ]);
    expected.extend(refusals_due());
    expected.extend((40..44).map(|bytes| format!("1: {bytes} bytes")));
    expected.extend([0, 5, -4].map(|edition| format!("1: edition {edition}")));
    expected.extend((1..=10).map(|place| format!("2: word {place}")));
    for (place, words) in [
        (4, &[299, 2080][..]),
        (7, &[10, 12, 0]),
        (8, &[-1, 1]),
        (9, &[-1, 1]),
        (10, &[0, 4, -1]),
    ] {
        expected.extend(
            words
                .iter()
                .map(|word| format!("2: word {place} is {word}")),
        );
    }
    expected.extend((7..=10).map(|place| format!("2: word {place} is far off")));
    for (barriers, widths) in [
        (1, [371, 430, 431, 2079]),
        (2, [371, 430, 431, 2079]),
        (3, [300, 369, 431, 2079]),
    ] {
        expected.extend(widths.map(|width| format!("11: W {width}, barriers {barriers}")));
    }
    expected.extend([3, 4, 5, 6].map(|later| format!("11: before {later}")));
    expected.extend([2, 11, 3, 4, 5, 6].map(|number| format!("{number}: before 9")));
    expected
}

fn expected_faults_of_effects() -> Vec<String> {
    let mut expected = vec![];
    for effect in 1..=11 {
        let exchanged = if effect <= 3 { 2 } else { 1 };
        let marks = [0, exchanged, 3];
        expected.extend(marks.map(|mark| format!("6: mark {mark} of effect {effect}")));
        expected.push(format!("6: value of effect {effect}"));
    }
    let past = [1_000_000_001, -1_000_000_001];
    expected.extend(past.map(|value| format!("6: value {value}")));
    expected
}

fn expected_jobs() -> Vec<String> {
    let mut expected = texts(&[
        "zero line",
        "line above 0",
        "line below 0",
        "line of both signs",
        "longest line far above 0",
        "longest line far below 0",
    ]);
    expected.extend(shapes_due(1..=1, 1..=3));
    for (barriers, ends) in [(1, [300, 370]), (2, [300, 370]), (3, [370, 430])] {
        expected.extend(ends.map(|width| format!("W {width}, barriers {barriers}")));
        expected.push(format!("W between, barriers {barriers}"));
    }
    for most in [1_000_000_000, -1_000_000_000] {
        expected.push(format!("all effects {most}"));
        expected.extend((1..=11).map(|effect| format!("effect {effect} is {most}")));
    }
    expected
}

/// Every row, in the questions of its state; every k; ties.
fn expected_outcomes() -> Vec<String> {
    let mut expected = vec![];
    for question in ["Greatest", "Least"] {
        expected.extend((1..=10).map(|row| format!("service {question}: row {row}")));
        expected.extend((11..=20).map(|row| format!("ultimate {question}: row {row}")));
        expected.extend([0, 800, 1300].map(|k| format!("ultimate {question}: k {k}")));
        expected
            .extend(["service", "ultimate"].map(|name| format!("{name} {question}: equal rows")));
        expected.push(format!("ultimate {question}: either k"));
    }
    for name in ["greatest", "least"] {
        expected.extend((0..=2).map(|entry| format!("normal {name}: entry {entry}")));
        expected.push(format!("the largest normal {name}"));
    }
    expected
}

stream_tests!(Asked {
    stream: Stream::Four,
    labels,
    expected: &[
        expected_refusals,
        expected_faults_of_effects,
        expected_jobs,
        expected_outcomes,
    ],
    seeds: 20_000,
    with_chosen: true,
    order: &[1, 2, 11, 3, 4, 5, 6, 9],
    admitted_since: &[Edition::Two, Edition::Three],
    least_of_3: 170,
    sum: 13_955_522_561_190_928_816,
});
