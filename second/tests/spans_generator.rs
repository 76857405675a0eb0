//! The generator reaches every refusal and order of places of a job with spans by
//! sign, the spans that the factor turns at, and every pair of branches of its curve.

mod common;

use common::streams::{
    answer_to, header_word_labels, refusal_labels, refusals_due, section_labels, shape_labels,
    shapes_due, Asked,
};
use second::account::Account;
use second::edition::Edition;
use second::generator::{Case, Stream};
use second::job::Job;
use second::loads::{Live, Question};
use second::refusals::refusal;
use second::words::{bytes_of, changed, words_of, Change};
use second::Answer;
use std::collections::BTreeSet;

/// What is worth reaching about a case.
fn labels(case: &Case) -> Vec<String> {
    let answer = answer_to(case);
    let words = words_of(&case.job);
    if answer.refusal != 0 {
        let mut labels = refusal_labels(Edition::Two, case, &answer, place_labels);
        labels.extend(beside_labels(case, &words, &answer));
        labels.extend(elsewhere_labels(case, &words, &answer));
        return labels;
    }
    let job = Job::decode(&words);
    if job.dynamic_kind != 4 {
        return vec![];
    }
    let mut labels = shape_labels(&job);
    labels.extend(span_labels(&job));
    labels.extend(outcome_labels(&answer.account));
    labels
}

fn place_labels(words: &[i32], number: u64, place: usize) -> Vec<String> {
    match number {
        2 => header_labels(words, place),
        _ => section_labels(words, place),
    }
}

fn is_span(word: i32) -> bool {
    (1..=2000).contains(&word)
}

fn header_labels(words: &[i32], place: usize) -> Vec<String> {
    let mut labels = header_word_labels(words, place);
    if [6, 10].contains(&place) {
        labels.push(format!("word {place} of kind {}", words[5]));
    }
    let later_faults = [
        (6, !is_span(words[6])),
        (10, !is_span(words[10])),
        (11, words[11] != 0),
    ];
    for (later, at_fault) in later_faults {
        if place < later && at_fault {
            labels.push(format!("word {place} before {later}"));
        }
    }
    labels
}

/// The refusal that a fault of the kind or of a span comes before, since it is due
/// once these are sound; and a span at fault where there is no job.
fn beside_labels(case: &Case, words: &[i32], answer: &Answer) -> Vec<String> {
    let at_fault = |&place: &usize| words.len() >= 12 && !is_span(words[place]);
    match (answer.refusal, answer.place) {
        (1, _) => {
            let places = [6, 10].into_iter().filter(at_fault);
            places.map(|place| format!("1: before {place}")).collect()
        }
        (2, place @ (5 | 6 | 10)) if words[0] == 2 => {
            let beside = refusal_with(case, words, &[(5, 4), (6, 120), (10, 120)]);
            vec![format!("word {place} beside {beside}")]
        }
        _ => vec![],
    }
}

/// Kind 4 in an edition that has none; alone where the job is sound with kind 2.
fn elsewhere_labels(case: &Case, words: &[i32], answer: &Answer) -> Vec<String> {
    let edition = match words.first() {
        Some(edition @ (1 | 4)) if answer.refusal == 2 && words[5] == 4 => edition,
        _ => return vec![],
    };
    let span = if is_span(words[6]) { "a" } else { "no" };
    let mut labels = vec![
        format!("edition {edition}: word {}", answer.place),
        format!("edition {edition}: {span} span"),
    ];
    if refusal_with(case, words, &[(5, 2), (6, 0)]) == 0 {
        labels.push(format!("edition {edition}: alone, {span} span"));
    }
    labels
}

/// The refusal that is due with words changed; 0 for none.
fn refusal_with(case: &Case, words: &[i32], changes: &[Change]) -> u64 {
    let job = bytes_of(&changed(words, changes));
    refusal(&job, case.patch.len()).map_or(0, |due| due.number)
}

/// The questions with their spans.
fn spans(job: &Job) -> [(Question, i64); 2] {
    let [greatest, least] = [job.dynamic_value, job.further_header[0]];
    [(Question::Greatest, greatest), (Question::Least, least)]
}

fn span_labels(job: &Job) -> Vec<String> {
    let spans = spans(job);
    let mut labels: Vec<String> = spans
        .iter()
        .map(|(question, span)| format!("{question:?} {span} dm"))
        .collect();
    let branches = spans.map(|(_, span)| if span <= 120 { "level" } else { "curve" });
    let [greatest, least] = spans.map(|(_, span)| span);
    let [of_greatest, of_least] = Question::BOTH.map(|question| job.dynamic_factor(question));
    labels.push(format!("{} and {}", branches[0], branches[1]));
    labels.push(format!("spans {:?}", greatest.cmp(&least)));
    labels.push(format!("factors {:?}", of_greatest.cmp(&of_least)));
    if greatest != least && of_greatest == of_least {
        labels.push(format!("one factor of two spans, {}", branches[0]));
    }
    if (greatest - least).abs() == 1 {
        labels.push(format!("spans next to each other, {}", greatest - least));
    }
    labels
}

/// The directions that form each traffic value.
fn outcome_labels(account: &Account) -> Vec<String> {
    let mut labels = vec![];
    for live in Live::BOTH {
        for question in Question::BOTH {
            let traffic = account.traffic(live, question);
            let entries = traffic.lanes.iter().filter(|lane| lane.entry != 0);
            let directions: BTreeSet<u32> = entries.map(|lane| lane.entry % 2).collect();
            if traffic.value != 0 {
                labels.push(format!("{live:?} {question:?} of {directions:?}"));
            }
        }
    }
    labels
}

fn expected_refusals() -> Vec<String> {
    let mut expected = refusals_due();
    expected.extend((1..=11).map(|place| format!("2: word {place}")));
    for place in [6, 10] {
        expected.extend([0, 2001].map(|word| format!("2: word {place} is {word}")));
        expected.push(format!("2: word {place} is far off"));
        expected.extend([1, 2, 3, 4].map(|kind| format!("2: word {place} of kind {kind}")));
        expected.push(format!("1: before {place}"));
    }
    expected.extend([44, 47].map(|bytes| format!("1: {bytes} bytes")));
    expected.extend([0, 5].map(|edition| format!("1: edition {edition}")));
    expected.extend([0, 5].map(|kind| format!("2: word 5 is {kind}")));
    expected.push("2: word 11 is 1".into());
    expected.extend((2..=8).map(|number| format!("{number}: before 9")));
    for (number, section) in [(4, "piece"), (4, "transverse"), (5, "piece")] {
        expected.push(format!("{number}: {section} word 0"));
    }
    for (number, section) in [
        (6, "effect"),
        (6, "row"),
        (6, "record"),
        (7, "row"),
        (8, "row"),
    ] {
        expected.push(format!("{number}: {section} word 0"));
    }
    for edition in [1, 4] {
        expected.extend((1..=5).map(|place| format!("edition {edition}: word {place}")));
        for span in ["a", "no"] {
            expected.push(format!("edition {edition}: {span} span"));
            expected.push(format!("edition {edition}: alone, {span} span"));
        }
    }
    expected
}

fn expected_orders() -> Vec<String> {
    let mut expected = vec![];
    for later in [6, 10, 11] {
        expected.extend((1..later).map(|place| format!("2: word {place} before {later}")));
    }
    for place in [5, 6, 10] {
        let beside = [0, 2, 3, 4, 5, 6, 7, 8, 9];
        expected.extend(beside.map(|number| format!("word {place} beside {number}")));
    }
    expected
}

fn expected_spans() -> Vec<String> {
    let mut expected = vec![];
    for question in Question::BOTH {
        // The curve's ends and its turn, and whole thousandths with their neighbours.
        let turns = [1, 118, 119, 120, 121, 122, 123, 124, 2000];
        let whole = [220, 245, 370, 620, 820, 870, 1120, 1495, 1620];
        let around = whole.map(|span| [span - 1, span, span + 1]).concat();
        let spans = turns.into_iter().chain(around);
        expected.extend(spans.map(|span| format!("{question:?} {span} dm")));
    }
    for greatest in ["level", "curve"] {
        expected.extend(["level", "curve"].map(|least| format!("{greatest} and {least}")));
        expected.push(format!("one factor of two spans, {greatest}"));
    }
    for order in ["Less", "Equal", "Greater"] {
        expected.extend(["spans", "factors"].map(|name| format!("{name} {order}")));
    }
    expected.extend([-1, 1].map(|by| format!("spans next to each other, {by}")));
    expected.extend(shapes_due(1..=5, 4..=4));
    expected
}

/// Lowering elements, 0, raising ones, 1, and both.
fn expected_outcomes() -> Vec<String> {
    let mut expected = vec![];
    for live in Live::BOTH {
        for question in Question::BOTH {
            let directions = ["{0}", "{1}", "{0, 1}"];
            expected.extend(directions.map(|of| format!("{live:?} {question:?} of {of}")));
        }
    }
    expected
}

stream_tests!(Asked {
    stream: Stream::Spans,
    labels,
    expected: &[
        expected_refusals,
        expected_orders,
        expected_spans,
        expected_outcomes,
    ],
    seeds: 20_000,
    with_chosen: true,
    order: &[1, 2, 3, 4, 5, 6, 7, 8, 9],
    admitted_since: &[Edition::Three],
    least_of_3: 180,
    sum: 1_664_090_881_491_447_919,
});
