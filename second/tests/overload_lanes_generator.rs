//! The generated cases reach every number of additional lanes, every place of the HO
//! lane and of each factor, lanes that tie and lanes that give 0; so do those stored.

mod common;

use common::five_lanes;
use common::overload::InLanes;
use common::streams::{answer_to, reach_all};
use second::account::Traffic;
use second::generator::{case, Case, Stream};
use second::job::Job;
use second::lanes::lanes_of_job;
use second::loads::{Live, Question};
use second::store;
use second::words::words_of;
use std::collections::BTreeSet;

/// The streams of the editions with HO.
const STREAMS: [Stream; 3] = [Stream::One, Stream::Two, Stream::Spans];

/// The job of an accepted case with HO on one carriageway.
fn overload_job(case: &Case) -> Option<Job> {
    let accepted = answer_to(case).refusal == 0;
    let job = accepted.then(|| Job::decode(&words_of(&case.job)));
    job.filter(|job| job.edition.has_overload() && job.second_width().is_none())
}

fn labels(case: &Case) -> Vec<String> {
    let Some(job) = overload_job(case) else {
        return vec![];
    };
    let account = answer_to(case).account;
    let mut labels = vec![];
    for question in Question::BOTH {
        let traffic = account.traffic(Live::Overload, question);
        if traffic.value != 0 {
            let lanes = lanes_of_job(&job);
            let of_placement = placement_labels(&InLanes::of(&job, question), traffic);
            labels.extend(within(question, lanes, of_placement));
        }
    }
    let [greatest, least] = [account.overload_greatest, account.overload_least];
    if ho_lane(&greatest) != ho_lane(&least) {
        labels.push("each question its own HO lane".into());
    }
    if ho_lane(&greatest) == ho_lane(&least) && factors(&greatest) != factors(&least) {
        labels.push("each question its own factors".into());
    }
    labels
}

/// Labels of a placement for a question, with the number of lanes.
fn within(question: Question, lanes: usize, labels: Vec<String>) -> impl Iterator<Item = String> {
    let named = move |label| format!("{question:?}, {lanes} lanes: {label}");
    labels.into_iter().map(named)
}

fn ho_lane(traffic: &Traffic) -> usize {
    let mut entries = traffic.lanes.iter().map(|lane| lane.entry);
    entries.position(|entry| entry >= 3).expect("an HO lane")
}

fn factors(traffic: &Traffic) -> [i64; 5] {
    five_lanes(traffic).map(|lane| lane.factor)
}

fn placement_labels(in_lanes: &InLanes, traffic: &Traffic) -> Vec<String> {
    let factors = factors(traffic);
    let additional: Vec<usize> = (0..5).filter(|&lane| factors[lane] != 0).collect();
    let mut labels = vec![
        format!("{} additional", additional.len()),
        format!("HO in lane {}", ho_lane(traffic) + 1),
    ];
    labels.extend(
        additional
            .iter()
            .map(|&lane| format!("{} in lane {}", factors[lane], lane + 1)),
    );
    let effects: BTreeSet<i128> = additional.iter().map(|&lane| in_lanes.hn[lane]).collect();
    if effects.len() < additional.len() {
        labels.push("a tie".into());
    }
    if in_lanes.hn.contains(&0) {
        labels.push("a lane of 0".into());
    }
    labels
}

fn expected() -> BTreeSet<String> {
    let mut expected = BTreeSet::from([
        "each question its own HO lane".to_string(),
        "each question its own factors".to_string(),
    ]);
    for (question, lanes) in Question::BOTH
        .into_iter()
        .flat_map(|question| (1..=5).map(move |lanes| (question, lanes)))
    {
        let mut labels: Vec<String> = (0..lanes).map(|m| format!("{m} additional")).collect();
        labels.extend((1..=lanes).map(|lane| format!("HO in lane {lane}")));
        for factor in [20, 18, 16, 14].iter().take(lanes - 1) {
            labels.extend((1..=lanes).map(|lane| format!("{factor} in lane {lane}")));
        }
        if lanes >= 2 {
            labels.push("a lane of 0".into());
        }
        if lanes >= 3 {
            labels.push("a tie".into());
        }
        expected.extend(within(question, lanes, labels));
    }
    expected
}

#[test]
fn generated_cases_reach_all() {
    for stream in STREAMS {
        reach_all((0..4000).map(|seed| case(stream, seed)), labels, expected());
    }
}

#[test]
fn stored_cases_reach_all() {
    reach_all(store::cases(), labels, expected());
}

/// One case in three is a job of three lanes or more with HO.
#[test]
fn many_cases_have_three_lanes_or_more() {
    for stream in STREAMS {
        let jobs = (0..3000).filter_map(|seed| overload_job(&case(stream, seed)));
        let wide = jobs.filter(|job| lanes_of_job(job) >= 3).count();
        assert!(wide >= 1000, "{stream:?}: {wide}");
    }
}
