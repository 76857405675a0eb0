//! A kernel with a slip in the additional overload lanes gives another overload value
//! of some case: of a generated one, and of one chosen by hand.

mod common;

use common::overload::{effect, InLanes, Reading, FACTORS};
use common::streams::{answer_to, reach_all};
use second::chosen::overload_lanes;
use second::generator::{case, Case, Stream};
use second::job::Job;
use second::loads::{Live, Question};
use second::words::words_of;
use std::collections::BTreeSet;

/// What the lanes give, and what HN gives in them for the other question.
struct Lanes {
    own: InLanes,
    other_hn: Vec<i128>,
}

impl Lanes {
    fn of(job: &Job, question: Question) -> Lanes {
        let other = match question {
            Question::Greatest => Question::Least,
            Question::Least => Question::Greatest,
        };
        Lanes {
            own: InLanes::of(job, question),
            other_hn: InLanes::of(job, other).hn,
        }
    }

    fn count(&self) -> usize {
        self.own.hn.len()
    }

    /// How far HN goes in a lane, either way.
    fn hn_goes(&self, lane: usize) -> i128 {
        self.own.hn[lane].abs()
    }

    /// The furthest HN lane, the lowest of several.
    fn furthest_hn_lane(&self) -> usize {
        let nearest = |&lane: &usize| -self.hn_goes(lane);
        (0..self.count()).min_by_key(nearest).expect("a lane")
    }

    /// The lanes' sum, each at the factor of its place in this order.
    fn at(&self, lanes: &[usize]) -> i128 {
        let counted = lanes.iter().zip(FACTORS);
        counted
            .map(|(&lane, factor)| factor * self.own.hn[lane])
            .sum()
    }

    /// The lanes' sum, each at the factor of the place that it is given, from 0 on.
    fn at_places(&self, lanes: &[usize], place: impl Fn(usize) -> usize) -> i128 {
        let counted = lanes.iter();
        counted
            .map(|&lane| FACTORS[place(lane)] * self.own.hn[lane])
            .sum()
    }

    /// Furthest first; of lanes that tie the lowest.
    fn sorted(&self, lanes: &[usize]) -> Vec<usize> {
        sorted_by(lanes, |lane| -self.hn_goes(lane))
    }

    /// The right sum of additional lanes.
    fn right(&self, lanes: &[usize]) -> i128 {
        self.own.additional(Reading::FurthestFirst, lanes)
    }
}

fn sorted_by(lanes: &[usize], key: impl Fn(usize) -> i128) -> Vec<usize> {
    let mut sorted = lanes.to_vec();
    sorted.sort_by_key(|&lane| key(lane));
    sorted
}

/// A slip, as the sum in twentieths that it gives.
type Slip = fn(&Lanes) -> i128;

/// The slips, each with the fewest lanes that show it.
const SLIPS: [(&str, usize, Slip); 12] = [
    ("by position from the left", 3, |lanes| {
        lanes.own.overload_in(Reading::LeftmostFirst)
    }),
    ("the largest to the mildest", 3, |lanes| {
        lanes.own.overload_in(Reading::MildestFirst)
    }),
    ("all at the r of their number", 3, |lanes| {
        lanes.own.overload_in(Reading::ROfTheirNumber)
    }),
    ("HO as the first additional lane", 2, |lanes| {
        lanes.own.overload_in(Reading::BehindHo)
    }),
    ("a lane left out", 2, |lanes| {
        let not_all = |_: usize, set: &[usize]| set.is_empty() || set.len() + 1 < lanes.count();
        lanes.own.overload(not_all, |set| lanes.right(set))
    }),
    ("in the other question's order", 3, |lanes| {
        let other_first = |set: &[usize]| sorted_by(set, |lane| -lanes.other_hn[lane].abs());
        lanes
            .own
            .overload(anywhere, |set| lanes.at(&other_first(set)))
    }),
    ("HO in the furthest HN lane", 2, |lanes| {
        let furthest = lanes.furthest_hn_lane();
        let there = |ho: usize, _: &[usize]| ho == furthest;
        lanes.own.overload(there, |set| lanes.right(set))
    }),
    ("HO in lane 1", 2, |lanes| {
        let in_lane_1 = |ho: usize, _: &[usize]| ho == 0;
        lanes.own.overload(in_lane_1, |set| lanes.right(set))
    }),
    ("HO never in the last lane", 2, |lanes| {
        let not_last = |ho: usize, _: &[usize]| ho == 0 || ho + 1 < lanes.count();
        lanes.own.overload(not_last, |set| lanes.right(set))
    }),
    ("lanes that tie at the larger factor", 3, |lanes| {
        lanes.own.overload(anywhere, |set| {
            let further = |lane: usize| {
                let others = set.iter();
                others
                    .filter(|&&other| lanes.hn_goes(other) > lanes.hn_goes(lane))
                    .count()
            };
            lanes.at_places(set, further)
        })
    }),
    ("lanes that tie at the smaller factor", 3, |lanes| {
        lanes.own.overload(anywhere, |set| {
            let as_far = |lane: usize| {
                let others = set.iter();
                others
                    .filter(|&&other| lanes.hn_goes(other) >= lanes.hn_goes(lane))
                    .count()
            };
            lanes.at_places(set, |lane| as_far(lane) - 1)
        })
    }),
    ("one of lanes that tie", 3, |lanes| {
        lanes.own.overload(anywhere, |set| {
            let mut sorted = lanes.sorted(set);
            sorted.dedup_by_key(|lane| lanes.hn_goes(*lane));
            lanes.at(&sorted)
        })
    }),
];

fn anywhere(_: usize, _: &[usize]) -> bool {
    true
}

/// The slips that show in a case.
fn shown(case: &Case) -> Vec<String> {
    let answer = answer_to(case);
    if answer.refusal != 0 {
        return vec![];
    }
    let job = Job::decode(&words_of(&case.job));
    let mut labels = vec![];
    for question in Question::BOTH {
        let lanes = Lanes::of(&job, question);
        let due = answer.account.traffic(Live::Overload, question).value;
        let right = lanes.own.overload_in(Reading::FurthestFirst);
        assert_eq!(effect(&job, question, right), due);
        for (name, _, slip) in SLIPS {
            if effect(&job, question, slip(&lanes)) != due {
                labels.push(label(name, lanes.count(), question));
            }
        }
    }
    labels
}

fn label(slip: &str, lanes: usize, question: Question) -> String {
    format!("{slip}: {lanes} lanes, {question:?}")
}

/// Every slip for each question, with every number of lanes that shows it.
fn expected() -> BTreeSet<String> {
    let mut expected = BTreeSet::new();
    for (name, fewest, _) in SLIPS {
        for lanes in fewest..=5 {
            expected.extend(Question::BOTH.map(|question| label(name, lanes, question)));
        }
    }
    expected
}

#[test]
fn every_slip_shows_in_generated_cases() {
    for stream in [Stream::One, Stream::Two, Stream::Spans] {
        reach_all((0..4000).map(|seed| case(stream, seed)), shown, expected());
    }
}

#[test]
fn every_slip_shows_in_chosen_cases() {
    reach_all(overload_lanes::cases(), shown, expected());
}
