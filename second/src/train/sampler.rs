//! Tries to beat a train's report with stands drawn at random on k-ths of a
//! piece (02 "Rating trucks"). A right report is never beaten, and the stands it
//! shows give its values.
//!
//! The draws lean towards good stands and towards the line's ends. All is found
//! and evaluated by placement.rs, not by the code that rates a train.

use super::placement::{reported_placement, Placement};
use super::{Rating, Train, Way};
use crate::loads::{Question, Side};
use crate::rng::Rng;

/// The largest k drawn.
pub const LARGEST_K: i64 = 10_000;

/// Values of k that divide much, or little.
const SPECIAL_K: [i64; 10] = [2, 3, 4, 7, 10, 64, 360, 1000, 9973, LARGEST_K];

/// How far from the line a far stand is, in pieces at most.
const FAR: i64 = 1 << 40;

/// What is wrong with a report.
#[derive(Debug, Clone, PartialEq, Eq)]
pub enum Beating {
    /// A stand goes further than the value.
    Beaten {
        question: Question,
        placement: Placement,
        effect_times_k: i128,
        reported: i64,
    },
    /// The stand shown is none, or does not give the value.
    NotGiven { question: Question },
}

/// The first of so many draws that beats a report; else the question whose stand
/// does not give its value, if any.
pub fn first_beating(train: &Train, rating: &Rating, seed: u64, tries: u32) -> Option<Beating> {
    let sampler = Sampler::new(train);
    let mut rng = Rng::new(seed);
    for _ in 0..tries {
        for question in Question::BOTH {
            let placement = sampler.draw(question, &mut rng);
            let effect_times_k = placement.effect_times_k(train, question);
            let reported = rating.value(question);
            if question.beats(effect_times_k, i128::from(reported) * placement.k) {
                return Some(Beating::Beaten {
                    question,
                    placement,
                    effect_times_k,
                    reported,
                });
            }
        }
    }
    let not_given = |question: &Question| {
        let shown = reported_placement(train, rating.stand(*question));
        let given = shown.map(|placement| placement.effect_times_k(train, *question));
        given != Ok(rating.value(*question).into())
    };
    let question = Question::BOTH.into_iter().find(not_given)?;
    Some(Beating::NotGiven { question })
}

/// A train with what the draws lean towards.
pub struct Sampler<'a> {
    train: &'a Train,
    greatest_aim: Placement,
    least_aim: Placement,
}

impl<'a> Sampler<'a> {
    pub fn new(train: &'a Train) -> Sampler<'a> {
        Sampler {
            train,
            greatest_aim: furthest_at_stations(train, Question::Greatest),
            least_aim: furthest_at_stations(train, Question::Least),
        }
    }

    /// A stand.
    pub fn draw(&self, question: Question, rng: &mut Rng) -> Placement {
        let k = match rng.below(5) {
            0 => 1,
            1 => rng.between(2, 12),
            2 => rng.pick(&SPECIAL_K),
            3 => rng.between(13, 1000),
            _ => rng.between(1, LARGEST_K),
        };
        let (way, side) = (rng.pick(&Way::BOTH), rng.pick(&[Side::Left, Side::Right]));
        let aim = match question {
            Question::Greatest => self.greatest_aim,
            Question::Least => self.least_aim,
        };
        let pieces = self.train.line.len() as i64;
        let length = self.train.length();
        let loose = |leftmost: i64| Placement {
            k: k.into(),
            way,
            side,
            leftmost: leftmost.into(),
        };
        match rng.below(8) {
            0 => Placement {
                k: k.into(),
                leftmost: aim.leftmost * i128::from(k),
                ..aim
            },
            // Close to it.
            1 => Placement {
                k: k.into(),
                leftmost: aim.leftmost * i128::from(k) + i128::from(rng.between(-3, 3)),
                way: aim.way,
                side,
            },
            // An axle at a station or a k-th of the line, or at its ends.
            2 => loose((rng.between(0, pieces) - self.some_distance(way, rng)) * k),
            3 => loose(rng.between(0, pieces * k) - self.some_distance(way, rng) * k),
            4 => loose((rng.pick(&[0, pieces]) - self.some_distance(way, rng)) * k),
            // Anywhere on the line or next to it.
            5 => loose(rng.between(-length - 1, pieces + 1) * k),
            6 => loose(rng.between((-length - 1) * k, (pieces + 1) * k)),
            _ => loose(rng.between(-FAR, FAR)),
        }
    }

    /// The distance of an axle from the leftmost, in pieces.
    fn some_distance(&self, way: Way, rng: &mut Rng) -> i64 {
        let from_first = rng.pick(&self.train.axles).from_first;
        match way {
            Way::AsGiven => from_first,
            Way::Turned => self.train.length() - from_first,
        }
    }
}

/// The furthest of the stands at stations, on the line and next to it.
fn furthest_at_stations(train: &Train, question: Question) -> Placement {
    let end = train.line.len() as i128 + 1;
    let stations = -i128::from(train.length()) - 1..=end;
    let stands = Way::BOTH.into_iter().flat_map(|way| {
        let stations = stations.clone();
        stations.flat_map(move |leftmost| {
            [Side::Left, Side::Right].map(|side| Placement {
                k: 1,
                way,
                side,
                leftmost,
            })
        })
    });
    let effect = |placement: &Placement| placement.effect_times_k(train, question);
    match question {
        Question::Greatest => stands.max_by_key(effect),
        Question::Least => stands.min_by_key(effect),
    }
    .expect("there are stations")
}
