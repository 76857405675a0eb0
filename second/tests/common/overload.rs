//! Overload put together from what each lane gives, in any reading of its factors.

use second::job::Job;
use second::lanes::{common_denominator, lanes_of_job};
use second::loads::{Element, Question};
use second::traffic::{furthest_in_lane, LongitudinalEffects};

/// The factors in twentieths of the first to the ninth additional lane.
pub const FACTORS: [i128; 9] = [20, 18, 16, 14, 12, 11, 11, 11, 11];

/// What decides the additional lanes' factors.
#[derive(Clone, Copy)]
pub enum Reading {
    /// The further a lane goes, the larger its factor: 02 "Additional overload lanes".
    FurthestFirst,
    MildestFirst,
    LeftmostFirst,
    /// The furthest first, but the first factor is HO's.
    BehindHo,
    /// All at the r of their number: 01, before 02.
    ROfTheirNumber,
}

/// The additional lanes' sum in twentieths, their effects given from the left.
pub fn additional_sum(reading: Reading, question: Question, mut effects: Vec<i128>) -> i128 {
    let furthest_first = |one: &i128, other: &i128| match question {
        Question::Greatest => other.cmp(one),
        Question::Least => one.cmp(other),
    };
    match reading {
        Reading::LeftmostFirst => {}
        Reading::MildestFirst => effects.sort_by(|one, other| furthest_first(other, one)),
        _ => effects.sort_by(furthest_first),
    }
    let factors = match reading {
        Reading::BehindHo => [18, 16, 14, 12, 11, 11, 11, 11, 11],
        Reading::ROfTheirNumber => [[20, 20, 18, 16, 14, 12, 11, 11, 11, 11][effects.len()]; 9],
        _ => FACTORS,
    };
    let counted = effects.iter().zip(factors);
    counted.map(|(effect, factor)| factor * effect).sum()
}

/// What HN and HO give in each lane for a question, at their furthest.
pub struct InLanes {
    pub question: Question,
    pub hn: Vec<i128>,
    pub ho: Vec<i128>,
}

impl InLanes {
    pub fn of(job: &Job, question: Question) -> InLanes {
        let longitudinal = LongitudinalEffects::of(job);
        let in_lanes = |element| {
            let lanes = 0..lanes_of_job(job);
            lanes
                .map(|lane| furthest_in_lane(job, &longitudinal, lane, element, question).effect)
                .collect()
        };
        InLanes {
            question,
            hn: in_lanes(Element::Hn),
            ho: in_lanes(Element::Ho),
        }
    }

    /// The furthest number.
    pub fn furthest(&self, numbers: impl Iterator<Item = i128>) -> i128 {
        let furthest = match self.question {
            Question::Greatest => numbers.max(),
            Question::Least => numbers.min(),
        };
        furthest.expect("a number")
    }

    /// The furthest overload in twentieths, HO at 20, over the HO lanes and additional
    /// lanes that are allowed, with what the additional lanes come to.
    pub fn overload(
        &self,
        allowed: impl Fn(usize, &[usize]) -> bool,
        additional: impl Fn(&[usize]) -> i128,
    ) -> i128 {
        let lanes = self.hn.len();
        let mut tried = vec![];
        for set in 0..1_u32 << lanes {
            let loaded = || (0..lanes).filter(move |lane| set >> lane & 1 == 1);
            for ho_lane in loaded() {
                let others: Vec<usize> = loaded().filter(|&lane| lane != ho_lane).collect();
                if allowed(ho_lane, &others) {
                    tried.push(20 * self.ho[ho_lane] + additional(&others));
                }
            }
        }
        self.furthest(tried.into_iter())
    }

    /// The sum in twentieths of additional lanes, given from the left.
    pub fn additional(&self, reading: Reading, lanes: &[usize]) -> i128 {
        let effects = lanes.iter().map(|&lane| self.hn[lane]);
        additional_sum(reading, self.question, effects.collect())
    }

    /// The furthest overload in twentieths over all HO lanes and additional lanes.
    pub fn overload_in(&self, reading: Reading) -> i128 {
        self.overload(|_, _| true, |lanes| self.additional(reading, lanes))
    }
}

/// The effect in N·U of a sum in twentieths.
pub fn effect(job: &Job, question: Question, twentieths: i128) -> i64 {
    let (share, whole) = job.edition.share_of_x();
    let dividend = 3 * share * twentieths * i128::from(job.dynamic_factor(question));
    let denominator = i128::from(common_denominator(job));
    question.round(dividend, 800_000 * whole * denominator) as i64
}

/// Overload's value in 01's reading; a farm job's is 0.
pub fn old_overload(job: &Job, question: Question) -> i64 {
    if !job.edition.has_overload() {
        return 0;
    }
    let lanes = InLanes::of(job, question);
    effect(job, question, lanes.overload_in(Reading::ROfTheirNumber))
}
