//! Overload beside a plain search over every lane set, HO lane and assignment of factors:
//! the value, and which of equally good placements is shown.

mod common;

use common::overload::{effect, InLanes, FACTORS};
use second::account::Traffic;
use second::generator::{sound_job, Stream};
use second::job::Job;
use second::lanes::lanes_of_job;
use second::loads::{Live, Question};
use second::rng::Rng;
use second::solve::account_of;
use second::traffic::LongitudinalEffects;

/// HO in a lane and the factors of the others, 0 for an unloaded one, with the sum in
/// twentieths.
#[derive(Clone)]
struct Found {
    sum: i128,
    ho: usize,
    factors: Vec<i128>,
}

impl Found {
    fn set(&self) -> u32 {
        let loaded = |lane: &usize| *lane == self.ho || self.factors[*lane] != 0;
        let lanes = (0..self.factors.len()).filter(loaded);
        lanes.map(|lane| 1 << lane).sum()
    }

    /// The lower HO lane, then the lower set, then the larger factor in the lower lane.
    fn order(&self) -> (usize, u32, Vec<i128>) {
        let factors = self.factors.iter().map(|factor| -factor);
        (self.ho, self.set(), factors.collect())
    }
}

/// Tries every way for the lanes from this one on to be unloaded or to have one of the
/// factors that are left; equal factors once.
fn search(lanes: &InLanes, at: usize, left: &mut Vec<i128>, tried: &mut Found, best: &mut Found) {
    if at == tried.factors.len() {
        let further = lanes.question.beats(tried.sum, best.sum);
        if left.is_empty() && (further || tried.sum == best.sum && tried.order() < best.order()) {
            *best = tried.clone();
        }
        return;
    }
    // As many lanes must follow as factors are left.
    let room = (at + 1..tried.factors.len())
        .filter(|&lane| lane != tried.ho)
        .count();
    if left.len() <= room {
        search(lanes, at + 1, left, tried, best);
    }
    if at == tried.ho {
        return;
    }
    for number in 0..left.len() {
        if number > 0 && left[number] == left[number - 1] {
            continue;
        }
        let factor = left.remove(number);
        tried.factors[at] = factor;
        tried.sum += factor * lanes.hn[at];
        search(lanes, at + 1, left, tried, best);
        tried.sum -= factor * lanes.hn[at];
        tried.factors[at] = 0;
        left.insert(number, factor);
    }
}

/// The furthest of all, the first of them in order.
fn furthest(lanes: &InLanes) -> Found {
    let count = lanes.hn.len();
    let with_ho = |ho: usize| Found {
        sum: 20 * lanes.ho[ho],
        ho,
        factors: vec![0; count],
    };
    let mut best = with_ho(0);
    for ho in 0..count {
        for additional in 0..count {
            let mut left = FACTORS[..additional].to_vec();
            search(lanes, 0, &mut left, &mut with_ho(ho), &mut best);
        }
    }
    best
}

/// The value reported is that of the search, and so is the placement.
#[track_caller]
fn agree(job: &Job) {
    let account = account_of(job);
    for question in Question::BOTH {
        let found = furthest(&InLanes::of(job, question));
        let traffic = account.traffic(Live::Overload, question);
        assert_eq!(traffic.value, effect(job, question, found.sum));
        let (ho, set, factors) = shown(traffic, lanes_of_job(job));
        assert_eq!((ho, set), (found.ho, found.set()));
        assert_eq!(factors, found.factors);
    }
}

fn shown(traffic: &Traffic, lanes: usize) -> (usize, u32, Vec<i128>) {
    let mut entries = traffic.lanes.iter().map(|lane| lane.entry);
    let ho = entries.position(|entry| entry >= 3).expect("an HO lane");
    let factors = traffic.lanes[..lanes].iter();
    let factors = factors.map(|lane| lane.factor.into());
    (ho, traffic.set, factors.collect())
}

/// The first so many jobs of this many lanes.
fn jobs(stream: Stream, lanes: usize, count: usize) -> impl Iterator<Item = Job> {
    let jobs = (0..).map(move |seed| sound_job(&mut Rng::new(seed), stream));
    let goes_anywhere = |job: &Job| LongitudinalEffects::of(job).hn_raising != 0;
    jobs.filter(move |job| lanes_of_job(job) == lanes && goes_anywhere(job))
        .take(count)
}

#[test]
fn one_carriageway() {
    for lanes in 1..=5 {
        jobs(Stream::One, lanes, 100).for_each(|job| agree(&job));
    }
}

#[test]
fn two_carriageways_of_six_lanes_at_most() {
    for lanes in 2..=6 {
        jobs(Stream::Three, lanes, 100).for_each(|job| agree(&job));
    }
}

#[test]
fn two_carriageways_of_seven_lanes_to_ten() {
    for (lanes, count) in [(7, 20), (8, 8), (9, 3), (10, 2)] {
        jobs(Stream::Three, lanes, count).for_each(|job| agree(&job));
    }
}
