//! Tries to beat a report with arrangements, rows, choices of k and omissions
//! drawn at random (01 "Arrangements, for demand 3", 02 "Farm bridges", "Additional
//! overload lanes" and "Two carriageways"). A right report is never beaten.
//!
//! The draws lean towards what goes far: loaded k-ths of one sign, axles at and
//! near good stands, centres at and near limits and transverse ordinates, larger
//! factors where additional lanes go further. All is found and evaluated by
//! arrangement.rs, not by the code that `solve` runs.

use crate::account::Account;
use crate::arrangement::{
    loaded_pieces, ordinate_at, transverse_ordinate, Arrangement, LoadedLane, OwnCarriageway,
};
use crate::combination::{Combination, Variant};
use crate::fraction::Fraction;
use crate::job::{Job, MAY_BE_LEFT_OUT, SERVICE, ULTIMATE};
use crate::lanes::lane_counts;
use crate::loads::{additional_factors, Direction, Element, Live, Question, Side, AXLE_DISTANCE};
use crate::rng::Rng;
use std::ops::Range;

/// The largest k drawn; the exact fractions stay within 128 bits up to it.
pub const LARGEST_K: i64 = 1_000_000;

/// The signs of pieces.
const LEVEL: u8 = 0;
const ABOVE_0: u8 = 1;
const BELOW_0: u8 = 2;

/// What beats a report.
#[derive(Debug, Clone, PartialEq, Eq)]
pub enum Beating {
    /// An arrangement goes further than a traffic value.
    Traffic {
        live: Live,
        question: Question,
        arrangement: Arrangement,
        effect: i128,
        reported: i64,
    },
    /// A row goes further than its limit state's value. There is no
    /// arrangement where the row has no traffic or leaves it out.
    State {
        state: i64,
        question: Question,
        row: u32,
        k: u32,
        omitted: u32,
        arrangement: Option<Arrangement>,
        value: i128,
        reported: i64,
    },
    /// A state with rows reports none, or one without rows doesn't.
    Presence { state: i64 },
}

/// The first of so many draws that beats an accepted job's account.
pub fn first_beating(job: &Job, account: &Account, seed: u64, tries: u32) -> Option<Beating> {
    let sampler = Sampler::new(job);
    let mut rng = Rng::new(seed);
    sampler
        .wrong_presence(account)
        .or_else(|| (0..tries).find_map(|_| sampler.try_to_beat(account, &mut rng)))
}

/// A job with what the draws lean towards.
pub struct Sampler<'a> {
    job: &'a Job,
    lanes: usize,
    /// Runs of pieces above 0 and of pieces below.
    raised: Vec<Range<i128>>,
    lowered: Vec<Range<i128>>,
    /// Stations of a left axle with their side where the pair's ordinates, or
    /// those under one axle, are greatest and least; the pair's come first.
    high_stands: Vec<(i128, Side)>,
    low_stands: Vec<(i128, Side)>,
    /// Longitudinal effects of HN and of HO at the first of those stands, on
    /// the pieces above 0 and on those below.
    raising_effects: [Fraction; 2],
    lowering_effects: [Fraction; 2],
    combinations: Vec<Combination>,
}

impl<'a> Sampler<'a> {
    pub fn new(job: &'a Job) -> Sampler<'a> {
        let signs: Vec<u8> = job
            .pieces
            .iter()
            .map(|piece| match (piece.left + piece.right).signum() {
                1 => ABOVE_0,
                -1 => BELOW_0,
                _ => LEVEL,
            })
            .collect();
        let of_sign = |sign: u8| loaded_pieces(&signs, sign, 1);
        let (raised, lowered) = (of_sign(ABOVE_0), of_sign(BELOW_0));
        let high_stands = good_stands(job, Question::Greatest);
        let low_stands = good_stands(job, Question::Least);
        let effects_of = |loaded: &[Range<i128>], stand: (i128, Side)| {
            [Element::Hn, Element::Ho].map(|element| {
                let standing = LoadedLane {
                    element,
                    loaded: loaded.to_vec(),
                    left_axle: stand.0,
                    side: stand.1,
                    centre: 0,
                    factor: 0,
                };
                standing.longitudinal_effect(job, 1)
            })
        };
        Sampler {
            job,
            lanes: lane_counts(job).iter().sum(),
            raising_effects: effects_of(&raised, high_stands[0]),
            lowering_effects: effects_of(&lowered, low_stands[0]),
            raised,
            lowered,
            high_stands,
            low_stands,
            combinations: job.combinations(),
        }
    }

    fn wrong_presence(&self, account: &Account) -> Option<Beating> {
        [SERVICE, ULTIMATE].into_iter().find_map(|state| {
            let has_rows = self.combinations.iter().any(|row| row.state == state);
            let present = account.state(state).present != 0;
            (has_rows != present).then_some(Beating::Presence { state })
        })
    }

    /// One arrangement, held against its traffic value and against every row
    /// of each state that it may go with.
    fn try_to_beat(&self, account: &Account, rng: &mut Rng) -> Option<Beating> {
        let live = rng.pick(&Live::BOTH);
        let question = rng.pick(&Question::BOTH);
        let arrangement = self.draw(live, question, rng);
        let effect = arrangement.effect(self.job, live, question).round(question);
        let reported = account.traffic(live, question).value;
        if question.beats(effect, reported.into()) {
            assert_eq!(arrangement.lawful(self.job, live), Ok(()));
            return Some(Beating::Traffic {
                live,
                question,
                arrangement,
                effect,
                reported,
            });
        }
        self.combinations.iter().find_map(|row| {
            let with_traffic = row.live == Some(live) && !rng.one_in(8);
            let mut value = 0;
            if with_traffic {
                value += i128::from(row.live_factor) * effect;
            }
            let variant = &row.variants[rng.index(row.variants.len())];
            let (kept, omitted) = self.draw_omissions(variant, question, rng);
            value += kept;
            let reported = account.state(row.state).governing(question).value;
            question
                .beats(value, reported.into())
                .then(|| Beating::State {
                    state: row.state,
                    question,
                    row: row.row,
                    k: variant.k,
                    omitted,
                    arrangement: with_traffic.then(|| arrangement.clone()),
                    value,
                    reported,
                })
        })
    }

    /// What a row's effects come to without some of those that may be left out:
    /// those that hold the value back, or any.
    fn draw_omissions(&self, row: &Variant, question: Question, rng: &mut Rng) -> (i128, u32) {
        let aimed = rng.one_in(2);
        let mut kept = 0;
        let mut omitted = 0;
        for part in &row.parts {
            let effect = self.job.effects[part.effect - 1];
            let in_newtons = i128::from(effect.value) * i128::from(self.job.edition.effect_unit());
            let counts = i128::from(part.factor) * in_newtons;
            let leave_out = if aimed {
                question.beats(0, counts)
            } else {
                rng.one_in(2)
            };
            if effect.mark == MAY_BE_LEFT_OUT && leave_out {
                omitted |= 1 << (part.effect - 1);
            } else {
                kept += counts;
            }
        }
        (kept, omitted)
    }

    /// A lawful arrangement.
    pub fn draw(&self, live: Live, question: Question, rng: &mut Rng) -> Arrangement {
        let k = i128::from(self.draw_k(rng));
        if live == Live::Overload && !self.job.edition.has_overload() {
            return Arrangement::empty(k);
        }
        let aimed = rng.one_in(2);
        let disturbed = aimed && rng.one_in(2);
        let lanes: Vec<usize> = (0..self.lanes)
            .filter(|&lane| !centre_limits(self.job, lane, k).is_empty())
            .collect();
        let overload_lane = match live {
            Live::Normal => None,
            Live::Overload => Some(rng.pick(&lanes)),
        };
        let mut elements: Vec<(usize, LoadedLane)> = vec![];
        for &lane in &lanes {
            let element = if overload_lane == Some(lane) {
                Element::Ho
            } else {
                Element::Hn
            };
            let mut loaded = if aimed {
                self.draw_aimed(lane, element, question, k)
            } else {
                self.draw_loose(lane, element, k, rng)
            };
            if disturbed {
                self.disturb(lane, &mut loaded, k, rng);
            }
            elements.push((lane, loaded));
        }
        // The HN lanes that are loaded: those that go furthest, or any.
        let mut hn_lanes: Vec<usize> = lanes
            .into_iter()
            .filter(|&lane| overload_lane != Some(lane))
            .collect();
        if aimed {
            let goes_to = |lane: usize| {
                let (_, loaded) = elements.iter().find(|(at, _)| *at == lane).expect("drawn");
                self.aimed_effect(lane, loaded.element, loaded.centre, question, k)
                    .0
            };
            // Furthest first.
            hn_lanes.sort_by(|&one, &other| {
                let (one, other) = (goes_to(one), goes_to(other));
                let further = |one: Fraction, other: Fraction| match question {
                    Question::Greatest => other.is_below(one),
                    Question::Least => one.is_below(other),
                };
                further(other, one).cmp(&further(one, other))
            });
        } else {
            rng.shuffle(&mut hn_lanes);
        }
        hn_lanes.truncate(rng.index(hn_lanes.len() + 1));

        let mut arrangement = Arrangement::empty(k);
        for (lane, loaded) in elements {
            if overload_lane == Some(lane) || hn_lanes.contains(&lane) {
                arrangement.lanes[lane] = Some(loaded);
            }
        }
        if live == Live::Overload {
            // In the order of `hn_lanes`, or in any.
            let mut factors = additional_factors(hn_lanes.len());
            if disturbed {
                rng.shuffle(&mut factors);
            }
            assign(&mut arrangement, &hn_lanes, &factors);
        }
        arrangement
    }

    /// With k a multiple of every carriageway's n every limit of a centre is a k-th of
    /// a cm.
    fn draw_k(&self, rng: &mut Rng) -> i64 {
        let counts = lane_counts(self.job).into_iter();
        let n: i64 = counts.map(|lanes| lanes.max(1) as i64).product();
        match rng.below(8) {
            0 | 1 => n,
            2 => n * rng.between(1, 12),
            3 | 4 => rng.between(1, 12),
            5 => rng.between(13, 1000),
            6 => rng.between(1, LARGEST_K),
            _ => 1,
        }
    }

    /// The further of a raising and a lowering element at a centre.
    fn aimed_effect(
        &self,
        lane: usize,
        element: Element,
        centre: i128,
        question: Question,
        k: i128,
    ) -> (Fraction, Direction) {
        let ordinate = transverse_ordinate(self.job, lane, centre, k);
        let kind = match element {
            Element::Hn => 0,
            Element::Ho => 1,
        };
        let raising = ordinate * self.raising_effects[kind];
        let lowering = ordinate * self.lowering_effects[kind];
        let lowering_is_further = match question {
            Question::Greatest => raising.is_below(lowering),
            Question::Least => lowering.is_below(raising),
        };
        if lowering_is_further {
            (lowering, Direction::Lowering)
        } else {
            (raising, Direction::Raising)
        }
    }

    /// The furthest of the elements at the lane's limits and at the transverse
    /// ordinates between them, on the pieces of one sign, at the first stand.
    fn draw_aimed(&self, lane: usize, element: Element, question: Question, k: i128) -> LoadedLane {
        let mut furthest: Option<(Fraction, Direction, i128)> = None;
        for centre in marked_centres(self.job, lane, k) {
            let (effect, direction) = self.aimed_effect(lane, element, centre, question, k);
            let further = furthest.is_none_or(|(best, _, _)| match question {
                Question::Greatest => best.is_below(effect),
                Question::Least => effect.is_below(best),
            });
            if further {
                furthest = Some((effect, direction, centre));
            }
        }
        let (_, direction, centre) = furthest.expect("a lane's limits are not empty");
        let (pieces, stand) = match direction {
            Direction::Raising => (&self.raised, self.high_stands[0]),
            Direction::Lowering => (&self.lowered, self.low_stands[0]),
        };
        LoadedLane {
            element,
            loaded: in_k_ths(pieces, k),
            left_axle: stand.0 * k,
            side: stand.1,
            centre,
            factor: 0,
        }
    }

    /// An element of no particular aim.
    fn draw_loose(&self, lane: usize, element: Element, k: i128, rng: &mut Rng) -> LoadedLane {
        let line_end = self.job.pieces.len() as i128 * k;
        let apart = i128::from(AXLE_DISTANCE / self.job.piece_length) * k;
        let (station, side) = match rng.below(4) {
            0 => rng.pick(&self.high_stands),
            1 => rng.pick(&self.low_stands),
            _ => {
                let anywhere = between(rng, -apart / k - 1, line_end / k + 1);
                (anywhere, rng.pick(&[Side::Left, Side::Right]))
            }
        };
        let left_axle = match rng.below(3) {
            0 => station * k,
            1 => station * k + between(rng, -k, k),
            _ => between(rng, -apart - k, line_end + k),
        };
        let mut loaded = match rng.below(5) {
            0 => vec![],
            1 => std::iter::once(0..line_end).collect(),
            2 => in_k_ths(&self.raised, k),
            3 => in_k_ths(&self.lowered, k),
            _ => some_k_ths(rng, line_end),
        };
        for _ in 0..rng.below(3) {
            loaded = toggled(&loaded, any_range(rng, line_end));
        }
        let limits = centre_limits(self.job, lane, k);
        let centre = if rng.one_in(2) {
            let marked = marked_centres(self.job, lane, k);
            rng.pick(&marked)
        } else {
            between(rng, limits.start, limits.end - 1)
        };
        LoadedLane {
            element,
            loaded,
            left_axle,
            side,
            centre,
            factor: 0,
        }
    }

    /// Moves an element a little, in one way or several.
    fn disturb(&self, lane: usize, element: &mut LoadedLane, k: i128, rng: &mut Rng) {
        let line_end = self.job.pieces.len() as i128 * k;
        if rng.one_in(3) {
            element.left_axle += between(rng, -3, 3);
        }
        if rng.one_in(3) {
            element.side = rng.pick(&[Side::Left, Side::Right]);
        }
        if rng.one_in(3) {
            let limits = centre_limits(self.job, lane, k);
            let moved = element.centre + between(rng, -3, 3);
            element.centre = moved.clamp(limits.start, limits.end - 1);
        }
        if rng.one_in(3) {
            let from = between(rng, 0, line_end - 1);
            let to = (from + between(rng, 1, 2 * k)).min(line_end);
            element.loaded = toggled(&element.loaded, from..to);
        }
    }
}

/// Gives additional lanes their factors.
fn assign(arrangement: &mut Arrangement, lanes: &[usize], factors: &[i64]) {
    for (&lane, &factor) in lanes.iter().zip(factors) {
        let loaded = arrangement.lanes[lane].as_mut().expect("a loaded lane");
        loaded.factor = factor;
    }
}

/// Stations and sides that go furthest: of the pair first, then with either
/// axle where the line itself does.
fn good_stands(job: &Job, question: Question) -> Vec<(i128, Side)> {
    let apart = i128::from(AXLE_DISTANCE / job.piece_length);
    let stations = -apart - 1..=job.pieces.len() as i128 + 1;
    let all = || {
        stations
            .clone()
            .flat_map(|station| [(station, Side::Left), (station, Side::Right)])
    };
    let furthest = |ordinates: &dyn Fn((i128, Side)) -> i128| {
        let further = |best, tried| {
            if question.beats(ordinates(tried), ordinates(best)) {
                tried
            } else {
                best
            }
        };
        all().reduce(further).expect("there are stations")
    };
    let left = |(station, side)| ordinate_at(&job.pieces, station, side, 1);
    let right = |(station, side)| ordinate_at(&job.pieces, station + apart, side, 1);
    vec![
        furthest(&|stand| left(stand) + right(stand)),
        furthest(&left),
        furthest(&right),
    ]
}

/// The centres open to a lane's element, in k-ths of a cm; the end is not
/// among them.
fn centre_limits(job: &Job, lane: usize, k: i128) -> Range<i128> {
    let own = OwnCarriageway::of(job, lane).expect("a lane of the job");
    let (from, to) = own.centre_limits_in_cm();
    let k = Fraction::whole(k);
    (from * k).round(Question::Greatest)..(to * k).round(Question::Least) + 1
}

/// The first and last centre of a lane and those at transverse ordinates.
fn marked_centres(job: &Job, lane: usize, k: i128) -> Vec<i128> {
    let limits = centre_limits(job, lane, k);
    let step = i128::from(job.spacing) * k;
    let first = Question::Greatest.round(limits.start, step);
    let ordinates = (first..).map(|number| number * step);
    let mut centres = vec![limits.start, limits.end - 1];
    centres.extend(ordinates.take_while(|centre| limits.contains(centre)));
    centres
}

/// Runs of whole pieces, in k-ths.
fn in_k_ths(pieces: &[Range<i128>], k: i128) -> Vec<Range<i128>> {
    let scaled = |run: &Range<i128>| run.start * k..run.end * k;
    pieces.iter().map(scaled).collect()
}

/// A few ranges of k-ths.
fn some_k_ths(rng: &mut Rng, line_end: i128) -> Vec<Range<i128>> {
    let mut loaded = vec![];
    for _ in 0..rng.between(1, 6) {
        loaded = toggled(&loaded, any_range(rng, line_end));
    }
    loaded
}

fn any_range(rng: &mut Rng, line_end: i128) -> Range<i128> {
    let from = between(rng, 0, line_end - 1);
    from..between(rng, from + 1, line_end)
}

/// Loads what of a range is unloaded and unloads what of it is loaded.
fn toggled(loaded: &[Range<i128>], range: Range<i128>) -> Vec<Range<i128>> {
    // Every end of a range turns loading on or off; two at one place cancel.
    let mut turns: Vec<i128> = loaded
        .iter()
        .chain(std::iter::once(&range))
        .flat_map(|range| [range.start, range.end])
        .collect();
    turns.sort_unstable();
    let mut left: Vec<i128> = vec![];
    for turn in turns {
        if left.last() == Some(&turn) {
            left.pop();
        } else {
            left.push(turn);
        }
    }
    left.chunks_exact(2).map(|ends| ends[0]..ends[1]).collect()
}

fn between(rng: &mut Rng, from: i128, to: i128) -> i128 {
    from + i128::from(rng.below((to - from + 1) as u64))
}
