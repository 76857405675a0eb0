//! 01 "Lanes" and "Dynamic factor, rounding, rows", 02 "Farm bridges", "Span by sign",
//! "Additional overload lanes" and "Two carriageways": the four traffic values, over
//! every centre, direction, lane set, HO lane and assignment of the additional lanes'
//! factors.

use crate::account::{entry_number, Lane, Traffic};
use crate::job::Job;
use crate::lanes::{
    breakpoint_centres, common_denominator, lanes_of_job, transverse_ordinate, MOST_LANES,
};
use crate::line::longitudinal_effect;
use crate::loads::{
    additional_factors, reduction, Direction, Element, Live, Question, OVERLOAD_ELEMENT_TWENTIETHS,
    X_OVER, X_TIMES,
};

/// An element standing in a lane, at its furthest for a question.
#[derive(Debug, Clone, Copy, PartialEq, Eq)]
pub struct LaneElement {
    pub element: Element,
    pub direction: Direction,
    /// In n-ths of a cm.
    pub centre: i64,
    /// Longitudinal effect times transverse ordinate, times the common denominator.
    pub effect: i128,
}

/// The longitudinal effects of both elements in both directions.
#[derive(Debug, Clone, Copy, PartialEq, Eq)]
pub struct LongitudinalEffects {
    pub hn_raising: i64,
    pub hn_lowering: i64,
    pub ho_raising: i64,
    pub ho_lowering: i64,
}

impl LongitudinalEffects {
    pub fn of(job: &Job) -> LongitudinalEffects {
        LongitudinalEffects {
            hn_raising: longitudinal_effect(job, Element::Hn, Direction::Raising),
            hn_lowering: longitudinal_effect(job, Element::Hn, Direction::Lowering),
            ho_raising: longitudinal_effect(job, Element::Ho, Direction::Raising),
            ho_lowering: longitudinal_effect(job, Element::Ho, Direction::Lowering),
        }
    }

    fn get(&self, element: Element, direction: Direction) -> i64 {
        match (element, direction) {
            (Element::Hn, Direction::Raising) => self.hn_raising,
            (Element::Hn, Direction::Lowering) => self.hn_lowering,
            (Element::Ho, Direction::Raising) => self.ho_raising,
            (Element::Ho, Direction::Lowering) => self.ho_lowering,
        }
    }
}

/// The furthest that an element in a lane goes; where it goes as far in several
/// ways, at the lowest centre, raising before lowering.
pub fn furthest_in_lane(
    job: &Job,
    longitudinal: &LongitudinalEffects,
    lane: usize,
    element: Element,
    question: Question,
) -> LaneElement {
    let at = |centre: i64, direction: Direction| LaneElement {
        element,
        direction,
        centre,
        effect: i128::from(longitudinal.get(element, direction))
            * i128::from(transverse_ordinate(job, lane, centre)),
    };
    let centres = breakpoint_centres(job, lane);
    let mut furthest = at(centres[0], Direction::Raising);
    for &centre in &centres {
        for direction in [Direction::Raising, Direction::Lowering] {
            let tried = at(centre, direction);
            if question.beats(tried.effect, furthest.effect) {
                furthest = tried;
            }
        }
    }
    furthest
}

/// A set of loaded lanes with its HO lane, if any, the factors of the lanes beside it
/// and the sum in 75 N·U times transverse thousandths, times the common denominator,
/// times twentieths.
#[derive(Debug, Clone, Copy, PartialEq, Eq)]
struct Loading {
    set: u32,
    overload_lane: Option<usize>,
    /// In twentieths, of additional lanes; 0 for any other.
    factors: [i64; MOST_LANES],
    sum: i128,
}

/// The traffic value of a live kind and question, with its placement. Overload
/// without HO is 0, every lane unloaded.
pub fn traffic_value(
    job: &Job,
    longitudinal: &LongitudinalEffects,
    live: Live,
    question: Question,
) -> Traffic {
    if live == Live::Overload && !job.edition.has_overload() {
        return Traffic::default();
    }
    let lanes = 0..lanes_of_job(job);
    let furthest = |element| -> Vec<LaneElement> {
        lanes
            .clone()
            .map(|lane| furthest_in_lane(job, longitudinal, lane, element, question))
            .collect()
    };
    let hn = furthest(Element::Hn);
    let ho = furthest(Element::Ho);
    let loading = match live {
        Live::Normal => best_normal(&hn, question),
        Live::Overload => best_overload(&hn, &ho, question),
    };

    let mut traffic = Traffic {
        value: effect_in_whole_units(job, loading.sum, question),
        set: loading.set,
        ..Traffic::default()
    };
    for lane in lanes_of(loading.set) {
        let standing = if loading.overload_lane == Some(lane) {
            ho[lane]
        } else {
            hn[lane]
        };
        traffic.lanes[lane] = Lane {
            entry: entry_number(standing.element, standing.direction),
            centre: standing.centre,
            factor: loading.factors[lane],
        };
    }
    traffic
}

/// Normal: any set of lanes carries HN, the sum at the r of their number. Of
/// equally good sets the lowest is taken.
fn best_normal(hn: &[LaneElement], question: Question) -> Loading {
    let all_sets = 0..1_u32 << hn.len();
    let loadings = all_sets.map(|set| Loading {
        set,
        sum: reduced_sum(hn, set),
        ..Loading::EMPTY
    });
    first_loading(loadings, question)
}

/// What a loaded lane carries in overload: HO, or HN at a factor in twentieths.
#[derive(Debug, Clone, Copy, PartialEq, Eq)]
enum Load {
    Ho,
    Additional(i64),
}

/// Overload: one lane carries HO at 20; the other loaded lanes are HN, each at a
/// factor of its own, those of their number assigned in any way.
///
/// The loads are numbered, HO first, then the factors of the first additional lane and
/// of those after it. Lane after lane each load is tried that is not given out yet. Of
/// the loadings that have given out the same loads the one that goes before the others
/// is kept, since what further lanes can add is the same for all of them. In the end
/// those count that have given out HO and the factors of so many additional lanes.
fn best_overload(hn: &[LaneElement], ho: &[LaneElement], question: Question) -> Loading {
    let factors = additional_factors(hn.len() - 1).into_iter();
    let loads: Vec<Load> = [Load::Ho]
        .into_iter()
        .chain(factors.map(Load::Additional))
        .collect();
    // By what is given out, a bit a load.
    let mut kept: Vec<Option<Loading>> = vec![None; 1 << loads.len()];
    kept[0] = Some(Loading::EMPTY);
    for lane in 0..hn.len() {
        // A lane's load makes the number larger, so none gives out two of them.
        for given_out in (0..kept.len()).rev() {
            let Some(loading) = kept[given_out] else {
                continue;
            };
            for number in numbers_left(&loads, given_out) {
                let tried = loading.with(lane, loads[number], &hn[lane], &ho[lane]);
                let best = &mut kept[given_out | 1 << number];
                if best.is_none_or(|best| tried.goes_before(&best, question)) {
                    *best = Some(tried);
                }
            }
        }
    }
    let first_so_many = (1..=loads.len()).map(|count| (1 << count) - 1);
    let lawful = first_so_many.filter_map(|given_out: usize| kept[given_out]);
    first_loading(lawful, question)
}

/// The loads that are not given out; of equal ones the first alone.
fn numbers_left(loads: &[Load], given_out: usize) -> impl Iterator<Item = usize> + '_ {
    let is_left = move |number: usize| given_out & (1 << number) == 0;
    let after_an_equal = move |number: usize| {
        number > 0 && loads[number - 1] == loads[number] && is_left(number - 1)
    };
    (0..loads.len()).filter(move |&number| is_left(number) && !after_an_equal(number))
}

impl Loading {
    const EMPTY: Loading = Loading {
        set: 0,
        overload_lane: None,
        factors: [0; MOST_LANES],
        sum: 0,
    };

    /// The loading with one more lane in overload.
    fn with(mut self, lane: usize, load: Load, hn: &LaneElement, ho: &LaneElement) -> Loading {
        self.set |= 1 << lane;
        match load {
            Load::Ho => {
                self.overload_lane = Some(lane);
                self.sum += i128::from(OVERLOAD_ELEMENT_TWENTIETHS) * ho.effect;
            }
            Load::Additional(factor) => {
                self.factors[lane] = factor;
                self.sum += i128::from(factor) * hn.effect;
            }
        }
        self
    }

    /// Whether it goes further than another or, where it goes as far, has the lower HO
    /// lane, then the lower set, then the larger factor in the lower lane. What further
    /// lanes add to both leaves it so.
    fn goes_before(&self, other: &Loading, question: Question) -> bool {
        if self.sum != other.sum {
            return question.beats(self.sum, other.sum);
        }
        let in_order = |one: &Loading| {
            (
                one.overload_lane,
                one.set,
                one.factors.map(|factor| -factor),
            )
        };
        in_order(self) < in_order(other)
    }
}

/// The sum over HN lanes at the r of their number.
fn reduced_sum(hn: &[LaneElement], set: u32) -> i128 {
    let sum: i128 = lanes_of(set).map(|lane| hn[lane].effect).sum();
    i128::from(reduction(set)) * sum
}

/// The loading that goes before all others.
fn first_loading(loadings: impl Iterator<Item = Loading>, question: Question) -> Loading {
    let first = |best: Loading, tried: Loading| {
        if tried.goes_before(&best, question) {
            tried
        } else {
            best
        }
    };
    loadings.reduce(first).expect("there is a lane")
}

/// The lanes of a set, leftmost first.
pub fn lanes_of(set: u32) -> impl Iterator<Item = usize> {
    (0..u32::BITS as usize).filter(move |lane| set & (1 << lane) != 0)
}

/// 3X/800000, or the edition's share of it, with the dynamic factor of its question
/// and rounded for it. The sum still carries the common denominator.
fn effect_in_whole_units(job: &Job, sum: i128, question: Question) -> i64 {
    let dynamic = i128::from(job.dynamic_factor(question));
    let denominator = i128::from(common_denominator(job));
    let (share, whole) = job.edition.share_of_x();
    let dividend = X_TIMES * sum * dynamic * share;
    let rounded = question.round(dividend, X_OVER * denominator * whole);
    i64::try_from(rounded).expect("a traffic value fits 64 bits")
}
