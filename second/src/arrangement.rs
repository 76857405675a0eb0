//! 01 "Arrangements, for demand 3", 02 "Farm bridges", "Span by sign", "Additional
//! overload lanes" and "Two carriageways": arrangements in k-ths, judged and evaluated
//! in exact fractions. Nothing here asks for the best of anything. With the code that
//! does, it shares only the lane counts, the loads and factors of loads.rs, a job's
//! dynamic factors, what edition.rs says of an edition and the patch byte that a
//! direction loads.

use crate::account::{entry_of, side_of, Account, Traffic, UNLOADED};
use crate::fraction::Fraction;
use crate::job::{Job, Piece};
use crate::lanes::{lane_counts, EDGE_DISTANCE, MOST_LANES};
use crate::line::loaded_byte;
use crate::loads::{
    additional_factors, reduction, Element, Live, Question, Side, AXLE_DISTANCE,
    OVERLOAD_ELEMENT_TWENTIETHS, UNIFORM_LOAD, X_OVER, X_TIMES,
};
use std::ops::Range;

/// What an additional lane carries, and in which live kind.
const ADDITIONAL: (Live, Element) = (Live::Overload, Element::Hn);

/// A set of lanes with an element of its own for each lane in it.
#[derive(Debug, Clone, PartialEq, Eq)]
pub struct Arrangement {
    /// A whole number from 1 up.
    pub k: i128,
    /// Leftmost lane first, the second carriageway's after the first's.
    pub lanes: [Option<LoadedLane>; MOST_LANES],
}

/// The element in a loaded lane.
#[derive(Debug, Clone, PartialEq, Eq)]
pub struct LoadedLane {
    pub element: Element,
    /// The k-ths of pieces under uniform load, counted from the line's left
    /// end, as ranges in rising order that don't overlap.
    pub loaded: Vec<Range<i128>>,
    /// The left axle, in k-ths of a piece from the line's left end.
    pub left_axle: i128,
    pub side: Side,
    /// In k-ths of a cm from the left kerb of the lane's own carriageway.
    pub centre: i128,
    /// In twentieths, the lane's own where it is an additional one of overload; else 0.
    pub factor: i64,
}

impl Arrangement {
    pub fn empty(k: i128) -> Arrangement {
        Arrangement {
            k,
            lanes: [const { None }; MOST_LANES],
        }
    }

    /// The loaded lanes with their elements.
    pub fn loaded_lanes(&self) -> impl Iterator<Item = (usize, &LoadedLane)> {
        let lanes = self.lanes.iter().enumerate();
        lanes.filter_map(|(lane, loaded)| loaded.as_ref().map(|loaded| (lane, loaded)))
    }

    /// Whether the arrangement keeps the job's rules for this live kind.
    pub fn lawful(&self, job: &Job, live: Live) -> Result<(), String> {
        if self.k < 1 {
            return Err(format!("k is {}", self.k));
        }
        for (lane, loaded) in self.loaded_lanes() {
            let rule_broken = |rule: &str| Err(format!("lane {}: {rule}", lane + 1));
            let Some(own) = OwnCarriageway::of(job, lane) else {
                return rule_broken("is past the last lane");
            };
            let (from, to) = own.centre_limits_in_cm();
            let centre = Fraction::new(loaded.centre, self.k);
            if centre.is_below(from) || to.is_below(centre) {
                return rule_broken("its centre is outside the lane's limits");
            }
            let mut free_from = 0;
            for range in &loaded.loaded {
                if range.start < free_from || range.end <= range.start {
                    return rule_broken("its loaded k-ths are out of order");
                }
                free_from = range.end;
            }
            if free_from > job.pieces.len() as i128 * self.k {
                return rule_broken("its loaded k-ths run past the line");
            }
        }
        self.elements_are_lawful(job, live)?;
        self.factors_are_lawful(live)
    }

    /// No HO in normal, one in overload; no element in the overload of an edition
    /// without HO.
    fn elements_are_lawful(&self, job: &Job, live: Live) -> Result<(), String> {
        let elements = self.loaded_lanes().map(|(_, loaded)| loaded.element);
        let overload_elements = elements.filter(|&element| element == Element::Ho).count();
        match (live, overload_elements) {
            (Live::Overload, _) if !job.edition.has_overload() => {
                let empty = self.loaded_lanes().next().is_none();
                empty
                    .then_some(())
                    .ok_or("overload without HO, but a lane is loaded".into())
            }
            (Live::Normal, 0) | (Live::Overload, 1) => Ok(()),
            (Live::Normal, _) => Err("an HO element in normal".into()),
            (Live::Overload, count) => Err(format!("{count} HO elements in overload")),
        }
    }

    /// The additional lanes have the factors of their number, each as often as those
    /// have it; any other lane has none.
    fn factors_are_lawful(&self, live: Live) -> Result<(), String> {
        let is_additional = |loaded: &LoadedLane| (live, loaded.element) == ADDITIONAL;
        for (lane, loaded) in self.loaded_lanes() {
            if !is_additional(loaded) && loaded.factor != 0 {
                return Err(format!(
                    "lane {}: has a factor but is not additional",
                    lane + 1
                ));
            }
        }
        let additional = self
            .loaded_lanes()
            .filter(|(_, loaded)| is_additional(loaded));
        let found: Vec<i64> = additional.map(|(_, loaded)| loaded.factor).collect();
        let due = additional_factors(found.len());
        let times = |factors: &[i64], factor| factors.iter().filter(|&&one| one == factor).count();
        // There are as many of either, so none is over where all that are due are there.
        for &factor in &due {
            let (found_times, due_times) = (times(&found, factor), times(&due, factor));
            if found_times != due_times {
                return Err(format!(
                    "{} additional lanes have factor {factor} {found_times} times, {due_times} is due",
                    due.len()
                ));
            }
        }
        Ok(())
    }

    /// 3X/800000, or the edition's share of it, in N·U, with the dynamic factor of a
    /// question, before it is rounded for it.
    pub fn effect(&self, job: &Job, live: Live, question: Question) -> Fraction {
        let loaded_set = self
            .loaded_lanes()
            .fold(0, |set, (lane, _)| set | 1 << lane);
        let mut in_twentieths = Fraction::ZERO;
        for (lane, loaded) in self.loaded_lanes() {
            let twentieths = match (live, loaded.element) {
                (Live::Normal, _) => reduction(loaded_set),
                (Live::Overload, Element::Ho) => OVERLOAD_ELEMENT_TWENTIETHS,
                ADDITIONAL => loaded.factor,
            };
            let effect = loaded.longitudinal_effect(job, self.k)
                * transverse_ordinate(job, lane, loaded.centre, self.k);
            in_twentieths = in_twentieths + effect * Fraction::whole(twentieths.into());
        }
        let x = in_twentieths * Fraction::whole(job.dynamic_factor(question).into());
        let (share, whole) = job.edition.share_of_x();
        x * Fraction::new(X_TIMES, X_OVER) * Fraction::new(share, whole)
    }
}

impl LoadedLane {
    /// The sum over its loaded k-ths and its two axles, in 75 N·U.
    pub fn longitudinal_effect(&self, job: &Job, k: i128) -> Fraction {
        let ranges = self.loaded.iter();
        // In 75 N·U times k times k.
        let uniform: i128 = ranges.map(|range| uniform_load_on(job, range, k)).sum();
        let apart = i128::from(AXLE_DISTANCE / job.piece_length) * k;
        // In U times k.
        let under_axles = ordinate_at(&job.pieces, self.left_axle, self.side, k)
            + ordinate_at(&job.pieces, self.left_axle + apart, self.side, k);
        let axle_load = i128::from(self.element.axle_load());
        Fraction::new(uniform + axle_load * under_axles * k, k * k)
    }
}

/// What loaded k-ths give, times k times k. A k-th gives 7 times h times the
/// sum of the ordinates at its two ends, over k. Those ends are j and j + 1
/// k-ths into its piece, where the ordinates times k are a times k plus j, or
/// j + 1, times b - a; the sum over j from s to below e is therefore 2 times a
/// times k times e - s, plus b - a times the squares' difference.
fn uniform_load_on(job: &Job, range: &Range<i128>, k: i128) -> i128 {
    let weight = i128::from(UNIFORM_LOAD * job.piece_length);
    let mut sum = 0;
    let mut from = range.start;
    while from < range.end {
        let number = from / k;
        let piece_end = (number + 1) * k;
        let to = range.end.min(piece_end);
        let Piece { left, right } = job.pieces[number as usize];
        let (s, e) = (from - number * k, to - number * k);
        let slope = i128::from(right - left);
        sum += weight * (2 * i128::from(left) * k * (e - s) + slope * (e * e - s * s));
        from = to;
    }
    sum
}

/// The ordinate, times k, under an axle this many k-ths of a piece from the
/// line's left end; at a station, the one on its side.
pub(crate) fn ordinate_at(line: &[Piece], place: i128, side: Side, k: i128) -> i128 {
    let (number, beyond) = (place.div_euclid(k), place.rem_euclid(k));
    // An axle at a station, seen from the left, is at the end of the piece
    // before it.
    let (number, beyond) = match side {
        Side::Left if beyond == 0 => (number - 1, k),
        _ => (number, beyond),
    };
    let piece = usize::try_from(number)
        .ok()
        .and_then(|number| line.get(number));
    piece.map_or(0, |piece| {
        i128::from(piece.left) * (k - beyond) + i128::from(piece.right) * beyond
    })
}

/// The carriageway of a lane, with the lane's number there, from 0 on.
pub(crate) struct OwnCarriageway<'a> {
    /// In cm.
    width: i128,
    pub(crate) lanes: usize,
    transverse: &'a [i64],
    number: usize,
}

impl OwnCarriageway<'_> {
    /// That of a lane of the job; none past the last.
    pub(crate) fn of(job: &Job, lane: usize) -> Option<OwnCarriageway<'_>> {
        let [first, second] = lane_counts(job);
        if lane < first {
            Some(OwnCarriageway {
                width: job.width.into(),
                lanes: first,
                transverse: &job.transverse,
                number: lane,
            })
        } else if lane < first + second {
            Some(OwnCarriageway {
                width: job.second_width()?.into(),
                lanes: second,
                transverse: &job.second_transverse,
                number: lane - first,
            })
        } else {
            None
        }
    }

    /// Lanes are W/n wide, and the centre stays 150 cm from the lane's edges.
    pub(crate) fn centre_limits_in_cm(&self) -> (Fraction, Fraction) {
        let edge = |number: usize| Fraction::new(number as i128 * self.width, self.lanes as i128);
        let distance = i128::from(EDGE_DISTANCE);
        (
            edge(self.number) + Fraction::whole(distance),
            edge(self.number + 1) + Fraction::whole(-distance),
        )
    }
}

/// The transverse ordinate of a lane's carriageway, in thousandths, this many k-ths of
/// a cm from its left kerb.
pub(crate) fn transverse_ordinate(job: &Job, lane: usize, centre: i128, k: i128) -> Fraction {
    let own = OwnCarriageway::of(job, lane).expect("a lane of the job");
    let spacing = i128::from(job.spacing) * k;
    let (number, beyond) = ((centre / spacing) as usize, centre % spacing);
    let ordinate = |number: usize| i128::from(own.transverse[number]);
    if beyond == 0 {
        return Fraction::whole(ordinate(number));
    }
    let weighed = ordinate(number) * (spacing - beyond) + ordinate(number + 1) * beyond;
    Fraction::new(weighed, spacing)
}

/// "The reported placement of a traffic value is the arrangement with its lane
/// set, kinds and centres", and the factors shown. Centres are reported in n-ths of a cm
/// for their own carriageway, so k is the product of the lane counts. `patch` holds the
/// patch byte of each piece.
pub fn reported_placement(
    job: &Job,
    patch: &[u8],
    account: &Account,
    traffic: &Traffic,
) -> Result<Arrangement, String> {
    let k: i128 = lane_counts(job)
        .iter()
        .map(|&lanes| lanes.max(1) as i128)
        .product();
    let mut arrangement = Arrangement::empty(k);
    if traffic.set >> MOST_LANES != 0 {
        return Err(format!("lane set {:#b} names no lane", traffic.set));
    }
    for (lane, reported) in traffic.lanes.iter().enumerate() {
        let rule_broken = |rule: &str| Err(format!("lane {}: {rule}", lane + 1));
        let in_set = traffic.set & (1 << lane) != 0;
        if in_set != (reported.entry != UNLOADED) {
            return rule_broken("its entry does not agree with the lane set");
        }
        if !in_set {
            if reported.centre != 0 {
                return rule_broken("it is unloaded but has a centre");
            }
            if reported.factor != 0 {
                return rule_broken("it is unloaded but has a factor");
            }
            continue;
        }
        let Some((element, direction)) = entry_of(reported.entry) else {
            return rule_broken("its entry's number stands for nothing");
        };
        let Some(own) = OwnCarriageway::of(job, lane) else {
            return rule_broken("is past the last lane");
        };
        let stand = account.stand(direction);
        let Some(side) = side_of(stand.side) else {
            return rule_broken("its side's number stands for nothing");
        };
        arrangement.lanes[lane] = Some(LoadedLane {
            element,
            loaded: loaded_pieces(patch, loaded_byte(direction), k),
            left_axle: i128::from(stand.station) * k,
            side,
            centre: i128::from(reported.centre) * (k / own.lanes as i128),
            factor: reported.factor,
        });
    }
    Ok(arrangement)
}

/// The k-ths of the pieces with this patch byte.
pub fn loaded_pieces(patch: &[u8], byte: u8, k: i128) -> Vec<Range<i128>> {
    let pieces = (0..).zip(patch).filter(|&(_, &found)| found == byte);
    let mut ranges: Vec<Range<i128>> = Vec::new();
    for (number, _) in pieces {
        let (from, to) = (number * k, (number + 1) * k);
        match ranges.last_mut() {
            Some(last) if last.end == from => last.end = to,
            _ => ranges.push(from..to),
        }
    }
    ranges
}
