//! 01 "Dynamic factor, rounding, rows", 02 "Farm bridges", "Additional overload lanes",
//! "Two carriageways" and "Records walked": the account, as plain numbers, so that an
//! account of any origin can be held beside it.

use crate::lanes::MOST_LANES;
use crate::loads::{Direction, Element, Live, Question, Side};

/// The answer to a job: an account, or a refusal with an account of zeros.
#[derive(Debug, Clone, Copy, PartialEq, Eq, Default)]
pub struct Answer {
    /// The refusal's number; 0 for an accepted job.
    pub refusal: u64,
    /// The refusal's word place; 0 for an accepted job.
    pub place: u64,
    pub account: Account,
}

#[derive(Debug, Clone, Copy, PartialEq, Eq, Default)]
pub struct Account {
    pub normal_greatest: Traffic,
    pub normal_least: Traffic,
    pub overload_greatest: Traffic,
    pub overload_least: Traffic,
    pub raising: Stand,
    pub lowering: Stand,
    pub service: State,
    pub ultimate: State,
    /// Lanes of the first carriageway and of the second, 0 where there is none.
    pub first_lanes: u32,
    pub second_lanes: u32,
    /// The sum over rows of their chains' lengths; at most R times E.
    pub records_walked: i64,
}

/// A traffic value in N·U and the placement that gives it.
#[derive(Debug, Clone, Copy, PartialEq, Eq, Default)]
pub struct Traffic {
    pub value: i64,
    /// A bit a lane, the leftmost lane the lowest, the second carriageway's after the
    /// first's.
    pub set: u32,
    /// In the same order; lanes past the last are unloaded.
    pub lanes: [Lane; MOST_LANES],
}

/// A lane's entry.
#[derive(Debug, Clone, Copy, PartialEq, Eq, Default)]
pub struct Lane {
    /// 0 unloaded, 1 HN raising, 2 HN lowering, 3 HO raising, 4 HO lowering.
    pub entry: u32,
    /// In n-ths of a cm from the left kerb, both the lane's own carriageway's; 0 for an
    /// unloaded lane.
    pub centre: i64,
    /// In twentieths, the lane's own where it is an additional one of overload; else 0.
    pub factor: i64,
}

/// The raising or the lowering stand of the pair's left axle.
#[derive(Debug, Clone, Copy, PartialEq, Eq, Default)]
pub struct Stand {
    /// In pieces from the line's left end, below 0 to its left.
    pub station: i64,
    /// 0 left, 1 right.
    pub side: u32,
}

/// What a limit state reports.
#[derive(Debug, Clone, Copy, PartialEq, Eq, Default)]
pub struct State {
    /// 1 where the state has rows; 0 for none, with zeros in the rest.
    pub present: u32,
    pub greatest: Governing,
    pub least: Governing,
}

/// A limit state's value with the row that gives it.
#[derive(Debug, Clone, Copy, PartialEq, Eq, Default)]
pub struct Governing {
    /// In thousandths of N·U.
    pub value: i64,
    /// Counted from 1.
    pub row: u32,
    /// The effects left out, a bit an effect, effect 1 the lowest.
    pub omitted: u32,
    /// 1 where the traffic is left out.
    pub traffic_left_out: u32,
    /// The factor k of DL in thousandths, where the row has it; else 0.
    pub k: u32,
}

impl Account {
    /// The traffic value of a live kind and question.
    pub fn traffic(&self, live: Live, question: Question) -> &Traffic {
        match (live, question) {
            (Live::Normal, Question::Greatest) => &self.normal_greatest,
            (Live::Normal, Question::Least) => &self.normal_least,
            (Live::Overload, Question::Greatest) => &self.overload_greatest,
            (Live::Overload, Question::Least) => &self.overload_least,
        }
    }

    /// The stand of a raising or a lowering element.
    pub fn stand(&self, direction: Direction) -> &Stand {
        match direction {
            Direction::Raising => &self.raising,
            Direction::Lowering => &self.lowering,
        }
    }

    /// What the state of a row's first word reports: 1 service, 2 ultimate.
    pub fn state(&self, state: i64) -> &State {
        if state == crate::job::SERVICE {
            &self.service
        } else {
            &self.ultimate
        }
    }
}

impl State {
    pub fn governing(&self, question: Question) -> &Governing {
        match question {
            Question::Greatest => &self.greatest,
            Question::Least => &self.least,
        }
    }
}

pub const UNLOADED: u32 = 0;

/// The number of a loaded lane's entry.
pub fn entry_number(element: Element, direction: Direction) -> u32 {
    match (element, direction) {
        (Element::Hn, Direction::Raising) => 1,
        (Element::Hn, Direction::Lowering) => 2,
        (Element::Ho, Direction::Raising) => 3,
        (Element::Ho, Direction::Lowering) => 4,
    }
}

/// The element and direction an entry's number stands for, if any.
pub fn entry_of(number: u32) -> Option<(Element, Direction)> {
    match number {
        1 => Some((Element::Hn, Direction::Raising)),
        2 => Some((Element::Hn, Direction::Lowering)),
        3 => Some((Element::Ho, Direction::Raising)),
        4 => Some((Element::Ho, Direction::Lowering)),
        _ => None,
    }
}

/// The number of a side.
pub fn side_number(side: Side) -> u32 {
    match side {
        Side::Left => 0,
        Side::Right => 1,
    }
}

/// The side a number stands for, if any.
pub fn side_of(number: u32) -> Option<Side> {
    match number {
        0 => Some(Side::Left),
        1 => Some(Side::Right),
        _ => None,
    }
}
