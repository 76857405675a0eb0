//! 01 "Longitudinal effect", "Lanes" and "Dynamic factor, rounding, rows", 02
//! "Span by sign", "Additional overload lanes" and "Two carriageways": the loads and
//! factors that don't depend on the lines, and the two questions.

/// The element a loaded lane carries.
#[derive(Debug, Clone, Copy, PartialEq, Eq)]
pub enum Element {
    Hn,
    Ho,
}

impl Element {
    /// What one axle gives for each unit of ordinate, in 75 N·U.
    pub fn axle_load(self) -> i64 {
        match self {
            Element::Hn => 1600,
            Element::Ho => 3200,
        }
    }
}

/// A whole loaded piece gives this times h times the sum of its ordinates, in
/// 75 N·U, for either kind of element.
pub const UNIFORM_LOAD: i64 = 7;

/// Distance between the axles of a pair, in decimetres.
pub const AXLE_DISTANCE: i64 = 50;

/// Whether an element takes the raising or the lowering placement.
#[derive(Debug, Clone, Copy, PartialEq, Eq)]
pub enum Direction {
    Raising,
    Lowering,
}

/// The side from which an axle at a station counts the ordinate.
#[derive(Debug, Clone, Copy, PartialEq, Eq)]
pub enum Side {
    Left,
    Right,
}

/// What a traffic value or a limit state is asked for.
#[derive(Debug, Clone, Copy, PartialEq, Eq)]
pub enum Question {
    Greatest,
    Least,
}

impl Question {
    pub const BOTH: [Question; 2] = [Question::Greatest, Question::Least];

    /// Whether one number goes strictly further than another in this question.
    pub fn beats<T: PartialOrd>(self, one: T, other: T) -> bool {
        match self {
            Question::Greatest => one > other,
            Question::Least => one < other,
        }
    }

    /// A quotient rounded to a whole: up for greatest, down for least. The
    /// divisor is above 0.
    pub fn round(self, dividend: i128, divisor: i128) -> i128 {
        match self {
            Question::Greatest => -(-dividend).div_euclid(divisor),
            Question::Least => dividend.div_euclid(divisor),
        }
    }
}

/// The kind of live load a traffic value is for.
#[derive(Debug, Clone, Copy, PartialEq, Eq)]
pub enum Live {
    Normal,
    Overload,
}

impl Live {
    pub const BOTH: [Live; 2] = [Live::Normal, Live::Overload];

    /// The traffic of a row's live kind; kind 0 has none.
    pub fn of_row(live_kind: i64) -> Option<Live> {
        match live_kind {
            crate::job::LIVE_NORMAL => Some(Live::Normal),
            crate::job::LIVE_OVERLOAD => Some(Live::Overload),
            _ => None,
        }
    }
}

/// r in twentieths, chosen by the ones of a set of lanes. The empty set has no
/// r of its own; its sum is 0 whatever stands here.
pub fn reduction(set: u32) -> i64 {
    tabulated_factor(set.count_ones())
}

/// The reduction factors of 3.2.4, in twentieths; six lanes or more take one.
fn tabulated_factor(number: u32) -> i64 {
    match number {
        0 | 1 => 20,
        2 => 18,
        3 => 16,
        4 => 14,
        5 => 12,
        _ => 11,
    }
}

/// The twentieths at which the HO element counts.
pub const OVERLOAD_ELEMENT_TWENTIETHS: i64 = 20;

/// The factor in twentieths of the m-th additional lane beside the HO element, m
/// from 1 on: that of 3.2.4 for m lanes.
fn additional_factor(m: u32) -> i64 {
    tabulated_factor(m)
}

/// The factors of so many additional lanes, the first's first.
pub fn additional_factors(count: usize) -> Vec<i64> {
    (1..).take(count).map(additional_factor).collect()
}

/// The dynamic factor in thousandths. The value of kind 4 is a question's span.
pub fn dynamic_factor(kind: i64, value: i64) -> i64 {
    match kind {
        1 => value,
        2 => 1000,
        3 => (1300 - 3 * value).max(1000),
        _ => factor_of_span(value),
    }
}

/// The longest span in dm at the greatest factor.
const LEVEL_TO: i64 = 120;

/// The dynamic factor in thousandths of a span in dm: 1300 to 120 dm; beyond, 1 +
/// 15/(L + 38), which is L + 53 over L + 38, rounded up. L is in metres, a tenth of
/// the span, so both terms are taken ten times.
fn factor_of_span(span: i64) -> i64 {
    if span <= LEVEL_TO {
        return 1300;
    }
    let (dividend, divisor) = (1000 * (span + 530), span + 380);
    (dividend + divisor - 1) / divisor
}

/// X, times 3, over this is the effect in N·U.
pub const X_TIMES: i128 = 3;
pub const X_OVER: i128 = 800_000;
