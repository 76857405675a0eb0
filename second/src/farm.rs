//! 02 "Farm bridges": tables D1 and D2 of source document 004, as they are
//! printed there, and the rows of factors that they come to.

use crate::combination::{Combination, Part, Variant};
use crate::job::{Effect, ALWAYS_PRESENT, MAY_BE_LEFT_OUT, SERVICE, ULTIMATE};
use crate::loads::Live;

/// The loads of the tables: the effects in the order in which a farm job has
/// them, then the traffic.
#[derive(Debug, Clone, Copy, PartialEq, Eq)]
pub enum Load {
    DL,
    EP,
    OW,
    SG,
    ST,
    TP,
    HE,
    WD,
    FW,
    EQ,
    CN,
    LLxI,
}

use Load::{LLxI, CN, DL, EP, EQ, FW, HE, OW, SG, ST, TP, WD};

/// A farm job's effects, DL first.
pub const EFFECTS: [Load; 11] = [DL, EP, OW, SG, ST, TP, HE, WD, FW, EQ, CN];

/// The effects that are always present; they come first.
const ALWAYS_PRESENT_EFFECTS: usize = 3;

/// The mark that an effect, counted from 0, carries.
pub fn mark(effect: usize) -> i64 {
    if effect < ALWAYS_PRESENT_EFFECTS {
        ALWAYS_PRESENT
    } else {
        MAY_BE_LEFT_OUT
    }
}

/// A farm job's effects of these values in kN·U, DL's first.
pub fn effects(values: [i64; EFFECTS.len()]) -> Vec<Effect> {
    let marked = |(effect, value): (usize, i64)| Effect {
        value,
        mark: mark(effect),
    };
    values.into_iter().enumerate().map(marked).collect()
}

/// The choices of k in thousandths, the larger first.
pub const K: [u32; 2] = [1300, 800];

/// A factor as it is printed, in hundredths.
#[derive(Debug, Clone, Copy, PartialEq, Eq)]
enum Factor {
    Hundredths(i64),
    K,
}

/// A load with the factor printed before it.
type Term = (Factor, Load);

const fn one(load: Load) -> Term {
    times(100, load)
}

const fn times(hundredths: i64, load: Load) -> Term {
    (Factor::Hundredths(hundredths), load)
}

/// A row as it is printed: terms within a bracket, its factor in hundredths
/// before it, and terms outside.
struct Printed {
    state: i64,
    outer: i64,
    inside: &'static [Term],
    outside: &'static [Term],
}

/// A row of table D1.
const fn service(terms: &'static [Term]) -> Printed {
    Printed {
        state: SERVICE,
        outer: 100,
        inside: terms,
        outside: &[],
    }
}

/// A row of table D2.
const fn ultimate(outer: i64, inside: &'static [Term], outside: &'static [Term]) -> Printed {
    Printed {
        state: ULTIMATE,
        outer,
        inside,
        outside,
    }
}

/// Table D1, then D2, each with its groups 1A, 1B, 2A, 2B, 2C, 3A, 3B, 5A, 5B
/// and 5C, a row each.
#[rustfmt::skip]
const TABLES: [Printed; 20] = [
    service(&[one(DL), one(EP), one(OW), one(SG), one(ST), one(LLxI)]),
    service(&[one(DL), one(EP), one(OW), one(SG), one(ST), one(TP)]),
    service(&[one(DL), one(EP), one(OW), one(SG), one(ST), one(LLxI), one(HE), one(TP)]),
    service(&[one(DL), one(EP), one(OW), one(SG), one(ST), one(LLxI), one(HE), one(WD)]),
    service(&[one(DL), one(EP), one(FW), one(SG), one(ST), one(LLxI), one(HE)]),
    service(&[one(DL), one(EP), one(OW), one(SG), one(ST), one(EQ), times(33, TP)]),
    service(&[one(DL), one(EP), one(FW), one(SG), one(ST), one(WD)]),
    service(&[one(DL), one(EP), one(OW), one(SG), times(33, WD), one(CN)]),
    service(&[one(DL), one(EP), one(OW), one(SG), times(33, TP), one(CN)]),
    service(&[one(DL), one(EP), one(OW), one(SG), times(33, EQ), one(CN)]),
    ultimate(110, &[one(DL), times(135, EP), one(OW), one(SG), one(ST), times(167, LLxI)], &[]),
    ultimate(110, &[one(DL), times(135, EP), one(OW), one(SG), one(ST), times(125, TP)], &[]),
    ultimate(120, &[one(DL), one(EP), one(OW), one(SG), one(ST), one(LLxI), one(HE), one(TP)], &[]),
    ultimate(120, &[one(DL), one(EP), one(OW), one(SG), one(ST), one(LLxI), one(HE)], &[one(WD)]),
    ultimate(120, &[one(DL), one(EP), one(SG), one(ST), one(LLxI), one(HE)], &[one(FW)]),
    ultimate(100, &[(Factor::K, DL), times(125, EP), times(125, OW), one(SG), one(ST), one(EQ), times(33, TP)], &[]),
    ultimate(100, &[one(DL), times(125, EP), one(FW), one(SG), one(ST), one(WD)], &[]),
    ultimate(120, &[one(DL), one(EP), one(OW), one(SG), times(110, CN)], &[times(33, WD)]),
    ultimate(120, &[one(DL), one(EP), one(OW), one(SG), times(33, TP), times(110, CN)], &[]),
    ultimate(120, &[one(DL), one(EP), one(OW), one(SG), times(33, EQ), times(110, CN)], &[]),
];

/// A farm job's built-in rows.
pub fn combinations() -> Vec<Combination> {
    (1..)
        .zip(&TABLES)
        .map(|(row, printed)| printed.combination(row))
        .collect()
}

impl Printed {
    fn combination(&self, row: u32) -> Combination {
        let factors = self.factors(0);
        let live = factors.iter().find(|(load, _)| *load == LLxI);
        Combination {
            row,
            state: self.state,
            live: live.map(|_| Live::Normal),
            live_factor: live.map_or(0, |&(_, factor)| factor),
            variants: self.variants(),
        }
    }

    fn variants(&self) -> Vec<Variant> {
        let has_k = self.inside.iter().any(|(factor, _)| *factor == Factor::K);
        let choices: &[u32] = if has_k { &K } else { &[0] };
        let variant = |&k: &u32| Variant {
            k,
            parts: self.factors(k).into_iter().filter_map(part).collect(),
        };
        choices.iter().map(variant).collect()
    }

    /// Each load with its factor in thousandths, multiplied out.
    fn factors(&self, k: u32) -> Vec<(Load, i64)> {
        let thousandths = |outer: i64, factor: Factor| match factor {
            Factor::Hundredths(inner) => nearest(outer * inner, 10),
            Factor::K => nearest(outer * i64::from(k), 100),
        };
        let within = |outer: i64, terms: &'static [Term]| {
            terms
                .iter()
                .map(move |&(factor, load)| (load, thousandths(outer, factor)))
        };
        within(self.outer, self.inside)
            .chain(within(100, self.outside))
            .collect()
    }
}

/// An effect's part in a row; none for the traffic.
fn part((load, factor): (Load, i64)) -> Option<Part> {
    let at = EFFECTS.iter().position(|effect| *effect == load)?;
    Some(Part {
        effect: at + 1,
        factor,
    })
}

/// A quotient of numbers above 0, to the nearest whole, a half up.
pub fn nearest(dividend: i64, divisor: i64) -> i64 {
    (2 * dividend + divisor) / (2 * divisor)
}
