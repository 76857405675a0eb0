//! 01 "Dynamic factor, rounding, rows" and 02 "Farm bridges": a job's rows as
//! load combinations, whether its own words give them or its edition has them
//! built in.

use crate::edition::Edition;
use crate::farm;
use crate::job::{Job, Row};
use crate::loads::Live;

/// A row's number, its state, its traffic and its effects with their factors.
#[derive(Debug, Clone, PartialEq, Eq)]
pub struct Combination {
    /// Counted from 1.
    pub row: u32,
    /// 1 service, 2 ultimate.
    pub state: i64,
    /// The traffic's kind, if any, and its factor in thousandths.
    pub live: Option<Live>,
    pub live_factor: i64,
    /// The ways in which its effects may count; most rows have one.
    pub variants: Vec<Variant>,
}

/// A row's effects for one choice of the factor k.
#[derive(Debug, Clone, PartialEq, Eq)]
pub struct Variant {
    /// k in thousandths; 0 for a row without it.
    pub k: u32,
    pub parts: Vec<Part>,
}

/// An effect that counts in a row.
#[derive(Debug, Clone, Copy, PartialEq, Eq)]
pub struct Part {
    /// Counted from 1.
    pub effect: usize,
    /// Thousandths.
    pub factor: i64,
}

impl Job {
    /// The job's combinations, by row.
    pub fn combinations(&self) -> Vec<Combination> {
        match self.edition {
            Edition::One | Edition::Two | Edition::Three => (1..)
                .zip(&self.rows)
                .map(|(number, row)| self.combination_of(number, row))
                .collect(),
            Edition::Four => farm::combinations(),
        }
    }

    fn combination_of(&self, number: u32, row: &Row) -> Combination {
        let parts = self.chain(row).into_iter().map(|record| Part {
            effect: record.effect,
            factor: record.factor,
        });
        Combination {
            row: number,
            state: row.state,
            live: Live::of_row(row.live_kind),
            live_factor: row.live_factor,
            variants: vec![Variant {
                k: 0,
                parts: parts.collect(),
            }],
        }
    }
}
