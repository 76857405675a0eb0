//! The editions of the job that are admitted, and what differs between them:
//! edition 1 is 01's, edition 4 that of 02 "Farm bridges", edition 2 that of 02
//! "Effects past a word" and "Span by sign", edition 3 that of 02 "Two carriageways".

use crate::sections;
use std::ops::RangeInclusive;

#[derive(Debug, Clone, Copy, PartialEq, Eq)]
pub enum Edition {
    One,
    /// Effects past a word.
    Two,
    /// Two carriageways.
    Three,
    /// A farm bridge.
    Four,
}

impl Edition {
    /// In the order in which the requests of 02 bring them.
    pub const ALL: [Edition; 4] = [Edition::One, Edition::Four, Edition::Two, Edition::Three];

    /// The edition as a job's word 0 has it.
    pub fn number(self) -> i32 {
        match self {
            Edition::One => 1,
            Edition::Two => 2,
            Edition::Three => 3,
            Edition::Four => 4,
        }
    }

    /// The edition of a number; none where it is not admitted.
    fn of_number(number: i32) -> Option<Edition> {
        Edition::ALL
            .into_iter()
            .find(|edition| edition.number() == number)
    }

    /// The edition that a job's word 0 names.
    pub fn of_words(words: &[i32]) -> Option<Edition> {
        words
            .get(sections::EDITION)
            .and_then(|&number| Edition::of_number(number))
    }

    /// Words before the first section.
    pub fn header_words(self) -> usize {
        match self {
            Edition::One => 10,
            Edition::Two => 12,
            Edition::Three => 13,
            Edition::Four => 11,
        }
    }

    /// Whether the header gives a second width, so that the job has a second
    /// carriageway with a transverse section of its own.
    pub fn has_second_carriageway(self) -> bool {
        self == Edition::Three
    }

    /// The most that a longitudinal ordinate is away from 0, in U.
    pub fn most_in_line(self) -> i32 {
        match self {
            Edition::One | Edition::Two | Edition::Four => 5000,
            Edition::Three => 500,
        }
    }

    /// The dynamic kinds: editions 2 and 3 have spans by sign, too.
    pub fn dynamic_kinds(self) -> RangeInclusive<i32> {
        match self {
            Edition::One | Edition::Four => 1..=3,
            Edition::Two | Edition::Three => 1..=4,
        }
    }

    /// Words of an effect: its value, in editions 2 and 3 as two halves, then its mark.
    pub fn words_per_effect(self) -> usize {
        match self {
            Edition::One | Edition::Four => 2,
            Edition::Two | Edition::Three => 3,
        }
    }

    /// The unit of an effect's value in N·U: 1 kN·U, but 1 N·U in editions 2 and 3.
    pub fn effect_unit(self) -> i64 {
        match self {
            Edition::One | Edition::Four => 1000,
            Edition::Two | Edition::Three => 1,
        }
    }

    /// The most that an effect's value is away from 0, in its unit.
    pub fn most_effect(self) -> i64 {
        match self {
            Edition::One | Edition::Four => 1_000_000_000,
            Edition::Two | Edition::Three => 100_000_000_000_000,
        }
    }

    /// The share of X that counts, as a whole number over another: 0.85 HN for
    /// a farm bridge.
    pub fn share_of_x(self) -> (i128, i128) {
        match self {
            Edition::One | Edition::Two | Edition::Three => (1, 1),
            Edition::Four => (17, 20),
        }
    }

    /// Whether HO is considered. Where it is not, the one overload arrangement
    /// is the empty one.
    pub fn has_overload(self) -> bool {
        self != Edition::Four
    }
}
