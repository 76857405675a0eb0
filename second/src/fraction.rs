//! Exact fractions over 128-bit numbers, always in lowest terms.

use crate::loads::Question;
use std::ops::{Add, Mul};

#[derive(Debug, Clone, Copy, PartialEq, Eq)]
pub struct Fraction {
    numerator: i128,
    /// Above 0.
    denominator: i128,
}

impl Fraction {
    pub const ZERO: Fraction = Fraction {
        numerator: 0,
        denominator: 1,
    };

    /// A fraction in lowest terms; the denominator given is above 0.
    pub fn new(numerator: i128, denominator: i128) -> Fraction {
        assert!(denominator > 0, "a fraction's denominator is above 0");
        let common = greatest_common_divisor(numerator.unsigned_abs(), denominator.unsigned_abs());
        Fraction {
            numerator: numerator / common,
            denominator: denominator / common,
        }
    }

    pub fn whole(number: i128) -> Fraction {
        Fraction {
            numerator: number,
            denominator: 1,
        }
    }

    pub fn is_below(self, other: Fraction) -> bool {
        times(self.numerator, other.denominator) < times(other.numerator, self.denominator)
    }

    /// Rounded to a whole: up for greatest, down for least.
    pub fn round(self, question: Question) -> i128 {
        question.round(self.numerator, self.denominator)
    }
}

impl Add for Fraction {
    type Output = Fraction;

    fn add(self, other: Fraction) -> Fraction {
        let common = greatest_common_divisor(
            self.denominator.unsigned_abs(),
            other.denominator.unsigned_abs(),
        );
        let (ours, theirs) = (self.denominator / common, other.denominator / common);
        let sum = times(self.numerator, theirs).checked_add(times(other.numerator, ours));
        Fraction::new(sum.expect(TOO_LARGE), times(self.denominator, theirs))
    }
}

impl Mul for Fraction {
    type Output = Fraction;

    fn mul(self, other: Fraction) -> Fraction {
        Fraction::new(
            times(self.numerator, other.numerator),
            times(self.denominator, other.denominator),
        )
    }
}

const TOO_LARGE: &str = "a fraction's terms fit 128 bits";

fn times(one: i128, other: i128) -> i128 {
    one.checked_mul(other).expect(TOO_LARGE)
}

/// Above 0, as the second number is.
fn greatest_common_divisor(one: u128, other: u128) -> i128 {
    let (mut one, mut other) = (one, other);
    while other != 0 {
        (one, other) = match (u64::try_from(one), u64::try_from(other)) {
            // The same step in the machine's own width.
            (Ok(short), Ok(shorter)) => (other, u128::from(short % shorter)),
            _ => (other, one % other),
        };
    }
    one as i128
}
