//! 02 "Rating trucks": the answer to a train's call and the report's bytes.

use crate::loads::Question;

/// The answer to a call: a rating, or a refusal with a rating of zeros.
#[derive(Debug, Clone, Copy, PartialEq, Eq, Default)]
pub struct TrainAnswer {
    /// The refusal's number; 0 for an accepted train.
    pub refusal: u64,
    /// The refusal's place; 0 for an accepted train.
    pub place: u64,
    pub rating: Rating,
}

/// The report, as plain numbers, so that one of any origin can be held beside it.
#[derive(Debug, Clone, Copy, PartialEq, Eq, Default)]
pub struct Rating {
    /// In kN·U, as are the next two.
    pub greatest: i64,
    pub least: i64,
    /// Greatest less least.
    pub difference: i64,
    pub greatest_stand: TrainStand,
    pub least_stand: TrainStand,
}

/// A stand of the train.
#[derive(Debug, Clone, Copy, PartialEq, Eq, Default)]
pub struct TrainStand {
    /// 0 as given, 1 turned.
    pub way: i64,
    /// 0 left, 1 right; all axles take it.
    pub side: i64,
    /// The leftmost axle's, in pieces from the line's left end, below 0 to its
    /// left.
    pub station: i64,
}

/// Numbers of a report, and their bytes.
pub const REPORT_NUMBERS: usize = 9;
pub const REPORT_BYTES: usize = 8 * REPORT_NUMBERS;

impl Rating {
    /// The values of both questions, each with a stand that gives it.
    pub fn new(greatest: (i64, TrainStand), least: (i64, TrainStand)) -> Rating {
        Rating {
            greatest: greatest.0,
            least: least.0,
            difference: greatest.0 - least.0,
            greatest_stand: greatest.1,
            least_stand: least.1,
        }
    }

    pub fn value(&self, question: Question) -> i64 {
        match question {
            Question::Greatest => self.greatest,
            Question::Least => self.least,
        }
    }

    pub fn stand(&self, question: Question) -> &TrainStand {
        match question {
            Question::Greatest => &self.greatest_stand,
            Question::Least => &self.least_stand,
        }
    }

    /// The numbers in the report's order.
    pub fn numbers(&self) -> [i64; REPORT_NUMBERS] {
        let (greatest, least) = (self.greatest_stand, self.least_stand);
        [
            self.greatest,
            self.least,
            self.difference,
            greatest.way,
            greatest.side,
            greatest.station,
            least.way,
            least.side,
            least.station,
        ]
    }

    pub fn of_numbers(numbers: [i64; REPORT_NUMBERS]) -> Rating {
        let stand = |first: usize| TrainStand {
            way: numbers[first],
            side: numbers[first + 1],
            station: numbers[first + 2],
        };
        Rating {
            greatest: numbers[0],
            least: numbers[1],
            difference: numbers[2],
            greatest_stand: stand(3),
            least_stand: stand(6),
        }
    }

    /// The report's bytes, low byte of each number first.
    pub fn bytes(&self) -> Vec<u8> {
        let numbers = self.numbers();
        numbers.iter().flat_map(|n| n.to_le_bytes()).collect()
    }

    /// The rating in a buffer of a report's bytes or more.
    pub fn of_bytes(report: &[u8]) -> Rating {
        let number = |at: usize| {
            let bytes = &report[8 * at..8 * at + 8];
            i64::from_le_bytes(bytes.try_into().expect("eight bytes"))
        };
        Rating::of_numbers(std::array::from_fn(number))
    }
}
