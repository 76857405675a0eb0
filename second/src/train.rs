//! 02 "Rating trucks": a train of axles on the line alone, rated by trying every
//! station, side and way round.

pub mod checker;
pub mod page;
pub mod placement;
pub mod rating;
pub mod refusals;
pub mod sampler;

pub use rating::{Rating, TrainAnswer, TrainStand, REPORT_BYTES, REPORT_NUMBERS};

use crate::account::side_number;
use crate::job::Piece;
use crate::line::{self, Stand};
use crate::loads::{Question, Side};
use crate::words;

/// A record of the train as it is lent.
#[derive(Debug, Clone, Copy, PartialEq, Eq)]
pub struct Axle {
    /// In kN.
    pub load: u32,
    /// The distance from the first axle, in decimetres.
    pub at: u32,
}

/// What a call lends.
#[derive(Debug, Clone, PartialEq, Eq)]
pub struct TrainCase {
    pub h: u64,
    /// N.
    pub pieces: u64,
    /// The line's section.
    pub line: Vec<u8>,
    pub train: Vec<Axle>,
    /// 1 all axles count, 2 each axle that relieves is dropped.
    pub mode: u64,
    /// The report buffer, with its contents before the call.
    pub report: Vec<u8>,
}

pub const ALL_COUNT: u64 = 1;
pub const RELIEVING_DROPPED: u64 = 2;

/// The way round that a train is driven.
#[derive(Debug, Clone, Copy, PartialEq, Eq)]
pub enum Way {
    AsGiven,
    /// The last axle is the leftmost; distances are counted from it.
    Turned,
}

impl Way {
    pub const BOTH: [Way; 2] = [Way::AsGiven, Way::Turned];

    pub fn number(self) -> i64 {
        match self {
            Way::AsGiven => 0,
            Way::Turned => 1,
        }
    }
}

/// A lawful train on its line.
#[derive(Debug, Clone, PartialEq, Eq)]
pub struct Train {
    pub line: Vec<Piece>,
    /// As given.
    pub axles: Vec<PlacedAxle>,
    /// Whether each axle that relieves is dropped.
    pub drops: bool,
}

/// An axle of a lawful train.
#[derive(Debug, Clone, Copy, PartialEq, Eq)]
pub struct PlacedAxle {
    /// In kN.
    pub load: i64,
    /// The distance from the first axle, in pieces.
    pub from_first: i64,
}

impl Train {
    /// The train of a case that is not refused.
    pub fn of(case: &TrainCase) -> Train {
        let h = case.h as i64;
        let axles = case.train.iter().map(|axle| PlacedAxle {
            load: axle.load.into(),
            from_first: i64::from(axle.at) / h,
        });
        Train {
            line: line::pieces_of(&words::words_of(&case.line)),
            axles: axles.collect(),
            drops: case.mode == RELIEVING_DROPPED,
        }
    }

    /// The pieces from the first axle to the last.
    pub fn length(&self) -> i64 {
        self.axles.last().expect("a train has axles").from_first
    }

    /// The stations tried and shown: from the rightmost axle at the line's left
    /// end to the leftmost at its right end. Further off every axle counts 0, as
    /// it does at the outer sides of these two.
    pub fn stations(&self) -> std::ops::RangeInclusive<i64> {
        -self.length()..=self.line.len() as i64
    }

    /// The effect of a stand in kN·U.
    fn effect(&self, way: Way, leftmost: Stand, question: Question) -> i64 {
        let of_axle = |axle: &PlacedAxle| {
            let from_leftmost = match way {
                Way::AsGiven => axle.from_first,
                Way::Turned => self.length() - axle.from_first,
            };
            let at = Stand {
                station: leftmost.station + from_leftmost,
                ..leftmost
            };
            let part = axle.load * line::ordinate(&self.line, at);
            let relieves = question.beats(0, part);
            if self.drops && relieves {
                0
            } else {
                part
            }
        };
        self.axles.iter().map(of_axle).sum()
    }

    /// The furthest that any stand goes, with the first that goes as far: as
    /// given before turned, then the lowest station, left before right. Between
    /// stations the effect runs straight, since no piece has two signs, so none
    /// there is better than both its ends.
    fn furthest(&self, question: Question) -> (i64, TrainStand) {
        let mut furthest: Option<(i64, TrainStand)> = None;
        for way in Way::BOTH {
            for station in self.stations() {
                for side in [Side::Left, Side::Right] {
                    let effect = self.effect(way, Stand { station, side }, question);
                    if furthest.is_none_or(|(best, _)| question.beats(effect, best)) {
                        let stand = TrainStand {
                            way: way.number(),
                            side: side_number(side).into(),
                            station,
                        };
                        furthest = Some((effect, stand));
                    }
                }
            }
        }
        furthest.expect("there are stations")
    }

    pub fn rating(&self) -> Rating {
        let [greatest, least] = Question::BOTH.map(|question| self.furthest(question));
        Rating::new(greatest, least)
    }
}

/// Answers a call.
pub fn rate(case: &TrainCase) -> TrainAnswer {
    match refusals::refusal(case) {
        Some(refusal) => TrainAnswer {
            refusal: refusal.number,
            place: refusal.place,
            rating: Rating::default(),
        },
        None => TrainAnswer {
            refusal: 0,
            place: 0,
            rating: Train::of(case).rating(),
        },
    }
}

/// The number that a call gives back, and the report buffer after it: the
/// report's bytes as far as the buffer goes, those past it as before.
pub fn call(case: &TrainCase) -> (u64, Vec<u8>) {
    let answer = rate(case);
    let mut report = case.report.clone();
    for (byte, due) in report.iter_mut().zip(answer.rating.bytes()) {
        *byte = due;
    }
    (256 * answer.place + answer.refusal, report)
}
