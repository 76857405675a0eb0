//! 02 "Rating trucks": a stand on k-ths of a piece, evaluated in exact whole
//! numbers. Nothing here asks for the best of anything, and none of it is used
//! to rate a train.

use super::{Train, TrainStand, Way};
use crate::account::side_of;
use crate::arrangement::ordinate_at;
use crate::loads::{Question, Side};

/// A stand of a train, anywhere.
#[derive(Debug, Clone, Copy, PartialEq, Eq)]
pub struct Placement {
    /// A whole number from 1 up.
    pub k: i128,
    pub way: Way,
    /// All axles take it.
    pub side: Side,
    /// The leftmost axle, in k-ths of a piece from the line's left end.
    pub leftmost: i128,
}

impl Placement {
    /// The effect times k, in kN·U.
    pub fn effect_times_k(&self, train: &Train, question: Question) -> i128 {
        let first = train.axles[0].from_first;
        let last = train.axles[train.axles.len() - 1].from_first;
        let mut sum = 0;
        for axle in &train.axles {
            let pieces = match self.way {
                Way::AsGiven => axle.from_first - first,
                Way::Turned => last - axle.from_first,
            };
            let place = self.leftmost + i128::from(pieces) * self.k;
            let ordinate = ordinate_at(&train.line, place, self.side, self.k);
            let counted = match (train.drops, question) {
                (false, _) => ordinate,
                (true, Question::Greatest) => ordinate.max(0),
                (true, Question::Least) => ordinate.min(0),
            };
            sum += i128::from(axle.load) * counted;
        }
        sum
    }
}

/// The placement a reported stand is; what rule it breaks, where it isn't one.
pub fn reported_placement(train: &Train, stand: &TrainStand) -> Result<Placement, String> {
    let way = match stand.way {
        0 => Way::AsGiven,
        1 => Way::Turned,
        number => return Err(format!("its way round is {number}")),
    };
    let side = u32::try_from(stand.side).ok().and_then(side_of);
    let side = side.ok_or_else(|| format!("its side is {}", stand.side))?;
    if !train.stations().contains(&stand.station) {
        return Err(format!("its station is {}", stand.station));
    }
    Ok(Placement {
        k: 1,
        way,
        side,
        leftmost: stand.station.into(),
    })
}
