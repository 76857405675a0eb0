//! What the example host prints for a train, and the line it is printed for.

use super::{TrainAnswer, TrainStand};
use crate::job::Piece;
use crate::report::refusal_line;

/// Three lines, or `refused NUMBER at PLACE`; each line ends in a newline.
pub fn page(answer: &TrainAnswer) -> String {
    if answer.refusal != 0 {
        return refusal_line(answer.refusal, answer.place);
    }
    let rating = &answer.rating;
    [
        stand_line("greatest", rating.greatest, &rating.greatest_stand),
        stand_line("least", rating.least, &rating.least_stand),
        format!("difference {} kN.U\n", rating.difference),
    ]
    .concat()
}

fn stand_line(name: &str, value: i64, stand: &TrainStand) -> String {
    let way = ["as given", "turned"][stand.way as usize];
    let side = ["left", "right"][stand.side as usize];
    let station = stand.station;
    format!("{name} {value} kN.U, {way}, leftmost axle at station {station}, side {side}\n")
}

/// The truck line: the shear at 4 m of a simple span of 10 m, in thousandths.
/// Its h is 2.
pub fn truck_line() -> Vec<Piece> {
    let past_jump = |number: i64| if number < 20 { 0 } else { 1000 };
    (0..50)
        .map(|number| Piece {
            left: past_jump(number) - 20 * number,
            right: past_jump(number) - 20 * (number + 1),
        })
        .collect()
}
