//! The example of a farm job.

use crate::edition::Edition;
use crate::farm;
use crate::job::Job;
use crate::line::there_and_back;

/// The moment at the middle of a simple span of 10 m, in cm, of one of two
/// girders; 3.7 m between traffic barriers. The effects, in kN·cm, are of both
/// signs, as the tables' order has them: DL, EP, OW, SG, ST, TP, HE, WD, FW, EQ
/// and CN.
pub fn farm_job() -> Job {
    let effects = [
        18_000, -250, -400, -600, 350, 900, 150, 120, -300, -1400, 500,
    ];
    Job {
        edition: Edition::Four,
        piece_length: 10,
        spacing: 50,
        width: 370,
        dynamic_kind: 1,
        dynamic_value: 1300,
        further_header: vec![3],
        pieces: there_and_back(&[0, 50, 100, 150, 200, 250]),
        transverse: (0..=8).map(|number| 800 - 75 * number).collect(),
        second_transverse: vec![],
        effects: farm::effects(effects),
        rows: vec![],
        records: vec![],
    }
}
