//! The example of a job of edition 2.

use crate::edition::Edition;
use crate::job::{
    Effect, Job, Record, Row, ALWAYS_PRESENT, LIVE_NONE, LIVE_NORMAL, LIVE_OVERLOAD,
    MAY_BE_LEFT_OUT, SERVICE, ULTIMATE,
};
use crate::line::there_and_back;

/// The ordinates in cm, every 5 m from a springing to the crown.
const HALF_LINE: [i64; 11] = [0, -61, -113, -148, -160, -142, -88, 0, 140, 320, 547];

/// The moment at the crown of a two-hinged arch of 100 m, in cm, of one of two
/// ribs; a carriageway of 9 m. The effects, in N·cm: the dead load as on a simple
/// span and its thrust's relief, both past edition 1's limits; the arch's
/// shortening, and braking.
pub fn arch_job() -> Job {
    Job {
        edition: Edition::Two,
        piece_length: 50,
        spacing: 50,
        width: 900,
        dynamic_kind: 1,
        dynamic_value: 1109,
        further_header: vec![0, 0],
        pieces: there_and_back(&HALF_LINE),
        transverse: (0..=18).map(|number| 950 - 50 * number).collect(),
        second_transverse: vec![],
        effects: vec![
            Effect::new(1_234_567_890_123, ALWAYS_PRESENT),
            Effect::new(-1_232_098_755_432, ALWAYS_PRESENT),
            Effect::new(-4_800_000_000, MAY_BE_LEFT_OUT),
            Effect::new(3_000_000_000, MAY_BE_LEFT_OUT),
        ],
        rows: vec![
            Row::new(SERVICE, LIVE_NORMAL, 1350, 1),
            Row::new(ULTIMATE, LIVE_OVERLOAD, 1490, 4),
            Row::new(ULTIMATE, LIVE_NONE, 0, 1),
        ],
        records: vec![
            Record::new(1, 1000, 2),
            Record::new(2, 1000, 3),
            Record::new(3, 1000, 0),
            Record::new(1, 1350, 5),
            Record::new(2, 1350, 6),
            Record::new(4, 1200, 3),
        ],
    }
}
