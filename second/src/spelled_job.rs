//! The example of a job that is not in standard form.

use crate::edition::Edition;
use crate::job::{
    Effect, Job, Record, Row, ALWAYS_PRESENT, LIVE_NORMAL, LIVE_OVERLOAD, MAY_BE_LEFT_OUT, SERVICE,
    ULTIMATE,
};
use crate::line::there_and_back;

/// The moment at the middle of a simple span of 10 m, in cm, of one of two girders; one
/// lane of 4 m. Its table of factors is spelled as an archive may have it: effects that do
/// not rise, a tail that two rows share, factors of 0 and a record on no chain. Row 4 has
/// no effect but one of factor 0.
pub fn spelled_job() -> Job {
    Job {
        edition: Edition::One,
        piece_length: 25, // h, 2.5 m
        spacing: 50,      // g
        width: 400,       // W, one lane
        dynamic_kind: 1,
        dynamic_value: 1300,
        further_header: vec![],
        pieces: there_and_back(&[0, 125, 250]),
        transverse: (0..=8).map(|number| 800 - 75 * number).collect(),
        second_transverse: vec![],
        // In kN·cm; the line's area is 10 m * 250 cm / 2 = 1250 m·cm.
        effects: vec![
            Effect::new(25_000, ALWAYS_PRESENT),  // dead load, 20 kN/m
            Effect::new(6_250, MAY_BE_LEFT_OUT),  // superimposed dead load, 5 kN/m
            Effect::new(-1_500, MAY_BE_LEFT_OUT), // settlement
        ],
        rows: vec![
            Row::new(SERVICE, LIVE_NORMAL, 1350, 5), // live factor, first record
            Row::new(SERVICE, LIVE_OVERLOAD, 1000, 2),
            Row::new(ULTIMATE, LIVE_OVERLOAD, 1490, 7),
            Row::new(ULTIMATE, LIVE_NORMAL, 2250, 4),
        ],
        records: vec![
            Record::new(1, 1000, 0), // the end of rows 1 and 2: dead load
            Record::new(2, 1000, 1), // row 2, the tail of row 1: superimposed
            Record::new(1, 1200, 0), // the end of row 3: dead load
            Record::new(2, 0, 0),    // row 4: a factor of 0
            Record::new(3, 1000, 2), // row 1: settlement, then the tail
            Record::new(3, 900, 6),  // on no chain, leading to itself
            Record::new(2, 1350, 8), // row 3: superimposed
            Record::new(3, 0, 3),    // then a factor of 0, then its end
        ],
    }
}
