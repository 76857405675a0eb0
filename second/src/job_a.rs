//! 01 "The host and the program": Job A.

use crate::edition::Edition;
use crate::job::{
    Effect, Job, Record, Row, ALWAYS_PRESENT, LIVE_NORMAL, LIVE_OVERLOAD, SERVICE, ULTIMATE,
};
use crate::line::there_and_back;

/// Job A: a line rising from 0 to 500 and back over twenty metres.
pub fn job_a() -> Job {
    let half: Vec<i64> = (0..=10).map(|number| 50 * number).collect();
    Job {
        edition: Edition::One,
        piece_length: 10,
        spacing: 40,
        width: 720,
        dynamic_kind: 1,
        dynamic_value: 1300,
        further_header: vec![],
        pieces: there_and_back(&half),
        transverse: (0..=18).map(|number| 900 - 50 * number).collect(),
        second_transverse: vec![],
        effects: vec![Effect::new(80_000, ALWAYS_PRESENT)],
        rows: vec![
            Row::new(SERVICE, LIVE_NORMAL, 1350, 1),
            Row::new(ULTIMATE, LIVE_OVERLOAD, 1500, 2),
        ],
        records: vec![Record::new(1, 1000, 0), Record::new(1, 1200, 0)],
    }
}
