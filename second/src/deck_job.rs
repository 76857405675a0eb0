//! The example of a job with four lanes.

use crate::edition::Edition;
use crate::job::{
    Effect, Job, Record, Row, ALWAYS_PRESENT, LIVE_NORMAL, LIVE_OVERLOAD, MAY_BE_LEFT_OUT, SERVICE,
    ULTIMATE,
};
use crate::line::pieces_between;

/// The ordinates in cm of the span with the section, every 2.5 m from its abutment to
/// the pier; the section is 10 m from the abutment.
const FIRST_SPAN: [i64; 11] = [0, 125, 252, 382, 516, 406, 304, 211, 128, 57, 0];

/// The ordinates of the other span, from the pier to its abutment.
const SECOND_SPAN: [i64; 11] = [0, -43, -72, -89, -96, -94, -84, -68, -48, -25, 0];

/// The transverse ordinates, every 40 cm from a lane's left edge on, a row a lane. The
/// girder is the third of four, each below the middle of its lane.
const LANES: [[i64; 10]; 4] = [
    [-173, -148, -124, -99, -74, -49, -25, 1, 27, 54],
    [82, 113, 146, 182, 221, 264, 310, 358, 407, 455],
    [500, 540, 574, 600, 616, 621, 613, 593, 563, 523],
    [475, 421, 362, 298, 232, 165, 97, 30, -38, -105],
];

/// The transverse ordinate at the right kerb.
const RIGHT_KERB: i64 = -173;

/// The moment 10 m from an abutment in a beam continuous over two spans of 25 m, in cm,
/// of the third of four girders; a carriageway of 16 m with four lanes.
pub fn deck_job() -> Job {
    Job {
        edition: Edition::One,
        piece_length: 25,    // h, 2.5 m
        spacing: 40,         // g, ten to a lane
        width: 1600,         // W, four lanes of 4 m
        dynamic_kind: 1,     // the factor itself
        dynamic_value: 1239, // 1 + 15/(L + 38), rounded up; L is a span, 25 m
        further_header: vec![],
        pieces: [FIRST_SPAN, SECOND_SPAN]
            .map(|span| pieces_between(&span))
            .concat(),
        transverse: [LANES.as_flattened(), &[RIGHT_KERB]].concat(),
        second_transverse: vec![],
        // In kN·cm; the line's area is 2.5 m * (2381 - 619) cm = 4405 m·cm.
        effects: vec![
            Effect::new(198_225, ALWAYS_PRESENT), // dead load, 45 kN/m
            Effect::new(44_050, MAY_BE_LEFT_OUT), // superimposed dead load, 10 kN/m
        ],
        rows: rows(),
        records: records(),
    }
}

/// A service row and an ultimate one, each of dead load and superimposed dead load.
pub(crate) fn rows() -> Vec<Row> {
    vec![
        Row::new(SERVICE, LIVE_NORMAL, 1350, 1), // live factor, first record
        Row::new(ULTIMATE, LIVE_OVERLOAD, 1500, 3),
    ]
}

/// The chains of these rows.
pub(crate) fn records() -> Vec<Record> {
    vec![
        Record::new(1, 1000, 2), // service: dead load
        Record::new(2, 1000, 0), // and superimposed
        Record::new(1, 1200, 4), // ultimate: dead load
        Record::new(2, 1200, 0), // and superimposed
    ]
}
