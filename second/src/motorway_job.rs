//! The example of edition 3: a motorway deck with a median.

use crate::deck_job::{records, rows};
use crate::edition::Edition;
use crate::job::{Effect, Job, ALWAYS_PRESENT, MAY_BE_LEFT_OUT, SPANS_BY_SIGN};
use crate::line::pieces_between;

/// The ordinates in cm of the span of 20 m, every 2.5 m from its abutment to the pier;
/// the section is 7.5 m from the abutment.
const LONG_SPAN: [i64; 9] = [0, 130, 262, 400, 295, 200, 117, 50, 0];

/// The ordinates of the span of 15 m, from the pier to its abutment.
const SHORT_SPAN: [i64; 7] = [0, -31, -45, -45, -36, -20, 0];

/// The transverse ordinates of the first carriageway, every 40 cm from its left kerb on.
/// The girder is below its third lane, 10.1 m from that kerb.
const FIRST: [i64; 29] = [
    -9, -4, 2, 9, 18, 28, 40, 53, 68, 86, //
    105, 126, 148, 173, 199, 227, 255, 285, 314, 344, //
    372, 398, 421, 440, 453, 460, 458, 447, 431,
];

/// Those of the second carriageway, whose left kerb is 4 m from the first's right one.
const SECOND: [i64; 20] = [
    173, 148, 126, 105, 86, 68, 53, 40, 28, 18, //
    9, 2, -4, -9, -13, -15, -17, -19, -20, -20,
];

/// The moment 7.5 m from the abutment of the longer span in a beam continuous over
/// spans of 20 m and 15 m, in cm, of a girder near the median; carriageways of 11 m
/// with three lanes and of 7.6 m with two.
pub fn motorway_job() -> Job {
    Job {
        edition: Edition::Three,
        piece_length: 25, // h, 2.5 m
        spacing: 40,      // g
        width: 1100,      // W, three lanes of 366 2/3 cm
        dynamic_kind: SPANS_BY_SIGN,
        dynamic_value: 200, // L for greatest, the section's own span, in dm
        further_header: vec![
            175, // L for least, the average of the spans beside the pier
            0, 760, // the second width, two lanes of 380 cm
        ],
        pieces: [pieces_between(&LONG_SPAN), pieces_between(&SHORT_SPAN)].concat(),
        transverse: FIRST.to_vec(),
        second_transverse: SECOND.to_vec(),
        // In N·cm; the line's area is 2.5 m * (1454 - 177) cm = 3192.5 m·cm.
        effects: vec![
            Effect::new(127_700_000, ALWAYS_PRESENT), // dead load, 40 kN/m
            Effect::new(38_310_000, MAY_BE_LEFT_OUT), // superimposed dead load, 12 kN/m
        ],
        rows: rows(),
        records: records(),
    }
}
