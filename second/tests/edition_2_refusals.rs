//! 02 "Effects past a word": what the yard hears back about a job of edition 2.
//! The places are counted by hand from `WORDS`, never taken from the
//! code.

mod common;

use common::refusals::{
    refused, Sound, COUNT_FAULTS, HEADER_FAULTS, LARGEST, ORDINATES_PAST_LIMITS,
    TRANSVERSE_PAST_LIMITS,
};
use second::words::{bytes_of, changed};

/// A sound job of edition 2, of 41 words.
const WORDS: [i32; 41] = [
    // 0 to 11: edition, h, N, g, W, dynamic kind and value, E, R, C, two zeros.
    2, 50, 1, 50, 300, 2, 0, 2, 2, 2, 0, 0, //
    // 12 and 13: one piece.
    8, 8, //
    // 14 to 20: 300/50 + 1 = 7 transverse ordinates.
    1, 2, 3, 4, 5, 6, 7, //
    // 21 to 26: 2^32 + 5, always present; -1, may be left out.
    5, 1, 1, -1, -1, 2, //
    // 27 to 34: a service row with normal traffic and an ultimate one without.
    1, 1, 1350, 1, 2, 0, 0, 2, //
    // 35 to 40: two records, the first leading to the second.
    1, 1000, 2, 2, 1200, 0,
];

const SOUND: Sound = Sound(&WORDS);

/// 10^14 = 23283 * 2^32 + 276447232, so -10^14 = -23284 * 2^32 + 4018520064, and
/// 4018520064 as a signed word is -276447232.
const MOST_LOW: i32 = 276_447_232;
const MOST_HIGH: i32 = 23_283;
const LEAST_LOW: i32 = -276_447_232;
const LEAST_HIGH: i32 = -23_284;

#[test]
fn the_sound_job_is_accepted() {
    SOUND.accepted_with(&[]);
}

#[test]
fn refusal_1_for_uneven_bytes_and_below_twelve_words() {
    SOUND.has_a_header_of(12);
}

/// Ten and eleven words are headers of editions 1 and 4, not of this one.
#[test]
fn refusal_1_for_headers_of_other_lengths() {
    let header = &WORDS[..12];
    let front = |words: usize, edition: i32| bytes_of(&changed(&header[..words], &[(0, edition)]));
    refused(&front(10, 2), 1, (1, 0), "ten words");
    refused(&front(11, 2), 1, (1, 0), "eleven words");
    // 10 + 2 + 7 + 4 + 8 + 6 words are due in edition 1.
    refused(&front(10, 1), 1, (3, 37), "ten words of edition 1");
    refused(&front(11, 4), 1, (2, 7), "eleven words of edition 4");
    // A fault of the header is not looked at in fewer words.
    let spoiled = changed(&header[..10], &[(4, 299)]);
    refused(&bytes_of(&spoiled), 1, (1, 0), "ten words, W 299");
}

#[test]
fn refusal_1_for_other_editions() {
    SOUND.no_job_of_other_editions(&[(10, 1), (23, 0)]);
}

/// As edition 1 the job has four words too many; as edition 3 its first ordinate, 8, is
/// no second width; as edition 4 it has two effects where eleven are due.
#[test]
fn word_0_chooses_the_limits() {
    SOUND.refused_with(&[(0, 1)], (3, 37));
    SOUND.refused_with(&[(0, 3)], (2, 12));
    SOUND.refused_with(&[(0, 4)], (2, 7));
}

#[test]
fn refusal_2_at_each_word_of_the_header() {
    SOUND.refused_at_each(2, &HEADER_FAULTS);
    SOUND.refused_at_each(2, &COUNT_FAULTS);
    let further = [
        (
            10,
            &[1, -1, 2, 3, 2000, 0x0100_0000, i32::MIN, i32::MAX][..],
        ),
        (11, &[1, -1, 2, 0x0100_0000, i32::MIN, i32::MAX]),
    ];
    SOUND.refused_at_each(2, &further);
}

#[test]
fn refusal_2_at_the_lowest_place() {
    SOUND.refused_with(&[(10, 1), (11, 1)], (2, 10));
    SOUND.refused_with(&[(10, 0), (11, 1)], (2, 11));
    for (place, word) in [(1, 3), (2, 21), (3, 9), (4, 299), (5, 5), (6, 1)] {
        SOUND.refused_with(&[(place, word), (10, 1), (11, 1)], (2, place as u64));
    }
    for (place, word) in [(7, 17), (8, 0), (9, 513)] {
        SOUND.refused_with(&[(place, word), (10, 1), (11, 1)], (2, place as u64));
        SOUND.refused_with(&[(place, word), (11, 1)], (2, place as u64));
    }
}

/// Kinds 1 to 3 of dynamic factor with their values are edition 1's; kind 4 is in
/// spans_refusals.rs.
#[test]
fn dynamic_kinds_and_values() {
    SOUND.dynamic_kinds_and_values();
}

/// 2 comes before everything of a higher number.
#[test]
fn words_10_and_11_before_all_that_follows() {
    for place in [10, 11] {
        for other in [(2, 2), (12, 5001), (13, -8), (22, 23_284), (23, 0), (37, 1)] {
            SOUND.refused_with(&[(place, 1), other], (2, place as u64));
        }
        let words = changed(&WORDS, &[(place, 1)]);
        refused(&bytes_of(&words), 0, (2, place as u64), "no patch buffer");
    }
}

/// Three words are due for an effect: 12 + 2 + 7 + 3E + 4R + 3C.
#[test]
fn refusal_3_for_another_word_count() {
    SOUND.refused_with_a_word_more_or_fewer(41);
    for (effects, due) in [(0, 35), (1, 38), (3, 44), (16, 83)] {
        SOUND.refused_with(&[(7, effects)], (3, due));
    }
    SOUND.refused_with(&[(2, 2)], (3, 43));
    SOUND.refused_with(&[(3, 49)], (3, 42));
    SOUND.refused_with(&[(8, 3)], (3, 45));
    SOUND.refused_with(&[(9, 512)], (3, 41 + 3 * 510));
    // An effect fewer for a row's four words and back: 41 - 3 + 4.
    SOUND.refused_with(&[(7, 1), (8, 3)], (3, 42));
}

/// An effect fewer and a record more: the count is due, though the sections lie
/// elsewhere. The words from 24 on are then rows: -1 is no state.
#[test]
fn sections_follow_the_header() {
    SOUND.refused_with(&[(7, 1), (9, 3)], (6, 24));
}

/// 12 + 2000 + 209 + 48 + 128 + 1536 words: every section as long as it may be.
#[test]
fn the_most_words_that_can_be_due() {
    SOUND.refused_with(&LARGEST, (3, 3933));
}

#[test]
fn refusals_4_and_5_of_the_lines() {
    SOUND.refused_at_each(4, &[12, 13].map(|at| (at, ORDINATES_PAST_LIMITS)));
    SOUND.refused_at_each(4, &[14, 20].map(|at| (at, TRANSVERSE_PAST_LIMITS)));
    SOUND.refused_with(&[(13, -8)], (5, 12));
    SOUND.refused_with(&[(20, 1001), (22, 23_284)], (4, 20));
    SOUND.refused_with(&[(13, -8), (22, 23_284)], (5, 12));
}

/// Places of the two values' low halves.
const LOW_HALVES: [usize; 2] = [21, 24];

#[test]
fn values_within_their_limits_are_accepted() {
    for low in LOW_HALVES {
        for (low_half, high_half) in [
            (0, 0),
            (1, 0),
            (-1, -1),
            // 2^31 - 1, 2^31, 2^32 - 1 and 2^32; -2^31 and its neighbour; -2^32.
            (i32::MAX, 0),
            (i32::MIN, 0),
            (-1, 0),
            (0, 1),
            (i32::MIN, -1),
            (i32::MAX, -1),
            (0, -1),
            (-1, -2),
            // Past edition 1's limit in the low half alone.
            (1_000_000_001, 0),
            (-1_000_000_001, 0),
            // The limits and their neighbours within.
            (MOST_LOW, MOST_HIGH),
            (MOST_LOW - 1, MOST_HIGH),
            (0, MOST_HIGH),
            (-1, MOST_HIGH - 1),
            (i32::MIN, MOST_HIGH - 1),
            (LEAST_LOW, LEAST_HIGH),
            (LEAST_LOW + 1, LEAST_HIGH),
            (-1, LEAST_HIGH),
            (0, LEAST_HIGH + 1),
        ] {
            SOUND.accepted_with(&[(low, low_half), (low + 1, high_half)]);
        }
    }
}

#[test]
fn refusal_6_at_the_low_half_for_a_value_outside() {
    for low in LOW_HALVES {
        for (low_half, high_half) in [
            // One past either limit.
            (MOST_LOW + 1, MOST_HIGH),
            (LEAST_LOW - 1, LEAST_HIGH),
            // With the high half of a limit, the low half as far as it can be.
            (i32::MAX, MOST_HIGH),
            (i32::MIN, MOST_HIGH),
            (-1, MOST_HIGH),
            (0, LEAST_HIGH),
            (1, LEAST_HIGH),
            (i32::MAX, LEAST_HIGH),
            (i32::MIN, LEAST_HIGH),
        ] {
            SOUND.refused_with(&[(low, low_half), (low + 1, high_half)], (6, low as u64));
        }
        // A high half too large or too small, whatever the low half is.
        for high_half in [23_284, 23_285, i32::MAX, -23_285, -23_286, i32::MIN] {
            for low_half in [0, 1, 5, -1, MOST_LOW, LEAST_LOW, i32::MIN, i32::MAX] {
                SOUND.refused_with(&[(low, low_half), (low + 1, high_half)], (6, low as u64));
            }
        }
    }
}

#[test]
fn refusal_6_at_the_mark() {
    for mark in [0, 3, -1, 258, i32::MIN, i32::MAX] {
        SOUND.refused_with(&[(23, mark)], (6, 23));
        SOUND.refused_with(&[(26, mark)], (6, 26));
    }
    SOUND.accepted_with(&[(23, 2), (26, 1)]);
}

#[test]
fn refusal_6_at_the_lowest_place() {
    // A value before its mark, a mark before the next value.
    SOUND.refused_with(&[(22, 23_284), (23, 0)], (6, 21));
    SOUND.refused_with(&[(22, i32::MIN), (23, 3), (25, i32::MAX)], (6, 21));
    SOUND.refused_with(&[(23, 3), (25, 23_284)], (6, 23));
    SOUND.refused_with(&[(25, -23_285), (26, 3)], (6, 24));
    // Effects before rows, rows before records.
    SOUND.refused_with(&[(25, -23_285), (27, 3)], (6, 24));
    SOUND.refused_with(&[(26, 0), (27, 3)], (6, 26));
    SOUND.refused_with(&[(27, 3), (35, 0)], (6, 27));
    SOUND.refused_with(&[(34, 3), (35, 3)], (6, 34));
    SOUND.refused_with(&[(35, 3)], (6, 35));
}

/// The limits of rows and records are edition 1's.
#[test]
fn refusal_6_in_rows_and_records() {
    let faults = [
        (27, &[0, 3, i32::MIN][..]),
        (28, &[-1, 3, i32::MAX]),
        (29, &[-1, 3001]),
        (30, &[-1, 3]),
        (33, &[1, -1]),
        (35, &[0, 3, -1]),
        (36, &[-1, 3001]),
        (37, &[-1, 3]),
    ];
    SOUND.refused_at_each(6, &faults);
}

#[test]
fn refusals_7_and_8_at_the_rows() {
    // Record 2 leads back to itself, on both chains, or to record 1.
    SOUND.refused_with(&[(40, 2)], (7, 27));
    SOUND.refused_with(&[(40, 1)], (7, 27));
    // Both records name effect 1, on row 1's chain alone.
    SOUND.refused_with(&[(38, 1)], (8, 27));
    SOUND.refused_with(&[(38, 1), (27, 2)], (8, 27));
    SOUND.refused_with(&[(38, 1), (40, 1)], (7, 27));
    // 6 before both.
    SOUND.refused_with(&[(38, 1), (25, 23_284)], (6, 24));
    SOUND.refused_with(&[(40, 1), (23, 0)], (6, 23));
}

#[test]
fn refusal_9_comes_last() {
    let table = [
        (&[][..], (9, 1)),
        (&[(0, 5)], (1, 0)),
        (&[(11, 1)], (2, 11)),
        (&[(7, 3)], (3, 44)),
        (&[(12, 5001)], (4, 12)),
        (&[(12, -1)], (5, 12)),
        (&[(22, 23_284)], (6, 21)),
        (&[(40, 2)], (7, 27)),
        (&[(38, 1)], (8, 27)),
    ];
    SOUND.refused_without_a_patch_buffer(&table);
}
