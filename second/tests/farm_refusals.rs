//! 02 "Farm bridges": what the yard hears back about a farm job. The places are
//! counted by hand from `WORDS`, never taken from the code.

mod common;

use common::refusals::{
    accepted, refused, Sound, HEADER_FAULTS, ORDINATES_PAST_LIMITS, TRANSVERSE_PAST_LIMITS,
};
use second::words::{bytes_of, changed};

/// A sound farm job of 42 words.
const WORDS: [i32; 42] = [
    // 0 to 10: edition, h, N, g, W, dynamic kind and value, E, R, C, barriers.
    4, 50, 1, 50, 300, 2, 0, 11, 0, 0, 1, //
    // 11 and 12: one piece.
    8, 8, //
    // 13 to 19: 300/50 + 1 = 7 transverse ordinates.
    1, 2, 3, 4, 5, 6, 7, //
    // 20 to 41: DL, EP and OW, always present; SG, ST, TP, HE, WD, FW, EQ and CN.
    100, 1, 200, 1, 300, 1, //
    -4, 2, 5, 2, -6, 2, 7, 2, -8, 2, 9, 2, -10, 2, 11, 2,
];

const SOUND: Sound = Sound(&WORDS);

/// `WORDS` with this width and barriers and as many transverse ordinates, all 0,
/// as the width calls for.
fn of_width(width: i32, barriers: i32) -> Vec<i32> {
    let mut words = WORDS.to_vec();
    (words[4], words[10]) = (width, barriers);
    let ordinates = (width as usize).div_ceil(50) + 1;
    words.splice(13..20, vec![0; ordinates]);
    words
}

#[test]
fn the_sound_job_is_accepted() {
    SOUND.accepted_with(&[]);
}

#[test]
fn refusal_1_for_uneven_bytes_and_below_eleven_words() {
    SOUND.has_a_header_of(11);
}

/// Ten words are enough for edition 1, here with no effects and no records.
#[test]
fn ten_words_are_due_for_edition_1() {
    let header = [1, 50, 1, 50, 300, 2, 0, 0, 1, 0];
    refused(&bytes_of(&header), 1, (3, 10 + 2 + 7 + 4), "edition 1");
    let farm = [4, 50, 1, 50, 300, 2, 0, 11, 0, 0];
    refused(&bytes_of(&farm), 1, (1, 0), "edition 4");
}

#[test]
fn refusal_1_for_other_editions() {
    SOUND.no_job_of_other_editions(&[(10, 0), (4, 431)]);
}

/// The same words as edition 1, 2 or 3 have no rows, which is at fault at 8.
#[test]
fn word_0_chooses_the_limits() {
    SOUND.refused_with(&[(0, 1)], (2, 8));
    SOUND.refused_with(&[(0, 2)], (2, 8));
    SOUND.refused_with(&[(0, 3)], (2, 8));
}

#[test]
fn refusal_2_at_each_word_of_the_header() {
    SOUND.refused_at_each(2, &HEADER_FAULTS);
    let further = [
        (7, &[10, 12, 0, 16, -11, i32::MIN, i32::MAX][..]),
        (8, &[1, -1, 2, 32, i32::MIN, i32::MAX]),
        (9, &[1, -1, 12, 512, i32::MIN, i32::MAX]),
        (10, &[0, 4, -1, -2, 257, i32::MIN, i32::MAX]),
    ];
    SOUND.refused_at_each(2, &further);
}

#[test]
fn refusal_2_at_the_lowest_place() {
    SOUND.refused_with(&[(10, 0), (9, 1), (8, 1), (7, 10)], (2, 7));
    SOUND.refused_with(&[(10, 0), (9, 1), (8, 1)], (2, 8));
    SOUND.refused_with(&[(10, 0), (9, 1)], (2, 9));
    SOUND.refused_with(&[(10, 0), (4, 299)], (2, 4));
}

/// The kinds of dynamic factor with their values are edition 1's.
#[test]
fn dynamic_kinds_and_values() {
    SOUND.dynamic_kinds_and_values();
    SOUND.no_spans_by_sign();
    SOUND.refused_with(&[(5, 4), (6, 120), (10, 120)], (2, 5));
}

/// Each width of note with each barriers: 0 where it is accepted.
#[test]
fn refusal_11_for_a_width_outside_the_band() {
    for (width, due) in [
        (299, [2, 2, 2]),
        (300, [0, 0, 11]),
        (301, [0, 0, 11]),
        (369, [0, 0, 11]),
        (370, [0, 0, 0]),
        (371, [11, 11, 0]),
        (429, [11, 11, 0]),
        (430, [11, 11, 0]),
        (431, [11, 11, 11]),
        (600, [11, 11, 11]),
        (2079, [11, 11, 11]),
        (2080, [2, 2, 2]),
    ] {
        for (barriers, due) in (1..).zip(due) {
            let words = of_width(width, barriers);
            let what = format!("W {width}, barriers {barriers}");
            match due {
                0 => accepted(&words, &what),
                _ => refused(&bytes_of(&words), 1, (due, 4), &what),
            }
        }
    }
}

/// 11 comes straight after 2 and before all the others.
#[test]
fn refusal_11_between_2_and_3() {
    // Word 4 alone: the header then calls for more words than there are.
    SOUND.refused_with(&[(4, 431)], (11, 4));
    SOUND.refused_with(&[(4, 371)], (11, 4));
    SOUND.refused_with(&[(10, 3)], (11, 4));
    // Beside each fault of a higher number, and a lower.
    SOUND.refused_with(&[(4, 431), (10, 0)], (2, 10));
    SOUND.refused_with(&[(4, 431), (7, 12)], (2, 7));
    SOUND.refused_with(&[(4, 431), (0, 1)], (2, 8));
    for other in [(11, 5001), (12, -8), (21, 2), (20, i32::MAX), (27, 1)] {
        SOUND.refused_with(&[(10, 3), other], (11, 4));
    }
    let mut longer = bytes_of(&changed(&WORDS, &[(10, 3)]));
    longer.extend([0; 4]);
    refused(&longer, 1, (11, 4), "a word more");
    refused(&bytes_of(&of_width(430, 1)), 0, (11, 4), "no patch buffer");
}

#[test]
fn refusal_3_for_another_word_count() {
    SOUND.refused_with_a_word_more_or_fewer(42);
    SOUND.refused_with(&[(2, 2)], (3, 44));
    SOUND.refused_with(&[(3, 49)], (3, 43));
    // Rows and records after the effects are words too many.
    let mut words = WORDS.to_vec();
    words.extend([1, 1, 1000, 0]);
    refused(&bytes_of(&words), 1, (3, 42), "a row more");
}

#[test]
fn refusals_4_and_5_of_the_lines() {
    SOUND.refused_at_each(4, &[11, 12].map(|at| (at, ORDINATES_PAST_LIMITS)));
    SOUND.refused_at_each(4, &[13, 19].map(|at| (at, TRANSVERSE_PAST_LIMITS)));
    SOUND.refused_with(&[(12, -8)], (5, 11));
    SOUND.refused_with(&[(12, -8), (19, 1001)], (4, 19));
    SOUND.refused_with(&[(12, -8), (21, 2)], (5, 11));
}

#[test]
fn refusal_6_for_each_mark() {
    for effect in 0..11 {
        let place = 21 + 2 * effect;
        let exchanged = if effect < 3 { 2 } else { 1 };
        for mark in [exchanged, 0, 3, -1, 258, i32::MIN, i32::MAX] {
            SOUND.refused_with(&[(place, mark)], (6, place as u64));
        }
    }
}

#[test]
fn refusal_6_for_each_value() {
    for effect in 0..11 {
        let place = 20 + 2 * effect;
        for value in [1_000_000_000, -1_000_000_000, 0] {
            SOUND.accepted_with(&[(place, value)]);
        }
        for value in [1_000_000_001, -1_000_000_001, i32::MIN, i32::MAX] {
            SOUND.refused_with(&[(place, value)], (6, place as u64));
            // The lower of the two words is named.
            SOUND.refused_with(&[(place, value), (place + 1, 0)], (6, place as u64));
        }
    }
    SOUND.refused_with(&[(41, 1), (22, i32::MAX)], (6, 22));
}

#[test]
fn refusal_9_comes_last() {
    let table = [
        (&[][..], (9, 1)),
        (&[(0, 5)], (1, 0)),
        (&[(10, 4)], (2, 10)),
        (&[(4, 371)], (11, 4)),
        (&[(2, 2)], (3, 44)),
        (&[(11, 5001)], (4, 11)),
        (&[(11, -1)], (5, 11)),
        (&[(41, 1)], (6, 41)),
    ];
    SOUND.refused_without_a_patch_buffer(&table);
}
