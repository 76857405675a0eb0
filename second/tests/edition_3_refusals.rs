//! 02 "Two carriageways": what the yard hears back about a job of edition 3. The places
//! are counted by hand from `WORDS`, never taken from the code. That jobs
//! with one carriageway keep their limits of 5000 is here, too.

mod common;

use common::refusals::{
    refused, Sound, COUNT_FAULTS, HEADER_FAULTS, LARGEST, TRANSVERSE_PAST_LIMITS,
};
use second::words::{bytes_of, changed};

/// A sound job of edition 3, of 49 words.
const WORDS: [i32; 49] = [
    // 0 to 12: edition, h, N, g, W, kind and value, E, R, C, two zeros, the second width.
    3, 50, 2, 50, 300, 2, 0, 1, 2, 2, 0, 0, 350, //
    // 13 to 16: two pieces.
    8, 8, -6, -6, //
    // 17 to 23: 300/50 + 1 = 7 transverse ordinates.
    1, 2, 3, 4, 5, 6, 7, //
    // 24 to 31: 350/50 + 1 = 8 of the second carriageway.
    -1, -2, -3, -4, -5, -6, -7, -8, //
    // 32 to 34: 2^32 + 5, always present.
    5, 1, 1, //
    // 35 to 42: a service row with normal traffic and an ultimate one without.
    1, 1, 1350, 1, 2, 0, 0, 2, //
    // 43 to 48: two records, of a chain each.
    1, 1000, 0, 1, 1200, 0,
];

const SOUND: Sound = Sound(&WORDS);

#[test]
fn the_sound_job_is_accepted() {
    SOUND.accepted_with(&[]);
}

#[test]
fn refusal_1_for_uneven_bytes_and_below_thirteen_words() {
    SOUND.has_a_header_of(13);
}

/// Ten, eleven and twelve words are headers of other editions, not of this one; a fault
/// of the header is not looked at in fewer words.
#[test]
fn refusal_1_for_headers_of_other_lengths() {
    for words in [10, 11, 12] {
        let front = &bytes_of(&WORDS)[..4 * words];
        refused(front, 2, (1, 0), &format!("{words} words"));
        let spoiled = bytes_of(&changed(&WORDS[..words], &[(4, 299), (9, -1)]));
        refused(&spoiled, 2, (1, 0), &format!("{words} words, W 299"));
    }
    // 12 + 4 + 7 + 3 + 8 + 6 words are due in edition 2.
    let of_edition_2 = bytes_of(&changed(&WORDS[..12], &[(0, 2)]));
    refused(&of_edition_2, 2, (3, 40), "twelve words of edition 2");
}

#[test]
fn refusal_1_for_other_editions() {
    SOUND.no_job_of_other_editions(&[(12, 299), (34, 0)]);
}

/// As edition 1 it has 49 words where 10 + 4 + 7 + 2 + 8 + 6 are due, as edition 2
/// where 40 are; as edition 4 it has one effect where eleven are due.
#[test]
fn word_0_chooses_the_limits() {
    SOUND.refused_with(&[(0, 1)], (3, 37));
    SOUND.refused_with(&[(0, 2)], (3, 40));
    SOUND.refused_with(&[(0, 4)], (2, 7));
}

/// Words that are no widths, one of them a width in its low 16 bits.
const NO_WIDTHS: [i32; 9] = [
    299,
    2080,
    0,
    -1,
    -350,
    65_886,
    0x0100_0000,
    i32::MIN,
    i32::MAX,
];

#[test]
fn refusal_2_at_each_word_of_the_header() {
    SOUND.refused_at_each(2, &HEADER_FAULTS);
    SOUND.refused_at_each(2, &COUNT_FAULTS);
    let further = [
        (10, &[1, -1, 120, 2000, 350, i32::MIN, i32::MAX][..]),
        (11, &[1, -1, 2, 350, i32::MIN, i32::MAX]),
        (12, &NO_WIDTHS),
    ];
    SOUND.refused_at_each(2, &further);
}

#[test]
fn refusal_2_at_the_lowest_place() {
    let lower = [
        (1, 3),
        (2, 21),
        (3, 9),
        (4, 299),
        (5, 5),
        (6, 1),
        (7, 17),
        (8, 0),
        (9, 513),
        (10, 1),
        (11, 1),
    ];
    for (place, word) in lower {
        for width in NO_WIDTHS {
            SOUND.refused_with(&[(place, word), (12, width)], (2, place as u64));
        }
    }
    SOUND.refused_with(&[(10, 1), (11, 1), (12, 0)], (2, 10));
    SOUND.refused_with(&[(11, 1), (12, 0)], (2, 11));
}

/// 2 comes before everything of a higher number.
#[test]
fn word_12_before_all_that_follows() {
    let others = [
        (2, 3),
        (13, 501),
        (23, 1001),
        (31, -1001),
        (14, -8),
        (33, 23_284),
        (34, 0),
        (35, 3),
        (45, 1),
        (45, 2),
    ];
    for other in others {
        SOUND.refused_with(&[(12, 299), other], (2, 12));
        SOUND.refused_with(&[(12, 2080), other], (2, 12));
    }
    let spoiled = bytes_of(&changed(&WORDS, &[(12, 299)]));
    refused(&spoiled, 0, (2, 12), "no patch buffer");
    refused(&spoiled[..52], 2, (2, 12), "the header alone");
    refused(&spoiled[..48], 2, (1, 0), "twelve words");
    refused(&spoiled[..195], 2, (1, 0), "uneven");
}

/// The dynamic kinds are edition 2's: 1 to 3 with word 10 at 0, and spans by sign.
#[test]
fn dynamic_kinds_and_values() {
    SOUND.dynamic_kinds_and_values();
    for (kind, value) in [(1, 1200), (2, 0), (3, 50)] {
        for word in [1, -1, 120, 2000] {
            SOUND.refused_with(&[(5, kind), (6, value), (10, word)], (2, 10));
        }
    }
    for span in [1, 120, 121, 2000] {
        SOUND.accepted_with(&[(5, 4), (6, span), (10, 900)]);
        SOUND.accepted_with(&[(5, 4), (6, 900), (10, span)]);
        SOUND.refused_with(&[(5, 4), (6, span)], (2, 10));
        SOUND.refused_with(&[(5, 4), (6, span), (10, 900), (11, 1)], (2, 11));
        SOUND.refused_with(&[(5, 4), (6, span), (10, 900), (12, 299)], (2, 12));
    }
    for span in [0, -1, 2001, i32::MAX] {
        SOUND.refused_with(&[(5, 4), (6, span), (10, 900)], (2, 6));
        SOUND.refused_with(&[(5, 4), (6, 900), (10, span)], (2, 10));
    }
}

/// The sound job with another second width and as many ordinates as it calls for, which
/// start at word 24.
fn of_second_width(width: i32) -> Vec<i32> {
    let ordinates = vec![9; (width as usize).div_ceil(50) + 1];
    let mut words = WORDS.to_vec();
    words[12] = width;
    words.splice(24..32, ordinates);
    words
}

#[test]
fn widths_at_the_limits_are_accepted() {
    let widths = [300, 301, 599, 600, 969, 970, 1339, 1340, 1709, 1710, 2079];
    for width in widths {
        Sound(&of_second_width(width)).accepted_with(&[]);
        let due = 41 + 1 + (width as u64).div_ceil(50);
        Sound(&of_second_width(width)).refused_with_a_word_more_or_fewer(due);
    }
    for (width, beyond) in [(300, 299), (2079, 2080)] {
        let words = of_second_width(width);
        Sound(&words).refused_with(&[(12, beyond)], (2, 12));
    }
}

/// 13 + 4 + 7 + 8 + 3E + 4R + 3C words are due; either width moves the count.
#[test]
fn refusal_3_for_another_word_count() {
    SOUND.refused_with_a_word_more_or_fewer(49);
    for (second, due) in [(300, 48), (351, 50), (400, 50), (2079, 84)] {
        SOUND.refused_with(&[(12, second)], (3, due));
    }
    // 301 cm call for as many as 350.
    SOUND.accepted_with(&[(12, 301)]);
    for (first, due) in [(301, 50), (350, 50), (600, 55), (2079, 85)] {
        SOUND.refused_with(&[(4, first)], (3, due));
    }
    // The one as much narrower as the other is wider: as many words, but the sections lie
    // elsewhere.
    SOUND.accepted_with(&[(4, 350), (12, 300)]);
    SOUND.refused_with(&[(4, 400), (12, 300)], (3, 50));
    SOUND.refused_with(&[(3, 49)], (3, 51));
    SOUND.refused_with(&[(2, 3)], (3, 51));
    SOUND.refused_with(&[(7, 0)], (3, 46));
    SOUND.refused_with(&[(8, 1)], (3, 45));
    SOUND.refused_with(&[(9, 512)], (3, 49 + 3 * 510));
}

/// The second section left out, a word short, a word long.
#[test]
fn refusal_3_for_another_second_section() {
    for length in [0, 1, 7, 9, 16] {
        let mut words = WORDS.to_vec();
        words.splice(24..32, vec![1; length]);
        let what = format!("a second section of {length} words");
        refused(&bytes_of(&words), 2, (3, 49), &what);
        let what = format!("{what}, without a patch buffer");
        refused(&bytes_of(&words), 0, (3, 49), &what);
    }
}

/// 13 + 2000 + 209 + 209 + 48 + 128 + 1536 words: every section as long as it may be.
#[test]
fn the_most_words_that_can_be_due() {
    let largest = [&LARGEST[..], &[(12, 2079)]].concat();
    SOUND.refused_with(&largest, (3, 4143));
}

const PAST_500: &[i32] = &[
    501,
    -501,
    502,
    5000,
    -5000,
    5001,
    65_541,
    i32::MIN,
    i32::MAX,
];

#[test]
fn refusal_4_at_each_section() {
    SOUND.refused_at_each(4, &[13, 14, 15, 16].map(|at| (at, PAST_500)));
    let across = [17, 18, 23, 24, 25, 31].map(|at| (at, TRANSVERSE_PAST_LIMITS));
    SOUND.refused_at_each(4, &across);
    for (left, right) in [(500, 500), (500, 0), (0, 499)] {
        SOUND.accepted_with(&[(13, left), (14, right)]);
        SOUND.accepted_with(&[(15, -left), (16, -right)]);
    }
    for place in [17, 23, 24, 31] {
        SOUND.accepted_with(&[(place, 1000)]);
        SOUND.accepted_with(&[(place, -1000)]);
    }
    // The second section has the transverse limits, not the line's.
    SOUND.accepted_with(&[(24, 501), (31, -501), (17, 501)]);
}

/// The line's ordinates come first, then the first carriageway's, then the second's.
#[test]
fn refusal_4_at_the_lowest_place() {
    let [line, first, second] = [(16, 501), (23, 1001), (24, 1001)];
    SOUND.refused_with(&[line, first], (4, 16));
    SOUND.refused_with(&[line, second], (4, 16));
    SOUND.refused_with(&[first, second], (4, 23));
    SOUND.refused_with(&[line, first, second], (4, 16));
    SOUND.refused_with(&[(24, 1001), (31, 1001)], (4, 24));
    // 4 before 5, 6, 7 and 8.
    for place in [(16, 501), (17, 1001), (24, -1001), (31, 65_541)] {
        for other in [(14, -8), (33, 23_284), (34, 0), (36, 3), (45, 1), (45, 2)] {
            SOUND.refused_with(&[place, other], (4, place.0 as u64));
        }
    }
}

#[test]
fn refusal_5_at_its_piece() {
    SOUND.refused_with(&[(14, -8)], (5, 13));
    SOUND.refused_with(&[(13, -500), (14, 500)], (5, 13));
    SOUND.refused_with(&[(15, 6)], (5, 15));
    SOUND.refused_with(&[(16, 1), (14, -1)], (5, 13));
    SOUND.refused_with(&[(15, 6), (34, 0)], (5, 15));
    SOUND.refused_with(&[(15, 6), (48, 3)], (5, 15));
}

/// The tables follow the second section.
#[test]
fn refusal_6_at_each_word_of_the_tables() {
    for high_half in [23_284, -23_285, i32::MIN, i32::MAX] {
        SOUND.refused_with(&[(33, high_half)], (6, 32));
    }
    let faults = [
        (34, &[0, 3, -1, 257][..]),
        (35, &[0, 3, -1]),
        (36, &[3, -1]),
        (37, &[3001, -1]),
        (38, &[3, -1]),
        (39, &[0, 3]),
        (40, &[-1, 3]),
        (41, &[1, -1]),
        (42, &[3, -1]),
        (43, &[0, 2]),
        (44, &[3001, -1]),
        (45, &[3, -1]),
        (46, &[0, 2]),
        (47, &[3001]),
        (48, &[3]),
    ];
    SOUND.refused_at_each(6, &faults);
    SOUND.refused_with(&[(33, 23_284), (34, 0), (35, 3)], (6, 32));
    SOUND.refused_with(&[(48, 3), (45, 1)], (6, 48));
}

#[test]
fn refusals_7_and_8_at_the_rows() {
    // Record 1 leads back to itself; record 2 does.
    SOUND.refused_with(&[(45, 1)], (7, 35));
    SOUND.refused_with(&[(48, 2)], (7, 39));
    // Record 1 leads to record 2, which names its effect again.
    SOUND.refused_with(&[(45, 2)], (8, 35));
    SOUND.refused_with(&[(45, 2), (48, 2)], (7, 35));
}

#[test]
fn refusal_9_comes_last() {
    let table = [
        (&[][..], (9, 2)),
        (&[(0, 5)], (1, 0)),
        (&[(12, 299)], (2, 12)),
        (&[(12, 300)], (3, 48)),
        (&[(13, 501)], (4, 13)),
        (&[(31, 1001)], (4, 31)),
        (&[(14, -1)], (5, 13)),
        (&[(33, 23_284)], (6, 32)),
        (&[(45, 1)], (7, 35)),
        (&[(45, 2)], (8, 35)),
    ];
    SOUND.refused_without_a_patch_buffer(&table);
    refused(&bytes_of(&WORDS), 1, (9, 2), "one byte");
}

/// Edition 1's front: ten words and, after the header, the line.
const OF_EDITION_1: [i32; 25] = [
    1, 50, 2, 50, 300, 2, 0, 0, 1, 0, //
    8, 8, -6, -6, //
    1, 2, 3, 4, 5, 6, 7, //
    1, 1, 1350, 0,
];

/// The same as edition 2.
const OF_EDITION_2: [i32; 27] = [
    2, 50, 2, 50, 300, 2, 0, 0, 1, 0, 0, 0, //
    8, 8, -6, -6, //
    1, 2, 3, 4, 5, 6, 7, //
    1, 1, 1350, 0,
];

#[test]
fn one_carriageway_keeps_5000() {
    for (sound, line) in [(&OF_EDITION_1[..], 10), (&OF_EDITION_2, 12)] {
        for place in line..line + 4 {
            let sign = if place < line + 2 { 1 } else { -1 };
            for word in [500, 501, 4999, 5000] {
                Sound(sound).accepted_with(&[(place, sign * word)]);
            }
            for word in [5001, -5001, 65_541] {
                Sound(sound).refused_with(&[(place, word)], (4, place as u64));
            }
        }
    }
}
