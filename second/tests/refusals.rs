//! 01 "What the yard hears back": each refusal at many places. The places are
//! counted by hand from `WORDS`, never taken from the code.

mod common;

use common::refusals::{accepted, refused, Sound, WordFaults, COUNT_FAULTS, LARGEST};
use second::solve;
use second::words::{bytes_of, changed};

/// A sound job of 42 words.
const WORDS: [i32; 42] = [
    // 0 to 9: edition, h, N, g, W, dynamic kind and value, E, R, C.
    1, 25, 2, 50, 300, 3, 0, 2, 2, 3, //
    // 10 to 13: two pieces.
    -5, 0, 0, 7, //
    // 14 to 20: 300/50 + 1 = 7 transverse ordinates.
    0, 100, 200, 300, 400, 500, 600, //
    // 21 to 24: two effects.
    1000, 1, -1000, 2, //
    // 25 to 32: two rows.
    1, 1, 1350, 1, //
    2, 0, 0, 3, //
    // 33 to 41: three records.
    1, 1000, 2, //
    2, 1200, 0, //
    2, 900, 0,
];

const SOUND: Sound = Sound(&WORDS);

#[test]
fn the_sound_job_is_accepted() {
    SOUND.accepted_with(&[]);
}

#[test]
fn refusal_1_for_uneven_bytes_and_below_ten_words() {
    SOUND.has_a_header_of(10);
}

#[test]
fn refusal_1_for_other_editions() {
    SOUND.no_job_of_other_editions(&[(1, 3), (9, -1)]);
    // Ten words and no more, with faults of refusal 2 as well.
    for edition in [0, 5, -1, 257, 0x0100_0000, i32::MIN, i32::MAX] {
        let header = &bytes_of(&changed(&WORDS, &[(0, edition), (1, 3), (9, -1)]))[..40];
        refused(header, 2, (1, 0), "header only");
    }
}

#[test]
fn refusal_2_at_each_header_word() {
    let faults: [WordFaults; 6] = [
        (
            1,
            &[0, -1, 3, 4, 6, 9, 20, 26, 49, 51, 100, i32::MIN, i32::MAX],
        ),
        (2, &[0, -1, 41, 1000, 1001, i32::MIN, i32::MAX]),
        (3, &[9, 51, 0, -10, i32::MIN, i32::MAX]),
        (4, &[299, 2080, 0, -300, i32::MIN, i32::MAX]),
        (5, &[0, 4, -1, i32::MIN, i32::MAX]),
        (6, &[-1, 5001, i32::MIN, i32::MAX]),
    ];
    SOUND.refused_at_each(2, &faults);
    SOUND.refused_at_each(2, &COUNT_FAULTS);
}

/// The line may be 1000 dm long: N is at most 1000/h.
#[test]
fn refusal_2_at_word_2_for_a_line_over_1000_dm() {
    for (h, most_pieces) in [(1, 1000), (2, 500), (5, 200), (10, 100), (25, 40), (50, 20)] {
        SOUND.refused_with(&[(1, h), (2, most_pieces + 1)], (2, 2));
        // At the limit the header is sound, and the word count is wanting:
        // 42 words have 4 for the line, so 38 are due beside 2N.
        let due = 38 + 2 * most_pieces as u64;
        SOUND.refused_with(&[(1, h), (2, most_pieces)], (3, due));
    }
}

#[test]
fn refusal_2_at_word_6_by_the_kind_in_word_5() {
    for word in [999, 1301, 0, -1000] {
        SOUND.refused_with(&[(5, 1), (6, word)], (2, 6));
    }
    for word in [-1, 1, 1000] {
        SOUND.refused_with(&[(5, 2), (6, word)], (2, 6));
    }
    // A bad kind is the lower place whatever the value.
    for word in [-1, 0, 1000, 6000] {
        SOUND.refused_with(&[(5, 4), (6, word)], (2, 5));
    }
    SOUND.no_spans_by_sign();
    for (kind, value) in [(1, 1000), (1, 1300), (2, 0), (3, 0), (3, 5000)] {
        SOUND.accepted_with(&[(5, kind), (6, value)]);
    }
}

#[test]
fn refusal_2_gives_the_lowest_of_several_places() {
    SOUND.refused_with(&[(9, 513), (7, 17), (8, 0)], (2, 7));
    SOUND.refused_with(&[(1, 3), (2, 0), (4, 0)], (2, 1));
    SOUND.refused_with(&[(2, 1001), (3, 9)], (2, 2));
    SOUND.refused_with(&[(6, -1), (9, -1)], (2, 6));
    // With a bad h, N times h is not asked at word 2.
    SOUND.refused_with(&[(1, 1000), (2, 2)], (2, 1));
}

#[test]
fn refusal_2_needs_ten_words_only() {
    let header = &changed(&WORDS, &[(8, 0)])[..10];
    refused(&bytes_of(header), 0, (2, 8), "header only");
}

#[test]
fn refusal_3_gives_the_count_due() {
    for length in [10, 11, 41, 43, 44, 1000] {
        let mut words = WORDS.to_vec();
        words.resize(length, 0);
        refused(&bytes_of(&words), 2, (3, 42), &format!("{length} words"));
    }
    // One more or one fewer of each count.
    SOUND.refused_with(&[(2, 3)], (3, 44));
    SOUND.refused_with(&[(2, 1)], (3, 40));
    SOUND.refused_with(&[(7, 3)], (3, 44));
    SOUND.refused_with(&[(7, 0)], (3, 38));
    SOUND.refused_with(&[(8, 3)], (3, 46));
    SOUND.refused_with(&[(8, 1)], (3, 38));
    SOUND.refused_with(&[(9, 4)], (3, 45));
    SOUND.refused_with(&[(9, 0)], (3, 33));
    // M is W/g rounded up: 301/50 gives 7, 300/49 gives 7, 300/10 gives 30.
    SOUND.refused_with(&[(4, 301)], (3, 43));
    SOUND.refused_with(&[(3, 49)], (3, 43));
    SOUND.refused_with(&[(3, 10)], (3, 66));
    // The largest: 10 + 2000 + 209 + 32 + 128 + 1536.
    SOUND.refused_with(&LARGEST, (3, 3915));
}

#[test]
fn refusal_3_comes_before_4_to_9() {
    let mut words = changed(&WORDS, &[(10, 6000), (12, -1), (22, 3), (35, 1)]);
    words.pop();
    refused(&bytes_of(&words), 0, (3, 42), "all later faults too");
}

#[test]
fn refusal_4_at_each_ordinate() {
    for place in 10..14 {
        for word in [-5001, 5001, i32::MIN, i32::MAX] {
            SOUND.refused_with(&[(place, word)], (4, place as u64));
        }
    }
    for place in 14..21 {
        for word in [-1001, 1001, 5000, i32::MIN, i32::MAX] {
            SOUND.refused_with(&[(place, word)], (4, place as u64));
        }
    }
    SOUND.refused_with(&[(20, 1001), (13, 5001)], (4, 13));
}

/// Words that are lawful in their low 16 bits: 5 in the first three, then 0, -5
/// or a limit; and the ends of 16 bits.
#[test]
fn refusal_4_tests_the_whole_word() {
    for place in 10..21 {
        for word in [65541, -65531, -2147483643, 65536, 65531, 2147483643] {
            SOUND.refused_with(&[(place, word)], (4, place as u64));
        }
        for word in [66536, 64536, -66536, -64536, 70536, 60536, -70536, -60536] {
            SOUND.refused_with(&[(place, word)], (4, place as u64));
        }
        for word in [32767, 32768, -32768, -32769, 65535, -65535, -65536] {
            SOUND.refused_with(&[(place, word)], (4, place as u64));
        }
    }
}

#[test]
fn refusal_4_of_two_wide_words_gives_the_lower_place() {
    SOUND.refused_with(&[(10, 65541), (11, 65541)], (4, 10));
    SOUND.refused_with(&[(11, -65531), (12, 65541)], (4, 11));
    SOUND.refused_with(&[(13, -2147483643), (14, 65541)], (4, 13));
    SOUND.refused_with(&[(14, 65541), (20, -65531)], (4, 14));
    // One of the two is outside in its low 16 bits as well.
    SOUND.refused_with(&[(12, 65541), (13, 5001)], (4, 12));
    SOUND.refused_with(&[(12, 5001), (13, 65541)], (4, 12));
    SOUND.refused_with(&[(13, 65541), (14, 1001)], (4, 13));
    SOUND.refused_with(&[(17, 1001), (20, 65541)], (4, 17));
}

/// 65541 and -65531 are 5 in their low 16 bits, 65531 and -65541 are -5.
#[test]
fn refusal_4_of_a_wide_word_comes_before_5() {
    // Another piece crosses zero.
    SOUND.refused_with(&[(10, -1), (11, 1), (12, 65541)], (4, 12));
    SOUND.refused_with(&[(10, -1), (11, 1), (20, 65541)], (4, 20));
    SOUND.refused_with(&[(11, 65541), (12, 1), (13, -1)], (4, 11));
    // The whole word crosses, and its low 16 bits do too.
    SOUND.refused_with(&[(10, 65541), (11, -5)], (4, 10));
    SOUND.refused_with(&[(12, -5), (13, 65541)], (4, 13));
    // The low 16 bits cross, the whole word doesn't.
    SOUND.refused_with(&[(10, -65531), (11, -5)], (4, 10));
    SOUND.refused_with(&[(12, 5), (13, 65531)], (4, 13));
    // The whole word crosses, the low 16 bits don't.
    SOUND.refused_with(&[(10, -65531), (11, 5)], (4, 10));
    SOUND.refused_with(&[(12, -5), (13, 65531)], (4, 13));
    SOUND.refused_with(&[(12, 65536), (13, -5)], (4, 12));
}

#[test]
fn ordinates_at_their_limits_are_accepted() {
    let table = [
        (10..=11, 5000),
        (12..=13, 5000),
        (10..=13, 5000),
        (14..=14, 1000),
        (17..=17, 1000),
        (20..=20, 1000),
        (14..=20, 1000),
    ];
    for (places, most) in table {
        for word in [most, -most] {
            let changes: Vec<_> = places.clone().map(|place| (place, word)).collect();
            SOUND.accepted_with(&changes);
        }
    }
}

#[test]
fn refusal_4_in_a_later_place_comes_before_5() {
    SOUND.refused_with(&[(10, -1), (11, 1), (20, 1001)], (4, 20));
    SOUND.refused_with(&[(10, -1), (11, 1), (13, 5001)], (4, 13));
    // An ordinate outside its limits that is of two signs as well.
    SOUND.refused_with(&[(10, -5001), (11, 1)], (4, 10));
}

#[test]
fn refusal_5_at_a_pieces_left_ordinate() {
    SOUND.refused_with(&[(10, -1), (11, 1)], (5, 10));
    SOUND.refused_with(&[(10, 5000), (11, -5000)], (5, 10));
    SOUND.refused_with(&[(12, -1), (13, 1)], (5, 12));
    SOUND.refused_with(&[(12, 1), (13, -1)], (5, 12));
    SOUND.refused_with(&[(10, 1), (11, -1), (12, 1), (13, -1)], (5, 10));
    // Signs may change between pieces.
    SOUND.accepted_with(&[(10, 5), (11, 5), (12, -5), (13, -5)]);
    SOUND.refused_with(&[(12, 1), (13, -1), (22, 0), (35, 1)], (5, 12));
}

#[test]
fn refusal_6_at_each_effect_word() {
    for place in [21, 23] {
        for word in [1_000_000_001, -1_000_000_001, i32::MIN, i32::MAX] {
            SOUND.refused_with(&[(place, word)], (6, place as u64));
        }
    }
    for place in [22, 24] {
        for word in [0, 3, -1, i32::MIN, i32::MAX] {
            SOUND.refused_with(&[(place, word)], (6, place as u64));
        }
    }
}

#[test]
fn refusal_6_at_each_row_word() {
    let faults: [WordFaults; 8] = [
        (25, &[0, 3, -1, i32::MIN, i32::MAX]),
        (26, &[-1, 3, i32::MIN, i32::MAX]),
        (27, &[-1, 3001, i32::MIN, i32::MAX]),
        (28, &[-1, 4, 512, i32::MIN, i32::MAX]),
        (29, &[0, 3, -1, i32::MIN, i32::MAX]),
        (30, &[-1, 3, i32::MIN, i32::MAX]),
        // Row 2 is of kind 0, so its live factor must be 0.
        (31, &[-1, 1, 1000, 3000, 3001, i32::MIN, i32::MAX]),
        (32, &[-1, 4, i32::MIN, i32::MAX]),
    ];
    SOUND.refused_at_each(6, &faults);
    // Row 1 turned to kind 0 keeps its live factor of 1350.
    SOUND.refused_with(&[(26, 0)], (6, 27));
    // With kind 1 or 2, row 2 may have a factor.
    for kind in [1, 2] {
        SOUND.accepted_with(&[(30, kind), (31, 3000)]);
    }
}

#[test]
fn refusal_6_at_each_record_word() {
    for place in [33, 36, 39] {
        for word in [0, 3, -1, 16, i32::MIN, i32::MAX] {
            SOUND.refused_with(&[(place, word)], (6, place as u64));
        }
    }
    for place in [34, 37, 40] {
        for word in [-1, 3001, i32::MIN, i32::MAX] {
            SOUND.refused_with(&[(place, word)], (6, place as u64));
        }
    }
    for place in [35, 38, 41] {
        for word in [-1, 4, i32::MIN, i32::MAX] {
            SOUND.refused_with(&[(place, word)], (6, place as u64));
        }
    }
}

/// With no effects a record has none to name. The effects' four words go, so
/// rows stand at 21 to 28 and records at 29 to 37.
#[test]
fn refusal_6_at_a_record_of_a_job_without_effects() {
    let mut words = changed(&WORDS, &[(7, 0)]);
    words.drain(21..25);
    refused(&bytes_of(&words), 2, (6, 29), "no effects");
}

/// Without records a row's chain can only be empty. Rows stay at 25 to 32.
#[test]
fn refusal_6_at_a_row_of_a_job_without_records() {
    let mut words = changed(&WORDS, &[(9, 0)]);
    words.truncate(33);
    refused(&bytes_of(&words), 2, (6, 28), "row 1 names record 1");
    words[28] = 0;
    refused(&bytes_of(&words), 2, (6, 32), "row 2 names record 3");
    words[32] = 0;
    accepted(&words, "empty chains");
}

#[test]
fn refusal_6_comes_before_7_to_9_and_gives_its_lowest_place() {
    SOUND.refused_with(&[(35, 1), (41, 4)], (6, 41));
    SOUND.refused_with(&[(41, 4), (21, i32::MAX), (29, 0)], (6, 21));
    let words = changed(&WORDS, &[(35, 1), (40, 3001)]);
    refused(&bytes_of(&words), 0, (6, 40), "short patch buffer too");
}

#[test]
fn refusal_7_at_the_rows_first_word() {
    // Record 1 returns to itself: row 1.
    SOUND.refused_with(&[(35, 1)], (7, 25));
    // Records 1 and 2 return to each other: row 1.
    SOUND.refused_with(&[(38, 1)], (7, 25));
    // Record 3 returns to itself: row 2.
    SOUND.refused_with(&[(41, 3)], (7, 29));
    // Row 2 leads into the circle of 2 and 3, row 1 ends at record 1.
    SOUND.refused_with(&[(35, 0), (38, 3), (41, 2)], (7, 29));
    // Both rows lead into one circle.
    SOUND.refused_with(&[(38, 3), (41, 2)], (7, 25));
    // A chain that comes back past its first record.
    SOUND.refused_with(&[(38, 2)], (7, 25));
}

#[test]
fn refusal_7_over_all_rows_comes_before_8() {
    // Row 1 names effect 2 twice, row 2 has a return.
    SOUND.refused_with(&[(33, 2), (41, 3)], (7, 29));
    // Row 1 has a return and names effects again by it; row 2 likewise.
    SOUND.refused_with(&[(38, 3), (41, 1)], (7, 25));
}

#[test]
fn refusal_8_at_the_rows_first_word() {
    // Records 1 and 2 both name effect 2, or effect 1: row 1.
    SOUND.refused_with(&[(33, 2)], (8, 25));
    SOUND.refused_with(&[(36, 1)], (8, 25));
    // Row 2 starts at record 3, which leads to record 2, both of effect 2.
    SOUND.refused_with(&[(41, 2)], (8, 29));
    // First and last of a chain of three, records 1, 2, 3: effects 2, 1, 2.
    SOUND.refused_with(&[(33, 2), (36, 1), (38, 3), (32, 0)], (8, 25));
    let words = changed(&WORDS, &[(33, 2)]);
    refused(&bytes_of(&words), 1, (8, 25), "short patch buffer too");
}

/// Records on no chain are legal, even in a circle or naming an effect twice.
#[test]
fn records_on_no_chain_are_not_tested_for_7_and_8() {
    for changes in [
        &[(32, 0), (41, 3)][..],
        &[(32, 0), (41, 2)],
        &[(28, 0), (35, 1)],
        &[(28, 0), (33, 2)],
        &[(28, 0), (32, 0), (35, 2), (38, 1)],
    ] {
        SOUND.accepted_with(changes);
    }
}

#[test]
fn refusal_9_for_a_short_patch_buffer() {
    for patch_bytes in [0, 1] {
        refused(&bytes_of(&WORDS), patch_bytes, (9, 2), "two pieces");
    }
}

#[test]
fn refusal_9_at_the_number_of_pieces() {
    let mut words = changed(&WORDS, &[(1, 1), (2, 1000)]);
    words.splice(10..14, vec![0; 2000]);
    for patch_bytes in [0, 1, 2, 999] {
        refused(&bytes_of(&words), patch_bytes, (9, 1000), "1000 pieces");
    }
    accepted(&words, "1000 pieces");
}

/// Bytes past N keep their old contents.
#[test]
fn a_longer_patch_buffer_is_fine() {
    let mut patch = [0xEE; 5];
    assert_eq!(solve(&bytes_of(&WORDS), &mut patch).refusal, 0);
    assert_eq!(patch, [2, 1, 0xEE, 0xEE, 0xEE]);
}
