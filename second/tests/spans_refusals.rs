//! 02 "Span by sign": what the yard hears back about a job of edition 2 with kind 4.
//! The places are counted by hand from `WORDS`, never taken from the
//! code. That editions 1 and 4 have no kind 4 is in their own tests.

mod common;

use common::refusals::{refused, Sound};
use second::words::{bytes_of, changed};

/// A sound job of edition 2 with kind 4, of 40 words.
const WORDS: [i32; 40] = [
    // 0 to 11: edition, h, N, g, W, kind, span for greatest, E, R, C, span for least,
    // a zero.
    2, 50, 2, 50, 300, 4, 150, 1, 2, 2, 900, 0, //
    // 12 to 15: two pieces.
    8, 8, -6, -6, //
    // 16 to 22: 300/50 + 1 = 7 transverse ordinates.
    1, 2, 3, 4, 5, 6, 7, //
    // 23 to 25: 2^32 + 5, always present.
    5, 1, 1, //
    // 26 to 33: a service row with normal traffic and an ultimate one without.
    1, 1, 1350, 1, 2, 0, 0, 2, //
    // 34 to 39: two records, of a chain each.
    1, 1000, 0, 1, 1200, 0,
];

const SOUND: Sound = Sound(&WORDS);

/// Lawful spans and words that are none.
const SPANS: [i32; 8] = [1, 2, 119, 120, 121, 122, 1999, 2000];
const NO_SPANS: [i32; 9] = [
    0,
    -1,
    -120,
    2001,
    2002,
    65_656,
    0x0100_0000,
    i32::MIN,
    i32::MAX,
];

#[test]
fn every_pair_of_spans_is_accepted() {
    SOUND.accepted_with(&[]);
    for greatest in SPANS {
        for least in SPANS {
            SOUND.accepted_with(&[(6, greatest), (10, least)]);
        }
    }
}

/// Kinds with a value that is good for each, and the words 10 that go with them.
const KINDS: [(i32, i32, &[i32]); 11] = [
    (1, 1200, &[0]),
    (2, 0, &[0]),
    (3, 50, &[0]),
    (4, 150, &[1, 119, 120, 121, 122, 2000]),
    (0, 150, &[]),
    (5, 150, &[]),
    (-1, 150, &[]),
    (260, 150, &[]),
    (0x0400_0000, 150, &[]),
    (i32::MIN, 150, &[]),
    (i32::MAX, 150, &[]),
];

const WORDS_10: [i32; 11] = [-1, 0, 1, 119, 120, 121, 122, 2000, 2001, i32::MIN, i32::MAX];

/// A kind that is none is at fault itself, whatever word 10 is.
#[test]
fn every_pair_of_kind_and_word_10() {
    for (kind, value, lawful) in KINDS {
        for word in WORDS_10 {
            let changes = [(5, kind), (6, value), (10, word)];
            match lawful {
                [] => SOUND.refused_with(&changes, (2, 5)),
                _ if lawful.contains(&word) => SOUND.accepted_with(&changes),
                _ => SOUND.refused_with(&changes, (2, 10)),
            }
        }
    }
}

#[test]
fn one_span_at_fault_or_both() {
    SOUND.refused_at_each(2, &[(6, &NO_SPANS), (10, &NO_SPANS)]);
    for one in NO_SPANS {
        for good in SPANS {
            SOUND.refused_with(&[(6, one), (10, good)], (2, 6));
            SOUND.refused_with(&[(6, good), (10, one)], (2, 10));
        }
        for other in NO_SPANS {
            SOUND.refused_with(&[(6, one), (10, other)], (2, 6));
        }
    }
}

/// A value of another kind is no span, and a span no value of another kind.
#[test]
fn word_6_goes_by_the_kind() {
    SOUND.refused_with(&[(5, 2)], (2, 6));
    SOUND.refused_with(&[(5, 1)], (2, 6));
    SOUND.refused_with(&[(5, 3)], (2, 10));
    SOUND.refused_with(&[(5, 1), (6, 2000), (10, 0)], (2, 6));
    SOUND.refused_with(&[(5, 3), (6, 5000), (10, 1)], (2, 10));
    SOUND.refused_with(&[(6, 5000), (10, 0)], (2, 6));
    for (kind, value) in [(1, 1000), (1, 1300), (2, 0), (3, 0), (3, 5000)] {
        SOUND.accepted_with(&[(5, kind), (6, value), (10, 0)]);
        SOUND.refused_with(&[(5, kind), (6, value)], (2, 10));
    }
}

#[test]
fn refusal_2_at_the_lowest_place() {
    // Every other word of the header beside both spans.
    for (place, word) in [(1, 3), (2, 21), (3, 9), (4, 299), (5, 0), (5, 5)] {
        SOUND.refused_with(&[(place, word), (6, 0), (10, 0)], (2, place as u64));
        SOUND.refused_with(&[(place, word), (6, 2001)], (2, place as u64));
        SOUND.refused_with(&[(place, word), (10, 2001)], (2, place as u64));
    }
    for (place, word) in [(7, 17), (7, -1), (8, 0), (8, 33), (9, -1), (9, 513)] {
        SOUND.refused_with(&[(6, 0), (place, word)], (2, 6));
        SOUND.refused_with(&[(place, word), (10, 0)], (2, place as u64));
        SOUND.refused_with(&[(place, word), (10, 2001), (11, 1)], (2, place as u64));
    }
    SOUND.refused_with(&[(6, 2001), (11, 1)], (2, 6));
    SOUND.refused_with(&[(10, 0), (11, 1)], (2, 10));
    SOUND.refused_with(&[(10, 2001), (11, -1)], (2, 10));
}

/// Word 11 is 0 with kind 4, too.
#[test]
fn word_11_stays_0() {
    let faults: [i32; 6] = [1, -1, 120, 2000, i32::MIN, i32::MAX];
    SOUND.refused_at_each(2, &[(11, &faults)]);
}

/// 1 comes before, and everything of a higher number after.
#[test]
fn a_span_at_fault_beside_other_refusals() {
    for place in [6, 10] {
        for edition in [0, 5, 6, -2, 258] {
            SOUND.refused_with(&[(0, edition), (place, 0)], (1, 0));
        }
        let others = [(2, 3), (12, 5001), (13, -8), (24, 23_284), (26, 3), (36, 1)];
        for other in others {
            SOUND.refused_with(&[(place, 0), other], (2, place as u64));
            SOUND.refused_with(&[(place, 2001), other], (2, place as u64));
        }
        let spoiled = bytes_of(&changed(&WORDS, &[(place, 2001)]));
        refused(&spoiled, 0, (2, place as u64), "no patch buffer");
        refused(&spoiled[..44], 2, (1, 0), "eleven words");
        refused(&spoiled[..48], 2, (2, place as u64), "the header alone");
        refused(&spoiled[..159], 2, (1, 0), "uneven");
    }
}

/// As edition 1 or 4 the job has a kind that is none there.
#[test]
fn word_0_chooses_the_kinds() {
    for edition in [1, 4] {
        SOUND.refused_with(&[(0, edition)], (2, 5));
        SOUND.refused_with(&[(0, edition), (6, 0)], (2, 5));
        SOUND.refused_with(&[(0, edition), (6, 2001), (10, 0)], (2, 5));
        SOUND.refused_with(&[(0, edition), (4, 299)], (2, 4));
    }
}

/// The kind does not move the sections: 12 + 4 + 7 + 3E + 4R + 3C words are due.
#[test]
fn later_refusals_stay_in_their_places() {
    SOUND.has_a_header_of(12);
    SOUND.refused_with_a_word_more_or_fewer(40);
    SOUND.refused_with(&[(7, 2)], (3, 43));
    let table = [
        (&[][..], (9, 2)),
        (&[(7, 0)], (3, 37)),
        (&[(15, 5001)], (4, 15)),
        (&[(22, -1001)], (4, 22)),
        (&[(15, 6)], (5, 14)),
        (&[(24, 23_284)], (6, 23)),
        (&[(25, 0)], (6, 25)),
        (&[(26, 0)], (6, 26)),
        (&[(39, 3)], (6, 39)),
        (&[(39, 2)], (7, 30)),
        (&[(36, 2)], (8, 26)),
    ];
    SOUND.refused_without_a_patch_buffer(&table);
}
