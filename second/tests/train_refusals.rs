//! 02 "Rating trucks": each refusal of a train's call at its places, and their
//! order. The places are counted by hand.

mod common;

use common::{train, train_case};
use second::train::{call, rate, Axle, Rating, TrainCase};

/// Two pieces of 5 dm and three axles.
fn sound() -> TrainCase {
    let axles = [(100, 0), (120, 10), (400, 500)];
    train_case(5, &[(-5, 0), (0, 7)], &axles, 1)
}

/// The sound case with something changed.
fn with(change: impl FnOnce(&mut TrainCase)) -> TrainCase {
    let mut case = sound();
    change(&mut case);
    case
}

/// A line of so many pieces, all 0.
fn zeros(case: &mut TrainCase, pieces: u64) {
    case.pieces = pieces;
    case.line = vec![0; 8 * pieces as usize];
}

fn set_word(case: &mut TrainCase, place: usize, word: i32) {
    case.line[4 * place..4 * place + 4].copy_from_slice(&word.to_le_bytes());
}

fn with_words(changes: &[(usize, i32)]) -> TrainCase {
    with(|case| {
        for &(place, word) in changes {
            set_word(case, place, word);
        }
    })
}

/// Holds a case's refusal and place against the ones expected, with a report of
/// zeros and the bytes past it as before.
#[track_caller]
fn refused(case: &TrainCase, expected: (u64, u64)) {
    let answer = rate(case);
    assert_eq!((answer.refusal, answer.place), expected, "{case:?}");
    assert_eq!(answer.rating, Rating::default());
    let (result, report) = call(case);
    assert_eq!(result, 256 * expected.1 + expected.0);
    assert_eq!(report.len(), case.report.len());
    for (at, (&after, &before)) in report.iter().zip(&case.report).enumerate() {
        assert_eq!(after, if at < 72 { 0 } else { before }, "byte {at}");
    }
}

#[track_caller]
fn accepted(case: &TrainCase) {
    assert_eq!(rate(case).refusal, 0, "{case:?}");
    let (result, report) = call(case);
    assert_eq!(result, 0);
    assert_eq!(report[72..], case.report[72..]);
}

#[test]
fn the_sound_case_is_accepted() {
    accepted(&sound());
}

#[test]
fn refusal_2_for_h() {
    let wrong = [0, 3, 4, 6, 9, 11, 24, 26, 49, 51, 100, 256 + 5, 1 << 32];
    let far = [(1 << 32) + 5, 1 << 63, u64::MAX, u64::MAX - 4];
    for h in wrong.into_iter().chain(far) {
        refused(&with(|case| case.h = h), (2, 0));
    }
}

/// N is from 1 to 1000/h, with a section to match.
#[test]
fn refusal_2_for_the_number_of_pieces() {
    for (h, most) in [(1, 1000), (2, 500), (5, 200), (10, 100), (25, 40), (50, 20)] {
        let case = |pieces| {
            with(|case| {
                case.h = h;
                case.train = train(&[(1, 0), (1, 50)]);
                zeros(case, pieces);
            })
        };
        for pieces in [1, most - 1, most] {
            accepted(&case(pieces));
        }
        for pieces in [0, most + 1, 1001, 2 * most] {
            refused(&case(pieces), (2, 0));
        }
    }
}

/// In 64 bits 8 times N, or N times h, comes out lawful.
#[test]
fn refusal_2_for_a_number_of_pieces_past_64_bits() {
    for pieces in [
        (1 << 61) + 2,
        (1 << 62) + 2,
        (1 << 63) + 2,
        (1 << 32) + 2,
        u64::MAX / 5 + 1,
        u64::MAX,
    ] {
        refused(&with(|case| case.pieces = pieces), (2, 0));
    }
}

#[test]
fn refusal_2_for_the_sections_bytes() {
    for bytes in (0..64).filter(|&bytes| bytes != 16) {
        refused(&with(|case| case.line.resize(bytes, 0)), (2, 0));
    }
    for pieces in [1, 3] {
        refused(&with(|case| case.pieces = pieces), (2, 0));
    }
}

#[test]
fn refusal_2_for_the_mode() {
    for mode in [0, 3, 4, 257, 258, (1 << 32) + 1, 1 << 63, u64::MAX] {
        refused(&with(|case| case.mode = mode), (2, 0));
    }
    for mode in [1, 2] {
        accepted(&with(|case| case.mode = mode));
    }
}

#[test]
fn refusal_2_for_a_short_report() {
    for bytes in 0..72 {
        refused(&with(|case| case.report = vec![0xA5; bytes]), (2, 0));
    }
    for bytes in [72, 73, 80, 1000] {
        accepted(&with(|case| case.report = vec![0xA5; bytes]));
    }
}

#[test]
fn refusal_4_at_each_ordinate() {
    for place in 0..4 {
        for word in [-5001, 5001, 65541, 70536, -65541, i32::MIN, i32::MAX] {
            refused(&with(|case| set_word(case, place, word)), (4, place as u64));
        }
    }
    let both = with(|case| {
        set_word(case, 3, 5001);
        set_word(case, 1, 5001);
    });
    refused(&both, (4, 1));
    for word in [-5000, 5000] {
        accepted(&with(|case| {
            set_word(case, 2, word);
            set_word(case, 3, word);
        }));
    }
}

/// Words that are lawful in their low 16 bits: 5 in the first three, then 0, -5
/// or a limit; and the ends of 16 bits.
#[test]
fn refusal_4_tests_the_whole_word() {
    let lawful_in_16_bits = [65541, -65531, -2147483643, 65536, 65531, 2147483643];
    let limits_in_16_bits = [70536, 60536, -70536, -60536];
    let ends = [32767, 32768, -32768, -32769, 65535, -65535, -65536];
    for place in 0..4 {
        let words = lawful_in_16_bits.into_iter().chain(limits_in_16_bits);
        for word in words.chain(ends) {
            refused(&with_words(&[(place, word)]), (4, place as u64));
        }
    }
}

#[test]
fn refusal_4_of_two_wide_words_gives_the_lower_place() {
    refused(&with_words(&[(0, 65541), (1, 65541)]), (4, 0));
    refused(&with_words(&[(1, -65531), (2, 65541)]), (4, 1));
    refused(&with_words(&[(2, -2147483643), (3, 65541)]), (4, 2));
    // One of the two is outside in its low 16 bits as well.
    refused(&with_words(&[(1, 65541), (3, 5001)]), (4, 1));
    refused(&with_words(&[(1, 5001), (3, 65541)]), (4, 1));
}

/// 65541 and -65531 are 5 in their low 16 bits, 65531 and -65541 are -5.
#[test]
fn refusal_4_of_a_wide_word_comes_before_5() {
    // The other piece crosses zero.
    refused(&with_words(&[(0, -1), (1, 1), (2, 65541)]), (4, 2));
    refused(&with_words(&[(1, 65541), (2, 1), (3, -1)]), (4, 1));
    // The whole word crosses, and its low 16 bits do too.
    refused(&with_words(&[(0, 65541), (1, -5)]), (4, 0));
    refused(&with_words(&[(2, -5), (3, 65541)]), (4, 3));
    // The low 16 bits cross, the whole word doesn't.
    refused(&with_words(&[(0, -65531), (1, -5)]), (4, 0));
    refused(&with_words(&[(2, 5), (3, 65531)]), (4, 3));
    // The whole word crosses, the low 16 bits don't.
    refused(&with_words(&[(0, -65531), (1, 5)]), (4, 0));
    refused(&with_words(&[(2, -5), (3, 65531)]), (4, 3));
    refused(&with_words(&[(2, 65536), (3, -5)]), (4, 2));
}

#[test]
fn refusal_4_and_5_at_the_end_of_the_longest_line() {
    let longest = |place: usize, word: i32| {
        with(|case| {
            case.h = 1;
            zeros(case, 1000);
            set_word(case, 1999, 1);
            set_word(case, place, word);
        })
    };
    refused(&longest(1999, -5001), (4, 1999));
    refused(&longest(1998, 5001), (4, 1998));
    refused(&longest(1998, -1), (5, 1998));
    accepted(&longest(1998, 1));
}

#[test]
fn refusal_5_at_a_pieces_left_ordinate() {
    for (left, right) in [(-1, 1), (1, -1), (5000, -5000), (-5000, 5000)] {
        for piece in 0..2 {
            let crossing = with(|case| {
                set_word(case, 2 * piece, left);
                set_word(case, 2 * piece + 1, right);
            });
            refused(&crossing, (5, 2 * piece as u64));
        }
    }
    // Signs may change between pieces.
    accepted(&with(|case| {
        set_word(case, 1, -5);
        set_word(case, 2, 7);
    }));
}

#[test]
fn refusal_10_at_0_for_the_number_of_axles() {
    let axle = Axle { load: 1, at: 0 };
    for count in [0, 13, 14, 256, 257, 268, 500] {
        refused(&with(|case| case.train = vec![axle; count]), (10, 0));
    }
    for count in 1..=12 {
        accepted(&with(|case| case.train = vec![axle; count]));
    }
    // The number counts before any axle.
    let wrong = Axle { load: 0, at: 501 };
    refused(&with(|case| case.train = vec![wrong; 13]), (10, 0));
}

#[test]
fn refusal_10_at_each_load() {
    for place in 1..=12 {
        for (load, lawful) in [
            (0, false),
            (1, true),
            (400, true),
            (401, false),
            (65536 + 100, false),
            (u32::MAX, false),
        ] {
            let case = with(|case| {
                case.train = train(&[(100, 0); 12]);
                case.train[place - 1].load = load;
            });
            if lawful {
                accepted(&case);
            } else {
                refused(&case, (10, place as u64));
            }
        }
    }
}

#[test]
fn refusal_10_at_each_distance() {
    // Twelve axles at 0, 5, 10 and so on to 55.
    let evenly = || {
        with(|case| {
            case.train = (0..12).map(|n| Axle { load: 1, at: 5 * n }).collect();
        })
    };
    accepted(&evenly());
    for place in 1..=12 {
        let with_at = |at: u32| {
            let mut case = evenly();
            case.train[place - 1].at = at;
            case
        };
        // Past the limit, whether or not h divides it.
        for at in [501, 505, 65535, 65540, u32::MAX] {
            refused(&with_at(at), (10, place as u64));
        }
        // Not a multiple of h; with that the first is not at 0 either.
        for over in [1, 4] {
            refused(&with_at(5 * (place as u32 - 1) + over), (10, place as u64));
        }
        // Below the one before, but for the first two.
        if place > 2 {
            for at in [0, 5 * (place as u32 - 2) - 5] {
                refused(&with_at(at), (10, place as u64));
            }
            accepted(&with_at(5 * (place as u32 - 2)));
        }
    }
    // The last may stand at 500, all may stand at 0.
    let mut case = evenly();
    case.train[11].at = 500;
    accepted(&case);
    accepted(&with(|case| case.train = train(&[(1, 0); 12])));
}

#[test]
fn refusal_10_at_1_where_the_first_is_not_at_0() {
    for at in [5, 10, 500] {
        refused(&with(|case| case.train = train(&[(1, at)])), (10, 1));
        let axles = train(&[(1, at), (1, 500)]);
        refused(&with(|case| case.train = axles), (10, 1));
        let axles = train(&[(1, at), (1, 0)]);
        refused(&with(|case| case.train = axles), (10, 1));
    }
}

/// A distance is a multiple of h, for every h.
#[test]
fn refusal_10_for_a_distance_that_h_does_not_divide() {
    for h in [1, 2, 5, 10, 25, 50] {
        for at in 0..=500 {
            let case = with(|case| {
                case.h = h;
                case.train = train(&[(1, 0), (1, at)]);
            });
            if u64::from(at) % h == 0 {
                accepted(&case);
            } else {
                refused(&case, (10, 2));
            }
        }
    }
}

#[test]
fn refusal_10_gives_the_first_axle_at_fault() {
    let axles = |axles: &[(u32, u32)]| with(|case| case.train = train(axles));
    refused(&axles(&[(1, 0), (401, 5), (0, 5)]), (10, 2));
    refused(&axles(&[(1, 0), (1, 7), (0, 5)]), (10, 2));
    refused(&axles(&[(1, 0), (1, 505), (1, 5)]), (10, 2));
    refused(&axles(&[(1, 0), (1, 10), (1, 5), (1, 3)]), (10, 3));
    refused(&axles(&[(1, 5), (0, 0)]), (10, 1));
    // Only the one before counts: 5 is below 10, 10 is not below 5.
    refused(&axles(&[(1, 0), (1, 10), (1, 5), (1, 10), (1, 5)]), (10, 3));
}

/// A fault for each refusal in rising order, each hiding all those after it.
#[test]
fn the_lowest_refusal_is_given() {
    type Fault = fn(&mut TrainCase);
    let faults: [(Fault, (u64, u64)); 9] = [
        (|case| case.h = 3, (2, 0)),
        (|case| case.pieces = 1, (2, 0)),
        (|case| case.mode = 0, (2, 0)),
        (|case| case.report.truncate(71), (2, 0)),
        (|case| set_word(case, 3, 5001), (4, 3)),
        (|case| set_word(case, 1, 2), (5, 0)),
        (|case| case.train.clear(), (10, 0)),
        (|case| case.train.extend(train(&[(1, 500); 10])), (10, 0)),
        (|case| case.train[1].load = 0, (10, 2)),
    ];
    for (number, (_, expected)) in faults.iter().enumerate() {
        let case = with(|case| {
            // The last first, so that each finds what it changes.
            for (fault, _) in faults[number..].iter().rev() {
                fault(case);
            }
        });
        refused(&case, *expected);
    }
}
