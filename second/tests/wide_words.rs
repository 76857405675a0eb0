//! The wide words and what is put at the ordinates of Job A and of its line. The
//! places are counted by hand: Job A's pieces have the words from 10 on, the
//! middle one those from 30, the last those from 48; its 19 transverse ordinates
//! have 50 to 68, the middle one 59.

mod common;

use common::{traffic_values, train_case};
use second::arch_job::arch_job;
use second::farm_job::farm_job;
use second::job_a::job_a;
use second::motorway_job::motorway_job;
use second::solve;
use second::train::{rate, TrainCase};
use second::wide_words::{wide_words, Fault, Ordinates};
use second::words::{bytes_of, changed, words_of, Change};

const IN_LINE: [usize; 6] = [10, 11, 30, 31, 48, 49];
const ACROSS: [usize; 3] = [50, 59, 68];

fn ordinates() -> Ordinates {
    Ordinates::of_job(&job_a().words())
}

/// Job A with words changed: the refusal, the place and the four traffic values.
fn answer(changes: &[Change]) -> (u64, u64, [i64; 4]) {
    let job = changed(&job_a().words(), changes);
    let answer = solve(&bytes_of(&job), &mut [0; 20]);
    let values = traffic_values(&answer.account);
    (answer.refusal, answer.place, values)
}

/// An axle on Job A's line with words changed.
fn train_with(changes: &[Change]) -> TrainCase {
    let pieces = job_a().pieces;
    let line: Vec<_> = pieces.iter().map(|at| (at.left, at.right)).collect();
    let mut case = train_case(10, &line, &[(400, 0)], 1);
    case.line = bytes_of(&changed(&words_of(&case.line), changes));
    case
}

/// Seven lawful words, six steps from each, and one more step within 32 bits; of
/// the ends the four of signed 16 bits are no such sums.
#[test]
fn the_wide_words() {
    let named = [65541, -65531, -2147483643, 2147483643, 65535, 65536];
    let ends = [32767, 32768, -32768, -32769, i32::MIN, i32::MAX];
    for (most, at_limits) in [
        (5000, [70536, 60536, -60536, -70536]),
        (1000, [66536, 64536, -64536, -66536]),
    ] {
        let words = wide_words(most);
        assert_eq!(words.len(), 7 * 6 + 7 + 4);
        for word in named.into_iter().chain(ends).chain(at_limits) {
            assert!(words.contains(&word), "{word}");
        }
        for word in words {
            assert!(word < -most || word > most, "{word}");
            let lawful = (-most..=most).contains(&i32::from(word as i16));
            assert_eq!(lawful, ![32767, 32768, -32768, -32769].contains(&word));
        }
    }
}

#[test]
fn each_word_is_put_at_each_kind_of_place() {
    let faults = ordinates().faults();
    let in_line = IN_LINE.map(|place| (place, 5000));
    let across = ACROSS.map(|place| (place, 1000));
    for (place, most) in in_line.into_iter().chain(across) {
        for word in [65541, -65531, -2147483643, most + 1, -most - 1, i32::MIN] {
            let alone = |changes: &[Change]| changes == [(place, word)];
            assert!(faults.iter().any(|fault| alone(&fault.changes)));
        }
    }
    // 53 wide words and two next to the limits at nine places; one at each of 59;
    // three for each two of the nine; the wide words beside 5 and -5 at six; four
    // for each of three pieces with each of seven other places.
    assert_eq!(faults.len(), 55 * 9 + 59 + 3 * 36 + 53 * 2 * 6 + 4 * 3 * 7);
}

#[test]
fn each_fault_is_refused_with_4_at_its_place() {
    for fault in ordinates().faults() {
        let due = (4, fault.place as u64, [0; 4]);
        assert_eq!(answer(&fault.changes), due, "{fault:?}");
    }
    for fault in Ordinates::of_section(20).faults() {
        let answer = rate(&train_with(&fault.changes));
        let due = (4, fault.place as u64);
        assert_eq!((answer.refusal, answer.place), due, "{fault:?}");
    }
}

/// The same for the example farm job, whose line has the words from 11 on and
/// whose nine transverse ordinates 31 to 39; for the arch job, with its line
/// from 12 on and its nineteen transverse ordinates at 52 to 70; and for the motorway
/// job, with its line from 13 on, its first carriageway's ordinates at 41 to 69 and
/// its second's at 70 to 89.
#[test]
fn each_fault_of_another_edition_is_refused_with_4_at_its_place() {
    hold_faults_and_extremes(&farm_job().words(), 11, 39);
    hold_faults_and_extremes(&arch_job().words(), 12, 70);
    hold_faults_and_extremes(&motorway_job().words(), 13, 89);
}

/// With two carriageways an ordinate of the line is wide past 500, and the last of the
/// first carriageway is a lower place than the first of the second.
#[test]
fn the_faults_of_two_carriageways() {
    let faults = Ordinates::of_job(&motorway_job().words()).faults();
    let has = |place: usize, changes: &[Change]| {
        let found = |fault: &Fault| fault.place == place && fault.changes == changes;
        faults.iter().any(found)
    };
    for (place, word) in [
        (13, 501),
        (40, -501),
        (41, 1001),
        (69, 1001),
        (70, -1001),
        (89, 1001),
    ] {
        assert!(has(place, &[(place, word)]), "{place}");
    }
    assert!(has(69, &[(69, 1001), (70, 65541)]));
    assert!(has(40, &[(40, 501), (89, 65541)]));
}

#[track_caller]
fn hold_faults_and_extremes(words: &[i32], first: usize, last: usize) {
    let ordinates = Ordinates::of_job(words);
    let faults = ordinates.faults();
    assert_eq!(faults.iter().map(|fault| fault.place).min(), Some(first));
    assert_eq!(faults.iter().map(|fault| fault.place).max(), Some(last));
    let answer = |changes: &[Change]| {
        let answer = solve(&bytes_of(&changed(words, changes)), &mut [0; 20]);
        (answer.refusal, answer.place)
    };
    for fault in faults {
        let due = (4, fault.place as u64);
        assert_eq!(answer(&fault.changes), due, "{fault:?}");
    }
    for changes in ordinates.extremes() {
        assert_eq!(answer(&changes), (0, 0), "{changes:?}");
    }
}

#[test]
fn the_extremes_are_accepted() {
    let of_job = ordinates().extremes();
    assert_eq!(of_job.len(), 2 * 9 + 16);
    for changes in of_job {
        let (refusal, place, _) = answer(&changes);
        assert_eq!((refusal, place), (0, 0), "{changes:?}");
    }
    let of_train = Ordinates::of_section(20).extremes();
    assert_eq!(of_train.len(), 2 * 6 + 4);
    for changes in of_train {
        let rating = rate(&train_with(&changes)).rating;
        // One axle, at most 400 times 5000 either way.
        let furthest = rating.greatest.max(-rating.least);
        assert_eq!(furthest, 2_000_000, "{changes:?}");
    }
}

/// Every ordinate at 5000 and 1000. HN: 7 * 10 * 10000 * 20 pieces + 1600 * 10000
/// = 30000000, HO 14000000 + 32000000 = 46000000. Normal: 18 * 2 * 1000 * 1300 *
/// 30000000 * 3 / 800000 = 5265000000. Overload: 20 * 1000 * 1300 * 76000000 * 3 /
/// 800000 = 7410000000. With -5000 they are the least.
///
/// Every piece and every transverse ordinate of another sign than the one before:
/// ten pieces of 10000; the axles are five pieces apart, so that one cancels the
/// other unless it is off the line. HN: 7 * 10 * 10000 * 10 + 1600 * 5000 =
/// 15000000, HO 7000000 + 16000000 = 23000000, and as much below 0. Each lane has
/// centres of 1000 and of -1000: 160 and 200 cm, 560 and 520 cm. Normal: 18 * 2 *
/// 1000 * 1300 * 15000000 * 3 / 800000 = 2632500000, overload 20 * 1000 * 1300 *
/// 38000000 * 3 / 800000 = 3705000000.
#[test]
fn all_at_extremes_by_hand() {
    let extremes = ordinates().extremes();
    let found = |in_line: [i32; 2], across: [i32; 2]| {
        let due = |&(place, word): &Change| match place {
            10..50 => word == in_line[(place - 10) / 2 % 2],
            _ => word == across[(place - 50) % 2],
        };
        let changes = extremes.iter().find(|all| {
            let every_one = all.len() == 59;
            every_one && all.iter().all(due)
        });
        answer(changes.expect("among the extremes")).2
    };
    let up = found([5000, 5000], [1000, 1000]);
    assert_eq!(up, [5265000000, 0, 7410000000, 0]);
    let down = found([-5000, -5000], [1000, 1000]);
    assert_eq!(down, [0, -5265000000, 0, -7410000000]);
    let changing = [2632500000, -2632500000, 3705000000, -3705000000];
    assert_eq!(found([5000, -5000], [1000, -1000]), changing);
    assert_eq!(found([-5000, 5000], [1000, -1000]), changing);
}
