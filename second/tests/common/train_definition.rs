//! What 02 "Rating trucks" makes due for a train's call, by trying every stand
//! on k-ths of a piece for the values of k asked for. Of the crate only the
//! shape of a call is used.

use second::train::TrainCase;

/// What is due: the call's result, and for an accepted train the greatest and
/// the least effect.
#[derive(Debug, Clone, Copy, PartialEq, Eq)]
pub enum Due {
    Refused(u64),
    Values { greatest: i64, least: i64 },
}

/// Every value of k divides this.
const TWELFTHS: i64 = 12;

pub fn due(case: &TrainCase, ks: &[i64]) -> Due {
    match refusal(case) {
        Some((number, place)) => Due::Refused(256 * place + number),
        None => {
            let (mut greatest, mut least) = (i64::MIN, i64::MAX);
            for_every_stand(case, ks, |_, effects| {
                greatest = greatest.max(effects[0]);
                least = least.min(effects[1]);
            });
            assert_eq!((greatest % TWELFTHS, least % TWELFTHS), (0, 0));
            Due::Values {
                greatest: greatest / TWELFTHS,
                least: least / TWELFTHS,
            }
        }
    }
}

/// A stand: the leftmost axle so many k-ths of a piece from the line's left end.
#[derive(Debug, Clone, Copy, PartialEq, Eq)]
pub struct Stand {
    pub k: i64,
    pub way: i64,
    pub side: i64,
    pub leftmost: i64,
}

/// The stands at stations that give this value: for greatest with `question` 0,
/// for least with 1; as given before turned, then by station, then by side.
pub fn stands_that_give(case: &TrainCase, question: usize, value: i64) -> Vec<Stand> {
    let mut stands = vec![];
    for_every_stand(case, &[1], |stand, effects| {
        if effects[question] == TWELFTHS * value {
            stands.push(stand);
        }
    });
    stands
}

/// Goes through the stands up to two pieces off the line, with the effect for
/// greatest and for least in twelfths of a kN·U.
fn for_every_stand(case: &TrainCase, ks: &[i64], mut visit: impl FnMut(Stand, [i64; 2])) {
    let section: Vec<i64> = words(case).into_iter().map(i64::from).collect();
    let h = case.h as i64;
    let pieces = case.pieces as i64;
    let last = i64::from(case.train[case.train.len() - 1].at);
    for &k in ks {
        for way in [0, 1] {
            for leftmost in -(last / h + 2) * k..=(pieces + 2) * k {
                for side in [0, 1] {
                    let mut effects = [0, 0];
                    for axle in &case.train {
                        let at = i64::from(axle.at);
                        let distance = [at, last - at][way as usize];
                        let place = leftmost + distance / h * k;
                        let part = i64::from(axle.load) * ordinate(&section, place, side, k);
                        if case.mode == 1 || part > 0 {
                            effects[0] += part * TWELFTHS / k;
                        }
                        if case.mode == 1 || part < 0 {
                            effects[1] += part * TWELFTHS / k;
                        }
                    }
                    let stand = Stand {
                        k,
                        way,
                        side,
                        leftmost,
                    };
                    visit(stand, effects);
                }
            }
        }
    }
}

/// The ordinate times k. Seen from the left, a station belongs to the piece
/// before it.
fn ordinate(section: &[i64], place: i64, side: i64, k: i64) -> i64 {
    let piece = [(place - 1).div_euclid(k), place.div_euclid(k)][side as usize];
    if piece < 0 || 2 * piece >= section.len() as i64 {
        return 0;
    }
    let into = place - piece * k;
    let at = 2 * piece as usize;
    section[at] * (k - into) + section[at + 1] * into
}

fn words(case: &TrainCase) -> Vec<i32> {
    let words = case.line.chunks_exact(4);
    words
        .map(|word| i32::from_le_bytes(word.try_into().unwrap()))
        .collect()
}

/// The lowest refusal with its lowest place.
fn refusal(case: &TrainCase) -> Option<(u64, u64)> {
    let most_pieces = match case.h {
        1 => 1000,
        2 => 500,
        5 => 200,
        10 => 100,
        25 => 40,
        50 => 20,
        _ => return Some((2, 0)),
    };
    let pieces_wrong = case.pieces < 1 || case.pieces > most_pieces;
    let mode_wrong = case.mode != 1 && case.mode != 2;
    if pieces_wrong || mode_wrong || case.report.len() < 72 {
        return Some((2, 0));
    }
    if case.line.len() as u64 != 8 * case.pieces {
        return Some((2, 0));
    }

    let mut faults = vec![];
    for (piece, ends) in (0..).zip(words(case).chunks(2)) {
        for (end, &word) in (0..).zip(ends) {
            if !(-5000..=5000).contains(&word) {
                faults.push((4, 2 * piece + end));
            }
        }
        if i64::from(ends[0]) * i64::from(ends[1]) < 0 {
            faults.push((5, 2 * piece));
        }
    }
    if case.train.is_empty() || case.train.len() > 12 {
        faults.push((10, 0));
    }
    let mut before = 0;
    for (number, axle) in (1..).zip(&case.train) {
        let first_off = number == 1 && axle.at > 0;
        let uneven = u64::from(axle.at) % case.h > 0;
        let load_wrong = axle.load < 1 || axle.load > 400;
        if load_wrong || axle.at > 500 || axle.at < before || first_off || uneven {
            faults.push((10, number));
        }
        before = axle.at;
    }
    faults.into_iter().min()
}
