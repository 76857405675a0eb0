//! Makes damaged cases: a sound one with faults, each meant for a refusal.

use super::sound::sound_case;
use crate::edition::Edition;
use crate::generator::draws::{first_last_or_any, outside};
use crate::generator::line::{give_a_piece_two_signs, LONGEST_LINE};
use crate::rng::Rng;
use crate::train::{Axle, TrainCase, REPORT_BYTES};
use crate::words::{bytes_of, words_of};

/// What is wrong with a case.
#[derive(Debug, Clone, Copy, PartialEq, Eq)]
pub enum Fault {
    PieceLength,
    Pieces,
    Section,
    Mode,
    Report,
    Ordinate,
    TwoSigns,
    AxleCount,
    Load,
    /// A distance past its limit.
    Distance,
    /// The first axle not at 0, or a distance below the one before.
    Order,
    /// A distance that h does not divide.
    Multiple,
}

impl Fault {
    pub const ALL: [Fault; 12] = [
        Fault::PieceLength,
        Fault::Pieces,
        Fault::Section,
        Fault::Mode,
        Fault::Report,
        Fault::Ordinate,
        Fault::TwoSigns,
        Fault::AxleCount,
        Fault::Load,
        Fault::Distance,
        Fault::Order,
        Fault::Multiple,
    ];

    /// The refusal it is meant for.
    pub fn refusal(self) -> u64 {
        match self {
            Fault::PieceLength | Fault::Pieces | Fault::Section | Fault::Mode | Fault::Report => 2,
            Fault::Ordinate => 4,
            Fault::TwoSigns => 5,
            Fault::AxleCount | Fault::Load | Fault::Distance | Fault::Order | Fault::Multiple => 10,
        }
    }
}

/// A sound case with one to three faults. With several faults one may hide
/// another; the lowest refusal counts anyway.
pub(super) fn damaged_case(rng: &mut Rng) -> TrainCase {
    let count = rng.pick(&[1, 1, 1, 2, 2, 3]);
    let mut faults = Fault::ALL.to_vec();
    // Refusal 2 has the most faults and comes before the others.
    if rng.one_in(2) {
        faults.retain(|fault| fault.refusal() != 2);
    }
    rng.shuffle(&mut faults);
    damaged(rng, &faults[..count])
}

/// A sound case with these faults.
pub fn damaged(rng: &mut Rng, faults: &[Fault]) -> TrainCase {
    let mut case = sound_case(rng);
    // Every distance is a multiple of 1.
    while case.h == 1 && faults.contains(&Fault::Multiple) {
        case = sound_case(rng);
    }
    // Those of the train first, so that each finds a train.
    for &fault in faults {
        match fault {
            Fault::Load => spoil_a_load(rng, &mut case),
            Fault::Distance => spoil_a_distance(rng, &mut case),
            Fault::Order => spoil_the_order(rng, &mut case),
            Fault::Multiple => spoil_a_multiple(rng, &mut case),
            _ => {}
        }
    }
    // The other refusals' from the last to the first, so that none is undone.
    if faults.contains(&Fault::AxleCount) {
        spoil_the_axle_count(rng, &mut case.train);
    }
    let mut words = words_of(&case.line);
    if faults.contains(&Fault::TwoSigns) {
        for _ in 0..once_or_twice(rng) {
            give_a_piece_two_signs(rng, &mut words, Edition::One.most_in_line());
        }
    }
    if faults.contains(&Fault::Ordinate) {
        for _ in 0..once_or_twice(rng) {
            spoil_an_ordinate(rng, &mut words);
        }
    }
    case.line = bytes_of(&words);
    if faults.contains(&Fault::Section) {
        spoil_the_section(rng, &mut case.line);
    }
    if faults.contains(&Fault::Pieces) {
        spoil_the_pieces(rng, &mut case);
    }
    if faults.contains(&Fault::PieceLength) {
        let near = rng.pick(&[0, 3, 4, 6, 9, 11, 24, 26, 49, 51, 100, 1000]);
        let far = any_far(rng, case.h);
        case.h = rng.pick(&[0, near, near, far]);
    }
    if faults.contains(&Fault::Mode) {
        let far = any_far(rng, case.mode);
        case.mode = rng.pick(&[0, 3, 4, far]);
    }
    if faults.contains(&Fault::Report) {
        let shorter = rng.index(REPORT_BYTES);
        case.report
            .truncate(rng.pick(&[0, REPORT_BYTES - 1, shorter, shorter, shorter, shorter]));
    }
    case
}

fn once_or_twice(rng: &mut Rng) -> u64 {
    rng.pick(&[1, 1, 2])
}

/// 65541 is 5 in its low 16 bits, 70536 is 5000, -65531 is 5.
fn spoil_an_ordinate(rng: &mut Rng, line: &mut [i32]) {
    let place = first_last_or_any(rng, line.len());
    let far = outside(rng, -5000, 5000);
    line[place] = rng.pick(&[far, far, 65541, 70536, -65531]);
}

/// Bytes too few or too many.
fn spoil_the_section(rng: &mut Rng, line: &mut Vec<u8>) {
    let length = line.len();
    let any = rng.index(2 * length);
    let lengths = [
        0,
        length - 1,
        length + 1,
        length - 4,
        length + 4,
        length - 8,
        length + 8,
        length / 2,
        2 * length,
        if any == length { 0 } else { any },
    ];
    line.resize(rng.pick(&lengths), 0);
}

/// A large number, often one that has a lawful one in its low bits.
fn any_far(rng: &mut Rng, lawful: u64) -> u64 {
    let any = rng.number() | 1 << 40;
    rng.pick(&[
        (1 << 8) + lawful,
        (1 << 16) + lawful,
        (1 << 32) + lawful,
        (1 << 63) + lawful,
        u64::MAX,
        any,
    ])
}

/// N outside its limits, or too many for h, with a section of as many pieces
/// where there can be one; or so large that N times h, or the section's bytes,
/// come out lawful in 64 bits.
fn spoil_the_pieces(rng: &mut Rng, case: &mut TrainCase) {
    let most = LONGEST_LINE as u64 / case.h;
    match rng.below(3) {
        0 => {
            let wrapping = (u64::MAX / case.h).wrapping_add(1).max(1 << 61);
            case.pieces = rng.pick(&[
                (1 << 61) + case.pieces,
                (1 << 62) + case.pieces,
                (1 << 63) + case.pieces,
                (1 << 32) + case.pieces,
                wrapping,
                u64::MAX,
            ]);
        }
        _ => {
            case.pieces = rng.pick(&[0, 1001, most + 1, most + 1, 1000 + most]);
            case.line.resize(8 * case.pieces as usize, 0);
        }
    }
}

fn spoil_the_axle_count(rng: &mut Rng, train: &mut Vec<Axle>) {
    let any = rng.between(14, 300) as usize;
    let last = train[train.len() - 1];
    let count = rng.pick(&[0, 0, 13, 13, 256, 500, any]);
    train.resize(count, last);
}

fn spoil_a_load(rng: &mut Rng, case: &mut TrainCase) {
    let at = first_last_or_any(rng, case.train.len());
    let lawful = case.train[at].load;
    let any = rng.between(401, u32::MAX.into()) as u32;
    case.train[at].load = rng.pick(&[0, 0, 401, 401, u32::MAX, 65536 + lawful, 1 << 31, any]);
}

/// Next to the limit, the next multiple of h, or far.
fn spoil_a_distance(rng: &mut Rng, case: &mut TrainCase) {
    let at = first_last_or_any(rng, case.train.len());
    let (lawful, h) = (case.train[at].at, case.h as u32);
    let any = rng.between(501, u32::MAX.into()) as u32;
    case.train[at].at = rng.pick(&[
        501,
        500 + h,
        500 + h,
        u32::MAX,
        u32::MAX / h * h,
        (1 << 16) * h + lawful,
        any,
    ]);
}

fn spoil_the_order(rng: &mut Rng, case: &mut TrainCase) {
    let h = case.h as u32;
    let train = &mut case.train;
    if train.len() < 3 || rng.one_in(4) {
        train[0].at = rng.pick(&[h, 2 * h, 500]);
        // Often the others after it.
        if rng.one_in(2) {
            for axle in 1..train.len() {
                train[axle].at = train[axle].at.max(train[0].at);
            }
        }
        return;
    }
    // The first distance is 0, so the second cannot be below it.
    let at = 2 + first_last_or_any(rng, train.len() - 2);
    let before = &mut train[at - 1].at;
    *before = (*before).max(h);
    let before = *before;
    train[at].at = rng.pick(&[before - h, before - h, 0]);
}

fn spoil_a_multiple(rng: &mut Rng, case: &mut TrainCase) {
    let over = rng.between(1, case.h as i64 - 1) as u32;
    let at = first_last_or_any(rng, case.train.len());
    let distance = &mut case.train[at].at;
    *distance = match *distance {
        500 => 500 - over,
        // At fault already.
        past if past > 500 => past,
        lawful => lawful + over,
    };
}
