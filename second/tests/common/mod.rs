//! Jobs and trains shared by several tests, what is due for any, and what is
//! asked in every edition.

#![allow(dead_code)] // Each test file uses some of these.

pub mod call;
pub mod chains;
pub mod definition;
pub mod farm_tables;
pub mod one_best;
pub mod overload;
pub mod refusals;
pub mod streams;
pub mod train_definition;

use second::account::{Lane, Traffic};
use second::arrangement::LoadedLane;
use second::edition::Edition;
use second::generator::Case;
use second::job::{
    Effect, Job, Piece, Record, Row, ALWAYS_PRESENT, LIVE_NONE, LIVE_NORMAL, LIVE_OVERLOAD,
    MAY_BE_LEFT_OUT, SERVICE, ULTIMATE,
};
use second::line::section_bytes;
use second::train::{Axle, TrainCase};
use second::{solve, Account};

pub fn pieces(ordinates: &[(i64, i64)]) -> Vec<Piece> {
    ordinates
        .iter()
        .map(|&(left, right)| Piece { left, right })
        .collect()
}

/// A train, as loads and distances, on a line, with a report buffer of five
/// bytes more than a report.
pub fn train_case(h: u64, line: &[(i64, i64)], axles: &[(u32, u32)], mode: u64) -> TrainCase {
    TrainCase {
        h,
        pieces: line.len() as u64,
        line: section_bytes(&pieces(line)),
        train: train(axles),
        mode,
        report: vec![0xC3; 77],
    }
}

pub fn train(axles: &[(u32, u32)]) -> Vec<Axle> {
    axles.iter().map(|&(load, at)| Axle { load, at }).collect()
}

/// The truck line with a truck of three axles.
pub fn truck(mode: u64) -> TrainCase {
    let line: Vec<(i64, i64)> = (0..50)
        .map(|i| {
            let from = if i < 20 { 0 } else { 1000 };
            (from - 20 * i, from - 20 * (i + 1))
        })
        .collect();
    train_case(2, &line, &[(60, 0), (120, 36), (120, 48)], mode)
}

/// Two lanes of 360 cm, a line that lies above 0 and then below, rows that
/// leave effects out, a tie, a shared tail and an unused record in a circle.
/// Its figures are worked out in hand_worked.rs.
pub fn two_lane_job() -> Job {
    let row = |state, live_kind, live_factor, first| Row {
        state,
        live_kind,
        live_factor,
        first,
    };
    let record = |effect, factor, next| Record {
        effect,
        factor,
        next,
    };
    let effect = |value, mark| Effect { value, mark };
    Job {
        edition: Edition::One,
        piece_length: 25,
        spacing: 50,
        width: 720,
        dynamic_kind: 2,
        dynamic_value: 0,
        further_header: vec![],
        pieces: pieces(&[(0, 100), (100, 0), (0, -60), (-60, 0)]),
        transverse: (0..=15).map(|number| 1000 - 100 * number).collect(),
        second_transverse: vec![],
        effects: vec![
            effect(1000, ALWAYS_PRESENT),
            effect(-2000, MAY_BE_LEFT_OUT),
            effect(0, MAY_BE_LEFT_OUT),
            effect(3000, MAY_BE_LEFT_OUT),
        ],
        rows: vec![
            row(SERVICE, LIVE_NORMAL, 1000, 1),
            row(SERVICE, LIVE_NORMAL, 1000, 1),
            row(ULTIMATE, LIVE_OVERLOAD, 1500, 3),
            row(ULTIMATE, LIVE_NONE, 0, 4),
        ],
        records: vec![
            record(1, 1000, 2),
            record(2, 1500, 0),
            record(4, 1200, 1),
            record(3, 1000, 0),
            record(2, 0, 5),
        ],
    }
}

/// One piece of 5 m with both ordinates 8, one service row without chain or
/// traffic, and this carriageway. Raising HN is 7 * 50 * 16 + 1600 * 8 = 18400,
/// HO 5600 + 3200 * 8 = 31200; lowering is 0. The dynamic factor is 1000.
pub fn level_job(width: i64, spacing: i64, transverse: Vec<i64>) -> Job {
    Job {
        edition: Edition::One,
        piece_length: 50,
        spacing,
        width,
        dynamic_kind: 2,
        dynamic_value: 0,
        further_header: vec![],
        pieces: pieces(&[(8, 8)]),
        transverse,
        second_transverse: vec![],
        effects: vec![],
        rows: vec![Row {
            state: SERVICE,
            live_kind: LIVE_NONE,
            live_factor: 0,
            first: 0,
        }],
        records: vec![],
    }
}

/// A job of edition 2 with these spans for greatest and for least, in dm. Over the
/// one centre the ordinate is 1000; of two pieces of 5 m the left one is at 8, the
/// right one at -8, and no stand has both axles on one of them. Raising HN is 7 * 50 *
/// 16 + 1600 * 8 = 18400, HO 5600 + 3200 * 8 = 31200; lowering they are -18400 and
/// -31200. For each thousandth of the dynamic factor normal is 18400 * 1000 * 20 * 3 /
/// 800000 = 1380 N·U either way, overload 31200 * 1000 * 20 * 3 / 800000 = 2340.
pub fn spans_job(greatest: i64, least: i64) -> Job {
    let job = Job {
        edition: Edition::Two,
        further_header: vec![0, 0],
        pieces: pieces(&[(8, 8), (-8, -8)]),
        rows: vec![
            Row::new(SERVICE, LIVE_NORMAL, 1350, 0),
            Row::new(ULTIMATE, LIVE_OVERLOAD, 1500, 0),
        ],
        ..level_job(300, 50, vec![1000; 7])
    };
    job.with_spans(greatest, least)
}

/// A farm bridge without barriers on one piece of 5 m with both ordinates 8, W
/// 300 and all transverse ordinates 1000; the effects in kN·U, DL first. Raising
/// HN is 18400, so normal greatest is 18400 * 1000 * 20 * 1000 * 3 / 800000 =
/// 1380000, times 17/20 = 1173000 N·U; normal least is 0.
pub fn small_farm_job(values: [i64; 11]) -> Job {
    let marked = (0..).zip(values).map(|(at, value)| Effect {
        value,
        mark: if at < 3 {
            ALWAYS_PRESENT
        } else {
            MAY_BE_LEFT_OUT
        },
    });
    Job {
        edition: Edition::Four,
        further_header: vec![1],
        effects: marked.collect(),
        rows: vec![],
        ..level_job(300, 50, vec![1000; 7])
    }
}

/// The account of a job that is accepted.
#[track_caller]
pub fn account(job: &Job) -> Account {
    let answer = solve(&job.bytes(), &mut vec![0; job.pieces.len()]);
    assert_eq!((answer.refusal, answer.place), (0, 0));
    answer.account
}

/// The account of a job that is one of these stored cases.
#[track_caller]
pub fn stored_account(job: &Job, mut cases: impl Iterator<Item = Case>) -> Account {
    let bytes = job.bytes();
    assert!(cases.any(|case| case.job == bytes), "not stored");
    account(job)
}

/// Normal greatest and least, overload greatest and least.
pub fn traffic_values(account: &Account) -> [i64; 4] {
    [
        account.normal_greatest.value,
        account.normal_least.value,
        account.overload_greatest.value,
        account.overload_least.value,
    ]
}

/// What a lane has in place of a factor where it is the HO lane, and where it is
/// unloaded.
pub const HO: i64 = -1;
pub const NO: i64 = 0;

/// The lane's factor, with `HO` and `NO` for one that has none.
#[track_caller]
pub fn marked_factor(lane: &Lane) -> i64 {
    match (lane.entry, lane.factor) {
        (0, 0) => NO,
        (3 | 4, 0) => HO,
        (1 | 2, 1..) => lane.factor,
        shown => panic!("{shown:?}"),
    }
}

/// The lanes of a placement on one carriageway; those of a second are unloaded.
#[track_caller]
pub fn five_lanes(traffic: &Traffic) -> [Lane; 5] {
    let (first, second) = traffic.lanes.split_at(5);
    assert_eq!(second, [Lane::default(); 5]);
    first.try_into().expect("five lanes")
}

/// The element with this factor, as in an additional lane.
pub fn with_factor(element: &LoadedLane, factor: i64) -> LoadedLane {
    LoadedLane {
        factor,
        ..element.clone()
    }
}
