//! Makes the effects, records and rows of a sound job: every row's chain of
//! records ends and names no effect twice.

use crate::job::{
    Effect, Record, Row, ALWAYS_PRESENT, LIVE_NONE, LIVE_NORMAL, LIVE_OVERLOAD, MAY_BE_LEFT_OUT,
    SERVICE, ULTIMATE,
};
use crate::rng::Rng;

pub(super) fn sound_effects(rng: &mut Rng) -> Vec<Effect> {
    let count = match rng.below(6) {
        0 => 0,
        1 => 16,
        _ => rng.between(1, 8),
    };
    (0..count)
        .map(|_| {
            let (small, any) = (
                rng.between(-5, 5),
                rng.between(-1_000_000_000, 1_000_000_000),
            );
            let usual = rng.between(-200_000, 200_000);
            Effect {
                value: rng.pick(&[0, 1_000_000_000, -1_000_000_000, small, any, usual, usual]),
                mark: rng.pick(&[ALWAYS_PRESENT, MAY_BE_LEFT_OUT]),
            }
        })
        .collect()
}

pub(crate) fn sound_factor(rng: &mut Rng) -> i64 {
    let any = rng.between(0, 3000);
    rng.pick(&[0, 1, 1000, 1350, 3000, any, any, any])
}

/// Records whose chains all end and name no effect twice. Each leads to none
/// or to one made before it, so tails are shared; their numbers are shuffled.
pub(super) fn sound_records(rng: &mut Rng, effects: usize) -> Vec<Record> {
    if effects == 0 {
        return vec![];
    }
    let count = match rng.below(8) {
        0 => 0,
        1 => 512,
        2 | 3 => rng.between(1, 60) as usize,
        _ => rng.between(1, 12) as usize,
    };
    let mut numbers: Vec<usize> = (1..=count).collect();
    if rng.one_in(2) {
        rng.shuffle(&mut numbers);
    }
    let none = Record {
        effect: 0,
        factor: 0,
        next: 0,
    };
    let mut records = vec![none; count];
    // The effects named by the chain from each record made so far.
    let mut named: Vec<u32> = vec![];
    for made in 0..count {
        let mut follower = match rng.below(5) {
            _ if made == 0 => None,
            0 => None,
            1 => Some(rng.index(made)),
            _ => Some(made - 1),
        };
        let all_effects = (1_u32 << effects) - 1;
        if follower.is_some_and(|follower| named[follower] == all_effects) {
            follower = None;
        }
        let named_after = follower.map_or(0, |follower| named[follower]);
        let free: Vec<usize> = (1..=effects)
            .filter(|effect| named_after & (1 << (effect - 1)) == 0)
            .collect();
        let effect = rng.pick(&free);
        named.push(named_after | 1 << (effect - 1));
        records[numbers[made] - 1] = Record {
            effect,
            factor: sound_factor(rng),
            next: follower.map_or(0, |follower| numbers[follower]),
        };
    }
    records
}

pub(super) fn sound_rows(rng: &mut Rng, records: usize) -> Vec<Row> {
    let count = match rng.below(6) {
        0 => 1,
        1 => 32,
        _ => rng.between(1, 8),
    };
    let states = rng.pick(&[
        &[SERVICE, ULTIMATE][..],
        &[SERVICE, ULTIMATE],
        &[SERVICE],
        &[ULTIMATE],
    ]);
    let live_kinds = rng.pick(&[
        &[LIVE_NONE, LIVE_NORMAL, LIVE_OVERLOAD][..],
        &[LIVE_NORMAL, LIVE_OVERLOAD],
        &[LIVE_NONE],
        &[LIVE_NORMAL],
        &[LIVE_OVERLOAD],
    ]);
    let with_ties = rng.one_in(3);
    let mut rows: Vec<Row> = vec![];
    for _ in 0..count {
        if with_ties && !rows.is_empty() && rng.one_in(2) {
            let earlier = rows[rng.index(rows.len())];
            rows.push(earlier);
            continue;
        }
        let live_kind = rng.pick(live_kinds);
        rows.push(Row {
            state: rng.pick(states),
            live_kind,
            live_factor: if live_kind == LIVE_NONE {
                0
            } else {
                sound_factor(rng)
            },
            first: if rng.one_in(6) {
                0
            } else {
                rng.index(records + 1)
            },
        });
    }
    rows
}

/// Turns some records on no chain into circles and repetitions, which are
/// legal there.
pub(super) fn scramble_unused(rng: &mut Rng, rows: &[Row], records: &mut [Record], effects: usize) {
    let mut used = vec![false; records.len() + 1];
    for row in rows {
        let mut number = row.first;
        while number != 0 && !used[number] {
            used[number] = true;
            number = records[number - 1].next;
        }
    }
    for number in 1..=records.len() {
        if !used[number] && rng.one_in(2) {
            let any = rng.index(records.len() + 1);
            records[number - 1].next = rng.pick(&[number, any]);
            records[number - 1].effect = rng.index(effects) + 1;
        }
    }
}
