//! Spells a table of factors as records: effects in any order, tails shared or not,
//! factors of 0 named or not, records on no chain, and numbers in any order.

use crate::form::agree::factor;
use crate::generator::edition_1::sound_factor;
use crate::job::{Job, Record, Row};
use crate::rng::Rng;

/// By row, the factor of each effect, 0 where it is absent.
pub(super) type Table = Vec<Vec<i64>>;

/// A row's effects, counted from 1, with their factors, in the order of its chain.
type Chain = Vec<(usize, i64)>;

const MOST_RECORDS: usize = 512;

/// Another spelling of an accepted job: the same factors, by other records. It has at
/// most R times E records on chains, so it always fits.
pub fn respelled(rng: &mut Rng, job: &Job) -> Job {
    spelled(rng, job, &table_of(job))
}

pub(super) fn table_of(job: &Job) -> Table {
    let of_row = |row: &Row| {
        let effects = 1..=job.effects.len();
        effects.map(|effect| factor(job, row, effect)).collect()
    };
    job.rows.iter().map(of_row).collect()
}

/// The job with a spelling of this table.
pub(super) fn spelled(rng: &mut Rng, job: &Job, table: &Table) -> Job {
    let mut chains = chains(rng, table);
    order(rng, &mut chains, job.effects.len());
    let shares = rng.one_in(2);
    let mut records = vec![];
    let mut rows = job.rows.clone();
    for (row, chain) in rows.iter_mut().zip(&chains) {
        row.first = put(&mut records, chain, shares);
    }
    add_unused(rng, &mut records, job.effects.len());
    renumber(rng, &mut rows, &mut records);
    Job {
        rows,
        records,
        ..job.clone()
    }
}

/// A chain for each row, rising by effect, with none of the factors of 0, some or all.
fn chains(rng: &mut Rng, table: &Table) -> Vec<Chain> {
    let zeros = rng.below(3);
    let mut named = |factor: i64| match zeros {
        _ if factor != 0 => true,
        0 => false,
        1 => rng.one_in(3),
        _ => true,
    };
    let mut chain = |factors: &Vec<i64>| -> Chain {
        let numbered = (1..).zip(factors.iter().copied());
        numbered.filter(|&(_, factor)| named(factor)).collect()
    };
    table.iter().map(&mut chain).collect()
}

/// Leaves the chains rising, or makes them falling, all of one order, each of its own, or
/// with those last that the most rows have.
fn order(rng: &mut Rng, chains: &mut [Chain], effects: usize) {
    let mut of_all: Vec<usize> = (0..=effects).collect();
    rng.shuffle(&mut of_all);
    let before = chains.to_vec();
    let rows_with = |part: &(usize, i64)| before.iter().filter(|row| row.contains(part)).count();
    let which = rng.below(5);
    for chain in chains {
        match which {
            0 => {}
            1 => chain.reverse(),
            2 => chain.sort_by_key(|&(effect, _)| of_all[effect]),
            3 => rng.shuffle(chain),
            _ => chain.sort_by_key(rows_with),
        }
    }
}

/// Puts a chain's records behind the others, or shares those that are there already; the
/// number of its first, 0 where it is empty.
fn put(records: &mut Vec<Record>, chain: &Chain, shares: bool) -> usize {
    chain.iter().rev().fold(0, |next, &(effect, factor)| {
        let record = Record::new(effect, factor, next);
        let there = records.iter().position(|other| shares && *other == record);
        let at = there.unwrap_or_else(|| {
            records.push(record);
            records.len() - 1
        });
        at + 1
    })
}

/// Adds records on no chain, leading anywhere, as far as there is room for them; none
/// where there are no effects to name.
fn add_unused(rng: &mut Rng, records: &mut Vec<Record>, effects: usize) {
    let room = MOST_RECORDS - records.len();
    let few = rng.between(1, 8) as usize;
    let count = rng.pick(&[0, 0, 1, few, few, room]).min(room);
    if effects == 0 {
        return;
    }
    let after = records.len() + count;
    for _ in 0..count {
        let effect = rng.index(effects) + 1;
        let next = rng.index(after + 1);
        records.push(Record::new(effect, sound_factor(rng), next));
    }
}

/// Leaves the numbers, turns them about or mixes them.
fn renumber(rng: &mut Rng, rows: &mut [Row], records: &mut Vec<Record>) {
    // The number that each record gets; 0 ends a chain, as before.
    let mut numbers: Vec<usize> = (0..=records.len()).collect();
    match rng.below(4) {
        0 => {}
        1 => numbers[1..].reverse(),
        _ => rng.shuffle(&mut numbers[1..]),
    }
    let mut numbered = records.clone();
    for (at, record) in records.iter().enumerate() {
        numbered[numbers[at + 1] - 1] = Record {
            next: numbers[record.next],
            ..*record
        };
    }
    *records = numbered;
    for row in rows {
        row.first = numbers[row.first];
    }
}
