//! Cases of the records walked chosen by hand, in each edition with records: rows that
//! have records of their own, share a chain or a tail or have none; records on no chain;
//! chains of either state, in any order of their records, of factors or effects of 0; the
//! most records and numbers next to where a byte ends. Then jobs refused though some of
//! their chains are sound, and farm jobs, which have no records.

use super::farm::short_farm_job;
use super::{chains_of, most_rows, of_job, places, row_of_its_own};
use crate::edition::Edition;
use crate::farm;
use crate::generator::Case;
use crate::job::{
    Effect, Job, Record, Row, ALWAYS_PRESENT, LIVE_NONE, MAY_BE_LEFT_OUT, SERVICE, ULTIMATE,
};

/// A job's effects, rows and records.
#[derive(Debug, Clone)]
pub struct Table {
    pub effects: Vec<Effect>,
    pub rows: Vec<Row>,
    pub records: Vec<Record>,
}

const TABLES: [fn() -> Table; 28] = [
    own_records,
    one_chain_of_all,
    tail_of_every_length,
    every_tail_twice,
    branches,
    no_effects,
    one_row_without_effects,
    all_rows_empty,
    one_row_empty,
    unused_beside,
    as_many_as_there_are,
    one_short_of_the_most,
    service_alone,
    ultimate_alone,
    longer_in_service,
    longer_in_ultimate,
    one_row_without_traffic,
    falling_next,
    jumping_next,
    far_apart,
    factors_of_zero,
    effects_of_zero,
    equal_rows,
    longest_first,
    longest_last,
    longest_in_the_middle,
    one_of_each,
    two_full_rows,
];

/// Numbers of records walked along one chain of sixteen: each length of one row's, and
/// next to where a number takes a bit more.
pub const WALKS: [usize; 24] = [
    1, 2, 3, 4, 5, 6, 7, 8, 9, 10, 11, 12, 13, 14, 15, 16, 17, 31, 127, 128, 255, 256, 257, 511,
];

/// The editions with records.
pub const EDITIONS: [Edition; 3] = [Edition::One, Edition::Two, Edition::Three];

pub fn cases() -> impl Iterator<Item = Case> {
    let of_edition = |edition| {
        let accepted = jobs(edition).into_iter().map(|job| of_job(&job));
        accepted.chain(refused(edition))
    };
    let with_records = EDITIONS.into_iter().flat_map(of_edition);
    with_records.chain(farm_jobs().into_iter().map(|job| of_job(&job)))
}

/// The accepted jobs of an edition.
fn jobs(edition: Edition) -> Vec<Job> {
    let tables = TABLES.into_iter().map(|table| table());
    tables
        .chain(WALKS.into_iter().map(walk_of))
        .map(|table| table_job(edition, table))
        .collect()
}

/// Three pieces under a lane, or one on each side of a median, with this table.
pub fn table_job(edition: Edition, table: Table) -> Job {
    Job {
        effects: table.effects,
        rows: table.rows,
        records: table.records,
        ..places::short_job(edition)
    }
}

/// Rows of either state with either traffic that begin at these records.
fn table(effects: usize, firsts: &[usize], records: Vec<Record>) -> Table {
    let numbered = firsts.iter().enumerate();
    Table {
        effects: effects_of_both_signs(effects),
        rows: numbered
            .map(|(at, &first)| row_of_its_own(at, first))
            .collect(),
        records,
    }
}

/// The signs change by turns; of each four effects the last two may be left out.
fn effects_of_both_signs(count: usize) -> Vec<Effect> {
    let effect = |at: i64| {
        let sign = 1 - 2 * (at % 2);
        let mark = [ALWAYS_PRESENT, MAY_BE_LEFT_OUT][at as usize / 2 % 2];
        Effect::new(sign * (at + 1) * 1_000_000, mark)
    };
    (0..count as i64).map(effect).collect()
}

/// Records 1 on, as many as there are numbers, in a chain in this order; they name
/// effect 1, 2 and so on.
fn chain_along(order: &[usize]) -> Vec<Record> {
    let mut records = vec![Record::new(1, 0, 0); order.len()];
    for (at, &number) in order.iter().enumerate() {
        let next = order.get(at + 1).copied().unwrap_or(0);
        records[number - 1] = Record::new(at + 1, 1000 + 10 * at as i64, next);
    }
    records
}

/// A chain of so many records, each leading to the one behind it.
fn chain(length: usize) -> Vec<Record> {
    chain_along(&(1..=length).collect::<Vec<_>>())
}

/// Records of effect, factor and next.
fn records(words: &[(usize, i64, usize)]) -> Vec<Record> {
    let words = words.iter();
    words
        .map(|&(effect, factor, next)| Record::new(effect, factor, next))
        .collect()
}

/// 32 rows of sixteen records each: as many as there can be.
pub fn own_records() -> Table {
    Table {
        rows: most_rows(),
        ..table(16, &[], chains_of(16))
    }
}

/// 32 rows with the same sixteen records.
pub fn one_chain_of_all() -> Table {
    table(16, &[1; 32], chain(16))
}

/// Sixteen rows that enter one chain at each of its records.
pub fn tail_of_every_length() -> Table {
    table(16, &(1..=16).collect::<Vec<_>>(), chain(16))
}

/// So it is twice over.
pub fn every_tail_twice() -> Table {
    let once: Vec<usize> = (1..=16).collect();
    table(16, &once.repeat(2), chain(16))
}

/// Records 5 to 9 lead into the chain of the first four at differing records, 9 by way
/// of 5.
pub fn branches() -> Table {
    let branching = records(&[
        (1, 1000, 2),
        (2, 1100, 3),
        (3, 1200, 4),
        (4, 1300, 0),
        (5, 1400, 1),
        (6, 1500, 2),
        (7, 1600, 3),
        (8, 1700, 4),
        (9, 1800, 5),
    ]);
    table(9, &[5, 6, 7, 8, 9, 4, 1, 0], branching)
}

pub fn no_effects() -> Table {
    table(0, &[0; 32], vec![])
}

pub fn one_row_without_effects() -> Table {
    table(0, &[0], vec![])
}

/// 512 records on no chain.
pub fn all_rows_empty() -> Table {
    table(16, &[0; 32], chains_of(16))
}

pub fn one_row_empty() -> Table {
    table(1, &[0], chain(1))
}

/// Beside the row's chain of two: a record that leads into it, two that lead to each
/// other, one that leads to itself and one that leads to those two.
pub fn unused_beside() -> Table {
    let beside = [
        (1, 1000, 2),
        (2, 1000, 0),
        (3, 1000, 1),
        (3, 1000, 5),
        (3, 1000, 4),
        (1, 1000, 6),
        (2, 1000, 4),
    ];
    table(3, &[1], records(&beside))
}

/// Two rows with the same two records of four: as many are walked as there are.
pub fn as_many_as_there_are() -> Table {
    let two_of_four = [(1, 1000, 2), (2, 1000, 0), (2, 1000, 4), (1, 1000, 0)];
    table(2, &[1, 1], records(&two_of_four))
}

/// Two rows of two effects with chains of two records and of one; a fourth on none.
pub fn one_short_of_the_most() -> Table {
    let three_of_four = [(1, 1000, 2), (2, 1000, 0), (2, 1000, 0), (1, 1000, 3)];
    table(2, &[1, 3], records(&three_of_four))
}

/// Chains of five records, of three and of none in one state.
fn in_state(state: i64) -> Table {
    let mut table = table(5, &[1, 3, 0], chain(5));
    for row in &mut table.rows {
        row.state = state;
    }
    table
}

pub fn service_alone() -> Table {
    in_state(SERVICE)
}

pub fn ultimate_alone() -> Table {
    in_state(ULTIMATE)
}

/// Six records in service, two of them in ultimate.
pub fn longer_in_service() -> Table {
    table(6, &[1, 5], chain(6))
}

/// One record in service, the last of seven in ultimate.
pub fn longer_in_ultimate() -> Table {
    table(7, &[7, 1], chain(7))
}

/// Chains of four records, of two and of one, the first without traffic.
pub fn one_row_without_traffic() -> Table {
    let mut table = table(4, &[1, 3, 4], chain(4));
    (table.rows[0].live_kind, table.rows[0].live_factor) = (LIVE_NONE, 0);
    table
}

/// Each record leads to the one before it.
pub fn falling_next() -> Table {
    let order: Vec<usize> = (1..=16).rev().collect();
    table(16, &[16, 8, 1], chain_along(&order))
}

/// Each record leads seven on, or nine back.
pub fn jumping_next() -> Table {
    let order: Vec<usize> = (0..16).map(|at| 7 * at % 16 + 1).collect();
    table(16, &[1, 13, 10, 2], chain_along(&order))
}

/// A chain about both ends and the middle of 512 records, of which the others lead to
/// themselves.
pub fn far_apart() -> Table {
    let mut records: Vec<Record> = (1..=512).map(|at| Record::new(1, 1000, at)).collect();
    let order = [1, 512, 256, 2, 511, 0];
    for (at, ends) in order.windows(2).enumerate() {
        records[ends[0] - 1] = Record::new(at + 1, 1200, ends[1]);
    }
    table(16, &[1, 511, 256], records)
}

/// A chain of four records of factor 0, and one of five with every other.
pub fn factors_of_zero() -> Table {
    let with_zeros = [
        (1, 0, 2),
        (2, 0, 3),
        (3, 0, 4),
        (4, 0, 0),
        (1, 0, 6),
        (2, 1000, 7),
        (3, 0, 8),
        (4, 3000, 9),
        (5, 0, 0),
    ];
    table(5, &[1, 5, 9], records(&with_zeros))
}

/// Three effects of 0, two of which may be left out.
pub fn effects_of_zero() -> Table {
    let marks = [ALWAYS_PRESENT, MAY_BE_LEFT_OUT, MAY_BE_LEFT_OUT];
    Table {
        effects: marks.map(|mark| Effect::new(0, mark)).to_vec(),
        ..table(3, &[1], chain(3))
    }
}

pub fn equal_rows() -> Table {
    let mut table = table(3, &[1], chain(3));
    table.rows = table.rows.repeat(4);
    table
}

pub fn longest_first() -> Table {
    table(8, &[1, 0, 8], chain(8))
}

pub fn longest_last() -> Table {
    table(8, &[8, 0, 1], chain(8))
}

/// The first row and the last have none.
pub fn longest_in_the_middle() -> Table {
    table(8, &[0, 1, 8, 0], chain(8))
}

/// A row, an effect and a record.
pub fn one_of_each() -> Table {
    table(1, &[1], chain(1))
}

/// Two rows of three effects, each with three records of its own.
pub fn two_full_rows() -> Table {
    let full = [
        (1, 1000, 2),
        (2, 1000, 3),
        (3, 1000, 0),
        (3, 1200, 5),
        (2, 1200, 6),
        (1, 1200, 0),
    ];
    table(3, &[1, 4], records(&full))
}

/// So many records walked: rows with all of a chain of sixteen and one, where need be,
/// with the rest.
pub fn walk_of(count: usize) -> Table {
    let mut firsts = vec![1; count / 16];
    if !count.is_multiple_of(16) {
        firsts.push(17 - count % 16);
    }
    table(16, &firsts, chain(16))
}

/// Rows with tails of every length, refused for a patch buffer too short, and for a row
/// before them or behind them whose two further records lead to each other, or name an
/// effect twice.
fn refused(edition: Edition) -> Vec<Case> {
    let tails = || table_job(edition, tail_of_every_length());
    let with_patch_of = |bytes| Case {
        patch: vec![0xA5; bytes],
        ..of_job(&tails())
    };
    let with_row_at_fault = |at: usize, last: (usize, i64, usize)| {
        let mut job = tails();
        job.records.extend(records(&[(1, 1000, 18), last]));
        job.rows.insert(at, row_of_its_own(16, 17));
        of_job(&job)
    };
    let (returning, repeating) = ((2, 1000, 17), (1, 1000, 0));
    vec![
        with_patch_of(0),
        with_patch_of(2),
        with_row_at_fault(0, returning),
        with_row_at_fault(16, returning),
        with_row_at_fault(0, repeating),
        with_row_at_fault(16, repeating),
    ]
}

/// Farm jobs whose effects are all above 0, all below it and all 0.
pub fn farm_jobs() -> [Job; 3] {
    [5_000, -5_000, 0].map(|value| Job {
        effects: farm::effects([value; farm::EFFECTS.len()]),
        ..short_farm_job()
    })
}
