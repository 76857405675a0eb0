//! 02 "Records walked": jobs whose chains are counted by hand, each of the chosen ones
//! among them.

mod common;

use common::streams::answer_to;
use common::{account, small_farm_job, stored_account, two_lane_job};
use second::arch_job::arch_job;
use second::chosen::records_walked::*;
use second::deck_job::deck_job;
use second::edition::Edition;
use second::farm_job::farm_job;
use second::generator::Case;
use second::job::{Job, LIVE_NONE, LIVE_OVERLOAD, MAY_BE_LEFT_OUT, SERVICE, ULTIMATE};
use second::job_a::job_a;
use second::motorway_job::motorway_job;
use second::Account;

#[track_caller]
fn walked(job: &Job, due: i64) {
    assert_eq!(account(job).records_walked, due);
}

/// Job A has a record for each row. The two spans' and the motorway deck's rows have two
/// each. The arch's rows have records 1, 2 and 3, then 4, 5, 6 and 3, then 1, 2 and 3.
#[test]
fn the_examples() {
    walked(&job_a(), 2);
    walked(&deck_job(), 4);
    walked(&motorway_job(), 4);
    walked(&arch_job(), 3 + 4 + 3);
    walked(&farm_job(), 0);
}

/// Rows 1 and 2 have records 1 and 2, row 3 has 3 and these, row 4 has 4; 5 is on no
/// chain.
const OF_TWO_LANES: i64 = 2 + 2 + 3 + 1;

#[test]
fn a_tail_counts_for_each_row_that_has_it() {
    walked(&two_lane_job(), OF_TWO_LANES);
}

/// A record more, on the chain that three rows share, counts three times; one on no
/// chain does not count, wherever it leads.
#[test]
fn a_record_more() {
    let mut job = two_lane_job();
    job.records[1].next = 4;
    walked(&job, OF_TWO_LANES + 3);
    for next in 0..=6 {
        let mut job = two_lane_job();
        let mut record = job.records[0];
        record.next = next;
        job.records.push(record);
        walked(&job, OF_TWO_LANES);
    }
}

/// A row more has its whole chain.
#[test]
fn a_row_more() {
    for (first, length) in [(0, 0), (1, 2), (2, 1), (3, 3), (4, 1)] {
        for state in [SERVICE, ULTIMATE] {
            let mut job = two_lane_job();
            let mut row = job.rows[0];
            (row.state, row.first) = (state, first);
            job.rows.push(row);
            walked(&job, OF_TWO_LANES + length);
        }
    }
}

/// A change of a job that leaves its chains alone.
type Change = fn(&mut Job);

const CHANGES: [(&str, Change); 8] = [
    ("factors of 0", |job| {
        job.records.iter_mut().for_each(|record| record.factor = 0)
    }),
    ("effects of 0", |job| {
        job.effects.iter_mut().for_each(|effect| effect.value = 0)
    }),
    ("effects that may be left out", |job| {
        let effects = job.effects.iter_mut();
        effects.for_each(|effect| effect.mark = MAY_BE_LEFT_OUT)
    }),
    ("effects below 0 that may be", |job| {
        for effect in &mut job.effects {
            (effect.value, effect.mark) = (-1_000_000_000, MAY_BE_LEFT_OUT);
        }
    }),
    ("no traffic", |job| {
        for row in &mut job.rows {
            (row.live_kind, row.live_factor) = (LIVE_NONE, 0);
        }
    }),
    ("traffic of factor 0", |job| {
        for row in &mut job.rows {
            (row.live_kind, row.live_factor) = (LIVE_OVERLOAD, 0);
        }
    }),
    ("service alone", |job| {
        job.rows.iter_mut().for_each(|row| row.state = SERVICE)
    }),
    ("ultimate alone", |job| {
        job.rows.iter_mut().for_each(|row| row.state = ULTIMATE)
    }),
];

#[test]
fn nothing_but_the_chains_matters() {
    for (what, change) in CHANGES {
        let mut job = two_lane_job();
        change(&mut job);
        assert_eq!(account(&job).records_walked, OF_TWO_LANES, "{what}");
    }
}

/// A table chosen, C and the lengths of its rows' chains added up.
type Chosen = (fn() -> Table, usize, i64);

const CHOSEN: [Chosen; 28] = [
    (own_records, 512, 32 * 16),
    (one_chain_of_all, 16, 32 * 16),
    (tail_of_every_length, 16, 136), // 16 + 15 and so on to 1
    (every_tail_twice, 16, 2 * 136),
    (branches, 9, 5 + 4 + 3 + 2 + 6 + 1 + 4),
    (no_effects, 0, 0),
    (one_row_without_effects, 0, 0),
    (all_rows_empty, 512, 0),
    (one_row_empty, 1, 0),
    (unused_beside, 7, 2),
    (as_many_as_there_are, 4, 2 + 2),
    (one_short_of_the_most, 4, 2 + 1),
    (service_alone, 5, 5 + 3),
    (ultimate_alone, 5, 5 + 3),
    (longer_in_service, 6, 6 + 2),
    (longer_in_ultimate, 7, 1 + 7),
    (one_row_without_traffic, 4, 4 + 2 + 1),
    (falling_next, 16, 16 + 8 + 1),
    // The order is 1, 8, 15, 6, 13, 4, 11, 2, 9, 16, 7, 14, 5, 12, 3, 10.
    (jumping_next, 16, 16 + 12 + 1 + 9),
    (far_apart, 512, 5 + 1 + 3),
    (factors_of_zero, 9, 4 + 5 + 1),
    (effects_of_zero, 3, 3),
    (equal_rows, 3, 4 * 3),
    (longest_first, 8, 8 + 1),
    (longest_last, 8, 1 + 8),
    (longest_in_the_middle, 8, 8 + 1),
    (one_of_each, 1, 1),
    (two_full_rows, 6, 2 * 3),
];

/// A table that is stored in an edition has so many records, and so many are walked.
#[track_caller]
fn stored_table(edition: Edition, table: Table, (records, walked): (usize, i64)) {
    assert_eq!(table.records.len(), records);
    let account = stored_account(&table_job(edition, table), cases());
    assert_eq!(account.records_walked, walked);
}

#[test]
fn the_chosen_tables() {
    for edition in EDITIONS {
        for (table, records, walked) in CHOSEN {
            stored_table(edition, table(), (records, walked));
        }
        for count in WALKS {
            stored_table(edition, walk_of(count), (16, count as i64));
        }
    }
    let accepted = cases().filter(|case| answer_to(case).refusal == 0);
    let tables = EDITIONS.len() * (CHOSEN.len() + WALKS.len());
    assert_eq!(accepted.count(), tables + farm_jobs().len());
}

/// Built-in rows have no records, whatever their effects come to.
#[test]
fn farm_jobs_have_none() {
    for job in farm_jobs() {
        assert_eq!(stored_account(&job, cases()).records_walked, 0);
    }
    walked(&small_farm_job([1000; 11]), 0);
    walked(&small_farm_job([0; 11]), 0);
}

/// The refused cases, edition by edition. The rows follow the header, 6 ordinates of the
/// line, 7 transverse ones, of a second carriageway 8 more, and sixteen effects of two
/// words, or of three; sixteen rows further is the last row.
#[test]
fn the_chosen_refusals() {
    let mut refused = cases().filter(|case| answer_to(case).refusal != 0);
    for rows in [
        10 + 6 + 7 + 16 * 2,
        12 + 6 + 7 + 16 * 3,
        13 + 6 + 7 + 8 + 16 * 3,
    ] {
        for due in [
            (9, 3),
            (9, 3),
            (7, rows),
            (7, rows + 64),
            (8, rows),
            (8, rows + 64),
        ] {
            refused_without_a_walk(&refused.next().expect("a case"), due);
        }
    }
    assert_eq!(refused.next(), None);
}

#[track_caller]
fn refused_without_a_walk(case: &Case, due: (u64, u64)) {
    let answer = answer_to(case);
    assert_eq!((answer.refusal, answer.place), due);
    assert_eq!(answer.account, Account::default());
}
