//! The checker takes the records walked as they are due, and no other number of them.

mod common;

use common::call::{refuses_part, Call, Part};
use common::{small_farm_job, two_lane_job};
use second::chosen::records_walked::{one_chain_of_all, table_job, EDITIONS};

const RECORDS_WALKED: Part<i64> = |call| &mut call.answer.account.records_walked;

/// The call passes with this number, but with none of the others.
#[track_caller]
fn takes_alone(call: &Call, due: i64, others: &[i64]) {
    assert_eq!(call.check(), Ok(()));
    assert_eq!(call.answer.account.records_walked, due);
    for &other in others {
        let reason = format!("the number of records walked is {other}, {due} is due");
        refuses_part(call, RECORDS_WALKED, &reason, |number| *number = other);
    }
}

/// Its rows have 2, 2, 3 and 1. It has 5 records, 4 of them on chains, and 4 rows of 4
/// effects.
#[test]
fn another_number_is_refused() {
    let call = Call::of(&two_lane_job());
    takes_alone(&call, 8, &[7, 9, 5, 4, 16, 12, 2, 1, 0, -8, 8 + 256]);
}

#[test]
fn the_most_is_held_to_in_every_edition() {
    for edition in EDITIONS {
        let call = Call::of(&table_job(edition, one_chain_of_all()));
        takes_alone(&call, 512, &[511, 513, 16, 32, 0, i64::MAX]);
    }
}

/// Its built-in rows are 20, its effects 11.
#[test]
fn a_farm_job_has_none() {
    let call = Call::of(&small_farm_job([1000; 11]));
    takes_alone(&call, 0, &[1, -1, 11, 20, 220]);
}

/// Without a patch buffer the job is refused, though its chains are sound.
#[test]
fn a_refused_job_has_none() {
    let call = Call::new(&two_lane_job().bytes(), &[]);
    assert_eq!(call.check(), Ok(()));
    assert_eq!(call.answer.refusal, 9);
    for number in [1, 8, -1] {
        let reason = "a refused job's account is not zero throughout";
        refuses_part(&call, RECORDS_WALKED, reason, |walked| *walked = number);
    }
}
