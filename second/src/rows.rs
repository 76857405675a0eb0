//! 01 "Dynamic factor, rounding, rows", 02 "Farm bridges", "Effects past a word" and
//! "Records walked": the value of each row and the two limit states, in thousandths of
//! N·U, and the length of the rows' chains.
//! A row is at most 16 times 3000 times 10^14 and its traffic, less than 4.81e18 in all,
//! so it fits 64 bits; rows are compared, never subtracted.

use crate::account::{Governing, State};
use crate::combination::{Combination, Variant};
use crate::job::{Job, MAY_BE_LEFT_OUT};
use crate::loads::{Live, Question};

/// A row at its furthest for a question; of equally good choices of k the first.
/// `traffic` gives the traffic value of a live kind for the same question.
fn furthest_of_row(
    job: &Job,
    combination: &Combination,
    question: Question,
    traffic: impl Fn(Live) -> i64,
) -> Governing {
    let variants = combination.variants.iter();
    let tried = variants.map(|variant| {
        let mut governing = furthest_of_variant(job, variant, question);
        governing.row = combination.row;
        if let Some(live) = combination.live {
            let part = combination.live_factor * traffic(live);
            if question.beats(0, part) {
                governing.traffic_left_out = 1;
            } else {
                governing.value += part;
            }
        }
        governing
    });
    furthest_of(tried, question).expect("a row has a variant")
}

/// What a row's effects come to. What may be left out is left out where it would
/// hold the value back, so a zero never is.
fn furthest_of_variant(job: &Job, variant: &Variant, question: Question) -> Governing {
    let mut governing = Governing {
        k: variant.k,
        ..Governing::default()
    };
    for part in &variant.parts {
        let effect = job.effects[part.effect - 1];
        let counts = part.factor * job.edition.effect_unit() * effect.value;
        if effect.mark == MAY_BE_LEFT_OUT && question.beats(0, counts) {
            governing.omitted |= 1 << (part.effect - 1);
        } else {
            governing.value += counts;
        }
    }
    governing
}

/// The first of those that none beats; none where there are none.
fn furthest_of(tried: impl Iterator<Item = Governing>, question: Question) -> Option<Governing> {
    tried.reduce(|best, tried| {
        if question.beats(tried.value, best.value) {
            tried
        } else {
            best
        }
    })
}

/// What a limit state reports: its governing rows, the lowest row at a tie;
/// none where it has no rows.
pub fn limit_state(job: &Job, state: i64, traffic: impl Fn(Live, Question) -> i64) -> State {
    let combinations = job.combinations();
    let governing = |question: Question| {
        let rows = combinations.iter().filter(|row| row.state == state);
        let furthest =
            rows.map(|row| furthest_of_row(job, row, question, |live| traffic(live, question)));
        furthest_of(furthest, question)
    };
    match (governing(Question::Greatest), governing(Question::Least)) {
        (Some(greatest), Some(least)) => State {
            present: 1,
            greatest,
            least,
        },
        _ => State::default(),
    }
}

/// The records walked: the sum over rows, of both states, of their chains' lengths. A
/// record on several chains counts for each, whatever its factor; one on no chain does
/// not count. A built-in row has no records.
pub fn records_walked(job: &Job) -> i64 {
    let lengths = job.rows.iter().map(|row| job.chain(row).len() as i64);
    lengths.sum()
}
