//! Makes faults in a row's chain of records: an effect named twice, or a
//! return to a record.

use super::tables::sound_factor;
use crate::generator::draws::first_last_or_any;
use crate::job::{Effect, Job, Record, MAY_BE_LEFT_OUT};
use crate::rng::Rng;

/// Gives a row a chain of two or more records, by making new ones if need be,
/// where two of them name the same effect.
pub(crate) fn name_an_effect_twice(rng: &mut Rng, job: &mut Job) {
    let at = first_last_or_any(rng, job.rows.len());
    lengthen_chain(rng, job, at, 2);
    let numbers = chain_numbers(job, at);
    let one = rng.index(numbers.len());
    let other = (one + 1 + rng.index(numbers.len() - 1)) % numbers.len();
    job.records[numbers[one] - 1].effect = job.records[numbers[other] - 1].effect;
}

/// Leads the last record of a row's chain back to one on the chain.
pub(crate) fn return_to_a_record(rng: &mut Rng, job: &mut Job) {
    let at = first_last_or_any(rng, job.rows.len());
    lengthen_chain(rng, job, at, 1);
    let numbers = chain_numbers(job, at);
    let last = numbers[numbers.len() - 1];
    job.records[last - 1].next = numbers[first_last_or_any(rng, numbers.len())];
}

/// Record numbers on a row's chain, first to last.
fn chain_numbers(job: &Job, row: usize) -> Vec<usize> {
    let mut numbers = vec![];
    let mut number = job.rows[row].first;
    while number != 0 {
        numbers.push(number);
        number = job.records[number - 1].next;
    }
    numbers
}

/// Puts new records before a row's chain until it has this length; at the most
/// records, the row's chain is made of the first ones.
fn lengthen_chain(rng: &mut Rng, job: &mut Job, row: usize, length: usize) {
    while job.effects.len() < 2 {
        job.effects.push(Effect {
            value: 1000,
            mark: MAY_BE_LEFT_OUT,
        });
    }
    while chain_numbers(job, row).len() < length {
        if job.records.len() == 512 {
            let first = rng.index(510) + 1;
            for number in first..first + length {
                job.records[number - 1].next = if number + 1 < first + length {
                    number + 1
                } else {
                    0
                };
            }
            job.rows[row].first = first;
        } else {
            job.records.push(Record {
                effect: rng.index(2) + 1,
                factor: sound_factor(rng),
                next: job.rows[row].first,
            });
            job.rows[row].first = job.records.len();
        }
    }
}
