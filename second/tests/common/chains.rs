//! The chains of a job's rows, as the numbers of their records.

use super::streams::answer_to;
use second::generator::Case;
use second::job::{Job, Record, Row};
use second::words::words_of;
use std::collections::BTreeSet;

pub struct Chains {
    pub job: Job,
    /// By row, in the order of the chain.
    pub of_rows: Vec<Vec<usize>>,
}

impl Chains {
    /// Of a job whose chains have no return.
    pub fn of(job: Job) -> Chains {
        let next = |number: &usize| Some(job.records[number - 1].next).filter(|&next| next != 0);
        let numbers = |row: &Row| {
            let first = Some(row.first).filter(|&first| first != 0);
            std::iter::successors(first, next).collect()
        };
        Chains {
            of_rows: job.rows.iter().map(numbers).collect(),
            job,
        }
    }

    /// Of an accepted case.
    pub fn of_case(case: &Case) -> Option<Chains> {
        let accepted = answer_to(case).refusal == 0;
        accepted.then(|| Chains::of(Job::decode(&words_of(&case.job))))
    }

    pub fn lengths(&self) -> impl Iterator<Item = i64> + '_ {
        self.of_rows.iter().map(|chain| chain.len() as i64)
    }

    pub fn walked(&self) -> i64 {
        self.lengths().sum()
    }

    /// Those walked in these rows.
    pub fn walked_in(&self, rows: impl Fn(&Row) -> bool) -> i64 {
        let lengths = self.job.rows.iter().zip(self.lengths());
        let counted = lengths.filter(|(row, _)| rows(row));
        counted.map(|(_, length)| length).sum()
    }

    /// Each record as often as it is walked.
    pub fn records(&self) -> impl Iterator<Item = Record> + '_ {
        let numbers = self.of_rows.iter().flatten();
        numbers.map(|number| self.job.records[number - 1])
    }

    /// The records on some chain.
    pub fn used(&self) -> BTreeSet<usize> {
        self.of_rows.iter().flatten().copied().collect()
    }

    /// R times E.
    pub fn most(&self) -> i64 {
        (self.job.rows.len() * self.job.effects.len()) as i64
    }
}
