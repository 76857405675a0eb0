//! 02 "One way to write a job": whether two jobs agree, by what the paper names and by
//! no form of either.

use crate::job::{Job, Row};

/// Whether two accepted jobs agree in header but for C, in lines, effects, and in each
/// row's state, live words and factor for each effect. Those of two editions do not.
pub fn agree(one: &Job, other: &Job) -> bool {
    header(one) == header(other)
        && one.further_header == other.further_header
        && one.pieces == other.pieces
        && one.transverse == other.transverse
        && one.second_transverse == other.second_transverse
        && one.effects == other.effects
        && rows_agree(one, other)
}

/// Words 0 to 8 of the header; word 9 is C.
fn header(job: &Job) -> [i64; 9] {
    [
        job.edition.number().into(),
        job.piece_length,
        job.pieces.len() as i64,
        job.spacing,
        job.width,
        job.dynamic_kind,
        job.dynamic_value,
        job.effects.len() as i64,
        job.rows.len() as i64,
    ]
}

/// Jobs of one header agree in their rows.
fn rows_agree(one: &Job, other: &Job) -> bool {
    let mut rows = one.rows.iter().zip(&other.rows);
    rows.all(|(of_one, of_other)| {
        let words = |row: &Row| [row.state, row.live_kind, row.live_factor];
        let mut effects = 1..=one.effects.len();
        words(of_one) == words(of_other)
            && effects.all(|effect| factor(one, of_one, effect) == factor(other, of_other, effect))
    })
}

/// A row's factor for an effect, counted from 1: 0 where its chain does not name it.
pub fn factor(job: &Job, row: &Row, effect: usize) -> i64 {
    let mut chain = job.chain(row).into_iter();
    let named = chain.find(|record| record.effect == effect);
    named.map_or(0, |record| record.factor)
}
