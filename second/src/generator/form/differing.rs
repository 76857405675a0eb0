//! Changes one word that matters of a job: one by which it no longer agrees with what it
//! was.

use super::spelling::{spelled, table_of};
use crate::edition::Edition;
use crate::job::Job;
use crate::refusals::test_job;
use crate::rng::Rng;
use crate::sections::{self, Sections, WORDS_PER_ROW};
use crate::words::{bytes_of, changed};
use std::ops::Range;

/// In what two jobs differ.
#[derive(Debug, Clone, Copy, PartialEq, Eq)]
pub enum Difference {
    PieceLength,
    Spacing,
    Width,
    DynamicKind,
    DynamicValue,
    SpanForLeast,
    SecondWidth,
    Line,
    Transverse,
    SecondTransverse,
    EffectValue,
    EffectMark,
    State,
    LiveKind,
    LiveFactor,
    /// The factor of one row for one effect.
    Factor,
}

impl Difference {
    pub const ALL: [Difference; 16] = [
        Difference::PieceLength,
        Difference::Spacing,
        Difference::Width,
        Difference::DynamicKind,
        Difference::DynamicValue,
        Difference::SpanForLeast,
        Difference::SecondWidth,
        Difference::Line,
        Difference::Transverse,
        Difference::SecondTransverse,
        Difference::EffectValue,
        Difference::EffectMark,
        Difference::State,
        Difference::LiveKind,
        Difference::LiveFactor,
        Difference::Factor,
    ];

    /// The word places that may differ so; none for a factor, which is not always a word.
    fn places(self, words: &[i32], edition: Edition) -> Vec<usize> {
        let sections = Sections::called_for_by(words);
        let header =
            |place: usize| Vec::from_iter((place < edition.header_words()).then_some(place));
        let of_row = |word: usize| every(&sections.rows, WORDS_PER_ROW, word);
        let per_effect = edition.words_per_effect();
        let of_effect = |word: usize| every(&sections.effects, per_effect, word);
        match self {
            Difference::PieceLength => header(sections::PIECE_LENGTH),
            Difference::Spacing => header(sections::SPACING),
            Difference::Width => header(sections::WIDTH),
            Difference::DynamicKind => header(sections::DYNAMIC_KIND),
            Difference::DynamicValue => header(sections::DYNAMIC_VALUE),
            Difference::SpanForLeast => header(sections::SPAN_FOR_LEAST),
            Difference::SecondWidth => header(sections::SECOND_WIDTH),
            Difference::Line => sections.line.collect(),
            Difference::Transverse => sections.transverse.collect(),
            Difference::SecondTransverse => sections.second_transverse.collect(),
            Difference::EffectValue => (0..per_effect - 1).flat_map(of_effect).collect(),
            Difference::EffectMark => of_effect(per_effect - 1),
            Difference::State => of_row(0),
            Difference::LiveKind => of_row(1),
            Difference::LiveFactor => of_row(2),
            Difference::Factor => vec![],
        }
    }
}

/// The places of one word of each entry of a section.
fn every(section: &Range<usize>, words: usize, word: usize) -> Vec<usize> {
    section.clone().skip(word).step_by(words).collect()
}

/// An accepted job that differs from an accepted one of editions 1 to 3 in exactly one
/// word that matters.
pub fn differing(rng: &mut Rng, job: &Job) -> Option<Job> {
    let mut kinds = Difference::ALL;
    rng.shuffle(&mut kinds);
    let mut found = kinds.into_iter();
    found.find_map(|kind| differing_in(rng, job, kind))
}

/// One that differs so; none where no one word of the kind can be another.
pub fn differing_in(rng: &mut Rng, job: &Job, kind: Difference) -> Option<Job> {
    if kind == Difference::Factor {
        return with_another_factor(rng, job);
    }
    let words = job.words();
    let mut places = kind.places(&words, job.edition);
    rng.shuffle(&mut places);
    places.into_iter().find_map(|place| {
        let mut tried = other_words(rng, words[place]).into_iter();
        let of_word = |word: i32| changed(&words, &[(place, word)]);
        let accepted =
            tried.find(|&word| word != words[place] && test_job(&bytes_of(&of_word(word))).is_ok());
        accepted.map(|word| Job::decode(&of_word(word)))
    })
}

/// Words next to one and further off, and those of the short lists, mixed.
fn other_words(rng: &mut Rng, word: i32) -> Vec<i32> {
    let far = rng.between(2, 2000) as i32;
    let around = [1, -1, far, -far].map(|by| word.wrapping_add(by));
    let mut words = [&around[..], &[0, 1, 2, 3, 4, 5, 10, 25, 50]].concat();
    rng.shuffle(&mut words);
    words
}

/// The job with one row's factor for one effect another, often 0 or no longer 0, and its
/// table spelled anew.
fn with_another_factor(rng: &mut Rng, job: &Job) -> Option<Job> {
    if job.effects.is_empty() {
        return None;
    }
    let mut table = table_of(job);
    let row = rng.index(job.rows.len());
    let factor = &mut table[row][rng.index(job.effects.len())];
    let (was, any) = (*factor, rng.between(1, 3000));
    let next = if was < 3000 { was + 1 } else { was - 1 };
    *factor = rng.pick(&[0, next, any]);
    if *factor == was {
        *factor = next;
    }
    Some(spelled(rng, job, &table))
}
