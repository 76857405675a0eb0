//! 01 "The job's words", 02 "Farm bridges", "Effects past a word", "Span by sign" and
//! "Two carriageways": where each section of a job lies, in word places.

use crate::edition::Edition;
use std::ops::Range;

/// Places of the header's words.
pub const EDITION: usize = 0;
pub const PIECE_LENGTH: usize = 1;
pub const PIECES: usize = 2;
pub const SPACING: usize = 3;
pub const WIDTH: usize = 4;
pub const DYNAMIC_KIND: usize = 5;
pub const DYNAMIC_VALUE: usize = 6;
pub const EFFECTS: usize = 7;
pub const ROWS: usize = 8;
pub const RECORDS: usize = 9;
/// In a farm job.
pub const BARRIERS: usize = 10;
/// In a job of edition 2 or 3, where the kind is that of spans.
pub const SPAN_FOR_LEAST: usize = 10;
/// In a job of edition 3.
pub const SECOND_WIDTH: usize = 12;

pub const WORDS_PER_PIECE: usize = 2;
pub const WORDS_PER_ROW: usize = 4;
pub const WORDS_PER_RECORD: usize = 3;

/// The sections that follow the header, as ranges of word places.
#[derive(Debug, Clone, PartialEq, Eq)]
pub struct Sections {
    pub line: Range<usize>,
    pub transverse: Range<usize>,
    /// The second carriageway's; empty where the job has one.
    pub second_transverse: Range<usize>,
    pub effects: Range<usize>,
    pub rows: Range<usize>,
    pub records: Range<usize>,
}

impl Sections {
    /// The sections that a lawful header of an admitted edition calls for.
    pub fn called_for_by(header: &[i32]) -> Sections {
        let count = |place: usize| header[place] as usize;
        let edition = Edition::of_words(header).expect("the edition is admitted");
        let start = edition.header_words();
        let line = start..start + WORDS_PER_PIECE * count(PIECES);
        let ordinates_across = |width: usize| count(width).div_ceil(count(SPACING)) + 1;
        let transverse = following(&line, ordinates_across(WIDTH));
        let second_transverse = if edition.has_second_carriageway() {
            following(&transverse, ordinates_across(SECOND_WIDTH))
        } else {
            following(&transverse, 0)
        };
        let effects = following(
            &second_transverse,
            edition.words_per_effect() * count(EFFECTS),
        );
        let rows = following(&effects, WORDS_PER_ROW * count(ROWS));
        let records = following(&rows, WORDS_PER_RECORD * count(RECORDS));
        Sections {
            line,
            transverse,
            second_transverse,
            effects,
            rows,
            records,
        }
    }

    /// The count of words due, header included.
    pub fn words_due(&self) -> usize {
        self.records.end
    }
}

fn following(section: &Range<usize>, words: usize) -> Range<usize> {
    section.end..section.end + words
}
