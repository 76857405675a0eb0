//! 01 "What the yard hears back", 02 "Farm bridges", "Effects past a word", "Span by
//! sign" and "Two carriageways": refusals 1 to 9, tested in rising number, and 11,
//! tested straight after 2; each at its lowest place.

use crate::edition::Edition;
use crate::farm;
use crate::job::{ALWAYS_PRESENT, MAY_BE_LEFT_OUT, SPANS_BY_SIGN};
use crate::sections::{self, Sections, WORDS_PER_PIECE, WORDS_PER_RECORD, WORDS_PER_ROW};
use crate::words::{self, WORD_BYTES};
use std::ops::{Range, RangeInclusive};

/// The most that a transverse ordinate is away from 0; edition.rs has that of a
/// longitudinal one.
pub const MOST_ACROSS: i32 = 1000;

/// A refusal's number and word place.
#[derive(Debug, Clone, Copy, PartialEq, Eq)]
pub struct Refusal {
    pub number: u64,
    pub place: u64,
}

/// The refusal that is due for these bytes and a patch buffer of this length.
pub fn refusal(job: &[u8], patch_bytes: usize) -> Option<Refusal> {
    test_all(job, patch_bytes).err()
}

fn test_all(job: &[u8], patch_bytes: usize) -> Result<(), Refusal> {
    test_job(job)?;
    test(9, short_patch_buffer(&words::words_of(job), patch_bytes))
}

/// The job's own refusals: 1 to 8, and 11.
pub(crate) fn test_job(job: &[u8]) -> Result<(), Refusal> {
    let words = words::words_of(job);
    let words = words.as_slice();
    let edition = edition_of(job, words)?;
    test(2, header_word_outside(words, edition))?;
    test(11, width_outside_its_band(words, edition))?;
    let sections = Sections::called_for_by(words);
    test(3, wrong_word_count(words, &sections))?;
    test(4, ordinate_of_a_job_outside(words, &sections, edition))?;
    let crossing = piece_of_two_signs(&words[sections.line.clone()]);
    test(5, crossing.map(|within| sections.line.start + within))?;
    test(6, factor_word_outside(words, &sections, edition))?;
    test(7, chain_with_return(words, &sections))?;
    test(8, chain_naming_twice(words, &sections))
}

/// A test that finds the lowest place at fault, if any, for a refusal's number.
pub(crate) fn test(number: u64, place: Option<usize>) -> Result<(), Refusal> {
    match place {
        None => Ok(()),
        Some(place) => Err(Refusal {
            number,
            place: place as u64,
        }),
    }
}

/// The edition of the job; else 1: word 0 names none, fewer words than its
/// header has, or a byte count not divisible by 4.
fn edition_of(job: &[u8], words: &[i32]) -> Result<Edition, Refusal> {
    let edition = Edition::of_words(words).filter(|edition| {
        words.len() >= edition.header_words() && job.len().is_multiple_of(WORD_BYTES)
    });
    edition.ok_or(Refusal {
        number: 1,
        place: 0,
    })
}

/// 2: a word of the header, past word 0, outside its limits.
fn header_word_outside(words: &[i32], edition: Edition) -> Option<usize> {
    (1..edition.header_words()).find(|&place| !header_word_lawful(words, place, edition))
}

/// The limits of a header word; those that rest on an earlier word take it as
/// lawful, since an unlawful one is the lower place.
fn header_word_lawful(words: &[i32], place: usize, edition: Edition) -> bool {
    let word = words[place];
    let dynamic_kind = words[sections::DYNAMIC_KIND].into();
    match place {
        sections::PIECE_LENGTH => piece_length_lawful(word.into()),
        sections::PIECES => pieces_lawful(words[sections::PIECE_LENGTH].into(), word.into()),
        sections::SPACING => (10..=50).contains(&word),
        sections::WIDTH => WIDTHS.contains(&word),
        sections::DYNAMIC_KIND => edition.dynamic_kinds().contains(&word),
        sections::DYNAMIC_VALUE => dynamic_value_limits(dynamic_kind).contains(&word),
        _ => later_header_word_limits(place, edition, dynamic_kind).contains(&word),
    }
}

/// The limits of a carriageway's width, in cm.
pub const WIDTHS: RangeInclusive<i32> = 300..=2079;

/// The limits of a span, in dm.
pub const SPANS: RangeInclusive<i32> = 1..=2000;

/// The limits of the dynamic value, by its kind.
pub fn dynamic_value_limits(dynamic_kind: i64) -> RangeInclusive<i32> {
    match dynamic_kind {
        1 => 1000..=1300,
        2 => 0..=0,
        3 => 0..=5000,
        _ => SPANS,
    }
}

/// The limits of the header's words from the number of effects on, which differ
/// by edition; those of word 10 in editions 2 and 3 by the dynamic kind, too.
pub fn later_header_word_limits(
    place: usize,
    edition: Edition,
    dynamic_kind: i64,
) -> RangeInclusive<i32> {
    match (edition, place) {
        (Edition::Four, sections::EFFECTS) => 11..=11,
        (Edition::Four, sections::ROWS | sections::RECORDS) => 0..=0,
        (Edition::Four, _) => 1..=3,
        (_, sections::EFFECTS) => 0..=16,
        (_, sections::ROWS) => 1..=32,
        (Edition::One, _) | (_, sections::RECORDS) => 0..=512,
        (_, sections::SPAN_FOR_LEAST) if dynamic_kind == SPANS_BY_SIGN => SPANS,
        (_, sections::SECOND_WIDTH) => WIDTHS,
        (_, _) => 0..=0,
    }
}

/// A farm bridge's clear widths in cm, by its barriers: 1 none, 2 pedestrian, 3
/// traffic.
pub fn width_band(barriers: i32) -> RangeInclusive<i32> {
    match barriers {
        1 | 2 => 300..=370,
        _ => 370..=430,
    }
}

/// 11: a farm bridge's width outside its barriers' band.
fn width_outside_its_band(words: &[i32], edition: Edition) -> Option<usize> {
    let outside = edition == Edition::Four
        && !width_band(words[sections::BARRIERS]).contains(&words[sections::WIDTH]);
    outside.then_some(sections::WIDTH)
}

/// The limits of h.
pub fn piece_length_lawful(piece_length: i128) -> bool {
    [1, 2, 5, 10, 25, 50].contains(&piece_length)
}

/// The limits of N, given h.
pub fn pieces_lawful(piece_length: i128, pieces: i128) -> bool {
    (1..=1000).contains(&pieces) && pieces * piece_length <= 1000
}

/// 3: the word count isn't exactly what the header calls for.
fn wrong_word_count(words: &[i32], sections: &Sections) -> Option<usize> {
    let due = sections.words_due();
    (words.len() != due).then_some(due)
}

/// 4: an ordinate of either line outside its limits.
fn ordinate_of_a_job_outside(
    words: &[i32],
    sections: &Sections,
    edition: Edition,
) -> Option<usize> {
    let in_section = |section: &Range<usize>, most: i32| {
        let within = ordinate_outside(&words[section.clone()], most)?;
        Some(section.start + within)
    };
    in_section(&sections.line, edition.most_in_line())
        .or_else(|| in_section(&sections.transverse, MOST_ACROSS))
        .or_else(|| in_section(&sections.second_transverse, MOST_ACROSS))
}

/// The first word of a line's section further from 0 than this.
pub fn ordinate_outside(section: &[i32], most: i32) -> Option<usize> {
    section
        .iter()
        .position(|word| !(-most..=most).contains(word))
}

/// 5: a piece with one ordinate above 0 and one below; the left ordinate's word
/// in the line's section.
pub fn piece_of_two_signs(line: &[i32]) -> Option<usize> {
    let piece = line.chunks_exact(WORDS_PER_PIECE).position(|piece| {
        let (left, right) = (piece[0], piece[1]);
        left.min(right) < 0 && left.max(right) > 0
    });
    piece.map(|number| WORDS_PER_PIECE * number)
}

/// 6: an effect, row or record word outside its limits.
fn factor_word_outside(words: &[i32], sections: &Sections, edition: Edition) -> Option<usize> {
    (sections.effects.start..sections.records.end)
        .find(|&place| !factor_word_lawful(words, sections, edition, place))
}

fn factor_word_lawful(words: &[i32], sections: &Sections, edition: Edition, place: usize) -> bool {
    let word = words[place];
    let effects = words[sections::EFFECTS];
    let records = words[sections::RECORDS];
    if sections.effects.contains(&place) {
        let within = place - sections.effects.start;
        effect_word_lawful(&words[place..], edition, within)
    } else if sections.rows.contains(&place) {
        match (place - sections.rows.start) % WORDS_PER_ROW {
            0 => word == 1 || word == 2,
            1 => (0..=2).contains(&word),
            2 if words[place - 1] == 0 => word == 0,
            2 => (0..=3000).contains(&word),
            _ => (0..=records).contains(&word),
        }
    } else {
        match (place - sections.records.start) % WORDS_PER_RECORD {
            0 => (1..=effects).contains(&word),
            1 => (0..=3000).contains(&word),
            _ => (0..=records).contains(&word),
        }
    }
}

/// The limits of a word so many words into the effects, given it and what
/// follows it. A value of two halves is told at the low one.
fn effect_word_lawful(words: &[i32], edition: Edition, within: usize) -> bool {
    let each = edition.words_per_effect();
    let most = edition.most_effect();
    match (edition, within % each) {
        (Edition::One | Edition::Four, 0) => (-most..=most).contains(&words[0].into()),
        (Edition::Two | Edition::Three, 0) => {
            (-most..=most).contains(&words::joined(words[0], words[1]))
        }
        (Edition::Two | Edition::Three, 1) => true,
        _ => marks(edition, within / each).contains(&words[0].into()),
    }
}

/// The marks that an effect, counted from 0, may carry.
fn marks(edition: Edition, effect: usize) -> RangeInclusive<i64> {
    match edition {
        Edition::One | Edition::Two | Edition::Three => ALWAYS_PRESENT..=MAY_BE_LEFT_OUT,
        Edition::Four => farm::mark(effect)..=farm::mark(effect),
    }
}

/// What following a chain from its first record comes to.
struct Walk {
    returns: bool,
    /// The effects named, in order, up to the end or the return.
    effects: Vec<i32>,
}

fn walk(words: &[i32], sections: &Sections, row_at: usize) -> Walk {
    let mut visited = vec![false; words[sections::RECORDS] as usize + 1];
    let mut effects = Vec::new();
    let mut number = words[row_at + 3] as usize;
    while number != 0 {
        if visited[number] {
            return Walk {
                returns: true,
                effects,
            };
        }
        visited[number] = true;
        let record_at = sections.records.start + WORDS_PER_RECORD * (number - 1);
        effects.push(words[record_at]);
        number = words[record_at + 2] as usize;
    }
    Walk {
        returns: false,
        effects,
    }
}

/// 7: a chain comes back to a record; its row's first word.
fn chain_with_return(words: &[i32], sections: &Sections) -> Option<usize> {
    let mut rows = sections.rows.clone().step_by(WORDS_PER_ROW);
    rows.find(|&row_at| walk(words, sections, row_at).returns)
}

/// 8: a chain without a return names an effect twice; its row's first word.
fn chain_naming_twice(words: &[i32], sections: &Sections) -> Option<usize> {
    let mut rows = sections.rows.clone().step_by(WORDS_PER_ROW);
    rows.find(|&row_at| {
        let walk = walk(words, sections, row_at);
        let named_before = |(at, effect): (usize, &i32)| walk.effects[..at].contains(effect);
        !walk.returns && walk.effects.iter().enumerate().any(named_before)
    })
}

/// 9: the patch buffer has fewer than N bytes; place N.
fn short_patch_buffer(words: &[i32], patch_bytes: usize) -> Option<usize> {
    let pieces = words[sections::PIECES] as usize;
    (patch_bytes < pieces).then_some(pieces)
}
