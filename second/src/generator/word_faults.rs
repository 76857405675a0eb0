//! Makes faults in a job's words: a word outside its limits, or words too few
//! or too many.

use super::draws::{first_last_or_any, outside, outside_limits};
use super::edition_2::spoil_a_wide_effect;
use super::line::LONGEST_LINE;
use super::Stream;
use crate::edition::Edition;
use crate::refusals::{dynamic_value_limits, later_header_word_limits};
use crate::rng::Rng;
use crate::sections::{self, Sections, WORDS_PER_RECORD, WORDS_PER_ROW};

/// Spoils a word of the effects, rows or records of a job that has them all; of effects
/// of two halves one or more words of one.
pub(super) fn spoil_a_factor_word(
    rng: &mut Rng,
    words: &mut [i32],
    sections: &Sections,
    edition: Edition,
) {
    let (effects, records) = (words[sections::EFFECTS], words[sections::RECORDS]);
    let section = rng.pick(&[&sections.effects, &sections.rows, &sections.records]);
    // There are always rows.
    let section = if section.is_empty() {
        &sections.rows
    } else {
        section
    };
    let place = section.start + first_last_or_any(rng, section.len());
    let within = place - section.start;
    let words_per_effect = edition.words_per_effect();
    let in_halves = [Edition::Two, Edition::Three].contains(&edition);
    if in_halves && section == &sections.effects {
        let effect = place - within % words_per_effect;
        spoil_a_wide_effect(rng, &mut words[effect..][..words_per_effect]);
        return;
    }
    words[place] = if section == &sections.effects {
        match within % words_per_effect {
            0 => outside(rng, -1_000_000_000, 1_000_000_000),
            _ => outside(rng, 1, 2),
        }
    } else if section == &sections.rows {
        match within % WORDS_PER_ROW {
            0 => outside(rng, 1, 2),
            1 => outside(rng, 0, 2),
            // Kind 0 has no live factor.
            2 if words[place - 1] == 0 => rng.pick(&[1, 1000, 3000, -1]),
            2 => outside(rng, 0, 3000),
            _ => outside(rng, 0, records),
        }
    } else {
        match within % WORDS_PER_RECORD {
            0 => outside(rng, 1, effects),
            1 => outside(rng, 0, 3000),
            _ => outside(rng, 0, records),
        }
    };
}

pub(super) fn spoil_an_ordinate(rng: &mut Rng, words: &mut [i32], sections: &Sections) {
    let (section, most) = rng.pick(&[(&sections.line, 5000), (&sections.transverse, 1000)]);
    let place = section.start + first_last_or_any(rng, section.len());
    words[place] = outside(rng, -most, most);
}

/// Words too few or too many, or a header that calls for others.
pub(super) fn spoil_the_count(rng: &mut Rng, words: &mut Vec<i32>, edition: Edition) {
    match rng.below(3) {
        0 => {
            let header = edition.header_words();
            let fewer = header + rng.index(words.len() - header);
            let one_fewer = words.len() - 1;
            words.truncate(rng.pick(&[fewer, one_fewer, one_fewer]));
        }
        1 => {
            let more = rng.pick(&[1, 1, 2, 3, 4, 50]);
            words.extend((0..more).map(|_| rng.between(-3, 3) as i32));
        }
        _ => {
            let (place, from, to) = rng.pick(counting_words(edition));
            words[place] = rng.between(from, to) as i32;
        }
    }
}

/// Header words that the count due rests on, with what to put there. A farm job's
/// width has its band, so it is left.
fn counting_words(edition: Edition) -> &'static [(usize, i64, i64)] {
    match edition {
        Edition::One | Edition::Two => &[
            (sections::PIECES, 1, 20),
            (sections::SPACING, 10, 50),
            (sections::WIDTH, 300, 2079),
            (sections::EFFECTS, 0, 16),
            (sections::ROWS, 1, 32),
            (sections::RECORDS, 0, 512),
        ],
        Edition::Three => &[
            (sections::PIECES, 1, 20),
            (sections::SPACING, 10, 50),
            (sections::WIDTH, 300, 2079),
            (sections::SECOND_WIDTH, 300, 2079),
            (sections::SECOND_WIDTH, 300, 2079),
            (sections::EFFECTS, 0, 16),
            (sections::ROWS, 1, 32),
            (sections::RECORDS, 0, 512),
        ],
        Edition::Four => &[(sections::PIECES, 1, 20), (sections::SPACING, 10, 50)],
    }
}

pub(super) fn spoil_a_header_word(rng: &mut Rng, words: &mut [i32], stream: Stream) {
    let edition = stream.edition();
    let place = 1 + rng.index(edition.header_words() - 1);
    let dynamic_kind = words[sections::DYNAMIC_KIND].into();
    words[place] = match place {
        sections::PIECE_LENGTH => rng.pick(&[0, -1, 3, 4, 6, 24, 26, 49, 51, i32::MIN, i32::MAX]),
        sections::PIECES => {
            let too_long = (LONGEST_LINE / i64::from(words[sections::PIECE_LENGTH]).max(1)) as i32;
            let far = outside(rng, 1, 1000);
            rng.pick(&[too_long + 1, too_long + 1, 1000 + too_long, far])
        }
        sections::SPACING => outside(rng, 10, 50),
        sections::WIDTH => outside(rng, 300, 2079),
        sections::DYNAMIC_KIND => outside(rng, 1, last_dynamic_kind(stream)),
        sections::DYNAMIC_VALUE => outside_limits(rng, &dynamic_value_limits(dynamic_kind)),
        _ => outside_later_limits(rng, place, edition, dynamic_kind),
    };
}

/// The last kind that is no fault in a stream. In edition 2's own it is 3: that
/// stream never changes, and with kind 4 its jobs want a span for least.
fn last_dynamic_kind(stream: Stream) -> i32 {
    match stream {
        Stream::One | Stream::Four | Stream::Two => 3,
        Stream::Spans | Stream::Three => 4,
    }
}

/// What spoils a header word from the number of effects on: in a farm job often
/// one that edition 1 has there, or -1 for the barriers.
fn outside_later_limits(rng: &mut Rng, place: usize, edition: Edition, dynamic_kind: i64) -> i32 {
    let limits = later_header_word_limits(place, edition, dynamic_kind);
    let outside = outside_limits(rng, &limits);
    if edition != Edition::Four {
        return outside;
    }
    let of_edition_1 = later_header_word_limits(place, Edition::One, dynamic_kind);
    let (from, to) = (*of_edition_1.start(), *of_edition_1.end());
    let any = rng.between(from.into(), to.into()) as i32;
    let tried = rng.pick(&[outside, outside, any, from, -1]);
    if limits.contains(&tried) {
        outside
    } else {
        tried
    }
}
