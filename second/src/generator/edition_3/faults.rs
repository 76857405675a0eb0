//! Makes faults of a job with two carriageways: in the second width and the words before
//! it, in either transverse section, in the line and in the second section's length.

use crate::edition::Edition;
use crate::generator::draws::{first_last_or_any, outside, outside_limits};
use crate::generator::edition_2::spoil_a_further_word;
use crate::generator::spans::spoil_the_spans;
use crate::generator::word_faults::spoil_a_header_word;
use crate::generator::Stream;
use crate::job::SPANS_BY_SIGN;
use crate::refusals::{MOST_ACROSS, WIDTHS};
use crate::rng::Rng;
use crate::sections::{Sections, DYNAMIC_KIND, SECOND_WIDTH};
use std::ops::Range;

/// Spoils the second width, what is said of the spans, words 10 and 11 or any word of the
/// header; often the second width beside another.
pub(crate) fn spoil_the_header_of_two(rng: &mut Rng, words: &mut [i32]) {
    let what = rng.below(4);
    match what {
        0 => {}
        1 if i64::from(words[DYNAMIC_KIND]) == SPANS_BY_SIGN => spoil_the_spans(rng, words),
        1 => spoil_a_further_word(rng, words),
        _ => spoil_a_header_word(rng, words, Stream::Three),
    }
    if what == 0 || rng.one_in(3) {
        let far = outside_limits(rng, &WIDTHS);
        words[SECOND_WIDTH] = rng.pick(&[299, 2080, 0, far]);
    }
}

/// Spoils an ordinate of the line or of either transverse section, often one of each of
/// two, or of all three.
pub(crate) fn spoil_the_ordinates_of_two(rng: &mut Rng, words: &mut [i32], sections: &Sections) {
    let which = rng.pick(&[1, 1, 2, 2, 4, 4, 3, 5, 6, 7]);
    if which & 1 != 0 {
        let most = Edition::Three.most_in_line();
        let beyond = outside(rng, -most, most);
        let of_one_carriageway = rng.pick(&[5000, -5000]);
        let word = rng.pick(&[beyond, beyond, of_one_carriageway]);
        put_into(rng, words, &sections.line, word);
    }
    for (bit, section) in [(2, &sections.transverse), (4, &sections.second_transverse)] {
        if which & bit != 0 {
            let word = outside(rng, -MOST_ACROSS, MOST_ACROSS);
            put_into(rng, words, section, word);
        }
    }
}

fn put_into(rng: &mut Rng, words: &mut [i32], section: &Range<usize>, word: i32) {
    let place = section.start + first_last_or_any(rng, section.len());
    words[place] = word;
}

/// Leaves the second transverse section out, or makes it a word too short or too long, or
/// as long as the first where that is not its own length.
pub(crate) fn spoil_the_second_section(rng: &mut Rng, words: &mut Vec<i32>, sections: &Sections) {
    let section = sections.second_transverse.clone();
    let own = section.len();
    let first = sections.transverse.len();
    let as_first = if first == own { own + 1 } else { first };
    let length = rng.pick(&[0, own - 1, own + 1, as_first]);
    let mut ordinates = words[section.clone()].to_vec();
    ordinates.resize(length, 0);
    words.splice(section, ordinates);
}
