//! Makes damaged jobs: a sound job with faults, each meant for one of the
//! refusals.

use super::draws::sufficient_patch;
use super::edition_1::{name_an_effect_twice, return_to_a_record};
use super::edition_2::spoil_a_further_word;
use super::edition_3::{
    spoil_the_header_of_two, spoil_the_ordinates_of_two, spoil_the_second_section,
};
use super::edition_4::{spoil_an_effect_word, take_a_width_outside, widen_to_no_band};
use super::line::give_a_piece_two_signs;
use super::spans::{spans_in_another_edition, spoil_the_spans};
use super::word_faults::{
    spoil_a_factor_word, spoil_a_header_word, spoil_an_ordinate, spoil_the_count,
};
use super::{sound_job, Case, Stream};
use crate::edition::Edition;
use crate::job::Job;
use crate::rng::Rng;
use crate::sections::Sections;
use crate::words::{bytes_of, WORD_BYTES};

/// The refusals that a job of an edition can meet.
pub fn faults_of(edition: Edition) -> &'static [u64] {
    match edition {
        Edition::One | Edition::Two | Edition::Three => &[1, 2, 3, 4, 5, 6, 7, 8, 9],
        Edition::Four => &[1, 2, 11, 3, 4, 5, 6, 9],
    }
}

/// A sound job with one to four faults, each meant for a refusal; with spans by sign
/// also one of an edition that has none. With several faults one may undo or hide
/// another; the first refusal counts anyway.
pub(super) fn damaged_case(rng: &mut Rng, stream: Stream) -> Case {
    if stream == Stream::Spans && rng.one_in(8) {
        return spans_in_another_edition(rng);
    }
    let count = rng.pick(&[1, 1, 1, 2, 3, 4]);
    let mut faults = faults_of(stream.edition()).to_vec();
    rng.shuffle(&mut faults);
    faults.truncate(count);
    damaged(rng, stream, &faults)
}

/// A sound job with a fault for each of these refusals.
pub fn damaged(rng: &mut Rng, stream: Stream, faults: &[u64]) -> Case {
    let edition = stream.edition();
    let mut job = sound_job(rng, stream);
    let pieces = job.pieces.len();
    let mut patch = sufficient_patch(rng, pieces);
    damage_job(rng, &mut job, faults);
    let mut words = job.words();
    let sections = Sections::called_for_by(&words);
    if faults.contains(&6) {
        match edition {
            Edition::One => spoil_a_factor_word(rng, &mut words, &sections, edition),
            Edition::Two | Edition::Three => {
                // Often two words, in one section or in two.
                for _ in 0..rng.pick(&[1, 1, 2]) {
                    spoil_a_factor_word(rng, &mut words, &sections, edition);
                }
            }
            Edition::Four => spoil_an_effect_word(rng, &mut words, &sections),
        }
    }
    if faults.contains(&5) {
        let line = &mut words[sections.line.clone()];
        give_a_piece_two_signs(rng, line, edition.most_in_line());
    }
    if faults.contains(&4) {
        if edition == Edition::Three {
            spoil_the_ordinates_of_two(rng, &mut words, &sections);
        } else {
            spoil_an_ordinate(rng, &mut words, &sections);
        }
    }
    if faults.contains(&3) {
        if edition == Edition::Three && rng.one_in(3) {
            spoil_the_second_section(rng, &mut words, &sections);
        } else {
            spoil_the_count(rng, &mut words, edition);
        }
    }
    if faults.contains(&11) && rng.one_in(3) {
        widen_to_no_band(rng, &mut words);
    }
    if faults.contains(&2) {
        spoil_the_header(rng, &mut words, stream);
    }
    let mut bytes = bytes_of(&words);
    if faults.contains(&1) {
        make_no_job(rng, &mut bytes, edition);
    }
    if faults.contains(&9) {
        let shorter = rng.index(pieces);
        let length = rng.pick(&[0, pieces - 1, shorter]);
        patch.truncate(length);
    }
    Case { job: bytes, patch }
}

/// The faults that are easier made before the job is words.
fn damage_job(rng: &mut Rng, job: &mut Job, faults: &[u64]) {
    if faults.contains(&8) {
        name_an_effect_twice(rng, job);
    }
    if faults.contains(&7) {
        return_to_a_record(rng, job);
    }
    if faults.contains(&11) {
        take_a_width_outside(rng, job);
    }
}

/// Spoils a word of the header or more: in edition 2 often one of its last two, with
/// spans by sign often what is said of the spans, with two carriageways often the second
/// width.
fn spoil_the_header(rng: &mut Rng, words: &mut [i32], stream: Stream) {
    match stream {
        Stream::One | Stream::Four => spoil_a_header_word(rng, words, stream),
        Stream::Two => {
            spoil_a_header_word(rng, words, stream);
            if rng.one_in(3) {
                spoil_a_further_word(rng, words);
            }
        }
        Stream::Spans => {
            let which = rng.below(3);
            if which != 0 {
                spoil_the_spans(rng, words);
            }
            if which != 1 {
                spoil_a_header_word(rng, words, stream);
            }
        }
        Stream::Three => spoil_the_header_of_two(rng, words),
    }
}

/// Too few bytes for the header, a byte count that 4 does not divide, or another
/// word 0. Where that is 2 or 3, that edition's tests are the ones that apply.
fn make_no_job(rng: &mut Rng, bytes: &mut Vec<u8>, edition: Edition) {
    match rng.below(3) {
        0 => bytes.truncate(too_few_bytes(rng, edition)),
        1 => {
            let uneven = bytes.len() - rng.between(1, 3) as usize;
            bytes.truncate(uneven);
        }
        _ => {
            let any = rng.number() as i32;
            let number = match edition {
                Edition::One => rng.pick(&[0, 2, -1, 256, i32::MIN, any]),
                Edition::Two => rng.pick(&[0, 3, 5, -2, 258, i32::MIN, any]),
                Edition::Three => rng.pick(&[0, 5, -3, 259, i32::MIN, any]),
                Edition::Four => rng.pick(&[0, 2, 3, 5, -4, 260, i32::MIN, any]),
            };
            bytes[..WORD_BYTES].copy_from_slice(&number.to_le_bytes());
        }
    }
}

/// Fewer bytes than the edition's header has.
fn too_few_bytes(rng: &mut Rng, edition: Edition) -> usize {
    let header = edition.header_words() * WORD_BYTES;
    let any = rng.index(header);
    match edition {
        Edition::One => any,
        // Often as many words as another edition's header has, or one short.
        Edition::Two => rng.pick(&[any, 40, 43, 44, 44, 47]),
        Edition::Three => rng.pick(&[any, 40, 44, 47, 48, 48, 49, 51]),
        // Often one word short, as a header of edition 1 would be.
        Edition::Four => rng.pick(&[any, 40, 41, 42, 43]),
    }
}
