//! What jobs with spans by sign have among sound and damaged ones: a span for each
//! question, and faults of the kind and of the spans.

use super::draws::{outside, outside_limits, sufficient_patch};
use super::edition_2;
use super::header::sound_dynamic;
use super::word_faults::spoil_a_header_word;
use super::{Case, Stream};
use crate::job::{Job, SPANS_BY_SIGN};
use crate::refusals::{dynamic_value_limits, SPANS};
use crate::rng::Rng;
use crate::sections::{DYNAMIC_KIND, DYNAMIC_VALUE, SPAN_FOR_LEAST};
use crate::words::bytes_of;

/// Spans at which the factor's curve ends or turns, and those next to where it turns.
pub(crate) const TURNS: [i64; 6] = [1, 119, 120, 121, 122, 2000];

/// Spans at which the curve gives a whole number of thousandths.
pub(crate) const WHOLE: [i64; 9] = [220, 245, 370, 620, 820, 870, 1120, 1495, 1620];

/// A job that no refusal is due for, given a long enough patch buffer.
pub(super) fn sound_job(rng: &mut Rng) -> Job {
    let job = edition_2::sound_job(rng);
    let (greatest, least) = sound_spans(rng);
    job.with_spans(greatest, least)
}

/// A span for greatest and one for least: equal, next to each other, or each its own.
fn sound_spans(rng: &mut Rng) -> (i64, i64) {
    let greatest = sound_span(rng);
    let least = match rng.below(5) {
        0 => greatest,
        1 => greatest + rng.pick(&[-1, 1]),
        _ => sound_span(rng),
    };
    let (shortest, longest) = limits();
    (greatest, least.clamp(shortest, longest))
}

fn sound_span(rng: &mut Rng) -> i64 {
    match rng.below(8) {
        0..=2 => rng.pick(&TURNS),
        3 => rng.pick(&WHOLE) + rng.between(-1, 1),
        4 => rng.between(110, 130),
        _ => {
            let (shortest, longest) = limits();
            rng.between(shortest, longest)
        }
    }
}

fn limits() -> (i64, i64) {
    ((*SPANS.start()).into(), (*SPANS.end()).into())
}

fn no_span(rng: &mut Rng) -> i32 {
    outside_limits(rng, &SPANS)
}

/// Puts another kind beside the spans, or spoils one of them, both, or the word after
/// the span for least, which it does now and then beside the others, too.
pub(super) fn spoil_the_spans(rng: &mut Rng, words: &mut [i32]) {
    let what = rng.below(8);
    if what <= 2 {
        put_another_kind(rng, words);
    }
    if [3, 4].contains(&what) {
        words[DYNAMIC_VALUE] = no_span(rng);
    }
    if [4, 5].contains(&what) {
        words[SPAN_FOR_LEAST] = no_span(rng);
    }
    if what >= 6 || rng.one_in(4) {
        words[SPAN_FOR_LEAST + 1] = outside(rng, 0, 0);
    }
}

/// Puts another kind beside the span for least, with a value that is good for it, one
/// that is not, or the span for greatest.
fn put_another_kind(rng: &mut Rng, words: &mut [i32]) {
    let (kind, value) = sound_dynamic(rng);
    let good = value as i32;
    let bad = outside_limits(rng, &dynamic_value_limits(kind));
    words[DYNAMIC_KIND] = kind as i32;
    words[DYNAMIC_VALUE] = rng.pick(&[good, bad, words[DYNAMIC_VALUE]]);
}

/// A job of an edition that has no spans by sign, sound but for its kind; its value
/// may be no span, and another word of its header may be at fault, too.
pub(super) fn spans_in_another_edition(rng: &mut Rng) -> Case {
    let stream = rng.pick(&[Stream::One, Stream::Four]);
    let mut job = super::sound_job(rng, stream);
    let patch = sufficient_patch(rng, job.pieces.len());
    let (span, none) = (sound_span(rng), no_span(rng).into());
    (job.dynamic_kind, job.dynamic_value) = (SPANS_BY_SIGN, rng.pick(&[span, span, none]));
    let mut words = job.words();
    if rng.one_in(2) {
        spoil_a_header_word(rng, &mut words, stream);
    }
    Case {
        job: bytes_of(&words),
        patch,
    }
}
