//! Makes faults of a farm job: a width outside its barriers' band, a mark or a
//! value of an effect that is not lawful.

use crate::edition::Edition;
use crate::farm;
use crate::generator::draws::outside;
use crate::generator::header::ordinates_across;
use crate::job::Job;
use crate::refusals::width_band;
use crate::rng::Rng;
use crate::sections::{Sections, WIDTH};

/// Takes a width within word 4's limits but outside the barriers' band, with as
/// many transverse ordinates as it calls for.
pub(crate) fn take_a_width_outside(rng: &mut Rng, job: &mut Job) {
    let band = width_band(job.further_header[0] as i32);
    let outside = rng.between(300, 2079);
    let widths = [300, 369, 370, 371, 429, 430, 431, 2079, outside];
    let outside: Vec<i64> = widths
        .into_iter()
        .filter(|&width| !band.contains(&(width as i32)))
        .collect();
    job.width = rng.pick(&outside);
    let last = job.transverse[job.transverse.len() - 1];
    job.transverse
        .resize(ordinates_across(job.width, job.spacing), last);
}

/// Changes word 4 alone to a width of no band, so that the header calls for more
/// words than there are.
pub(crate) fn widen_to_no_band(rng: &mut Rng, words: &mut [i32]) {
    words[WIDTH] = rng.pick(&[431, 481, 600, 2079]);
}

/// Gives an effect a mark of another, one past both, or a value past its limits.
pub(crate) fn spoil_an_effect_word(rng: &mut Rng, words: &mut [i32], sections: &Sections) {
    let each = Edition::Four.words_per_effect();
    let number = rng.index(sections.effects.len() / each);
    let place = sections.effects.start + each * number;
    if rng.one_in(3) {
        words[place] = outside(rng, -1_000_000_000, 1_000_000_000);
    } else {
        let exchanged = 3 - farm::mark(number) as i32;
        let far = outside(rng, 1, 2);
        words[place + 1] = rng.pick(&[exchanged, exchanged, 0, 3, far]);
    }
}
