//! Makes plain bytes: any bytes or words, alone, after a sound header, or in
//! place of a few of a sound job's.

use super::draws::any_bytes;
use super::{sound_job, Case, Stream};
use crate::rng::Rng;
use crate::words::bytes_of;

pub(super) fn plain_bytes(rng: &mut Rng, stream: Stream) -> Case {
    let edition = stream.edition();
    let patch_length = rng.pick(&[0, 1, 20, 1000]);
    let patch = any_bytes(rng, patch_length);
    let job = match rng.below(6) {
        0 => {
            let length = rng.index(60);
            any_bytes(rng, length)
        }
        1 => {
            let length = rng.index(4000);
            any_bytes(rng, length)
        }
        // The edition and any words.
        2 => {
            let mut job = bytes_of(&[edition.number()]);
            let length = 4 * rng.index(60);
            job.extend(any_bytes(rng, length));
            job
        }
        // A sound header and any words, or small ones, as many as are due.
        3 | 4 => {
            let mut words = sound_job(rng, stream).words();
            let small = rng.one_in(2);
            for word in &mut words[edition.header_words()..] {
                *word = if small {
                    rng.between(0, 2) as i32
                } else {
                    rng.number() as i32
                };
            }
            bytes_of(&words)
        }
        // A sound job with a few bytes changed.
        _ => {
            let mut job = sound_job(rng, stream).bytes();
            for _ in 0..rng.between(1, 4) {
                let at = rng.index(job.len());
                job[at] = rng.number() as u8;
            }
            job
        }
    };
    Case { job, patch }
}
