//! Generates jobs from a seed: sound ones of every shape, damaged ones for
//! every refusal, and plain bytes. Each edition has a stream of its own, and so do
//! spans by sign, the trains and the calls that write a form.

mod damage;
mod draws;
mod edition_1;
mod edition_2;
mod edition_3;
mod edition_4;
pub mod form;
mod header;
mod line;
mod plain;
pub(crate) mod spans;
mod stream;
pub mod train;
mod transverse;
mod word_faults;

pub use damage::{damaged, faults_of};
pub use stream::Stream;

use crate::job::Job;
use crate::rng::Rng;
use draws::sufficient_patch;

/// A job's bytes and a patch buffer, with its contents before the call.
#[derive(Debug, Clone, PartialEq, Eq)]
pub struct Case {
    pub job: Vec<u8>,
    pub patch: Vec<u8>,
}

/// The case of a seed in a stream: about two in three sound, one in four damaged,
/// the rest plain bytes.
pub fn case(stream: Stream, seed: u64) -> Case {
    let mut rng = Rng::new(seed);
    match rng.below(20) {
        0..=12 => {
            let job = sound_job(&mut rng, stream);
            let patch = sufficient_patch(&mut rng, job.pieces.len());
            Case {
                job: job.bytes(),
                patch,
            }
        }
        13..=17 => damage::damaged_case(&mut rng, stream),
        _ => plain::plain_bytes(&mut rng, stream),
    }
}

/// A job that no refusal is due for, given a long enough patch buffer.
pub fn sound_job(rng: &mut Rng, stream: Stream) -> Job {
    match stream {
        Stream::One => edition_1::sound_job(rng),
        Stream::Two => edition_2::sound_job(rng),
        Stream::Four => edition_4::sound_job(rng),
        Stream::Spans => spans::sound_job(rng),
        Stream::Three => edition_3::sound_job(rng),
    }
}
