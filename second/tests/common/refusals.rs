//! A sound job's words with some of them changed, and faults that are the same in
//! every edition. A sound job has a patch buffer of a byte a piece.

use second::sections::PIECES;
use second::words::{bytes_of, changed, Change, WORD_BYTES};
use second::{solve, Account};

/// Holds a job's refusal and place against the ones expected, and that the
/// account is zero and the patch buffer keeps its bytes.
#[track_caller]
pub fn refused(job: &[u8], patch_bytes: usize, expected: (u64, u64), what: &str) {
    let before: Vec<u8> = (0..patch_bytes).map(|byte| byte as u8 ^ 0xA5).collect();
    let mut patch = before.clone();
    let answer = solve(job, &mut patch);
    assert_eq!((answer.refusal, answer.place), expected, "{what}");
    assert_eq!(answer.account, Account::default(), "{what}");
    assert_eq!(patch, before, "{what}");
}

#[track_caller]
pub fn accepted(words: &[i32], what: &str) {
    let answer = solve(&bytes_of(words), &mut vec![0; patch_bytes(words)]);
    assert_eq!((answer.refusal, answer.place), (0, 0), "{what}");
}

fn patch_bytes(words: &[i32]) -> usize {
    words[PIECES] as usize
}

/// A place and words that are at fault there.
pub type WordFaults<'a> = (usize, &'a [i32]);

/// A sound job's words.
pub struct Sound<'a>(pub &'a [i32]);

impl Sound<'_> {
    #[track_caller]
    pub fn refused_with(&self, changes: &[Change], expected: (u64, u64)) {
        let what = format!("{changes:?}");
        refused(&self.changed(changes), patch_bytes(self.0), expected, &what);
    }

    #[track_caller]
    pub fn accepted_with(&self, changes: &[Change]) {
        accepted(&changed(self.0, changes), &format!("{changes:?}"));
    }

    fn changed(&self, changes: &[Change]) -> Vec<u8> {
        bytes_of(&changed(self.0, changes))
    }

    /// Each of the words is refused at its place.
    #[track_caller]
    pub fn refused_at_each(&self, refusal: u64, faults: &[WordFaults]) {
        for &(place, words) in faults {
            for &word in words {
                self.refused_with(&[(place, word)], (refusal, place as u64));
            }
        }
    }

    /// The job's bytes, cut off or filled up with zeros to each of these lengths, are no
    /// job.
    #[track_caller]
    pub fn no_job_of_lengths(&self, lengths: impl IntoIterator<Item = usize>) {
        for length in lengths {
            let mut job = bytes_of(self.0);
            job.resize(length, 0);
            let what = format!("{length} bytes");
            refused(&job, patch_bytes(self.0), (1, 0), &what);
        }
    }

    /// Fewer bytes than a header of so many words are no job, and neither are uneven ones;
    /// the header alone lacks the other words.
    #[track_caller]
    pub fn has_a_header_of(&self, words: usize) {
        let [header, whole] = [words, self.0.len()].map(|words| words * WORD_BYTES);
        self.no_job_of_lengths(0..header);
        for even in [header, whole - WORD_BYTES, whole] {
            self.no_job_of_lengths(even + 1..even + WORD_BYTES);
        }
        let due = (3, self.0.len() as u64);
        let alone = &bytes_of(self.0)[..header];
        refused(alone, patch_bytes(self.0), due, "the header alone");
    }

    /// Words 0 that name no edition give 1, alone and beside these changes; some have the
    /// job's own in one of their bytes.
    #[track_caller]
    pub fn no_job_of_other_editions(&self, beside: &[Change]) {
        let own = self.0[0];
        for edition in [0, 5, 6, -own, 256 + own, own << 24, i32::MIN, i32::MAX] {
            self.refused_with(&[(0, edition)], (1, 0));
            self.refused_with(&[&[(0, edition)], beside].concat(), (1, 0));
        }
    }

    #[track_caller]
    pub fn refused_with_a_word_more_or_fewer(&self, due: u64) {
        let mut words = self.0.to_vec();
        words.push(2);
        let patch_bytes = patch_bytes(self.0);
        refused(&bytes_of(&words), patch_bytes, (3, due), "a word more");
        words.truncate(self.0.len() - 1);
        refused(&bytes_of(&words), patch_bytes, (3, due), "a word fewer");
    }

    /// Changes and the refusals they give without a patch buffer.
    #[track_caller]
    pub fn refused_without_a_patch_buffer(&self, table: &[(&[Change], (u64, u64))]) {
        for &(changes, expected) in table {
            refused(&self.changed(changes), 0, expected, &format!("{changes:?}"));
        }
    }

    /// Kind 4 is that of editions 2 and 3 alone, whatever word 6 is.
    #[track_caller]
    pub fn no_spans_by_sign(&self) {
        for value in [1, 120, 121, 1000, 2000, 0, -1, 2001, i32::MIN, i32::MAX] {
            let spans = [(5, 4), (6, value)];
            self.refused_with(&spans, (2, 5));
            let with = |other: Change| [spans[0], spans[1], other];
            self.refused_with(&with((4, 299)), (2, 4));
            self.refused_with(&with((7, -1)), (2, 5));
            self.refused_with(&with((9, 513)), (2, 5));
        }
    }

    /// The kinds 1 to 3 of dynamic factor with their values.
    #[track_caller]
    pub fn dynamic_kinds_and_values(&self) {
        for (kind, value) in [(1, 1000), (1, 1300), (2, 0), (3, 0), (3, 5000)] {
            self.accepted_with(&[(5, kind), (6, value)]);
        }
        for (kind, value) in [(1, 999), (1, 1301), (2, 1), (3, -1), (3, 5001)] {
            self.refused_with(&[(5, kind), (6, value)], (2, 6));
        }
    }
}

/// The header's words 1 to 6 past their limits, in a job of h 50 and dynamic kind
/// 2.
pub const HEADER_FAULTS: [WordFaults; 6] = [
    (1, &[0, 3, 51, -50, i32::MIN, i32::MAX]),
    (2, &[0, 21, -1, 1001, i32::MAX]),
    (3, &[9, 51, -10, i32::MIN]),
    (4, &[299, 2080, 0, -300, i32::MIN, i32::MAX]),
    (5, &[0, 5, -1, i32::MAX]),
    (6, &[1, -1, i32::MIN]),
];

/// The numbers of effects, rows and records past their limits in editions 1 to 3.
pub const COUNT_FAULTS: [WordFaults; 3] = [
    (7, &[-1, 17, i32::MIN, i32::MAX]),
    (8, &[0, 33, -1, i32::MIN, i32::MAX]),
    (9, &[-1, 513, i32::MIN, i32::MAX]),
];

pub const ORDINATES_PAST_LIMITS: &[i32] = &[5001, -5001, 65541, i32::MIN];
pub const TRANSVERSE_PAST_LIMITS: &[i32] = &[1001, -1001, 65541];

/// Every section as long as it may be.
pub const LARGEST: [Change; 7] = [
    (1, 1),
    (2, 1000),
    (3, 10),
    (4, 2079),
    (7, 16),
    (8, 32),
    (9, 512),
];
