//! 02 "Ordinates in sixteen bits" and "Two carriageways": words that are lawful
//! ordinates in their low 16 bits alone, and what to put at the ordinates of a sound job
//! or train to see whether refusal 4 tests the whole word. None of it is stored.

use crate::edition::Edition;
use crate::refusals::MOST_ACROSS;
use crate::sections::{Sections, WORDS_PER_PIECE};
use crate::words::Change;
use std::ops::Range;

/// How far apart words of the same low 16 bits are.
const STEP: i64 = 1 << 16;

/// Steps to the nearest such words, and to those at the ends of 32 bits.
const STEPS: [i64; 8] = [1, -1, 2, -2, 32767, -32767, 32768, -32768];

/// The ends of signed 16 bits, with the words past them; the steps give those of
/// unsigned 16 bits and of 32 bits.
const ENDS: [i32; 4] = [-32769, -32768, 32767, 32768];

/// Words outside the limits of an ordinate that is at most this away from 0:
/// those lawful in their low 16 bits, and the ends.
pub fn wide_words(most: i32) -> Vec<i32> {
    let lawful = [0, 1, -1, 5, -5, most, -most].map(i64::from);
    let sums = STEPS.map(|steps| lawful.map(|word| word + steps * STEP));
    let in_32_bits = sums.iter().flatten().filter_map(|&sum| sum.try_into().ok());
    let mut words: Vec<i32> = in_32_bits.chain(ENDS).collect();
    words.sort_unstable();
    words.dedup();
    words
}

/// Changes of a sound call, after which refusal 4 is due at this place.
#[derive(Debug, Clone, PartialEq, Eq)]
pub struct Fault {
    pub place: usize,
    pub changes: Vec<Change>,
}

fn fault(place: usize, changes: &[Change]) -> Fault {
    let changes = changes.to_vec();
    Fault { place, changes }
}

/// Where the ordinates of a call are: word places of the job, or of the section
/// that a train's call takes.
#[derive(Debug, Clone, PartialEq, Eq)]
pub struct Ordinates {
    line: Range<usize>,
    /// The most that an ordinate of the line is away from 0.
    most_in_line: i32,
    /// One for each carriageway, in word order; none for a train.
    transverse: Vec<Range<usize>>,
}

impl Ordinates {
    /// Those of a job with a lawful header.
    pub fn of_job(words: &[i32]) -> Ordinates {
        let edition = Edition::of_words(words).expect("the edition is admitted");
        let sections = Sections::called_for_by(words);
        let mut transverse = vec![sections.transverse, sections.second_transverse];
        transverse.retain(|section| !section.is_empty());
        Ordinates {
            line: sections.line,
            most_in_line: edition.most_in_line(),
            transverse,
        }
    }

    /// Those of a line's section of so many pieces.
    pub fn of_section(pieces: usize) -> Ordinates {
        Ordinates {
            line: 0..WORDS_PER_PIECE * pieces,
            most_in_line: Edition::One.most_in_line(),
            transverse: vec![],
        }
    }

    /// Changes to words outside their limits.
    pub fn faults(&self) -> Vec<Fault> {
        let mut faults = self.one_outside();
        faults.extend(self.one_outside_anywhere());
        faults.extend(self.two_outside());
        faults.extend(self.one_outside_beside_either_sign());
        faults.extend(self.one_outside_and_a_crossing());
        faults
    }

    /// A wide word, or one next to a limit, at each kind of place.
    fn one_outside(&self) -> Vec<Fault> {
        let mut faults = Vec::new();
        for (place, most) in self.of_each_kind() {
            let next = [most + 1, -most - 1];
            let words = wide_words(most).into_iter().chain(next);
            faults.extend(words.map(|word| fault(place, &[(place, word)])));
        }
        faults
    }

    /// A wide word at each place there is.
    fn one_outside_anywhere(&self) -> Vec<Fault> {
        let places = self.line.clone().chain(self.places_across());
        places
            .map(|place| fault(place, &[(place, 65541)]))
            .collect()
    }

    /// The lower place counts, whichever of the two words is wide.
    fn two_outside(&self) -> Vec<Fault> {
        let ordinates = self.of_each_kind();
        let mut faults = Vec::new();
        for (number, &(place, most)) in ordinates.iter().enumerate() {
            for &(above, most_above) in &ordinates[number + 1..] {
                for (word, word_above) in
                    [(65541, -65531), (-65531, most_above + 1), (most + 1, 65541)]
                {
                    faults.push(fault(place, &[(place, word), (above, word_above)]));
                }
            }
        }
        faults
    }

    /// A wide word beside 5 and beside -5: the piece crosses zero by the whole
    /// word, by its low 16 bits, by both or by neither.
    fn one_outside_beside_either_sign(&self) -> Vec<Fault> {
        let mut faults = Vec::new();
        for left in self.pieces_of_each_kind() {
            for (place, other) in [(left, left + 1), (left + 1, left)] {
                for word in wide_words(self.most_in_line) {
                    for beside in [5, -5] {
                        faults.push(fault(place, &[(place, word), (other, beside)]));
                    }
                }
            }
        }
        faults
    }

    /// 4 comes before 5, also where the piece that crosses zero is the lower.
    fn one_outside_and_a_crossing(&self) -> Vec<Fault> {
        let mut faults = Vec::new();
        for left in self.pieces_of_each_kind() {
            let elsewhere = |place: usize| place != left && place != left + 1;
            let ordinates = self.of_each_kind().into_iter();
            for (place, _) in ordinates.filter(|&(place, _)| elsewhere(place)) {
                for (ordinate, word) in [(5, 65541), (-5, 65541), (5, -65531), (-5, -65531)] {
                    let crossing = [(left, ordinate), (left + 1, -ordinate)];
                    faults.push(fault(place, &[crossing[0], crossing[1], (place, word)]));
                }
            }
        }
        faults
    }

    /// Changes to words at their limits, after which the call is accepted.
    pub fn extremes(&self) -> Vec<Vec<Change>> {
        let mut extremes = self.one_at_an_extreme();
        extremes.extend(self.all_at_extremes());
        extremes
    }

    /// An ordinate of each kind, with 0 at the other end of its piece.
    fn one_at_an_extreme(&self) -> Vec<Vec<Change>> {
        let mut changes = Vec::new();
        for left in self.pieces_of_each_kind() {
            for word in [self.most_in_line, -self.most_in_line] {
                changes.push(vec![(left, word), (left + 1, 0)]);
                changes.push(vec![(left, 0), (left + 1, word)]);
            }
        }
        for place in self.across_of_each_kind() {
            changes.extend([MOST_ACROSS, -MOST_ACROSS].map(|word| vec![(place, word)]));
        }
        changes
    }

    /// Every ordinate, of one sign or changing it from piece to piece, and so
    /// across.
    fn all_at_extremes(&self) -> Vec<Vec<Change>> {
        const SIGNS: [[i32; 2]; 4] = [[1, 1], [-1, -1], [1, -1], [-1, 1]];
        let mut changes = Vec::new();
        for in_line in SIGNS {
            for across in SIGNS {
                let line = self.line.clone().enumerate().map(|(number, place)| {
                    let piece = number / WORDS_PER_PIECE;
                    (place, self.most_in_line * in_line[piece % 2])
                });
                let transverse = self.places_across().enumerate();
                let transverse =
                    transverse.map(|(number, place)| (place, MOST_ACROSS * across[number % 2]));
                changes.push(line.chain(transverse).collect());
            }
        }
        // A train has the same four times.
        changes.dedup();
        changes
    }

    /// The left ordinates' places of the first, the middle and the last piece.
    fn pieces_of_each_kind(&self) -> Vec<usize> {
        first_middle_and_last(&self.line, WORDS_PER_PIECE)
    }

    /// The places of all transverse ordinates.
    fn places_across(&self) -> impl Iterator<Item = usize> + '_ {
        self.transverse.iter().cloned().flatten()
    }

    /// The first, the middle and the last across, on each carriageway.
    fn across_of_each_kind(&self) -> Vec<usize> {
        let sections = self.transverse.iter();
        sections
            .flat_map(|section| first_middle_and_last(section, 1))
            .collect()
    }

    /// An ordinate of each kind, as its place and the most that it may be away
    /// from 0: both of these pieces; the first, the middle and the last across.
    fn of_each_kind(&self) -> Vec<(usize, i32)> {
        let lefts = self.pieces_of_each_kind().into_iter();
        let most = self.most_in_line;
        let in_line = lefts.flat_map(|left| [(left, most), (left + 1, most)]);
        let across = self.across_of_each_kind().into_iter();
        in_line
            .chain(across.map(|place| (place, MOST_ACROSS)))
            .collect()
    }
}

/// The places of the first, the middle and the last item of a section, each
/// once, for items of so many words.
fn first_middle_and_last(section: &Range<usize>, words: usize) -> Vec<usize> {
    let items = section.len() / words;
    let mut chosen = vec![0, items / 2, items.saturating_sub(1)];
    chosen.dedup();
    chosen.retain(|&item| item < items);
    chosen
        .into_iter()
        .map(|item| section.start + words * item)
        .collect()
}
