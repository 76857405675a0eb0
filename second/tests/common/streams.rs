//! What is asked of every stream: that its cases reach what they are to reach,
//! that a fault gives its refusal, and that a seed's case never changes.

use second::edition::Edition;
use second::generator::{case, damaged, faults_of, Case, Stream};
use second::job::Job;
use second::lanes::lanes_of_job;
use second::loads::Question;
use second::rng::Rng;
use second::sections::{Sections, WORDS_PER_PIECE, WORDS_PER_RECORD, WORDS_PER_ROW};
use second::words::{words_of, WORD_BYTES};
use second::{chosen, solve, store, Account, Answer};
use std::collections::BTreeSet;
use std::ops::RangeInclusive;

pub fn answer_to(case: &Case) -> Answer {
    solve(&case.job, &mut case.patch.clone())
}

/// Each label that is expected is one of some case.
#[track_caller]
pub fn reach_all<C>(
    cases: impl Iterator<Item = C>,
    labels: impl Fn(&C) -> Vec<String>,
    expected: BTreeSet<String>,
) {
    let reached: BTreeSet<String> = cases.flat_map(|case| labels(&case)).collect();
    let missed: Vec<_> = expected.difference(&reached).collect();
    assert!(missed.is_empty(), "never reached: {missed:#?}");
}

/// What is asked of a stream.
pub struct Asked {
    pub stream: Stream,
    /// What is worth reaching about a case.
    pub labels: fn(&Case) -> Vec<String>,
    /// What is expected of them, in parts.
    pub expected: &'static [fn() -> Vec<String>],
    /// How many seeds, from 0 on, reach what is expected.
    pub seeds: u64,
    /// Whether the stored cases that reach it include the chosen ones.
    pub with_chosen: bool,
    /// The refusals, in the order in which they are tested.
    pub order: &'static [u64],
    /// Editions that a fault of word 0 may name, whose own tests then apply.
    pub admitted_since: &'static [Edition],
    /// Of 200 faults of the count, how many at least give 3; the others leave the
    /// count as it was or make the line too long.
    pub least_of_3: usize,
    /// The sum over the cases of the first 2000 seeds.
    pub sum: u64,
}

impl Asked {
    #[track_caller]
    pub fn cases_reach_all(&self) {
        self.reached_by((0..self.seeds).map(|seed| case(self.stream, seed)));
    }

    #[track_caller]
    pub fn stored_cases_reach_all(&self) {
        let chosen = self.with_chosen.then(|| chosen::cases(self.stream));
        let generated = store::generated_cases(self.stream);
        self.reached_by(generated.chain(chosen.into_iter().flatten()));
    }

    #[track_caller]
    fn reached_by(&self, cases: impl Iterator<Item = Case>) {
        let expected = self.expected.iter().flat_map(|part| part());
        reach_all(cases, self.labels, expected.collect());
    }

    #[track_caller]
    pub fn each_fault_alone_gives_its_refusal(&self) {
        for &fault in self.order {
            let missed: Vec<u64> = (0..200)
                .filter(|&seed| self.refusal_given(&[fault], seed) != fault)
                .collect();
            let least = if fault == 3 { self.least_of_3 } else { 200 };
            let given = 200 - missed.len();
            assert!(given >= least, "refusal {fault}, not for seeds {missed:?}");
        }
    }

    /// But for 3, whose fault may come to nothing.
    #[track_caller]
    pub fn two_faults_give_the_first_refusal(&self) {
        assert_eq!(faults_of(self.stream.edition()), self.order);
        for (at, &first) in self.order.iter().enumerate() {
            if first == 3 {
                continue;
            }
            for &other in &self.order[at + 1..] {
                for seed in 0..20 {
                    let given = self.refusal_given(&[first, other], seed);
                    assert_eq!(given, first, "{first} and {other}, seed {seed}");
                }
            }
        }
    }

    /// The refusal that these faults give; 1 where word 0 is that of an edition
    /// admitted since.
    fn refusal_given(&self, faults: &[u64], seed: u64) -> u64 {
        let case = damaged(&mut Rng::new(seed), self.stream, faults);
        match Edition::of_words(&words_of(&case.job)) {
            Some(named) if self.admitted_since.contains(&named) => 1,
            _ => answer_to(&case).refusal,
        }
    }

    #[track_caller]
    pub fn cases_never_change(&self) {
        let bytes_of_case = |seed| {
            let case = case(self.stream, seed);
            case.job.into_iter().chain(case.patch)
        };
        assert_eq!(fnv_1a((0..2000).flat_map(bytes_of_case)), self.sum);
    }
}

/// The tests of what is asked of a stream.
#[macro_export] // To be in reach at a test file's root.
macro_rules! stream_tests {
    ($asked:expr) => {
        const ASKED: $crate::common::streams::Asked = $asked;

        #[test]
        fn the_cases_reach_all_that_is_expected() {
            ASKED.cases_reach_all();
        }

        #[test]
        fn the_stored_cases_reach_all_that_is_expected() {
            ASKED.stored_cases_reach_all();
        }

        #[test]
        fn a_fault_alone_gives_its_refusal() {
            ASKED.each_fault_alone_gives_its_refusal();
        }

        /// Of two faults the one that is tested first is given.
        #[test]
        fn two_faults_give_the_first_refusal() {
            ASKED.two_faults_give_the_first_refusal();
        }

        /// A seed's case is fixed, whatever other streams bring.
        #[test]
        fn the_cases_never_change() {
            ASKED.cases_never_change();
        }
    };
}

pub fn fnv_1a(bytes: impl Iterator<Item = u8>) -> u64 {
    bytes.fold(0xcbf2_9ce4_8422_2325, |sum, byte| {
        (sum ^ u64::from(byte)).wrapping_mul(0x0000_0100_0000_01B3)
    })
}

pub fn texts(labels: &[&str]) -> Vec<String> {
    labels.iter().map(|label| label.to_string()).collect()
}

/// Labels of `refusal_labels` that are due in every edition.
pub fn refusals_due() -> Vec<String> {
    texts(&[
        "1: no word 0",
        "1: uneven",
        "1: another edition",
        "3: too few",
        "3: too many",
        "9: a short patch buffer",
    ])
}

/// Labels of `section_labels` that are due in every edition with tables of its own.
pub fn refusals_of_tables_due() -> Vec<String> {
    let mut due = texts(&[
        "6: first effect",
        "6: last effect",
        "6: effect word 0",
        "7: row word 0",
        "8: row word 0",
    ]);
    for (name, words) in [("row", 4), ("record", 3)] {
        due.extend((0..words).map(|word| format!("6: {name} word {word}")));
    }
    due
}

/// The labels of a refused case, each behind the refusal's number; none for a job
/// of another edition. `place_labels` has a job's words, the refusal and its place.
pub fn refusal_labels(
    edition: Edition,
    case: &Case,
    answer: &Answer,
    place_labels: impl Fn(&[i32], u64, usize) -> Vec<String>,
) -> Vec<String> {
    let words = words_of(&case.job);
    let (number, place) = (answer.refusal, answer.place as usize);
    let mut labels = match number {
        1 => vec![no_job_label(&case.job, edition)],
        _ if Edition::of_words(&words) != Some(edition) => return vec![],
        3 if words.len() < place => vec!["too few".into()],
        3 => vec!["too many".into()],
        9 => vec!["a short patch buffer".into()],
        _ => place_labels(&words, number, place),
    };
    let patch_is_short = || case.patch.len() < words[2] as usize;
    if ![1, 9].contains(&number) && (1..=1000).contains(&words[2]) && patch_is_short() {
        labels.push("before 9".into());
    }
    let numbered = |label: String| format!("{number}: {label}");
    labels.into_iter().map(numbered).collect()
}

fn no_job_label(job: &[u8], edition: Edition) -> String {
    let bytes = job.len();
    let header = edition.header_words() * WORD_BYTES;
    match words_of(job).first() {
        None => "no word 0".into(),
        Some(&number) if number == edition.number() && bytes < header => format!("{bytes} bytes"),
        _ if !bytes.is_multiple_of(WORD_BYTES) => "uneven".into(),
        Some(number @ -9..=9) => format!("edition {number}"),
        Some(_) => "another edition".into(),
    }
}

pub fn header_word_labels(words: &[i32], place: usize) -> Vec<String> {
    let word = words[place];
    let mut labels = vec![format!("word {place}"), format!("word {place} is {word}")];
    if word.unsigned_abs() > 1_000_000 {
        labels.push(format!("word {place} is far off"));
    }
    labels
}

/// A place among the entries of a section.
pub struct EntryPlace {
    pub entry: &'static str,
    /// The entry's number, from 0, and how many there are.
    pub number: usize,
    pub entries: usize,
    /// The word of the entry, from 0.
    pub word: usize,
}

pub fn entry_place(words: &[i32], place: usize) -> Option<EntryPlace> {
    let sections = Sections::called_for_by(words);
    let edition = Edition::of_words(words).expect("the edition is admitted");
    [
        ("piece", sections.line, WORDS_PER_PIECE),
        ("transverse", sections.transverse, 1),
        ("second transverse", sections.second_transverse, 1),
        ("effect", sections.effects, edition.words_per_effect()),
        ("row", sections.rows, WORDS_PER_ROW),
        ("record", sections.records, WORDS_PER_RECORD),
    ]
    .into_iter()
    .find(|(_, section, _)| section.contains(&place))
    .map(|(entry, section, each)| EntryPlace {
        entry,
        number: (place - section.start) / each,
        entries: section.len() / each,
        word: (place - section.start) % each,
    })
}

/// The place within its section.
pub fn section_labels(words: &[i32], place: usize) -> Vec<String> {
    let Some(at) = entry_place(words, place) else {
        return vec![];
    };
    let mut labels = vec![format!("{} word {}", at.entry, at.word)];
    if at.number == 0 {
        labels.push(format!("first {}", at.entry));
    }
    if at.number + 1 == at.entries {
        labels.push(format!("last {}", at.entry));
    }
    labels
}

/// The shape that a job of any edition has.
pub fn shape_labels(job: &Job) -> Vec<String> {
    vec![
        format!("h {}", job.piece_length),
        format!("{} lanes", lanes_of_job(job)),
        format!("dynamic kind {}", job.dynamic_kind),
    ]
}

/// Labels of `shape_labels`: every h, and these numbers of lanes and dynamic kinds.
pub fn shapes_due(lanes: RangeInclusive<usize>, kinds: RangeInclusive<i64>) -> Vec<String> {
    let mut due = [1, 2, 5, 10, 25, 50].map(|h| format!("h {h}")).to_vec();
    due.extend(lanes.map(|lanes| format!("{lanes} lanes")));
    due.extend(kinds.map(|kind| format!("dynamic kind {kind}")));
    due
}

/// How the values of the states come about in a job with rows of its own.
pub fn state_labels(job: &Job, account: &Account) -> Vec<String> {
    let mut labels = vec![];
    for (name, state) in [("service", account.service), ("ultimate", account.ultimate)] {
        if state.present == 0 {
            labels.push(format!("{name} none"));
            continue;
        }
        for question in Question::BOTH {
            let governing = state.governing(question);
            let row = job.rows[governing.row as usize - 1];
            let later = &job.rows[governing.row as usize..];
            let past_the_first = governing.row > 1 && job.rows[0].state == row.state;
            labels.push(format!("{name} {question:?} of kind {}", row.live_kind));
            let named = [
                ("leaves out effects", governing.omitted != 0),
                ("ties", later.contains(&row)),
                ("past its first row", past_the_first),
            ];
            let holding = named.into_iter().filter(|(_, holds)| *holds);
            labels.extend(holding.map(|(label, _)| format!("{name} {question:?} {label}")));
        }
    }
    labels
}

/// All labels of `state_labels`.
pub fn states_due() -> Vec<String> {
    let mut due = vec![];
    for name in ["service", "ultimate"] {
        due.push(format!("{name} none"));
        for question in Question::BOTH {
            due.extend((0..=2).map(|kind| format!("{name} {question:?} of kind {kind}")));
            let others = ["leaves out effects", "ties", "past its first row"];
            due.extend(others.map(|label| format!("{name} {question:?} {label}")));
        }
    }
    due
}
