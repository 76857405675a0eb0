//! The generated calls that write a form reach every refusal that there is, every way of
//! spelling a table and every length of the two buffers; a job spelled anew keeps its
//! factors, and one with a word changed is accepted.

mod common;

use common::chains::Chains;
use common::streams::{fnv_1a, reach_all};
use second::edition::Edition;
use second::form::agree::factor;
use second::form::{agree, standard_form, write, WriteCase, REPORT_BYTES};
use second::generator::form::{case, differing_in, respelled, sound_job, Difference};
use second::generator::Stream;
use second::job::{Job, Record, Row};
use second::rng::Rng;
use second::solve;
use second::words::words_of;
use std::collections::{BTreeMap, BTreeSet};

const SEEDS: u64 = 10_000;

/// The streams of the editions that are written.
const STREAMS: [Stream; 4] = [Stream::One, Stream::Two, Stream::Spans, Stream::Three];

/// The job of a case that itself is not refused, and of an edition that is written.
fn accepted(case: &WriteCase) -> Option<Job> {
    let lent = WriteCase {
        form: vec![0; 20_000],
        report: vec![0; REPORT_BYTES],
        ..case.clone()
    };
    (write(&lent).refusal == 0).then(|| Job::decode(&words_of(&case.job)))
}

/// Of 10,000 cases at least this many have each refusal, 0 standing for none.
const OFTEN: usize = 90;

#[test]
fn every_refusal_is_met() {
    let mut times: BTreeMap<u64, usize> = BTreeMap::new();
    for seed in 0..SEEDS {
        *times.entry(write(&case(seed)).refusal).or_default() += 1;
    }
    let met: Vec<u64> = times.keys().copied().collect();
    assert_eq!(met, [0, 1, 2, 3, 4, 5, 6, 7, 8, 12]);
    for (refusal, times) in times {
        assert!(times >= OFTEN, "{refusal}, {times} times");
    }
}

/// A property of a job and its chains, by name.
type Kind = (&'static str, fn(&Chains) -> bool);

const KINDS: [Kind; 17] = [
    ("in standard form", |chains| {
        standard_form(&chains.job) == chains.job.bytes()
    }),
    ("not in standard form", |chains| {
        standard_form(&chains.job) != chains.job.bytes()
    }),
    ("a form longer than its job", |chains| {
        standard_form(&chains.job).len() > chains.job.bytes().len()
    }),
    ("a form shorter than its job", |chains| {
        standard_form(&chains.job).len() < chains.job.bytes().len()
    }),
    ("a form of its job's length, yet other bytes", |chains| {
        let form = standard_form(&chains.job);
        form.len() == chains.job.bytes().len() && form != chains.job.bytes()
    }),
    ("a form of 512 records", |chains| written(chains) == 512),
    ("512 records of which none is written", |chains| {
        chains.job.records.len() == 512 && written(chains) == 0
    }),
    ("no records", |chains| chains.job.records.is_empty()),
    ("a shared tail", |chains| {
        chains.used().len() < chains.walked() as usize
    }),
    ("an unused record", |chains| {
        chains.used().len() < chains.job.records.len()
    }),
    ("an unused record in a circle", |chains| {
        let used = chains.used();
        let mut numbered = (1..).zip(&chains.job.records);
        numbered.any(|(number, record)| record.next == number && !used.contains(&number))
    }),
    ("a factor of 0", |chains| {
        chains.records().any(|record| record.factor == 0)
    }),
    ("a row of factors of 0 alone", |chains| {
        let zeros = |chain: &Vec<usize>| chain.iter().all(|&at| record(chains, at).factor == 0);
        chains
            .of_rows
            .iter()
            .any(|chain| !chain.is_empty() && zeros(chain))
    }),
    ("an empty row between others", |chains| {
        let empty = |chain: &Vec<usize>| chain.is_empty();
        let at = chains.of_rows.iter().position(empty);
        at.is_some_and(|at| at > 0 && !chains.of_rows[at..].iter().all(empty))
    }),
    ("effects that fall", |chains| {
        goes(chains, |two| two[1].effect < two[0].effect)
    }),
    ("effects that rise", |chains| {
        goes(chains, |two| two[1].effect > two[0].effect)
    }),
    ("numbers that fall", |chains| {
        chains
            .of_rows
            .iter()
            .any(|chain| chain.windows(2).any(|two| two[1] < two[0]))
    }),
];

fn record(chains: &Chains, number: usize) -> Record {
    chains.job.records[number - 1]
}

/// The records of the job's form.
fn written(chains: &Chains) -> i32 {
    words_of(&standard_form(&chains.job))[9]
}

/// Somewhere a chain goes on in such a way.
fn goes(chains: &Chains, on: impl Fn(&[Record]) -> bool) -> bool {
    chains.of_rows.iter().any(|chain| {
        let records: Vec<Record> = chain.iter().map(|&at| record(chains, at)).collect();
        records.windows(2).any(&on)
    })
}

/// How the buffers' lengths lie to the form's.
fn buffer_labels(case: &WriteCase, form_bytes: usize) -> Vec<String> {
    let lent = case.form.len();
    let named = [
        ("of the form's length", lent == form_bytes),
        ("one short", lent + 1 == form_bytes),
        ("a word short", lent + 4 == form_bytes),
        ("empty", lent == 0),
        ("far too short", lent > 0 && 2 * lent < form_bytes),
        ("one longer", lent == form_bytes + 1),
        ("much longer", lent >= form_bytes + 200),
        (
            "of the job's length, which is too short",
            lent == case.job.len() && lent < form_bytes,
        ),
        (
            "of the form's length, which is the longer",
            lent == form_bytes && lent > case.job.len(),
        ),
    ];
    let holding = named.into_iter().filter(|(_, holds)| *holds);
    holding
        .map(|(name, _)| format!("a buffer {name}"))
        .collect()
}

const BUFFERS: [&str; 9] = [
    "of the form's length",
    "one short",
    "a word short",
    "empty",
    "far too short",
    "one longer",
    "much longer",
    "of the job's length, which is too short",
    "of the form's length, which is the longer",
];

fn labels(case: &WriteCase) -> Vec<String> {
    let Some(job) = accepted(case) else {
        let report = case.report.len().min(REPORT_BYTES);
        let edition = words_of(&case.job).first().copied().unwrap_or(0);
        return vec![
            format!("a refused job and a report of {report}"),
            format!("a refused job of edition {}", edition.clamp(0, 5)),
        ];
    };
    let edition = job.edition.number();
    let chains = Chains::of(job);
    let present = KINDS.into_iter().filter(|(_, holds)| holds(&chains));
    let mut labels: Vec<String> = present.map(|(name, _)| name.into()).collect();
    labels.extend(buffer_labels(case, standard_form(&chains.job).len()));
    labels.push(format!("a report of {}", case.report.len()));
    labels
        .iter_mut()
        .for_each(|label| *label = within(edition, label));
    labels
}

fn within(edition: i32, label: &str) -> String {
    format!("edition {edition}: {label}")
}

fn due() -> BTreeSet<String> {
    let mut of_accepted: Vec<String> = KINDS.map(|(name, _)| name.into()).to_vec();
    of_accepted.extend(BUFFERS.map(|name| format!("a buffer {name}")));
    of_accepted.extend((0..=9).map(|bytes| format!("a report of {bytes}")));
    let accepted = of_accepted
        .iter()
        .flat_map(|label| (1..=3).map(|edition| within(edition, label)));
    let reports = (0..=8).map(|bytes| format!("a refused job and a report of {bytes}"));
    let refused = (0..=5).map(|edition| format!("a refused job of edition {edition}"));
    accepted.chain(reports).chain(refused).collect()
}

#[test]
fn the_cases_reach_all_that_is_expected() {
    reach_all((0..SEEDS).map(case), labels, due());
}

/// Farm jobs come good and bad; a good one is one that the kernel's own call accepts.
#[test]
fn farm_jobs_are_good_and_bad() {
    let farm = |case: &WriteCase| Edition::of_words(&words_of(&case.job)) == Some(Edition::Four);
    let (mut good, mut bad) = (0, 0);
    for case in (0..2000).map(case).filter(farm) {
        match solve(&case.job, &mut [0; 1000]).refusal {
            0 => good += 1,
            _ => bad += 1,
        }
    }
    assert!(good >= 50 && bad >= 20, "{good} and {bad}");
}

/// No byte of a buffer is 0 before a call, so that one cleared or written shows.
#[test]
fn no_byte_of_a_buffer_is_0() {
    for case in (0..2000).map(case) {
        assert!(case.form.iter().chain(&case.report).all(|&byte| byte != 0));
    }
}

/// A seed's case is fixed, whatever other streams bring.
#[test]
fn the_cases_never_change() {
    let bytes_of_case = |seed| {
        let WriteCase { job, form, report } = case(seed);
        [job, form, report].concat()
    };
    let sum = fnv_1a((0..2000).flat_map(bytes_of_case));
    assert_eq!(sum, 1_140_974_277_542_580_318);
}

/// Jobs of every stream, with a source of draws for each.
fn jobs(seeds: u64) -> impl Iterator<Item = (Rng, Job)> {
    let of_stream = move |stream| {
        (0..seeds).map(move |seed| {
            let mut rng = Rng::new(seed);
            let job = sound_job(&mut rng, stream);
            (rng, job)
        })
    };
    STREAMS.into_iter().flat_map(of_stream)
}

#[track_caller]
fn is_accepted(job: &Job) {
    let answer = solve(&job.bytes(), &mut [0; 1000]);
    assert_eq!((answer.refusal, answer.place), (0, 0));
    assert_eq!(Job::decode(&job.words()), *job);
}

/// By row and effect.
fn factors(job: &Job) -> Vec<Vec<i64>> {
    let of_row = |row: &Row| {
        let effects = 1..=job.effects.len();
        effects.map(|effect| factor(job, row, effect)).collect()
    };
    job.rows.iter().map(of_row).collect()
}

/// The same but for the records, which mostly are others.
#[test]
fn a_job_spelled_anew_keeps_its_factors() {
    let mut others = 0;
    for (mut rng, job) in jobs(100) {
        let other = respelled(&mut rng, &job);
        is_accepted(&other);
        assert_eq!(factors(&other), factors(&job));
        let mut with_records = job.clone();
        with_records.records = other.records.clone();
        for (row, of_other) in with_records.rows.iter_mut().zip(&other.rows) {
            row.first = of_other.first;
        }
        assert_eq!(with_records, other);
        others += usize::from(other != job);
    }
    assert!(others >= 300, "{others}");
}

/// One word of those before the records is another, but for C and the rows' first
/// records; or one factor is.
#[track_caller]
fn differs_in_one(job: &Job, other: &Job, kind: Difference) {
    let [with_factors, of_other] = [job, other].map(factors);
    let pairs = with_factors.iter().flatten().zip(of_other.iter().flatten());
    let another_factor = pairs.filter(|(one, other)| one != other).count();
    let words = |job: &Job| {
        let mut job = job.clone();
        job.records.clear();
        job.rows.iter_mut().for_each(|row| row.first = 0);
        job.words()
    };
    let [words, of_other] = [job, other].map(words);
    assert_eq!(words.len(), of_other.len());
    let another_word = words
        .iter()
        .zip(&of_other)
        .filter(|(one, other)| one != other);
    let due = match kind {
        Difference::Factor => (1, 0),
        _ => (0, 1),
    };
    assert_eq!((another_factor, another_word.count()), due, "{kind:?}");
}

/// Each kind of difference is made in each edition that has it, and often.
#[test]
fn a_differing_job_differs_in_one_word_that_matters() {
    let mut times: BTreeMap<String, usize> = BTreeMap::new();
    for (mut rng, job) in jobs(100) {
        for kind in Difference::ALL {
            if let Some(other) = differing_in(&mut rng, &job, kind) {
                is_accepted(&other);
                differs_in_one(&job, &other, kind);
                assert!(!agree(&job, &other));
                let label = within(job.edition.number(), &format!("{kind:?}"));
                *times.entry(label).or_default() += 1;
            }
        }
    }
    for kind in Difference::ALL {
        let editions = match kind {
            Difference::SpanForLeast => 2..=3,
            Difference::SecondWidth | Difference::SecondTransverse => 3..=3,
            _ => 1..=3,
        };
        for label in editions.map(|edition| within(edition, &format!("{kind:?}"))) {
            let found = times.remove(&label).unwrap_or(0);
            assert!(found >= 10, "{label}, {found} times");
        }
    }
    assert!(times.is_empty(), "{times:?}");
}

/// A factor becomes 0, stops being 0 and becomes another that is not.
#[test]
fn a_factor_differs_in_every_way() {
    let mut ways = BTreeSet::new();
    for (mut rng, job) in jobs(30) {
        if let Some(other) = differing_in(&mut rng, &job, Difference::Factor) {
            let [of_job, of_other] = [&job, &other].map(factors);
            let mut pairs = of_job.iter().flatten().zip(of_other.iter().flatten());
            let (one, other) = pairs.find(|(one, other)| one != other).expect("one");
            ways.insert((*one == 0, *other == 0));
        }
    }
    let all = [(false, false), (false, true), (true, false)];
    assert_eq!(ways, BTreeSet::from(all));
}
