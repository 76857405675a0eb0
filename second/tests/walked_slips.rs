//! A kernel with a slip in the records walked gives another number of them for some case:
//! for a generated one, and for one chosen by hand.

mod common;

use common::chains::Chains;
use common::streams::{answer_to, reach_all};
use second::account::Account;
use second::chosen::records_walked;
use second::edition::Edition;
use second::generator::{case, Case, Stream};
use second::job::{Job, LIVE_NONE, MAY_BE_LEFT_OUT, SERVICE, ULTIMATE};
use second::loads::Question;
use second::sections::{Sections, WORDS_PER_ROW};
use second::words::words_of;
use std::collections::BTreeSet;

/// A slip, as the number that it gives for an accepted job.
type Slip = fn(&Chains, &Account) -> i64;

/// Those that jobs with records show.
const SLIPS: [(&str, Slip); 28] = [
    ("C", |chains, _| chains.job.records.len() as i64),
    ("R times E", |chains, _| chains.most()),
    ("unused records too", |chains, _| {
        chains.walked() + (chains.job.records.len() - chains.used().len()) as i64
    }),
    ("each record once", |chains, _| chains.used().len() as i64),
    ("a chain of several rows once", |chains, _| {
        let differing: BTreeSet<&Vec<usize>> = chains.of_rows.iter().collect();
        differing.iter().map(|chain| chain.len() as i64).sum()
    }),
    ("a tail of the row before not again", |chains, _| {
        let again = chains.of_rows.windows(2).map(|rows| {
            let shared = rows[1].iter().filter(|number| rows[0].contains(number));
            shared.count() as i64
        });
        chains.walked() - again.sum::<i64>()
    }),
    ("equal rows once", |chains, _| {
        let rows = &chains.job.rows;
        let lengths = chains.lengths().enumerate();
        let new = lengths.filter(|&(at, _)| !rows[..at].contains(&rows[at]));
        new.map(|(_, length)| length).sum()
    }),
    ("each effect once", |chains, _| {
        let named: BTreeSet<usize> = chains.records().map(|record| record.effect).collect();
        named.len() as i64
    }),
    ("service alone", |chains, _| {
        chains.walked_in(|row| row.state == SERVICE)
    }),
    ("ultimate alone", |chains, _| {
        chains.walked_in(|row| row.state == ULTIMATE)
    }),
    ("rows with traffic alone", |chains, _| {
        chains.walked_in(|row| row.live_kind != LIVE_NONE)
    }),
    ("rows without traffic alone", |chains, _| {
        chains.walked_in(|row| row.live_kind == LIVE_NONE)
    }),
    ("the first row alone", |chains, _| first_length(chains)),
    ("the last row alone", |chains, _| {
        chains.lengths().last().expect("a row")
    }),
    ("the longest chain alone", |chains, _| {
        chains.lengths().max().expect("a row")
    }),
    ("the first row's for each", |chains, _| {
        first_length(chains) * chains.job.rows.len() as i64
    }),
    ("the governing rows alone", |chains, account| {
        let states = [account.service, account.ultimate];
        let governing = states.iter().filter(|state| state.present != 0);
        let rows: BTreeSet<u32> = governing
            .flat_map(|state| [state.greatest.row, state.least.row])
            .collect();
        let lengths = rows.iter().map(|&row| &chains.of_rows[row as usize - 1]);
        lengths.map(|chain| chain.len() as i64).sum()
    }),
    ("one more for each row", |chains, _| {
        chains.walked() + chains.job.rows.len() as i64
    }),
    ("one more for each chain", |chains, _| {
        chains.walked() + not_empty(chains)
    }),
    ("one fewer for each chain", |chains, _| {
        chains.walked() - not_empty(chains)
    }),
    ("one fewer", |chains, _| chains.walked() - 1),
    ("factors of 0 not counted", |chains, _| {
        let counted = chains.records().filter(|record| record.factor != 0);
        counted.count() as i64
    }),
    ("effects of 0 not counted", |chains, _| {
        let value = |effect: usize| chains.job.effects[effect - 1].value;
        let counted = chains.records().filter(|record| value(record.effect) != 0);
        counted.count() as i64
    }),
    ("effects left out of greatest not counted", |chains, _| {
        not_left_out(chains, Question::Greatest)
    }),
    ("effects left out of least not counted", |chains, _| {
        not_left_out(chains, Question::Least)
    }),
    ("effects always present alone", |chains, _| {
        let mark = |effect: usize| chains.job.effects[effect - 1].mark;
        let present = chains
            .records()
            .filter(|record| mark(record.effect) != MAY_BE_LEFT_OUT);
        present.count() as i64
    }),
    ("ended where next falls", |chains, _| {
        ended(chains, |number, next| next < number)
    }),
    ("ended where next rises", |chains, _| {
        ended(chains, |number, next| next > number)
    }),
];

/// Those that farm jobs show.
const FARM_SLIPS: [(&str, Slip); 2] = [
    ("the built-in rows' effects", |chains, _| {
        let rows = chains.job.combinations();
        let effects = rows.iter().map(|row| row.variants[0].parts.len() as i64);
        effects.sum()
    }),
    ("the built-in rows times E", |chains, _| {
        (chains.job.combinations().len() * chains.job.effects.len()) as i64
    }),
];

/// Past what generated jobs often walk.
const BYTE_SLIP: (&str, Slip) = ("the low byte", |chains, _| chains.walked() % 256);

/// Slips that refused jobs show.
const OF_A_SHORT_PATCH: &str = "refused by 9, yet counted";
const BEFORE_A_FAULT: &str = "refused by 7 or 8, yet counted to that row";

fn first_length(chains: &Chains) -> i64 {
    chains.lengths().next().expect("a row")
}

/// How many rows have a chain of a record or more.
fn not_empty(chains: &Chains) -> i64 {
    chains.lengths().filter(|&length| length != 0).count() as i64
}

/// The records whose effect a row does not leave out for a question.
fn not_left_out(chains: &Chains, question: Question) -> i64 {
    let kept = chains.records().filter(|record| {
        let effect = chains.job.effects[record.effect - 1];
        let part = record.factor * effect.value;
        effect.mark != MAY_BE_LEFT_OUT || !question.beats(0, part)
    });
    kept.count() as i64
}

/// The records up to where a chain goes on in such a way.
fn ended(chains: &Chains, at: impl Fn(usize, usize) -> bool) -> i64 {
    let length = |chain: &Vec<usize>| {
        let end = chain.windows(2).position(|two| at(two[0], two[1]));
        end.map_or(chain.len(), |end| end + 1) as i64
    };
    chains.of_rows.iter().map(length).sum()
}

/// The slips that show in a case, behind its edition.
fn shown(case: &Case) -> Vec<String> {
    let answer = answer_to(case);
    let slips = match answer.refusal {
        0 => shown_in_a_walk(case, &answer.account),
        7..=9 => shown_in_a_refusal(case, answer.place as usize, answer.refusal),
        _ => vec![],
    };
    let words = words_of(&case.job);
    slips
        .into_iter()
        .map(|slip| label(words[0], slip))
        .collect()
}

fn label(edition: i32, slip: &str) -> String {
    format!("edition {edition}: {slip}")
}

fn shown_in_a_walk(case: &Case, account: &Account) -> Vec<&'static str> {
    let chains = Chains::of(Job::decode(&words_of(&case.job)));
    assert_eq!(chains.walked(), account.records_walked);
    let slips = match chains.job.edition {
        Edition::Four => FARM_SLIPS.to_vec(),
        _ => [&SLIPS[..], &[BYTE_SLIP]].concat(),
    };
    let showing = slips
        .into_iter()
        .filter(|(_, slip)| slip(&chains, account) != account.records_walked);
    showing.map(|(name, _)| name).collect()
}

/// A kernel counts before it refuses the patch buffer, or as it tests row after row.
fn shown_in_a_refusal(case: &Case, place: usize, refusal: u64) -> Vec<&'static str> {
    let words = words_of(&case.job);
    let mut job = Job::decode(&words);
    let mut slip = OF_A_SHORT_PATCH;
    if refusal != 9 {
        let rows_start = Sections::called_for_by(&words).rows.start;
        job.rows.truncate((place - rows_start) / WORDS_PER_ROW);
        slip = BEFORE_A_FAULT;
    }
    if Chains::of(job).walked() == 0 {
        return vec![];
    }
    vec![slip]
}

/// Every slip that a job with records shows but that of a byte.
fn expected(edition: i32) -> BTreeSet<String> {
    let names = SLIPS.map(|(name, _)| name).into_iter();
    let all = names.chain([OF_A_SHORT_PATCH, BEFORE_A_FAULT]);
    all.map(|name| label(edition, name)).collect()
}

/// Every slip that a farm job shows.
fn expected_of_farm_jobs() -> BTreeSet<String> {
    let names = FARM_SLIPS.map(|(name, _)| name).into_iter();
    names.map(|name| label(4, name)).collect()
}

#[test]
fn every_slip_shows_in_generated_cases() {
    for stream in Stream::ALL {
        let expected = match stream {
            Stream::Four => expected_of_farm_jobs(),
            _ => expected(stream.edition().number()),
        };
        reach_all((0..1000).map(|seed| case(stream, seed)), shown, expected);
    }
}

/// Every slip in each edition that shows it.
fn expected_of_all() -> BTreeSet<String> {
    let with_records = (1..=3).flat_map(|edition| {
        let of_a_byte = label(edition, BYTE_SLIP.0);
        expected(edition).into_iter().chain([of_a_byte])
    });
    with_records.chain(expected_of_farm_jobs()).collect()
}

#[test]
fn every_slip_shows_in_chosen_cases() {
    reach_all(records_walked::cases(), shown, expected_of_all());
}
