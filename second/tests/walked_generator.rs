//! The generated cases reach shared tails, unused records and chains of every kind, with
//! as many records walked as may be, far fewer, more than there are and fewer; so do the
//! stored ones of every edition. No case passes R times E.

mod common;

use common::chains::Chains;
use common::streams::{answer_to, reach_all};
use second::account::Account;
use second::edition::Edition;
use second::generator::{case, Case, Stream};
use second::job::{Job, SERVICE, ULTIMATE};
use second::store;
use second::words::words_of;
use std::collections::BTreeMap;

/// The streams of the editions with records.
const STREAMS: [Stream; 4] = [Stream::One, Stream::Two, Stream::Spans, Stream::Three];

/// What a job's chains have, by name.
type Kind = (&'static str, fn(&Chains) -> bool);

const KINDS: [Kind; 24] = [
    ("a chain of several rows", |chains| {
        two_rows(chains, |one, other| one == other)
    }),
    ("a chain that is another's tail", |chains| {
        two_rows(chains, |one, other| one != other && one.ends_with(other))
    }),
    ("a tail shared by chains that differ before it", |chains| {
        two_rows(chains, |one, other| {
            let ends_alike = one.last() == other.last();
            ends_alike && !one.ends_with(other) && !other.ends_with(one)
        })
    }),
    ("an empty chain", |chains| chains.of_rows.contains(&vec![])),
    ("every chain empty beside records", |chains| {
        chains.walked() == 0 && !chains.job.records.is_empty()
    }),
    ("no effects", |chains| chains.job.effects.is_empty()),
    ("an unused record", |chains| {
        chains.used().len() < chains.job.records.len()
    }),
    ("every record used", |chains| {
        chains.walked() > 0 && chains.used().len() == chains.job.records.len()
    }),
    ("a record of factor 0", |chains| {
        chains.records().any(|record| record.factor == 0)
    }),
    ("a chain of factors of 0", |chains| {
        let factor = |number: &usize| chains.job.records[number - 1].factor;
        let mut chains = chains.of_rows.iter().filter(|chain| !chain.is_empty());
        chains.any(|chain| chain.iter().all(|number| factor(number) == 0))
    }),
    ("R times E, both above 1", |chains| {
        let (rows, effects) = (chains.job.rows.len(), chains.job.effects.len());
        chains.walked() == chains.most() && rows > 1 && effects > 1
    }),
    ("R times E in one row or of one effect", |chains| {
        let (rows, effects) = (chains.job.rows.len(), chains.job.effects.len());
        chains.walked() == chains.most() && (rows == 1 || effects == 1)
    }),
    ("an eighth of R times E or fewer", |chains| {
        chains.walked() > 0 && 8 * chains.walked() <= chains.most()
    }),
    ("more than C", |chains| chains.walked() > records(chains)),
    ("fewer than C", |chains| {
        chains.walked() > 0 && chains.walked() < records(chains)
    }),
    ("C", |chains| {
        chains.walked() > 0 && chains.walked() == records(chains)
    }),
    ("in service alone", |chains| {
        in_state(chains, SERVICE) > 0 && in_state(chains, ULTIMATE) == 0
    }),
    ("in ultimate alone", |chains| {
        in_state(chains, SERVICE) == 0 && in_state(chains, ULTIMATE) > 0
    }),
    ("more in service", |chains| {
        in_state(chains, SERVICE) > in_state(chains, ULTIMATE) && in_state(chains, ULTIMATE) > 0
    }),
    ("more in ultimate", |chains| {
        in_state(chains, ULTIMATE) > in_state(chains, SERVICE) && in_state(chains, SERVICE) > 0
    }),
    ("next falls", |chains| goes(chains, |two| two[1] < two[0])),
    ("next rises", |chains| goes(chains, |two| two[1] > two[0])),
    ("next falls and rises", |chains| {
        chains.of_rows.iter().any(|chain| {
            let falls = chain.windows(2).filter(|two| two[1] < two[0]).count();
            falls > 0 && falls + 1 < chain.len()
        })
    }),
    ("a chain of sixteen", |chains| {
        chains.lengths().any(|length| length == 16)
    }),
];

fn records(chains: &Chains) -> i64 {
    chains.job.records.len() as i64
}

fn in_state(chains: &Chains, state: i64) -> i64 {
    chains.walked_in(|row| row.state == state)
}

/// Two rows' chains, neither empty, are so to each other.
fn two_rows(chains: &Chains, are: impl Fn(&[usize], &[usize]) -> bool) -> bool {
    let of_rows = || chains.of_rows.iter().filter(|chain| !chain.is_empty());
    let mut ones = of_rows().enumerate();
    ones.any(|(at, one)| {
        let mut others = of_rows().enumerate().filter(|&(other, _)| other != at);
        others.any(|(_, other)| are(one, other))
    })
}

/// Somewhere a chain goes on in such a way.
fn goes(chains: &Chains, on: impl Fn(&[usize]) -> bool) -> bool {
    chains.of_rows.iter().any(|chain| chain.windows(2).any(&on))
}

fn kinds(case: &Case) -> Vec<&'static str> {
    let Some(chains) = Chains::of_case(case) else {
        return vec![];
    };
    let present = KINDS.into_iter().filter(|(_, holds)| holds(&chains));
    present.map(|(name, _)| name).collect()
}

/// Of 3000 cases of a stream, at least this many are of each kind.
const OFTEN: usize = 40;

#[test]
fn generated_cases_are_often_of_each_kind() {
    for stream in STREAMS {
        let mut times: BTreeMap<&str, usize> = BTreeMap::new();
        for kind in (0..3000).flat_map(|seed| kinds(&case(stream, seed))) {
            *times.entry(kind).or_default() += 1;
        }
        for (kind, _) in KINDS {
            let found = times.get(kind).copied().unwrap_or(0);
            assert!(found >= OFTEN, "{stream:?}: {kind}, {found} times");
        }
    }
}

#[test]
fn stored_cases_are_of_each_kind_in_every_edition() {
    let within = |edition: i32, kind: &str| format!("edition {edition}: {kind}");
    let labels = |case: &Case| {
        let kinds = kinds(case).into_iter();
        kinds
            .map(|kind| within(words_of(&case.job)[0], kind))
            .collect()
    };
    let names = KINDS.iter().map(|(name, _)| name);
    let due = names.flat_map(|name| (1..=3).map(move |edition| within(edition, name)));
    reach_all(store::cases(), labels, due.collect());
}

/// At most R times E are walked, in a farm job none, and a refused job's account is zero
/// throughout.
#[track_caller]
fn keeps_the_limit(case: &Case) {
    let answer = answer_to(case);
    if answer.refusal != 0 {
        assert_eq!(answer.account, Account::default());
        return;
    }
    let job = Job::decode(&words_of(&case.job));
    let most = match job.edition {
        Edition::Four => 0,
        _ => job.rows.len() * job.effects.len(),
    };
    let walked = answer.account.records_walked;
    assert!((0..=most as i64).contains(&walked), "{walked} of {most}");
}

#[test]
fn no_case_passes_the_limit() {
    let generated = Stream::ALL
        .into_iter()
        .flat_map(|stream| (0..3000).map(move |seed| case(stream, seed)));
    for case in generated.chain(store::cases()) {
        keeps_the_limit(&case);
    }
}
