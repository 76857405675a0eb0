//! 02 "Additional overload lanes" beside 01's reading: what moves, and which way.

mod common;

use common::overload::{effect, old_overload, InLanes};
use second::account::Account;
use second::generator::{case, Case, Stream};
use second::job::{Job, SERVICE, ULTIMATE};
use second::lanes::lanes_of_job;
use second::loads::{Live, Question};
use second::rows::limit_state;
use second::words::words_of;
use second::{solve, store};

/// A traffic value in 01's reading.
fn old_traffic(job: &Job, account: &Account, live: Live, question: Question) -> i64 {
    match live {
        Live::Normal => account.traffic(live, question).value,
        Live::Overload => old_overload(job, question),
    }
}

/// Normal, over every set of lanes at the r of its number.
fn normal(job: &Job, question: Question) -> i64 {
    let lanes = InLanes::of(job, question);
    let sums = (0..1_u32 << lanes.hn.len()).map(|set| {
        let r = [20, 20, 18, 16, 14, 12][set.count_ones() as usize];
        let loaded = (0..lanes.hn.len()).filter(|lane| set >> lane & 1 == 1);
        r * loaded.map(|lane| lanes.hn[lane]).sum::<i128>()
    });
    effect(job, question, lanes.furthest(sums))
}

/// Whether the overload of a case with one carriageway moves. It does so with three
/// lanes or more alone; nothing becomes milder, no state moves without it, and normal
/// stays.
fn moves(name: &str, case: &Case) -> bool {
    let answer = solve(&case.job, &mut case.patch.clone());
    if answer.refusal != 0 {
        return false;
    }
    let job = Job::decode(&words_of(&case.job));
    if job.second_width().is_some() {
        return false;
    }
    let account = answer.account;
    let moved = Question::BOTH.map(|question| {
        let found = account.traffic(Live::Normal, question).value;
        assert_eq!(found, normal(&job, question), "{name}: {question:?}");

        let old = |live, question| old_traffic(&job, &account, live, question);
        let found = account.traffic(Live::Overload, question).value;
        let before = old(Live::Overload, question);
        assert!(!question.beats(before, found), "{name}: {question:?}");
        let moves = found != before;
        for state in [SERVICE, ULTIMATE] {
            let found = account.state(state).governing(question).value;
            let before = limit_state(&job, state, old).governing(question).value;
            let no_milder = !question.beats(before, found);
            assert!(no_milder, "{name}: state {state}, {question:?}");
            assert!(moves || found == before, "{name}: state {state}");
        }
        moves
    });
    let moves = moved.contains(&true);
    assert!(!moves || lanes_of_job(&job) >= 3, "{name}");
    moves
}

#[test]
fn stored_cases() {
    let moved = (0..).zip(store::cases());
    let moved = moved.filter(|(number, case)| moves(&format!("case {number}"), case));
    assert!(moved.count() >= 500);
}

#[test]
fn generated_cases() {
    for stream in [Stream::One, Stream::Four, Stream::Two, Stream::Spans] {
        let moved = (0..3000).filter(|&seed| {
            let name = format!("{stream:?}, seed {seed}");
            moves(&name, &case(stream, seed))
        });
        let least = if stream == Stream::Four { 0 } else { 500 };
        assert!(moved.count() >= least, "{stream:?}");
    }
}
