//! The kernel agrees with the second implementation on generated jobs, and no drawn arrangement beats a report.

use random::{asked, call, judged, solve, ACCOUNT_BYTES};
use second::generator::{case, faults_of, Case, Stream};
use second::job::Job;
use second::words::words_of;
use second::{chosen, sampler};

/// The refusal of a case, 0 for an accepted one, where the kernel's answer is right.
fn agreed_refusal(case: &Case) -> Result<u64, String> {
    Ok(judged(&case.job, &case.patch)?.refusal)
}

#[test]
fn kernel_and_second_implementation_agree_on_chosen_cases() {
    for (number, case) in chosen::all().enumerate() {
        if let Err(fault) = agreed_refusal(&case) {
            panic!("chosen case {number}: {fault}");
        }
    }
}

/// The cases of a stream that the gate checks.
fn usual_count(stream: Stream) -> u64 {
    match stream {
        Stream::One => 100_000,
        Stream::Four | Stream::Two | Stream::Spans | Stream::Three => 20_000,
    }
}

/// Checks COUNT cases of each stream from SEED on (environment; by default the usual count from 0 on).
#[test]
fn kernel_and_second_implementation_agree() {
    let first = asked("SEED", 0);
    for stream in Stream::ALL {
        let count = asked("COUNT", usual_count(stream));
        let name = stream.name();
        let mut refused = [0u64; 12];
        for seed in first..first + count {
            let refusal = agreed_refusal(&case(stream, seed))
                .unwrap_or_else(|fault| panic!("stream {name}, seed {seed}: {fault}"));
            refused[refusal as usize] += 1;
        }
        println!("stream {name}, {count} cases from seed {first}, by refusal {refused:?}");
        if count >= 10_000 {
            let met = |refusal: &u64| refused[*refusal as usize] > 0;
            assert!(
                met(&0) && faults_of(stream.edition()).iter().all(met),
                "stream {name}: a refusal was never met: {refused:?}"
            );
        }
    }
}

#[test]
fn no_drawn_arrangement_beats_a_report() {
    for stream in Stream::ALL {
        let mut accepted = 0;
        for seed in 0..asked("DRAWN", 2_000) {
            let case = case(stream, seed);
            let answer = solve(&case.job, &mut case.patch.clone());
            if answer.refusal != 0 {
                continue;
            }
            accepted += 1;
            let job = Job::decode(&words_of(&case.job));
            if let Some(beating) = sampler::first_beating(&job, &answer.account, seed, 20) {
                panic!("{stream:?}, seed {seed}: {beating:?}");
            }
        }
        assert!(accepted > 0, "{stream:?}: no job was accepted");
    }
}

#[test]
fn short_account_buffers_are_cleared() {
    let case = case(Stream::One, 0);
    for length in 0..ACCOUNT_BYTES {
        let mut patch = case.patch.clone();
        let mut account = vec![0xa5u8; length];
        assert_eq!(call(&case.job, &mut patch, &mut account), 2);
        assert!(account.iter().all(|&byte| byte == 0));
        assert_eq!(patch, case.patch);
    }
}

#[test]
fn bytes_past_an_account_stay() {
    for (seed, stream) in (0..200).flat_map(|seed| Stream::ALL.map(|stream| (seed, stream))) {
        let case = case(stream, seed);
        let mut account = vec![0xa5u8; ACCOUNT_BYTES + 16];
        call(&case.job, &mut case.patch.clone(), &mut account);
        assert!(account[ACCOUNT_BYTES..].iter().all(|&byte| byte == 0xa5));
    }
}
