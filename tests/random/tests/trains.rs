//! The kernel rates generated trains as the second implementation does, and no drawn stand beats a report.

use random::asked;
use random::trains::{judged, rate, truck};
use second::generator::train::{case, sound_case};
use second::rng::Rng;
use second::train::sampler::first_beating;
use second::train::{Rating, Train, REPORT_BYTES};

/// Checks TRAINS cases from SEED on (environment, with these defaults).
#[test]
fn kernel_and_second_implementation_agree() {
    let first = asked("SEED", 0);
    let count = asked("TRAINS", 20_000);
    let mut refused = [0u64; 11];
    for seed in first..first + count {
        let (result, _) =
            judged(&case(seed)).unwrap_or_else(|fault| panic!("train {seed}: {fault}"));
        refused[(result % 256) as usize] += 1;
    }
    println!("{count} trains from seed {first}, by refusal {refused:?}");
    if count >= 10_000 {
        for refusal in [0, 2, 4, 5, 10] {
            assert!(
                refused[refusal] > 0,
                "refusal {refusal} was never met: {refused:?}"
            );
        }
    }
}

/// The example host's truck, in both modes.
#[test]
fn the_truck_is_rated_as_the_second_implementation_does() {
    for mode in [1, 2] {
        let case = truck(mode);
        let (result, _) = judged(&case).unwrap_or_else(|fault| panic!("mode {mode}: {fault}"));
        assert_eq!(result, 0);
    }
}

/// Tries to beat the reports of the first DRAWN accepted trains from seed 0 on (environment, with this default); about half are.
#[test]
fn no_drawn_stand_beats_a_report() {
    let count = asked("DRAWN", 2_000);
    let mut accepted = 0;
    for seed in 0..4 * count {
        let case = case(seed);
        let (result, report) = rate(&case);
        if result != 0 {
            continue;
        }
        accepted += 1;
        let (train, rating) = (Train::of(&case), Rating::of_bytes(&report));
        if let Some(beating) = first_beating(&train, &rating, seed, 60) {
            panic!("train {seed}: {beating:?}");
        }
        if accepted == count {
            break;
        }
    }
    assert_eq!(accepted, count, "too few trains were accepted");
}

#[test]
fn short_report_buffers_are_cleared() {
    let mut case = sound_case(&mut Rng::new(0));
    for length in 0..REPORT_BYTES {
        case.report = vec![0xa5; length];
        assert_eq!(rate(&case), (2, vec![0; length]));
    }
}

#[test]
fn bytes_past_a_report_stay() {
    for seed in 0..2_000 {
        let mut case = case(seed);
        if case.report.len() < REPORT_BYTES {
            continue;
        }
        case.report = vec![0xa5; REPORT_BYTES + 16];
        let (_, report) = rate(&case);
        assert_eq!(report[REPORT_BYTES..], [0xa5; 16], "seed {seed}");
    }
}
