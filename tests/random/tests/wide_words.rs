//! Refusal 4 tests the whole word of an ordinate, and an ordinate at its limit counts in full: the kernel answers jobs and trains with
//! such words as is due by the papers and by the second implementation.

use random::{judged, trains};
use second::arch_job::arch_job;
use second::farm_job::farm_job;
use second::job::{Job, Piece};
use second::job_a::job_a;
use second::line::section_bytes;
use second::motorway_job::motorway_job;
use second::train::{Axle, TrainCase, ALL_COUNT, RELIEVING_DROPPED, REPORT_BYTES};
use second::wide_words::Ordinates;
use second::words::{bytes_of, changed, words_of, Change};

/// Holds a sound call to its answer, a refusal's number and place, with each fault and each extreme in its words; the calls made.
fn hold(
    name: &str,
    words: &[i32],
    ordinates: &Ordinates,
    call: impl Fn(&[u8]) -> Result<(u64, u64), String>,
) -> usize {
    let answered = |changes: &[Change], due: (u64, u64)| {
        let answer = call(&bytes_of(&changed(words, changes)));
        let first = &changes[..changes.len().min(3)];
        let all = changes.len();
        assert_eq!(answer, Ok(due), "{name}, {first:?} of {all} changes");
    };
    let (faults, extremes) = (ordinates.faults(), ordinates.extremes());
    answered(&[], (0, 0));
    for fault in &faults {
        answered(&fault.changes, (4, fault.place as u64));
    }
    for changes in &extremes {
        answered(changes, (0, 0));
    }
    1 + faults.len() + extremes.len()
}

/// A line of so many pieces, the sign changing every seven.
fn line(pieces: i64) -> Vec<Piece> {
    let piece = |number: i64| {
        let sign = [1, -1][number as usize / 7 % 2];
        Piece {
            left: sign * (number * 37 % 5000 + 1),
            right: sign * (number * 53 % 5000 + 1),
        }
    };
    (0..pieces).map(piece).collect()
}

/// Job A, and Job A with one piece, with the longest line, with five lanes and the most transverse ordinates; a farm job; an arch; a
/// motorway, and it with ten lanes and the most transverse ordinates.
fn jobs() -> [(&'static str, Job); 8] {
    let mut one_piece = job_a();
    (one_piece.piece_length, one_piece.pieces) = (50, line(1));
    let mut longest_line = job_a();
    (longest_line.piece_length, longest_line.pieces) = (1, line(1000));
    let mut five_lanes = job_a();
    (five_lanes.width, five_lanes.spacing) = (2079, 10);
    five_lanes.transverse = (0..209).map(|at| at * 71 % 2001 - 1000).collect();
    let mut ten_lanes = motorway_job();
    (ten_lanes.width, ten_lanes.spacing) = (2079, 10);
    ten_lanes.transverse = five_lanes.transverse.clone();
    ten_lanes.further_header[2] = 2079;
    ten_lanes.second_transverse = (0..209).map(|at| at * 89 % 2001 - 1000).collect();
    [
        ("Job A", job_a()),
        ("one piece", one_piece),
        ("the longest line", longest_line),
        ("five lanes", five_lanes),
        ("the farm job", farm_job()),
        ("the arch job", arch_job()),
        ("the motorway job", motorway_job()),
        ("ten lanes", ten_lanes),
    ]
}

#[test]
fn no_wide_word_passes_for_an_ordinate_of_a_job() {
    let mut calls = 0;
    for (name, job) in jobs() {
        let patch = vec![0xa5; job.pieces.len() + 8];
        let words = job.words();
        calls += hold(name, &words, &Ordinates::of_job(&words), |job| {
            let answer = judged(job, &patch)?;
            Ok((answer.refusal, answer.place))
        });
    }
    println!("{calls} calls for jobs");
}

/// Trains on one piece, on Job A's line and on the longest: of one axle and of twelve, in both modes.
fn train_cases() -> Vec<TrainCase> {
    let axle = |number: u32| Axle {
        load: 400 - number,
        at: 50 * number.saturating_sub(1),
    };
    let lines = [(50, line(1)), (10, job_a().pieces), (1, line(1000))];
    let mut cases = Vec::new();
    for (h, line) in lines {
        for (axles, mode) in [
            (1, ALL_COUNT),
            (1, RELIEVING_DROPPED),
            (12, ALL_COUNT),
            (12, RELIEVING_DROPPED),
        ] {
            cases.push(TrainCase {
                h,
                pieces: line.len() as u64,
                line: section_bytes(&line),
                train: (0..axles).map(axle).collect(),
                mode,
                report: vec![0xa5; REPORT_BYTES + 8],
            });
        }
    }
    cases
}

#[test]
fn no_wide_word_passes_for_an_ordinate_of_a_train() {
    let mut calls = 0;
    for case in train_cases() {
        let (pieces, axles, mode) = (case.pieces, case.train.len(), case.mode);
        let name = format!("{pieces} pieces, {axles} axles, mode {mode}");
        let ordinates = Ordinates::of_section(pieces as usize);
        calls += hold(&name, &words_of(&case.line), &ordinates, |line| {
            let line = line.to_vec();
            let (result, _) = trains::judged(&TrainCase {
                line,
                ..case.clone()
            })?;
            Ok((result % 256, result / 256))
        });
    }
    println!("{calls} calls for trains");
}
