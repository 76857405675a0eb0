//! The stream of trains reaches every refusal, by every cause and place and on
//! both sides of each limit, and every shape of train and outcome.

mod common;

use common::streams::{fnv_1a, reach_all};
use common::train_definition::stands_that_give;
use second::generator::train::{case, damaged, Fault};
use second::line::pieces_of;
use second::rng::Rng;
use second::train::{rate, TrainAnswer, TrainCase};
use second::words::words_of;
use std::collections::BTreeSet;

const CASES: u64 = 20_000;

/// What is worth reaching about a case.
fn labels(case: &TrainCase) -> Vec<String> {
    let answer = &rate(case);
    match answer.refusal {
        0 => [train_labels(case), outcome_labels(case, answer)].concat(),
        number => {
            let mut labels = match number {
                2 => argument_labels(case),
                4 | 5 => ordinate_labels(case, answer),
                _ => axle_labels(case, answer.place as usize),
            };
            labels.extend(later_labels(case, answer));
            labels
                .into_iter()
                .map(|label| format!("{number}: {label}"))
                .collect()
        }
    }
}

fn lawful_h(h: u64) -> bool {
    [1, 2, 5, 10, 25, 50].contains(&h)
}

/// The report's length and, of a case refused with 2 for one reason alone, that
/// reason.
fn argument_labels(case: &TrainCase) -> Vec<String> {
    let (h, pieces) = (case.h, case.pieces);
    let length = case.line.len() as i128;
    let due = 8 * i128::from(pieces);
    let h_wrong = !lawful_h(h);
    let pieces_wrong = !(1..=1000).contains(&pieces) || !h_wrong && pieces * h > 1000;
    let mode_wrong = ![1, 2].contains(&case.mode);
    let report_wrong = case.report.len() < 72;
    let mut labels = vec![format!("report of {} bytes", case.report.len())];
    let mut reached = |holds: bool, label: String| {
        if holds {
            labels.push(label);
        }
    };
    match (
        h_wrong,
        pieces_wrong,
        length != due,
        mode_wrong,
        report_wrong,
    ) {
        (true, false, false, false, false) => {
            reached(true, format!("h {h}"));
            reached(h > u64::from(u32::MAX), "h past 32 bits".into());
            reached(h >> 32 > 0 && lawful_h(h & 0xFFFF_FFFF), "h cut".into());
        }
        (false, true, false, false, false) => {
            reached(pieces <= 1001, format!("N {pieces}"));
            reached(pieces == 1000 / h + 1, format!("N past h {h}"));
        }
        // No section can have so many pieces.
        (false, true, true, false, false) => {
            let product = pieces.wrapping_mul(h);
            reached((0..=1000).contains(&product), "N times h wraps".into());
            let bytes = i128::from(pieces.wrapping_mul(8));
            reached(bytes == length, "the section's bytes wrap".into());
            reached(pieces == u64::MAX, "N of all ones".into());
        }
        (false, false, true, false, false) => {
            reached(length == 0, "no section".into());
            reached(true, format!("{} bytes over", length - due));
        }
        (false, false, false, true, false) => {
            reached(true, format!("mode {}", case.mode));
            reached(case.mode > u64::from(u32::MAX), "mode past 32 bits".into());
            reached(
                case.mode >> 32 > 0 && [1, 2].contains(&(case.mode & 0xFFFF_FFFF)),
                "mode cut".into(),
            );
        }
        (false, false, false, false, true) => reached(true, "short report".into()),
        _ => reached(true, "several".into()),
    }
    labels
}

fn ordinate_labels(case: &TrainCase, answer: &TrainAnswer) -> Vec<String> {
    let words = words_of(&case.line);
    let place = answer.place as usize;
    let piece = place / 2;
    let mut labels = vec![];
    if answer.refusal == 4 {
        labels.push(format!("ordinate {}", words[place]));
        labels.push(["left", "right"][place % 2].into());
    } else if words[place] < 0 {
        labels.push("rising".into());
    } else {
        labels.push("falling".into());
    }
    let last = words.len() / 2 - 1;
    if piece == 0 {
        labels.push("first piece".into());
    }
    if piece == last {
        labels.push("last piece".into());
    }
    if 0 < piece && piece < last {
        labels.push("inner piece".into());
    }
    if place == 1999 || place == 1998 {
        labels.push("last piece of the longest line".into());
    }
    labels
}

/// Of an axle at fault for one reason alone, that reason and its place.
fn axle_labels(case: &TrainCase, place: usize) -> Vec<String> {
    if place == 0 {
        return vec![format!("{} axles", case.train.len())];
    }
    let axle = case.train[place - 1];
    let load_wrong = !(1..=400).contains(&axle.load);
    let past = axle.at > 500;
    let falling = place > 1 && axle.at < case.train[place - 2].at;
    let first_off = place == 1 && axle.at != 0;
    let uneven = u64::from(axle.at) % case.h != 0;
    let mut labels = vec![];
    match (load_wrong, past, falling, first_off, uneven) {
        (true, false, false, false, false) => {
            labels.push(format!("load {}", axle.load));
            labels.push(format!("load at {place}"));
        }
        (false, true, false, _, _) => {
            labels.push(format!("distance at {place}"));
            let past_h = u64::from(axle.at) == 500 + case.h;
            labels.push(if past_h && !uneven {
                format!("distance past h {}", case.h)
            } else {
                format!("distance {}", axle.at)
            });
        }
        (false, false, true, false, false) => labels.push(format!("falling at {place}")),
        (false, false, false, true, false) => labels.push("first not at 0".into()),
        (false, false, false, false, true) => {
            labels.push(format!("uneven at {place}"));
            labels.push(format!("uneven for h {}", case.h));
        }
        _ => labels.push("several".into()),
    }
    labels
}

/// Faults behind the refusal given: of later refusals, or of later places.
fn later_labels(case: &TrainCase, answer: &TrainAnswer) -> Vec<String> {
    let words = words_of(&case.line);
    let after = |number: u64, place: usize| (number, place as u64) > (answer.refusal, answer.place);
    let outside = |&at: &usize| !(-5000..=5000).contains(&words[at]);
    let crosses = |&at: &usize| i64::from(words[at]) * i64::from(words[at + 1]) < 0;
    let at_fault = |&at: &usize| {
        let axle = case.train[at];
        !(1..=400).contains(&axle.load) || axle.at > 500
    };
    let mut labels = vec![];
    if (0..words.len()).any(|at| outside(&at) && after(4, at)) {
        labels.push("before 4".into());
    }
    let lefts = (0..words.len() / 2).map(|piece| 2 * piece);
    if lefts.clone().any(|at| crosses(&at) && after(5, at)) {
        labels.push("before 5".into());
    }
    let count_wrong = !(1..=12).contains(&case.train.len());
    if count_wrong && after(10, 0) {
        labels.push("before the number of axles".into());
    }
    if (0..case.train.len()).any(|at| at_fault(&at) && after(10, at + 1)) {
        labels.push("before an axle".into());
    }
    labels
}

fn train_labels(case: &TrainCase) -> Vec<String> {
    let line = pieces_of(&words_of(&case.line));
    let distances: Vec<u32> = case.train.iter().map(|axle| axle.at).collect();
    let last = distances[distances.len() - 1];
    let axles = distances.len();
    let mut labels = vec![
        format!("h {}", case.h),
        format!("mode {}", case.mode),
        format!("{axles} axles"),
    ];
    if case.pieces * case.h == 1000 {
        labels.push(format!("longest line of h {}", case.h));
    }
    let mut reached = |holds: bool, label: &str| {
        if holds {
            labels.push(label.into());
        }
    };
    reached(case.pieces == 1, "N 1");
    reached(axles > 1 && last == 0, "all axles at 0");
    let steps: BTreeSet<u32> = distances.windows(2).map(|two| two[1] - two[0]).collect();
    reached(axles > 2 && steps.len() == 1 && last > 0, "equal distances");
    reached(steps.contains(&0) && last > 0, "two axles at one place");
    let line_length = case.pieces * case.h;
    reached(u64::from(last) > line_length, "train longer than its line");
    reached(u64::from(last) == line_length, "train as long as its line");
    reached(
        last > 0 && u64::from(last) < line_length,
        "train shorter than its line",
    );
    reached(last == 500, "last axle at 500");
    reached(case.train.iter().any(|axle| axle.load == 1), "load 1");
    reached(case.train.iter().any(|axle| axle.load == 400), "load 400");
    let loads: BTreeSet<u32> = case.train.iter().map(|axle| axle.load).collect();
    reached(axles > 2 && loads.len() == axles, "loads all unlike");

    let ordinates = || line.iter().flat_map(|piece| [piece.left, piece.right]);
    let (above, below) = (ordinates().any(|o| o > 0), ordinates().any(|o| o < 0));
    reached(!above && !below, "zero line");
    reached(above && !below, "line above 0");
    reached(below && !above, "line below 0");
    reached(above && below, "line of both signs");
    reached(ordinates().any(|o| o == 5000), "ordinate 5000");
    reached(ordinates().any(|o| o == -5000), "ordinate -5000");
    let joins = line.windows(2).all(|two| two[0].right == two[1].left);
    reached(joins && line.len() > 2, "joined line");
    reached(!joins, "line with jumps");
    reached(case.report.len() == 72, "report of 72 bytes");
    reached(case.report.len() == 73, "report of 73 bytes");
    reached(case.report.len() > 73, "longer report");
    labels
}

fn outcome_labels(case: &TrainCase, answer: &TrainAnswer) -> Vec<String> {
    let rating = &answer.rating;
    let length = i64::from(case.train[case.train.len() - 1].at) / case.h as i64;
    let pieces = case.pieces as i64;
    let mut labels = vec![];
    for (question, (name, value)) in [("greatest", rating.greatest), ("least", rating.least)]
        .into_iter()
        .enumerate()
    {
        if [0, 24_000_000, -24_000_000].contains(&value) {
            labels.push(format!("{name} {value}"));
        }
        if value == 0 {
            continue;
        }
        let stands = stands_that_give(case, question, value);
        let mut all = |holds: &dyn Fn(&common::train_definition::Stand) -> bool, label: &str| {
            if stands.iter().all(holds) {
                labels.push(format!("{name} {label}"));
            }
        };
        all(&|stand| stand.way == 0, "as given only");
        all(&|stand| stand.way == 1, "turned only");
        all(&|stand| stand.side == 0, "from the left only");
        all(&|stand| stand.side == 1, "from the right only");
        all(&|stand| stand.leftmost < 0, "off the line on the left");
        all(
            &|stand| stand.leftmost + length > pieces,
            "off the line on the right",
        );
        let both = |stand: &common::train_definition::Stand| {
            stand.leftmost < 0 && stand.leftmost + length > pieces
        };
        all(&both, "off the line at both ends");
        all(&|stand| stand.leftmost == -length, "at the lowest station");
        all(&|stand| stand.leftmost == pieces, "at the highest station");
        let free =
            stands.iter().any(|stand| stand.way == 0) && stands.iter().any(|stand| stand.way == 1);
        if free && length > 0 {
            labels.push(format!("{name} either way round"));
        }
    }
    if rating.difference == 48_000_000 {
        labels.push("the largest difference".into());
    }
    let mut other = case.clone();
    other.mode = 3 - case.mode;
    let other = rate(&other).rating;
    if other.greatest != rating.greatest {
        labels.push(format!("greatest by mode {}", case.mode));
    }
    if other.least != rating.least {
        labels.push(format!("least by mode {}", case.mode));
    }
    labels
}

fn expected_labels() -> BTreeSet<String> {
    let mut expected: BTreeSet<String> = [
        "2: h 0",
        "2: h 3",
        "2: h 49",
        "2: h 51",
        "2: h 18446744073709551615",
        "2: h past 32 bits",
        "2: h cut",
        "2: N 0",
        "2: N 1001",
        "2: N times h wraps",
        "2: the section's bytes wrap",
        "2: N of all ones",
        "2: no section",
        "2: -1 bytes over",
        "2: 1 bytes over",
        "2: -4 bytes over",
        "2: 4 bytes over",
        "2: -8 bytes over",
        "2: 8 bytes over",
        "2: mode 0",
        "2: mode 3",
        "2: mode 257",
        "2: mode 18446744073709551615",
        "2: mode past 32 bits",
        "2: mode cut",
        "2: short report",
        "2: several",
        "4: ordinate 5001",
        "4: ordinate -5001",
        "4: ordinate 65541",
        "4: ordinate 70536",
        "4: ordinate -65531",
        "4: ordinate 2147483647",
        "4: ordinate -2147483648",
        "4: left",
        "4: right",
        "4: last piece of the longest line",
        "5: rising",
        "5: falling",
        "5: last piece of the longest line",
        "10: 0 axles",
        "10: 13 axles",
        "10: 256 axles",
        "10: 500 axles",
        "10: load 0",
        "10: load 401",
        "10: load 4294967295",
        "10: distance 501",
        "10: distance 4294967295",
        "10: first not at 0",
        "10: several",
        "2: before 4",
        "2: before 5",
        "2: before the number of axles",
        "2: before an axle",
        "4: before 4",
        "4: before 5",
        "4: before the number of axles",
        "4: before an axle",
        "5: before 5",
        "5: before the number of axles",
        "5: before an axle",
        "10: before an axle",
        "mode 1",
        "mode 2",
        "N 1",
        "all axles at 0",
        "equal distances",
        "two axles at one place",
        "train longer than its line",
        "train as long as its line",
        "train shorter than its line",
        "last axle at 500",
        "load 1",
        "load 400",
        "loads all unlike",
        "zero line",
        "line above 0",
        "line below 0",
        "line of both signs",
        "ordinate 5000",
        "ordinate -5000",
        "joined line",
        "line with jumps",
        "report of 72 bytes",
        "report of 73 bytes",
        "longer report",
        "greatest 0",
        "least 0",
        "greatest 24000000",
        "least -24000000",
        "the largest difference",
        "greatest by mode 1",
        "greatest by mode 2",
        "least by mode 1",
        "least by mode 2",
    ]
    .map(String::from)
    .into();
    let mut due = |label: String| {
        expected.insert(label);
    };
    for bytes in 0..72 {
        due(format!("2: report of {bytes} bytes"));
    }
    for h in [1, 2, 5, 10, 25, 50] {
        due(format!("h {h}"));
        due(format!("longest line of h {h}"));
        due(format!("2: N past h {h}"));
        due(format!("10: distance past h {h}"));
        if h > 1 {
            due(format!("10: uneven for h {h}"));
        }
    }
    for number in [4, 5] {
        for piece in ["first", "inner", "last"] {
            due(format!("{number}: {piece} piece"));
        }
    }
    for axles in 1..=12 {
        due(format!("{axles} axles"));
        due(format!("10: load at {axles}"));
        due(format!("10: distance at {axles}"));
        if axles > 1 {
            due(format!("10: uneven at {axles}"));
        }
        if axles > 2 {
            due(format!("10: falling at {axles}"));
        }
    }
    for question in ["greatest", "least"] {
        for outcome in [
            "as given only",
            "turned only",
            "either way round",
            "from the left only",
            "from the right only",
            "off the line on the left",
            "off the line on the right",
            "off the line at both ends",
            "at the lowest station",
            "at the highest station",
        ] {
            due(format!("{question} {outcome}"));
        }
    }
    expected
}

#[test]
fn the_trains_reach_every_refusal_and_shape() {
    reach_all((0..CASES).map(case), labels, expected_labels());
}

#[test]
fn a_fault_alone_gives_its_refusal() {
    for fault in Fault::ALL {
        for seed in 0..300 {
            let case = damaged(&mut Rng::new(seed), &[fault]);
            let refusal = rate(&case).refusal;
            assert_eq!(refusal, fault.refusal(), "{fault:?}, seed {seed}");
        }
    }
}

/// Of two faults the lower refusal is given.
#[test]
fn two_faults_give_the_lower_refusal() {
    for one in Fault::ALL {
        for other in Fault::ALL.into_iter().filter(|&other| other != one) {
            for seed in 0..20 {
                let case = damaged(&mut Rng::new(seed), &[one, other]);
                let lower = one.refusal().min(other.refusal());
                let refusal = rate(&case).refusal;
                assert_eq!(refusal, lower, "{one:?} and {other:?}, seed {seed}");
            }
        }
    }
}

fn bytes_of(case: &TrainCase) -> Vec<u8> {
    let mut bytes = vec![];
    for number in [case.h, case.pieces, case.mode] {
        bytes.extend(number.to_le_bytes());
    }
    bytes.extend(&case.line);
    for axle in &case.train {
        bytes.extend(axle.load.to_le_bytes());
        bytes.extend(axle.at.to_le_bytes());
    }
    bytes.extend(&case.report);
    bytes
}

/// A seed's case is fixed, whatever other streams bring.
#[test]
fn the_trains_never_change() {
    let bytes = (0..2000).flat_map(|seed| bytes_of(&case(seed)));
    assert_eq!(fnv_1a(bytes), 12_147_367_848_118_954_821);
}
