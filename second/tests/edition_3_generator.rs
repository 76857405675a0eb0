//! The generator reaches every refusal and kind of place of a job with two carriageways,
//! every pair of lane counts, and every way in which the two sides share the traffic.

mod common;

use common::overload::InLanes;
use common::streams::{
    answer_to, header_word_labels, refusal_labels, refusals_due, refusals_of_tables_due,
    section_labels, shape_labels, shapes_due, state_labels, states_due, texts, Asked,
};
use second::account::{Account, Traffic};
use second::edition::Edition;
use second::generator::{Case, Stream};
use second::job::{Effect, Job, MAY_BE_LEFT_OUT};
use second::lanes::{breakpoint_centres, lane_counts};
use second::loads::{Live, Question};
use second::sections::Sections;
use second::words::words_of;
use std::collections::BTreeSet;
use std::ops::Range;

/// Where the number of lanes changes.
const WIDTHS: [i64; 10] = [300, 599, 600, 969, 970, 1339, 1340, 1709, 1710, 2079];

/// What is worth reaching about a case.
fn labels(case: &Case) -> Vec<String> {
    let answer = answer_to(case);
    if answer.refusal != 0 {
        let mut labels = refusal_labels(Edition::Three, case, &answer, place_labels);
        labels.extend(count_labels(&words_of(&case.job), answer.refusal));
        return labels;
    }
    let job = Job::decode(&words_of(&case.job));
    if job.edition != Edition::Three {
        return vec![];
    }
    let mut labels = job_labels(&job);
    labels.extend(traffic_labels(&job, &answer.account));
    labels.extend(state_labels(&job, &answer.account));
    labels
}

fn place_labels(words: &[i32], number: u64, place: usize) -> Vec<String> {
    match number {
        2 => header_labels(words, place),
        4 => ordinate_labels(words, place),
        _ => section_labels(words, place),
    }
}

fn is_width(word: i32) -> bool {
    (300..=2079).contains(&word)
}

fn header_labels(words: &[i32], place: usize) -> Vec<String> {
    let mut labels = header_word_labels(words, place);
    if [10, 11].contains(&place) {
        labels.push(format!("word {place} of kind {}", words[5]));
    }
    if place < 12 && !is_width(words[12]) {
        labels.push(format!("word {place} before 12"));
    }
    labels
}

/// The section of the ordinate at fault and those with another fault.
fn ordinate_labels(words: &[i32], place: usize) -> Vec<String> {
    let mut labels = section_labels(words, place);
    let sections = Sections::called_for_by(words);
    if sections.line.contains(&place) {
        labels.push(format!("an ordinate of {}", words[place]));
    }
    let later_fault = |section: &Range<usize>| {
        let at_fault = |&at: &usize| at > place && !(-1000..=1000).contains(&words[at]);
        section.clone().any(|at| at_fault(&at))
    };
    for (name, section) in [
        ("transverse", &sections.transverse),
        ("second transverse", &sections.second_transverse),
    ] {
        if !section.contains(&place) && later_fault(section) {
            let own = if sections.line.contains(&place) {
                "line"
            } else {
                "transverse"
            };
            labels.push(format!("{own} before {name}"));
        }
    }
    let crosses = |piece: &[i32]| piece[0].signum() * piece[1].signum() < 0;
    if words[sections.line].chunks(2).any(crosses) {
        labels.push("before 5".into());
    }
    labels
}

/// How the words differ in number from those due.
fn count_labels(words: &[i32], number: u64) -> Vec<String> {
    if number != 3 || words[0] != 3 {
        return vec![];
    }
    let sections = Sections::called_for_by(words);
    let [first, second] =
        [&sections.transverse, &sections.second_transverse].map(|section| section.len() as i64);
    let over = words.len() as i64 - sections.words_due() as i64;
    let named = [
        ("a word fewer", over == -1),
        ("a word more", over == 1),
        ("no second section", over == -second),
        (
            "a second section as the first",
            over == first - second && over != 0,
        ),
    ];
    let holding = named.into_iter().filter(|(_, holds)| *holds);
    holding.map(|(label, _)| format!("3: {label}")).collect()
}

fn job_labels(job: &Job) -> Vec<String> {
    let [first, second] = lane_counts(job);
    let mut labels = shape_labels(job);
    labels.push(format!("{first} + {second} lanes"));
    let second_width = job.second_width().expect("a second width");
    labels.push(format!("W {}", job.width));
    labels.push(format!("second W {second_width}"));
    let mut reached = |holds: bool, label: &str| {
        if holds {
            labels.push(label.into());
        }
    };
    reached(job.spacing == 10, "g 10");
    reached(job.spacing == 50, "g 50");
    let divides = |width: i64| width % job.spacing == 0;
    reached(divides(second_width), "g divides the second W");
    reached(!divides(second_width), "g does not divide the second W");
    let nothing = |side: &[i64]| side.iter().all(|&ordinate| ordinate == 0);
    let (one, other) = (&job.transverse[..], &job.second_transverse[..]);
    reached(nothing(one) && !nothing(other), "nothing on the first side");
    reached(
        nothing(other) && !nothing(one),
        "nothing on the second side",
    );
    reached(one == other, "the same on both sides");
    reached(one.iter().eq(other.iter().rev()), "mirrored sides");
    for limit in [1000, -1000] {
        reached(one.contains(&limit), &format!("{limit} on the first side"));
        let on_second = format!("{limit} on the second side");
        reached(other.contains(&limit), &on_second);
    }
    let in_line = |ordinate: i64| {
        let mut pieces = job.pieces.iter();
        pieces.any(|piece| piece.left == ordinate || piece.right == ordinate)
    };
    for ordinate in [500, 499, -499, -500] {
        reached(in_line(ordinate), &format!("{ordinate} in the line"));
    }
    let may_be_left_out = |effect: &Effect| effect.mark == MAY_BE_LEFT_OUT;
    reached(
        job.effects.iter().any(may_be_left_out),
        "an effect that may be left out",
    );
    labels
}

fn side_of(lane: usize, first: usize) -> &'static str {
    if lane < first {
        "first"
    } else {
        "second"
    }
}

fn traffic_labels(job: &Job, account: &Account) -> Vec<String> {
    let mut labels = vec![];
    for live in Live::BOTH {
        for question in Question::BOTH {
            let traffic = account.traffic(live, question);
            if traffic.value == 0 {
                continue;
            }
            let of_placement = match live {
                Live::Normal => normal_labels(job, traffic),
                Live::Overload => overload_labels(job, question, traffic),
            };
            let common = placement_labels(job, traffic);
            let named = common.into_iter().chain(of_placement);
            labels.extend(named.map(|label| format!("{live:?} {question:?}: {label}")));
        }
    }
    labels
}

/// The lanes loaded, by side, and where their centres are.
fn placement_labels(job: &Job, traffic: &Traffic) -> Vec<String> {
    let [first, second] = lane_counts(job);
    let loaded: Vec<usize> = (0..10)
        .filter(|lane| traffic.set >> lane & 1 == 1)
        .collect();
    let mut labels = vec![format!("{} lanes", loaded.len())];
    let sides: BTreeSet<&str> = loaded.iter().map(|&lane| side_of(lane, first)).collect();
    labels.push(match sides.len() {
        1 => format!("{} side only", side_of(loaded[0], first)),
        _ => "both sides".into(),
    });
    if loaded.len() == first + second {
        labels.push("every lane".into());
    }
    for &lane in &loaded {
        let side = side_of(lane, first);
        let centres = breakpoint_centres(job, lane);
        let centre = traffic.lanes[lane].centre;
        let at = match centres.iter().position(|&one| one == centre) {
            Some(0) => "at its left limit",
            Some(number) if number + 1 == centres.len() => "at its right limit",
            _ => "within its limits",
        };
        labels.push(format!("{side} side, {at}"));
        let n = [first, second][usize::from(lane >= first)] as i64;
        if centre % n != 0 && first != second {
            labels.push(format!("{side} side, a fraction of its own"));
        }
        labels.push(format!("entry {}", traffic.lanes[lane].entry));
    }
    labels
}

fn normal_labels(job: &Job, traffic: &Traffic) -> Vec<String> {
    let [first, second] = lane_counts(job);
    let spares = traffic.set.count_ones() < (first + second) as u32;
    let largest = traffic.value.abs() == 4_611_750_000;
    let named = [("spares a lane", spares), ("the largest", largest)];
    let holding = named.into_iter().filter(|(_, holds)| *holds);
    holding.map(|(label, _)| label.into()).collect()
}

fn overload_labels(job: &Job, question: Question, traffic: &Traffic) -> Vec<String> {
    let [first, _] = lane_counts(job);
    let lanes = &traffic.lanes;
    let ho = lanes.iter().position(|lane| lane.entry >= 3).expect("HO");
    let additional = lanes.iter().filter(|lane| lane.factor != 0).count();
    let mut labels = vec![
        format!("HO in lane {}", ho + 1),
        format!("HO on the {} side", side_of(ho, first)),
        format!("{additional} additional"),
    ];
    for (lane, reported) in lanes.iter().enumerate() {
        if reported.factor != 0 {
            let side = side_of(lane, first);
            labels.push(format!("{} on the {side} side", reported.factor));
        }
    }
    let in_lanes = InLanes::of(job, question);
    let ties = (0..first).any(|lane| {
        let across = &in_lanes.hn[first..];
        in_lanes.hn[lane] != 0 && across.contains(&in_lanes.hn[lane])
    });
    if ties {
        labels.push("a tie across the median".into());
    }
    if traffic.value.abs() == 6_193_200_000 {
        labels.push("the largest".into());
    }
    labels
}

fn expected_refusals() -> Vec<String> {
    let mut expected = texts(&[
        "3: a word fewer",
        "3: a word more",
        "3: no second section",
        "3: a second section as the first",
        "5: piece word 0",
        "5: first piece",
        "5: last piece",
        "6: effect word 2",
    ]);
    expected.extend(refusals_due());
    expected.extend(refusals_of_tables_due());
    expected.extend([40, 44, 47, 48, 49, 51].map(|bytes| format!("1: {bytes} bytes")));
    expected.extend([0, 5, -3].map(|edition| format!("1: edition {edition}")));
    expected.extend((1..=12).map(|place| format!("2: word {place}")));
    expected.extend((1..=11).map(|place| format!("2: word {place} before 12")));
    for place in [4, 12] {
        expected.extend([299, 2080].map(|width| format!("2: word {place} is {width}")));
        expected.push(format!("2: word {place} is far off"));
    }
    expected.push("2: word 12 is 0".into());
    for place in [10, 11] {
        expected.extend((1..=4).map(|kind| format!("2: word {place} of kind {kind}")));
    }
    expected.extend((2..=8).map(|number| format!("{number}: before 9")));
    expected
}

fn expected_ordinate_faults() -> Vec<String> {
    let mut expected = texts(&[
        "4: piece word 0",
        "4: piece word 1",
        "4: first piece",
        "4: last piece",
        "4: line before transverse",
        "4: line before second transverse",
        "4: transverse before second transverse",
        "4: before 5",
    ]);
    for side in ["transverse", "second transverse"] {
        expected.extend(["first", "last"].map(|end| format!("4: {end} {side}")));
    }
    expected.extend([501, -501, 5000, -5000].map(|word| format!("4: an ordinate of {word}")));
    expected
}

fn expected_jobs() -> Vec<String> {
    let mut expected = texts(&[
        "g 10",
        "g 50",
        "g divides the second W",
        "g does not divide the second W",
        "nothing on the first side",
        "nothing on the second side",
        "the same on both sides",
        "mirrored sides",
        "an effect that may be left out",
    ]);
    expected.extend(shapes_due(2..=10, 1..=4));
    for first in 1..=5 {
        expected.extend((1..=5).map(|second| format!("{first} + {second} lanes")));
    }
    expected.extend(WIDTHS.map(|width| format!("W {width}")));
    expected.extend(WIDTHS.map(|width| format!("second W {width}")));
    for side in ["first", "second"] {
        expected.extend([1000, -1000].map(|limit| format!("{limit} on the {side} side")));
    }
    expected.extend([500, 499, -499, -500].map(|ordinate| format!("{ordinate} in the line")));
    expected
}

fn expected_traffic() -> Vec<String> {
    let mut expected = vec![];
    for question in ["Greatest", "Least"] {
        let mut both: Vec<String> = ["both sides", "every lane"].map(String::from).to_vec();
        for side in ["first", "second"] {
            both.push(format!("{side} side only"));
            for at in [
                "at its left limit",
                "at its right limit",
                "within its limits",
                "a fraction of its own",
            ] {
                both.push(format!("{side} side, {at}"));
            }
        }
        both.extend((1..=10).map(|lanes| format!("{lanes} lanes")));
        both.extend([1, 2].map(|entry| format!("entry {entry}")));
        let mut normal = both.clone();
        normal.extend(["spares a lane", "the largest"].map(String::from));
        let mut overload = both;
        overload.extend(["a tie across the median", "the largest"].map(String::from));
        overload.extend([3, 4].map(|entry| format!("entry {entry}")));
        overload.extend((1..=10).map(|lane| format!("HO in lane {lane}")));
        overload.extend((0..=9).map(|count| format!("{count} additional")));
        for side in ["first", "second"] {
            overload.push(format!("HO on the {side} side"));
            let factors = [20, 18, 16, 14, 12, 11];
            overload.extend(factors.map(|factor| format!("{factor} on the {side} side")));
        }
        let named = |live: &str, labels: Vec<String>| -> Vec<String> {
            let labels = labels.into_iter();
            labels
                .map(|label| format!("{live} {question}: {label}"))
                .collect()
        };
        expected.extend(named("Normal", normal));
        expected.extend(named("Overload", overload));
    }
    expected
}

stream_tests!(Asked {
    stream: Stream::Three,
    labels,
    expected: &[
        expected_refusals,
        expected_ordinate_faults,
        expected_jobs,
        expected_traffic,
        states_due,
    ],
    seeds: 20_000,
    with_chosen: true,
    order: &[1, 2, 3, 4, 5, 6, 7, 8, 9],
    admitted_since: &[],
    least_of_3: 180,
    sum: 8_086_024_491_436_915_854,
});
