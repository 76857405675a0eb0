//! The generator reaches every refusal, by every cause and kind of place, and
//! every shape of job and outcome.

mod common;

use common::streams::{
    answer_to, refusals_of_tables_due, section_labels, shape_labels, shapes_due, state_labels,
    states_due, texts, Asked,
};
use second::account::Account;
use second::edition::Edition;
use second::generator::{Case, Stream};
use second::job::Job;
use second::lanes::lane_count;
use second::line::{pair_ordinates, patch_byte, pieces_between_axles, stations, Stand};
use second::loads::Side;
use second::sections::Sections;
use second::words::words_of;
use second::Answer;
use std::collections::BTreeSet;

/// Where the number of lanes changes.
const WIDTHS: [i64; 10] = [300, 599, 600, 969, 970, 1339, 1340, 1709, 1710, 2079];

/// Where the fill stops counting, in cm.
const FILLS: [i64; 3] = [99, 100, 101];

/// What is worth reaching about a case.
fn labels(case: &Case) -> Vec<String> {
    let answer = answer_to(case);
    if answer.refusal == 0 {
        let job = Job::decode(&words_of(&case.job));
        let mut labels = job_labels(&job);
        labels.extend(outcome_labels(&job, &answer.account));
        if case.patch.len() > job.pieces.len() {
            labels.push("a longer patch buffer".into());
        }
        labels
    } else {
        refusal_labels(case, &answer)
    }
}

fn refusal_labels(case: &Case, answer: &Answer) -> Vec<String> {
    let words = words_of(&case.job);
    let (number, place) = (answer.refusal, answer.place as usize);
    let mut labels = vec![];
    let mut reached = |label: &str| labels.push(format!("{number}: {label}"));
    match number {
        1 if case.job.is_empty() => reached("no bytes"),
        1 if case.job.len() < 40 => reached("short"),
        1 if !case.job.len().is_multiple_of(4) => reached("uneven"),
        1 => reached("edition"),
        2 => {
            reached(&format!("word {place}"));
            if place == 2 && (1..=1000).contains(&words[2]) {
                reached("line too long");
            }
            if place == 6 {
                reached(&format!("value of kind {}", words[5]));
            }
        }
        3 if words.len() < place => reached("too few"),
        3 => reached("too many"),
        9 => reached(match case.patch.len() {
            0 => "no patch bytes",
            length if length + 1 == place => "one byte short",
            _ => "some bytes short",
        }),
        _ => {
            for label in section_labels(&words, place) {
                reached(&label);
            }
            let rows = Sections::called_for_by(&words).rows;
            let is_live_factor = rows.contains(&place) && (place - rows.start) % 4 == 2;
            if is_live_factor && words[place - 1] == 0 {
                reached("live factor for kind 0");
            }
        }
    }
    labels
}

fn job_labels(job: &Job) -> Vec<String> {
    let mut labels = shape_labels(job);
    if job.pieces.len() as i64 * job.piece_length == 1000 {
        labels.push(format!("longest line of h {}", job.piece_length));
    }
    if WIDTHS.contains(&job.width) {
        labels.push(format!("W {}", job.width));
    }
    if job.dynamic_kind == 3 && FILLS.contains(&job.dynamic_value) {
        labels.push(format!("fill {}", job.dynamic_value));
    }
    let mut reached = |holds: bool, label: &str| {
        if holds {
            labels.push(label.into());
        }
    };
    reached(job.pieces.len() == 1, "one piece");
    reached(job.spacing == 10, "g 10");
    reached(job.spacing == 50, "g 50");
    reached(job.width % job.spacing == 0, "g divides W");
    reached(job.width % job.spacing != 0, "g does not divide W");

    let bytes: BTreeSet<u8> = job.pieces.iter().map(patch_byte).collect();
    reached(bytes == [0].into(), "zero line");
    reached(bytes == [1].into(), "line above 0");
    reached(bytes == [2].into(), "line below 0");
    reached(bytes.len() == 3, "line of all signs");
    let joins = job.pieces.windows(2).all(|two| two[0].right == two[1].left);
    reached(joins && job.pieces.len() > 2, "joined line");
    reached(!joins, "line with jumps");
    let ordinates = || {
        job.pieces
            .iter()
            .flat_map(|piece| [piece.left, piece.right])
    };
    reached(
        ordinates().any(|ordinate| ordinate == 5000),
        "ordinate 5000",
    );
    reached(
        ordinates().any(|ordinate| ordinate == -5000),
        "ordinate -5000",
    );
    let across = &job.transverse;
    reached(
        across.iter().all(|&ordinate| ordinate == 0),
        "zero transverse line",
    );
    reached(across.contains(&1000), "transverse 1000");
    reached(across.contains(&-1000), "transverse -1000");
    let both_signs = across.iter().any(|&t| t > 0) && across.iter().any(|&t| t < 0);
    reached(both_signs, "transverse line of two signs");

    reached(job.effects.is_empty(), "no effects");
    reached(job.effects.len() == 16, "16 effects");
    reached(
        job.effects.iter().any(|effect| effect.value == 0),
        "effect 0",
    );
    let extreme = |value: i64| job.effects.iter().any(|effect| effect.value == value);
    reached(extreme(1_000_000_000), "effect 1000000000");
    reached(extreme(-1_000_000_000), "effect -1000000000");
    reached(job.rows.len() == 1, "one row");
    reached(job.rows.len() == 32, "32 rows");
    reached(job.records.is_empty(), "no records");
    reached(job.records.len() == 512, "512 records");
    for kind in 0..=2 {
        let has_kind = job.rows.iter().any(|row| row.live_kind == kind);
        reached(has_kind, &format!("live kind {kind}"));
    }
    let traffic_rows = || job.rows.iter().filter(|row| row.live_kind != 0);
    reached(
        traffic_rows().any(|row| row.live_factor == 0),
        "live factor 0",
    );
    reached(
        traffic_rows().any(|row| row.live_factor == 3000),
        "live factor 3000",
    );
    reached(job.rows.iter().any(|row| row.first == 0), "empty chain");

    let chains: Vec<_> = job.rows.iter().map(|row| job.chain(row)).collect();
    reached(
        chains.iter().any(|chain| chain.len() == 16),
        "chain of 16 records",
    );
    let on_chains = || chains.iter().flatten();
    reached(
        on_chains().any(|record| record.factor == 0),
        "factor 0 on a chain",
    );
    // Two rows that differ at the start and share a tail.
    let shares_tail = job.rows.iter().enumerate().any(|(at, row)| {
        job.rows[..at].iter().any(|other| {
            let (one, two) = (job.chain(row), job.chain(other));
            row.first != other.first && one.last().is_some() && one.last() == two.last()
        })
    });
    reached(shares_tail, "shared tail");
    let mut used = BTreeSet::new();
    for row in &job.rows {
        let mut number = row.first;
        while number != 0 {
            used.insert(number);
            number = job.records[number - 1].next;
        }
    }
    let unused = || (1..=job.records.len()).filter(|number| !used.contains(number));
    reached(unused().next().is_some(), "unused record");
    let leads_to_itself = |number: usize| job.records[number - 1].next == number;
    reached(unused().any(leads_to_itself), "unused record in a circle");
    labels
}

fn outcome_labels(job: &Job, account: &Account) -> Vec<String> {
    let mut labels = vec![];
    let traffic = [
        ("normal greatest", account.normal_greatest),
        ("normal least", account.normal_least),
        ("overload greatest", account.overload_greatest),
        ("overload least", account.overload_least),
    ];
    if account.overload_greatest.value == 38_454_000_000 {
        labels.push("the largest overload greatest".into());
    }
    if account.overload_least.value == -38_454_000_000 {
        labels.push("the largest overload least".into());
    }
    for (name, traffic) in traffic {
        labels.push(format!("{name} on {} lanes", traffic.set.count_ones()));
        if traffic.set.count_ones() < lane_count(job.width) as u32 && traffic.value != 0 {
            labels.push(format!("{name} spares a lane"));
        }
        for (lane, reported) in traffic.lanes.iter().enumerate() {
            labels.push(format!("{name}: entry {}", reported.entry));
            if reported.entry >= 3 {
                labels.push(format!("{name}: HO in lane {}", lane + 1));
            }
        }
    }
    for (name, stand) in [("raising", account.raising), ("lowering", account.lowering)] {
        labels.push(format!("{name} side {}", stand.side));
        // Whether every best stand has an axle off the line.
        let sum_at = |station: i64, side: Side| {
            let sum = pair_ordinates(job, Stand { station, side });
            if name == "raising" {
                sum
            } else {
                -sum
            }
        };
        let best_of = |stations: std::ops::RangeInclusive<i64>| {
            let sums = stations
                .flat_map(|station| [Side::Left, Side::Right].map(|side| sum_at(station, side)));
            sums.max().unwrap_or(0)
        };
        let (first, last) = stations(job).into_inner();
        if best_of(first..=-1) > best_of(0..=last) {
            labels.push(format!("{name} with the left axle off the line"));
        }
        let last_on = last - pieces_between_axles(job);
        if best_of(last_on + 1..=last) > best_of(first..=last_on) {
            labels.push(format!("{name} with the right axle off the line"));
        }
        let best_from = |side: Side| (first..=last).map(|at| sum_at(at, side)).max();
        if best_from(Side::Left) > best_from(Side::Right) {
            labels.push(format!("{name} from the left only"));
        }
        if best_from(Side::Right) > best_from(Side::Left) {
            labels.push(format!("{name} from the right only"));
        }
    }
    labels.extend(state_labels(job, account));
    labels
}

fn expected_refusals() -> Vec<String> {
    let mut expected = texts(&[
        "1: no bytes",
        "1: short",
        "1: uneven",
        "1: edition",
        "2: line too long",
        "3: too few",
        "3: too many",
        "4: piece word 0",
        "4: piece word 1",
        "4: first transverse",
        "4: last transverse",
        "6: effect word 1",
        "6: live factor for kind 0",
        "9: no patch bytes",
        "9: one byte short",
        "9: some bytes short",
    ]);
    expected.extend((1..=9).map(|place| format!("2: word {place}")));
    expected.extend((1..=3).map(|kind| format!("2: value of kind {kind}")));
    for (number, entry) in [
        (4, "piece"),
        (5, "piece"),
        (6, "row"),
        (6, "record"),
        (7, "row"),
        (8, "row"),
    ] {
        expected.extend(["first", "last"].map(|end| format!("{number}: {end} {entry}")));
    }
    expected
}

fn expected_lines() -> Vec<String> {
    let mut expected = texts(&[
        "a longer patch buffer",
        "one piece",
        "g 10",
        "g 50",
        "g divides W",
        "g does not divide W",
        "zero line",
        "line above 0",
        "line below 0",
        "line of all signs",
        "joined line",
        "line with jumps",
        "ordinate 5000",
        "ordinate -5000",
        "zero transverse line",
        "transverse 1000",
        "transverse -1000",
        "transverse line of two signs",
    ]);
    expected.extend([1, 2, 5, 10, 25, 50].map(|h| format!("longest line of h {h}")));
    expected.extend(WIDTHS.map(|width| format!("W {width}")));
    expected.extend(FILLS.map(|fill| format!("fill {fill}")));
    expected.extend(shapes_due(1..=5, 1..=3));
    expected
}

fn expected_tables() -> Vec<String> {
    texts(&[
        "no effects",
        "16 effects",
        "effect 0",
        "effect 1000000000",
        "effect -1000000000",
        "one row",
        "32 rows",
        "no records",
        "512 records",
        "live kind 0",
        "live kind 1",
        "live kind 2",
        "live factor 0",
        "live factor 3000",
        "empty chain",
        "chain of 16 records",
        "factor 0 on a chain",
        "shared tail",
        "unused record",
        "unused record in a circle",
    ])
}

fn expected_traffic() -> Vec<String> {
    let mut expected = vec![];
    for question in ["greatest", "least"] {
        let normal = |label: String| format!("normal {question}{label}");
        let overload = |label: String| format!("overload {question}{label}");
        expected.extend((0..=5).map(|lanes| normal(format!(" on {lanes} lanes"))));
        expected.extend((0..=2).map(|entry| normal(format!(": entry {entry}"))));
        expected.extend((1..=5).map(|lanes| overload(format!(" on {lanes} lanes"))));
        expected.extend((1..=5).map(|lane| overload(format!(": HO in lane {lane}"))));
        expected.extend((0..=4).map(|entry| overload(format!(": entry {entry}"))));
        for live in ["normal", "overload"] {
            expected.push(format!("{live} {question} spares a lane"));
        }
        expected.push(format!("the largest overload {question}"));
    }
    expected
}

fn expected_stands() -> Vec<String> {
    let mut expected = vec![];
    for direction in ["raising", "lowering"] {
        for label in [
            "side 0",
            "side 1",
            "with the left axle off the line",
            "with the right axle off the line",
            "from the left only",
            "from the right only",
        ] {
            expected.push(format!("{direction} {label}"));
        }
    }
    expected
}

stream_tests!(Asked {
    stream: Stream::One,
    labels,
    expected: &[
        expected_refusals,
        refusals_of_tables_due,
        expected_lines,
        expected_tables,
        expected_traffic,
        expected_stands,
        states_due,
    ],
    seeds: 8_000,
    with_chosen: false,
    order: &[1, 2, 3, 4, 5, 6, 7, 8, 9],
    admitted_since: &[Edition::Two, Edition::Three],
    least_of_3: 180,
    sum: 3_699_499_953_521_068_672,
});
