//! 01 "The host and the program", 02 "Two carriageways" and "Records walked": what the
//! program prints, and a page with the whole account.

use crate::account::{Account, Answer, Governing, Lane, Stand, State, Traffic, UNLOADED};

/// Four lines, or `refused NUMBER at PLACE`; each line ends in a newline.
pub fn report(answer: &Answer) -> String {
    if answer.refusal != 0 {
        return refusal_line(answer.refusal, answer.place);
    }
    let account = &answer.account;
    [
        traffic_line("normal", &account.normal_greatest, &account.normal_least),
        traffic_line(
            "overload",
            &account.overload_greatest,
            &account.overload_least,
        ),
        state_line("service", &account.service),
        state_line("ultimate", &account.ultimate),
    ]
    .concat()
}

pub fn refusal_line(number: u64, place: u64) -> String {
    format!("refused {number} at {place}\n")
}

fn traffic_line(name: &str, greatest: &Traffic, least: &Traffic) -> String {
    format!("{name} greatest {} least {}\n", greatest.value, least.value)
}

fn state_line(name: &str, state: &State) -> String {
    if state.present == 0 {
        return format!("{name} none\n");
    }
    format!(
        "{name} greatest {} row {} least {} row {}\n",
        state.greatest.value, state.greatest.row, state.least.value, state.least.row
    )
}

/// The whole account of an accepted job, as the kernel's example host prints it.
pub fn page(account: &Account) -> String {
    let placement =
        |name, traffic| placement_lines(name, account.first_lanes, account.second_lanes, traffic);
    [
        placement("normal greatest", &account.normal_greatest),
        placement("normal least", &account.normal_least),
        placement("overload greatest", &account.overload_greatest),
        placement("overload least", &account.overload_least),
        pair_line("raising", &account.raising),
        pair_line("lowering", &account.lowering),
        governing_lines("service", &account.service),
        governing_lines("ultimate", &account.ultimate),
        format!("records walked {}\n", account.records_walked),
    ]
    .concat()
}

/// A traffic value, then its placement with a line for each loaded lane. A centre is
/// over the lanes of its own carriageway.
fn placement_lines(name: &str, first: u32, second: u32, traffic: &Traffic) -> String {
    let mut lines = format!("{name} {} N.U\n", traffic.value);
    let lanes = match second {
        0 => format!("{first}"),
        _ => format!("{first} + {second}"),
    };
    lines += &format!("  lanes {lanes}, set {}\n", traffic.set);
    for (number, lane) in (1..).zip(&traffic.lanes) {
        let n = if number <= first { first } else { second };
        let entry = [
            "unloaded",
            "HN raising",
            "HN lowering",
            "HO raising",
            "HO lowering",
        ];
        if lane.entry != UNLOADED {
            let entry = entry[lane.entry as usize];
            let Lane { centre, factor, .. } = lane;
            lines +=
                &format!("  lane {number}: {entry}, centre {centre}/{n} cm, factor {factor}\n");
        }
    }
    lines
}

fn pair_line(name: &str, stand: &Stand) -> String {
    let side = ["left", "right"][stand.side as usize];
    format!("{name} pair at station {}, side {side}\n", stand.station)
}

fn governing_lines(name: &str, state: &State) -> String {
    if state.present == 0 {
        return format!("{name} none\n");
    }
    let line = |question: &str, governing: &Governing| {
        let traffic = ["not left out", "left out"][governing.traffic_left_out as usize];
        let k = match governing.k {
            0 => String::new(),
            k => format!(", k {k}"),
        };
        format!(
            "{name} {question} {} row {}, left out {}, traffic {traffic}{k}\n",
            governing.value, governing.row, governing.omitted
        )
    };
    line("greatest", &state.greatest) + &line("least", &state.least)
}
