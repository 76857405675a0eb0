//! The stored cases reach every refusal of a job at every kind of place, in every
//! edition. The kinds that are due are listed from papers 01 and 02; a word outside its
//! limits is due next to each of them. Refusal 10 is a train's, and no train is stored.

mod common;

use common::streams::{answer_to, entry_place, reach_all, texts};
use second::chosen::places;
use second::edition::Edition;
use second::generator::Case;
use second::sections::Sections;
use second::store;
use second::words::{joined, words_of};
use std::collections::BTreeSet;

#[test]
fn the_stored_cases_reach_every_refusal_at_every_kind_of_place() {
    reach_all(store::cases(), kinds, due().collect());
}

fn due() -> impl Iterator<Item = String> {
    (1..=4).flat_map(due_of_edition).chain(due_of_no_edition())
}

/// The cases chosen for places reach one each that no stored case before them does.
#[test]
fn each_case_for_a_place_reaches_another_kind() {
    let for_places: Vec<Case> = Edition::ALL.into_iter().flat_map(places::cases).collect();
    let others = store::cases().filter(|case| !for_places.contains(case));
    let mut reached: BTreeSet<String> = others.flat_map(|case| kinds(&case)).collect();
    let due: BTreeSet<String> = due().collect();
    for (number, case) in for_places.iter().enumerate() {
        let kinds = kinds(case);
        let is_new = |kind: &String| due.contains(kind) && !reached.contains(kind);
        assert!(
            kinds.iter().any(is_new),
            "case {number} reaches {kinds:?} again"
        );
        reached.extend(kinds);
    }
}

/// What a refused case reaches, behind its word 0 and its refusal.
fn kinds(case: &Case) -> Vec<String> {
    let words = words_of(&case.job);
    let answer = answer_to(case);
    let (number, place) = (answer.refusal, answer.place as usize);
    let kinds = match number {
        0 => vec![],
        1 => vec![no_job_kind(&case.job)],
        2 => header_kinds(&words, place),
        3 => vec![count_kind(words.len(), place)],
        4 => ordinate_kinds(&words, place),
        5 => crossing_kinds(&words, place),
        6 => table_kinds(&words, place),
        7 | 8 => chain_kinds(&words, place, number),
        9 => vec![patch_kind(case.patch.len(), place)],
        _ => vec![format!("width {} with barriers {}", words[4], words[10])],
    };
    let edition = words.first().map_or("none".into(), i32::to_string);
    behind(&edition, number, kinds)
}

fn behind(edition: &str, number: u64, kinds: Vec<String>) -> Vec<String> {
    let named = |kind| format!("edition {edition}, {number}: {kind}");
    kinds.into_iter().map(named).collect()
}

/// Thirteen words are enough for every edition's header.
fn no_job_kind(job: &[u8]) -> String {
    match (job.len() / 4, job.len() % 4) {
        (words @ 0..=12, 0) => format!("{words} words"),
        (_, 0) => "words enough".into(),
        (0..=12, _) => "few words and bytes over".into(),
        (_, over) => format!("words enough and {over} bytes over"),
    }
}

fn header_kinds(words: &[i32], place: usize) -> Vec<String> {
    let (h, kind, word) = (words[1], words[5], words[place]);
    let mut kinds = vec![format!("word {place} is {word}")];
    match place {
        1 if (1..50).contains(&word) => kinds.push("word 1 between piece lengths".into()),
        2 if word <= 1000 && word == 1000 / h + 1 => kinds.push("word 2 one too many for h".into()),
        6 | 10 => kinds.push(format!("word {place} is {word} with kind {kind}")),
        _ => {}
    }
    kinds
}

fn count_kind(words: usize, due: usize) -> String {
    match words as i64 - due as i64 {
        -1 => "a word short".into(),
        1 => "a word more".into(),
        over if over < 0 => "words short".into(),
        _ => "words more".into(),
    }
}

/// An entry's place among several.
fn position(number: usize, entries: usize) -> &'static str {
    match number {
        _ if entries == 1 => "only",
        0 => "first",
        _ if number + 1 == entries => "last",
        _ => "inner",
    }
}

fn ordinate_kinds(words: &[i32], place: usize) -> Vec<String> {
    let at = entry_place(words, place).expect("an ordinate");
    let (entry, position, word) = (at.entry, position(at.number, at.entries), at.word);
    let ordinate = words[place];
    let side = if ordinate < 0 { "below" } else { "above" };
    let mut kinds = vec![
        format!("{entry} word {word} is {ordinate}"),
        format!("{position} {entry} word {word}"),
        format!("{position} {entry} word {word} {side}"),
    ];
    if (-500..=500).contains(&(ordinate as i16)) {
        kinds.push(format!("{entry} word {word} is lawful in 16 bits"));
    }
    kinds
}

fn crossing_kinds(words: &[i32], place: usize) -> Vec<String> {
    let at = entry_place(words, place).expect("a piece");
    let piece = format!("{} piece", position(at.number, at.entries));
    let slope = if words[place] < 0 {
        "rising"
    } else {
        "falling"
    };
    vec![format!("{piece} {slope}"), piece]
}

/// A number past the last effect or record that there is counts from it.
fn table_kinds(words: &[i32], place: usize) -> Vec<String> {
    let at = entry_place(words, place).expect("a word of the tables");
    let (entry, number, word) = (at.entry, at.number, words[place]);
    let past = |name: &str, count: i32| match i64::from(word) - i64::from(count) {
        1 if count == 0 => format!("{name} 1 where there are none"),
        over @ 1.. => format!("{name} past the last by {over}"),
        _ => format!("{name} {word}"),
    };
    let kind = match (entry, at.word) {
        ("effect", 0) => effect_kind(words, place),
        ("effect", _) if words[0] == 4 => format!("mark {word} of effect {number}"),
        ("effect", _) => format!("mark {word}"),
        ("row", 0) => format!("state {word}"),
        ("row", 1) => format!("live kind {word}"),
        ("row", 2) => format!("live factor {word} of kind {}", words[place - 1]),
        ("row", _) => past("first record", words[9]),
        (_, 0) => past("effect named", words[7]),
        (_, 1) => format!("factor {word}"),
        _ => past("next", words[9]),
    };
    let position = position(number, at.entries);
    let mut kinds = vec![kind, format!("{position} {entry}")];
    if entry == "record" && !(0..words[8] as usize).any(|row| on_chain(words, row, number + 1)) {
        kinds.push("record on no chain".into());
    }
    kinds
}

/// A value of one word, or of two halves.
fn effect_kind(words: &[i32], place: usize) -> String {
    match (words[0], words[place + 1]) {
        (1 | 4, _) => format!("value {}", words[place]),
        (_, 23_284..) => "value above by its high half".into(),
        (_, ..=-23_285) => "value below by its high half".into(),
        (_, high) => format!("value {}", joined(words[place], high)),
    }
}

/// A row's chain as its records' numbers, and the one that it comes back to, or 0. A
/// number that is none ends it.
fn chain(words: &[i32], row: usize) -> (Vec<usize>, usize) {
    let sections = Sections::called_for_by(words);
    let mut numbers = vec![];
    let mut next = words[sections.rows.start + 4 * row + 3] as usize;
    while (1..=words[9] as usize).contains(&next) && !numbers.contains(&next) {
        numbers.push(next);
        next = words[sections.records.start + 3 * next - 1] as usize;
    }
    (numbers, next)
}

fn on_chain(words: &[i32], row: usize, record: usize) -> bool {
    chain(words, row).0.contains(&record)
}

/// Whether a chain's records name an effect twice, and how far apart.
fn repeat(words: &[i32], numbers: &[usize]) -> Option<usize> {
    let records = Sections::called_for_by(words).records.start;
    let named: Vec<i32> = numbers.iter().map(|n| words[records + 3 * n - 3]).collect();
    let repeats = named.iter().enumerate().filter_map(|(at, effect)| {
        let before = named[..at].iter().rposition(|other| other == effect)?;
        Some(at - before)
    });
    repeats.min()
}

/// How a row's chain comes back or names an effect twice, and its row among the others.
fn chain_kinds(words: &[i32], place: usize, refusal: u64) -> Vec<String> {
    let at = entry_place(words, place).expect("a row");
    let (numbers, back_to) = chain(words, at.number);
    let returned = numbers.iter().position(|&number| number == back_to);
    let kind = match (refusal, returned, repeat(words, &numbers)) {
        (7, Some(0), _) if numbers.len() == 1 => "the first record to itself",
        (7, Some(0), _) => "back to the first record",
        (7, Some(to), _) if to + 1 == numbers.len() => "a later record to itself",
        (7, _, _) => "back to a record between",
        (_, _, Some(1)) => "next to each other",
        _ => "apart",
    };
    let mut kinds = vec![
        kind.into(),
        format!("{} row", position(at.number, at.entries)),
    ];
    for other in (0..at.entries).filter(|&other| other != at.number) {
        let which = if other < at.number {
            "an earlier"
        } else {
            "a later"
        };
        let (others, others_back_to) = chain(words, other);
        if others.first() != numbers.first() && others.last() == numbers.last() {
            kinds.push(format!("tail shared with {which} row"));
        }
        if others_back_to == 0 && repeat(words, &others).is_some() {
            kinds.push(format!("beside {which} row that names an effect twice"));
        }
    }
    kinds
}

fn patch_kind(bytes: usize, due: usize) -> String {
    match bytes {
        0 if due == 1 => "no byte of one".into(),
        0 => "no bytes of several".into(),
        _ if bytes + 1 == due => "a byte short of several".into(),
        _ => "bytes short of several".into(),
    }
}

/// 1 without an edition: no word 0, or one that names none with words enough for any;
/// the words next to the editions, far from them, and with an edition's low byte.
fn due_of_no_edition() -> Vec<String> {
    let mut due = behind("none", 1, texts(&["0 words", "few words and bytes over"]));
    for word in [0, -1, 5, i32::MIN, i32::MAX, 257, 258, 259, 260] {
        due.extend(behind(&word.to_string(), 1, texts(&["words enough"])));
    }
    due
}

fn due_of_edition(edition: i32) -> Vec<String> {
    let mut due = vec![
        (1, no_jobs_due(edition)),
        (2, headers_due(edition)),
        (
            3,
            texts(&["a word short", "words short", "a word more", "words more"]),
        ),
        (4, ordinates_due(edition)),
        (5, crossings_due()),
        (6, effects_due(edition)),
        (
            9,
            texts(&[
                "no byte of one",
                "no bytes of several",
                "a byte short of several",
            ]),
        ),
    ];
    if edition == 4 {
        due.push((6, farm_marks_due()));
        due.push((11, bands_due()));
    } else {
        // A farm job has no rows and no records of its own.
        due.push((6, tables_due()));
        due.push((7, returns_due()));
        due.push((8, repeats_due()));
    }
    let behind_edition = |(number, kinds)| behind(&edition.to_string(), number, kinds);
    due.into_iter().flat_map(behind_edition).collect()
}

fn no_jobs_due(edition: i32) -> Vec<String> {
    let header_words = [10, 12, 13, 11][edition as usize - 1];
    let mut due = texts(&["few words and bytes over"]);
    due.extend([1, header_words - 1].map(|words| format!("{words} words")));
    due.extend((1..=3).map(|over| format!("words enough and {over} bytes over")));
    due
}

/// 2: words next to their limits, with the words that those rest on.
fn headers_due(edition: i32) -> Vec<String> {
    let mut words = vec![(1, [0, 51]), (2, [0, 1001]), (3, [9, 51]), (4, [299, 2080])];
    let mut with_kinds = vec![(6, 1, [999, 1301]), (6, 2, [-1, 1]), (6, 3, [-1, 5001])];
    if edition == 4 {
        words.extend([(7, [10, 12]), (8, [-1, 1]), (9, [-1, 1]), (10, [0, 4])]);
    } else {
        words.extend([(7, [-1, 17]), (8, [0, 33]), (9, [-1, 513])]);
    }
    if [2, 3].contains(&edition) {
        words.extend([(5, [0, 5]), (11, [-1, 1])]);
        with_kinds.extend([1, 2, 3].map(|kind| (10, kind, [-1, 1])));
        with_kinds.extend([6, 10].map(|place| (place, 4, [0, 2001])));
    } else {
        words.push((5, [0, 4]));
    }
    if edition == 3 {
        words.push((12, [299, 2080]));
    }
    let words = words
        .into_iter()
        .flat_map(|(place, next)| next.map(|word| format!("word {place} is {word}")));
    let with_kinds = with_kinds.into_iter().flat_map(|(place, kind, next)| {
        next.map(|word| format!("word {place} is {word} with kind {kind}"))
    });
    let others = texts(&["word 1 between piece lengths", "word 2 one too many for h"]);
    words.chain(with_kinds).chain(others).collect()
}

const ENDS: [&str; 2] = ["first", "last"];

fn ordinates_due(edition: i32) -> Vec<String> {
    let most = if edition == 3 { 500 } else { 5000 };
    let mut ordinates = vec![
        ("piece", 0, most),
        ("piece", 1, most),
        ("transverse", 0, 1000),
    ];
    if edition == 3 {
        ordinates.push(("second transverse", 0, 1000));
    }
    let mut due = vec![];
    for (entry, word, most) in ordinates {
        due.extend([-most - 1, most + 1].map(|next| format!("{entry} word {word} is {next}")));
        due.push(format!("inner {entry} word {word}"));
        for end in ENDS {
            let sides = ["below", "above"];
            due.extend(sides.map(|side| format!("{end} {entry} word {word} {side}")));
        }
        due.push(format!("{entry} word {word} is lawful in 16 bits"));
    }
    due
}

fn crossings_due() -> Vec<String> {
    let slopes = ["rising", "falling"];
    let of = |end| slopes.map(|slope| format!("{end} piece {slope}"));
    let mut due = texts(&["inner piece"]);
    due.extend(ENDS.into_iter().flat_map(of));
    due
}

fn placed(entry: &str) -> [String; 3] {
    ["first", "inner", "last"].map(|position| format!("{position} {entry}"))
}

fn effects_due(edition: i32) -> Vec<String> {
    match edition {
        2 | 3 => {
            let mut due = placed("effect").to_vec();
            due.extend(texts(&[
                "value -100000000000001",
                "value 100000000000001",
                "value below by its high half",
                "value above by its high half",
                "mark 0",
                "mark 3",
            ]));
            due
        }
        _ => {
            let mut due = placed("effect").to_vec();
            due.extend(texts(&["value -1000000001", "value 1000000001"]));
            if edition == 1 {
                due.extend(texts(&["mark 0", "mark 3"]));
            }
            due
        }
    }
}

/// The first three effects carry mark 1, the others 2.
fn farm_marks_due() -> Vec<String> {
    let other = |effect| if effect < 3 { 2 } else { 1 };
    let marks =
        |effect| [0, other(effect), 3].map(|mark| format!("mark {mark} of effect {effect}"));
    (0..11).flat_map(marks).collect()
}

/// 6 in a row or in a record.
fn tables_due() -> Vec<String> {
    let mut due = texts(&[
        "state 0",
        "state 3",
        "live kind -1",
        "live kind 3",
        "live factor -1 of kind 0",
        "live factor 1 of kind 0",
        "live factor -1 of kind 1",
        "live factor 3001 of kind 1",
        "live factor -1 of kind 2",
        "live factor 3001 of kind 2",
        "first record -1",
        "first record past the last by 1",
        "first record 1 where there are none",
        "effect named 0",
        "effect named past the last by 1",
        "effect named 1 where there are none",
        "factor -1",
        "factor 3001",
        "next -1",
        "next past the last by 1",
        "record on no chain",
    ]);
    due.extend(placed("row"));
    due.extend(placed("record"));
    due
}

/// 7. A row before it with the same tail would come back, too.
fn returns_due() -> Vec<String> {
    texts(&[
        "the first record to itself",
        "a later record to itself",
        "back to the first record",
        "back to a record between",
        "first row",
        "inner row",
        "last row",
        "tail shared with a later row",
        "beside an earlier row that names an effect twice",
    ])
}

fn repeats_due() -> Vec<String> {
    texts(&[
        "next to each other",
        "apart",
        "first row",
        "inner row",
        "last row",
        "tail shared with an earlier row",
        "tail shared with a later row",
    ])
}

/// 11. A width below 300 is refused with 2, so that only traffic barriers have widths
/// below their band.
fn bands_due() -> Vec<String> {
    texts(&[
        "width 371 with barriers 1",
        "width 371 with barriers 2",
        "width 369 with barriers 3",
        "width 431 with barriers 3",
    ])
}
