//! The chosen cases reach what they are chosen for.

use second::chosen::{self, places, PAST_LIMITS};
use second::edition::Edition;
use second::generator::{Case, Stream};
use second::{solve, store};

/// The chosen cases of a stream that come before those for places.
fn before_places(stream: Stream) -> Vec<Case> {
    let mut cases: Vec<Case> = chosen::cases(stream).collect();
    cases.truncate(cases.len() - places::cases(stream.edition()).len());
    cases
}

/// Job A's rows follow 10 words, 40 ordinates, 19 transverse ones and, here,
/// sixteen effects: they start at word 101.
#[test]
fn their_lengths_and_answers() {
    let reached = chosen::cases(Stream::One).map(|mut case| {
        let answer = solve(&case.job, &mut case.patch);
        (case.job.len(), answer.refusal, answer.place)
    });
    let due = [
        (4 * 3915, 0, 0),
        (4 * 3916, 3, 3915),
        (4 * 1645, 7, 101),
        (4 * 1645, 8, 101),
    ];
    assert_eq!(reached.take(due.len()).collect::<Vec<_>>(), due);
}

/// Edition 2's last two but for places: every section as long as it may be, and a word
/// more.
#[test]
fn the_most_words_of_edition_2() {
    let reached: Vec<_> = before_places(Stream::Two)
        .into_iter()
        .map(|mut case| {
            let answer = solve(&case.job, &mut case.patch);
            (case.job.len(), answer.refusal, answer.place)
        })
        .collect();
    let due = [(4 * 3933, 0, 0), (4 * 3934, 3, 3933)];
    assert_eq!(reached[reached.len() - 2..], due);
}

/// The first with spans by sign are the pairs of spans of 1, 119, 120, 121, 122 and
/// 2000 dm, whose factors are 1300 four times, 1299 and 1064. Their job is 8 over 5 m
/// and -6 over the next, under an ordinate of 500: raising HN is 7 * 50 * 16 + 1600 * 8
/// = 18400, HO 31200; lowering HN is 7 * 50 * -12 - 1600 * 6 = -13800, HO -23400. That
/// is 690, 1170, -517.5 and -877.5 N·U for each thousandth.
#[test]
fn pairs_of_spans() {
    let greatest = [(690 * 1300, 1170 * 1300); 4]
        .into_iter()
        .chain([(896_310, 1_519_830), (734_160, 1_244_880)]);
    // 517.5 * 1299 = 672232.5 and 877.5 * 1299 = 1139872.5.
    let least = [(-672_750, -1_140_750); 4]
        .into_iter()
        .chain([(-672_233, -1_139_873), (-550_620, -933_660)]);
    let due = greatest.flat_map(|greatest| least.clone().map(move |least| (greatest, least)));
    for (mut case, due) in chosen::cases(Stream::Spans).zip(due) {
        let account = solve(&case.job, &mut case.patch).account;
        let [normal, overload] = [account.normal_greatest, account.overload_greatest];
        let [normal_least, overload_least] = [account.normal_least, account.overload_least];
        let found = (
            (normal.value, overload.value),
            (normal_least.value, overload_least.value),
        );
        assert_eq!(found, due);
    }
}

/// Twenty twentieths, the ordinate at 150 cm times n g, and the line effect of
/// 7 and an axle give the sum: the dividends are next to 2^32 on both sides.
#[test]
fn dividends_next_to_32_bits() {
    let (normal, overload) = (20 * 40 * (7 + 1600), 20 * 20 * (7 + 3200));
    let due = [
        (40, 3 * 1113 * normal),
        (40, 3 * 1114 * normal),
        (37, 3 * 1116 * overload),
        (37, 3 * 1117 * overload),
    ];
    for (number, (mut case, (g, dividend))) in
        (0..).zip(chosen::cases(Stream::One).skip(4).zip(due))
    {
        let account = solve(&case.job, &mut case.patch).account;
        let value = [&account.normal_greatest, &account.overload_greatest][number / 2].value;
        assert_eq!(value, (dividend + 800_000 * g - 1) / (800_000 * g));
        assert_eq!(dividend < 1 << 32, number % 2 == 0);
        assert!((dividend - (1 << 32)).abs() < 5_000_000);
    }
}

/// A word past its limit is refused at its place.
#[test]
fn past_a_limit_the_word_is_refused() {
    let cases = before_places(Stream::One);
    let before = cases.len() - PAST_LIMITS.len();
    for (changes, mut case) in PAST_LIMITS.iter().zip(cases.into_iter().skip(before)) {
        let (place, word) = changes[changes.len() - 1];
        let answer = solve(&case.job, &mut case.patch);
        let due = if place < Edition::One.header_words() {
            2
        } else {
            6
        };
        assert_eq!(
            (answer.refusal, answer.place),
            (due, place as u64),
            "word {word}"
        );
    }
}

/// Those for places have a fault each; their job without it has none.
#[test]
fn jobs_for_places_are_refused() {
    for edition in Edition::ALL {
        let sound = places::short_job(edition);
        let mut patch = vec![0; sound.pieces.len()];
        assert_eq!(solve(&sound.bytes(), &mut patch).refusal, 0, "{edition:?}");
        for (number, mut case) in places::cases(edition).into_iter().enumerate() {
            let refusal = solve(&case.job, &mut case.patch).refusal;
            assert_ne!(refusal, 0, "{edition:?}, chosen case {number}");
        }
    }
}

/// Those of additional overload lanes have no fault.
#[test]
fn jobs_of_additional_lanes_are_accepted() {
    for (number, mut case) in chosen::overload_lanes::cases().enumerate() {
        let refusal = solve(&case.job, &mut case.patch).refusal;
        assert_eq!(refusal, 0, "chosen case {number}");
    }
}

/// They come after all of editions 1, 2 and 4; then come those of edition 3, and last
/// those of the records walked.
#[test]
fn jobs_of_no_one_stream_are_stored_before_and_after_those_of_edition_3() {
    let generated = store::generated_cases(Stream::Three);
    let last: Vec<_> = chosen::overload_lanes::cases()
        .chain(generated)
        .chain(chosen::cases(Stream::Three))
        .chain(chosen::records_walked::cases())
        .collect();
    let stored: Vec<_> = store::cases().collect();
    assert!(stored[stored.len() - last.len()..] == last);
}

/// A case stored twice tells nothing new.
#[test]
fn none_is_stored_twice() {
    let generated: Vec<_> = Stream::ALL
        .into_iter()
        .flat_map(store::generated_cases)
        .collect();
    let chosen: Vec<_> = chosen::all().collect();
    for (number, case) in chosen.iter().enumerate() {
        assert!(!generated.contains(case), "chosen case {number}");
        assert!(!chosen[..number].contains(case), "chosen case {number}");
    }
}
