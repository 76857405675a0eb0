//! 02 "Span by sign": jobs whose figures are worked out by hand.

mod common;

use common::{pieces, spans_job, traffic_values};
use second::account::Traffic;
use second::job::Job;
use second::loads::{dynamic_factor, Question};
use second::solve;
use second::solve::account_of;
use second::words::words_of;

/// Spans in dm with their factors, what is over 1 being 15/(L + 38) with L in metres.
const FACTORS: [(i64, i64); 24] = [
    // To 12 m it is level: 15/50 = 0.3 at 12 m itself.
    (1, 1300),
    (10, 1300),
    (12, 1300),
    (119, 1300),
    (120, 1300),
    // 15/50.1 = 0.29940, 15/50.2 = 0.29880, 15/50.3 = 0.29821, 15/50.4 = 0.29762.
    (121, 1300),
    (122, 1299),
    (123, 1299),
    (124, 1298),
    // 15/59.9 = 0.25042, 15/60 = 0.25, 15/60.1 = 0.24958.
    (219, 1251),
    (220, 1250),
    (221, 1250),
    // 15/62.5 = 0.24 and 15/75 = 0.2.
    (245, 1240),
    (370, 1200),
    // 15/99.9 = 0.15015, 15/100 = 0.15, 15/100.1 = 0.14985.
    (619, 1151),
    (620, 1150),
    (621, 1150),
    // 15/108 = 0.13889, 15/138 = 0.10870.
    (700, 1139),
    (1000, 1109),
    // 15/150 = 0.1, 15/187.5 = 0.08, 15/200 = 0.075.
    (1120, 1100),
    (1495, 1080),
    (1620, 1075),
    // 15/237.9 = 0.06305, 15/238 = 0.06303.
    (1999, 1064),
    (2000, 1064),
];

#[test]
fn factors_of_spans() {
    for (span, factor) in FACTORS {
        assert_eq!(dynamic_factor(4, span), factor, "{span} dm");
    }
}

/// Beyond 120 dm the factor is the least whole number of thousandths that reaches
/// 1000 + 15000/(L + 38): times L + 38 in dm, what is over 1000 reaches 150000, and
/// one less does not. It never rises, and falls by steps of 1.
#[test]
fn factors_of_all_spans() {
    let mut before = 1300;
    for span in 1..=2000 {
        let factor = dynamic_factor(4, span);
        if span <= 120 {
            assert_eq!(factor, 1300, "{span} dm");
        } else {
            let over = factor - 1000;
            assert!(over * (span + 380) >= 150_000, "{span} dm");
            assert!((over - 1) * (span + 380) < 150_000, "{span} dm");
        }
        assert!(factor <= before && before - factor <= 1, "{span} dm");
        before = factor;
    }
    assert_eq!(before, 1064);
}

#[track_caller]
fn gives(job: &Job, due: [i64; 4]) {
    let spans = (job.dynamic_value, job.further_header[0]);
    assert_eq!(traffic_values(&account_of(job)), due, "{spans:?}");
}

/// 1380 and 2340 times 1300, 1299 and 1064.
const AT_1300: [i64; 2] = [1_794_000, 3_042_000];
const AT_1299: [i64; 2] = [1_792_620, 3_039_660];
const AT_1064: [i64; 2] = [1_468_320, 2_489_760];
/// And times 1139, that of 70 m.
const AT_1139: [i64; 2] = [1_571_820, 2_665_260];

/// The spans that the curve turns at, with the traffic of `spans_job`.
const SPANS: [(i64, [i64; 2]); 6] = [
    (1, AT_1300),
    (119, AT_1300),
    (120, AT_1300),
    (121, AT_1300),
    (122, AT_1299),
    (2000, AT_1064),
];

/// Word 5 is the kind, word 6 the span for greatest, word 10 that for least and word
/// 11 a zero; a job's fields come back from its words, and its bytes give its account.
#[test]
fn the_spans_are_words_6_and_10() {
    let job = spans_job(122, 2000);
    let words = words_of(&job.bytes());
    assert_eq!(words[..12], [2, 50, 2, 50, 300, 4, 122, 0, 2, 0, 2000, 0]);
    assert_eq!(Job::decode(&words), job);
    let answer = solve(&job.bytes(), &mut [0; 2]);
    let due = [AT_1299[0], -AT_1064[0], AT_1299[1], -AT_1064[1]];
    assert_eq!((answer.refusal, traffic_values(&answer.account)), (0, due));
}

#[test]
fn each_question_has_its_own_span() {
    for (span, [normal, overload]) in SPANS {
        let [other_normal, other_overload] = AT_1139;
        gives(
            &spans_job(span, 700),
            [normal, -other_normal, overload, -other_overload],
        );
        gives(
            &spans_job(700, span),
            [other_normal, -normal, other_overload, -overload],
        );
    }
}

#[test]
fn every_pair_of_spans() {
    for (greatest, up) in SPANS {
        for (least, down) in SPANS {
            let due = [up[0], -down[0], up[1], -down[1]];
            gives(&spans_job(greatest, least), due);
        }
    }
}

/// Rows take the traffic of their question: 1350 times normal, 1500 times overload.
#[test]
fn states_take_the_traffic_of_their_question() {
    let account = account_of(&spans_job(122, 2000));
    let (service, ultimate) = (account.service, account.ultimate);
    assert_eq!(service.greatest.value, 2_420_037_000);
    assert_eq!(service.least.value, -1_982_232_000);
    assert_eq!(ultimate.greatest.value, 4_559_490_000);
    assert_eq!(ultimate.least.value, -3_734_640_000);
}

/// The entries of a placement's loaded lanes.
fn entries(traffic: &Traffic) -> Vec<u32> {
    let entries = traffic.lanes.iter().map(|lane| lane.entry);
    entries.filter(|&entry| entry != 0).collect()
}

/// Under an ordinate of -1000 lowering elements give the greatest, raising ones the
/// least: the factor goes by the question all the same.
#[test]
fn lowering_elements_take_the_span_for_greatest() {
    let mut job = spans_job(2000, 1);
    job.transverse = vec![-1000; 7];
    gives(&job, [AT_1064[0], -AT_1300[0], AT_1064[1], -AT_1300[1]]);
    let account = account_of(&job);
    assert_eq!(entries(&account.normal_greatest), [2]);
    assert_eq!(entries(&account.normal_least), [1]);
    assert_eq!(entries(&account.overload_greatest), [4]);
    assert_eq!(entries(&account.overload_least), [3]);
}

/// A line above 0 alone, and one below: over an ordinate of either sign one question
/// gives 0, and the other has its own factor.
#[test]
fn a_line_of_one_sign() {
    for (ordinate, across, positive) in [
        (8, 1000, true),
        (8, -1000, false),
        (-8, 1000, false),
        (-8, -1000, true),
    ] {
        let mut job = spans_job(122, 2000);
        job.pieces = pieces(&[(ordinate, ordinate)]);
        job.transverse = vec![across; 7];
        let due = if positive {
            [AT_1299[0], 0, AT_1299[1], 0]
        } else {
            [0, -AT_1064[0], 0, -AT_1064[1]]
        };
        gives(&job, due);
    }
}

/// Two lanes, 1000 over one and -1000 over the other: a raising and a lowering element
/// stand side by side and take one factor. Normal is 36800 * 1000 * 18 * 3 / 800000 =
/// 2484 for each thousandth, overload (31200 + 18400) * 1000 * 20 * 3 / 800000 = 3720.
#[test]
fn elements_of_both_directions_take_one_factor() {
    let mut transverse = vec![0; 13];
    (transverse[3], transverse[9]) = (1000, -1000);
    let mut job = spans_job(122, 2000);
    (job.width, job.transverse) = (600, transverse);
    // 2484 and 3720 times 1299 and times 1064.
    gives(&job, [3_226_716, -2_642_976, 4_832_280, -3_958_080]);
    let account = account_of(&job);
    assert_eq!(entries(&account.normal_greatest), [1, 2]);
    assert_eq!(entries(&account.normal_least), [2, 1]);
}

/// An ordinate of 7 makes normal 9.66 for each thousandth, overload 16.38; up for
/// greatest, down for least. Times 1299: 12548.34 and 21277.62; times 1064: 10278.24
/// and 17428.32; times 1300: 12558 and 21294.
#[test]
fn the_effect_is_rounded_for_its_question() {
    let cases = [
        (122, 2000, [12_549, -10_279, 21_278, -17_429]),
        (2000, 122, [10_279, -12_549, 17_429, -21_278]),
        (121, 122, [12_558, -12_549, 21_294, -21_278]),
    ];
    for (greatest, least, due) in cases {
        let mut job = spans_job(greatest, least);
        job.transverse = vec![7; 7];
        gives(&job, due);
    }
}

/// With equal spans the account is that of kind 1 with their factor.
#[test]
fn equal_spans_are_one_factor() {
    for (span, factor) in FACTORS {
        let job = spans_job(span, span);
        let mut as_kind_1 = job.clone();
        (as_kind_1.dynamic_kind, as_kind_1.dynamic_value) = (1, factor);
        as_kind_1.further_header = vec![0, 0];
        assert_eq!(account_of(&job), account_of(&as_kind_1), "{span} dm");
    }
}

/// Kinds 1 to 3 have one factor for both questions, in edition 2 as well.
#[test]
fn other_kinds_have_one_factor() {
    for (kind, value, factor) in [(1, 1234, 1234), (2, 0, 1000), (3, 50, 1150)] {
        let mut job = spans_job(1, 1);
        (job.dynamic_kind, job.dynamic_value) = (kind, value);
        job.further_header = vec![0, 0];
        for question in Question::BOTH {
            assert_eq!(job.dynamic_factor(question), factor);
        }
        gives(&job, [1380, -1380, 2340, -2340].map(|each| each * factor));
    }
}
