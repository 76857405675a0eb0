//! 02 "Effects past a word": jobs whose figures are worked out by hand.

mod common;

use common::{level_job, two_lane_job};
use second::arch_job::arch_job;
use second::edition::Edition;
use second::job::{Effect, Job, Piece, Record, Row, LIVE_NONE, LIVE_OVERLOAD, SERVICE, ULTIMATE};
use second::solve::account_of;
use second::words::{halves, joined, words_of};

/// Values in N·U with their halves, worked out by hand; 10^14 is 23283 * 2^32 +
/// 276447232.
const VALUES: [(i64, [i32; 2]); 19] = [
    (0, [0, 0]),
    (1, [1, 0]),
    (-1, [-1, -1]),
    (2_147_483_647, [i32::MAX, 0]),
    (2_147_483_648, [i32::MIN, 0]),
    (-2_147_483_648, [i32::MIN, -1]),
    (-2_147_483_649, [i32::MAX, -1]),
    (4_294_967_295, [-1, 0]),
    (4_294_967_296, [0, 1]),
    (4_294_967_297, [1, 1]),
    (-4_294_967_295, [1, -1]),
    (-4_294_967_296, [0, -1]),
    (-4_294_967_297, [-1, -2]),
    (6_442_450_944, [i32::MIN, 1]),
    (-6_442_450_944, [i32::MIN, -2]),
    (100_000_000_000_000, [276_447_232, 23_283]),
    (99_999_999_999_999, [276_447_231, 23_283]),
    (-100_000_000_000_000, [-276_447_232, -23_284]),
    (-99_999_999_999_999, [-276_447_231, -23_284]),
];

/// One piece under one lane, effects of these values and marks, and a service row
/// without traffic that counts all of them at this factor.
fn job_of(effects: &[(i64, i64)], factor: i64) -> Job {
    let last = effects.len();
    let next = |number| if number < last { number + 1 } else { 0 };
    Job {
        edition: Edition::Two,
        further_header: vec![0, 0],
        effects: effects
            .iter()
            .map(|&(value, mark)| Effect::new(value, mark))
            .collect(),
        rows: vec![Row::new(SERVICE, LIVE_NONE, 0, 1)],
        records: (1..=last)
            .map(|number| Record::new(number, factor, next(number)))
            .collect(),
        ..level_job(300, 50, vec![1000; 7])
    }
}

#[test]
fn a_number_and_its_halves() {
    let ends = [
        (i64::MAX, [-1, i32::MAX]),
        (i64::MIN, [0, i32::MIN]),
        (100_000_000_000_001, [276_447_233, 23_283]),
        (-100_000_000_000_001, [-276_447_233, -23_284]),
    ];
    for (number, [low, high]) in VALUES.into_iter().chain(ends) {
        assert_eq!(halves(number), [low, high], "{number}");
        assert_eq!(joined(low, high), number, "{low} and {high}");
    }
}

/// An effect is its low half, its high half and its mark, from word 12 + 2 + 7 on;
/// a job's fields come back from its words.
#[test]
fn an_effect_takes_three_words() {
    for (value, [low, high]) in VALUES {
        let job = job_of(&[(7, 2), (value, 1)], 1000);
        let words = words_of(&job.bytes());
        assert_eq!(words.len(), 12 + 2 + 7 + 6 + 4 + 6);
        assert_eq!(words[21..27], [7, 0, 2, low, high, 1]);
        assert_eq!(Job::decode(&words), job);
    }
}

/// A record counts factor times value, in thousandths of N·U: no more thousand.
#[test]
fn a_record_counts_factor_times_value() {
    for (value, _) in VALUES {
        for factor in [0, 1, 1000, 1350, 3000] {
            let service = account_of(&job_of(&[(value, 1)], factor)).service;
            let due = factor * value;
            assert_eq!((service.greatest.value, service.least.value), (due, due));
            // Where it may be left out it is at least 0 and at most 0.
            let service = account_of(&job_of(&[(value, 2)], factor)).service;
            assert_eq!(service.greatest.value, due.max(0), "{value}");
            assert_eq!(service.least.value, due.min(0), "{value}");
            assert_eq!(service.greatest.omitted, u32::from(due < 0));
            assert_eq!(service.least.omitted, u32::from(due > 0));
        }
    }
}

/// The same job in either edition, its effects a thousand times as many N·U as
/// kN·U, has the same account.
#[test]
fn kilonewtons_and_newtons_agree() {
    let in_kilonewtons = two_lane_job();
    let mut in_newtons = two_lane_job();
    in_newtons.edition = Edition::Two;
    in_newtons.further_header = vec![0, 0];
    for effect in &mut in_newtons.effects {
        effect.value *= 1000;
    }
    assert_eq!(account_of(&in_newtons), account_of(&in_kilonewtons));
}

/// Sixteen effects of 10^14 at 3000: 16 * 3000 * 10^14 = 4.8e18 either way. Five
/// lanes under ordinates of 5000 over 100 m: HN is 7 * 1000 * 10000 + 1600 * 10000
/// = 86000000, HO 102000000; HO at 20 and four HN at 20 + 18 + 16 + 14 twentieths are
/// 7888000000, times 1000 * 1300 * 3 / 800000 = 38454000000 N·U, and 3000 times that
/// counts.
fn sixteen(signs: impl Fn(usize) -> i64, mark: i64, side: i64) -> Job {
    let values: Vec<(i64, i64)> = (0..16)
        .map(|at| (signs(at) * 100_000_000_000_000, mark))
        .collect();
    let mut job = job_of(&values, 3000);
    (job.width, job.transverse) = (2079, vec![1000; 43]);
    (job.dynamic_kind, job.dynamic_value) = (1, 1300);
    let ordinate = 5000 * side;
    let piece = Piece {
        left: ordinate,
        right: ordinate,
    };
    job.pieces = vec![piece; 20];
    job.rows.push(Row::new(ULTIMATE, LIVE_OVERLOAD, 3000, 1));
    job
}

const SIXTEEN: i64 = 4_800_000_000_000_000_000;
const TRAFFIC: i64 = 3000 * 38_454_000_000;

#[test]
fn sixteen_effects_at_their_limits_in_one_row() {
    for side in [1, -1] {
        let account = account_of(&sixteen(|_| side, 1, side));
        let (service, ultimate) = (account.service, account.ultimate);
        let due = side * SIXTEEN;
        assert_eq!((service.greatest.value, service.least.value), (due, due));
        let further = due + side * TRAFFIC;
        assert_eq!(ultimate.greatest.value, further.max(due));
        assert_eq!(ultimate.least.value, further.min(due));
        assert_eq!(4_800_115_362_000_000_000, side * further);
    }
}

#[test]
fn sixteen_effects_that_may_be_left_out() {
    let account = account_of(&sixteen(|_| 1, 2, 1));
    let (service, ultimate) = (account.service, account.ultimate);
    assert_eq!(
        (service.greatest.value, service.greatest.omitted),
        (SIXTEEN, 0)
    );
    assert_eq!((service.least.value, service.least.omitted), (0, 0xFFFF));
    assert_eq!(ultimate.greatest.value, SIXTEEN + TRAFFIC);
    assert_eq!(ultimate.least.value, 0);

    let account = account_of(&sixteen(|_| -1, 2, -1));
    let (service, ultimate) = (account.service, account.ultimate);
    assert_eq!(
        (service.greatest.value, service.greatest.omitted),
        (0, 0xFFFF)
    );
    assert_eq!((service.least.value, service.least.omitted), (-SIXTEEN, 0));
    assert_eq!(ultimate.greatest.value, 0);
    assert_eq!(ultimate.least.value, -SIXTEEN - TRAFFIC);
}

/// Eight of each sign cancel; where they may be left out, each question keeps its
/// own eight, 2.4e18.
#[test]
fn sixteen_effects_of_both_signs() {
    let alternate = |at: usize| if at.is_multiple_of(2) { 1 } else { -1 };
    let account = account_of(&sixteen(alternate, 1, 1));
    let service = account.service;
    assert_eq!((service.greatest.value, service.least.value), (0, 0));
    assert_eq!(account.ultimate.greatest.value, TRAFFIC);

    let account = account_of(&sixteen(alternate, 2, 1));
    let service = account.service;
    assert_eq!(service.greatest.value, SIXTEEN / 2);
    assert_eq!(service.greatest.omitted, 0b1010_1010_1010_1010);
    assert_eq!(service.least.value, -SIXTEEN / 2);
    assert_eq!(service.least.omitted, 0b0101_0101_0101_0101);
    assert_eq!(account.ultimate.greatest.value, SIXTEEN / 2 + TRAFFIC);
}

/// Of two service rows without traffic, each given by its first record and its
/// value, the one governs greatest and the other least, wherever they stand.
#[track_caller]
fn govern_in_either_order(mut job: Job, greatest: (usize, i64), least: (usize, i64)) {
    let orders = [([greatest.0, least.0], 1), ([least.0, greatest.0], 2)];
    for (rows, row) in orders {
        job.rows = rows
            .map(|first| Row::new(SERVICE, LIVE_NONE, 0, first))
            .to_vec();
        let service = account_of(&job).service;
        let values = (service.greatest.value, service.least.value);
        assert_eq!(values, (greatest.1, least.1), "{rows:?}");
        let governing = (service.greatest.row, service.least.row);
        assert_eq!(governing, (row, 3 - row), "{rows:?}");
    }
}

/// Rows of 2.4e18 and -2.4e18, and rows a thousandth of N·U apart: the further
/// one governs, wherever it stands.
#[test]
fn distant_and_close_rows() {
    let mut job = sixteen(|at| if at < 8 { 1 } else { -1 }, 1, 1);
    job.records[7].next = 0;
    govern_in_either_order(job, (1, SIXTEEN / 2), (9, -SIXTEEN / 2));

    let mut job = sixteen(|_| 1, 1, 1);
    job.effects[15].value = 1;
    job.records[14].next = 0;
    job.records[15] = Record::new(16, 1, 1);
    let fifteen = 15 * 3000 * 100_000_000_000_000;
    govern_in_either_order(job, (16, fifteen + 1), (1, fifteen));
}

/// Longitudinal effects of the arch in 75 N·U: the line's ordinates above 0 add
/// up to 2 * (140 + 320) + 547 = 1467 with each inner one counted for both its
/// pieces, so the pieces above 0 give 7 * 50 * 2 * 1467 = 1026900; those below 0
/// add up to -712 a side, so 7 * 50 * 2 * -1424 = -996800. A pair is 1 piece
/// apart: 547 + 320 = 867 or -148 - 160 = -308. HN is 1026900 + 1600 * 867 =
/// 2414100 and -996800 - 1600 * 308 = -1489600; HO is 3801300 and -1982400.
///
/// Centres at 150 and 600 cm have 800 and 350 thousandths. Normal: 1150 * 18;
/// overload: 800 * 20 and 350 * 20, the one additional lane's factor. Times 1109 * 3 / 800000.
#[test]
fn the_arch_job() {
    let account = account_of(&arch_job());
    let up = |x: i64| (x * 3 * 1109 + 799_999).div_euclid(800_000);
    let down = |x: i64| (x * 3 * 1109).div_euclid(800_000);
    let [normal, overload] = [
        up(2_414_100 * 1150 * 18),
        up(20 * (3_801_300 * 800 + 2_414_100 * 350)),
    ];
    let [normal_least, overload_least] = [
        down(-1_489_600 * 1150 * 18),
        down(20 * (-1_982_400 * 800 - 1_489_600 * 350)),
    ];
    assert_eq!(account.normal_greatest.value, normal);
    assert_eq!(account.normal_least.value, normal_least);
    assert_eq!(account.overload_greatest.value, overload);
    assert_eq!(account.overload_least.value, overload_least);

    // The dead load less its relief: 1234567890123 - 1232098755432.
    let dead = 2_469_134_691;
    let (service, ultimate) = (account.service, account.ultimate);
    assert_eq!(service.greatest.value, 1000 * dead + 1350 * normal);
    assert_eq!((service.greatest.row, service.greatest.omitted), (1, 4));
    assert_eq!(
        service.least.value,
        1000 * (dead - 4_800_000_000) + 1350 * normal_least
    );
    assert_eq!((service.least.row, service.least.omitted), (1, 0));
    assert_eq!(
        ultimate.greatest.value,
        1350 * dead + 1200 * 3_000_000_000 + 1490 * overload
    );
    assert_eq!((ultimate.greatest.row, ultimate.greatest.omitted), (2, 4));
    // Row 3's, for row 2's is 1350 * dead - 4.8e12 + 1490 * overload's least.
    assert_eq!(ultimate.least.value, 1000 * (dead - 4_800_000_000));
    assert!(1350 * dead - 4_800_000_000_000 + 1490 * overload_least > ultimate.least.value);
    assert_eq!((ultimate.least.row, ultimate.least.omitted), (3, 0));
}
