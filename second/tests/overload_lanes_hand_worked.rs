//! 02 "Additional overload lanes": jobs worked out by hand, each of them stored.
//!
//! Most are on the line of 8 over 5 m and -6 over 5 m. Raising HN is 7 * 50 * 16 +
//! 1600 * 8 = 18400, HO 5600 + 3200 * 8 = 31200; lowering HN is 7 * 50 * -12 - 1600 * 6
//! = -13800, HO -4200 - 3200 * 6 = -23400, three quarters of these. At a dynamic factor
//! of 1000, with 3 / 800 for each twentieth, 18400 is 69 N·U, 31200 at 20 is 2340.
//!
//! So a lane of ordinate t counts t for greatest and 0.75 t for least where t is above
//! 0; where it is below, 0.75 of it for greatest and all of it for least. Overload is
//! 2340 times the HO lane's, and 69 times the others' at their factors.

mod common;

use common::overload::old_overload;
use common::{five_lanes, marked_factor, stored_account, HO, NO};
use second::account::Traffic;
use second::chosen::overload_lanes::{
    cases, lanes_job, largest_job, level_job, orders, uneven_line_job, FRACTIONAL, IN_EVERY_ORDER,
    SPANS, WIDTHS,
};
use second::edition::Edition;
use second::job::Job;
use second::loads::Question;
use second::Account;

/// The account of a job that is stored.
#[track_caller]
fn account(job: &Job) -> Account {
    stored_account(job, cases())
}

/// The lanes' factors, with `HO` and `NO` for lanes that have none.
fn marked_factors(traffic: &Traffic) -> [i64; 5] {
    five_lanes(traffic).map(|lane| marked_factor(&lane))
}

/// What is due for overload in one question.
type Due = (i64, [i64; 5]);

#[track_caller]
fn has_overload(job: &Job, greatest: Due, least: Due) {
    let account = account(job);
    let shown = |traffic: &Traffic| (traffic.value, marked_factors(traffic));
    assert_eq!(shown(&account.overload_greatest), greatest);
    assert_eq!(shown(&account.overload_least), least);
    for traffic in [account.normal_greatest, account.normal_least] {
        assert_eq!(five_lanes(&traffic).map(|lane| lane.factor), [0; 5]);
    }
}

/// In both editions.
#[track_caller]
fn lanes_have_overload(ordinates: &[i64], greatest: Due, least: Due) {
    for edition in [Edition::One, Edition::Two] {
        has_overload(&lanes_job(edition, ordinates), greatest, least);
    }
}

/// In 01's reading.
#[track_caller]
fn had_overload(ordinates: &[i64], greatest: i64, least: i64) {
    let job = lanes_job(Edition::One, ordinates);
    let found = Question::BOTH.map(|question| old_overload(&job, question));
    assert_eq!(found, [greatest, least]);
}

/// Whatever their order, HO is in the lane of the largest ordinate, and the others take
/// 20, 18, 16 and 14 as their ordinates fall; so HO is in each lane of three, of four
/// and of five, and each factor beside it in each other.
///
/// Three lanes: 2340 * 1000 + 69 * (20 * 800 + 18 * 500) = 2340000 + 69 * 25000 =
/// 4065000; 01 has 18 * 1300 = 23400 for 25000, so 3954600.
/// Four: 2340 * 900 + 69 * (20 * 700 + 18 * 500 + 16 * 300) = 2106000 + 69 * 27800 =
/// 4024200; 01 has 16 * 1500 = 24000, so 3762000.
/// Five: 2340 * 1000 + 69 * (20 * 800 + 18 * 600 + 16 * 400 + 14 * 200) = 2340000 +
/// 69 * 36000 = 4824000; 01 has 16 * 1800 = 28800, above 14 * 2000, so 4327200.
/// Least is three quarters of it below 0.
#[test]
fn lanes_in_every_order() {
    let due = [
        (4_065_000, 3_954_600),
        (4_024_200, 3_762_000),
        (4_824_000, 4_327_200),
    ];
    let mut editions = [Edition::One, Edition::Two].into_iter().cycle();
    for (ordinates, (value, old)) in IN_EVERY_ORDER.into_iter().zip(due) {
        let due_to = |ordinate: i64| {
            let further = ordinates.iter().filter(|&&other| other > ordinate).count();
            [HO, 20, 18, 16, 14][further]
        };
        for (order, edition) in orders(ordinates).into_iter().zip(editions.by_ref()) {
            let mut factors = [NO; 5];
            for (factor, &ordinate) in factors.iter_mut().zip(&order) {
                *factor = due_to(ordinate);
            }
            let job = lanes_job(edition, &order);
            has_overload(&job, (value, factors), (-value * 3 / 4, factors));
        }
        had_overload(ordinates, old, -old * 3 / 4);
    }
}

/// Lanes that tie may have each other's factors; the lower lane is shown with the
/// larger, and HO in the lowest lane of the largest ordinate.
///
/// 2340 * 1000 + 69 * (20 * 700 + 18 * 700 + 16 * 500) = 2340000 + 69 * 34600 =
/// 4727400. 2340 * 1000 + 69 * 38 * 600 = 3913200. 2340 * 1000 + 69 * (54 * 700 + 14 *
/// 500) = 2340000 + 69 * 44800 = 5431200. 2340 * 900 + 69 * (20 * 900 + 18 * 400) =
/// 2106000 + 69 * 25200 = 3844800. 2340 * 900 + 69 * (20 * 900 + 18 * 400 + 16 * 300) =
/// 2106000 + 69 * 30000 = 4176000.
#[test]
fn lanes_that_tie() {
    let table = [
        (&[700, 1000, 700, 500][..], 4_727_400, [20, HO, 18, 16, NO]),
        (&[600, 1000, 600], 3_913_200, [20, HO, 18, NO, NO]),
        (&[500, 700, 1000, 700, 700], 5_431_200, [14, 20, HO, 18, 16]),
        (&[900, 900, 400], 3_844_800, [HO, 20, 18, NO, NO]),
        (&[400, 900, 300, 900], 4_176_000, [18, HO, 16, 20, NO]),
    ];
    for (ordinates, value, factors) in table {
        lanes_have_overload(ordinates, (value, factors), (-value * 3 / 4, factors));
    }
}

/// All lanes alike: 2340 * 500 = 1170000 and 69 * 500 = 34500 times 38, 54 and 68; 01
/// has 36, 48 and 56.
#[test]
fn all_lanes_tie() {
    let table = [
        (3, 2_481_000, 2_412_000, [HO, 20, 18, NO, NO]),
        (4, 3_033_000, 2_826_000, [HO, 20, 18, 16, NO]),
        (5, 3_516_000, 3_102_000, [HO, 20, 18, 16, 14]),
    ];
    for (lanes, value, old, factors) in table {
        let ordinates = [500; 5];
        let ordinates = &ordinates[..lanes];
        lanes_have_overload(ordinates, (value, factors), (-value * 3 / 4, factors));
        had_overload(ordinates, old, -old * 3 / 4);
    }
}

/// A lane that gives 0 is shown unloaded, and takes no factor from another.
///
/// 2340 * 800 + 69 * 20 * 600 = 1872000 + 828000 = 2700000. 2340 * 800 + 69 * (20 *
/// 700 + 18 * 600) = 1872000 + 69 * 24800 = 3583200. 2340 * 700 and 2340 * 1000 alone.
#[test]
fn lanes_that_give_0() {
    let table = [
        (&[0, 800, 0, 600, 0][..], 2_700_000, [NO, HO, NO, 20, NO]),
        (&[800, 0, 600], 2_700_000, [HO, NO, 20, NO, NO]),
        (&[0, 0, 800, 600, 700], 3_583_200, [NO, NO, HO, 18, 20]),
        (&[0, 0, 0, 700], 1_638_000, [NO, NO, NO, HO, NO]),
        (&[0, 0, 0, 0, 1000], 2_340_000, [NO, NO, NO, NO, HO]),
        (&[0; 5], 0, [HO, NO, NO, NO, NO]),
    ];
    for (ordinates, value, factors) in table {
        lanes_have_overload(ordinates, (value, factors), (-value * 3 / 4, factors));
    }
}

/// Normal has one lane of 1000 at 20, above 18 * 1100: 69 * 20000 = 1380000; beside HO
/// every lane helps, since none takes from another. 2340000 and 69 * 38 * 100 = 262200
/// or 69 * 68 * 100 = 469200; 01 has 18 * 200 and, of four lanes, 14 * 400 = 5600.
/// Further off: 69 * (20 * 40 + 18 * 30 + 16 * 20 + 14 * 10) = 69 * 1800 = 124200;
/// 01 has three lanes at 16, 1440, above 18 * 70 and 14 * 100.
#[test]
fn normal_leaves_out_what_overload_loads() {
    let table = [
        (
            &[1000, 100, 100][..],
            2_602_200,
            2_588_400,
            [HO, 20, 18, NO, NO],
        ),
        (
            &[100, 100, 100, 100, 1000],
            2_809_200,
            2_726_400,
            [20, 18, 16, 14, HO],
        ),
        (
            &[1000, 40, 30, 20, 10],
            2_464_200,
            2_439_360,
            [HO, 20, 18, 16, 14],
        ),
    ];
    for (ordinates, value, old, factors) in table {
        lanes_have_overload(ordinates, (value, factors), (-value * 3 / 4, factors));
        had_overload(ordinates, old, -old * 3 / 4);
        let account = account(&lanes_job(Edition::One, ordinates));
        let normal = account.normal_greatest;
        assert_eq!((normal.value, normal.set.count_ones()), (1_380_000, 1));
    }
}

/// What the lanes count, for greatest and for least:
///   1000, 750 and 750, 1000: HO changes lanes, 2340 * 1000 + 69 * 20 * 750 = 3375000.
///   1000, 800, 750 and 750, 600, 1000: 2340000 + 69 * (20 * 800 + 18 * 750) = 2340000 +
///   69 * 29500 = 4375500; least 69 * (20 * 750 + 18 * 600) = 69 * 25800, 4120200.
///   1000, 800, 750, 600 and 750, 600, 1000, 450: 69 * (16000 + 13500 + 9600) = 69 *
///   39100, 5037900; least 69 * (15000 + 10800 + 7200) = 69 * 33000, 4617000.
///   800, 300, 600, 750, 150 and 600, 400, 450, 1000, 200: 2340 * 800 + 69 * (15000 +
///   10800 + 4800 + 2100) = 1872000 + 69 * 32700 = 4128300; least 2340000 + 69 *
///   (12000 + 8100 + 6400 + 2800) = 2340000 + 69 * 29300 = 4361700.
///   750, 900, 1000, 800, 675 and 1000, 675, 750, 600, 900: 69 * (18000 + 14400 +
///   12000 + 9450) = 69 * 53850, 6055650; least 69 * (18000 + 13500 + 10800 + 8400) =
///   69 * 50700, 5838300.
#[test]
fn each_question_has_its_own_ho_lane_and_order() {
    let table = [
        (
            &[1000, -1000][..],
            (3_375_000, [HO, 20, NO, NO, NO]),
            (-3_375_000, [20, HO, NO, NO, NO]),
        ),
        (
            &[1000, 800, -1000],
            (4_375_500, [HO, 20, 18, NO, NO]),
            (-4_120_200, [20, 18, HO, NO, NO]),
        ),
        (
            &[1000, 800, -1000, 600],
            (5_037_900, [HO, 20, 18, 16, NO]),
            (-4_617_000, [20, 18, HO, 16, NO]),
        ),
        (
            &[800, -400, 600, -1000, -200],
            (4_128_300, [HO, 16, 18, 20, 14]),
            (-4_361_700, [20, 16, 18, HO, 14]),
        ),
        (
            &[-1000, 900, 1000, 800, -900],
            (6_055_650, [16, 20, HO, 18, 14]),
            (-5_838_300, [HO, 16, 18, 14, 20]),
        ),
    ];
    for (ordinates, greatest, least) in table {
        lanes_have_overload(ordinates, greatest, least);
    }
}

/// All ordinates below 0: the questions change places. With 1000, 800, 600, 400 and 200
/// below 0, least is -4824000 and greatest 3618000.
#[test]
fn all_lanes_below_0() {
    let factors = [14, HO, 16, 18, 20];
    lanes_have_overload(
        &[-200, -1000, -400, -600, -800],
        (3_618_000, factors),
        (-4_824_000, factors),
    );
}

/// 2340 * 1000 + 69 * (20 * 777 + 18 * 333) = 2340000 + 69 * 21534 = 3825846, three
/// quarters of it 2869384.5; times 1.001 they are 3829671.846 and 2872253.8845.
#[test]
fn effects_that_are_not_whole() {
    let (ordinates, factors) = ([333, 1000, 777], [18, HO, 20, NO, NO]);
    lanes_have_overload(&ordinates, (3_825_846, factors), (-2_869_385, factors));
    let job = Job {
        dynamic_kind: 1,
        dynamic_value: FRACTIONAL,
        ..lanes_job(Edition::Two, &ordinates)
    };
    has_overload(&job, (3_829_672, factors), (-2_872_254, factors));
}

/// Spans by sign of 122 and 2000 dm have 1299 and 1064: 4065 and 3048.75 for each
/// thousandth are 5280435 and 3243870, or 4325160 and 3960326.25.
#[test]
fn with_spans_by_sign() {
    let due = [(5_280_435, -3_243_870), (4_325_160, -3_960_327)];
    let factors = [18, 20, HO, NO, NO];
    for ((greatest, least), due) in SPANS.into_iter().zip(due) {
        let job = lanes_job(Edition::Two, &[500, 800, 1000]).with_spans(greatest, least);
        has_overload(&job, (due.0, factors), (due.1, factors));
    }
}

/// On the uneven line HN is 7 * 50 * 40 + 1600 * 10 = 30000 raising, HO 46000; lowering
/// they are 7 * 50 * -10 - 1600 * 10 = -19500 and -3500 - 3200 * 10 = -35500. In
/// millions, greatest:
///   lanes of 700, -1000 and 400: HN 21, 19.5 and 12, HO 32.2, 35.5 and 18.4. Normal's
///   furthest lane is 1, but HO is in lane 2: 20 * 35.5 + 20 * 21 + 18 * 12 = 1346, above
///   20 * 32.2 + 20 * 19.5 + 18 * 12 = 1250. Times 3 / 800: 5047500.
///   least: HN -13.65, -30 and -7.8, HO -24.85, -46 and -14.2: 20 * 46 + 20 * 13.65 +
///   18 * 7.8 = 1333.4, so -5000250.
/// Normal: 16 * 52.5 = 840, so 3150000; least 16 * -51.45 = -823.2, so -3087000.
#[test]
fn ho_is_not_in_the_furthest_hn_lane() {
    for edition in [Edition::One, Edition::Two] {
        let job = uneven_line_job(edition, &[700, -1000, 400]);
        has_overload(
            &job,
            (5_047_500, [20, HO, 18, NO, NO]),
            (-5_000_250, [20, HO, 18, NO, NO]),
        );
        let account = account(&job);
        let normal = (account.normal_greatest.value, account.normal_least.value);
        assert_eq!(normal, (3_150_000, -3_087_000));
    }
}

/// As many additional lanes as the width has lanes but one, their factors together 0,
/// 20, 38, 54 or 68: 2340000 and 69000 times that.
#[test]
fn every_number_of_lanes() {
    let values = [2_340_000, 3_720_000, 4_962_000, 6_066_000, 7_032_000];
    let lanes = [1, 2, 2, 3, 3, 4, 4, 5, 5];
    for (width, lanes) in WIDTHS.into_iter().zip(lanes) {
        let value = values[lanes - 1];
        let mut factors = [HO, 20, 18, 16, 14];
        factors[lanes..].fill(NO);
        let due = [(value, factors), (-value * 3 / 4, factors)];
        has_overload(&level_job(width), due[0], due[1]);
    }
}

/// 7 * 1000 * 10000 = 7e7 of uniform load, the pair 10000: HN 8.6e7, HO 1.02e8. 20 *
/// 1.02e8 + 68 * 8.6e7 = 7.888e9; times 1000 * 1300 * 3 / 800000 = 38454000000. The
/// dividend, with n times g = 5 * 50, is 7.6908e18, within 2^63 - 1 = 9.22e18.
#[test]
fn the_largest_sums() {
    let (furthest, none) = (
        (38_454_000_000, [HO, 20, 18, 16, 14]),
        (0, [HO, NO, NO, NO, NO]),
    );
    for edition in [Edition::One, Edition::Two] {
        for (ordinate, across) in [(5000, 1000), (-5000, -1000)] {
            has_overload(&largest_job(edition, ordinate, across), furthest, none);
        }
        for (ordinate, across) in [(-5000, 1000), (5000, -1000)] {
            let least = (-furthest.0, furthest.1);
            has_overload(&largest_job(edition, ordinate, across), none, least);
        }
    }
}
