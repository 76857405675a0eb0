//! 02 "Two carriageways": stored jobs with lanes on both sides of a median, worked out by
//! hand.
//!
//! But for the last ones the line is 8 over 5 m, then -6 over 5 m, so raising HN is 7 *
//! 50 * 16 + 1600 * 8 = 18400 and HO 31200, lowering HN 7 * 50 * -12 - 1600 * 6 =
//! -13800 and HO -23400. With a dynamic factor of 1000 a lane under an ordinate of 1000
//! gives 18400 * 1000 * 3 / 800 = 69000 N·U for each twentieth, HO 2340000. Least is
//! -3/4 of greatest where no ordinate is below 0.

mod common;

use common::{marked_factor, stored_account, traffic_values, HO};
use second::account::{Account, Traffic};
use second::chosen;
use second::chosen::edition_3::{
    lanes_job, largest_job, level_job, longest, sloped_job, uneven_line_job, NARROWEST,
    ON_ONE_SIDE, WIDEST,
};
use second::chosen::overload_lanes;
use second::edition::Edition;
use second::generator::Stream;
use second::job::Job;

/// The account of a job that is stored.
#[track_caller]
fn account(job: &Job) -> Account {
    stored_account(job, chosen::cases(Stream::Three))
}

/// The factors of so many lanes, with `HO` and `NO` for those that have none; the lanes
/// past them have nothing.
#[track_caller]
fn marked_factors(traffic: &Traffic, lanes: usize) -> Vec<i64> {
    assert_eq!(traffic.lanes[lanes..], [Default::default(); 10][lanes..]);
    traffic.lanes[..lanes].iter().map(marked_factor).collect()
}

fn entries(traffic: &Traffic, lanes: usize) -> Vec<u32> {
    let lanes = traffic.lanes[..lanes].iter();
    lanes.map(|lane| lane.entry).collect()
}

fn centres(traffic: &Traffic, lanes: usize) -> Vec<i64> {
    let lanes = traffic.lanes[..lanes].iter();
    lanes.map(|lane| lane.centre).collect()
}

/// Lanes of 650, 950 and 350, normal 16 * (650 + 950 + 350) * 69 = 2152800; overload 20 *
/// 950 * 117 = 2223000 for HO in the second and (20 * 650 + 18 * 350) * 69 = 1331700
/// beside it.
#[test]
fn three_lanes_beside_nothing() {
    let due = [2_152_800, -1_614_600, 3_554_700, -2_666_025];
    let nothing = [[0].as_slice(), &[0; 5]];
    for empty in nothing {
        let right = account(&lanes_job(&[650, 950, 350], empty));
        assert_eq!(traffic_values(&right), due);
        assert_eq!(right.normal_greatest.set, 0b111);
        let found = marked_factors(&right.overload_greatest, 3 + empty.len());
        assert_eq!(found[..3], [20, HO, 18]);

        let left = account(&lanes_job(empty, &[650, 950, 350]));
        assert_eq!(traffic_values(&left), due);
        assert_eq!(left.normal_greatest.set, 0b111 << empty.len());
        let found = marked_factors(&left.overload_greatest, 3 + empty.len());
        assert_eq!(found[empty.len()..], [20, HO, 18]);
    }
}

/// A side that counts nothing moves no value, whichever side it is.
#[test]
fn every_deck_beside_nothing() {
    for ordinates in ON_ONE_SIDE {
        let alone = account(&overload_lanes::lanes_job(Edition::Two, ordinates));
        assert_eq!(alone.first_lanes, ordinates.len() as u32);
        assert_eq!(alone.second_lanes, 0);
        for nothing in [&[0][..], &[0; 5]] {
            for job in [lanes_job(ordinates, nothing), lanes_job(nothing, ordinates)] {
                let beside = account(&job);
                assert_eq!(
                    traffic_values(&beside),
                    traffic_values(&alone),
                    "{ordinates:?}"
                );
                assert_eq!(beside.service, alone.service);
                assert_eq!(beside.ultimate, alone.ultimate);
            }
        }
    }
}

/// Every lane under 1000 is loaded. Normal is 69000 times the number of lanes times r,
/// which comes to 36, 48, 56, 60, 66, 77, 88, 99 and 110 for two lanes to ten. Overload
/// is 2340000 and 69000 times the factors beside HO, which come to 20, 38, 54, 68, 80,
/// 91, 102, 113 and 124 for one additional lane to nine.
#[test]
fn every_pair_of_lane_counts() {
    let at_r = [36, 48, 56, 60, 66, 77, 88, 99, 110];
    let additional = [20, 38, 54, 68, 80, 91, 102, 113, 124];
    let shown = [HO, 20, 18, 16, 14, 12, 11, 11, 11, 11];
    for (one, narrow) in (1..).zip(NARROWEST) {
        for (other, wide) in (1..).zip(WIDEST) {
            let lanes = one + other;
            let normal = 69_000 * at_r[lanes - 2];
            let overload = 2_340_000 + 69_000 * additional[lanes - 2];
            let due = [normal, -normal * 3 / 4, overload, -overload * 3 / 4];
            for (job, counts) in [
                (level_job(narrow, wide), (one, other)),
                (level_job(wide, narrow), (other, one)),
            ] {
                let account = account(&job);
                assert_eq!(traffic_values(&account), due, "{counts:?}");
                let found = (account.first_lanes, account.second_lanes);
                assert_eq!(found, (counts.0 as u32, counts.1 as u32));
                let all = (1 << lanes) - 1;
                for traffic in [
                    account.normal_greatest,
                    account.normal_least,
                    account.overload_greatest,
                    account.overload_least,
                ] {
                    assert_eq!(traffic.set, all, "{counts:?}");
                }
                for traffic in [account.overload_greatest, account.overload_least] {
                    assert_eq!(marked_factors(&traffic, lanes), shown[..lanes]);
                }
            }
        }
    }
}

/// Ten lanes of 100 to 1000, rising: normal 11 * 5500 * 69 = 4174500. HO under 1000;
/// beside it 20 * 900 + 18 * 800 + 16 * 700 + 14 * 600 + 12 * 500 + 11 * (400 + 300 +
/// 200 + 100) = 69000, times 69 = 4761000, and 2340000.
#[test]
fn the_sixth_additional_lane_and_later_ones_take_11() {
    let rising = [100, 200, 300, 400, 500, 600, 700, 800, 900, 1000];
    let account = account(&lanes_job(&rising[..5], &rising[5..]));
    let due = [4_174_500, -3_130_875, 7_101_000, -5_325_750];
    assert_eq!(traffic_values(&account), due);
    for traffic in [account.overload_greatest, account.overload_least] {
        let shown = marked_factors(&traffic, 10);
        assert_eq!(shown, [11, 11, 11, 11, 12, 14, 16, 18, 20, HO]);
    }
}

/// Six lanes, 300, 900 and 500 on one side, 800, 400 and 700 on the other. All at 11
/// give 39600, and so do all but the least at 12; without 400, too, it is 14 * 2900 =
/// 40600, and 16 * 2400 is less. So normal is 40600 * 69 = 2801400. Overload: 900 * 20 *
/// 117 = 2106000, and (20 * 800 + 18 * 700 + 16 * 500 + 14 * 400 + 12 * 300) * 69 =
/// 3160200.
#[test]
fn six_lanes_of_which_normal_loads_four() {
    let account = account(&lanes_job(&[300, 900, 500], &[800, 400, 700]));
    assert_eq!(account.normal_greatest.value, 2_801_400);
    assert_eq!(account.normal_greatest.set, 0b10_1110);
    assert_eq!(account.overload_greatest.value, 5_266_200);
    let shown = marked_factors(&account.overload_greatest, 6);
    assert_eq!(shown, [12, HO, 16, 20, 14, 18]);
}

/// Lanes of 1000 and 950 beside ones of 30 and 20: normal 18 * 1950 * 69 = 2421900 on
/// one side alone, as 16 * 1980 is less; overload 2340000 + (20 * 950 + 18 * 30 + 16 *
/// 20) * 69.
#[test]
fn normal_loads_one_side_alone() {
    for (first, second, set, shown) in [
        ([1000, 950], [30, 20], 0b0011, [HO, 20, 18, 16]),
        ([30, 20], [1000, 950], 0b1100, [18, 16, HO, 20]),
    ] {
        let account = account(&lanes_job(&first, &second));
        let due = [2_421_900, -1_816_425, 3_710_340, -2_782_755];
        assert_eq!(traffic_values(&account), due);
        assert_eq!(account.normal_greatest.set, set);
        assert_eq!(account.normal_least.set, set);
        assert_eq!(marked_factors(&account.overload_greatest, 4), shown);
    }
}

/// 1000 to the left of the median, -1000 to its right. The one raises where the other
/// lowers: normal 18 * (18400 + 13800) * 1000 * 3 / 800 = 2173500; overload (20 * 31200 +
/// 20 * 13800) * 1000 * 3 / 800 = 3375000 with HO where it raises, so on a side of
/// each question's own.
#[test]
fn each_question_has_its_own_side() {
    let account = account(&lanes_job(&[1000], &[-1000]));
    assert_eq!(
        traffic_values(&account),
        [2_173_500, -2_173_500, 3_375_000, -3_375_000]
    );
    assert_eq!(entries(&account.normal_greatest, 2), [1, 2]);
    assert_eq!(entries(&account.normal_least, 2), [2, 1]);
    assert_eq!(entries(&account.overload_greatest, 2), [3, 2]);
    assert_eq!(entries(&account.overload_least, 2), [2, 3]);
}

/// One lane on each side, both under 500: 18 * 1000 * 69 / 1000 = 1242000 in normal,
/// and HO in either gives 1170000 + 20 * 500 * 69 = 1860000; the left one is shown.
#[test]
fn lanes_that_tie_across_the_median() {
    let account = account(&lanes_job(&[500], &[500]));
    assert_eq!(
        traffic_values(&account),
        [1_242_000, -931_500, 1_860_000, -1_395_000]
    );
    assert_eq!(marked_factors(&account.overload_greatest, 2), [HO, 20]);
}

/// The first side has two lanes of 350.5 cm, with an ordinate of 950 - 31 x / 37 at x
/// cm, so its best centres are the lanes' left limits, 150 cm and 500.5: 30500/37 and
/// 39269/74. The second has one lane, centres 150 to 287 cm, and of the ordinates
/// there, every 37 cm 131, 464, 797, 129 and 462 from 148 cm on, the best is at 222 cm.
/// The three come to 159247/74.
///
/// Normal: 16 * 69 * 159247/74 = 2375793.08. Overload, HO in lane 1: 20 * 117 *
/// 30500/37 + 69 * (20 * 797 + 18 * 39269/74) = 1928918.92 + 1099860 + 659082.41 =
/// 3687861.32.
#[test]
fn centres_in_n_ths_of_their_own_side() {
    let account = account(&sloped_job(701, 437));
    assert_eq!((account.first_lanes, account.second_lanes), (2, 1));
    assert_eq!(account.normal_greatest.value, 2_375_794);
    assert_eq!(account.overload_greatest.value, 3_687_862);
    for traffic in [account.normal_greatest, account.overload_greatest] {
        assert_eq!(centres(&traffic, 3), [300, 1001, 222]);
    }
    assert_eq!(marked_factors(&account.overload_greatest, 3), [HO, 18, 20]);
}

/// The same the other way round: the one lane slopes, so its best centre is 150 cm,
/// 30500/37; the second side's two lanes have centres 150 to 200.5 and 500.5 to 551 cm.
/// The saw is 464 at 185 cm and 797 at 222, so at 200.5, a right limit, it is 464 + 333 *
/// 15.5/37 = 44659/74. It is 4662 - 4 * 1001 - 200 = 458 at 518 cm, number 14, and
/// 791 at 555 cm, so at 551 cm it is 458 + 333 * 33/37 = 27935/37.
#[test]
fn the_same_sides_exchanged() {
    let account = account(&sloped_job(437, 701));
    assert_eq!((account.first_lanes, account.second_lanes), (1, 2));
    // 16 * 69 * (30500/37 + 44659/74 + 27935/37) = 16 * 69 * 161529/74 = 2409838.05.
    assert_eq!(account.normal_greatest.value, 2_409_839);
    assert_eq!(centres(&account.normal_greatest, 3), [150, 401, 1102]);
}

/// The line is 5 along 20 m, then falls from 0 to -10 along 5 m: raising HN 14000 +
/// 1600 * 10 = 30000, HO 46000; lowering HN -3500 - 16000 = -19500, HO -35500. Under
/// 700 HN gives 21e6, raising, under -1000 19.5e6, lowering; but HO 32.2e6 and 35.5e6.
/// So HO is under -1000, on whichever side that is: 20 * (35.5e6 + 21e6) * 3 / 800 =
/// 4237500.
#[test]
fn ho_on_either_side() {
    for (first, second, shown) in [([700], [-1000], [20, HO]), ([-1000], [700], [HO, 20])] {
        let account = account(&uneven_line_job(&first, &second));
        assert_eq!(account.overload_greatest.value, 4_237_500);
        assert_eq!(marked_factors(&account.overload_greatest, 2), shown);
    }
}

/// The ten rising lanes with spans of 12.2 m for greatest and 200 m for least, whose
/// factors are 1299 and 1064, and the other way round: each question has its own on
/// both sides.
#[test]
fn spans_by_sign_on_both_sides() {
    let rising = [100, 200, 300, 400, 500, 600, 700, 800, 900, 1000];
    let job = lanes_job(&rising[..5], &rising[5..]);
    let short_and_long = account(&job.clone().with_spans(122, 2000));
    // 4174500, -3130875, 7101000 and -5325750, times 1.299 and 1.064.
    let due = [5_422_676, -3_331_251, 9_224_199, -5_666_598];
    assert_eq!(traffic_values(&short_and_long), due);
    let long_and_short = account(&job.with_spans(2000, 122));
    let due = [4_441_668, -4_067_007, 7_555_464, -6_918_150];
    assert_eq!(traffic_values(&long_and_short), due);
}

/// 7 * 1000 * 1000 = 7e6 of uniform load, the pair 1000: HN 8.6e6, HO 1.02e7. Times
/// 1000 * 1300 * 3 / 800000 = 4.875, normal is 110 * 8.6e6 * 4.875 = 4611750000;
/// overload 20 * 1.02e7 + 124 * 8.6e6 = 1270400000, times 4.875 = 6193200000. With
/// sides of two signs, each question has one: 60 * 8.6e6 * 4.875 = 2515500000 and (20 *
/// 1.02e7 + 68 * 8.6e6) * 4.875 = 3845400000.
#[test]
fn the_largest_sums() {
    let (normal, overload) = (4_611_750_000, 6_193_200_000);
    for (ordinate, across) in [(500, 1000), (-500, -1000)] {
        let account = account(&largest_job(ordinate, across, across));
        assert_eq!(traffic_values(&account), [normal, 0, overload, 0]);
    }
    for (ordinate, across) in [(-500, 1000), (500, -1000)] {
        let account = account(&largest_job(ordinate, across, across));
        assert_eq!(traffic_values(&account), [0, -normal, 0, -overload]);
    }
    let (normal, overload) = (2_515_500_000, 3_845_400_000);
    for (ordinate, across) in [(500, 1000), (500, -1000), (-500, 1000), (-500, -1000)] {
        let account = account(&largest_job(ordinate, across, -across));
        assert_eq!(
            traffic_values(&account),
            [normal, -normal, overload, -overload]
        );
    }
}

/// A piece at 500 and one at -6: raising HN 7 * 50 * 1000 + 1600 * 500 = 1150000, times
/// 16 * (310 + 420 + 530) * 3 / 800 = 86940000.
#[test]
fn ordinates_of_500() {
    let mut job = lanes_job(&[310], &[420, 530]);
    job.pieces[0].left = 500;
    job.pieces[0].right = 500;
    assert_eq!(account(&job).normal_greatest.value, 86_940_000);
}

/// 4143 words, of which every one is looked at.
#[test]
fn the_longest_job() {
    let account = account(&longest());
    assert_eq!(longest().words().len(), 4143);
    assert_eq!((account.first_lanes, account.second_lanes), (5, 5));
}
