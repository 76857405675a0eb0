//! Small jobs whose answers are worked out by hand.

mod common;

use common::{account, five_lanes, level_job, pieces, traffic_values, two_lane_job};
use second::account::{Governing, Stand, State, Traffic};
use second::job::Job;
use second::{report, solve};

fn entries(traffic: &Traffic) -> [u32; 5] {
    five_lanes(traffic).map(|lane| lane.entry)
}

fn centres(traffic: &Traffic) -> [i64; 5] {
    five_lanes(traffic).map(|lane| lane.centre)
}

/// Ordinates at stations 0 to 4: 0, 100, 0, -60, 0. The axles are 2 pieces
/// apart, so pairs with left axle at -2 to 4 have 0, 100, 0, 40, 0, -60, 0:
/// raising stands at -1 with 100, its left axle off the line, lowering at 3
/// with -60. The line has no jumps, so either side will do.
///
/// Uniform: raising 7 * 25 * 200 = 35000, lowering 7 * 25 * -120 = -21000.
/// Raising HN 35000 + 160000 = 195000, HO 355000;
/// lowering HN -21000 - 96000 = -117000, HO -213000.
///
/// Centres run from 150 to 210 cm with ordinates 700 to 580, and from 510 to
/// 570 cm with -20 to -140. The furthest for each lane, in thousands:
///   greatest HN: 700 * 195 = 136500; -140 * -117 = 16380
///   least HN: 700 * -117 = -81900; -140 * 195 = -27300
///   greatest HO: 700 * 355 = 248500; -140 * -213 = 29820
///   least HO: 700 * -213 = -149100; -140 * 355 = -49700
/// Normal greatest: lane 1 alone 20 * 136500 = 2730000, both 18 * 152880 =
/// 2751840. Times 1000 * 1000 * 3 / 800000: 10319400.
/// Normal least: both, 18 * -109200 = -1965600, gives -7371000.
/// Overload greatest: HO in lane 1, 20 * 248500 + 20 * 16380 = 5297600, gives
/// 19866000. Least: 20 * -149100 + 20 * -27300 = -3528000, gives -13230000.
#[test]
fn two_lanes_and_a_line_of_two_signs() {
    let account = account(&two_lane_job());
    assert_eq!(
        traffic_values(&account),
        [10319400, -7371000, 19866000, -13230000]
    );
    assert_eq!(account.raising.station, -1);
    assert_eq!(account.lowering.station, 3);
    let placements = [
        (account.normal_greatest, [1, 2, 0, 0, 0]),
        (account.normal_least, [2, 1, 0, 0, 0]),
        (account.overload_greatest, [3, 2, 0, 0, 0]),
        (account.overload_least, [4, 1, 0, 0, 0]),
    ];
    for (traffic, due) in placements {
        assert_eq!(traffic.set, 0b11);
        assert_eq!(entries(&traffic), due);
        assert_eq!(centres(&traffic), [300, 1140, 0, 0, 0]);
    }
}

/// Row 1's chain: 1000 * 1000 * 1000 = 1e9 from effect 1, and 1500 * 1000 *
/// -2000 = -3e9 from effect 2, which may be left out. Row 2 ties with it.
/// Row 3 goes on from 1200 * 1000 * 3000 = 3.6e9 of effect 4 to row 1's chain.
/// Row 4 is 0.
///   service greatest 1e9 + 1000 * 10319400, without effect 2
///   service least 1e9 - 3e9 - 1000 * 7371000
///   ultimate greatest 3.6e9 + 1e9 + 1500 * 19866000, without effect 2
///   ultimate least 1e9 - 3e9 - 1500 * 13230000, without effect 4
#[test]
fn states_with_a_tie_and_effects_left_out() {
    let account = account(&two_lane_job());
    let governing = |value, row, omitted| Governing {
        value,
        row,
        omitted,
        traffic_left_out: 0,
        k: 0,
    };
    let service = State {
        present: 1,
        greatest: governing(11_319_400_000, 1, 0b0010),
        least: governing(-9_371_000_000, 1, 0),
    };
    let ultimate = State {
        present: 1,
        greatest: governing(34_399_000_000, 3, 0b0010),
        least: governing(-21_845_000_000, 3, 0b1000),
    };
    assert_eq!(account.service, service);
    assert_eq!(account.ultimate, ultimate);
}

#[test]
fn patch_bytes_follow_the_sign_of_each_piece() {
    let mut job = two_lane_job();
    job.pieces = pieces(&[(0, 1), (-1, 0), (0, 0), (5, 5), (-5, -5)]);
    let mut patch = [7; 6];
    solve(&job.bytes(), &mut patch);
    assert_eq!(patch, [1, 2, 0, 1, 2, 7]);
}

/// h 50, so the axles are one piece apart. Ordinates left and right of the
/// stations 0, 1, 2: 0|6, 10|8, 3|0. Pairs by left axle and side:
///   -1: 0|6; 0: 10|14; 1: 13|8; 2: 3|0
/// so raising stands at 0, right, with 14. Were the axles to choose sides
/// separately, 6 + 10 = 16 would be found there.
///
/// Raising HN: 7 * 50 * 27 + 1600 * 14 = 31850; HO: 9450 + 44800 = 54250. The
/// one lane's centre can only be 150 cm, 30 of 40 cm past ordinate 3: with 5
/// and 2 the ordinate is (5 * 10 + 2 * 30) / 40 = 2.75.
/// 3X/800000 with factor 1001 and 20 twentieths:
///   HN 31850 * 2.75 * 20 * 1001 * 3 / 800000 = 6575.63.., up to 6576
///   HO 54250 * 2.75 * 20 * 1001 * 3 / 800000 = 11200.25.., up to 11201
fn jumping_job(transverse_3: i64, transverse_4: i64) -> Job {
    let mut transverse = vec![0; 9];
    transverse[3] = transverse_3;
    transverse[4] = transverse_4;
    let mut job = level_job(300, 40, transverse);
    job.pieces = pieces(&[(6, 10), (8, 3)]);
    (job.dynamic_kind, job.dynamic_value) = (1, 1001);
    job
}

#[test]
fn both_axles_take_the_same_side() {
    let account = account(&jumping_job(5, 2));
    let right_of_0 = Stand {
        station: 0,
        side: 1,
    };
    assert_eq!(account.raising, right_of_0);
    assert_eq!(traffic_values(&account), [6576, 0, 11201, 0]);
}

/// With the transverse line turned over, least is rounded down, away from 0.
#[test]
fn least_is_rounded_down() {
    let account = account(&jumping_job(-5, -2));
    assert_eq!(traffic_values(&account), [0, -6576, 0, -11201]);
    assert_eq!(entries(&account.normal_least), [1, 0, 0, 0, 0]);
    assert_eq!(centres(&account.normal_least), [150, 0, 0, 0, 0]);
}

/// The empty set gives 0 in normal; overload still has its HO lane.
#[test]
fn an_overload_of_0_has_one_ho_lane() {
    let account = account(&level_job(2079, 50, vec![0; 43]));
    assert_eq!(traffic_values(&account), [0; 4]);
    for traffic in [account.normal_greatest, account.normal_least] {
        assert_eq!((traffic.set, entries(&traffic)), (0, [0; 5]));
    }
    for traffic in [account.overload_greatest, account.overload_least] {
        let elements = traffic.lanes.iter().filter(|lane| lane.entry >= 3);
        assert_eq!((elements.count(), traffic.set.count_ones()), (1, 1));
    }
}

/// W 600: the two centres can only be 150 and 450 cm, ordinates 3 and 9 of
/// g 50. With 1000 and 111, 18 * 1111 = 19998 is below 20 * 1000: one lane,
/// 18400 * 20000 * 1000 * 3 / 800000 = 1380000. With 112, 18 * 1112 = 20016:
/// both, 1381104. Overload has lane 2 at 20 of its own:
/// (31200 * 1000 + 18400 * 111) * 20 * 1000 * 3 / 800000 = 2493180, and
/// 2494560 with 112.
#[test]
fn two_lanes_only_where_0_9_of_both_is_more() {
    for (ordinate, set, normal, overload) in [
        (111, 0b01, 1_380_000, 2_493_180),
        (112, 0b11, 1_381_104, 2_494_560),
    ] {
        let mut transverse = vec![0; 13];
        (transverse[3], transverse[9]) = (1000, ordinate);
        let account = account(&level_job(600, 50, transverse));
        assert_eq!(account.normal_greatest.value, normal);
        assert_eq!(account.normal_greatest.set, set);
        assert_eq!(account.overload_greatest.value, overload);
        assert_eq!(account.overload_greatest.set, 0b11);
    }
}

/// Five lanes, all ordinates 1000. Normal by lanes: 20, 2 * 18 = 36, 48, 56,
/// 60 twentieths: all five, 60 * 18400 * 1000 * 1000 * 3 / 800000 = 4140000.
/// Overload: HO at 20 and four HN at 20, 18, 16 and 14, together 68:
/// (20 * 31200 + 68 * 18400) * 1000 * 1000 * 3 / 800000 = 7032000.
#[test]
fn all_five_lanes() {
    let account = account(&level_job(2000, 50, vec![1000; 41]));
    assert_eq!(traffic_values(&account), [4_140_000, 0, 7_032_000, 0]);
    assert_eq!(account.normal_greatest.set, 0b11111);
    assert_eq!(account.overload_greatest.set, 0b11111);
}

/// W 971, three lanes, places in thirds of a cm. Centre limits: 450 to 521,
/// 1421 to 1492, 2392 to 2463. Ordinates of 1000 stand at 160 cm = 480 and
/// 480 cm = 1440, inside lanes 1 and 2, and at 790 cm = 2370, 22 thirds left
/// of lane 3's limits, so lane 3 is best at its left limit: of the 30 thirds
/// to the next ordinate, 0, it has 8 to go: 1000 * 8 / 30 = 266.67.
/// Three lanes: 16 * 2266.67 = 36266.67, above 18 * 2000 = 36000:
/// 18400 * 36266.67 * 1000 * 3 / 800000 = 2502400.
#[test]
fn centres_are_in_n_ths_of_a_cm() {
    let mut transverse = vec![0; 99];
    for number in [16, 48, 79] {
        transverse[number] = 1000;
    }
    let account = account(&level_job(971, 10, transverse));
    assert_eq!(account.normal_greatest.value, 2_502_400);
    assert_eq!(entries(&account.normal_greatest), [1, 1, 1, 0, 0]);
    assert_eq!(centres(&account.normal_greatest), [480, 1440, 2392, 0, 0]);
}

/// h 1, one piece of ordinates 0 and 9 with the axles 50 pieces apart: only
/// one axle can be on. Just left of station 1 it counts 9, by the left axle at
/// 1 or the right one, with the left axle at -49. Raising HN: 7 * 9 + 1600 * 9
/// = 14463; at 1000, 20 twentieths: 14463 * 3 * 20 * 1000 * 1000 / 800000 =
/// 1084725.
#[test]
fn an_axle_just_left_of_the_lines_right_end_counts() {
    let mut job = level_job(300, 50, vec![1000; 7]);
    job.piece_length = 1;
    job.pieces = pieces(&[(0, 9)]);
    let account = account(&job);
    assert_eq!(account.normal_greatest.value, 1_084_725);
    assert!([-49, 1].contains(&account.raising.station));
    assert_eq!(account.raising.side, 0);
}

#[test]
fn each_dynamic_kind() {
    // 1380 for each thousandth of the factor, from 18400 * 20 * 1000 * 3 / 800000.
    for (kind, value, factor) in [
        (1, 1000, 1000),
        (1, 1234, 1234),
        (2, 0, 1000),
        (3, 0, 1300),
        (3, 99, 1003),
        (3, 100, 1000),
        (3, 5000, 1000),
    ] {
        let mut job = level_job(300, 50, vec![1000; 7]);
        (job.dynamic_kind, job.dynamic_value) = (kind, value);
        assert_eq!(account(&job).normal_greatest.value, 1380 * factor);
    }
}

/// Two rows tie at 0 for least, and row 3 alone is greatest.
#[test]
fn the_lowest_row_is_given_at_a_tie() {
    let mut job = two_lane_job();
    for row in &mut job.rows {
        (row.state, row.live_kind, row.live_factor, row.first) = (2, 0, 0, 0);
    }
    job.rows[2].first = 1;
    job.effects[1].value = 0;
    let answer = solve(&job.bytes(), &mut [0; 4]);
    let lines = report::report(&answer);
    assert!(lines.ends_with("service none\nultimate greatest 1000000000 row 3 least 0 row 1\n"));
}

/// What counts 0 either way is kept: effect 3 of value 0, effect 2 at factor 0
/// and the traffic at factor 0.
#[test]
fn nothing_is_left_out_in_vain() {
    let mut job = two_lane_job();
    job.records[1].factor = 0;
    job.rows[0].live_factor = 0;
    job.rows.remove(1);
    job.rows.remove(1);
    let account = account(&job);
    for governing in [
        account.service.greatest,
        account.service.least,
        account.ultimate.greatest,
        account.ultimate.least,
    ] {
        assert_eq!((governing.omitted, governing.traffic_left_out), (0, 0));
    }
    assert_eq!(
        (account.service.greatest.row, account.ultimate.least.row),
        (1, 2)
    );
}

/// The extremes at once: 1000 pieces of 5000 at h 1, so 7 * 10000 * 1000 = 7e7
/// and the pair 1600 * 10000 = 1.6e7; five lanes at 1000, 60 twentieths, 1300:
/// 8.6e7 * 1000 * 60 * 1300 * 3 / 800000 = 25155000000. Overload: HO 1.02e8 *
/// 20 + 68 * 8.6e7 = 7.888e9; * 1000 * 1300 * 3 / 800000 = 38454000000.
/// Ultimate: sixteen effects of 1e9 at 3000 are 4.8e16, and 3000 times the
/// traffic is 115362000000000.
#[test]
fn the_largest_values() {
    let mut job = level_job(2079, 10, vec![1000; 209]);
    job.piece_length = 1;
    job.pieces = pieces(&[(5000, 5000); 1000]);
    (job.dynamic_kind, job.dynamic_value) = (1, 1300);
    let effect = second::job::Effect {
        value: 1_000_000_000,
        mark: 1,
    };
    job.effects = vec![effect; 16];
    job.records = (1..=16)
        .map(|number| second::job::Record {
            effect: number,
            factor: 3000,
            next: (number + 1) % 17,
        })
        .collect();
    let row = &mut job.rows[0];
    (row.state, row.live_kind, row.live_factor, row.first) = (2, 2, 3000, 1);
    let account = account(&job);
    assert_eq!(
        traffic_values(&account),
        [25_155_000_000, 0, 38_454_000_000, 0]
    );
    let greatest = account.ultimate.greatest;
    assert_eq!(greatest.value, 48_000_000_000_000_000 + 115_362_000_000_000);
    assert_eq!(account.ultimate.least.value, 48_000_000_000_000_000);
}
