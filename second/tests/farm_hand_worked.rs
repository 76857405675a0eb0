//! 02 "Farm bridges": the built-in rows against the tables multiplied out by
//! hand, and farm jobs worked out by hand.

mod common;

use common::farm_tables::{FIRST_ULTIMATE_ROW, K, LIVE, ROWS};
use common::{account, pieces, small_farm_job};
use second::account::{Governing, Traffic};
use second::farm;
use second::farm_job::farm_job;
use second::loads::Live;
use second::{report, solve};

/// A row's value with what it leaves out, as a bit an effect, and its k.
fn governing(value: i64, row: u32, omitted: u32, k: u32) -> Governing {
    Governing {
        value,
        row,
        omitted,
        traffic_left_out: 0,
        k,
    }
}

/// In thousandths of N·U, from thousandths of kN·U.
const KN: i64 = 1000;

#[test]
fn the_built_in_rows_are_the_tables() {
    let rows = farm::combinations();
    assert_eq!(rows.len(), 20);
    for ((number, row), due) in (1..).zip(&rows).zip(ROWS) {
        assert_eq!(row.row as usize, number);
        assert_eq!(row.state, if number < FIRST_ULTIMATE_ROW { 1 } else { 2 });
        let live = (due[LIVE] != 0).then_some(Live::Normal);
        assert_eq!(
            (row.live, row.live_factor),
            (live, due[LIVE]),
            "row {number}"
        );
        let ks: Vec<u32> = row.variants.iter().map(|variant| variant.k).collect();
        let has_k = due.contains(&K);
        assert_eq!(
            ks,
            if has_k { vec![1300, 800] } else { vec![0] },
            "row {number}"
        );
        for variant in &row.variants {
            let mut found = [0; LIVE];
            for part in &variant.parts {
                assert_eq!(found[part.effect - 1], 0, "row {number} counts it twice");
                found[part.effect - 1] = part.factor;
            }
            let mut due = due;
            if has_k {
                due[0] = variant.k.into();
            }
            assert_eq!(found[..], due[..LIVE], "row {number}");
        }
    }
}

/// No product of the tables needs it: all are whole thousandths.
#[test]
fn factors_are_rounded_to_the_nearest_a_half_up() {
    let rounded = [14, 15, 16, 25, 20].map(|tenths| farm::nearest(tenths, 10));
    assert_eq!(rounded, [1, 2, 2, 3, 2]);
}

/// Figures read off the tables one by one: the row's number, the load's place
/// from 0 and the factor.
#[test]
fn figures_of_the_tables() {
    for (row, load, factor) in [
        (1, 11, 1000),  // 1A: LLxI
        (5, 2, 0),      // 2C has no OW
        (5, 8, 1000),   // 2C: FW
        (6, 5, 330),    // 3A: 0.33 TP
        (8, 7, 330),    // 5A: 0.33 WD
        (8, 4, 0),      // 5A has no ST
        (10, 9, 330),   // 5C: 0.33 EQ
        (11, 1, 1485),  // 1A: 1.10 * 1.35 EP
        (11, 11, 1837), // 1A: 1.10 * 1.67 LLxI
        (12, 5, 1375),  // 1B: 1.10 * 1.25 TP
        (13, 5, 1200),  // 2A: 1.20 TP
        (14, 7, 1000),  // 2B: WD outside the bracket
        (15, 8, 1000),  // 2C: FW outside the bracket
        (15, 2, 0),     // 2C has no OW
        (16, 2, 1250),  // 3A: 1.25 (EP + OW)
        (16, 5, 330),   // 3A: 0.33 TP
        (17, 1, 1250),  // 3B: 1.25 EP
        (17, 2, 0),     // 3B has no OW
        (18, 7, 330),   // 5A: 0.33 WD outside the bracket
        (18, 10, 1320), // 5A: 1.20 * 1.1 CN
        (19, 5, 396),   // 5B: 1.20 * 0.33 TP
        (20, 9, 396),   // 5C: 1.20 * 0.33 EQ
    ] {
        let row = &farm::combinations()[row - 1];
        let mut parts = row.variants[0].parts.iter();
        let found = match load {
            LIVE => row.live_factor,
            _ => parts
                .find(|part| part.effect == load + 1)
                .map_or(0, |part| part.factor),
        };
        assert_eq!(found, factor, "row {}, load {load}", row.row);
    }
}

#[test]
fn overload_is_unloaded_and_normal_is_reduced() {
    let account = account(&small_farm_job([0; 11]));
    assert_eq!(account.normal_greatest.value, 1_173_000);
    assert_eq!(
        (
            account.normal_greatest.set,
            account.normal_greatest.lanes[0].entry
        ),
        (1, 1)
    );
    assert_eq!(account.normal_least.value, 0);
    assert_eq!(account.overload_greatest, Traffic::default());
    assert_eq!(account.overload_least, Traffic::default());
}

/// Both ordinates 1, all transverse ones 1: HN is 7 * 50 * 2 + 1600 = 2300, and
/// 2300 * 20 * 1000 * 3 / 800000 = 172.5; times 17/20 that is 146.625. Rounded
/// before the share it would be 173 and 147.05, so 148.
#[test]
fn the_share_is_taken_before_rounding() {
    let mut job = small_farm_job([0; 11]);
    (job.pieces, job.transverse) = (pieces(&[(1, 1)]), vec![1; 7]);
    let raised = account(&job);
    assert_eq!(
        (raised.normal_greatest.value, raised.normal_least.value),
        (147, 0)
    );
    job.pieces = pieces(&[(-1, -1)]);
    let lowered = account(&job);
    assert_eq!(
        (lowered.normal_greatest.value, lowered.normal_least.value),
        (0, -147)
    );
}

/// DL 1000, EP 200, OW 300, SG 40, ST 50, TP 60, HE 70, WD 80, FW 90, EQ 100,
/// CN 110 and LLxI 1173, in kN·U. DL + EP + OW + SG + ST is 1590.
///   service greatest: 1A 2763, 1B 1650, 2A 2893, 2B 1590 + 1173 + 70 + 80 =
///   2913, 2C 2623, 3A 1709.8, 3B 1460, 5A 1676.4, 5B 1669.8, 5C 1683
///   service least: 1200 in 2C and 3B, which have no OW, 1500 elsewhere; of 2C
///   the effects 4, 5, 7 and 9 are left out
///   ultimate greatest: 1A 1.1 * 1390 + 1.485 * 200 + 1.837 * 1173, which is 1529
///   and 297 and 2154.801, 3980.801; 2A 3471.6, 2B 3479.6, 2C 3129.6, 3A 2134.8
///   ultimate least: 3B 1000 + 250 = 1250; 3A 800 + 625 = 1425, 2C 1440
#[test]
fn states_of_all_effects_above_0() {
    let account = account(&small_farm_job([
        1000, 200, 300, 40, 50, 60, 70, 80, 90, 100, 110,
    ]));
    assert_eq!(account.service.present, 1);
    assert_eq!(account.service.greatest, governing(2_913_000 * KN, 4, 0, 0));
    let without = 1 << 3 | 1 << 4 | 1 << 6 | 1 << 8;
    assert_eq!(
        account.service.least,
        governing(1_200_000 * KN, 5, without, 0)
    );
    assert_eq!(account.ultimate.present, 1);
    assert_eq!(
        account.ultimate.greatest,
        governing(3_980_801 * KN, 11, 0, 0)
    );
    let without = 1 << 3 | 1 << 4 | 1 << 7 | 1 << 8;
    assert_eq!(
        account.ultimate.least,
        governing(1_250_000 * KN, 17, without, 0)
    );
}

/// EQ alone beside DL. 3A's greatest is 1.3 * 1000 + 5000, with DL below 0 it is
/// -0.8 * 1000 + 5000; its least, without EQ, 0.8 * 1000 and -1.3 * 1000.
#[test]
fn k_is_the_more_severe_for_each_question() {
    let of_dl = |dl: i64| account(&small_farm_job([dl, 0, 0, 0, 0, 0, 0, 0, 0, 5000, 0])).ultimate;
    let without_eq = 1 << 9;
    let above = of_dl(1000);
    assert_eq!(above.greatest, governing(6_300_000 * KN, 16, 0, 1300));
    assert_eq!(above.least, governing(800_000 * KN, 16, without_eq, 800));
    let below = of_dl(-1000);
    assert_eq!(below.greatest, governing(4_200_000 * KN, 16, 0, 800));
    assert_eq!(
        below.least,
        governing(-1_300_000 * KN, 16, without_eq, 1300)
    );
}

/// DL 0: 3A's greatest is 5000 with either k. Every row's least is 0, so the
/// lowest is reported, and it has no k.
#[test]
fn without_dl_either_k_will_do() {
    let ultimate = account(&small_farm_job([0, 0, 0, 0, 0, 0, 0, 0, 0, 5000, 0])).ultimate;
    let greatest = ultimate.greatest;
    assert_eq!((greatest.value, greatest.row), (5_000_000 * KN, 16));
    assert!([1300, 800].contains(&greatest.k));
    assert_eq!((ultimate.least.value, ultimate.least.row), (0, 11));
    assert_eq!(ultimate.least.k, 0);
}

/// Service 3A governs with EQ too, and has no k.
#[test]
fn service_shows_no_k() {
    let service = account(&small_farm_job([1000, 0, 0, 0, 0, 0, 0, 0, 0, 5000, 0])).service;
    assert_eq!(service.greatest, governing(6_000_000 * KN, 6, 0, 0));
}

/// OW counts in 2A but not in 2C: with OW -1000 and FW 1 the greatest goes to
/// 2C, 1173 + 1 in service and 1.2 * 1173 + 1 in ultimate; 1A has 1.837 * 1173 -
/// 1100 = 1054.801.
#[test]
fn a_load_that_is_not_in_a_row_does_not_hold_it_back() {
    let account = account(&small_farm_job([0, 0, -1000, 0, 0, 0, 0, 0, 1, 0, 0]));
    assert_eq!(account.service.greatest, governing(1_174_000 * KN, 5, 0, 0));
    assert_eq!(
        account.ultimate.greatest,
        governing(1_408_600 * KN, 15, 0, 0)
    );
}

/// Equal rows: without HE and TP, 1A, 2A and 2B of service are the same, and
/// without LLxI too so are 1B and more; the lowest is reported.
#[test]
fn of_equal_rows_the_lowest() {
    let mut job = small_farm_job([1000, 0, 0, 0, 0, 0, 0, 0, 0, 0, 0]);
    assert_eq!(account(&job).service.greatest.row, 1);
    job.effects[5].value = 7;
    job.pieces = pieces(&[(0, 0)]);
    // 1B and 2A both come to 1007.
    assert_eq!(
        account(&job).service.greatest,
        governing(1_007_000 * KN, 2, 0, 0)
    );
}

/// The farm job's line is 250 at its middle, so the pair, 5 m apart, has 250 at
/// any stand between the ends, and HN is 70 * 2500 + 1600 * 250 = 575000. The
/// transverse ordinate at 150 cm is 575: 575000 * 575 * 20 * 1300 * 3 / 800000 =
/// 32235937.5, times 17/20 = 27400546.875. In kN·cm:
///   service greatest, 2A: 18000 - 250 - 400 + 350 + 900 + 150 + 27400.547
///   service least, 3A: 18000 - 250 - 400 - 600 - 1400
///   ultimate greatest, 1A: 1.1 * (18000 - 400 + 350) - 1.485 * 250 + 1.837 *
///   27400.547
///   ultimate least, 3A: 0.8 * 18000 - 1.25 * 650 - 600 - 1400
#[test]
fn the_example() {
    let answer = solve(&farm_job().bytes(), &mut [0; 10]);
    let expected = "\
normal greatest 27400547 least 0
overload greatest 0 least 0
service greatest 46150547000 row 3 least 15350000000 row 6
ultimate greatest 69708554839 row 11 least 11587500000 row 16
";
    assert_eq!(report::report(&answer), expected);
    assert_eq!(answer.account.ultimate.least.k, 800);
    let words = farm_job().words();
    assert_eq!(words[..11], [4, 10, 10, 50, 370, 1, 1300, 11, 0, 0, 3]);
    assert_eq!(words.len(), 11 + 20 + 9 + 22);
}

/// Everything at its limits: HN is 7 * 10000 * 1000 + 1600 * 10000 = 86000000,
/// and 86000000 * 1000 * 20 * 1300 * 3 / 800000 * 17 / 20 = 7127250000. All
/// effects at 10^9:
///   service greatest: 2A, 7 effects and LLxI; 2B comes to as much
///   ultimate greatest: 2A 1.2 * 7 * 10^9 and 1.2 LLxI
///   ultimate least, all at -10^9: 2A -1.2 * 7 * 10^9
#[test]
fn the_largest_values() {
    const MOST: i64 = 1_000_000_000;
    let mut job = small_farm_job([MOST; 11]);
    (job.piece_length, job.pieces) = (1, pieces(&[(5000, 5000); 1000]));
    (job.dynamic_kind, job.dynamic_value) = (1, 1300);
    let largest = account(&job);
    let live = 7_127_250_000;
    assert_eq!(largest.normal_greatest.value, live);
    let service = 1000 * (7 * 1000 * MOST + live);
    assert_eq!(largest.service.greatest, governing(service, 3, 0, 0));
    let ultimate = 1200 * (7 * 1000 * MOST + live);
    assert_eq!(largest.ultimate.greatest, governing(ultimate, 13, 0, 0));

    job.effects
        .iter_mut()
        .for_each(|effect| effect.value = -MOST);
    job.pieces = pieces(&[(-5000, -5000); 1000]);
    let least = account(&job);
    assert_eq!(least.normal_least.value, -live);
    assert_eq!(least.ultimate.least, governing(-ultimate, 13, 0, 0));
}
