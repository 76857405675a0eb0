//! 02 "Additional overload lanes": the example with four lanes, worked out by hand. No
//! other placement is as good as one its page shows, but for the pairs' sides.

mod common;

use common::one_best;
use second::deck_job::deck_job;
use second::loads::Live;
use second::report::page;
use second::solve::account_of;

/// Longitudinal effects in 75 N·U. The ordinates of the first span add up to 2381, each
/// counted for both its pieces, so the uniform load gives 7 * 25 * 2 * 2381 = 833350;
/// those of the second to -619, so 350 * -619 = -216650. A pair is 2 pieces apart:
/// 516 + 304 = 820 from station 4, -89 - 94 = -183 from station 13.
///   raising HN 833350 + 1600 * 820 = 2145350, HO 833350 + 3200 * 820 = 3457350
///   lowering HN -216650 - 1600 * 183 = -509450, HO -216650 - 3200 * 183 = -802250
///
/// The centres are the ones nearest the girder, but in lane 1, below 0 all over, the
/// furthest from it; their ordinates in thousandths:
///   lane 1, 150 cm: -99 + 25 * 30/40 = -80.25
///   lane 2, 650 cm: 310 + 48 * 10/40 = 322
///   lane 3, 1000 cm: 621
///   lane 4, 1350 cm: 298 - 66 * 30/40 = 248.5
///
/// Overload greatest, with HO in the girder's own lane. HN gives 80.25 * 509450 =
/// 40883362.5 in lane 1, lowering; 322 * 2145350 = 690802700 in lane 2 and 248.5 *
/// 2145350 = 533119475 in lane 4; so they take 16, 20 and 18.
///   lane 1: 16 * 40883362.5 = 654133800
///   lane 2: 20 * 690802700 = 13816054000
///   lane 3: 20 * 621 * 3457350 = 42940287000
///   lane 4: 18 * 533119475 = 9596150550
/// Their sum is 67006625350. Times 1239, X is 83021208808650; 3X/800000 is
/// 311329533.03, rounded up 311329534.
///
/// Overload least: raising in lane 1, HN gives -80.25 * 2145350 = -172164337.5, more
/// than lowering in lane 2, 322 * -509450 = -164042900, or in lane 4, 248.5 * -509450 =
/// -126598325; so they take 20, 18 and 16.
///   -3443286750 - 2952772200 - 20 * 621 * 802250 - 2025573200 = -18385577150
/// It gives -85423987.83, rounded down -85423988.
///
/// Normal greatest: 16 * 2145350 * (322 + 621 + 248.5) = 40898952400 without lane 1, in
/// place of 14 * (2556184525 + 40883362.5) with it, gives 190026757.59. Normal least:
/// 14 * (-172164337.5 - 509450 * 1191.5) = -10908436175 gives -50683321.58.
///
/// Superimposed dead load is left out of both least values:
///   service 1000 * 242275000 + 1350 * 190026758, 1000 * 198225000 - 1350 * 50683322
///   ultimate 1200 * 242275000 + 1500 * 311329534, 1200 * 198225000 - 1500 * 85423988
#[test]
fn its_page() {
    let expected = "\
normal greatest 190026758 N.U
  lanes 4, set 14
  lane 2: HN raising, centre 2600/4 cm, factor 0
  lane 3: HN raising, centre 4000/4 cm, factor 0
  lane 4: HN raising, centre 5400/4 cm, factor 0
normal least -50683322 N.U
  lanes 4, set 15
  lane 1: HN raising, centre 600/4 cm, factor 0
  lane 2: HN lowering, centre 2600/4 cm, factor 0
  lane 3: HN lowering, centre 4000/4 cm, factor 0
  lane 4: HN lowering, centre 5400/4 cm, factor 0
overload greatest 311329534 N.U
  lanes 4, set 15
  lane 1: HN lowering, centre 600/4 cm, factor 16
  lane 2: HN raising, centre 2600/4 cm, factor 20
  lane 3: HO raising, centre 4000/4 cm, factor 0
  lane 4: HN raising, centre 5400/4 cm, factor 18
overload least -85423988 N.U
  lanes 4, set 15
  lane 1: HN raising, centre 600/4 cm, factor 20
  lane 2: HN lowering, centre 2600/4 cm, factor 18
  lane 3: HO lowering, centre 4000/4 cm, factor 0
  lane 4: HN lowering, centre 5400/4 cm, factor 16
raising pair at station 4, side left
lowering pair at station 13, side left
service greatest 498811123300 row 1, left out 0, traffic not left out
service least 129802515300 row 1, left out 2, traffic not left out
ultimate greatest 757724301000 row 2, left out 0, traffic not left out
ultimate least 109734018000 row 2, left out 2, traffic not left out
records walked 4
";
    assert_eq!(page(&account_of(&deck_job())), expected);
}

#[test]
fn no_other_station_is_as_good() {
    one_best::no_other_station_is_as_good(&deck_job(), 820, -183);
}

/// A sum counts 160 times, n times g.
#[test]
fn no_other_placement_is_as_good() {
    let due = [
        (Live::Normal, [40_898_952_400, -10_908_436_175]),
        (Live::Overload, [67_006_625_350, -18_385_577_150]),
    ];
    let due = due.map(|(live, values)| (live, values.map(|value: i128| 160 * value)));
    one_best::no_other_placement_is_as_good(&deck_job(), due);
}
