//! 02 "Two carriageways": the example of edition 3, worked out by hand. No other
//! placement is as good as one its page shows, but for the pairs' sides.

mod common;

use common::one_best;
use second::job::Job;
use second::loads::Live;
use second::motorway_job::motorway_job;
use second::report::page;
use second::solve::account_of;

/// Longitudinal effects in 75 N·U. The ordinates of the long span add up to 1454, each
/// counted for both its pieces, so the uniform load gives 7 * 25 * 2 * 1454 = 508900;
/// those of the short one to -177, so 350 * -177 = -61950. A pair is 2 pieces apart:
/// 400 + 200 = 600 from station 3, -45 - 36 = -81 from station 10.
///   raising HN 508900 + 1600 * 600 = 1468900, HO 508900 + 3200 * 600 = 2428900
///   lowering HN -61950 - 1600 * 81 = -191550, HO -61950 - 3200 * 81 = -321150
///
/// The first carriageway's lanes are 1100/3 cm wide, the second's 380 cm. The centres
/// are the ones nearest the girder, but in lane 5, below 0 at all of them, the furthest
/// from it; their ordinates in thousandths, each from its own carriageway's left kerb:
///   lane 1, 1100/3 - 150 = 650/3 cm: 28 + 12 * 50/120 = 33
///   lane 2, 2200/3 - 150 = 1750/3 cm: 199 + 28 * 70/120 = 646/3
///   lane 3, 1100 - 150 = 950 cm: 440 + 13 * 30/40 = 449.75
///   lane 4, 150 cm: 105 - 19 * 30/40 = 90.75
///   lane 5, 760 - 150 = 610 cm: -15 - 2 * 10/40 = -15.5
///
/// Overload greatest, with HO in the girder's own lane. HN gives 33 * 1468900 =
/// 48473700 in lane 1, 646/3 * 1468900 = 948909400/3 in lane 2, 90.75 * 1468900 =
/// 133302675 in lane 4, across the median, and 15.5 * 191550 = 2969025 in lane 5,
/// lowering; so they take 16, 20, 18 and 14.
///   lane 1: 16 * 48473700 = 775579200
///   lane 2: 20 * 948909400/3 = 18978188000/3
///   lane 3: 20 * 449.75 * 2428900 = 21847955500
///   lane 4: 18 * 133302675 = 2399448150
///   lane 5: 14 * 2969025 = 41566350
/// Their sum is 94171835600/3. L is 20 m: 1 + 15/58 is 1259 thousandths, rounded up. 3X
/// is 118562341020400; over 800000 it is 148202926.28, rounded up 148202927.
///
/// Overload least: raising in lane 5, HN gives -15.5 * 1468900 = -22767950, more than
/// lowering in lane 4, 90.75 * -191550 = -17383162.5, or in lane 1, 33 * -191550 =
/// -6321150, but less than in lane 2, 646/3 * -191550 = -41247100; so lanes 1, 2, 4 and
/// 5 take 14, 20, 16 and 18.
///   -88496100 - 824942000 - 20 * 449.75 * 321150 - 278130600 - 409823100 = -4490136050
/// L is 17.5 m: 1 + 15/55.5 is 1271 thousandths. It gives -21401110.95, rounded down
/// -21401111.
///
/// Normal greatest: 16 * 1468900 * (646/3 + 449.75 + 90.75) = 53291692000/3 with lanes
/// 2, 3 and 4. Lanes 2 and 3 alone give 18 * (948909400/3 + 660637775) = 52754809050/3,
/// and with lane 1 it is 14 * (948909400/3 + 660637775 + 133302675 + 48473700) =
/// 48666125900/3. It gives 83867800.29. Normal least: lanes 2, 3 and 5 give 16 *
/// (-41247100 - 86149612.5 - 22767950) = -2402634600, so -11451557.16.
///
/// Superimposed dead load is left out of both least values:
///   service 1000 * 166010000 + 1350 * 83867801, 1000 * 127700000 - 1350 * 11451558
///   ultimate 1200 * 166010000 + 1500 * 148202927, 1200 * 127700000 - 1500 * 21401111
#[test]
fn its_page() {
    let expected = "\
normal greatest 83867801 N.U
  lanes 3 + 2, set 14
  lane 2: HN raising, centre 1750/3 cm, factor 0
  lane 3: HN raising, centre 2850/3 cm, factor 0
  lane 4: HN raising, centre 300/2 cm, factor 0
normal least -11451558 N.U
  lanes 3 + 2, set 22
  lane 2: HN lowering, centre 1750/3 cm, factor 0
  lane 3: HN lowering, centre 2850/3 cm, factor 0
  lane 5: HN raising, centre 1220/2 cm, factor 0
overload greatest 148202927 N.U
  lanes 3 + 2, set 31
  lane 1: HN raising, centre 650/3 cm, factor 16
  lane 2: HN raising, centre 1750/3 cm, factor 20
  lane 3: HO raising, centre 2850/3 cm, factor 0
  lane 4: HN raising, centre 300/2 cm, factor 18
  lane 5: HN lowering, centre 1220/2 cm, factor 14
overload least -21401111 N.U
  lanes 3 + 2, set 31
  lane 1: HN lowering, centre 650/3 cm, factor 14
  lane 2: HN lowering, centre 1750/3 cm, factor 20
  lane 3: HO lowering, centre 2850/3 cm, factor 0
  lane 4: HN lowering, centre 300/2 cm, factor 16
  lane 5: HN raising, centre 1220/2 cm, factor 18
raising pair at station 3, side left
lowering pair at station 10, side left
service greatest 279231531350 row 1, left out 0, traffic not left out
service least 112240396700 row 1, left out 2, traffic not left out
ultimate greatest 421516390500 row 2, left out 0, traffic not left out
ultimate least 121138333500 row 2, left out 2, traffic not left out
records walked 4
";
    assert_eq!(page(&account_of(&motorway_job())), expected);
}

/// 13 + 28 + 29 + 20 + 6 + 8 + 12 words, the header's as edition 3 has them.
#[test]
fn its_words() {
    let words = motorway_job().words();
    assert_eq!(words.len(), 116);
    let header = [3, 25, 14, 40, 1100, 4, 200, 2, 2, 4, 175, 0, 760];
    assert_eq!(words[..13], header);
    assert_eq!(Job::decode(&words), motorway_job());
}

#[test]
fn no_other_station_is_as_good() {
    one_best::no_other_station_is_as_good(&motorway_job(), 600, -81);
}

/// A sum counts 240 times, 3 * 2 * 40; a third of one 80 times.
#[test]
fn no_other_placement_is_as_good() {
    let due = [
        (Live::Normal, [80 * 53_291_692_000, 240 * -2_402_634_600]),
        (Live::Overload, [80 * 94_171_835_600, 240 * -4_490_136_050]),
    ];
    one_best::no_other_placement_is_as_good(&motorway_job(), due);
}
