//! The page of an account, and which of equally good choices it shows.

mod common;

use common::{level_job, pieces};
use second::account::{Account, Governing, Lane, Stand, State, Traffic};
use second::chosen::edition_3::lanes_job;
use second::report::page;
use second::solve::account_of;

/// These lanes, and unloaded ones past them.
fn ten_lanes(five: [Lane; 5]) -> [Lane; 10] {
    let mut lanes = [Lane::default(); 10];
    lanes[..5].copy_from_slice(&five);
    lanes
}

#[test]
fn every_part_of_an_account_is_told() {
    let traffic = |value, set, lanes: [(u32, i64, i64); 5]| Traffic {
        value,
        set,
        lanes: ten_lanes(lanes.map(|(entry, centre, factor)| Lane {
            entry,
            centre,
            factor,
        })),
    };
    let unloaded = (0, 0, 0);
    let account = Account {
        normal_greatest: traffic(
            31,
            0b10010,
            [unloaded, (1, 2001, 0), unloaded, unloaded, (2, 9000, 0)],
        ),
        normal_least: traffic(-32, 0, [unloaded; 5]),
        overload_greatest: traffic(
            33,
            0b11001,
            [
                (3, 750, 0),
                unloaded,
                unloaded,
                (1, 7000, 18),
                (2, 8001, 20),
            ],
        ),
        overload_least: traffic(
            -34,
            0b00100,
            [unloaded, unloaded, (4, 5005, 0), unloaded, unloaded],
        ),
        raising: Stand {
            station: 17,
            side: 1,
        },
        lowering: Stand {
            station: -3,
            side: 0,
        },
        service: State::default(),
        ultimate: State {
            present: 1,
            greatest: Governing {
                value: 41,
                row: 32,
                omitted: 0b1010,
                traffic_left_out: 0,
                k: 1300,
            },
            least: Governing {
                value: -42,
                row: 1,
                omitted: 0,
                traffic_left_out: 1,
                k: 0,
            },
        },
        first_lanes: 5,
        second_lanes: 0,
        records_walked: 512,
    };
    let expected = "\
normal greatest 31 N.U
  lanes 5, set 18
  lane 2: HN raising, centre 2001/5 cm, factor 0
  lane 5: HN lowering, centre 9000/5 cm, factor 0
normal least -32 N.U
  lanes 5, set 0
overload greatest 33 N.U
  lanes 5, set 25
  lane 1: HO raising, centre 750/5 cm, factor 0
  lane 4: HN raising, centre 7000/5 cm, factor 18
  lane 5: HN lowering, centre 8001/5 cm, factor 20
overload least -34 N.U
  lanes 5, set 4
  lane 3: HO lowering, centre 5005/5 cm, factor 0
raising pair at station 17, side right
lowering pair at station -3, side left
service none
ultimate greatest 41 row 32, left out 10, traffic not left out, k 1300
ultimate least -42 row 1, left out 0, traffic left out
records walked 512
";
    assert_eq!(page(&account), expected);
}

/// With two carriageways the second's lanes are numbered on, and each centre is over its
/// own carriageway's lanes.
#[test]
fn two_carriageways_are_told_apart() {
    let mut normal = Traffic {
        value: 51,
        set: 0b10100,
        ..Traffic::default()
    };
    normal.lanes[2].entry = 1;
    normal.lanes[2].centre = 2201;
    normal.lanes[4].entry = 2;
    normal.lanes[4].centre = 1100;
    let mut overload = Traffic {
        value: 52,
        set: 0b1000011000,
        ..Traffic::default()
    };
    overload.lanes[3].entry = 3;
    overload.lanes[3].centre = 601;
    overload.lanes[4].entry = 1;
    overload.lanes[4].factor = 11;
    overload.lanes[9].entry = 4;
    let account = Account {
        normal_greatest: normal,
        overload_greatest: overload,
        first_lanes: 3,
        second_lanes: 2,
        records_walked: 7,
        ..Account::default()
    };
    let expected = "\
normal greatest 51 N.U
  lanes 3 + 2, set 20
  lane 3: HN raising, centre 2201/3 cm, factor 0
  lane 5: HN lowering, centre 1100/2 cm, factor 0
normal least 0 N.U
  lanes 3 + 2, set 0
overload greatest 52 N.U
  lanes 3 + 2, set 536
  lane 4: HO raising, centre 601/2 cm, factor 0
  lane 5: HN raising, centre 0/2 cm, factor 11
  lane 10: HO lowering, centre 0/2 cm, factor 0
overload least 0 N.U
  lanes 3 + 2, set 0
raising pair at station 0, side left
lowering pair at station 0, side left
service none
ultimate none
records walked 7
";
    assert_eq!(page(&account), expected);
}

/// So it is across the median. In lanes of 400 cm, over a line of 8 along 5 m, the three
/// at 500 tie: 16 * 3 * 500 * 18400 * 3 / 800 = 1656000, and HO in one of them gives
/// (20 * 31200 + 38 * 18400) * 500 * 3 / 800 = 2481000. For least every lane gives 0.
#[test]
fn of_equal_lanes_on_both_sides_the_first_is_shown() {
    let mut job = lanes_job(&[0, 500], &[500, 500, 0]);
    job.pieces = pieces(&[(8, 8)]);
    job.rows.clear();
    let expected = "\
normal greatest 1656000 N.U
  lanes 2 + 3, set 14
  lane 2: HN raising, centre 1100/2 cm, factor 0
  lane 3: HN raising, centre 450/3 cm, factor 0
  lane 4: HN raising, centre 1650/3 cm, factor 0
normal least 0 N.U
  lanes 2 + 3, set 0
overload greatest 2481000 N.U
  lanes 2 + 3, set 14
  lane 2: HO raising, centre 1100/2 cm, factor 0
  lane 3: HN raising, centre 450/3 cm, factor 20
  lane 4: HN raising, centre 1650/3 cm, factor 18
overload least 0 N.U
  lanes 2 + 3, set 1
  lane 1: HO raising, centre 300/2 cm, factor 0
raising pair at station -1, side right
lowering pair at station -1, side left
service none
ultimate none
records walked 0
";
    assert_eq!(page(&account_of(&job)), expected);
}

/// The pair is as good at station 1, from either side, as at 2. Lane 1 is as
/// high at 200 cm as at 250, where its centres end. Lane 2 or lane 4 beside it
/// gives the same, 0.9 of 1120, which is more than lane 1 alone or 0.8 of all
/// three. Beside HO in lane 1 both take a factor, lane 2 or lane 4 the larger: HN is
/// 7 * 50 * 40 + 1600 * 16 = 39600, HO 65200, and 20 * 65200 * 1000 + 38 * 39600 * 120
/// = 1484576000, times 3 / 800, is 5567160. For least every lane, centre and
/// direction gives 0.
#[test]
fn of_equally_good_choices_the_lowest_is_shown() {
    let mut transverse = vec![0; 41];
    transverse[4..=5].fill(1000);
    transverse[11..=13].fill(120);
    transverse[27..=29].fill(120);
    let mut job = level_job(2000, 50, transverse);
    job.pieces = pieces(&[(0, 8), (8, 8), (8, 8)]);
    let expected = "\
normal greatest 2993760 N.U
  lanes 5, set 3
  lane 1: HN raising, centre 1000/5 cm, factor 0
  lane 2: HN raising, centre 2750/5 cm, factor 0
normal least 0 N.U
  lanes 5, set 0
overload greatest 5567160 N.U
  lanes 5, set 11
  lane 1: HO raising, centre 1000/5 cm, factor 0
  lane 2: HN raising, centre 2750/5 cm, factor 20
  lane 4: HN raising, centre 6750/5 cm, factor 18
overload least 0 N.U
  lanes 5, set 1
  lane 1: HO raising, centre 750/5 cm, factor 0
raising pair at station 1, side left
lowering pair at station -1, side left
service greatest 0 row 1, left out 0, traffic not left out
service least 0 row 1, left out 0, traffic not left out
ultimate none
records walked 0
";
    assert_eq!(page(&account_of(&job)), expected);
}
