//! The checker on jobs with two carriageways: it takes every placement that is as good,
//! and refuses lanes, centres and factors that are another side's.

mod common;

use common::call::{
    load, refuses_accounts, refuses_centres, takes_accounts, Call, NORMAL_GREATEST, NORMAL_LEAST,
    OVERLOAD_GREATEST,
};
use second::account::Lane;
use second::chosen::edition_3::{lanes_job, level_job, sloped_job};
use second::motorway_job::motorway_job;

/// Three lanes and two: normal greatest is on lanes 2, 3 and 4, at 1750/3, 2850/3 and
/// 300/2 cm; overload greatest on all, with factors 16, 20, none, 18 and 14.
#[test]
fn wrong_lanes_are_refused() {
    refuses_accounts(
        &Call::of(&motorway_job()),
        &[
            // The second side's bits from 5 on, as if the first had five lanes.
            ("past the last lane", |account| {
                let traffic = &mut account.normal_greatest;
                traffic.set = 0b100110;
                traffic.lanes.swap(3, 5);
            }),
            ("does not agree with the lane set", |account| {
                account.normal_greatest.set = 0b100110
            }),
            // The second side's lanes first.
            ("lane 1: its centre is outside", |account| {
                let traffic = &mut account.normal_greatest;
                traffic.set = 0b11001;
                traffic.lanes[..5].rotate_left(3);
            }),
            ("unloaded but has a factor", |account| {
                account.overload_greatest.lanes[5].factor = 11
            }),
            ("past the last lane", |account| {
                let traffic = &mut account.normal_greatest;
                traffic.set |= 1 << 5;
                traffic.lanes[5] = traffic.lanes[3];
            }),
            ("names no lane", |account| {
                account.normal_greatest.set |= 1 << 10
            }),
        ],
    );
}

/// The same job; normal least has lane 5 at 1220/2 cm.
#[test]
fn wrong_centres_are_refused() {
    let table = [
        // In the first's n-ths, 450/3 cm: as halves within the limits, but not the best.
        (OVERLOAD_GREATEST, 3, 450, "placement's effect"),
        (OVERLOAD_GREATEST, 3, 461, "lane 4: its centre is outside"),
        // From the first's left kerb, and from its right one.
        (
            NORMAL_GREATEST,
            3,
            300 + 2 * 1100,
            "lane 4: its centre is outside",
        ),
        (
            NORMAL_LEAST,
            4,
            1220 + 2 * 400,
            "lane 5: its centre is outside",
        ),
        // In halves on the first side.
        (
            NORMAL_GREATEST,
            1,
            1750 * 2 / 3,
            "lane 2: its centre is outside",
        ),
        (
            NORMAL_GREATEST,
            2,
            2850 + 1,
            "lane 3: its centre is outside",
        ),
        (NORMAL_GREATEST, 3, 300 - 1, "lane 4: its centre is outside"),
        (NORMAL_GREATEST, 9, 1, "unloaded but has a centre"),
    ];
    refuses_centres(&Call::of(&motorway_job()), &table);
}

#[test]
fn wrong_lane_counts_are_refused() {
    refuses_accounts(
        &Call::of(&motorway_job()),
        &[
            ("the lane count is 5, 3 is due", |account| {
                account.first_lanes = 5;
                account.second_lanes = 0;
            }),
            ("the lane count is 2", |account| {
                (account.first_lanes, account.second_lanes) = (2, 3);
            }),
            ("the second carriageway's lane count is 0", |account| {
                account.second_lanes = 0
            }),
            ("the second carriageway's lane count is 5", |account| {
                account.second_lanes = 5
            }),
        ],
    );
}

/// A refused job's account has no lanes, either.
#[test]
fn lane_counts_of_a_refused_job() {
    let mut job = motorway_job();
    job.further_header[2] = 299;
    refuses_accounts(
        &Call::new(&job.bytes(), &[7; 14]),
        &[
            ("not zero", |account| account.first_lanes = 3),
            ("not zero", |account| account.second_lanes = 2),
            ("not zero", |account| {
                account.normal_least.lanes[9].entry = 1
            }),
        ],
    );
}

/// Each of two lanes gets the other's entry and factor.
fn exchange_roles(lanes: &mut [Lane; 10], one: usize, other: usize) {
    lanes.swap(one, other);
    (lanes[one].centre, lanes[other].centre) = (lanes[other].centre, lanes[one].centre);
}

/// Ten lanes of one ordinate: HO and the factors may be in any of them.
#[test]
fn every_lane_of_ten_may_have_any_role() {
    let call = Call::of(&level_job(1710, 2079));
    takes_accounts(
        &call,
        &[
            ("HO across the median", |account| {
                exchange_roles(&mut account.overload_greatest.lanes, 0, 6)
            }),
            ("20 and 11 exchanged", |account| {
                let lanes = &mut account.overload_greatest.lanes;
                (lanes[1].factor, lanes[9].factor) = (11, 20);
            }),
            ("a centre elsewhere in its lane", |account| {
                account.overload_greatest.lanes[9].centre += 100
            }),
        ],
    );
    refuses_accounts(
        &call,
        &[
            ("factor 12 2 times, 1 is due", |account| {
                account.overload_greatest.lanes[6].factor = 12
            }),
            ("factor 12 0 times, 1 is due", |account| {
                let lanes = &mut account.overload_greatest.lanes;
                let lane = lanes.iter_mut().find(|lane| lane.factor == 12);
                lane.expect("the fifth additional lane").factor = 11;
            }),
            ("additional lanes have factor", |account| {
                account.overload_least.lanes[9].factor = 10
            }),
            ("has a factor but is not additional", |account| {
                account.normal_greatest.lanes[9].factor = 11
            }),
            ("2 HO elements", |account| {
                let lanes = &mut account.overload_greatest.lanes;
                (lanes[9].entry, lanes[9].factor) = (3, 0);
            }),
            ("placement's effect", |account| {
                let traffic = &mut account.normal_greatest;
                traffic.set &= !(1 << 9);
                traffic.lanes[9] = Lane::default();
            }),
        ],
    );
}

/// Of nine lanes the tenth is past the last.
#[test]
fn the_tenth_lane_of_nine() {
    refuses_accounts(
        &Call::of(&level_job(1340, 2079)),
        &[("lane 10: is past the last lane", |account| {
            let traffic = &mut account.normal_greatest;
            traffic.set |= 1 << 9;
            traffic.lanes[9] = traffic.lanes[8];
        })],
    );
}

/// Two lanes under 800, one on each side, beside others that give nothing: HO may be in
/// either, and a lane of 0 may have the last factor.
#[test]
fn ties_across_the_median_are_free() {
    let call = Call::of(&lanes_job(&[0, 800], &[800, 0]));
    takes_accounts(
        &call,
        &[
            ("HO on the second side", |account| {
                exchange_roles(&mut account.overload_greatest.lanes, 1, 2)
            }),
            ("a lane of nothing as the second additional", |account| {
                load(&mut account.overload_greatest, 3, (1, 1100, 18))
            }),
        ],
    );
    refuses_accounts(
        &call,
        &[("lane 4: its centre is outside", |account| {
            // From the first's left kerb.
            load(&mut account.overload_greatest, 3, (1, 2700, 18))
        })],
    );
}

/// Two lanes of 350.5 cm and one of 437: lane 2 at 1001/2 cm, lane 3 at 222.
#[test]
fn centres_of_sides_of_differing_n() {
    let table = [
        (NORMAL_GREATEST, 1, 1000, "lane 2: its centre is outside"),
        (NORMAL_GREATEST, 2, 444, "lane 3: its centre is outside"),
        (NORMAL_GREATEST, 2, 223, "placement's effect"),
        (NORMAL_GREATEST, 0, 301, "placement's effect"),
    ];
    refuses_centres(&Call::of(&sloped_job(701, 437)), &table);
}
