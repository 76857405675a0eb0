//! The checker takes every right answer to a farm job, with either k where both
//! give the value, and no other.

mod common;

use common::call::{
    load, refuses, refuses_accounts, refuses_part, takes_accounts, Call, Part, SERVICE_GREATEST,
    SERVICE_LEAST, ULTIMATE_GREATEST, ULTIMATE_LEAST,
};
use common::{definition, pieces, small_farm_job};
use second::account::Governing;
use second::farm_job::farm_job;
use second::generator::{case, Stream};

/// What is due by the definitions alone passes, with the solver's placements and
/// omissions, and is what the solver gives.
#[test]
fn right_answers_to_generated_cases_pass() {
    for seed in 0..6000 {
        let case = case(Stream::Four, seed);
        let call = Call::new(&case.job, &case.patch);
        let due = definition::due(&case.job, &case.patch, &call.answer);
        assert_eq!((call.answer, call.after.clone()), due, "seed {seed}");
        assert_eq!(call.check(), Ok(()), "seed {seed}");
    }
}

/// DL 1000 and EQ 5000: 3A governs both ultimate values, the greatest with 1.3,
/// the least, without EQ, with 0.8.
fn governed_by_3a() -> Call {
    Call::of(&small_farm_job([1000, 0, 0, 0, 0, 0, 0, 0, 0, 5000, 0]))
}

/// The call with each of these k is refused for a reason that has the words beside it.
#[track_caller]
fn refuses_k(call: &Call, part: Part<Governing>, table: &[(u32, &str)]) {
    for &(k, reason) in table {
        refuses_part(call, part, reason, |governing| governing.k = k);
    }
}

#[test]
fn another_k_is_refused() {
    let call = governed_by_3a();
    let ultimate = call.answer.account.ultimate;
    assert_eq!((ultimate.greatest.row, ultimate.greatest.k), (16, 1300));
    assert_eq!((ultimate.least.row, ultimate.least.k), (16, 800));
    let no_k = [(0, "no k of 0"), (1000, "no k of 1000"), (13, "no k of 13")];
    refuses_k(&call, ULTIMATE_GREATEST, &no_k);
    refuses_k(&call, ULTIMATE_GREATEST, &[(800, "what it comes to")]);
    refuses_k(&call, ULTIMATE_LEAST, &[(1300, "what it comes to")]);
    // The value that the other k gives is refused as well.
    refuses_accounts(
        &call,
        &[("ultimate Greatest is", |account| {
            let greatest = &mut account.ultimate.greatest;
            (greatest.value, greatest.k) = (5_800_000_000, 800);
        })],
    );
}

#[test]
fn k_is_refused_where_another_row_governs() {
    let call = Call::of(&farm_job());
    assert_eq!(call.check(), Ok(()));
    let account = call.answer.account;
    assert_eq!(account.ultimate.greatest.row, 11);
    // Service's own 3A has no k.
    assert_eq!(account.service.least.row, 6);
    let no_k = [(1300, "no k of 1300"), (800, "no k of 800")];
    for part in [ULTIMATE_GREATEST, SERVICE_LEAST, SERVICE_GREATEST] {
        refuses_k(&call, part, &no_k);
    }
}

/// DL 0: 3A's greatest is 5000 with 1.3 and with 0.8. Every least is 0, so row
/// 11 is reported, which has no k.
#[test]
fn either_k_passes_where_both_give_the_value() {
    let call = Call::of(&small_farm_job([0, 0, 0, 0, 0, 0, 0, 0, 0, 5000, 0]));
    takes_accounts(
        &call,
        &[
            ("1.3", |account| account.ultimate.greatest.k = 1300),
            ("0.8", |account| account.ultimate.greatest.k = 800),
        ],
    );
    refuses_k(&call, ULTIMATE_GREATEST, &[(0, "no k of 0")]);
    refuses_k(&call, ULTIMATE_LEAST, &[(1300, "no k of 1300")]);
    refuses_accounts(
        &call,
        &[("row is", |account| {
            let least = &mut account.ultimate.least;
            (least.row, least.k) = (16, 800);
        })],
    );
}

/// An element that gives 0 may not stand in overload: the lowering pair is off
/// the line, and its pieces are none.
#[test]
fn a_loaded_overload_is_refused() {
    refuses_accounts(
        &governed_by_3a(),
        &[
            ("a lane is loaded", |account| {
                load(&mut account.overload_greatest, 0, (2, 150, 0))
            }),
            ("a lane is loaded", |account| {
                load(&mut account.overload_least, 0, (4, 150, 0))
            }),
            ("does not agree with the lane set", |account| {
                account.overload_least.set = 1
            }),
            ("it is unloaded but has a centre", |account| {
                account.overload_greatest.lanes[0].centre = 150
            }),
            ("it is unloaded but has a factor", |account| {
                account.overload_greatest.lanes[0].factor = 20
            }),
            ("has a factor but is not additional", |account| {
                account.normal_greatest.lanes[0].factor = 17
            }),
            ("Overload Greatest is", |account| {
                account.overload_greatest.value = 1
            }),
            ("Overload Least is", |account| {
                account.overload_least.value = -1
            }),
        ],
    );
}

/// Normal greatest is 1173000: HO would give 31200 for 18400, the unreduced HN
/// 1380000.
#[test]
fn ho_and_the_unreduced_hn_are_refused() {
    refuses_accounts(
        &governed_by_3a(),
        &[
            ("an HO element in normal", |account| {
                account.normal_greatest.lanes[0].entry = 3
            }),
            ("Normal Greatest is 1380000", |account| {
                account.normal_greatest.value = 1_380_000
            }),
            ("Normal Greatest is 1989000", |account| {
                account.normal_greatest.value = 1_989_000
            }),
            ("past the last lane", |account| {
                let normal = &mut account.normal_greatest;
                normal.set = 2;
                normal.lanes.swap(0, 1);
            }),
        ],
    );
}

/// 146.625 rounded once is 147; 172.5 rounded, then 17/20 of it rounded, is 148.
#[test]
fn a_value_rounded_twice_is_refused() {
    let mut job = small_farm_job([0; 11]);
    (job.pieces, job.transverse) = (pieces(&[(1, 1)]), vec![1; 7]);
    refuses_accounts(
        &Call::of(&job),
        &[("148, 147 is due", |account| {
            account.normal_greatest.value = 148
        })],
    );
}

/// All effects above 0: service least is 2C's, without SG, ST, HE and FW; OW,
/// effect 3, is not in it, and DL may not be left out. Ultimate greatest is 1A's.
#[test]
fn omissions_keep_to_the_row() {
    let effects = [1000, 200, 300, 40, 50, 60, 70, 80, 90, 100, 110];
    let call = Call::of(&small_farm_job(effects));
    assert_eq!(call.answer.account.service.least.row, 5);
    assert_eq!(call.answer.account.ultimate.greatest.row, 11);
    refuses_accounts(
        &call,
        &[
            ("not on its chain", |account| {
                account.service.least.omitted |= 1 << 2
            }),
            ("not on its chain", |account| {
                account.ultimate.greatest.omitted |= 1 << 5
            }),
            ("effect 1 may not be left out", |account| {
                account.service.least.omitted |= 1
            }),
            ("what it comes to", |account| {
                account.service.least.omitted &= !(1 << 3)
            }),
            ("what it comes to", |account| {
                account.ultimate.greatest.traffic_left_out = 1
            }),
            ("not on its chain", |account| {
                account.ultimate.least.omitted |= 1 << 11
            }),
        ],
    );
    // The least traffic is 0: it counts or is left out.
    takes_accounts(
        &call,
        &[("left out", |account| {
            account.service.least.traffic_left_out = 1
        })],
    );
}

/// Row 16 has no traffic to leave out.
#[test]
fn a_row_without_traffic_leaves_none_out() {
    refuses_accounts(
        &governed_by_3a(),
        &[("no traffic", |account| {
            account.ultimate.greatest.traffic_left_out = 1
        })],
    );
}

#[test]
fn a_refused_farm_job_shows_no_k() {
    let mut job = farm_job();
    job.width = 369;
    job.transverse = vec![0; 9];
    let call = Call::of(&job);
    assert_eq!((call.answer.refusal, call.answer.place), (11, 4));
    refuses(
        &call,
        &[
            ("not zero throughout", |call| {
                call.answer.account.ultimate.least.k = 800
            }),
            ("refusal is 3", |call| call.answer.refusal = 3),
            ("place is 10", |call| call.answer.place = 10),
            ("refusal is 0", |call| {
                (call.answer.refusal, call.answer.place) = (0, 0)
            }),
        ],
    );
}
