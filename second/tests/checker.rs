//! The checker takes every right answer, whichever of the equally good
//! placements and omissions it reports, and no other.

mod common;

use common::call::{
    load, refuses, refuses_accounts, refuses_centres, refuses_part, takes_accounts, Call, Change,
    Part, NORMAL_GREATEST, NORMAL_LEAST, OVERLOADS, OVERLOAD_GREATEST, OVERLOAD_LEAST,
    SERVICE_GREATEST, SERVICE_LEAST, ULTIMATE_GREATEST, ULTIMATE_LEAST,
};
use common::{definition, level_job, pieces, two_lane_job};
use second::account::{Lane, State, Traffic};
use second::chosen::overload_lanes::lanes_job;
use second::edition::Edition;
use second::generator::{case, Stream};
use second::job_a::job_a;
use second::{store, Answer};

/// What is due by the definitions alone passes, with the solver's placements
/// and omissions: for generated cases by seed, then for the stored ones.
#[test]
fn right_answers_to_generated_and_stored_cases_pass() {
    let seeds = 0..2000;
    let generated = seeds.flat_map(|seed| Stream::ALL.map(|stream| case(stream, seed)));
    for (number, case) in generated.chain(store::cases()).enumerate() {
        let mut call = Call::new(&case.job, &case.patch);
        (call.answer, call.after) = definition::due(&case.job, &case.patch, &call.answer);
        assert_eq!(call.check(), Ok(()), "case {number}");
    }
}

#[test]
fn a_wrong_refusal_is_refused() {
    let mut words = job_a().words();
    words[4] = 299;
    let call = Call::new(&second::words::bytes_of(&words), &[1, 2, 3]);
    assert_eq!((call.answer.refusal, call.answer.place), (2, 4));
    refuses(
        &call,
        &[
            ("refusal is 0, 2 is due", |call| {
                call.answer = Answer::default()
            }),
            ("refusal is 3", |call| call.answer.refusal = 3),
            ("refusal is 1", |call| call.answer.refusal = 1),
            ("place is 0", |call| call.answer.place = 0),
            ("place is 5", |call| call.answer.place = 5),
            ("not zero", |call| call.answer.account.raising.station = 1),
            ("not zero", |call| call.answer.account.lowering.side = 1),
            ("not zero", |call| {
                call.answer.account.normal_greatest.value = 1
            }),
            ("not zero", |call| {
                call.answer.account.overload_least.lanes[4].centre = 1
            }),
            ("not zero", |call| {
                call.answer.account.overload_greatest.lanes[0].factor = 20
            }),
            ("not zero", |call| call.answer.account.ultimate.present = 1),
            ("not zero", |call| call.answer.account.service.least.row = 1),
            ("has changed", |call| call.after[0] = 0),
            ("has changed", |call| call.after[2] = 0),
            ("has changed", |call| {
                call.after.pop();
            }),
        ],
    );
}

#[test]
fn a_sound_job_refused_is_refused() {
    refuses(
        &Call::of(&two_lane_job()),
        &[
            ("refusal is 1, 0 is due", |call| {
                call.answer = Answer {
                    refusal: 1,
                    ..Answer::default()
                };
                call.after = call.before.clone();
            }),
            ("place is 1", |call| call.answer.place = 1),
        ],
    );
}

#[test]
fn wrong_patch_bytes_are_refused() {
    // Patch bytes 1, 1, 2, 2 and two past them.
    refuses(
        &Call::of(&two_lane_job()),
        &[
            ("patch byte 0 is 0, 1 is due", |call| call.after[0] = 0),
            ("patch byte 3 is 1, 2 is due", |call| call.after[3] = 1),
            ("patch byte 2 is 195", |call| call.after[2] = call.before[2]),
            ("byte 4, past the patch", |call| call.after[4] = 0),
            ("byte 5, past the patch", |call| call.after[5] = 0),
            ("length", |call| {
                call.after.pop();
            }),
            ("patch byte 0", |call| call.after = call.before.clone()),
        ],
    );
}

#[test]
fn wrong_values_are_refused() {
    refuses_accounts(
        &Call::of(&two_lane_job()),
        &[
            ("Normal Greatest is 10319399", |account| {
                account.normal_greatest.value -= 1
            }),
            ("Normal Greatest is 10319401", |account| {
                account.normal_greatest.value += 1
            }),
            ("Normal Least is", |account| account.normal_least.value += 1),
            ("Overload Greatest is", |account| {
                account.overload_greatest.value -= 1
            }),
            ("Overload Least is", |account| {
                account.overload_least.value = 0
            }),
            ("service Greatest is", |account| {
                account.service.greatest.value -= 1000
            }),
            ("service Least is", |account| {
                account.service.least.value += 1
            }),
            ("ultimate Greatest is", |account| {
                account.ultimate.greatest.value = 0
            }),
            ("ultimate Least is", |account| {
                account.ultimate.least.value -= 1
            }),
            // The placement that lane 1 alone would be, with its value.
            ("Normal Greatest is 10237500", |account| {
                let traffic = &mut account.normal_greatest;
                traffic.value = 10237500;
                traffic.set = 1;
                traffic.lanes[1] = Lane::default();
            }),
        ],
    );
}

#[test]
fn wrong_stands_are_refused() {
    // Raising at -1, lowering at 3, on a line without jumps.
    refuses_accounts(
        &Call::of(&two_lane_job()),
        &[
            ("the raising stand", |account| account.raising.station = 1),
            ("the raising stand", |account| account.raising.station = -2),
            ("the raising stand", |account| {
                account.raising.station = i64::MIN
            }),
            ("the raising stand", |account| {
                account.raising.station = i64::MAX
            }),
            ("the raising stand has side 2", |account| {
                account.raising.side = 2
            }),
            ("the lowering stand", |account| {
                account.lowering.station = -1
            }),
            ("the lowering stand", |account| account.lowering.station = 0),
            ("the lowering stand has side", |account| {
                account.lowering.side = u32::MAX
            }),
            ("the raising stand", |account| {
                std::mem::swap(&mut account.raising, &mut account.lowering);
            }),
        ],
    );
}

/// A stand that no lane uses must still be the best.
#[test]
fn an_unused_stand_is_checked_too() {
    // The transverse line is 0, so nothing rests on the stands.
    let mut job = level_job(300, 50, vec![0; 7]);
    job.pieces = pieces(&[(8, 8), (9, 9)]);
    refuses_accounts(
        &Call::of(&job),
        &[
            ("the raising stand", |account| account.raising.station = -1),
            ("the lowering stand", |account| account.lowering.station = 1),
        ],
    );
}

/// Two lanes; normal greatest is HN raising at 300 and HN lowering at 1140.
fn call_of_two_lanes() -> Call {
    let call = Call::of(&two_lane_job());
    assert_eq!(call.check(), Ok(()));
    assert_eq!(call.answer.account.normal_greatest.set, 0b11);
    call
}

const SET_DISAGREES: &str = "does not agree with the lane set";
const EFFECT_DIFFERS: &str = "placement's effect";

#[test]
fn wrong_lane_sets_are_refused() {
    let call = call_of_two_lanes();
    for (set, reason) in [
        (0b01, SET_DISAGREES),
        (0b111, SET_DISAGREES),
        (0b11 | 1 << 5, SET_DISAGREES),
        (0b11 | 1 << 10, "names no lane"),
        (0b11 | 1 << 31, "names no lane"),
    ] {
        refuses_part(&call, NORMAL_GREATEST, reason, |traffic| traffic.set = set);
    }
    refuses_part(&call, NORMAL_GREATEST, "past the last lane", |traffic| {
        load(traffic, 2, (1, 1500, 0))
    });
    // Lane 2 left out, with the value kept.
    refuses_part(&call, NORMAL_LEAST, EFFECT_DIFFERS, |traffic| {
        traffic.set = 1;
        traffic.lanes[1] = Lane::default();
    });
}

#[test]
fn wrong_entries_are_refused() {
    let call = call_of_two_lanes();
    for (part, lane, entry, reason) in [
        (NORMAL_GREATEST, 4, 1, SET_DISAGREES),
        (NORMAL_GREATEST, 0, 5, "stands for nothing"),
        (NORMAL_GREATEST, 1, u32::MAX, "stands for nothing"),
        (NORMAL_GREATEST, 1, 1, EFFECT_DIFFERS),
        (NORMAL_GREATEST, 0, 2, EFFECT_DIFFERS),
        (NORMAL_GREATEST, 0, 3, "an HO element in normal"),
        (OVERLOAD_GREATEST, 0, 1, "0 HO elements in overload"),
        (OVERLOAD_LEAST, 1, 3, "2 HO elements in overload"),
    ] {
        refuses_part(&call, part, reason, |traffic| {
            traffic.lanes[lane].entry = entry
        });
    }
}

#[test]
fn wrong_centres_are_refused() {
    let outside = "outside the lane's limits";
    let table = [
        (NORMAL_GREATEST, 2, 1, "unloaded but has a centre"),
        (NORMAL_GREATEST, 0, 299, outside),
        (NORMAL_GREATEST, 1, 1141, outside),
        (OVERLOAD_LEAST, 0, i64::MIN, outside),
        (OVERLOAD_LEAST, 0, i64::MAX, outside),
        (NORMAL_GREATEST, 0, 301, EFFECT_DIFFERS),
        (OVERLOAD_GREATEST, 1, 1139, EFFECT_DIFFERS),
    ];
    refuses_centres(&call_of_two_lanes(), &table);
}

#[test]
fn exchanged_placements_are_refused() {
    refuses_accounts(
        &call_of_two_lanes(),
        &[
            // Those of greatest and least.
            (EFFECT_DIFFERS, |account| {
                let (greatest, least) = (account.normal_greatest, account.normal_least);
                account.normal_greatest.lanes = least.lanes;
                account.normal_least.lanes = greatest.lanes;
            }),
            // The HO lane and the other.
            (EFFECT_DIFFERS, |account| {
                let lanes = &mut account.overload_greatest.lanes;
                (lanes[0].entry, lanes[1].entry) = (1, 4);
                (lanes[0].factor, lanes[1].factor) = (20, 0);
            }),
        ],
    );
}

/// Jobs of two to five lanes, HO in lane 2, and one to four additional lanes that take
/// 20, 18, 16 and 14 from the left, for both questions.
fn calls_with_additional_lanes() -> impl Iterator<Item = (Call, Part<Traffic>)> {
    let ordinates = [800, 1000, 600, 400, 200];
    let lanes = 2..=5;
    lanes.flat_map(move |lanes| {
        let call = Call::of(&lanes_job(Edition::One, &ordinates[..lanes]));
        assert_eq!(call.check(), Ok(()));
        OVERLOADS.map(|of| (call.clone(), of))
    })
}

/// The additional lanes of that job.
fn additional_lanes(call: &Call) -> Vec<usize> {
    let lanes = call.answer.account.overload_greatest.lanes;
    let found: Vec<usize> = (0..5).filter(|&lane| lanes[lane].factor != 0).collect();
    let due = [0, 2, 3, 4];
    assert_eq!(found, due[..found.len()]);
    assert!(!found.is_empty());
    found
}

#[test]
fn wrong_factors_are_refused() {
    for (call, of) in calls_with_additional_lanes() {
        for lane in additional_lanes(&call) {
            refuses_another_factor(&call, of, lane);
        }
        refuses_factors_of_other_readings(&call, of);
    }
}

/// A factor that is not its lane's own is refused.
#[track_caller]
fn refuses_another_factor(call: &Call, of: Part<Traffic>, lane: usize) {
    let right = call.answer.account.overload_greatest.lanes[lane].factor;
    let tried = [0, 10, 11, 12, 14, 16, 18, 20, 21].into_iter();
    let tried = tried.chain([-right, i64::MIN, i64::MAX]);
    for factor in tried.filter(|&factor| factor != right) {
        refuses_part(call, of, "additional lanes have factor", |traffic| {
            traffic.lanes[lane].factor = factor
        });
    }
}

/// The factors with HO as the first additional lane are refused, and so is the r of
/// their number for them all, which is right for one lane alone.
#[track_caller]
fn refuses_factors_of_other_readings(call: &Call, of: Part<Traffic>) {
    let additional = additional_lanes(call);
    let mut readings = vec![[18, 16, 14, 12]];
    if additional.len() > 1 {
        readings.push([[20, 18, 16, 14][additional.len() - 1]; 4]);
    }
    for factors in readings {
        refuses_part(call, of, "additional lanes have factor", |traffic| {
            for (&lane, factor) in additional.iter().zip(factors) {
                traffic.lanes[lane].factor = factor;
            }
        });
    }
}

#[test]
fn a_factor_on_another_lane_is_refused() {
    for (call, of) in calls_with_additional_lanes() {
        let additional = additional_lanes(&call);
        for factor in [20, 14, 1, -20] {
            refuses_part(&call, of, "lane 2: has a factor but is", |traffic| {
                traffic.lanes[1].factor = factor
            });
            for past_the_last in additional.len() + 1..5 {
                refuses_part(&call, of, "unloaded but has a factor", |traffic| {
                    traffic.lanes[past_the_last].factor = factor
                });
            }
        }
        // The HO lane has one's factor in its place.
        for &lane in &additional {
            refuses_part(&call, of, "has a factor but is", |traffic| {
                let lanes = &mut traffic.lanes;
                (lanes[1].factor, lanes[lane].factor) = (lanes[lane].factor, 0);
            });
        }
        refuses_accounts(
            &call,
            &[
                ("lane 1: has a factor but is", |account| {
                    account.normal_greatest.lanes[0].factor = 20
                }),
                ("lane 2: has a factor but is", |account| {
                    account.normal_least.lanes[1].factor = 18
                }),
            ],
        );
    }
}

/// Lawful factors that give another effect: exchanged between lanes, with HO elsewhere,
/// or without the last lane; and lanes left out without their factors.
#[test]
fn factors_that_do_not_give_the_value_are_refused() {
    for (call, of) in calls_with_additional_lanes() {
        let additional = additional_lanes(&call);
        for (number, &lane) in additional.iter().enumerate() {
            for &other in &additional[..number] {
                refuses_part(&call, of, "placement's effect", |traffic| {
                    let factor = traffic.lanes[lane].factor;
                    traffic.lanes[lane].factor = traffic.lanes[other].factor;
                    traffic.lanes[other].factor = factor;
                });
            }
            refuses_part(&call, of, "placement's effect", |traffic| {
                let (ho, hn) = (traffic.lanes[1], traffic.lanes[lane]);
                (traffic.lanes[1].entry, traffic.lanes[1].factor) = (hn.entry, hn.factor);
                (traffic.lanes[lane].entry, traffic.lanes[lane].factor) = (ho.entry, 0);
            });
            let is_last = number + 1 == additional.len();
            let reason = if is_last {
                "placement's effect"
            } else {
                "additional lanes have factor"
            };
            refuses_part(&call, of, reason, |traffic| {
                traffic.set &= !(1 << lane);
                traffic.lanes[lane] = Lane::default();
            });
        }
        refuses_part(&call, of, "Overload", |traffic| traffic.value += 1);
        refuses_part(&call, of, "Overload", |traffic| traffic.value -= 1);
    }
}

/// Lanes of 0, 800, 700, 700 and 0: HO in lane 2, the lanes of 700 at 20 and 18.
#[test]
fn equally_good_factors_are_free() {
    let call = Call::of(&lanes_job(Edition::Two, &[0, 800, 700, 700, 0]));
    for of in OVERLOADS {
        takes_placement(&call, of, |traffic| {
            let lanes = &mut traffic.lanes;
            assert_eq!((lanes[2].factor, lanes[3].factor), (20, 18));
            (lanes[2].factor, lanes[3].factor) = (18, 20);
        });
        takes_lanes_that_give_0(&call, of);
        refuses_wrong_factors_of_lane_1(&call, of);
    }
}

/// The call with one of its overload's placements changed is taken.
#[track_caller]
fn takes_placement(call: &Call, of: Part<Traffic>, change: impl Fn(&mut Traffic)) {
    assert_eq!(call.with(|call| change(of(call))).check(), Ok(()));
}

/// Loads a lane of that job with HN at this factor.
fn load_at(traffic: &mut Traffic, lane: usize, factor: i64) {
    load(traffic, lane, (1, (400 * lane as i64 + 200) * 5, factor));
}

/// One may have the next factor; both may have the next two, in either order.
#[track_caller]
fn takes_lanes_that_give_0(call: &Call, of: Part<Traffic>) {
    takes_placement(call, of, |traffic| load_at(traffic, 0, 16));
    for (first, last) in [(16, 14), (14, 16)] {
        takes_placement(call, of, |traffic| {
            load_at(traffic, 0, first);
            load_at(traffic, 4, last);
        });
    }
}

/// Lane 1 gives 0. Without lane 5 it may have 16 alone, no unlawful factor nor another
/// lane's; unloaded it has none.
#[track_caller]
fn refuses_wrong_factors_of_lane_1(call: &Call, of: Part<Traffic>) {
    for factor in [0, 14, 20] {
        refuses_part(call, of, "additional lanes have factor", |traffic| {
            load_at(traffic, 0, factor)
        });
    }
    refuses_part(call, of, "placement's effect", |traffic| {
        load_at(traffic, 0, 18);
        traffic.lanes[3].factor = 16;
    });
    refuses_part(call, of, "unloaded but has a factor", |traffic| {
        traffic.lanes[0].factor = 16
    });
}

/// Service: rows 1 and 2 tie; greatest leaves out effect 2 of effects 1, 2. Ultimate: row
/// 3; greatest leaves out effect 2, least effect 4.
#[test]
fn wrong_states_are_refused() {
    let call = Call::of(&two_lane_job());
    refuses_accounts(
        &call,
        &[
            ("whether service has rows", |account| {
                account.service = State::default()
            }),
            ("whether ultimate has rows", |account| {
                account.ultimate.present = 2
            }),
        ],
    );
    for (part, row, reason) in [
        (SERVICE_GREATEST, 2, "service Greatest's row is 2, 1 is due"),
        (SERVICE_LEAST, 2, "service Least's row is 2"),
        (ULTIMATE_LEAST, 0, "ultimate Least's row is 0"),
        (ULTIMATE_GREATEST, 33, "ultimate Greatest's row is 33"),
    ] {
        refuses_part(&call, part, reason, |governing| governing.row = row);
    }
    for (left_out, reason) in [(1, "what it comes to"), (2, "traffic left out is 2")] {
        refuses_part(&call, ULTIMATE_GREATEST, reason, |governing| {
            governing.traffic_left_out = left_out
        });
    }
}

/// The same job.
#[test]
fn wrong_omissions_are_refused() {
    let call = Call::of(&two_lane_job());
    for (part, omitted, reason) in [
        (SERVICE_GREATEST, 0b0011, "effect 1 may not be left out"),
        (SERVICE_GREATEST, 0b1010, "not on its chain"),
        (ULTIMATE_GREATEST, 0b0110, "not on its chain"),
        (ULTIMATE_GREATEST, 1 << 31 | 0b0010, "not on its chain"),
        (SERVICE_GREATEST, 0, "what it comes to"),
        (SERVICE_LEAST, 0b0010, "what it comes to"),
        (ULTIMATE_LEAST, 0b0010, "what it comes to"),
    ] {
        refuses_part(&call, part, reason, |governing| governing.omitted = omitted);
    }
}

#[test]
fn a_state_without_rows_is_none_and_zero() {
    let mut job = two_lane_job();
    for row in &mut job.rows {
        row.state = 1;
    }
    refuses_accounts(
        &Call::of(&job),
        &[
            ("whether ultimate has rows", |account| {
                account.ultimate.present = 1
            }),
            ("none but not zero", |account| {
                account.ultimate.least.row = 1
            }),
            ("none but not zero", |account| {
                account.ultimate.greatest.value = -1
            }),
        ],
    );
}

/// Row 4 alone in ultimate: no traffic, and effect 3 of value 0.
#[test]
fn a_row_without_traffic_leaves_none_out() {
    let mut job = two_lane_job();
    job.rows[2].state = 1;
    let call = Call::of(&job);
    takes_accounts(
        &call,
        &[("effect 3 counts 0 either way", |account| {
            account.ultimate.greatest.omitted = 0b0100
        })],
    );
    refuses_accounts(
        &call,
        &[("no traffic to leave out", |account| {
            account.ultimate.greatest.traffic_left_out = 1
        })],
    );
}

/// Job A's line has the sum 750 with the left axle from station 5 to 10, and
/// its lowering stand is anywhere off the line.
#[test]
fn equally_good_stands_are_free() {
    takes_accounts(
        &Call::of(&job_a()),
        &[
            ("5", |account| account.raising.station = 5),
            ("7", |account| account.raising.station = 7),
            ("10, right", |account| {
                account.raising.station = 10;
                account.raising.side = 1;
            }),
            ("far left", |account| account.lowering.station = i64::MIN),
            ("far right", |account| account.lowering.station = i64::MAX),
            ("at the line's right end", |account| {
                account.lowering.station = 20;
                account.lowering.side = 0;
            }),
        ],
    );
    refuses_accounts(
        &Call::of(&job_a()),
        &[
            ("the raising stand", |account| account.raising.station = 4),
            ("the raising stand", |account| account.raising.station = 11),
            ("the lowering stand", |account| {
                account.lowering.station = 19
            }),
        ],
    );
}

/// Least is 0 for Job A: any lanes may carry the lowering element, which is 0.
/// A level transverse line leaves the centre free.
#[test]
fn equally_good_placements_are_free() {
    takes_accounts(
        &Call::of(&job_a()),
        &[("a lane that gives 0", |account| {
            let traffic = &mut account.normal_least;
            traffic.set = 0;
            traffic.lanes[0] = Lane::default();
            load(traffic, 1, (2, 1100, 0));
        })],
    );
    // Five lanes of 400 cm, the centres from 750 to 1250 fifths on.
    takes_accounts(
        &Call::of(&level_job(2000, 50, vec![1000; 41])),
        &[
            ("another centre", |account| {
                account.normal_greatest.lanes[0].centre = 1001
            }),
            ("another HO lane and other factors", |account| {
                let lanes = &mut account.overload_greatest.lanes;
                let entries = [(1, 14), (1, 20), (1, 16), (3, 0), (1, 18)];
                for (lane, (entry, factor)) in lanes.iter_mut().zip(entries) {
                    (lane.entry, lane.factor) = (entry, factor);
                }
            }),
        ],
    );
}

#[test]
fn equally_good_omissions_are_free() {
    // Record 1's factor is 0, and so is row 3's live factor.
    let mut job = two_lane_job();
    job.records[1].factor = 0;
    job.rows[2].live_factor = 0;
    takes_accounts(
        &Call::of(&job),
        &[
            ("effect 2 at factor 0", |account| {
                account.service.greatest.omitted ^= 0b0010
            }),
            ("traffic at factor 0", |account| {
                account.ultimate.greatest.traffic_left_out ^= 1
            }),
        ],
    );
}

/// Whatever number of a right account is changed, the change is refused unless
/// 01 leaves that number free; values and governing rows never are.
#[test]
fn no_changed_value_or_row_passes() {
    for seed in 0..1500 {
        let case = case(Stream::ALL[seed as usize % 5], seed / 5);
        let call = Call::new(&case.job, &case.patch);
        let changes: [Change; 14] = [
            |call| call.answer.account.normal_greatest.value -= 1,
            |call| call.answer.account.normal_least.value += 1,
            |call| call.answer.account.overload_greatest.value -= 1,
            |call| call.answer.account.overload_least.value += 1,
            |call| call.answer.account.service.greatest.value -= 1,
            |call| call.answer.account.ultimate.least.value += 1,
            |call| call.answer.account.service.greatest.row += 1,
            |call| call.answer.account.ultimate.least.row += 1,
            |call| call.answer.account.service.present ^= 1,
            |call| call.answer.account.service.greatest.k += 1,
            |call| call.answer.account.ultimate.least.k += 1,
            |call| call.answer.account.first_lanes += 1,
            |call| call.answer.account.second_lanes += 1,
            |call| call.answer.place += 1,
        ];
        for (number, change) in changes.iter().enumerate() {
            let fault = call.with(change).check();
            assert!(fault.is_err(), "seed {seed}, change {number}");
        }
    }
}
