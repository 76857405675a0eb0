//! Every arrangement of tiny jobs for small k: none goes further than the
//! report, and one goes as far, since every limit of a centre here is a k-th.

mod common;

use common::farm_tables::{FIRST_ULTIMATE_ROW, K, LIVE, ROWS};
use common::{definition, level_job, pieces, small_farm_job, spans_job, with_factor};
use second::arrangement::{Arrangement, LoadedLane};
use second::chosen::edition_3;
use second::chosen::overload_lanes::lanes_job;
use second::edition::Edition;
use second::job::Job;
use second::loads::{Element, Live, Question, Side};
use second::solve;
use std::ops::RangeInclusive;

/// Every set of k-ths of the line.
fn every_loading(k_ths: i128) -> Vec<Vec<std::ops::Range<i128>>> {
    (0..1_u32 << k_ths)
        .map(|set| {
            let loaded = (0..k_ths).filter(|at| set & (1 << at) != 0);
            loaded.map(|at| at..at + 1).collect()
        })
        .collect()
}

/// Every element in a lane; the centres and the axles' distance are given by
/// hand, in k-ths of a cm and of a piece.
fn every_element(
    job: &Job,
    k: i128,
    centres: RangeInclusive<i128>,
    axle_distance: i128,
) -> Vec<LoadedLane> {
    let line_end = job.pieces.len() as i128 * k;
    let mut elements = vec![];
    for loaded in every_loading(line_end) {
        for left_axle in -axle_distance - 1..=line_end + 1 {
            for side in [Side::Left, Side::Right] {
                for centre in centres.clone() {
                    elements.push(LoadedLane {
                        element: Element::Hn,
                        loaded: loaded.clone(),
                        left_axle,
                        side,
                        centre,
                        factor: 0,
                    });
                }
            }
        }
    }
    elements
}

fn as_ho(element: &LoadedLane) -> LoadedLane {
    LoadedLane {
        element: Element::Ho,
        ..element.clone()
    }
}

/// The furthest of these arrangements.
struct Furthest {
    live: Live,
    greatest: i128,
    least: i128,
}

impl Furthest {
    fn new(live: Live) -> Furthest {
        Furthest {
            live,
            greatest: i128::MIN,
            least: i128::MAX,
        }
    }

    fn take(&mut self, job: &Job, arrangement: &Arrangement) {
        assert_eq!(arrangement.lawful(job, self.live), Ok(()));
        let effect = |question| arrangement.effect(job, self.live, question).round(question);
        self.greatest = self.greatest.max(effect(Question::Greatest));
        self.least = self.least.min(effect(Question::Least));
    }

    /// The solver reports it, and the definitions make it due.
    fn is_reported(&self, job: &Job) {
        let (bytes, patch) = (job.bytes(), vec![0; job.pieces.len()]);
        let reported = solve(&bytes, &mut patch.clone());
        let (due, _) = definition::due(&bytes, &patch, &reported);
        for (source, answer) in [("reported", reported), ("due", due)] {
            let value = |question| i128::from(answer.account.traffic(self.live, question).value);
            let values = (value(Question::Greatest), value(Question::Least));
            assert_eq!(
                (self.greatest, self.least),
                values,
                "{:?} {source}",
                self.live
            );
        }
    }
}

/// Lines of two pieces with jumps and both signs.
fn lines() -> Vec<Vec<second::job::Piece>> {
    vec![
        pieces(&[(6, 10), (8, 3)]),
        pieces(&[(-3, 0), (7, 2)]),
        pieces(&[(9, 9), (-4, -8)]),
        pieces(&[(0, -5), (-5, -1)]),
        pieces(&[(0, 0), (0, 4)]),
    ]
}

/// W 303: the one lane's centre runs from 150 to 153 cm, past ordinate 15 of
/// g 10 at 150 cm; and with g 38, past ordinate 4 at 152 cm.
#[test]
fn one_lane() {
    for line in lines() {
        for (spacing, ordinates) in [(10, 32), (38, 9)] {
            let transverse = (0..ordinates).map(|at| [7, -9, 4][at % 3] * 100 + 3);
            let mut job = level_job(303, spacing, transverse.collect());
            job.pieces = line.clone();
            (job.dynamic_kind, job.dynamic_value) = (1, 1111);
            one_lane_is_reported(&job, &[1, 2, 3]);
        }
    }
}

/// As `one_lane`, with a span for each question: the one far longer, or just past
/// where the factor begins to fall, and the other way round.
#[test]
fn one_lane_with_spans() {
    for line in lines() {
        for (greatest, least) in [(90, 1800), (1800, 90), (121, 122), (122, 121)] {
            let across = (0..9).map(|at| [7, -9, 4][at % 3] * 100 + 3);
            let mut job = spans_job(greatest, least);
            (job.width, job.spacing, job.pieces) = (303, 38, line.clone());
            job.transverse = across.collect();
            one_lane_is_reported(&job, &[1, 2]);
        }
    }
}

/// The furthest of every arrangement in a lane of 303 cm is reported.
fn one_lane_is_reported(job: &Job, ks: &[i128]) {
    for &k in ks {
        let mut normal = Furthest::new(Live::Normal);
        let mut overload = Furthest::new(Live::Overload);
        let mut arrangement = Arrangement::empty(k);
        normal.take(job, &arrangement);
        for element in every_element(job, k, 150 * k..=153 * k, k) {
            arrangement.lanes[0] = Some(as_ho(&element));
            overload.take(job, &arrangement);
            arrangement.lanes[0] = Some(element);
            normal.take(job, &arrangement);
        }
        normal.is_reported(job);
        overload.is_reported(job);
    }
}

/// Every arrangement of k 1 with these elements in lanes 1 and 2, or without them.
fn for_each_pair(
    left: &[LoadedLane],
    right: &[LoadedLane],
    mut take: impl FnMut(Live, &Arrangement),
) {
    let pair = |left: Option<LoadedLane>, right: Option<LoadedLane>| {
        let mut arrangement = Arrangement::empty(1);
        arrangement.lanes[0] = left;
        arrangement.lanes[1] = right;
        arrangement
    };
    take(Live::Normal, &Arrangement::empty(1));
    for one in left {
        take(Live::Normal, &pair(Some(one.clone()), None));
        take(Live::Overload, &pair(Some(as_ho(one)), None));
        for other in right {
            let both = |one, other| pair(Some(one), Some(other));
            take(Live::Normal, &both(one.clone(), other.clone()));
            let additional = (with_factor(one, 20), with_factor(other, 20));
            take(Live::Overload, &both(as_ho(one), additional.1));
            take(Live::Overload, &both(additional.0, as_ho(other)));
        }
    }
    for other in right {
        take(Live::Normal, &pair(None, Some(other.clone())));
        take(Live::Overload, &pair(None, Some(as_ho(other))));
    }
}

/// Of every such arrangement, with centres in cm within these limits of lanes 1 and 2, the
/// furthest is reported.
#[track_caller]
fn every_pair_is_reported(job: &Job, centres: [RangeInclusive<i128>; 2]) {
    let [left, right] = centres.map(|centres| every_element(job, 1, centres, 1));
    let mut normal = Furthest::new(Live::Normal);
    let mut overload = Furthest::new(Live::Overload);
    for_each_pair(&left, &right, |live, arrangement| match live {
        Live::Normal => normal.take(job, arrangement),
        Live::Overload => overload.take(job, arrangement),
    });
    normal.is_reported(job);
    overload.is_reported(job);
}

/// W 602: two lanes of 301 cm, whose centres run from 150 to 151 and from 451
/// to 452 cm, all in whole cm, so that k = 1 reaches every limit.
#[test]
fn two_lanes() {
    for (line, across) in
        lines()
            .into_iter()
            .zip([[1000, 500], [1000, -700], [300, 33], [-900, -100], [10, 0]])
    {
        // g 43: 150 cm lies between ordinates 3 and 4, 451 between 10 and 11.
        let mut transverse = vec![0; 15];
        (transverse[3], transverse[4]) = (across[0], across[0] / 2);
        (transverse[10], transverse[11]) = (across[1] / 3, across[1]);
        let mut job = level_job(602, 43, transverse);
        job.pieces = line;
        every_pair_is_reported(&job, [150..=151, 451..=452]);
    }
}

/// One lane on each side of a median, of 302 cm and of 303, whose centres run from 150 to
/// 152 and to 153 cm from their own kerbs; g 38 puts an ordinate at 152 cm. Both sides
/// have n 1, so that k = 1 reaches every limit.
#[test]
fn a_lane_on_each_side() {
    for (line, across) in lines()
        .into_iter()
        .zip([[7, -9, 4], [-5, 3, 8], [2, 2, -6]])
    {
        let ordinates = |from: usize| (from..from + 9).map(|at| across[at % 3] * 100 + 3);
        let mut job = spans_job(90, 1800).with_second_carriageway(303, ordinates(1).collect());
        (job.width, job.spacing, job.pieces) = (302, 38, line);
        job.transverse = ordinates(0).collect();
        every_pair_is_reported(&job, [150..=152, 150..=153]);
    }
}

/// The element that raises, or lowers, on a line of 8 and -6 over 5 m each: on its own
/// piece, the pair with one axle there and the other off the line.
fn element(lane: usize, raises: bool) -> LoadedLane {
    let (piece, left_axle, side) = if raises {
        (0..1, -1, Side::Right)
    } else {
        (1..2, 2, Side::Left)
    };
    LoadedLane {
        element: Element::Hn,
        loaded: vec![piece],
        left_axle,
        side,
        centre: 400 * lane as i128 + 200,
        factor: 0,
    }
}

/// What a lane may have: nothing, or a raising or a lowering element, HN with any of
/// these factors or HO with none or 20.
fn every_choice(lane: usize, factors: &[i64]) -> Vec<Option<LoadedLane>> {
    let mut choices = vec![None];
    for hn in [element(lane, true), element(lane, false)] {
        let ho = [0, 20].map(|factor| with_factor(&as_ho(&hn), factor));
        let hn = factors.iter().map(|&factor| with_factor(&hn, factor));
        choices.extend(hn.chain(ho).map(Some));
    }
    choices
}

/// Every choice in every lane: so many are lawful, and the furthest of them is reported.
#[track_caller]
fn additional_lanes_are_reported(ordinates: &[i64], factors: &[i64], lawful: usize) {
    let lanes = 0..ordinates.len();
    let choices: Vec<_> = lanes.map(|lane| every_choice(lane, factors)).collect();
    choices_are_reported(&lanes_job(Edition::One, ordinates), &choices, lawful);
}

/// So it is on both sides of a median, each lane's centre from its own kerb.
#[track_caller]
fn lanes_of_two_sides_are_reported(first: &[i64], second: &[i64], factors: &[i64], lawful: usize) {
    let lanes = (0..first.len()).chain(0..second.len());
    let choices: Vec<_> = lanes.map(|lane| every_choice(lane, factors)).collect();
    choices_are_reported(&edition_3::lanes_job(first, second), &choices, lawful);
}

#[track_caller]
fn choices_are_reported(job: &Job, choices: &[Vec<Option<LoadedLane>>], lawful: usize) {
    let mut overload = Furthest::new(Live::Overload);
    let mut found = 0;
    for arrangement in every_arrangement(choices) {
        if arrangement.lawful(job, Live::Overload).is_ok() {
            overload.take(job, &arrangement);
            found += 1;
        }
    }
    assert_eq!(found, lawful);
    overload.is_reported(job);
}

/// Every choice in every lane, of k 1.
fn every_arrangement(
    choices: &[Vec<Option<LoadedLane>>],
) -> impl Iterator<Item = Arrangement> + '_ {
    let each = choices[0].len();
    (0..each.pow(choices.len() as u32)).map(move |way| {
        let mut arrangement = Arrangement::empty(1);
        for (lane, choices) in choices.iter().enumerate() {
            arrangement.lanes[lane] = choices[way / each.pow(lane as u32) % each].clone();
        }
        arrangement
    })
}

/// HO in each lane raises or lowers, and so does each of m additional lanes, which are
/// chosen and have their factors in any order: of three lanes 2, 2 * 4 and 2 * 8 ways for
/// each HO lane; of four 2, 3 * 4, 6 * 8 and 6 * 16; of five 2, 4 * 4, 12 * 8, 24 * 16 and
/// 24 * 32.
#[test]
fn additional_lanes() {
    let factors = [0, 12, 14, 16, 18, 20];
    for ordinates in [[500, 1000, 800], [1000, 800, -1000], [-300, 700, 0]] {
        additional_lanes_are_reported(&ordinates, &factors, 3 * 26);
    }
    additional_lanes_are_reported(&[1000, 800, -1000, 600], &factors, 4 * 158);
    let due = [14, 16, 18, 20];
    additional_lanes_are_reported(&[-1000, 900, 1000, 800, -900], &due, 5 * 1266);
}

/// As many ways as on one side, wherever the median is.
#[test]
fn additional_lanes_on_two_sides() {
    let factors = [0, 11, 12, 14, 16, 18, 20];
    for (first, second) in [
        (&[500][..], &[1000, 800][..]),
        (&[1000, 800], &[-1000]),
        (&[-300, 700], &[0]),
    ] {
        lanes_of_two_sides_are_reported(first, second, &factors, 3 * 26);
    }
    lanes_of_two_sides_are_reported(&[1000], &[800, -1000, 600], &factors, 4 * 158);
    let due = [14, 16, 18, 20];
    lanes_of_two_sides_are_reported(&[-1000, 900], &[1000, 800, -900], &due, 5 * 1266);
}

/// Seven lanes over a line of 8 along 5 m, each without an element, with HO or with HN at one
/// of these factors, all raising. HO is in any of seven, and beside it m of six are chosen and
/// have the first m factors in any order: 1, 6, 30, 120, 360, 720 and 720 ways.
#[test]
fn seven_lanes_on_two_sides() {
    let mut job = edition_3::lanes_job(&[500, 1000, 700, 600], &[400, 900, 800]);
    job.pieces.truncate(1);
    let choices: Vec<_> = (0..4)
        .chain(0..3)
        .map(|lane| {
            let hn = element(lane, true);
            let additional = [20, 18, 16, 14, 12, 11].map(|factor| with_factor(&hn, factor));
            let loaded = [as_ho(&hn)].into_iter().chain(additional);
            [None].into_iter().chain(loaded.map(Some)).collect()
        })
        .collect();
    let lawful = every_arrangement(&choices)
        .filter(|arrangement| arrangement.lawful(&job, Live::Overload).is_ok());
    let effects: Vec<i128> = lawful
        .map(|arrangement| {
            let effect = arrangement.effect(&job, Live::Overload, Question::Greatest);
            effect.round(Question::Greatest)
        })
        .collect();
    assert_eq!(effects.len(), 7 * 1957);
    let reported = solve(&job.bytes(), &mut [0]).account.overload_greatest;
    assert_eq!(effects.into_iter().max(), Some(reported.value.into()));
}

/// What every row of a farm job comes to with every omission, both k and a
/// traffic effect of the question, or none.
fn every_state_value(effects: [i64; 11], traffic: i64) -> [Vec<i64>; 2] {
    let mut values = [vec![], vec![]];
    for (number, row) in ROWS.iter().enumerate() {
        let state = usize::from(number + 1 >= FIRST_ULTIMATE_ROW);
        let ks: &[i64] = if row[0] == K { &[1300, 800] } else { &[row[0]] };
        for (k, set) in ks
            .iter()
            .flat_map(|k| (0..1_u32 << 9).map(move |set| (k, set)))
        {
            // The low eight bits keep the effects that may be left out, the ninth
            // the traffic.
            let kept = |at: usize| at < 3 || set >> (at - 3) & 1 == 1;
            let factor = |at: usize| if at == 0 { *k } else { row[at] };
            let of_effect = |at: usize| factor(at) * 1000 * effects[at];
            let sum: i64 = (0..11).filter(|&at| kept(at)).map(of_effect).sum();
            let live = if kept(LIVE) { row[LIVE] * traffic } else { 0 };
            values[state].push(sum + live);
        }
    }
    values
}

/// A farm bridge of W 303, as `one_lane`; its states over every row, k, omission
/// and arrangement.
#[test]
fn a_farm_bridge() {
    let dead = [700, -700, 0];
    for (line, dl) in lines().into_iter().zip(dead.into_iter().cycle()) {
        let effects = [dl, 30, -50, 4, -5, 6, 7, 8, 9, 900, 11];
        let mut job = small_farm_job(effects);
        (job.width, job.spacing, job.pieces) = (303, 38, line);
        job.transverse = (0..9).map(|at| [7, -9, 4][at % 3] * 100 + 3).collect();
        (job.dynamic_kind, job.dynamic_value) = (1, 1111);
        for k in [1, 2] {
            let mut normal = Furthest::new(Live::Normal);
            let mut overload = Furthest::new(Live::Overload);
            let mut arrangement = Arrangement::empty(k);
            normal.take(&job, &arrangement);
            overload.take(&job, &arrangement);
            for element in every_element(&job, k, 150 * k..=153 * k, k) {
                arrangement.lanes[0] = Some(element);
                normal.take(&job, &arrangement);
            }
            normal.is_reported(&job);
            overload.is_reported(&job);
            states_are_reported(&job, effects, &normal);
        }
    }
}

/// A row's value grows with its traffic, so the furthest arrangement is enough.
fn states_are_reported(job: &Job, effects: [i64; 11], normal: &Furthest) {
    let account = solve(&job.bytes(), &mut vec![0; job.pieces.len()]).account;
    let greatest = every_state_value(effects, normal.greatest as i64);
    let least = every_state_value(effects, normal.least as i64);
    for (number, state) in [account.service, account.ultimate].into_iter().enumerate() {
        assert_eq!(Some(&state.greatest.value), greatest[number].iter().max());
        assert_eq!(Some(&state.least.value), least[number].iter().min());
    }
}
