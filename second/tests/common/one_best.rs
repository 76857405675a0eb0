//! Whether the placements of an example are the only ones as good, but for the pairs'
//! sides.

use second::job::Job;
use second::lanes::{breakpoint_centres, lanes_of_job, transverse_ordinate};
use second::line::{longitudinal_effect, pair_ordinates, patch_byte, stations, Stand};
use second::loads::{Direction, Element, Live, Question, Side};

/// The furthest of some numbers, and how many of them are as far.
fn furthest(numbers: impl Iterator<Item = i128>, question: Question) -> (i128, usize) {
    let taken = |best: Option<(i128, usize)>, number: i128| match best {
        Some((furthest, count)) if number == furthest => Some((furthest, count + 1)),
        Some((furthest, count)) if !question.beats(number, furthest) => Some((furthest, count)),
        _ => Some((number, 1)),
    };
    numbers.fold(None, taken).expect("a number")
}

/// One station is best for either pair, where its ordinates come to this. The line has no
/// jump, so both sides of it are as good, and left is shown. Every piece is loaded in one
/// direction.
#[track_caller]
pub fn no_other_station_is_as_good(job: &Job, raising: i128, lowering: i128) {
    let pairs = |side| -> Vec<i128> {
        let stands = stations(job).map(|station| Stand { station, side });
        stands
            .map(|stand| pair_ordinates(job, stand).into())
            .collect()
    };
    let from_left = pairs(Side::Left);
    assert_eq!(from_left, pairs(Side::Right));
    let best = |question| furthest(from_left.iter().copied(), question);
    assert_eq!(best(Question::Greatest), (raising, 1));
    assert_eq!(best(Question::Least), (lowering, 1));
    assert!(job.pieces.iter().all(|piece| patch_byte(piece) != 0));
}

/// A lane's element with the twentieths it counts at; none where it is unloaded.
type Role = Option<(Element, i64)>;

const HO: Role = Some((Element::Ho, 20));

/// The factors of additional lanes, as many as the examples' lanes leave room for.
const ADDITIONAL: [Role; 4] = [
    Some((Element::Hn, 20)),
    Some((Element::Hn, 18)),
    Some((Element::Hn, 16)),
    Some((Element::Hn, 14)),
];

/// Any set of lanes at the r of its number.
fn normal_roles(lanes: usize) -> Vec<Vec<Role>> {
    let roles = |set: usize| {
        let r = [20, 20, 18, 16, 14, 12][set.count_ones() as usize];
        let role = |lane| (set >> lane & 1 == 1).then_some((Element::Hn, r));
        (0..lanes).map(role).collect()
    };
    (0..1 << lanes).map(roles).collect()
}

/// HO in one lane; of the additional lanes' factors the first so many, once each.
fn overload_roles(lanes: usize) -> Vec<Vec<Role>> {
    let open = [&[None, HO], &ADDITIONAL[..lanes - 1]].concat();
    let kinds = open.len();
    let ways = (0..kinds.pow(lanes as u32)).map(|code| -> Vec<Role> {
        let role = |lane: usize| open[code / kinds.pow(lane as u32) % kinds];
        (0..lanes).map(role).collect()
    });
    let lawful = |roles: &Vec<Role>| {
        let times = |due: Role| roles.iter().filter(|&&role| role == due).count();
        let additional = ADDITIONAL.map(times);
        let count: usize = additional.iter().sum();
        let first_so_many = (0..4).all(|m| additional[m] == usize::from(m < count));
        times(HO) == 1 && first_so_many
    };
    ways.filter(lawful).collect()
}

/// What an element gives in a lane, in either direction at each breakpoint centre, times
/// the common denominator.
fn in_lane(job: &Job, lane: usize, element: Element) -> Vec<i128> {
    let directions = [Direction::Raising, Direction::Lowering];
    let effects = directions.map(|direction| longitudinal_effect(job, element, direction));
    let centres = breakpoint_centres(job, lane).into_iter();
    let ordinates = centres.map(|centre| transverse_ordinate(job, lane, centre));
    ordinates
        .flat_map(|ordinate| effects.map(|effect| i128::from(effect) * i128::from(ordinate)))
        .collect()
}

/// The sums in twentieths over every direction and centre in each lane.
fn sums(job: &Job, roles: &[Role]) -> Vec<i128> {
    let mut sums = vec![0];
    for (lane, role) in roles.iter().enumerate() {
        let Some((element, twentieths)) = *role else {
            continue;
        };
        let effects = in_lane(job, lane, element);
        let with_lane = |sum: i128| {
            let effects = effects.iter();
            effects.map(move |effect| sum + i128::from(twentieths) * effect)
        };
        sums = sums.into_iter().flat_map(with_lane).collect();
    }
    sums
}

/// Of every lane set, HO lane, assignment, centre and direction one is best for each
/// value, given in twentieths times the common denominator. Between breakpoints no
/// ordinate is level, so no centre there is as good.
#[track_caller]
pub fn no_other_placement_is_as_good(job: &Job, due: [(Live, [i128; 2]); 2]) {
    let lanes = lanes_of_job(job);
    for lane in 0..lanes {
        let centres = breakpoint_centres(job, lane);
        let ordinate = |centre: i64| transverse_ordinate(job, lane, centre);
        let level = |ends: &[i64]| ends[0] != ends[1] && ordinate(ends[0]) == ordinate(ends[1]);
        assert!(!centres.windows(2).any(level), "lane {}", lane + 1);
    }
    for (live, values) in due {
        let roles = match live {
            Live::Normal => normal_roles(lanes),
            Live::Overload => overload_roles(lanes),
        };
        for (question, value) in Question::BOTH.into_iter().zip(values) {
            let every_sum = roles.iter().flat_map(|roles| sums(job, roles));
            let found = furthest(every_sum, question);
            assert_eq!(found, (value, 1), "{live:?} {question:?}");
        }
    }
}
