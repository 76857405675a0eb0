//! The sampler of trains never beats a right report, and does beat those of
//! kernels that overlook something.

mod common;

use common::{train_case, truck};
use second::generator::train::sound_case;
use second::line::{ordinate, Stand};
use second::loads::{Question, Side};
use second::rng::Rng;
use second::train::sampler::{first_beating, Beating, Sampler};
use second::train::{Rating, Train, TrainStand, Way};

fn sound(seed: u64) -> Train {
    Train::of(&sound_case(&mut Rng::new(seed)))
}

#[test]
fn right_reports_are_not_beaten() {
    for mode in [1, 2] {
        let train = Train::of(&truck(mode));
        assert_eq!(first_beating(&train, &train.rating(), 1, 4000), None);
    }
    for seed in 0..1000 {
        let train = sound(seed);
        let beating = first_beating(&train, &train.rating(), seed, 100);
        assert_eq!(beating, None, "seed {seed}");
    }
}

/// The draws reach fine and coarse k, both ways, both sides, stations and places
/// between them, on the line, beside it and far from it.
#[test]
fn the_draws_reach_every_kind_of_stand() {
    let train = Train::of(&truck(1));
    let sampler = Sampler::new(&train);
    let mut rng = Rng::new(1);
    let (mut ways, mut sides) = ([0; 2], [0; 2]);
    let (mut at_station, mut between, mut beside, mut far, mut fine) = (0, 0, 0, 0, 0);
    for _ in 0..1000 {
        let drawn = sampler.draw(Question::Greatest, &mut rng);
        ways[usize::from(drawn.way == Way::Turned)] += 1;
        sides[usize::from(drawn.side == Side::Right)] += 1;
        let pieces = drawn.leftmost.div_euclid(drawn.k);
        if drawn.leftmost % drawn.k == 0 {
            at_station += 1;
        } else {
            between += 1;
        }
        beside += i32::from((-24..0).contains(&pieces));
        far += i32::from(!(-1000..1000).contains(&pieces));
        fine += i32::from(drawn.k > 1000);
    }
    let reached = [
        ways[0], ways[1], sides[0], sides[1], at_station, between, beside, far, fine,
    ];
    assert!(reached.iter().all(|&count| count > 50), "{reached:?}");
}

#[test]
fn values_short_by_1_are_beaten() {
    for seed in 0..200 {
        let train = sound(seed);
        for question in Question::BOTH {
            let mut short = train.rating();
            match question {
                Question::Greatest => short.greatest -= 1,
                Question::Least => short.least += 1,
            }
            match first_beating(&train, &short, seed, 300) {
                Some(Beating::Beaten { question: of, .. }) => assert_eq!(of, question),
                other => panic!("seed {seed}: {other:?}"),
            }
        }
    }
}

#[test]
fn values_that_no_stand_gives_are_told() {
    let train = Train::of(&truck(1));
    let right = train.rating();
    let told = |change: fn(&mut Rating)| {
        let mut rating = right;
        change(&mut rating);
        first_beating(&train, &rating, 1, 10)
    };
    let greatest = Some(Beating::NotGiven {
        question: Question::Greatest,
    });
    let least = Some(Beating::NotGiven {
        question: Question::Least,
    });
    assert_eq!(told(|_| {}), None);
    assert_eq!(told(|rating| rating.greatest += 1), greatest);
    assert_eq!(told(|rating| rating.least -= 1), least);
    assert_eq!(told(|rating| rating.greatest_stand.way = 2), greatest);
    assert_eq!(told(|rating| rating.greatest_stand.way = 0), greatest);
    assert_eq!(told(|rating| rating.least_stand.side = 1), least);
    assert_eq!(told(|rating| rating.least_stand.station = -25), least);
}

/// What a sham kernel overlooks.
#[derive(Debug, Clone, Copy, PartialEq, Eq)]
enum Sham {
    Nothing,
    DrivesOneWayOnly,
    TriesStationsOnTheLineOnly,
    TriesTheRightSideOnly,
    LetsEachAxleChooseItsSide,
    ForgetsTheLastAxle,
    DropsTheSumNotTheAxle,
    TakesGreatestOfMode1AndLeastOfMode2,
}

/// A kernel's report, with something overlooked.
fn sham_rating(train: &Train, sham: Sham) -> Rating {
    let [greatest, least] = Question::BOTH.map(|question| sham_furthest(train, sham, question));
    Rating::new(greatest, least)
}

fn sham_furthest(train: &Train, sham: Sham, question: Question) -> (i64, TrainStand) {
    let length = train.length();
    let end = train.line.len() as i64;
    let first = match sham {
        Sham::TriesStationsOnTheLineOnly => 0,
        _ => -length,
    };
    let ways = match sham {
        Sham::DrivesOneWayOnly => 0..=0,
        _ => 0..=1,
    };
    let sides = match sham {
        Sham::TriesTheRightSideOnly => 1..=1,
        _ => 0..=1,
    };
    let mut furthest = None;
    for way in ways {
        for station in first..=end {
            for side in sides.clone() {
                let stand = TrainStand { way, side, station };
                let effect = sham_effect(train, sham, question, stand);
                if furthest.is_none_or(|(best, _)| question.beats(effect, best)) {
                    furthest = Some((effect, stand));
                }
            }
        }
    }
    furthest.unwrap()
}

fn sham_effect(train: &Train, sham: Sham, question: Question, stand: TrainStand) -> i64 {
    let drops = match sham {
        Sham::TakesGreatestOfMode1AndLeastOfMode2 => question == Question::Least,
        _ => train.drops,
    };
    let counted = |part: i64| match question {
        Question::Greatest if drops => part.max(0),
        Question::Least if drops => part.min(0),
        _ => part,
    };
    let axles = match sham {
        Sham::ForgetsTheLastAxle => &train.axles[..train.axles.len() - 1],
        _ => &train.axles,
    };
    let parts = axles.iter().map(|axle| {
        let distance = [axle.from_first, train.length() - axle.from_first][stand.way as usize];
        let from = |side: Side| {
            let station = stand.station + distance;
            axle.load * ordinate(&train.line, Stand { station, side })
        };
        let (left, right) = (from(Side::Left), from(Side::Right));
        match sham {
            Sham::LetsEachAxleChooseItsSide if question.beats(left, right) => left,
            Sham::LetsEachAxleChooseItsSide => right,
            _ => [left, right][stand.side as usize],
        }
    });
    match sham {
        Sham::DropsTheSumNotTheAxle => counted(parts.sum()),
        _ => parts.map(counted).sum(),
    }
}

/// Without a sham, the sham kernel is right; so what the next test finds is the
/// sham's doing.
#[test]
fn the_sham_kernel_is_right_where_it_overlooks_nothing() {
    for seed in 0..500 {
        let train = sound(seed);
        let found = sham_rating(&train, Sham::Nothing);
        assert_eq!(found, train.rating(), "seed {seed}");
    }
}

/// A report that falls short is beaten by a stand; one that goes too far shows a
/// stand that does not give it.
#[test]
fn sham_kernels_are_beaten() {
    // With the least number of trains that fall short, and that go too far.
    for (sham, least_short, least_far) in [
        (Sham::DrivesOneWayOnly, 50, 0),
        (Sham::TriesStationsOnTheLineOnly, 50, 0),
        (Sham::TriesTheRightSideOnly, 50, 0),
        (Sham::LetsEachAxleChooseItsSide, 0, 50),
        (Sham::ForgetsTheLastAxle, 50, 1),
        (Sham::DropsTheSumNotTheAxle, 20, 0),
        (Sham::TakesGreatestOfMode1AndLeastOfMode2, 10, 10),
    ] {
        let (mut short, mut far) = (0, 0);
        for seed in 0..800 {
            let train = sound(seed);
            let right = train.rating();
            let found = sham_rating(&train, sham);
            let falls_short = |question: &Question| {
                question.beats(right.value(*question), found.value(*question))
            };
            let goes_too_far = |question: &Question| {
                question.beats(found.value(*question), right.value(*question))
            };
            let beating = first_beating(&train, &found, seed, 300);
            if Question::BOTH.iter().any(falls_short) {
                short += 1;
                let beaten = matches!(beating, Some(Beating::Beaten { .. }));
                assert!(beaten, "{sham:?}, seed {seed}: {beating:?}");
            } else if Question::BOTH.iter().any(goes_too_far) {
                far += 1;
                let told = matches!(beating, Some(Beating::NotGiven { .. }));
                assert!(told, "{sham:?}, seed {seed}: {beating:?}");
            }
        }
        let enough = short >= least_short && far >= least_far;
        assert!(enough, "{sham:?}: {short} fall short, {far} go too far");
        assert!(least_short > 0 || short == 0, "{sham:?}");
        assert!(least_far > 0 || far == 0, "{sham:?}");
    }
}

/// What beats a report says so in figures that can be followed: a kernel that
/// drives one way only has its best stand with 60 at 2, 120 at 20 and 26 from
/// the right, 60 * -40 + 120 * 600 + 120 * 480 = 127200.
#[test]
fn a_beating_names_its_stand() {
    let train = Train::of(&truck(1));
    let one_way = sham_rating(&train, Sham::DrivesOneWayOnly);
    assert_eq!(one_way.greatest, 127_200);
    assert_eq!(one_way.greatest_stand.station, 2);
    let beating = first_beating(&train, &one_way, 1, 100);
    let Some(Beating::Beaten {
        question: Question::Greatest,
        placement,
        effect_times_k,
        reported: 127_200,
    }) = beating
    else {
        panic!("{beating:?}");
    };
    assert_eq!(placement.way, Way::Turned);
    let effect = placement.effect_times_k(&train, Question::Greatest);
    assert_eq!(effect, effect_times_k);
    let k = placement.k;
    assert!(127_200 * k < effect && effect <= 136_800 * k);
}

/// Between stations the effect runs straight: at a quarter of a piece right of
/// station 1, 8 * 3/4 + 4 * 1/4 = 7 under 2 kN and 12 under 1 kN at 2 1/4.
#[test]
fn a_stand_between_stations() {
    use second::train::placement::Placement;
    let case = train_case(10, &[(0, 8), (8, 4), (12, 12)], &[(2, 0), (1, 10)], 1);
    let train = Train::of(&case);
    let stand = |way, leftmost| Placement {
        k: 4,
        way,
        side: Side::Left,
        leftmost,
    };
    let effect = |placement: Placement| placement.effect_times_k(&train, Question::Least);
    assert_eq!(effect(stand(Way::AsGiven, 5)), 4 * (2 * 7 + 12));
    assert_eq!(effect(stand(Way::Turned, 5)), 4 * (7 + 2 * 12));
    // A quarter of a piece left of the line: 0 and 8 * 3/4.
    assert_eq!(effect(stand(Way::AsGiven, -1)), 4 * 6);
}
