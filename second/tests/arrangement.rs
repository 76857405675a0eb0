//! 01 "Arrangements, for demand 3", 02 "Farm bridges", "Span by sign", "Additional overload
//! lanes" and "Two carriageways": hand-worked arrangements, and the rules.

#![allow(clippy::single_range_in_vec_init)] // One loaded range is meant.

mod common;

use common::{level_job, small_farm_job, spans_job, two_lane_job, with_factor};
use second::arrangement::{Arrangement, LoadedLane};
use second::chosen::edition_3::{level_job as chosen_level_job, sloped_job};
use second::fraction::Fraction;
use second::job::Job;
use second::loads::{Element, Live, Question, Side};

fn lane(element: Element, left_axle: i128, side: Side, centre: i128) -> LoadedLane {
    LoadedLane {
        element,
        loaded: vec![],
        left_axle,
        side,
        centre,
        factor: 0,
    }
}

fn arrangement(k: i128, lanes: &[(usize, LoadedLane)]) -> Arrangement {
    let mut arrangement = Arrangement::empty(k);
    for (number, loaded) in lanes {
        arrangement.lanes[*number] = Some(loaded.clone());
    }
    arrangement
}

/// Each k-th by itself, as 01 writes it.
fn uniform_load_by_k_ths(job: &Job, loaded: &[std::ops::Range<i128>], k: i128) -> Fraction {
    let mut sum = Fraction::ZERO;
    for k_th in loaded.iter().flat_map(|range| range.clone()) {
        let piece = job.pieces[(k_th / k) as usize];
        let ordinate_at = |j: i128| {
            Fraction::whole(piece.left.into())
                + Fraction::new(i128::from(piece.right - piece.left) * j, k)
        };
        let ends = ordinate_at(k_th % k) + ordinate_at(k_th % k + 1);
        sum = sum + ends * Fraction::new(7 * i128::from(job.piece_length), k);
    }
    sum
}

#[test]
fn loaded_k_ths_sum_as_01_writes_them() {
    let job = two_lane_job();
    for k in [1, 2, 3, 7, 10] {
        let whole = 4 * k;
        for loaded in [
            vec![0..whole],
            vec![0..1],
            vec![whole - 1..whole],
            vec![0..1, 1..2 * k, 3 * k..whole],
            (0..whole).step_by(2).map(|at| at..at + 1).collect(),
        ] {
            let by_k_ths = uniform_load_by_k_ths(&job, &loaded, k);
            let mut element = lane(Element::Hn, 100 * k, Side::Left, 0);
            element.loaded = loaded;
            assert_eq!(element.longitudinal_effect(&job, k), by_k_ths, "k {k}");
        }
    }
}

/// The line is 0, 100, 0, -60, 0 at its stations, the axles 2 pieces apart. In
/// thirds, a left axle at 1 has 100/3, its right one at 7 has -60/3: 40/3.
#[test]
fn axles_between_stations_count_the_lines_ordinate() {
    let job = two_lane_job();
    let effect = |element, left_axle, k| {
        lane(element, left_axle, Side::Left, 0).longitudinal_effect(&job, k)
    };
    assert_eq!(effect(Element::Hn, 1, 3), Fraction::new(1600 * 40, 3));
    assert_eq!(effect(Element::Ho, 1, 3), Fraction::new(3200 * 40, 3));
    // The left axle is off the line, the right one at 2 thirds: 200/3.
    assert_eq!(effect(Element::Hn, -4, 3), Fraction::new(1600 * 200, 3));
    // The right axle is off the line, the left one at 10 thirds: -60 * 2/3.
    assert_eq!(effect(Element::Hn, 10, 3), Fraction::whole(-1600 * 40));
    assert_eq!(effect(Element::Hn, 3000, 3), Fraction::ZERO);
    assert_eq!(effect(Element::Hn, -3000, 3), Fraction::ZERO);
}

/// One piece of 8 and 8 with jumps at its ends; the axles are 1 piece apart.
#[test]
fn an_axle_at_a_station_counts_its_side() {
    let job = level_job(300, 50, vec![0; 7]);
    let pairs = |left_axle, side| lane(Element::Hn, left_axle, side, 0);
    let table = [
        (-1, Side::Left, 0),
        (-1, Side::Right, 8),
        (0, Side::Left, 8),
        (0, Side::Right, 8),
        (1, Side::Left, 8),
        (1, Side::Right, 0),
    ];
    for (station, side, ordinates) in table {
        for k in [1, 2, 5] {
            let found = pairs(station * k, side).longitudinal_effect(&job, k);
            assert_eq!(
                found,
                Fraction::whole(1600 * ordinates),
                "{station} {side:?}"
            );
        }
    }
}

/// One lane, HN on the whole piece, pair at station 0: 18400. The centre can
/// only be 150 cm, on ordinate 3. 18400 * 7 * 20 * 1000 * 3 / 800000 = 9660;
/// with one k-th of two taken away, 2800 less: 15600 * 7 * 20 * 3 / 800 = 8190.
#[test]
fn an_arrangements_effect() {
    let job = level_job(300, 50, vec![0, 0, 0, 7, 0, 0, 0]);
    let mut element = lane(Element::Hn, 0, Side::Right, 300);
    element.loaded = vec![0..2];
    let whole = arrangement(2, &[(0, element.clone())]);
    assert_eq!(whole.lawful(&job, Live::Normal), Ok(()));
    assert_eq!(
        whole.effect(&job, Live::Normal, Question::Greatest),
        Fraction::whole(9660)
    );
    element.loaded = vec![1..2];
    let half = arrangement(2, &[(0, element)]);
    assert_eq!(
        half.effect(&job, Live::Normal, Question::Greatest),
        Fraction::whole(8190)
    );
    let empty = Arrangement::empty(4);
    assert_eq!(empty.lawful(&job, Live::Normal), Ok(()));
    assert_eq!(
        empty.effect(&job, Live::Normal, Question::Greatest),
        Fraction::ZERO
    );
}

/// W 600, ordinates 1000 and 500 at the only centres. Two HN axles of 8:
/// 12800 each. Normal: 18 * 12800 * 1500 * 1000 * 3 / 800000 = 1296000.
/// Overload with HO in lane 2: 20 * (25600 * 500 + 12800 * 1000) = 512000000,
/// times 1000 * 3 / 800000 = 1920000.
#[test]
fn two_lanes_in_normal_and_overload() {
    let mut transverse = vec![0; 13];
    (transverse[3], transverse[9]) = (1000, 500);
    let job = level_job(600, 50, transverse);
    let standing = |element, centre| lane(element, 0, Side::Left, centre);
    let hn = standing(Element::Hn, 150);
    let normal = arrangement(1, &[(0, hn.clone()), (1, standing(Element::Hn, 450))]);
    assert_eq!(normal.lawful(&job, Live::Normal), Ok(()));
    assert_eq!(
        normal.effect(&job, Live::Normal, Question::Greatest),
        Fraction::whole(1_296_000)
    );
    let overload = arrangement(
        1,
        &[(0, with_factor(&hn, 20)), (1, standing(Element::Ho, 450))],
    );
    assert_eq!(overload.lawful(&job, Live::Overload), Ok(()));
    assert_eq!(
        overload.effect(&job, Live::Overload, Question::Greatest),
        Fraction::whole(1_920_000)
    );
}

/// Five lanes of 400 cm, lane 5 under an ordinate of 500, the others under 1000. An axle
/// of each HN is on 8, 12800, and of HO in lane 3, 25600. With 14 in lane 5, 20 * 25600 +
/// (54 + 14 / 2) * 12800 = 1292800, times 1000 * 1000 * 3 / 800000 = 4848000; with 16, 18
/// and 20 there the factors come to 60, 59 and 58 for 61, each 12800 * 3.75 = 48000 less.
#[test]
fn additional_lanes_count_their_factors() {
    let mut transverse = vec![1000; 41];
    transverse[35..=37].fill(500);
    let job = level_job(2000, 50, transverse);
    let of = |factors: [i64; 5]| {
        let lanes = factors.into_iter().enumerate().map(|(at, factor)| {
            let element = [Element::Hn, Element::Ho][usize::from(at == 2)];
            let standing = lane(element, 0, Side::Left, 400 * at as i128 + 200);
            (at, with_factor(&standing, factor))
        });
        arrangement(1, &lanes.collect::<Vec<_>>())
    };
    for (factors, due) in [
        ([20, 18, 0, 16, 14], 4_848_000),
        ([18, 20, 0, 14, 16], 4_800_000),
        ([14, 16, 0, 20, 18], 4_752_000),
        ([14, 16, 0, 18, 20], 4_704_000),
    ] {
        let found = of(factors);
        assert_eq!(found.lawful(&job, Live::Overload), Ok(()), "{factors:?}");
        let effect = found.effect(&job, Live::Overload, Question::Greatest);
        assert_eq!(effect, Fraction::whole(due), "{factors:?}");
    }
    for factors in [
        [20, 18, 0, 16, 0],
        [20, 18, 0, 16, 16],
        [20, 20, 0, 16, 14],
        [14, 14, 0, 14, 14],
        [18, 16, 0, 14, 12],
        [20, 18, 20, 16, 14],
        [20, 18, 12, 16, 14],
        [0, 0, 0, 0, 0],
    ] {
        assert!(
            of(factors).lawful(&job, Live::Overload).is_err(),
            "{factors:?}"
        );
    }
}

/// In normal r counts, and no lane has a factor.
#[test]
fn normal_has_no_factors() {
    let job = level_job(1200, 50, vec![1000; 25]);
    let of = |factors: [i64; 3]| {
        let lanes = factors.into_iter().enumerate().map(|(at, factor)| {
            let standing = lane(Element::Hn, 0, Side::Left, 400 * at as i128 + 200);
            (at, with_factor(&standing, factor))
        });
        arrangement(1, &lanes.collect::<Vec<_>>())
    };
    // 16 * 3 * 12800 = 614400, times 3750 / 1000.
    let found = of([0; 3]);
    assert_eq!(found.lawful(&job, Live::Normal), Ok(()));
    assert_eq!(
        found.effect(&job, Live::Normal, Question::Greatest),
        Fraction::whole(2_304_000)
    );
    for factors in [[20, 18, 16], [16, 16, 16], [20, 0, 0], [0, 0, 16]] {
        assert!(
            of(factors).lawful(&job, Live::Normal).is_err(),
            "{factors:?}"
        );
    }
}

#[test]
fn unlawful_arrangements_are_told() {
    // Two lanes with centres from 150 to 210 and 510 to 570 cm; 4 pieces.
    let job = two_lane_job();
    let hn = |centre| lane(Element::Hn, 0, Side::Left, centre);
    let ho = |centre| lane(Element::Ho, 0, Side::Left, centre);
    let loading = |ranges: &[std::ops::Range<i128>]| LoadedLane {
        loaded: ranges.to_vec(),
        ..hn(450)
    };
    let lawful = |live, k, lanes: &[(usize, LoadedLane)]| arrangement(k, lanes).lawful(&job, live);
    use Live::{Normal, Overload};
    for centre in [450, 630] {
        assert_eq!(lawful(Normal, 3, &[(0, hn(centre))]), Ok(()));
        assert_eq!(lawful(Normal, 3, &[(1, hn(centre + 1080))]), Ok(()));
    }
    assert_eq!(lawful(Normal, 3, &[(0, loading(&[0..5, 5..12]))]), Ok(()));
    let first = with_factor(&hn(1530), 20);
    assert_eq!(lawful(Overload, 3, &[(0, ho(450)), (1, first)]), Ok(()));
    let unlawful = [
        lawful(Normal, 0, &[]),
        lawful(Normal, -1, &[]),
        lawful(Normal, 3, &[(0, hn(449))]),
        lawful(Normal, 3, &[(0, hn(631))]),
        lawful(Normal, 3, &[(1, hn(1529))]),
        lawful(Normal, 3, &[(1, hn(1711))]),
        lawful(Normal, 3, &[(2, hn(1800))]),
        lawful(Normal, 3, &[(0, ho(450))]),
        lawful(Overload, 3, &[]),
        lawful(Overload, 3, &[(0, hn(450))]),
        lawful(Overload, 3, &[(0, ho(450)), (1, ho(1530))]),
        lawful(Normal, 3, &[(0, loading(&[-1..2]))]),
        lawful(Normal, 3, &[(0, loading(&[0..13]))]),
        lawful(Normal, 3, &[(0, loading(&[0..2, 1..3]))]),
        lawful(Normal, 3, &[(0, loading(&[3..4, 1..2]))]),
        lawful(Normal, 3, &[(0, loading(&[2..2]))]),
    ];
    for (number, found) in unlawful.iter().enumerate() {
        assert!(found.is_err(), "number {number}");
    }
}

#[test]
fn fractions_are_exact_and_round_by_question() {
    let third = Fraction::new(1, 3);
    assert_eq!(third + third + third, Fraction::whole(1));
    assert_eq!(Fraction::new(6, 4), Fraction::new(3, 2));
    assert_eq!(
        Fraction::new(2, 3) * Fraction::new(3, 4),
        Fraction::new(1, 2)
    );
    let table = [
        (7, 2, 4, 3),
        (-7, 2, -3, -4),
        (6, 2, 3, 3),
        (-6, 2, -3, -3),
        (0, 5, 0, 0),
    ];
    for (numerator, denominator, up, down) in table {
        let fraction = Fraction::new(numerator, denominator);
        assert_eq!(fraction.round(Question::Greatest), up);
        assert_eq!(fraction.round(Question::Least), down);
    }
}

/// 02 "Farm bridges": 17/20 of what edition 1 has. An axle at the start of the
/// line of both ordinates 8, over the ordinate 1000: 1600 * 8 * 1000 * 20 * 1000 *
/// 3 / 800000 = 960000, times 17/20 = 816000.
#[test]
fn a_farm_arrangement_counts_17_twentieths() {
    let job = small_farm_job([0; 11]);
    let one = arrangement(1, &[(0, lane(Element::Hn, 0, Side::Right, 150))]);
    assert_eq!(one.lawful(&job, Live::Normal), Ok(()));
    assert_eq!(
        one.effect(&job, Live::Normal, Question::Greatest),
        Fraction::whole(816_000)
    );
    assert_eq!(
        Arrangement::empty(3).effect(&job, Live::Normal, Question::Greatest),
        Fraction::ZERO
    );
}

/// The empty arrangement is the one of a farm job's overload; HO is in none.
#[test]
fn a_farm_job_has_one_overload_arrangement() {
    let job = small_farm_job([0; 11]);
    let with = |element| arrangement(1, &[(0, lane(element, 0, Side::Right, 150))]);
    assert_eq!(Arrangement::empty(1).lawful(&job, Live::Overload), Ok(()));
    assert_eq!(Arrangement::empty(7).lawful(&job, Live::Overload), Ok(()));
    assert_eq!(Arrangement::empty(1).lawful(&job, Live::Normal), Ok(()));
    assert!(with(Element::Hn).lawful(&job, Live::Overload).is_err());
    assert!(with(Element::Ho).lawful(&job, Live::Overload).is_err());
    assert!(with(Element::Ho).lawful(&job, Live::Normal).is_err());
    // In edition 1 it is the other way about.
    let job = level_job(300, 50, vec![1000; 7]);
    assert!(Arrangement::empty(1).lawful(&job, Live::Overload).is_err());
    assert_eq!(with(Element::Ho).lawful(&job, Live::Overload), Ok(()));
}

/// 02 "Span by sign": an arrangement of any sign counts each question's factor. An axle
/// on the piece at 8 gives 1600 * 8 * 1000 * 20 * 3 / 800000 = 960 for each thousandth,
/// one on the piece at -8 gives -960. 122 dm are 1299, 2000 dm are 1064.
#[test]
fn an_arrangement_counts_the_factor_of_the_question() {
    let job = spans_job(122, 2000);
    for (left_axle, side, sign) in [(-1, Side::Right, 1), (2, Side::Left, -1)] {
        let one = arrangement(1, &[(0, lane(Element::Hn, left_axle, side, 150))]);
        for (question, factor) in [(Question::Greatest, 1299), (Question::Least, 1064)] {
            let due = Fraction::whole(sign * 960 * factor);
            assert_eq!(one.effect(&job, Live::Normal, question), due);
        }
    }
}

/// Two lanes of 350.5 cm and, across the median, one of 437: centres run from 150 to 200.5
/// and from 500.5 to 551 cm, and from 150 to 287 cm on the second side.
#[test]
fn centres_from_their_own_kerbs() {
    let job = sloped_job(701, 437);
    let at = |lane_number: usize, k: i128, centre: i128| {
        let standing = lane(Element::Hn, 0, Side::Left, centre);
        arrangement(k, &[(lane_number, standing)]).lawful(&job, Live::Normal)
    };
    let outside = |lane_number: usize| {
        let rule = "its centre is outside the lane's limits";
        Err(format!("lane {}: {rule}", lane_number + 1))
    };
    for (number, k, from, to) in [
        (0, 1, 150, 200),
        (0, 2, 300, 401),
        (1, 1, 501, 551),
        (1, 2, 1001, 1102),
        (2, 1, 150, 287),
        (2, 2, 300, 574),
        (2, 3, 450, 861),
    ] {
        assert_eq!(at(number, k, from), Ok(()));
        assert_eq!(at(number, k, to), Ok(()));
        assert_eq!(at(number, k, from - 1), outside(number));
        assert_eq!(at(number, k, to + 1), outside(number));
    }
    assert_eq!(at(3, 1, 200), Err("lane 4: is past the last lane".into()));
}

/// The right axle of each HN is on 8, 12800. The first side is 950 - 31 x / 37 at x cm, so 30500/37 at
/// 150 cm; the second 797 at 222 cm, and 797 - 668/37 a cm on, as it falls to 129 in 37.
/// Two lanes at 18 give 12800 * 18 * 3 / 800 = 864 N·U for each thousandth.
#[test]
fn lanes_of_two_sides_add_up() {
    let job = sloped_job(701, 437);
    let of = |k: i128, first: i128, second: i128| {
        let standing = |centre| lane(Element::Hn, -k, Side::Right, centre);
        let lanes = [(0, standing(first)), (2, standing(second))];
        arrangement(k, &lanes).effect(&job, Live::Normal, Question::Greatest)
    };
    let thousandth = Fraction::whole(864);
    let first = Fraction::new(30_500, 37);
    assert_eq!(of(1, 150, 222), thousandth * (first + Fraction::whole(797)));
    let fallen = Fraction::new(797 * 37 - 668, 37);
    assert_eq!(of(1, 150, 223), thousandth * (first + fallen));
    assert_eq!(of(6, 900, 1338), thousandth * (first + fallen));
}

/// Ten lanes under 1000, the right axle of each on 8, 12800: r is 12 for five of them and 11 for six
/// and more. For each lane 12800 * 1000 * 3 / 800 = 48000 N·U a twentieth.
#[test]
fn r_of_six_lanes_and_more() {
    let job = chosen_level_job(1710, 2079);
    for (lanes, r) in [
        (4, 14),
        (5, 12),
        (6, 11),
        (7, 11),
        (8, 11),
        (9, 11),
        (10, 11),
    ] {
        let standing = |number: usize| {
            let (width, own) = [(1710, number), (2079, number.wrapping_sub(5))][number / 5];
            let centre = own as i128 * width + 5 * 150;
            (number, lane(Element::Hn, -5, Side::Right, centre))
        };
        let loaded: Vec<_> = (10 - lanes..10).map(standing).collect();
        let found = arrangement(5, &loaded);
        assert_eq!(found.lawful(&job, Live::Normal), Ok(()));
        let effect = found.effect(&job, Live::Normal, Question::Greatest);
        let due = 48_000 * r * lanes as i128;
        assert_eq!(effect, Fraction::whole(due), "{lanes} lanes");
    }
}
