//! A kernel with a slip about two carriageways gives another value, another refusal or
//! another placement for some case: for a generated one, and for one chosen by hand.

mod common;

use common::overload::{additional_sum, effect, InLanes, Reading, FACTORS};
use common::streams::{answer_to, reach_all};
use second::checker::check;
use second::generator::{case, Case, Stream};
use second::job::Job;
use second::lanes::{breakpoint_centres, common_denominator, lane_count, lane_counts};
use second::lanes::{lanes_of_job, transverse_ordinate};
use second::loads::{Live, Question};
use second::sections::Sections;
use second::traffic::LongitudinalEffects;
use second::words::words_of;
use second::{chosen, Answer};
use std::collections::BTreeSet;

/// The transverse ordinates to choose from in each lane, times the common denominator.
type Ordinates = Vec<Vec<i128>>;

fn right_ordinates(job: &Job) -> Ordinates {
    let at = |lane: usize, centre: i64| i128::from(transverse_ordinate(job, lane, centre));
    let in_lane = |lane: usize| {
        let centres = breakpoint_centres(job, lane).into_iter();
        centres.map(|centre| at(lane, centre)).collect()
    };
    (0..lanes_of_job(job)).map(in_lane).collect()
}

/// The ordinates with those of the second side's lanes found elsewhere: a centre in n-ths
/// of a cm of its lane becomes a place in cm, as a fraction, on the second side.
fn second_side_elsewhere(job: &Job, place: impl Fn(usize, i64) -> (i64, i64)) -> Ordinates {
    let [first, _] = lane_counts(job);
    let mut ordinates = right_ordinates(job);
    for (lane, ordinates) in ordinates.iter_mut().enumerate().skip(first) {
        let centres = breakpoint_centres(job, lane).into_iter();
        *ordinates = centres
            .map(|centre| {
                let (cm, over) = place(lane, centre);
                ordinate_at(&job.second_transverse, job.spacing * over, cm)
                    * i128::from(common_denominator(job) / (job.spacing * over))
            })
            .collect();
    }
    ordinates
}

/// The ordinate at a place, times the step, both in one unit; 0 past the last.
fn ordinate_at(transverse: &[i64], step: i64, place: i64) -> i128 {
    let (before, beyond) = ((place / step) as usize, place % step);
    let ordinate = |number: usize| transverse.get(number).copied().unwrap_or(0);
    (ordinate(before) * (step - beyond) + ordinate(before + 1) * beyond).into()
}

/// What HN and HO give in each lane, at their furthest.
fn in_lanes(job: &Job, question: Question, ordinates: &Ordinates) -> InLanes {
    let effects = LongitudinalEffects::of(job);
    let furthest = |raising: i64, lowering: i64| -> Vec<i128> {
        let in_lane = |ordinates: &Vec<i128>| {
            let both = ordinates
                .iter()
                .flat_map(|ordinate| [raising, lowering].map(|one| i128::from(one) * ordinate));
            match question {
                Question::Greatest => both.max().expect("a centre"),
                Question::Least => both.min().expect("a centre"),
            }
        };
        ordinates.iter().map(in_lane).collect()
    };
    InLanes {
        question,
        hn: furthest(effects.hn_raising, effects.hn_lowering),
        ho: furthest(effects.ho_raising, effects.ho_lowering),
    }
}

const R: [i128; 11] = [20, 20, 18, 16, 14, 12, 11, 11, 11, 11, 11];
const R_OF_FIVE_AT_MOST: [i128; 11] = [20, 20, 18, 16, 14, 12, 12, 12, 12, 12, 12];
const FACTORS_OF_FIVE_AT_MOST: [i128; 9] = [20, 18, 16, 14, 12, 12, 12, 12, 12];

/// Whether a kernel tries a set of lanes.
type Tries = Box<dyn Fn(&[usize]) -> bool>;

/// How a kernel puts lanes together.
struct Kernel {
    ordinates: Ordinates,
    r: [i128; 11],
    factors: [i128; 9],
    tries: Tries,
}

impl Kernel {
    fn right(job: &Job) -> Kernel {
        Kernel {
            ordinates: right_ordinates(job),
            r: R,
            factors: FACTORS,
            tries: Box::new(|_| true),
        }
    }

    fn value(&self, job: &Job, live: Live, question: Question) -> i64 {
        let lanes = in_lanes(job, question, &self.ordinates);
        let twentieths = match live {
            Live::Normal => self.normal(&lanes),
            Live::Overload => self.overload(&lanes),
        };
        effect(job, question, twentieths)
    }

    fn normal(&self, lanes: &InLanes) -> i128 {
        let sums = (0..1_u32 << lanes.hn.len()).filter_map(|set| {
            let loaded: Vec<usize> = (0..lanes.hn.len())
                .filter(|lane| set >> lane & 1 == 1)
                .collect();
            let sum: i128 = loaded.iter().map(|&lane| lanes.hn[lane]).sum();
            (self.tries)(&loaded).then(|| self.r[loaded.len()] * sum)
        });
        lanes.furthest(sums)
    }

    fn overload(&self, lanes: &InLanes) -> i128 {
        let tries = |ho: usize, others: &[usize]| (self.tries)(&[&[ho], others].concat());
        lanes.overload(tries, |others| {
            let mut effects: Vec<i128> = others.iter().map(|&lane| lanes.hn[lane]).collect();
            effects.sort_by_key(|effect| match lanes.question {
                Question::Greatest => -effect,
                Question::Least => *effect,
            });
            let counted = effects.iter().zip(self.factors);
            counted.map(|(effect, factor)| factor * effect).sum()
        })
    }
}

/// A slip, as the kernel that has it.
type Slip = fn(&Job) -> Kernel;

const SLIPS: [(&str, Slip); 9] = [
    ("lanes of the second side from the first's kerb", |job| {
        // So much further to the right as the first carriageway is wide.
        let n = lane_counts(job)[1] as i64;
        let width = job.width;
        Kernel {
            ordinates: second_side_elsewhere(job, |_, centre| (centre + width * n, n)),
            ..Kernel::right(job)
        }
    }),
    ("lanes of the second side numbered on", |job| {
        let [first, second] = lane_counts(job).map(|lanes| lanes as i64);
        let width = job.second_width().expect("a second width");
        Kernel {
            ordinates: second_side_elsewhere(job, |_, centre| (centre + first * width, second)),
            ..Kernel::right(job)
        }
    }),
    ("centres of the second side in the first's n-ths", |job| {
        let n = lane_counts(job)[0] as i64;
        Kernel {
            ordinates: second_side_elsewhere(job, |_, centre| (centre, n)),
            ..Kernel::right(job)
        }
    }),
    ("n from the summed width", |job| {
        let width = job.width + job.second_width().expect("a second width");
        let n = lane_count(width);
        Kernel {
            tries: Box::new(move |lanes| lanes.iter().all(|&lane| lane < n)),
            ..Kernel::right(job)
        }
    }),
    ("the second section read where the first is", |job| {
        let both = [&job.transverse[..], &job.second_transverse].concat();
        let mut misread = job.clone();
        let length = job.second_transverse.len();
        misread.second_transverse = both[..length].to_vec();
        Kernel::right(&misread)
    }),
    ("r of six lanes and more at 12", |job| Kernel {
        r: R_OF_FIVE_AT_MOST,
        ..Kernel::right(job)
    }),
    ("the sixth additional lane at 12", |job| Kernel {
        factors: FACTORS_OF_FIVE_AT_MOST,
        ..Kernel::right(job)
    }),
    ("sets on one side only", |job| {
        let first = lane_counts(job)[0];
        let on_one_side = move |lanes: &[usize]| {
            let on_first = lanes.iter().filter(|&&lane| lane < first).count();
            on_first == 0 || on_first == lanes.len()
        };
        Kernel {
            tries: Box::new(on_one_side),
            ..Kernel::right(job)
        }
    }),
    ("the second side left empty", |job| {
        let first = lane_counts(job)[0];
        Kernel {
            tries: Box::new(move |lanes| lanes.iter().all(|&lane| lane < first)),
            ..Kernel::right(job)
        }
    }),
];

/// Slips that concern one live kind alone.
fn concerns(slip: &str, live: Live) -> bool {
    match slip {
        "r of six lanes and more at 12" => live == Live::Normal,
        "the sixth additional lane at 12" => live == Live::Overload,
        _ => true,
    }
}

/// The slips that show in a case's traffic values.
fn shown_in_values(case: &Case) -> Vec<String> {
    let answer = answer_to(case);
    if answer.refusal != 0 {
        return vec![];
    }
    let job = Job::decode(&words_of(&case.job));
    if job.second_width().is_none() {
        return vec![];
    }
    let right = Kernel::right(&job);
    let slips = SLIPS.map(|(name, slip)| (name, slip(&job)));
    let mut labels = vec![];
    for live in Live::BOTH {
        for question in Question::BOTH {
            let due = answer.account.traffic(live, question).value;
            assert_eq!(right.value(&job, live, question), due);
            let differs = |slip: &Kernel| slip.value(&job, live, question) != due;
            let shown = slips.iter().filter(|(_, slip)| differs(slip));
            labels.extend(shown.map(|(name, _)| value_label(name, live, question)));
        }
    }
    labels
}

fn value_label(slip: &str, live: Live, question: Question) -> String {
    format!("{slip}: {live:?} {question:?}")
}

fn expected_in_values() -> BTreeSet<String> {
    let mut expected = BTreeSet::new();
    for (name, _) in SLIPS {
        for live in Live::BOTH {
            if concerns(name, live) {
                expected.extend(Question::BOTH.map(|question| value_label(name, live, question)));
            }
        }
    }
    expected
}

/// Slips about what is refused, each with whether a case shows it.
type RefusalSlip = fn(&Case, &[i32], &Answer) -> bool;

const REFUSAL_SLIPS: [(&str, RefusalSlip); 12] = [
    ("501 to 5000 accepted in edition 3", |_, words, answer| {
        let place = answer.place as usize;
        words[0] == 3
            && answer.refusal == 4
            && Sections::called_for_by(words).line.contains(&place)
            && words[place].unsigned_abs() <= 5000
    }),
    ("500 refused in edition 3", |_, words, answer| {
        let line = || words[Sections::called_for_by(words).line].iter();
        words[0] == 3 && answer.refusal == 0 && line().any(|word| word.abs() == 500)
    }),
    ("501 to 5000 refused in edition 1", |_, words, answer| {
        words[0] == 1 && answer.refusal == 0 && has_an_ordinate_past_500(words)
    }),
    ("501 to 5000 refused in edition 2", |_, words, answer| {
        words[0] == 2 && answer.refusal == 0 && has_an_ordinate_past_500(words)
    }),
    ("word 12 untested", |_, words, answer| {
        words[0] == 3 && (answer.refusal, answer.place) == (2, 12)
    }),
    ("word 12 tested before the others", |_, words, answer| {
        let no_width = || !(300..=2079).contains(&words[12]);
        words[0] == 3 && answer.refusal == 2 && answer.place < 12 && no_width()
    }),
    ("twelve words are a header", |case, words, answer| {
        words.first() == Some(&3) && case.job.len() == 48 && answer.refusal == 1
    }),
    (
        "a second section as long as the first",
        |_, words, answer| {
            words[0] == 3 && answer.refusal == 0 && {
                let sections = Sections::called_for_by(words);
                sections.transverse.len() != sections.second_transverse.len()
            }
        },
    ),
    ("no second section due", |_, words, answer| {
        words[0] == 3 && answer.refusal == 3 && {
            let sections = Sections::called_for_by(words);
            words.len() + sections.second_transverse.len() == sections.words_due()
        }
    }),
    ("the second section untested", |_, words, answer| {
        let place = answer.place as usize;
        let in_second = || {
            Sections::called_for_by(words)
                .second_transverse
                .contains(&place)
        };
        words[0] == 3 && answer.refusal == 4 && in_second()
    }),
    ("the second section tested first", |_, words, answer| {
        let place = answer.place as usize;
        let outside = |word: &i32| !(-1000..=1000).contains(word);
        words[0] == 3 && answer.refusal == 4 && {
            let sections = Sections::called_for_by(words);
            sections.transverse.contains(&place)
                && words[sections.second_transverse].iter().any(outside)
        }
    }),
    ("16384 bytes are read", |case, words, answer| {
        words.first() == Some(&3) && case.job.len() > 16_384 && answer.refusal == 0
    }),
];

fn has_an_ordinate_past_500(words: &[i32]) -> bool {
    let line = Sections::called_for_by(words).line;
    words[line].iter().any(|word| word.abs() > 500)
}

fn shown_in_refusals(case: &Case) -> Vec<String> {
    let answer = answer_to(case);
    let words = words_of(&case.job);
    if words.is_empty() {
        return vec![];
    }
    let shown = REFUSAL_SLIPS
        .iter()
        .filter(|(_, shows)| shows(case, &words, &answer));
    shown.map(|(name, _)| name.to_string()).collect()
}

/// Placements as a kernel might misreport them, each refused where it differs.
type Misreport = fn(&Job, &mut Answer);

const MISREPORTS: [(&str, Misreport); 4] = [
    ("the second side from bit 5 on", |job, answer| {
        let [first, second] = lane_counts(job);
        let account = &mut answer.account;
        for traffic in [
            &mut account.normal_greatest,
            &mut account.normal_least,
            &mut account.overload_greatest,
            &mut account.overload_least,
        ] {
            let right = *traffic;
            traffic.set &= (1 << first) - 1;
            traffic.lanes[first..].fill(Default::default());
            for lane in 0..second {
                traffic.set |= (right.set >> (first + lane) & 1) << (5 + lane);
                traffic.lanes[5 + lane] = right.lanes[first + lane];
            }
        }
    }),
    ("centres from the first side's kerb", |job, answer| {
        let [first, second] = lane_counts(job);
        let further = job.width * second as i64;
        for lane in &mut answer.account.overload_greatest.lanes[first..] {
            lane.centre += if lane.entry == 0 { 0 } else { further };
        }
    }),
    (
        "centres of both sides in the first's n-ths",
        |job, answer| {
            let [first, second] = lane_counts(job).map(|lanes| lanes as i64);
            for lane in &mut answer.account.normal_least.lanes[first as usize..] {
                lane.centre = lane.centre * first / second;
            }
        },
    ),
    ("the lanes of both sides in one count", |job, answer| {
        let lanes = lanes_of_job(job) as u32;
        (answer.account.first_lanes, answer.account.second_lanes) = (lanes, 0);
    }),
];

fn shown_in_placements(case: &Case) -> Vec<String> {
    let mut after = case.patch.clone();
    let answer = second::solve(&case.job, &mut after);
    if answer.refusal != 0 || words_of(&case.job)[0] != 3 {
        return vec![];
    }
    let job = Job::decode(&words_of(&case.job));
    let refused = |misreport: &Misreport| {
        let mut misreported = answer;
        misreport(&job, &mut misreported);
        check(&case.job, &case.patch, &after, &misreported).is_err()
    };
    let shown = MISREPORTS
        .iter()
        .filter(|(_, misreport)| refused(misreport));
    shown.map(|(name, _)| name.to_string()).collect()
}

fn names<T>(slips: &[(&str, T)]) -> BTreeSet<String> {
    slips.iter().map(|(name, _)| name.to_string()).collect()
}

/// What `Kernel` adds up is what the readings of additional lanes do.
#[test]
fn the_factors_are_those_of_the_readings() {
    let effects: Vec<i128> = (1..=9).collect();
    let due = additional_sum(Reading::FurthestFirst, Question::Greatest, effects);
    let counted = (1..=9).rev().zip(FACTORS);
    assert_eq!(
        counted
            .map(|(effect, factor)| effect * factor)
            .sum::<i128>(),
        due
    );
}

#[test]
fn every_slip_shows_in_values_of_generated_cases() {
    let cases = (0..1000).map(|seed| case(Stream::Three, seed));
    reach_all(cases, shown_in_values, expected_in_values());
}

#[test]
fn every_slip_shows_in_values_of_chosen_cases() {
    let cases = chosen::cases(Stream::Three);
    reach_all(cases, shown_in_values, expected_in_values());
}

#[test]
fn every_slip_shows_in_refusals_of_chosen_cases() {
    let cases = chosen::cases(Stream::Three);
    reach_all(cases, shown_in_refusals, names(&REFUSAL_SLIPS));
}

#[test]
fn every_slip_shows_in_placements_of_chosen_cases() {
    let cases = chosen::cases(Stream::Three);
    reach_all(cases, shown_in_placements, names(&MISREPORTS));
}
