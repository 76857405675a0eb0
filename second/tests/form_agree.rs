//! 02 "One way to write a job": two jobs agree exactly when their forms are equal bytes; a
//! form is accepted, written again it is itself, and values, governing rows and attained
//! placements are the job's.

mod common;

use common::{level_job, two_lane_job};
use second::account::{Account, Answer};
use second::arch_job::arch_job;
use second::checker;
use second::deck_job::deck_job;
use second::edition::Edition;
use second::form::agree::factor;
use second::form::checker::check_form;
use second::form::{agree, standard, standard_form};
use second::generator::form::{differing_in, respelled, sound_job, Difference};
use second::generator::Stream;
use second::job::{Effect, Job, Record, Row};
use second::job_a::job_a;
use second::motorway_job::motorway_job;
use second::rng::Rng;
use second::solve;
use second::spelled_job::spelled_job;
use second::store;
use second::words::words_of;

/// Jobs of every stream with an edition that is written, with a source of draws for each.
fn jobs(seeds: u64) -> impl Iterator<Item = (Rng, Job)> {
    let streams = [Stream::One, Stream::Two, Stream::Spans, Stream::Three];
    let of_stream = move |stream| {
        (0..seeds).map(move |seed| {
            let mut rng = Rng::new(seed);
            let job = sound_job(&mut rng, stream);
            (rng, job)
        })
    };
    streams.into_iter().flat_map(of_stream)
}

/// Two jobs agree, or do not, either way round, and so are their forms.
#[track_caller]
fn hold(one: &Job, other: &Job, due: bool) {
    assert_eq!((agree(one, other), agree(other, one)), (due, due));
    assert_eq!(standard_form(one) == standard_form(other), due);
}

#[test]
fn spellings_of_one_job_agree_and_have_one_form() {
    for (mut rng, job) in jobs(100) {
        hold(&job, &job, true);
        hold(&job, &standard(&job), true);
        let others = [0; 3].map(|_| respelled(&mut rng, &job));
        for other in &others {
            hold(&job, other, true);
            hold(&others[0], other, true);
        }
    }
}

/// Also where both are spelled anew.
#[test]
fn jobs_that_differ_in_a_word_have_two_forms() {
    for (mut rng, job) in jobs(60) {
        for kind in Difference::ALL {
            if let Some(other) = differing_in(&mut rng, &job, kind) {
                hold(&job, &other, false);
                hold(&respelled(&mut rng, &job), &standard(&other), false);
                hold(&standard(&job), &respelled(&mut rng, &other), false);
            }
        }
    }
}

/// Whatever two jobs of a stream have in common.
#[test]
fn jobs_of_a_stream_agree_exactly_when_their_forms_are_equal() {
    let jobs: Vec<Job> = jobs(40).map(|(_, job)| job).collect();
    for one in &jobs {
        for other in &jobs {
            hold(one, other, standard_form(one) == standard_form(other));
        }
    }
}

/// Two rows, of two effects, with each table of factors 0, 1 and 2, spelled in each way
/// there is with a record for each factor or without those of 0: all pairs.
#[test]
fn every_pair_of_small_tables() {
    let jobs: Vec<Job> = (0..81).flat_map(spellings_of_table).collect();
    assert_eq!(jobs.len(), 81 * 4);
    let forms: Vec<Vec<u8>> = jobs.iter().map(standard_form).collect();
    for (at, one) in jobs.iter().enumerate() {
        for (other_at, other) in jobs.iter().enumerate() {
            let of_one_table = at / 4 == other_at / 4;
            assert_eq!(agree(one, other), of_one_table);
            assert_eq!(forms[at] == forms[other_at], of_one_table);
        }
    }
}

/// The table of a number, as four digits of base 3: with effects rising or falling, and
/// with factors of 0 or without.
fn spellings_of_table(number: usize) -> Vec<Job> {
    let digit = |at: u32| (number / 3_usize.pow(at) % 3) as i64;
    let ways = [(false, false), (false, true), (true, false), (true, true)];
    let spelled = |(falling, zeros): (bool, bool)| {
        let mut job = level_job(300, 50, vec![1000; 7]);
        job.effects = vec![Effect::new(1, 1), Effect::new(2, 2)];
        job.rows = vec![job.rows[0]; 2];
        for row in 0..2 {
            let mut named = vec![(1, digit(2 * row)), (2, digit(2 * row + 1))];
            named.retain(|&(_, factor)| zeros || factor != 0);
            if !falling {
                named.reverse();
            }
            // From the end of the chain on.
            let mut next = 0;
            for (effect, factor) in named {
                job.records.push(Record::new(effect, factor, next));
                next = job.records.len();
            }
            job.rows[row as usize].first = next;
        }
        job
    };
    ways.map(spelled).to_vec()
}

/// Editions 2 and 3 are never one job, nor is one of edition 1, whatever their words.
#[test]
fn jobs_of_two_editions_do_not_agree() {
    let job = level_job(300, 50, vec![1000; 7]);
    let wide = Job {
        edition: Edition::Two,
        further_header: vec![0, 0],
        ..job.clone()
    };
    let two = wide.clone().with_second_carriageway(300, vec![1000; 7]);
    hold(&job, &wide, false);
    hold(&wide, &two, false);
    hold(&job, &two, false);
}

/// Rows in another order, or one more, make another job; so does an effect more that no
/// row has.
#[test]
fn rows_and_effects_count_by_place() {
    let job = spelled_job();
    let mut turned = job.clone();
    turned.rows.swap(0, 1);
    hold(&job, &turned, false);
    let mut longer = job.clone();
    longer.rows.push(job.rows[3]);
    hold(&job, &longer, false);
    let mut wider = job.clone();
    wider.effects.push(Effect::new(0, 2));
    hold(&job, &wider, false);
    // Rows 1 and 2 of the two lanes' job are one and the same.
    let mut alike = two_lane_job();
    alike.rows.swap(0, 1);
    hold(&two_lane_job(), &alike, true);
}

/// The records, C and the rows' first ones say nothing by themselves.
#[test]
fn a_factor_is_that_of_the_record_named() {
    let job = spelled_job();
    let of_row = |row: &Row| [1, 2, 3].map(|effect| factor(&job, row, effect));
    let factors: Vec<[i64; 3]> = job.rows.iter().map(of_row).collect();
    let due = [[1000, 1000, 1000], [1000, 1000, 0], [1200, 1350, 0], [0; 3]];
    assert_eq!(factors, due);
    let mut without = job.clone();
    without.rows[3].first = 0;
    without.records[5] = Record::new(1, 3000, 6); // on no chain
    hold(&job, &without, true);
}

/// A form is accepted and is its own form.
#[track_caller]
fn is_its_own_form(job: &Job) {
    let form = standard_form(job);
    let again = Job::decode(&words_of(&form));
    assert_eq!(standard_form(&again), form);
    assert_eq!(again.edition, job.edition);
    hold(job, &again, true);
}

#[test]
fn a_form_written_again_is_itself() {
    for (_, job) in jobs(200) {
        is_its_own_form(&job);
    }
    for job in [job_a(), arch_job(), deck_job(), motorway_job()] {
        is_its_own_form(&job);
        assert_eq!(check_form(&job.bytes(), &standard_form(&job)), Ok(()));
    }
    // The arch's rows share their tails; the others are in standard form.
    assert_eq!(standard(&job_a()), job_a());
    assert_eq!(standard(&deck_job()), deck_job());
    assert_eq!(standard(&motorway_job()), motorway_job());
    assert_eq!(standard(&arch_job()).records.len(), 10);
}

/// 32 rows with one falling chain of sixteen: R times E records in place of sixteen. No form
/// has more.
#[test]
fn a_form_of_512_records() {
    let mut job = two_lane_job();
    job.effects = vec![Effect::new(7, 2); 16];
    let next = |number: usize| if number < 16 { number + 1 } else { 0 };
    job.records = (1..=16)
        .map(|number| Record::new(17 - number, 3000, next(number)))
        .collect();
    job.rows = vec![Row::new(1, 1, 1350, 1); 32];
    let written = standard(&job);
    assert_eq!((job.records.len(), written.records.len()), (16, 512));
    assert_eq!(written.bytes().len() - job.bytes().len(), 12 * (512 - 16));
    for (at, record) in written.records.iter().enumerate() {
        let (row, within) = (at / 16, at % 16);
        assert_eq!(written.rows[row].first, 16 * row + 1);
        let next = if within < 15 { at + 2 } else { 0 };
        assert_eq!(*record, Record::new(within + 1, 3000, next));
    }
    assert_eq!(check_form(&job.bytes(), &written.bytes()), Ok(()));
    is_its_own_form(&job);
}

/// The answer to a job and the patch bytes.
fn answer_to(job: &[u8], pieces: usize) -> (Answer, Vec<u8>) {
    let mut patch = vec![0xC3; pieces];
    (solve(job, &mut patch), patch)
}

/// What the one reports, with the other's records walked, is right for the other.
#[track_caller]
fn carries_over(from: &(Answer, Vec<u8>), job: &[u8], to: &(Answer, Vec<u8>)) {
    let account = Account {
        records_walked: to.0.account.records_walked,
        ..from.0.account
    };
    let answer = Answer { account, ..from.0 };
    let before = vec![0xC3; from.1.len()];
    assert_eq!(checker::check(job, &before, &from.1, &answer), Ok(()));
}

/// Values, rows, placements and patch bytes carry over both ways; the records walked are
/// the form's C, and never more than the job's.
#[track_caller]
fn accounts_carry_over(job: &Job) {
    let (bytes, form) = (job.bytes(), standard_form(job));
    let [of_job, of_form] = [&bytes, &form].map(|bytes| answer_to(bytes, job.pieces.len()));
    assert_eq!((of_job.0.refusal, of_form.0.refusal), (0, 0));
    assert_eq!(of_job.1, of_form.1);
    carries_over(&of_job, &form, &of_form);
    carries_over(&of_form, &bytes, &of_job);
    let [walked, of_form] = [of_job, of_form].map(|(answer, _)| answer.account.records_walked);
    assert_eq!(of_form, i64::from(words_of(&form)[9]));
    assert!(of_form <= walked && of_form <= (job.rows.len() * job.effects.len()) as i64);
}

#[test]
fn accounts_are_those_of_the_form() {
    for (_, job) in jobs(100) {
        accounts_carry_over(&job);
    }
    for job in [spelled_job(), two_lane_job(), arch_job(), motorway_job()] {
        accounts_carry_over(&job);
    }
}

/// So it is with the stored cases that are accepted.
#[test]
fn stored_jobs_have_forms() {
    let mut written = 0;
    for case in store::cases() {
        let edition = Edition::of_words(&words_of(&case.job));
        let refused = solve(&case.job, &mut [0; 1000]).refusal != 0;
        if refused || edition == Some(Edition::Four) {
            continue;
        }
        let job = Job::decode(&words_of(&case.job));
        assert_eq!(check_form(&case.job, &standard_form(&job)), Ok(()));
        written += 1;
    }
    assert!(written > 1000, "{written}");
}
