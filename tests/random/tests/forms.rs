//! The kernel writes the standard form of generated jobs as the second implementation does; what carries over to a form does, and forms
//! are equal exactly where jobs agree.

use random::forms::{form_of, judged, write, MOST_FORM_BYTES};
use random::{asked, solve};
use second::account::{Account, Answer, Governing};
use second::checker;
use second::form::agree::{agree, factor};
use second::form::{WriteCase, REPORT_BYTES};
use second::generator::form::{case, differing_in, respelled, sound_job, Difference};
use second::generator::Stream;
use second::job::Job;
use second::rng::Rng;
use second::spelled_job::spelled_job;
use second::store;
use second::words::words_of;

/// The streams of the editions that are written.
const WRITTEN: [Stream; 4] = [Stream::One, Stream::Two, Stream::Spans, Stream::Three];

/// The refusals of the call, and 0 for a form.
const MET: [usize; 10] = [0, 1, 2, 3, 4, 5, 6, 7, 8, 12];

/// Checks FORMS cases from SEED on (environment, with these defaults).
#[test]
fn kernel_and_second_implementation_agree() {
    let first = asked("SEED", 0);
    let count = asked("FORMS", 20_000);
    let mut refused = [0u64; 13];
    for seed in first..first + count {
        let (result, _, _) =
            judged(&case(seed)).unwrap_or_else(|fault| panic!("form {seed}: {fault}"));
        refused[(result % 256) as usize] += 1;
    }
    println!("{count} calls from seed {first}, by refusal {refused:?}");
    if count >= 10_000 {
        let met = |refusal: &usize| refused[*refusal] > 0;
        assert!(MET.iter().all(met), "a refusal was never met: {refused:?}");
    }
}

/// The stored jobs, with room for every form and with none.
#[test]
fn kernel_and_second_implementation_agree_on_stored_cases() {
    let mut written = 0;
    for (number, stored) in store::cases().enumerate() {
        for room in [MOST_FORM_BYTES, 0] {
            let (result, _, _) = judged(&WriteCase {
                job: stored.job.clone(),
                form: vec![0xa5; room],
                report: vec![0xa5; REPORT_BYTES],
            })
            .unwrap_or_else(|fault| panic!("stored case {number}, {room} bytes: {fault}"));
            written += u32::from(result == 0);
        }
    }
    assert!(written > 1_000, "only {written} forms were written");
}

/// A sound job of each stream for each of so many seeds, with a generator for more.
fn each_sound_job(count: u64, mut hold: impl FnMut(&str, &Job, &mut Rng)) {
    for (seed, stream) in (0..count).flat_map(|seed| WRITTEN.map(|stream| (seed, stream))) {
        let mut rng = Rng::new(seed);
        let job = sound_job(&mut rng, stream);
        hold(&format!("{stream:?}, seed {seed}"), &job, &mut rng);
    }
}

/// The form's bytes of a sound job.
fn form(name: &str, job: &Job) -> Vec<u8> {
    form_of(&job.bytes()).unwrap_or_else(|result| panic!("{name}: result {result}"))
}

/// A job's answer and patch bytes.
fn solved(job: &[u8], pieces: usize) -> (Answer, Vec<u8>) {
    let mut patch = vec![0xa5; pieces];
    (solve(job, &mut patch), patch)
}

/// What is left out of a row, but for the effects whose factor is 0.
fn without_zeros(job: &Job, governing: &mut Governing) {
    let Some(row) = job.rows.get(governing.row.wrapping_sub(1) as usize) else {
        return;
    };
    for effect in (1..=job.effects.len()).filter(|&effect| factor(job, row, effect) == 0) {
        governing.omitted &= !(1 << (effect - 1));
    }
}

/// A job's account as one of its form: with the form's records walked, and without omissions of factors that are 0.
fn carried(job: &Job, account: &Account, records: i64) -> Account {
    let mut account = account.clone();
    account.records_walked = records;
    for state in [&mut account.service, &mut account.ultimate] {
        without_zeros(job, &mut state.greatest);
        without_zeros(job, &mut state.least);
    }
    account
}

/// Values, governing rows and patch bytes are equal; the job's account, its placements, stands and omissions with it, is one of the
/// form, and the form's one of the job, but for the records walked. CARRIED jobs of each stream (environment).
#[test]
fn accounts_carry_over() {
    each_sound_job(asked("CARRIED", 1_000), |name, job, _| {
        let (bytes, form) = (job.bytes(), form(name, job));
        let pieces = job.pieces.len();
        let ((of_job, job_patch), (of_form, form_patch)) =
            (solved(&bytes, pieces), solved(&form, pieces));
        assert_eq!(job_patch, form_patch, "{name}");
        let records = Job::decode(&words_of(&form)).records.len() as i64;
        assert_eq!(of_form.account.records_walked, records, "{name}");
        let before = vec![0xa5; pieces];
        for (account, bytes, walked) in [
            (&of_job.account, &form, records),
            (&of_form.account, &bytes, of_job.account.records_walked),
        ] {
            let answer = Answer {
                refusal: 0,
                place: 0,
                account: carried(job, account, walked),
            };
            checker::check(bytes, &before, &job_patch, &answer)
                .unwrap_or_else(|fault| panic!("{name}: {fault}"));
        }
    });
}

/// A job spelled anew has the same form, and a form is its own. PAIRS jobs of each stream (environment).
#[test]
fn forms_of_jobs_that_agree_are_equal() {
    each_sound_job(asked("PAIRS", 2_000), |name, job, rng| {
        let due = form(name, job);
        let other = respelled(rng, job);
        assert!(agree(job, &other), "{name}");
        assert_eq!(form(name, &other), due, "{name}");
        assert_eq!(form_of(&due), Ok(due), "{name}: written again");
    });
}

/// A job with one word that matters another has another form. PAIRS jobs of each stream (environment), four kinds of word drawn for
/// each.
#[test]
fn forms_of_jobs_that_differ_are_not_equal() {
    let mut pairs = [0u64; Difference::ALL.len()];
    each_sound_job(asked("PAIRS", 2_000), |name, job, rng| {
        for _ in 0..4 {
            let at = rng.index(pairs.len());
            let kind = Difference::ALL[at];
            if let Some(other) = differing_in(rng, job, kind) {
                assert!(!agree(job, &other), "{name}");
                assert!(
                    form(name, job) != form(name, &other),
                    "{name}: equal forms, {kind:?}"
                );
                pairs[at] += 1;
            }
        }
    });
    println!("pairs that differ, by kind {pairs:?}");
    assert!(pairs.iter().all(|&pairs| pairs > 0), "{pairs:?}");
}

/// The call that writes the example's form into buffers of these lengths.
fn spelled(form_bytes: usize, report_bytes: usize) -> WriteCase {
    WriteCase {
        job: spelled_job().bytes(),
        form: vec![0xa5; form_bytes],
        report: vec![0xc3; report_bytes],
    }
}

/// Every length of the output buffer up to the form's is refused with it as the place; from there on the form is written.
#[test]
fn output_buffers_of_every_length() {
    let due = form("the spelled job", &spelled_job()).len();
    for length in 0..due + 40 {
        let (result, _, _) = judged(&spelled(length, REPORT_BYTES))
            .unwrap_or_else(|fault| panic!("{length} bytes: {fault}"));
        let expected = if length < due { 256 * due + 12 } else { 0 };
        assert_eq!(result, expected as u64, "{length} bytes");
    }
}

#[test]
fn short_report_buffers_are_cleared() {
    let mut jobs = vec![spelled_job().bytes(), vec![], vec![0xff; 99]];
    jobs.extend((0..200).map(|seed| case(seed).job));
    for job in jobs {
        for length in 0..REPORT_BYTES {
            let case = WriteCase {
                job: job.clone(),
                ..spelled(job.len(), length)
            };
            assert_eq!(write(&case), (2, case.form.clone(), vec![0; length]));
        }
    }
}

#[test]
fn bytes_past_form_and_report_stay() {
    for seed in 0..2_000 {
        let case = case(seed);
        let kept = form_of(&case.job).map_or(0, |form| form.len());
        let case = WriteCase {
            form: vec![0xa5; kept + 16],
            report: vec![0xc3; REPORT_BYTES + 16],
            ..case
        };
        let (_, form, report) = write(&case);
        assert_eq!(form[kept..], [0xa5; 16], "seed {seed}");
        assert_eq!(report[REPORT_BYTES..], [0xc3; 16], "seed {seed}");
    }
}
