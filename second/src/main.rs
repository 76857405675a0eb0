//! 01 "The host and the program": reads a job from standard input and prints
//! its four lines, or `refused NUMBER at PLACE`. Further commands are in USAGE,
//! among them 02 "Rating trucks" and "One way to write a job".

use second::form::{self, WriteAnswer, WriteCase};
use second::generator::{self, Stream};
use second::job::Job;
use second::train::page::truck_line;
use second::train::{self, Axle, TrainCase, REPORT_BYTES};
use second::{
    arch_job, deck_job, farm_job, job_a, line, motorway_job, report, sampler, solve, spelled_job,
    store, words,
};
use std::fs;
use std::io::{self, Read, Write};
use std::path::Path;
use std::process::ExitCode;

const USAGE: &str = "usage:
  second < JOB                     print the job's four lines, or its refusal
  second account < JOB             print the whole account, or the refusal
  second beat SEED TRIES < JOB     try to beat the job's account by random draws
  second job-a                     write Job A's bytes to standard output
  second farm-job                  write the example farm job's bytes to standard
                                   output
  second arch-job                  write the bytes of edition 2's example to
                                   standard output
  second deck-job                  write the bytes of the example with four lanes
                                   to standard output
  second motorway-job              write the bytes of edition 3's example to
                                   standard output
  second train H MODE LOAD@AT.. < LINE
                                   print the rating of a train on a line's
                                   section, or the refusal
  second truck-line                write the truck line's section to standard
                                   output; its H is 2
  second write < JOB               write the bytes of the job's standard form to
                                   standard output, or print the refusal
  second write-page < JOB          print the sizes of the form and of the job, and
                                   each row's factors, or the refusal
  second spelled-job               write the bytes of the example of a job to be
                                   written to standard output
  second generate STREAM SEED COUNT DIR
                                   write COUNT cases of STREAM from SEED on into
                                   DIR, as SEED.job and SEED.patch; STREAM is 1, 2,
                                   3 or 4, as its edition, or spans
  second store DIR                 write the cases to store into DIR/jobs, and
                                   what is due for each into DIR/expected
";

/// The most bytes of standard input that are read.
const MOST_INPUT_BYTES: u64 = 32768;

/// The patch buffer the program lends: a byte for each of the most pieces.
const PATCH_BYTES: usize = 1000;

/// A piece of a line's section.
const PIECE_BYTES: u64 = 8;

enum Failure {
    Usage,
    Other(String),
}

fn main() -> ExitCode {
    let arguments: Vec<String> = std::env::args_os()
        .skip(1)
        .map(|argument| argument.to_string_lossy().into_owned())
        .collect();
    let arguments: Vec<&str> = arguments.iter().map(String::as_str).collect();
    match run(&arguments) {
        Ok(()) => ExitCode::SUCCESS,
        Err(Failure::Usage) => {
            eprint!("{USAGE}");
            ExitCode::from(2)
        }
        Err(Failure::Other(message)) => {
            eprintln!("second: {message}");
            ExitCode::FAILURE
        }
    }
}

fn run(arguments: &[&str]) -> Result<(), Failure> {
    match arguments {
        [] => {
            let answer = solve(&read_input()?, &mut [0; PATCH_BYTES]);
            write_out(report::report(&answer).as_bytes())
        }
        ["account"] => account(),
        ["beat", seed, tries] => {
            let tries = u32::try_from(number(tries)?).map_err(|_| Failure::Usage)?;
            beat(number(seed)?, tries)
        }
        ["job-a"] => write_out(&job_a::job_a().bytes()),
        ["farm-job"] => write_out(&farm_job::farm_job().bytes()),
        ["arch-job"] => write_out(&arch_job::arch_job().bytes()),
        ["deck-job"] => write_out(&deck_job::deck_job().bytes()),
        ["motorway-job"] => write_out(&motorway_job::motorway_job().bytes()),
        ["train", h, mode, axles @ ..] => train(number(h)?, number(mode)?, axles),
        ["truck-line"] => write_out(&line::section_bytes(&truck_line())),
        ["write"] => write_form(),
        ["write-page"] => {
            let job = read_input()?;
            write_out(form::page::page(&job, &written(&job)).as_bytes())
        }
        ["spelled-job"] => write_out(&spelled_job::spelled_job().bytes()),
        ["generate", stream, seed, count, directory] => generate(
            Stream::of_name(stream).ok_or(Failure::Usage)?,
            number(seed)?,
            number(count)?,
            Path::new(directory),
        ),
        ["store", directory] => store(Path::new(directory)),
        _ => Err(Failure::Usage),
    }
}

fn number(argument: &str) -> Result<u64, Failure> {
    argument.parse().map_err(|_| Failure::Usage)
}

fn account() -> Result<(), Failure> {
    let job = read_input()?;
    let answer = solve(&job, &mut [0; PATCH_BYTES]);
    if answer.refusal != 0 {
        return write_out(report::report(&answer).as_bytes());
    }
    write_out(report::page(&answer.account).as_bytes())
}

fn beat(seed: u64, tries: u32) -> Result<(), Failure> {
    let job = read_input()?;
    let answer = solve(&job, &mut [0; PATCH_BYTES]);
    if answer.refusal != 0 {
        return write_out(report::report(&answer).as_bytes());
    }
    let job = Job::decode(&words::words_of(&job));
    match sampler::first_beating(&job, &answer.account, seed, tries) {
        None => write_out(format!("not beaten in {tries} tries\n").as_bytes()),
        Some(beating) => Err(Failure::Other(format!("beaten by {beating:#?}"))),
    }
}

fn train(h: u64, mode: u64, axles: &[&str]) -> Result<(), Failure> {
    let axles: Result<Vec<Axle>, Failure> = axles.iter().map(|argument| axle(argument)).collect();
    let line = read_input()?;
    let case = TrainCase {
        h,
        pieces: line.len() as u64 / PIECE_BYTES,
        line,
        train: axles?,
        mode,
        report: vec![0; REPORT_BYTES],
    };
    write_out(train::page::page(&train::rate(&case)).as_bytes())
}

/// An axle as LOAD@AT.
fn axle(argument: &str) -> Result<Axle, Failure> {
    let (load, at) = argument.split_once('@').ok_or(Failure::Usage)?;
    let number = |argument: &str| argument.parse().map_err(|_| Failure::Usage);
    Ok(Axle {
        load: number(load)?,
        at: number(at)?,
    })
}

/// What a call that lends an output buffer of as many bytes as are read gives: no form is
/// longer.
fn written(job: &[u8]) -> WriteAnswer {
    form::write(&WriteCase {
        job: job.to_vec(),
        form: vec![0; MOST_INPUT_BYTES as usize],
        report: vec![0; form::REPORT_BYTES],
    })
}

fn write_form() -> Result<(), Failure> {
    let answer = written(&read_input()?);
    if answer.refusal != 0 {
        return write_out(report::refusal_line(answer.refusal, answer.place).as_bytes());
    }
    write_out(&answer.form)
}

fn generate(stream: Stream, first: u64, count: u64, directory: &Path) -> Result<(), Failure> {
    let past_last = first.checked_add(count).ok_or(Failure::Usage)?;
    for seed in first..past_last {
        let case = generator::case(stream, seed);
        for (ending, bytes) in [("job", &case.job), ("patch", &case.patch)] {
            write_file(&directory.join(format!("{seed}.{ending}")), bytes)?;
        }
    }
    Ok(())
}

fn store(directory: &Path) -> Result<(), Failure> {
    let stored = store::stored();
    write_file(&directory.join("jobs"), &stored.jobs)?;
    write_file(&directory.join("expected"), stored.expected.as_bytes())
}

fn write_file(path: &Path, bytes: &[u8]) -> Result<(), Failure> {
    fs::write(path, bytes)
        .map_err(|error| Failure::Other(format!("cannot write {}: {error}", path.display())))
}

fn read_input() -> Result<Vec<u8>, Failure> {
    let mut input = Vec::new();
    io::stdin()
        .lock()
        .take(MOST_INPUT_BYTES)
        .read_to_end(&mut input)
        .map_err(|error| Failure::Other(format!("cannot read standard input: {error}")))?;
    Ok(input)
}

fn write_out(bytes: &[u8]) -> Result<(), Failure> {
    let mut output = io::stdout().lock();
    output
        .write_all(bytes)
        .and_then(|()| output.flush())
        .map_err(|error| Failure::Other(format!("cannot write standard output: {error}")))
}
