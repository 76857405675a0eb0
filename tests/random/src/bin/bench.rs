//! Time per job, per train and per form of the kernel and of the second implementation, side by side in one run.
//! `bench cases DIR` writes what it measures instead. The buffers are not cleared between calls.

use random::trains::{case_bytes, rate, truck};
use random::{call, forms};
use second::form::WriteCase;
use second::train::{Axle, TrainCase, REPORT_BYTES};
use second::words::bytes_of;
use std::hint::black_box;
use std::time::Instant;

/// A line's words, up to `most` away from 0; signs change every 7 pieces.
fn line(pieces: i32, most: i32) -> Vec<i32> {
    let ordinates = |i: i32| {
        let sign = if i / 7 % 2 == 0 { 1 } else { -1 };
        [sign * (i * 37 % most + 1), sign * (i * 53 % most + 1)]
    };
    (0..pieces).flat_map(ordinates).collect()
}

/// 12 axles over 500 dm on 1000 pieces of 1 dm.
fn largest_train(mode: u64) -> TrainCase {
    let axle = |i: u32| Axle {
        load: 400 - i,
        at: 500 * i / 11,
    };
    TrainCase {
        h: 1,
        pieces: 1000,
        line: bytes_of(&line(1000, 5000)),
        train: (0..12).map(axle).collect(),
        mode,
        report: vec![0; REPORT_BYTES],
    }
}

/// The widest carriageway, of five lanes, the closest transverse ordinates and the largest tables.
const WIDTH: i32 = 2079;
const SPACING: i32 = 10;
const EFFECTS: i32 = 16;
const ROWS: i32 = 32;
const RECORDS: i32 = 512;

/// The transverse ordinates of a carriageway; `step` tells two of them apart.
fn across(step: i32) -> impl Iterator<Item = i32> {
    let spaces = (WIDTH + SPACING - 1) / SPACING;
    (0..=spaces).map(move |i| i * step % 2001 - 1000)
}

/// An effect's value in kN·U, and its mark.
fn effect(e: i32) -> (i32, i32) {
    (e * 60_000_000 - 450_000_000, 1 + e % 2)
}

/// The rows, each with a chain of as many records as any other's, and the records.
fn table() -> Vec<i32> {
    let mut words = Vec::new();
    let length = RECORDS / ROWS;
    for r in 0..ROWS {
        words.extend([1 + r % 2, 1 + r / 2 % 2, 1500, r * length + 1]);
    }
    for c in 1..=RECORDS {
        let next = if c % length == 0 { 0 } else { c + 1 };
        words.extend([(c - 1) % length + 1, 1000, next]);
    }
    words
}

/// The largest tables over N pieces of 1 dm: five lanes, 16 effects, 32 rows, 512 records.
fn full(pieces: i32) -> Vec<u8> {
    let mut words = vec![
        1, 1, pieces, SPACING, WIDTH, 1, 1300, EFFECTS, ROWS, RECORDS,
    ];
    words.extend(line(pieces, 5000));
    words.extend(across(71));
    for (value, mark) in (0..EFFECTS).map(effect) {
        words.extend([value, mark]);
    }
    words.extend(table());
    bytes_of(&words)
}

/// The longest job of edition 3: the same with ten lanes, on two carriageways.
fn full_on_two_carriageways() -> Vec<u8> {
    let pieces = 1000;
    let mut words = vec![
        3, 1, pieces, SPACING, WIDTH, 1, 1300, EFFECTS, ROWS, RECORDS, 0, 0, WIDTH,
    ];
    words.extend(line(pieces, 500));
    words.extend(across(71));
    words.extend(across(89));
    for (value, mark) in (0..EFFECTS).map(effect) {
        let in_newtons = 1000 * i64::from(value);
        words.extend([in_newtons as i32, (in_newtons >> 32) as i32, mark]);
    }
    words.extend(table());
    bytes_of(&words)
}

/// One piece, one lane, one row, no effect.
fn small() -> Vec<u8> {
    let mut words = vec![1, 50, 1, 50, 300, 2, 0, 0, 1, 0, 10, 10];
    words.extend([1000; 7]);
    words.extend([1, 1, 1350, 0]);
    bytes_of(&words)
}

/// Nanoseconds per call, the least of five runs.
fn time(mut once: impl FnMut(), calls: u32) -> f64 {
    (0..5)
        .map(|_| {
            let start = Instant::now();
            for _ in 0..calls {
                once();
            }
            start.elapsed().as_nanos() as f64 / f64::from(calls)
        })
        .fold(f64::INFINITY, f64::min)
}

fn main() {
    let jobs = [
        ("small (N 1)", small(), 20_000),
        (
            "typical (Job A, N 20)",
            second::job_a::job_a().bytes(),
            20_000,
        ),
        (
            "farm bridge (the example, N 10)",
            second::farm_job::farm_job().bytes(),
            20_000,
        ),
        (
            "arch (the example, N 20)",
            second::arch_job::arch_job().bytes(),
            20_000,
        ),
        (
            "arch with spans by sign",
            second::arch_job::arch_job().with_spans(240, 270).bytes(),
            20_000,
        ),
        (
            "motorway (the example, N 14)",
            second::motorway_job::motorway_job().bytes(),
            20_000,
        ),
        ("N 250, full tables", full(250), 1_000),
        ("N 500, full tables", full(500), 1_000),
        ("largest (N 1000, full tables)", full(1000), 1_000),
        (
            "largest with ten lanes (N 1000)",
            full_on_two_carriageways(),
            1_000,
        ),
    ];
    let trains = [
        ("truck (3 axles, N 50)", truck(1), 20_000),
        ("largest train, mode 1", largest_train(1), 100),
        ("largest train, mode 2", largest_train(2), 100),
    ];
    let written = [
        ("form of Job A", second::job_a::job_a().bytes(), 20_000),
        (
            "form of the spelled job",
            second::spelled_job::spelled_job().bytes(),
            20_000,
        ),
        ("form of the largest", full(1000), 1_000),
        (
            "form of the largest, ten lanes",
            full_on_two_carriageways(),
            1_000,
        ),
    ];
    let arguments: Vec<String> = std::env::args().skip(1).collect();
    if let [command, folder] = arguments.as_slice() {
        assert_eq!(command, "cases", "usage: bench [cases DIR]");
        for (number, (_, job, _)) in jobs.iter().enumerate() {
            write(&format!("{folder}/{number}.job"), job);
        }
        for (number, (_, train, _)) in trains.iter().enumerate() {
            write(&format!("{folder}/{number}.train"), &case_bytes(train));
        }
        for (number, (_, job, _)) in written.iter().enumerate() {
            write(&format!("{folder}/{number}.form"), job);
        }
        return;
    }
    println!(
        "{:32} {:>12} {:>12} {:>8}",
        "job, train or form", "kernel ns", "second ns", "ratio"
    );
    for (name, job, calls) in &jobs {
        let mut patch = [0u8; 1000];
        let mut account = [0u8; random::ACCOUNT_BYTES];
        let result = call(job, &mut patch, &mut account);
        assert_eq!(result, 0, "{name} is refused");
        let kernel = time(
            || {
                black_box(call(black_box(job), &mut patch, &mut account));
            },
            *calls,
        );
        let second = time(
            || {
                black_box(second::solve(black_box(job), &mut patch));
            },
            *calls / 10,
        );
        print(name, kernel, second);
    }
    for (name, train, calls) in &trains {
        assert_eq!(rate(train).0, 0, "{name} is refused");
        let kernel = time(
            || {
                black_box(rate(black_box(train)));
            },
            *calls,
        );
        let second = time(
            || {
                black_box(second::train::call(black_box(train)));
            },
            *calls / 10,
        );
        print(name, kernel, second);
    }
    for (name, job, calls) in &written {
        time_form(name, job, *calls);
    }
}

/// Writing the standard form of a job.
fn time_form(name: &str, job: &[u8], calls: u32) {
    let mut case = WriteCase {
        job: job.to_vec(),
        form: vec![0; forms::MOST_FORM_BYTES],
        report: vec![0; second::form::REPORT_BYTES],
    };
    assert_eq!(forms::write(&case).0, 0, "{name} is refused");
    let second = time(
        || {
            black_box(second::form::call(black_box(&case)));
        },
        calls / 10,
    );
    let (form, report) = (&mut case.form, &mut case.report);
    let kernel = time(
        || {
            black_box(forms::call(black_box(job), form, report));
        },
        calls,
    );
    print(name, kernel, second);
}

fn print(name: &str, kernel: f64, second: f64) {
    println!(
        "{name:32} {kernel:12.0} {second:12.0} {:8.1}",
        second / kernel
    );
}

fn write(path: &str, bytes: &[u8]) {
    std::fs::write(path, bytes).unwrap_or_else(|fault| panic!("{path}: {fault}"));
}
