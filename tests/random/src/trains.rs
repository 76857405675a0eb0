//! `hnho_train` behind a safe function, and what the second implementation says of its reports.

use second::line::section_bytes;
use second::train::page::truck_line;
use second::train::{self, checker, TrainCase, REPORT_BYTES};

/// `struct hnho_axle`
#[repr(C)]
#[derive(Debug, Clone, Copy, PartialEq, Eq)]
struct Axle {
    load: u32,
    at: u32,
}

extern "C" {
    fn hnho_train(
        h: usize,
        pieces: usize,
        line: *const u8,
        line_bytes: usize,
        train: *const Axle,
        axles: usize,
        mode: usize,
        report: *mut u8,
        report_bytes: usize,
    ) -> u64;
}

/// The kernel's result for a case, and the report buffer after the call.
pub fn rate(case: &TrainCase) -> (u64, Vec<u8>) {
    let axles = case.train.iter().map(|axle| Axle {
        load: axle.load,
        at: axle.at,
    });
    let train: Vec<Axle> = axles.collect();
    let mut report = case.report.clone();
    // Each pointer is good for its length, and the report is a buffer of its own.
    let result = unsafe {
        hnho_train(
            case.h as usize,
            case.pieces as usize,
            case.line.as_ptr(),
            case.line.len(),
            train.as_ptr(),
            train.len(),
            case.mode as usize,
            report.as_mut_ptr(),
            report.len(),
        )
    };
    (result, report)
}

/// A case as tests/train_case.h reads it.
pub fn case_bytes(case: &TrainCase) -> Vec<u8> {
    let (line, axles) = (case.line.len() as u64, case.train.len() as u64);
    let report = case.report.len() as u64;
    let head = [case.h, case.pieces, line, axles, case.mode, report];
    let train = case.train.iter().flat_map(|axle| [axle.load, axle.at]);
    let mut bytes: Vec<u8> = head.iter().flat_map(|n| n.to_le_bytes()).collect();
    bytes.extend(&case.line);
    bytes.extend(train.flat_map(|n| n.to_le_bytes()));
    bytes.extend(&case.report);
    bytes
}

/// The example host's truck on its line.
pub fn truck(mode: u64) -> TrainCase {
    let axles = [(60, 0), (120, 36), (120, 48)];
    TrainCase {
        h: 2,
        pieces: 50,
        line: section_bytes(&truck_line()),
        train: axles.map(|(load, at)| train::Axle { load, at }).to_vec(),
        mode,
        report: vec![0xa5; REPORT_BYTES],
    }
}

/// The kernel's result and report for a case, where both are right; else what is wrong first.
pub fn judged(case: &TrainCase) -> Result<(u64, Vec<u8>), String> {
    let (result, report) = rate(case);
    checker::check(case, &report, result)?;
    Ok((result, report))
}
