//! The kernel as a host sees it: `hnho_solve`, `hnho_read_account`, `hnho_train` and `hnho_write` of include/hnho.h behind safe functions,
//! and what the second implementation says of their answers.

pub mod forms;
pub mod header;
pub mod trains;

pub use header::ACCOUNT_BYTES;
use second::account::{Account, Answer, Governing, Stand, State, Traffic};
use second::checker;

extern "C" {
    fn hnho_solve(
        job: *const u8,
        job_bytes: usize,
        patch: *mut u8,
        patch_bytes: usize,
        account: *mut u8,
        account_bytes: usize,
    ) -> u64;
}

/// Calls the kernel with buffers of the caller's; the result as the header says.
pub fn call(job: &[u8], patch: &mut [u8], account: &mut [u8]) -> u64 {
    // Each pointer is good for its length, and the borrows keep the buffers apart.
    unsafe {
        hnho_solve(
            job.as_ptr(),
            job.len(),
            patch.as_mut_ptr(),
            patch.len(),
            account.as_mut_ptr(),
            account.len(),
        )
    }
}

/// The kernel's answer to a job in document 01's terms, of what the header's reader takes out of the account.
pub fn solve(job: &[u8], patch: &mut [u8]) -> Answer {
    let mut bytes = [0xa5u8; ACCOUNT_BYTES];
    let result = call(job, patch, &mut bytes);
    Answer {
        refusal: result & 255,
        place: result >> 8,
        account: account(&header::read(&bytes)),
    }
}

/// The kernel's answer to a job, where every number of it and every patch byte is right; else what is wrong first.
pub fn judged(job: &[u8], patch: &[u8]) -> Result<Answer, String> {
    let mut after = patch.to_vec();
    let answer = solve(job, &mut after);
    checker::check(job, patch, &after, &answer)?;
    Ok(answer)
}

fn account(read: &header::Account) -> Account {
    Account {
        normal_greatest: traffic(read.normal_greatest, &read.normal_greatest_placement),
        normal_least: traffic(read.normal_least, &read.normal_least_placement),
        overload_greatest: traffic(read.overload_greatest, &read.overload_greatest_placement),
        overload_least: traffic(read.overload_least, &read.overload_least_placement),
        raising: stand(&read.raising),
        lowering: stand(&read.lowering),
        service: state(&read.service),
        ultimate: state(&read.ultimate),
        first_lanes: small(read.first_lanes),
        second_lanes: small(read.second_lanes),
        records_walked: read.records_walked,
    }
}

fn small(number: i64) -> u32 {
    u32::try_from(number).expect("a number from 0 to 2^32 - 1")
}

fn traffic(value: i64, placement: &header::Placement) -> Traffic {
    let mut traffic = Traffic {
        value,
        set: small(placement.set),
        ..Traffic::default()
    };
    for (lane, read) in traffic.lanes.iter_mut().zip(&placement.lane) {
        lane.entry = small(read.entry);
        lane.centre = read.centre;
        lane.factor = read.factor;
    }
    traffic
}

fn stand(position: &header::Position) -> Stand {
    Stand {
        station: position.station,
        side: small(position.side),
    }
}

fn state(read: &header::State) -> State {
    State {
        present: small(read.reported),
        greatest: governing(&read.greatest),
        least: governing(&read.least),
    }
}

fn governing(read: &header::Governing) -> Governing {
    Governing {
        value: read.value,
        row: small(read.row),
        omitted: small(read.left_out),
        traffic_left_out: small(read.unladen),
        k: small(read.k),
    }
}

/// A number that the environment gives by this name, else the default.
pub fn asked(name: &str, default: u64) -> u64 {
    match std::env::var(name) {
        Ok(text) => text
            .parse()
            .unwrap_or_else(|_| panic!("{name} is not a number: {text}")),
        Err(_) => default,
    }
}
