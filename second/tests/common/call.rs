//! A kernel's call, to be tampered with and judged by the checker.

use second::account::{Governing, Lane, Traffic};
use second::checker::check;
use second::job::Job;
use second::{solve, Account, Answer};

/// What a kernel gave for a job, with the patch buffer before and after.
#[derive(Clone)]
pub struct Call {
    pub job: Vec<u8>,
    pub before: Vec<u8>,
    pub after: Vec<u8>,
    pub answer: Answer,
}

impl Call {
    pub fn new(job: &[u8], before: &[u8]) -> Call {
        let mut after = before.to_vec();
        let answer = solve(job, &mut after);
        Call {
            job: job.to_vec(),
            before: before.to_vec(),
            after,
            answer,
        }
    }

    pub fn of(job: &Job) -> Call {
        Call::new(&job.bytes(), &vec![0xC3; job.pieces.len() + 2])
    }

    pub fn check(&self) -> Result<(), String> {
        check(&self.job, &self.before, &self.after, &self.answer)
    }

    /// The same call with something changed.
    pub fn with(&self, change: impl Fn(&mut Call)) -> Call {
        let mut changed = self.clone();
        change(&mut changed);
        changed
    }
}

/// Loads a lane with this entry, centre and factor.
pub fn load(traffic: &mut Traffic, lane: usize, (entry, centre, factor): (u32, i64, i64)) {
    traffic.set |= 1 << lane;
    traffic.lanes[lane] = Lane {
        entry,
        centre,
        factor,
    };
}

/// A change of a call or of a part of it.
pub type Change<T = Call> = fn(&mut T);

/// A part of a call.
pub type Part<T> = fn(&mut Call) -> &mut T;

pub const NORMAL_GREATEST: Part<Traffic> = |call| &mut call.answer.account.normal_greatest;
pub const NORMAL_LEAST: Part<Traffic> = |call| &mut call.answer.account.normal_least;
pub const OVERLOAD_GREATEST: Part<Traffic> = |call| &mut call.answer.account.overload_greatest;
pub const OVERLOAD_LEAST: Part<Traffic> = |call| &mut call.answer.account.overload_least;
pub const OVERLOADS: [Part<Traffic>; 2] = [OVERLOAD_GREATEST, OVERLOAD_LEAST];

pub const SERVICE_GREATEST: Part<Governing> = |call| &mut call.answer.account.service.greatest;
pub const SERVICE_LEAST: Part<Governing> = |call| &mut call.answer.account.service.least;
pub const ULTIMATE_GREATEST: Part<Governing> = |call| &mut call.answer.account.ultimate.greatest;
pub const ULTIMATE_LEAST: Part<Governing> = |call| &mut call.answer.account.ultimate.least;

/// The call passes, and does so with each change.
#[track_caller]
pub fn takes(call: &Call, changes: &[(&str, Change)]) {
    takes_in(call, |call| call, changes);
}

/// The call passes, and does so with each change of its account.
#[track_caller]
pub fn takes_accounts(call: &Call, changes: &[(&str, Change<Account>)]) {
    takes_in(call, |call| &mut call.answer.account, changes);
}

#[track_caller]
fn takes_in<T>(call: &Call, part: Part<T>, changes: &[(&str, Change<T>)]) {
    assert_eq!(call.check(), Ok(()));
    for (what, change) in changes {
        let changed = call.with(|call| change(part(call)));
        assert_eq!(changed.check(), Ok(()), "{what}");
    }
}

/// The call passes, but each change is refused for a reason that has these words in it.
#[track_caller]
pub fn refuses(call: &Call, changes: &[(&str, Change)]) {
    refuses_in(call, |call| call, changes);
}

/// The call passes, but each change of its account is refused for a reason that has these
/// words in it.
#[track_caller]
pub fn refuses_accounts(call: &Call, changes: &[(&str, Change<Account>)]) {
    refuses_in(call, |call| &mut call.answer.account, changes);
}

#[track_caller]
fn refuses_in<T>(call: &Call, part: Part<T>, changes: &[(&str, Change<T>)]) {
    assert_eq!(call.check(), Ok(()));
    for (reason, change) in changes {
        refuses_part(call, part, reason, change);
    }
}

/// The call with a part of it changed is refused for a reason that has these words in it.
#[track_caller]
pub fn refuses_part<T>(call: &Call, part: Part<T>, reason: &str, change: impl Fn(&mut T)) {
    let fault = call.with(|call| change(part(call))).check();
    let fault = fault.expect_err(reason);
    assert!(fault.contains(reason), "not for {reason}, but {fault}");
}

/// The call with each of these centres in a lane is refused for a reason that has the
/// words beside it.
#[track_caller]
pub fn refuses_centres(call: &Call, table: &[(Part<Traffic>, usize, i64, &str)]) {
    assert_eq!(call.check(), Ok(()));
    for &(part, lane, centre, reason) in table {
        refuses_part(call, part, reason, |traffic| {
            traffic.lanes[lane].centre = centre
        });
    }
}
