//! The call that takes a job to its account, or to a refusal.

use crate::account::{self, Account, Answer};
use crate::job::{self, Job};
use crate::lanes::lane_counts;
use crate::line;
use crate::loads::{Direction, Live, Question};
use crate::refusals;
use crate::rows::{limit_state, records_walked};
use crate::traffic::{traffic_value, LongitudinalEffects};
use crate::words;

/// Answers a job. The patch buffer is written only where the job is accepted,
/// and then only its first N bytes.
pub fn solve(job: &[u8], patch: &mut [u8]) -> Answer {
    if let Some(refusal) = refusals::refusal(job, patch.len()) {
        return Answer {
            refusal: refusal.number,
            place: refusal.place,
            account: Account::default(),
        };
    }
    let job = Job::decode(&words::words_of(job));
    for (byte, piece) in patch.iter_mut().zip(&job.pieces) {
        *byte = line::patch_byte(piece);
    }
    Answer {
        refusal: 0,
        place: 0,
        account: account_of(&job),
    }
}

/// The account of an accepted job.
pub fn account_of(job: &Job) -> Account {
    let longitudinal = LongitudinalEffects::of(job);
    let traffic = |live, question| traffic_value(job, &longitudinal, live, question);
    let [first_lanes, second_lanes] = lane_counts(job).map(|lanes| lanes as u32);
    let mut account = Account {
        normal_greatest: traffic(Live::Normal, Question::Greatest),
        normal_least: traffic(Live::Normal, Question::Least),
        overload_greatest: traffic(Live::Overload, Question::Greatest),
        overload_least: traffic(Live::Overload, Question::Least),
        raising: stand(job, Direction::Raising),
        lowering: stand(job, Direction::Lowering),
        first_lanes,
        second_lanes,
        records_walked: records_walked(job),
        ..Account::default()
    };
    let value = |live, question| account.traffic(live, question).value;
    let service = limit_state(job, job::SERVICE, value);
    let ultimate = limit_state(job, job::ULTIMATE, value);
    account.service = service;
    account.ultimate = ultimate;
    account
}

fn stand(job: &Job, direction: Direction) -> account::Stand {
    let stand = line::best_stand(job, direction);
    account::Stand {
        station: stand.station,
        side: account::side_number(stand.side),
    }
}
