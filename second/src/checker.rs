//! Judges an answer of any origin: every refusal, value, governing row, lane count, patch
//! byte and the records walked by equality with the definitions; every placement and
//! omission by the rules it must keep and the value it must give, since 01 leaves
//! equally good ones free. So is the k that 02 "Farm bridges" has shown.

use crate::account::{side_of, Account, Answer, Governing, State};
use crate::arrangement::{loaded_pieces, reported_placement, LoadedLane};
use crate::fraction::Fraction;
use crate::job::{Job, MAY_BE_LEFT_OUT, SERVICE, ULTIMATE};
use crate::line::{loaded_byte, longitudinal_effect};
use crate::loads::{Direction, Element, Live, Question};
use crate::solve::solve;
use crate::words;

/// Whether this answer is right for this job, with the patch buffer as it was
/// before and after the call; what is wrong first, where it isn't.
pub fn check(
    job: &[u8],
    patch_before: &[u8],
    patch_after: &[u8],
    answer: &Answer,
) -> Result<(), String> {
    let mut patch = patch_before.to_vec();
    let expected = solve(job, &mut patch);
    same("refusal", answer.refusal, expected.refusal)?;
    same("place", answer.place, expected.place)?;
    if expected.refusal != 0 {
        if answer.account != Account::default() {
            return Err("a refused job's account is not zero throughout".into());
        }
        if patch_after != patch_before {
            return Err("a refused job's patch buffer has changed".into());
        }
        return Ok(());
    }

    let job = Job::decode(&words::words_of(job));
    check_patch(&job, &patch, patch_after)?;
    let patch = &patch[..job.pieces.len()];
    check_account(&job, patch, &answer.account, &expected.account)
}

/// An accepted job's account, with its pieces' patch bytes.
fn check_account(
    job: &Job,
    patch: &[u8],
    account: &Account,
    expected: &Account,
) -> Result<(), String> {
    check_stand(job, patch, account, Direction::Raising)?;
    check_stand(job, patch, account, Direction::Lowering)?;
    for live in Live::BOTH {
        for question in Question::BOTH {
            check_traffic(job, patch, account, expected, live, question)?;
        }
    }
    check_state(job, account, expected, SERVICE)?;
    check_state(job, account, expected, ULTIMATE)?;
    check_lane_counts(account, expected)?;
    check_records_walked(job, account)
}

pub(crate) fn same<T: PartialEq + std::fmt::Display>(
    what: &str,
    found: T,
    due: T,
) -> Result<(), String> {
    if found == due {
        Ok(())
    } else {
        Err(format!("{what} is {found}, {due} is due"))
    }
}

/// The first N bytes are the pieces' patch bytes, the rest as before.
fn check_patch(job: &Job, due: &[u8], after: &[u8]) -> Result<(), String> {
    same("the patch buffer's length", after.len(), due.len())?;
    for (at, (&found, &due)) in after.iter().zip(due).enumerate() {
        let what = if at < job.pieces.len() {
            format!("patch byte {at}")
        } else {
            format!("byte {at}, past the patch,")
        };
        same(&what, found, due)?;
    }
    Ok(())
}

/// The raising stand gives the greatest longitudinal effect, the lowering one
/// the least, for both kinds of element and whether or not a lane uses it.
fn check_stand(
    job: &Job,
    patch: &[u8],
    account: &Account,
    direction: Direction,
) -> Result<(), String> {
    let name = match direction {
        Direction::Raising => "the raising stand",
        Direction::Lowering => "the lowering stand",
    };
    let stand = account.stand(direction);
    let Some(side) = side_of(stand.side) else {
        return Err(format!("{name} has side {}", stand.side));
    };
    for element in [Element::Hn, Element::Ho] {
        let standing = LoadedLane {
            element,
            loaded: loaded_pieces(patch, loaded_byte(direction), 1),
            left_axle: stand.station.into(),
            side,
            centre: 0,
            factor: 0,
        };
        let due = longitudinal_effect(job, element, direction);
        let found = standing.longitudinal_effect(job, 1);
        if found != Fraction::whole(due.into()) {
            return Err(format!(
                "{name} (station {}, {side:?}) gives {found:?} for {element:?}, {due} is due",
                stand.station
            ));
        }
    }
    Ok(())
}

/// A traffic value equals its definition, and its placement is lawful and
/// gives it.
fn check_traffic(
    job: &Job,
    patch: &[u8],
    account: &Account,
    expected: &Account,
    live: Live,
    question: Question,
) -> Result<(), String> {
    let name = format!("{live:?} {question:?}");
    let traffic = account.traffic(live, question);
    same(&name, traffic.value, expected.traffic(live, question).value)?;
    let in_placement = |fault: String| format!("{name}'s placement: {fault}");
    let arrangement = reported_placement(job, patch, account, traffic).map_err(in_placement)?;
    arrangement.lawful(job, live).map_err(in_placement)?;
    let given = arrangement.effect(job, live, question).round(question);
    same(
        &format!("{name}'s placement's effect"),
        given,
        traffic.value.into(),
    )
}

/// The lanes of each carriageway are those of its width.
fn check_lane_counts(account: &Account, expected: &Account) -> Result<(), String> {
    same("the lane count", account.first_lanes, expected.first_lanes)?;
    same(
        "the second carriageway's lane count",
        account.second_lanes,
        expected.second_lanes,
    )
}

/// Each row's chain counts, from the row's first record on.
fn check_records_walked(job: &Job, account: &Account) -> Result<(), String> {
    let lengths = job.rows.iter().map(|row| chain_length(job, row.first));
    same(
        "the number of records walked",
        account.records_walked,
        lengths.sum(),
    )
}

/// The length of the chain from this record, which has no return: the record and the
/// chain from its next; 0 has none.
fn chain_length(job: &Job, first: usize) -> i64 {
    match first {
        0 => 0,
        record => 1 + chain_length(job, job.records[record - 1].next),
    }
}

/// A state is none where it has no rows and only there; otherwise its values
/// and governing rows equal their definition, and what it leaves out may be
/// left out and gives the value.
fn check_state(job: &Job, account: &Account, expected: &Account, state: i64) -> Result<(), String> {
    let name = if state == SERVICE {
        "service"
    } else {
        "ultimate"
    };
    let (found, due) = (account.state(state), expected.state(state));
    same(
        &format!("whether {name} has rows"),
        found.present,
        due.present,
    )?;
    if due.present == 0 {
        return if *found == State::default() {
            Ok(())
        } else {
            Err(format!("{name} is none but not zero throughout"))
        };
    }
    for question in Question::BOTH {
        let name = format!("{name} {question:?}");
        let (found, due) = (found.governing(question), due.governing(question));
        same(&name, found.value, due.value)?;
        same(&format!("{name}'s row"), found.row, due.row)?;
        check_omissions(job, account, found, question)
            .map_err(|fault| format!("{name}'s row {}: {fault}", found.row))?;
    }
    Ok(())
}

/// The row with the k shown, what it leaves out and the traffic as reported
/// gives the state's value.
fn check_omissions(
    job: &Job,
    account: &Account,
    governing: &Governing,
    question: Question,
) -> Result<(), String> {
    let combinations = job.combinations();
    let row = &combinations[governing.row as usize - 1];
    let mut variants = row.variants.iter();
    let Some(variant) = variants.find(|variant| variant.k == governing.k) else {
        return Err(format!("it has no k of {}", governing.k));
    };
    let mut not_on_chain = governing.omitted;
    let mut value = 0_i128;
    for part in &variant.parts {
        let effect = job.effects[part.effect - 1];
        let bit = 1_u32 << (part.effect - 1);
        not_on_chain &= !bit;
        if governing.omitted & bit == 0 {
            let in_newtons = i128::from(effect.value) * i128::from(job.edition.effect_unit());
            value += i128::from(part.factor) * in_newtons;
        } else if effect.mark != MAY_BE_LEFT_OUT {
            return Err(format!("effect {} may not be left out", part.effect));
        }
    }
    if not_on_chain != 0 {
        return Err(format!(
            "effects {not_on_chain:#b} are left out but not on its chain"
        ));
    }
    match (governing.traffic_left_out, row.live) {
        (0, None) | (1, Some(_)) => {}
        (0, Some(live)) => {
            let traffic = account.traffic(live, question).value;
            value += i128::from(row.live_factor) * i128::from(traffic);
        }
        (1, None) => return Err("it has no traffic to leave out".into()),
        (number, _) => return Err(format!("its traffic left out is {number}")),
    }
    same("what it comes to", value, i128::from(governing.value))
}
