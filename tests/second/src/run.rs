//! Calls one after the other on one sheet (document 01, "Runs"; document 02,
//! C-14: balance and settle stand for planning, C-17: starting a batch).

use crate::plan::{balance, Balanced};
use crate::settle::{review, settle, Review, Settled};
use crate::sheet::{Refusal, Sheet};
use crate::trial::{trial, Trial};

/// A call. Balance and settle have so many entries in the list lent for their
/// records.
#[derive(Clone, Debug, PartialEq, Eq)]
pub enum Call {
    Add { length: u64, list: Vec<u64> },
    Withdraw { number: u64 },
    Requalify { number: u64, list: Vec<u64> },
    Move { number: u64, instrument: u64 },
    Review,
    Trial { level: u64 },
    Balance { entries: u64 },
    Settle { entries: u64 },
    Start { number: u64 },
}

#[derive(Clone, Debug, PartialEq, Eq)]
pub enum Answer {
    Refused(Refusal),
    /// An edit was made.
    Done,
    Review(Review),
    Trial(Trial),
    Balance(Balanced),
    Settle(Settled),
}

/// Make one call.
pub fn apply(sheet: &mut Sheet, call: &Call) -> Answer {
    let answer = match call {
        Call::Add { length, list } => sheet.add(*length, list).map(|()| Answer::Done),
        Call::Withdraw { number } => sheet.withdraw(*number).map(|()| Answer::Done),
        Call::Requalify { number, list } => sheet.requalify(*number, list).map(|()| Answer::Done),
        Call::Move { number, instrument } => {
            sheet.shift(*number, *instrument).map(|()| Answer::Done)
        }
        Call::Review => Ok(Answer::Review(review(sheet))),
        Call::Trial { level } => trial(sheet, *level).map(Answer::Trial),
        Call::Balance { entries } => balance(sheet, *entries).map(Answer::Balance),
        Call::Settle { entries } => settle(sheet, *entries).map(Answer::Settle),
        Call::Start { number } => sheet.start(*number).map(|()| Answer::Done),
    };
    answer.unwrap_or_else(Answer::Refused)
}

/// Make all calls in order; the sheet is left as the last one leaves it.
pub fn run(sheet: &mut Sheet, calls: &[Call]) -> Vec<Answer> {
    calls.iter().map(|call| apply(sheet, call)).collect()
}
