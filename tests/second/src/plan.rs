//! Planning (document 01, "Planning"): balance, and settling after it (document
//! 02, C-14). Finish, longest and what is confined count calibrations (C-16); a
//! started batch is confined where it is (C-17).

use crate::moves::{judge_entries, records, Move};
use crate::settle::settle;
use crate::sheet::{Refusal, Sheet};
use crate::trial::{attempt, Verdict};

/// What balancing comes to.
#[derive(Clone, Debug, PartialEq, Eq)]
pub struct Balanced {
    pub finish: u32,
    pub floor: u32,
    /// The group of the last trial that failed.
    pub group: Option<Vec<u32>>,
    pub level: u32,
    /// Of the trial kept.
    pub raises: u32,
    pub bumps: u32,
    pub records: Vec<Move>,
}

/// Balance a sheet, with a list of so many entries lent for the records.
pub fn balance(sheet: &mut Sheet, entries: u64) -> Result<Balanced, Refusal> {
    judge_entries(sheet, entries)?;
    let before = sheet.places();
    let mut f = -1;
    let mut p = sheet.finish() as i64;
    let (mut places, mut raises, mut bumps) = (sheet.places(), 0, 0);
    let mut group = None;
    let items = sheet.items();
    while p - f > 1 {
        // At least 0, so that halving rounds down; and no load is above the
        // total, so that none is refused.
        let level = (f + p) / 2;
        let answer = attempt(sheet, &items, level as u32);
        match answer.verdict {
            Verdict::Pass(placement) => {
                p = level;
                (places, raises, bumps) = (placement, answer.raises, answer.bumps);
            }
            Verdict::Fail(members) => {
                f = level;
                group = Some(members);
            }
        }
    }
    for (batch, place) in sheet.batches.iter_mut().zip(places) {
        batch.place = place;
    }
    let share = |g: &Vec<u32>| sheet.confined(g).div_ceil(g.len() as u32);
    Ok(Balanced {
        finish: sheet.finish(),
        floor: sheet.longest().max(group.as_ref().map_or(0, share)),
        group,
        level: p as u32,
        raises,
        bumps,
        records: records(&before, sheet),
    })
}

/// What both come to.
#[derive(Clone, Debug, PartialEq, Eq)]
pub struct Plan {
    pub finish: u32,
    pub floor: u32,
    pub group: Option<Vec<u32>>,
    pub level: u32,
    pub raises: u32,
    pub bumps: u32,
    pub moves: u64,
}

/// Plan a sheet, which gets the new places: balance it, and settle it straight
/// after. The finish and the moves are settling's.
pub fn plan(sheet: &mut Sheet) -> Plan {
    let entries = sheet.batches.len() as u64;
    let balanced = balance(sheet, entries).expect("an entry for each batch");
    let settled = settle(sheet, entries).expect("an entry for each batch");
    Plan {
        finish: settled.finish,
        floor: balanced.floor,
        group: balanced.group,
        level: balanced.level,
        raises: balanced.raises,
        bumps: balanced.bumps,
        moves: settled.moves,
    }
}
