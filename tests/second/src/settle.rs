//! Who gains, review, and settling (document 01, "Loads and settling"; document
//! 02, C-14 for settling as a call). Calibrations are in the loads; as batches
//! they would have nowhere else to go, so none ever gains or moves; nor does a
//! started batch (C-17).

use std::cmp::Reverse;

use crate::moves::{judge_entries, records, Move};
use crate::sheet::{at, Batch, Refusal, Sheet};

#[derive(Clone, Debug, PartialEq, Eq)]
pub struct Review {
    /// One load an instrument.
    pub loads: Vec<u32>,
    pub finish: u32,
    /// The lowest number of a batch that gains; none where it is settled.
    pub gains: Option<usize>,
}

pub fn review(sheet: &Sheet) -> Review {
    let loads = sheet.loads();
    let gaining = sheet.batches().iter().position(|b| gains(b, &loads));
    Review {
        finish: sheet.finish(),
        gains: gaining.map(|i| i + 1),
        loads,
    }
}

/// What settling comes to.
#[derive(Clone, Debug, PartialEq, Eq)]
pub struct Settled {
    pub finish: u32,
    /// How many moves it took. A batch may make several, or return.
    pub moves: u64,
    pub records: Vec<Move>,
}

/// Settle a sheet, with a list of so many entries lent for the records.
pub fn settle(sheet: &mut Sheet, entries: u64) -> Result<Settled, Refusal> {
    judge_entries(sheet, entries)?;
    let before = sheet.places();
    let mut loads = sheet.loads();
    let mut moves = 0;
    while let Some((i, to)) = next_move(sheet, &loads) {
        let batch = &mut sheet.batches[i];
        loads[at(batch.place)] -= batch.length;
        loads[at(to)] += batch.length;
        batch.place = to;
        moves += 1;
    }
    Ok(Settled {
        finish: sheet.finish(),
        moves,
        records: records(&before, sheet),
    })
}

/// The instruments that a batch could go to.
fn others(batch: &Batch) -> impl Iterator<Item = u32> + '_ {
    let qualified = batch.qualified().iter().copied();
    qualified.filter(|&j| j != batch.place)
}

fn gains(batch: &Batch, loads: &[u32]) -> bool {
    others(batch).any(|j| loads[at(j)] + batch.length < loads[at(batch.place)])
}

/// The index of the batch that moves next and where it goes, if any gains.
pub fn next_move(sheet: &Sheet, loads: &[u32]) -> Option<(usize, u32)> {
    let batches = sheet.batches();
    let gaining = (0..batches.len()).filter(|&i| gains(&batches[i], loads));
    let i = gaining.min_by_key(|&i| (Reverse(batches[i].length), i))?;
    let to = others(&batches[i]).min_by_key(|&j| (loads[at(j)], j))?;
    Some((i, to))
}
