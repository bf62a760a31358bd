//! Records of moves (document 02, C-14).

use crate::sheet::{Refusal, Sheet};

/// A batch that is elsewhere than before.
#[derive(Clone, Copy, Debug, PartialEq, Eq)]
pub struct Move {
    /// Its number, from 1.
    pub batch: u32,
    pub from: u32,
    pub to: u32,
}

/// May a list of so many entries be lent for a sheet? How many records there
/// will be does not count.
pub(crate) fn judge_entries(sheet: &Sheet, entries: u64) -> Result<(), Refusal> {
    if entries < sheet.batches().len() as u64 {
        return Err(Refusal::Buffer);
    }
    Ok(())
}

/// A record for each batch of the sheet that was elsewhere before.
pub(crate) fn records(before: &[u32], sheet: &Sheet) -> Vec<Move> {
    let mut records = Vec::new();
    for (i, (&from, batch)) in before.iter().zip(sheet.batches()).enumerate() {
        if from != batch.place {
            records.push(Move {
                batch: i as u32 + 1,
                from,
                to: batch.place,
            });
        }
    }
    records
}
