//! Balance and settle for a host that keeps its sheet as a file (document 02,
//! C-14 for the lent list, C-13 for the file).

use crate::moves::Move;
use crate::plan::{balance, Balanced};
use crate::read::{read, Fault};
use crate::settle::{settle, Settled};
use crate::sheet::{Refusal, Sheet};
use crate::write::write;

/// Balance the sheet of these bytes. The records go to the front of the list,
/// the new sheet to the front of the buffer, and nothing else of the two changes.
/// Gives what balancing comes to and how many bytes the new sheet has. A refusal
/// for what was lent has line 0.
pub fn balance_file(
    sheet: &[u8],
    moves: &mut [Move],
    written: &mut [u8],
) -> Result<(Balanced, usize), Fault> {
    let mut sheet = read(sheet)?;
    let answer = balance(&mut sheet, moves.len() as u64).map_err(lent)?;
    let length = put(&sheet, &answer.records, moves, written).map_err(lent)?;
    Ok((answer, length))
}

/// Settle the sheet of these bytes, in the same way.
pub fn settle_file(
    sheet: &[u8],
    moves: &mut [Move],
    written: &mut [u8],
) -> Result<(Settled, usize), Fault> {
    let mut sheet = read(sheet)?;
    let answer = settle(&mut sheet, moves.len() as u64).map_err(lent)?;
    let length = put(&sheet, &answer.records, moves, written).map_err(lent)?;
    Ok((answer, length))
}

/// A refusal for what was lent.
fn lent(refusal: Refusal) -> Fault {
    Fault { refusal, line: 0 }
}

/// Write the sheet and the records where they go; nothing if the buffer is too
/// short. Gives the sheet's length.
fn put(
    sheet: &Sheet,
    records: &[Move],
    moves: &mut [Move],
    written: &mut [u8],
) -> Result<usize, Refusal> {
    let text = write(sheet);
    let front = written.get_mut(..text.len()).ok_or(Refusal::Buffer)?;
    front.copy_from_slice(&text);
    moves[..records.len()].copy_from_slice(records);
    Ok(text.len())
}
