//! What the calls say of a sheet and a journal given as text, or of a worklist: the
//! text that they write, or a refusal and its line or row.

use second::Draft;

use crate::{balance, plan, rewrite, run, settle, take, text, write, Move, LARGEST_SHEET};

/// A text, or a refusal and its line or row.
pub type Told = Result<String, (u32, usize)>;

pub fn listed(sheet: &str) -> Told {
    text(|listing| plan(sheet.as_bytes(), listing))
}

pub fn answers(sheet: &str, journal: &str) -> Told {
    text(|answers| run(sheet.as_bytes(), journal.as_bytes(), answers))
}

pub fn written(sheet: &str) -> Told {
    text(|written| rewrite(sheet.as_bytes(), written))
}

/// The sheet that a journal leaves.
pub fn left(sheet: &str, journal: &str) -> Told {
    text(|written| write(sheet.as_bytes(), journal.as_bytes(), written))
}

/// The sheet of a worklist.
pub fn taken(instruments: u32, calibrations: &[u32], worklist: &[u8]) -> Told {
    text(|sheet| take(instruments, calibrations, worklist, sheet))
}

pub fn file(draft: &Draft) -> String {
    String::from_utf8(draft.render()).expect("plain text")
}

/// The refusal and the line that the five calls which read a sheet give for it.
pub fn refused(sheet: &str) -> (u32, usize) {
    let fault = listed(sheet).expect_err(sheet);
    assert_eq!(answers(sheet, "     5\n"), Err(fault));
    assert_eq!(written(sheet), Err(fault));
    let (mut moves, mut buffer) = ([Move::default(); 200], vec![0; LARGEST_SHEET]);
    let balanced = balance(sheet.as_bytes(), &mut moves, &mut buffer);
    let settled = settle(sheet.as_bytes(), &mut moves, &mut buffer);
    assert_eq!((balanced.refusal, balanced.line), fault);
    assert_eq!((settled.refusal, settled.line), fault);
    fault
}

/// The numbers of an answer's line, of which none is wider than six columns.
pub fn numbers(line: &str) -> Vec<u64> {
    let fields = line.as_bytes().chunks(6);
    let number = |field| String::from_utf8_lossy(field).trim_start().parse().ok();
    let numbers: Option<Vec<u64>> = fields.map(number).collect();
    numbers.unwrap_or_else(|| panic!("{line:?}"))
}
