//! The planner as a host program calls it: bytes go in, and a text comes back
//! in a lent buffer. From a sheet it is the listing; from a sheet and a journal
//! the answers to the journal's calls, or the sheet as these leave it; from a
//! worklist, with the bank's calibrations, its sheet. Balance and settle take a
//! sheet alone and give it back, with records of their moves in a lent list.

pub mod astray;
pub mod cases;
pub mod check;
pub mod due;
pub mod filed;
pub mod journal;
pub mod kinds;
pub mod listing;
pub mod marks;
pub mod runs;
pub mod seen;
pub mod share;
pub mod told;

/// What every call returns: refusal 0 and how many bytes the text has, or a
/// refusal of the sheet or the journal with its line, or of the worklist with its
/// row (0 where the buffer is too short) and length 0.
#[repr(C)]
#[derive(Clone, Copy, Debug, PartialEq, Eq)]
pub struct Hosted {
    pub refusal: u32,
    pub line: usize,
    pub length: usize,
}

/// A record: a batch that is elsewhere than before.
#[repr(C)]
#[derive(Clone, Copy, Debug, Default, PartialEq, Eq)]
pub struct Move {
    pub batch: u32,
    pub from: u32,
    pub to: u32,
}

/// What balancing a file returns: how many bytes the new sheet has, the figures
/// and how many records there are, or a refusal with its line (0 where the list
/// or the buffer is too short) and 0 for all else.
#[repr(C)]
#[derive(Clone, Copy, Debug, Default, PartialEq, Eq)]
pub struct Balanced {
    pub refusal: u32,
    pub line: usize,
    pub length: usize,
    pub finish: u32,
    pub floor: u32,
    pub level: u32,
    pub raises: u32,
    pub bumps: u32,
    /// How many of the group's bytes are instruments; the rest are 0.
    pub size: usize,
    pub group: [u8; 24],
    pub records: usize,
}

/// What settling a file returns, in the same way.
#[repr(C)]
#[derive(Clone, Copy, Debug, Default, PartialEq, Eq)]
pub struct Settled {
    pub refusal: u32,
    pub line: usize,
    pub length: usize,
    pub finish: u32,
    pub moves: u64,
    pub records: usize,
}

// As in C.
const _: () = assert!(size_of::<Hosted>() == 24 && size_of::<Move>() == 12);
const _: () = assert!(size_of::<Balanced>() == 88 && size_of::<Settled>() == 48);

extern "C" {
    fn bankplan_plan(
        sheet: *const u8,
        sheet_len: usize,
        listing: *mut u8,
        listing_len: usize,
    ) -> Hosted;

    fn bankplan_run(
        sheet: *const u8,
        sheet_len: usize,
        journal: *const u8,
        journal_len: usize,
        answers: *mut u8,
        answers_len: usize,
    ) -> Hosted;

    fn bankplan_write(
        sheet: *const u8,
        sheet_len: usize,
        journal: *const u8,
        journal_len: usize,
        written: *mut u8,
        written_len: usize,
    ) -> Hosted;

    fn bankplan_balance(
        sheet: *const u8,
        sheet_len: usize,
        moves: *mut Move,
        moves_len: usize,
        written: *mut u8,
        written_len: usize,
    ) -> Balanced;

    fn bankplan_settle(
        sheet: *const u8,
        sheet_len: usize,
        moves: *mut Move,
        moves_len: usize,
        written: *mut u8,
        written_len: usize,
    ) -> Settled;

    fn bankplan_take(
        instruments: u32,
        calibrations: *const u32,
        calibrations_len: usize,
        worklist: *const u8,
        worklist_len: usize,
        sheet: *mut u8,
        sheet_len: usize,
    ) -> Hosted;
}

/// The sheet of document 01's first case.
pub const SHEET: &str = "     2     3
     0     0
    30     1     0     2     1     2
    20     1     0     1     1
    10     1     0     2     1     2
";

/// The same, with its first batch started.
pub const STARTED: &str = "     2     3
     0     0
    30     1     1     2     1     2
    20     1     0     1     1
    10     1     0     2     1     2
";

/// The most bytes that a written sheet has: 24 calibrations, and 200 batches,
/// each with a mark and a list of 24 instruments.
pub const LARGEST_SHEET: usize = 13 + (6 * 24 + 1) + 200 * (6 * 28 + 1);

/// No answer's line has more bytes: a balance of 200 batches that all move, with
/// a group of 24, would have so many.
pub const LONGEST_ANSWER: usize = 6 * (1 + 6 + 24 + 1 + 3 * 200) + 1;

/// Read the sheet, plan it and write the listing to the front of the buffer.
/// This is the proved code.
pub fn plan(sheet: &[u8], listing: &mut [u8]) -> Hosted {
    // SAFETY: the call takes any bytes and any two lengths, reads the one
    // slice, writes to the other and keeps neither.
    unsafe {
        bankplan_plan(
            sheet.as_ptr(),
            sheet.len(),
            listing.as_mut_ptr(),
            listing.len(),
        )
    }
}

/// Read the sheet, make the journal's calls on it one after the other, and
/// write their answers to the front of the buffer. This is the proved code.
pub fn run(sheet: &[u8], journal: &[u8], answers: &mut [u8]) -> Hosted {
    // SAFETY: the call takes any bytes and any three lengths, reads the first
    // two slices, writes to the third and keeps none.
    unsafe {
        bankplan_run(
            sheet.as_ptr(),
            sheet.len(),
            journal.as_ptr(),
            journal.len(),
            answers.as_mut_ptr(),
            answers.len(),
        )
    }
}

/// Read the sheet, make the journal's calls on it one after the other, and
/// write the sheet that they leave to the front of the buffer. This is the
/// proved code.
pub fn write(sheet: &[u8], journal: &[u8], written: &mut [u8]) -> Hosted {
    // SAFETY: as for the run.
    unsafe {
        bankplan_write(
            sheet.as_ptr(),
            sheet.len(),
            journal.as_ptr(),
            journal.len(),
            written.as_mut_ptr(),
            written.len(),
        )
    }
}

/// The same without a call.
pub fn rewrite(sheet: &[u8], written: &mut [u8]) -> Hosted {
    write(sheet, &[], written)
}

/// Read the sheet, balance it, and write the records to the front of the list
/// and the sheet that is left to the front of the buffer. This is the proved
/// code.
pub fn balance(sheet: &[u8], moves: &mut [Move], written: &mut [u8]) -> Balanced {
    // SAFETY: the call takes any bytes and any three lengths, reads the first
    // slice, writes to the other two and keeps none. Its record has this form.
    unsafe {
        bankplan_balance(
            sheet.as_ptr(),
            sheet.len(),
            moves.as_mut_ptr(),
            moves.len(),
            written.as_mut_ptr(),
            written.len(),
        )
    }
}

/// The same with settling. This is the proved code.
pub fn settle(sheet: &[u8], moves: &mut [Move], written: &mut [u8]) -> Settled {
    // SAFETY: as for balancing.
    unsafe {
        bankplan_settle(
            sheet.as_ptr(),
            sheet.len(),
            moves.as_mut_ptr(),
            moves.len(),
            written.as_mut_ptr(),
            written.len(),
        )
    }
}

/// Take the worklist on so many instruments with these calibrations, and write
/// its sheet to the front of the buffer. This is the proved code.
pub fn take(instruments: u32, calibrations: &[u32], worklist: &[u8], sheet: &mut [u8]) -> Hosted {
    // SAFETY: the call takes any number, any entries, any bytes and any three
    // lengths, reads the first two slices, writes to the third and keeps none.
    unsafe {
        bankplan_take(
            instruments,
            calibrations.as_ptr(),
            calibrations.len(),
            worklist.as_ptr(),
            worklist.len(),
            sheet.as_mut_ptr(),
            sheet.len(),
        )
    }
}

/// The second planner's answer in the same form.
pub fn plan_second(sheet: &[u8], listing: &mut [u8]) -> Hosted {
    let answer = second::host(sheet, listing);
    Hosted {
        refusal: answer.refusal,
        line: answer.line as usize,
        length: answer.length,
    }
}

/// The text that a call writes to a buffer which has room for it, or its
/// refusal and line.
pub fn text(call: impl FnOnce(&mut [u8]) -> Hosted) -> Result<String, (u32, usize)> {
    let mut buffer = vec![0; 2 * LARGEST_SHEET];
    let hosted = call(&mut buffer);
    if hosted.refusal != 0 {
        assert_eq!(hosted.length, 0);
        return Err((hosted.refusal, hosted.line));
    }
    assert_eq!(hosted.line, 0);
    buffer.truncate(hosted.length);
    Ok(String::from_utf8(buffer).expect("plain text"))
}
