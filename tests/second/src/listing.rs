//! The listing, the program's text and the host's call (document 01, "The
//! listing" and "Refusals").

use std::fmt::Write;

use crate::plan::{plan, Plan};
use crate::read::read;
use crate::sheet::{Refusal, Sheet};

/// A line of numbers, six columns each.
pub(crate) fn put_line(text: &mut String, numbers: &[u32]) {
    for number in numbers {
        write!(text, "{number:>6}").unwrap();
    }
    text.push('\n');
}

/// The listing of a sheet that has been planned.
pub fn listing(sheet: &Sheet, plan: &Plan) -> String {
    let mut text = String::new();
    for number in [plan.finish, plan.floor, plan.level, plan.raises, plan.bumps] {
        write!(text, "{number:>6}").unwrap();
    }
    writeln!(text, "{:>12}", plan.moves).unwrap();
    let group = plan.group.as_deref().unwrap_or(&[]);
    write!(text, "{:>6}", group.len()).unwrap();
    put_line(&mut text, group);
    for (i, batch) in sheet.batches().iter().enumerate() {
        put_line(&mut text, &[i as u32 + 1, batch.place, batch.length]);
    }
    text
}

/// All that the program prints for the bytes on its input.
pub fn program(input: &[u8]) -> Vec<u8> {
    let mut text = String::new();
    match read(input) {
        Ok(mut sheet) => {
            let plan = plan(&mut sheet);
            text = listing(&sheet, &plan);
        }
        Err(fault) => put_line(&mut text, &[fault.refusal.number(), fault.line]),
    }
    text.into_bytes()
}

/// What the host gets back: refusal 0 and the listing's length, or a refusal
/// with its line, 0 for a buffer too short, and length 0.
#[derive(Clone, Copy, Debug, PartialEq, Eq)]
pub struct HostAnswer {
    pub refusal: u32,
    pub line: u32,
    pub length: usize,
}

/// Plan the sheet of these bytes and write the listing to the front of the
/// buffer, of which no other byte changes.
pub fn host(sheet: &[u8], buffer: &mut [u8]) -> HostAnswer {
    let refused = |refusal: Refusal, line| HostAnswer {
        refusal: refusal.number(),
        line,
        length: 0,
    };
    let mut sheet = match read(sheet) {
        Ok(sheet) => sheet,
        Err(fault) => return refused(fault.refusal, fault.line),
    };
    let plan = plan(&mut sheet);
    let text = listing(&sheet, &plan);
    let Some(front) = buffer.get_mut(..text.len()) else {
        return refused(Refusal::Buffer, 0);
    };
    front.copy_from_slice(text.as_bytes());
    HostAnswer {
        refusal: 0,
        line: 0,
        length: text.len(),
    }
}
