//! What is wrong for either call.

use host::astray;
use host::journal::{journal as lines, read};
use host::runs::BAD_JOURNAL;
use host::Hosted;
use second::{gen, Call};

use crate::{Cheat, SHORT};

pub const EITHER: [Cheat; 34] = [
    ("writes past the text", |call, sheet, journal, text| {
        let made = call(sheet, journal, text);
        if let Some(next) = text.get_mut(made.length) {
            if made.refusal == 0 {
                *next = 0;
            }
        }
        made
    }),
    (
        "clears the buffer's last byte",
        |call, sheet, journal, text| {
            if let Some(last) = text.last_mut() {
                *last = 0;
            }
            call(sheet, journal, text)
        },
    ),
    ("writes to a short buffer", |call, sheet, journal, text| {
        let made = call(sheet, journal, text);
        if made.refusal == 9 {
            text.fill(b' ');
        }
        made
    }),
    ("writes for a bad sheet", |call, sheet, journal, text| {
        let made = call(sheet, journal, text);
        if (1..=5).contains(&made.refusal) {
            text.fill(b' ');
        }
        made
    }),
    (
        "writes for a bad calibration",
        |call, sheet, journal, text| {
            let made = call(sheet, journal, text);
            if made.refusal == 10 {
                text.fill(b' ');
            }
            made
        },
    ),
    (
        "judges the journal before a calibration",
        |call, sheet, journal, text| {
            let made = call(sheet, journal, text);
            match read(journal) {
                Err(line) if made.refusal == 10 => Hosted {
                    refusal: BAD_JOURNAL,
                    line,
                    length: 0,
                },
                _ => made,
            }
        },
    ),
    (
        "refuses calibrations",
        |call, sheet, journal, text| match second::read(sheet) {
            Ok(sheet) if astray::calibrated(&sheet) > 0 => Hosted {
                refusal: 10,
                line: 2,
                length: 0,
            },
            _ => call(sheet, journal, text),
        },
    ),
    (
        "takes a sheet without line 2",
        |call, sheet, journal, text| {
            let mut whole = sheet.to_vec();
            if let (Err(_), Some(b"     2")) = (second::read(sheet), sheet.get(..6)) {
                whole.splice(13..13, *b"     0     0\n");
            }
            match second::read(&whole) {
                Ok(_) => call(&whole, journal, text),
                Err(_) => call(sheet, journal, text),
            }
        },
    ),
    ("takes no notice of marks", |call, sheet, journal, text| {
        let mut sheet = sheet.to_vec();
        for at in gen::marks(&sheet) {
            if sheet[at..at + 6] == *b"     1" {
                sheet[at + 5] = b'0';
            }
        }
        call(&sheet, journal, text)
    }),
    ("takes another mark for 0", |call, sheet, journal, text| {
        let mut sheet = sheet.to_vec();
        for at in gen::marks(&sheet) {
            if sheet[at..at + 6] == *b"     2" {
                sheet[at + 5] = b'0';
            }
        }
        call(&sheet, journal, text)
    }),
    (
        "takes a started batch without a place",
        |call, sheet, journal, text| {
            let mut sheet = sheet.to_vec();
            for at in gen::marks(&sheet) {
                if sheet[at - 6..at + 6] == *b"     0     1" {
                    sheet.copy_within(at + 12..at + 18, at - 6);
                }
            }
            call(&sheet, journal, text)
        },
    ),
    ("writes for a bad journal", |call, sheet, journal, text| {
        let made = call(sheet, journal, text);
        if made.refusal == BAD_JOURNAL {
            text.fill(b' ');
        }
        made
    }),
    ("judges the buffer first", |call, sheet, journal, text| {
        let made = call(sheet, journal, text);
        if text.is_empty() && !journal.is_empty() {
            return SHORT;
        }
        made
    }),
    ("judges the journal first", |call, sheet, journal, text| {
        let made = call(sheet, journal, text);
        match read(journal) {
            Err(line) => Hosted {
                refusal: BAD_JOURNAL,
                line,
                length: 0,
            },
            Ok(_) => made,
        }
    }),
    ("wants one byte more", |call, sheet, journal, text| {
        let before = text.to_vec();
        let made = call(sheet, journal, text);
        if made.length == before.len() && made.refusal == 0 {
            text.copy_from_slice(&before);
            return SHORT;
        }
        made
    }),
    ("fills what there is", |call, sheet, journal, text| {
        let made = call(sheet, journal, text);
        if made.refusal == 9 {
            return Hosted {
                refusal: 0,
                length: text.len(),
                ..made
            };
        }
        made
    }),
    ("gives a line with 9", |call, sheet, journal, text| {
        let made = call(sheet, journal, text);
        let line = made.line + (made.refusal == 9) as usize;
        Hosted { line, ..made }
    }),
    ("gives a line with a text", |call, sheet, journal, text| {
        let made = call(sheet, journal, text);
        let line = made.line + (made.refusal == 0) as usize;
        Hosted { line, ..made }
    }),
    (
        "counts a journal's lines from 0",
        |call, sheet, journal, text| {
            let made = call(sheet, journal, text);
            let line = made.line - (made.refusal == BAD_JOURNAL) as usize;
            Hosted { line, ..made }
        },
    ),
    ("gives the last line", |call, sheet, journal, text| {
        let made = call(sheet, journal, text);
        let lines = journal.split_inclusive(|&b| b == b'\n').count();
        let line = if made.refusal == BAD_JOURNAL {
            lines
        } else {
            made.line
        };
        Hosted { line, ..made }
    }),
    ("takes 19 for 1", |call, sheet, journal, text| {
        let made = call(sheet, journal, text);
        let refusal = if made.refusal == BAD_JOURNAL {
            1
        } else {
            made.refusal
        };
        Hosted { refusal, ..made }
    }),
    (
        "gives a length with a refusal",
        |call, sheet, journal, text| {
            let made = call(sheet, journal, text);
            let length = made.length.max((made.refusal != 0) as usize);
            Hosted { length, ..made }
        },
    ),
    ("leaves out the last LF", |call, sheet, journal, text| {
        let mut made = call(sheet, journal, text);
        made.length = made.length.saturating_sub(1);
        made
    }),
    ("refuses the empty journal", |call, sheet, journal, text| {
        let made = call(sheet, journal, text);
        if journal.is_empty() && made.refusal == 0 {
            return Hosted {
                refusal: BAD_JOURNAL,
                line: 1,
                length: 0,
            };
        }
        made
    }),
    (
        "takes a journal without its last LF",
        |call, sheet, journal, text| {
            let mut journal = journal.to_vec();
            if journal.last().is_some_and(|&b| b != b'\n') {
                journal.push(b'\n');
            }
            call(sheet, &journal, text)
        },
    ),
    ("takes blanks for 0", |call, sheet, journal, text| {
        let mut journal = journal.to_vec();
        for at in gen::fields(&journal) {
            if journal[at..at + 6] == *b"      " {
                journal[at + 5] = b'0';
            }
        }
        call(sheet, &journal, text)
    }),
    (
        "makes the calls before a bad line",
        |call, sheet, journal, text| {
            let good = match read(journal) {
                Ok(_) => journal.len(),
                Err(line) => {
                    let lines = journal.split_inclusive(|&b| b == b'\n');
                    lines.take(line - 1).map(<[u8]>::len).sum()
                }
            };
            call(sheet, &journal[..good], text)
        },
    ),
    (
        "takes a bad journal for an empty one",
        |call, sheet, journal, text| match read(journal) {
            Ok(_) => call(sheet, journal, text),
            Err(_) => call(sheet, &[], text),
        },
    ),
    ("makes the first call only", |call, sheet, journal, text| {
        let first = journal.split_inclusive(|&b| b == b'\n').next();
        match read(journal) {
            Ok(_) => call(sheet, first.unwrap_or(&[]), text),
            Err(_) => call(sheet, journal, text),
        }
    }),
    ("writes another number", |call, sheet, journal, text| {
        let made = call(sheet, journal, text);
        if made.length > 1 {
            text[made.length - 2] ^= 1;
        }
        made
    }),
    (
        "takes any list for the records",
        |call, sheet, journal, text| {
            let journal = with_entries(sheet, journal, |_, _| 200);
            call(sheet, &journal, text)
        },
    ),
    (
        "wants an entry for each record alone",
        |call, sheet, journal, text| {
            let journal = with_entries(sheet, journal, |entries, records| {
                200 * (entries >= records) as u64
            });
            call(sheet, &journal, text)
        },
    ),
    ("wants an entry more", |call, sheet, journal, text| {
        let journal = with_entries(sheet, journal, |entries, _| entries.saturating_sub(1));
        call(sheet, &journal, text)
    }),
    (
        "takes a line without its entries",
        |call, sheet, journal, text| {
            let mut whole = Vec::new();
            for line in journal.split_inclusive(|&b| b == b'\n') {
                whole.extend(match line {
                    b"     7\n" => b"     7   200\n",
                    b"     8\n" => b"     8   200\n",
                    line => line,
                });
            }
            call(sheet, &whole, text)
        },
    ),
];

/// The journal, if it is of the form, with other lists: `other` says how many
/// entries there are, given how many there were and how many records.
fn with_entries(sheet: &[u8], journal: &[u8], other: impl Fn(u64, u64) -> u64) -> Vec<u8> {
    let (Ok(mut sheet), Ok(mut calls)) = (second::read(sheet), read(journal)) else {
        return journal.to_vec();
    };
    for call in &mut calls {
        match call {
            Call::Balance { entries } => {
                let made = second::balance(&mut sheet.clone(), 200).expect("entries enough");
                *entries = other(*entries, made.records.len() as u64);
            }
            Call::Settle { entries } => {
                let made = second::settle(&mut sheet.clone(), 200).expect("entries enough");
                *entries = other(*entries, made.records.len() as u64);
            }
            _ => {}
        }
        second::apply(&mut sheet, call);
    }
    lines(&calls)
}
