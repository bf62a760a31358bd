//! Buffers of every size, memory around buffer and sheet, and planners that
//! cheat and must be caught.

use std::hint::black_box;

use host::cases;
use host::check::{listing_due, Calls, Judge, Room, LEAST};
use host::kinds::{Kind, Lengths, Lists, Places};
use host::listing::MOST;
use host::{plan, Hosted, SHEET};
use second::gen;
use second::rng::Rng;

/// From none to three bytes more than the listing has.
#[test]
fn every_size() {
    let mut judge = Judge::new(plan);
    let (mut short, mut enough, mut bad) = (0, 0, 0);
    let mut rng = Rng::new(11);
    // Each size is a planning, so the sheets are small, but for a full one
    // that is planned quickly.
    let mut sheets: Vec<Vec<u8>> = cases::sound(12, 150)
        .into_iter()
        .chain(cases::faulty(13, 60))
        .map(|case| case.sheet)
        .filter(|sheet| sheet.len() <= 3_000)
        .collect();
    let kind = Kind {
        lists: Lists::Long,
        lengths: Lengths::Equal,
        places: Places::Given,
    };
    sheets.push(kind.sheet(&mut rng));
    for sheet in sheets {
        let due = listing_due(&sheet);
        for size in 0..=due.length_or(LEAST) + 3 {
            let hosted = judge.call(&sheet, size, &due).unwrap_or_else(|fault| {
                let text = String::from_utf8_lossy(&sheet);
                panic!("a buffer of {size}: {fault}\nsheet:\n{text}")
            });
            match hosted.refusal {
                0 => enough += 1,
                9 => short += 1,
                _ => bad += 1,
            }
        }
    }
    println!("{short} too short, {enough} large enough, {bad} with bad sheets");
    assert!(short >= 10_000 && enough >= 200 && bad >= 1_000);
}

/// No room at all: a good sheet is 9, a bad one what its fault is.
#[test]
fn empty_buffers() {
    let mut counts = [0; 14];
    let bad = (24..28).flat_map(|run| cases::faulty(run, 300));
    for case in cases::sound(14, 500).into_iter().chain(bad) {
        let hosted = plan(&case.sheet, &mut Vec::new());
        let (refusal, line) = match second::read(&case.sheet) {
            Ok(_) => (9, 0),
            Err(fault) => (fault.refusal.number(), fault.line as usize),
        };
        let due = Hosted {
            refusal,
            line,
            length: 0,
        };
        assert_eq!(hosted, due);
        counts[refusal as usize] += 1;
    }
    println!("by refusal: {counts:?}");
    assert!(counts[9] >= 500);
    for refusal in [1, 2, 3, 4, 5, 10, 13] {
        assert!(counts[refusal] >= 20, "{counts:?}");
    }
}

/// A sheet that stands between other bytes, at any offset and cut anywhere
/// with its rest behind it, is what its own bytes are.
#[test]
fn bytes_beside_the_sheet() {
    let mut judge = Judge::new(plan);
    let mut rng = Rng::new(15);
    let mut refusals = [0; 14];
    for round in 0..40 {
        let mut file = match round {
            0 => SHEET.as_bytes().to_vec(),
            _ => gen::draft(&mut rng, gen::SMALL).render(),
        };
        let own = file.len();
        // What would go on well as a sheet, and what would not.
        file.extend(match round % 3 {
            0 => b"     1     1     0     1     1\n".as_slice(),
            1 => b"\n\n\n\n\n\n\n\n",
            _ => b"99999999",
        });
        for offset in 0..9 {
            let memory = [&file[file.len() - offset..], &file].concat();
            let before = memory.clone();
            let ends = if offset == 0 {
                0..own + 1
            } else {
                own..own + 1
            };
            for end in ends {
                let due = listing_due(&file[..end]);
                let sheet = &memory[offset..offset + end];
                let hosted = judge.call(sheet, MOST, &due);
                let hosted = hosted.unwrap_or_else(|fault| panic!("{fault}\n{end} of {file:?}"));
                refusals[hosted.refusal as usize] += 1;
            }
            assert_eq!(black_box(memory), before, "the sheet stays as it is");
        }
    }
    println!("by refusal: {refusals:?}");
    assert_eq!(refusals[0], 40 * 9);
    assert!(refusals[1] >= 1_000);
}

/// The sheet with this text in those of the fields that are blank.
fn filled(sheet: &[u8], starts: Vec<usize>, text: &[u8; 6]) -> Vec<u8> {
    let mut sheet = sheet.to_vec();
    for at in starts {
        let field = &mut sheet[at..at + 6];
        if *field == *b"      " {
            field.copy_from_slice(text);
        }
    }
    sheet
}

/// The sheet with another text for a mark.
fn remarked(sheet: &[u8], mark: &[u8; 6], other: &[u8; 6]) -> Vec<u8> {
    let mut sheet = sheet.to_vec();
    for at in gen::marks(&sheet) {
        let field = &mut sheet[at..at + 6];
        if *field == *mark {
            field.copy_from_slice(other);
        }
    }
    sheet
}

/// A planner that is right but for one thing.
type Cheat = (&'static str, fn(&[u8], &mut [u8]) -> Hosted);

/// The lines of a sheet, each with its LF.
fn lines(sheet: &[u8]) -> Vec<&[u8]> {
    sheet.split_inclusive(|&b| b == b'\n').collect()
}

const CHEATS: [Cheat; 31] = [
    ("writes past the listing", |sheet, listing| {
        let hosted = plan(sheet, listing);
        if let Some(next) = listing.get_mut(hosted.length as usize) {
            if hosted.refusal == 0 {
                *next = 0;
            }
        }
        hosted
    }),
    ("clears the last byte of the buffer", |sheet, listing| {
        if let Some(last) = listing.last_mut() {
            *last = 0;
        }
        plan(sheet, listing)
    }),
    ("writes to a buffer that is too short", |sheet, listing| {
        let hosted = plan(sheet, listing);
        if hosted.refusal == 9 {
            listing.fill(b' ');
        }
        hosted
    }),
    ("writes for a bad sheet", |sheet, listing| {
        let hosted = plan(sheet, listing);
        if (1..=5).contains(&hosted.refusal) && listing.len() > 100 {
            listing[0] = b'\n';
        }
        hosted
    }),
    ("judges the buffer first", |sheet, listing| {
        let hosted = plan(sheet, listing);
        if listing.is_empty() {
            return Hosted {
                refusal: 9,
                line: 0,
                length: 0,
            };
        }
        hosted
    }),
    ("wants one byte more", |sheet, listing| {
        let before = listing.to_vec();
        let hosted = plan(sheet, listing);
        if hosted.length as usize == before.len() && hosted.refusal == 0 {
            listing.copy_from_slice(&before);
            return Hosted {
                refusal: 9,
                line: 0,
                length: 0,
            };
        }
        hosted
    }),
    ("fills what there is", |sheet, listing| {
        let hosted = plan(sheet, listing);
        if hosted.refusal == 9 {
            return Hosted {
                refusal: 0,
                length: listing.len(),
                ..hosted
            };
        }
        hosted
    }),
    ("gives a line with 9", |sheet, listing| {
        let hosted = plan(sheet, listing);
        let line = hosted.line + (hosted.refusal == 9) as usize;
        Hosted { line, ..hosted }
    }),
    ("gives a line with a listing", |sheet, listing| {
        let hosted = plan(sheet, listing);
        let line = hosted.line + (hosted.refusal == 0) as usize;
        Hosted { line, ..hosted }
    }),
    ("counts lines from 0", |sheet, listing| {
        let hosted = plan(sheet, listing);
        let line = hosted.line.saturating_sub(1);
        Hosted { line, ..hosted }
    }),
    ("gives a length with a refusal", |sheet, listing| {
        let hosted = plan(sheet, listing);
        let length = hosted.length.max(1);
        Hosted { length, ..hosted }
    }),
    ("takes 4 for 5", |sheet, listing| {
        let hosted = plan(sheet, listing);
        let refusal = hosted.refusal - (hosted.refusal == 5) as u32;
        Hosted { refusal, ..hosted }
    }),
    ("refuses a blank place", |sheet, listing| {
        plan(&filled(sheet, gen::places(sheet), b"     x"), listing)
    }),
    ("takes a blank place for 1", |sheet, listing| {
        plan(&filled(sheet, gen::places(sheet), b"     1"), listing)
    }),
    ("takes any blank field for 0", |sheet, listing| {
        plan(&filled(sheet, gen::fields(sheet), b"     0"), listing)
    }),
    ("judges calibrations after their LF", |sheet, listing| {
        let hosted = plan(sheet, listing);
        let fields = |line: &&[u8]| line.len() == 2 * 6 + 1;
        match hosted.refusal {
            10 if !lines(sheet).get(1).is_some_and(fields) => Hosted {
                refusal: 1,
                ..hosted
            },
            _ => hosted,
        }
    }),
    ("judges all fields of line 2 first", |sheet, listing| {
        let hosted = plan(sheet, listing);
        match hosted.refusal {
            10 if sheet.contains(&b'x') => Hosted {
                refusal: 1,
                ..hosted
            },
            _ => hosted,
        }
    }),
    ("gives a bad calibration line 1", |sheet, listing| {
        let hosted = plan(sheet, listing);
        let line = hosted.line - (hosted.refusal == 10) as usize;
        Hosted { line, ..hosted }
    }),
    ("takes 3 for 10", |sheet, listing| {
        let hosted = plan(sheet, listing);
        let refusal = if hosted.refusal == 10 {
            3
        } else {
            hosted.refusal
        };
        Hosted { refusal, ..hosted }
    }),
    ("takes a calibration of 241", |sheet, listing| {
        let text = String::from_utf8_lossy(sheet).replace("   241", "   240");
        plan(text.as_bytes(), listing)
    }),
    ("refuses a calibration of 240", |sheet, listing| {
        let text = String::from_utf8_lossy(sheet).replace("   240", "   241");
        plan(text.as_bytes(), listing)
    }),
    ("takes a sheet without line 2", |sheet, listing| {
        let mut lines = lines(sheet);
        if lines.len() > 2 && lines[1].len() > 13 {
            lines.insert(1, b"     0     0\n");
        }
        plan(&lines.concat(), listing)
    }),
    ("counts lines without line 2", |sheet, listing| {
        let hosted = plan(sheet, listing);
        let line = hosted.line - (hosted.line > 2) as usize;
        Hosted { line, ..hosted }
    }),
    ("takes a mark of 2 for 1", |sheet, listing| {
        plan(&remarked(sheet, b"     2", b"     1"), listing)
    }),
    ("takes a mark of 2 for 0", |sheet, listing| {
        plan(&remarked(sheet, b"     2", b"     0"), listing)
    }),
    ("takes a blank mark for 0", |sheet, listing| {
        plan(&remarked(sheet, b"      ", b"     0"), listing)
    }),
    ("takes no notice of marks", |sheet, listing| {
        plan(&remarked(sheet, b"     1", b"     0"), listing)
    }),
    ("judges the mark after the count", |sheet, listing| {
        // With a good mark, unless nothing else is wrong.
        let other = plan(&remarked(sheet, b"     2", b"     0"), &mut []);
        match plan(sheet, listing) {
            hosted if hosted.refusal == 1 && other.refusal == 4 => other,
            hosted => hosted,
        }
    }),
    ("takes a started batch without a place", |sheet, listing| {
        let mut sheet = sheet.to_vec();
        for at in gen::marks(&sheet) {
            if sheet[at - 6..at + 6] == *b"           1" {
                sheet.copy_within(at + 12..at + 18, at - 6);
            }
        }
        plan(&sheet, listing)
    }),
    ("leaves out the last LF", |sheet, listing| {
        let mut hosted = plan(sheet, listing);
        if hosted.refusal == 0 {
            hosted.length -= 1;
        }
        hosted
    }),
    ("lists another place", |sheet, listing| {
        let hosted = plan(sheet, listing);
        if hosted.length > 60 {
            // The end of the last line's second field.
            listing[hosted.length as usize - 8] ^= 1;
        }
        hosted
    }),
];

/// Each is caught on these sheets, and the honest planner is not.
#[test]
fn cheats_are_caught() {
    let bad: Vec<u8> = SHEET.bytes().filter(|&b| b != b'3').collect();
    let mut place = SHEET.as_bytes().to_vec();
    place[2 * 13 + 11] = b'3';
    let without = SHEET.replace("     0     0\n", "");
    let sheets: [&[u8]; 18] = [
        SHEET.as_bytes(),
        without.as_bytes(),
        b"     2     0\n   240     0\n",
        b"     2     0\n     0   241\n",
        b"     2     0\n   241    0x\n",
        b"     2     0\n   241     0     0\n",
        b"     2     0\n     0     0\n ",
        &bad,
        &place,
        b"     1     0\n     0\n",
        b"     3     1\n     0     0     0\n     5           0     2     2     3\n",
        b"     2     1\n     0     0\n     5     1     0     2     2     1\n",
        b"     1      \n",
        b"     2     2\n     0     0\n    10     1     1     2     1     2\n    10     1     1     1     1\n",
        b"     2     1\n     0     0\n    10     1     2     1     1\n",
        b"     2     1\n     0     0\n    10     1     2     3\n",
        b"     2     1\n     0     0\n    10     1           1     1\n",
        b"     2     1\n     0     0\n    10           1     2     1     2\n",
    ];
    let verdict = |planner: fn(&[u8], &mut [u8]) -> Hosted| -> Result<(), String> {
        let mut judge = Judge::new(planner);
        for sheet in sheets {
            let due = listing_due(sheet);
            judge.rooms(sheet, &due, &Room::ALL, &mut Calls::default())?;
        }
        Ok(())
    };
    assert_eq!(verdict(plan), Ok(()));
    for (name, cheat) in CHEATS {
        assert!(verdict(cheat).is_err(), "not caught: {name}");
    }
}
