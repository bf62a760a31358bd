//! Seeded cases: sound sheets, damaged ones, and calls good and bad.

use second::gen::{self, Shape};
use second::rng::Rng;
use second::{apply, trial, Call, Draft, Line, Sheet, Verdict};

use crate::journal::GREATEST;

/// A sheet's bytes, good or bad, and calls on the sheet that a journal can say.
#[derive(Clone, Debug)]
pub struct Case {
    pub sheet: Vec<u8>,
    pub calls: Vec<Call>,
}

impl From<Vec<u8>> for Case {
    fn from(sheet: Vec<u8>) -> Case {
        Case {
            sheet,
            calls: Vec::new(),
        }
    }
}

/// Up to all instruments and few batches.
const WIDE: Shape = Shape {
    instruments: (1, 24),
    batches: (0, 12),
    lengths: (1, 1440),
    calibrations: Sheet::CALIBRATION,
    started: true,
};

/// Many short batches on many instruments: long trials.
const CROWDED: Shape = Shape {
    instruments: (8, 24),
    batches: (100, 200),
    lengths: (1, 9),
    calibrations: 20,
    started: true,
};

fn shape(rng: &mut Rng) -> Shape {
    match rng.below(50) {
        0 => gen::LARGE,
        1..=3 => gen::FULL,
        4..=15 => gen::MEDIUM,
        16..=30 => gen::SMALL,
        _ => WIDE,
    }
}

/// Sheets without a fault.
pub fn sound(seed: u64, count: usize) -> Vec<Case> {
    let mut rng = Rng::new(seed);
    let case = |_| {
        let shape = shape(&mut rng);
        Case::from(gen::draft(&mut rng, shape).render())
    };
    (0..count).map(case).collect()
}

/// Sheets of as many bytes as a sheet can have.
pub fn largest(seed: u64, count: usize) -> Vec<Case> {
    let mut rng = Rng::new(seed);
    let line = |rng: &mut Rng| Line {
        length: rng.within(1, 1440),
        place: match rng.below(4) {
            0 => None,
            _ => Some(rng.within(0, 24)),
        },
        mark: 0,
        list: gen::list(rng, 24, 24),
    };
    let case = |_| {
        let calibrations = gen::calibrations(&mut rng, 24, Sheet::CALIBRATION);
        let mut lines: Vec<Line> = (0..200).map(|_| line(&mut rng)).collect();
        gen::start(&mut rng, &mut lines);
        let draft = Draft {
            instruments: 24,
            calibrations,
            lines,
        };
        Case::from(draft.render())
    };
    (0..count).map(case).collect()
}

/// Sheets spoilt in one to three places, at random.
pub fn damaged(seed: u64, count: usize) -> Vec<Case> {
    let mut rng = Rng::new(seed);
    let case = |_| {
        let shape = shape(&mut rng);
        let mut file = gen::draft(&mut rng, shape).render();
        for _ in 0..rng.within(1, 3) {
            gen::damage(&mut rng, &mut file);
        }
        Case::from(file)
    };
    (0..count).map(case).collect()
}

/// A place for this list: left blank, 0, the lowest listed or the highest; and a mark
/// that goes with it.
fn place(rng: &mut Rng, list: &[u32]) -> (Option<u32>, u32) {
    let place = *rng.pick(&[None, Some(0), list.first().copied(), list.last().copied()]);
    let given = place.is_some_and(|place| place != 0);
    (place, (given && rng.once_in(2)) as u32)
}

/// One small sheet spoilt at every byte: the byte changed, another put before
/// it, the byte left out, and the file cut there or carried on from there.
pub fn every_byte(seed: u64) -> Vec<Case> {
    const BYTES: &[u8; 18] = b" 0123456789\n\t\r-x\0\xb2";
    let mut rng = Rng::new(seed);
    let mut draft = gen::draft(&mut rng, WIDE);
    draft.lines.truncate(rng.within(1, 3) as usize);
    for line in &mut draft.lines {
        line.list.truncate(rng.within(1, 6) as usize);
        (line.place, line.mark) = place(&mut rng, &line.list);
    }
    let file = draft.render();
    let mut cases = Vec::new();
    for at in 0..file.len() {
        for &byte in BYTES {
            let mut changed = file.clone();
            changed[at] = byte;
            cases.push(changed);
        }
        for byte in *b" 0\n" {
            let mut longer = file.clone();
            longer.insert(at, byte);
            cases.push(longer);
        }
        let mut shorter = file.clone();
        shorter.remove(at);
        cases.push(shorter);
        cases.push(file[..at].to_vec());
        cases.push([&file, &file[at..]].concat());
    }
    cases.into_iter().map(Case::from).collect()
}

/// A sheet of 24 instruments with every field of line 2 and of one batch's line
/// replaced in turn by numbers at the edges and by what is no number.
pub fn every_field(seed: u64) -> Vec<Case> {
    const TEXTS: [&[u8; 6]; 29] = [
        b"     0", b"     1", b"     2", b"    23", b"    24", b"    25", b"    26", b"   200",
        b"   201", b"   239", b"   240", b"   241", b"   256", b"   257", b"  1440", b"  1441",
        b" 65536", b" 65537", b"999999", b"      ", b"    00", b"    07", b"000001", b"     x",
        b"    -1", b"    +1", b"1     ", b"   1 2", b"     \n",
    ];
    let mut rng = Rng::new(seed);
    let n = rng.within(1, 6);
    let calibrations = gen::calibrations(&mut rng, 24, Sheet::CALIBRATION);
    let mut draft = Draft::new(24, &[]).calibrated(&calibrations);
    for _ in 0..n {
        let list = gen::list(&mut rng, 24, 24);
        let (place, mark) = place(&mut rng, &list);
        draft.lines.push(Line {
            length: rng.within(1, 1440),
            place,
            mark,
            list,
        });
    }
    let file = draft.render();
    let line = rng.below(n as u64) as usize;
    let start = 13 + (24 * 6 + 1) + line * (28 * 6 + 1);
    let calibrations = (0..24).map(|field| 13 + 6 * field);
    let batch = (0..28).map(|field| start + 6 * field);
    let mut cases = Vec::new();
    for at in calibrations.chain(batch) {
        for text in TEXTS {
            let mut changed = file.clone();
            changed[at..at + 6].copy_from_slice(text);
            cases.push(Case::from(changed));
        }
    }
    cases
}

/// Sheets with a fault of a known kind at a line drawn evenly, and now and
/// then a second one, in which case the first from the front must count.
pub fn faulty(seed: u64, count: usize) -> Vec<Case> {
    let mut rng = Rng::new(seed);
    let case = |_| {
        let shape = Shape {
            batches: match rng.below(8) {
                0 => (200, 200),
                1 => (1, 200),
                _ => (1, 12),
            },
            ..WIDE
        };
        let mut draft = gen::draft(&mut rng, shape);
        let mut bytes = None;
        for _ in 0..if rng.once_in(4) { 2 } else { 1 } {
            if let Some(change) = fault(&mut rng, &mut draft) {
                bytes = Some(change);
            }
        }
        let mut file = draft.render();
        if let Some(change) = bytes {
            change.make(&mut rng, &mut file);
        }
        Case::from(file)
    };
    (0..count).map(case).collect()
}

/// A fault that a draft cannot hold.
enum Change {
    /// Another number of batches in line 1.
    Batches,
    /// Another number in the fourth field of a line, its list kept.
    Count { line: usize, count: u32 },
    /// Blanks in some field of a line; the place may be left so.
    Blank { line: usize },
    /// Other bytes in place of a line's LF.
    End { line: usize },
    /// Bytes after the last line.
    Tail,
}

impl Change {
    fn make(self, rng: &mut Rng, file: &mut Vec<u8>) {
        match self {
            Change::Batches => {
                let n = *rng.pick(&[0, 1, 199, 200, 201, 202, 256, 999, 65_536, 999_999]);
                file[6..12].copy_from_slice(format!("{n:>6}").as_bytes());
            }
            Change::Count { line, count } => {
                if let Some(start) = line_start(file, line) {
                    if let Some(field) = file.get_mut(start + 18..start + 24) {
                        field.copy_from_slice(format!("{count:>6}").as_bytes());
                    }
                }
            }
            Change::Blank { line } => {
                if let Some(start) = line_start(file, line) {
                    let next = line_start(file, line + 1).unwrap_or(file.len());
                    let field = rng.below((next - start) as u64 / 6) as usize;
                    file[start + 6 * field..][..6].fill(b' ');
                }
            }
            Change::End { line } => {
                if let Some(next) = line_start(file, line + 1) {
                    let with = *rng.pick(&["", " ", "\r", "\r\n", "\n\n", "     1\n"]);
                    file.splice(next - 1..next, with.bytes());
                }
            }
            Change::Tail => {
                let line = "     1     1     0     1     1\n";
                let tail = *rng.pick(&["\n", " ", "\0", "     0", line]);
                file.extend(tail.bytes());
            }
        }
    }
}

/// Where the line of this number (from 1) starts.
fn line_start(file: &[u8], line: usize) -> Option<usize> {
    let lines = file.split_inclusive(|&b| b == b'\n').take(line - 1);
    let (count, start) = lines.fold((0, 0), |(k, sum), l| (k + 1, sum + l.len()));
    (count == line - 1).then_some(start)
}

/// Put a fault into the draft, or name one for the bytes.
fn fault(rng: &mut Rng, draft: &mut Draft) -> Option<Change> {
    // A first fault may have spoilt the number of instruments.
    let m = draft.instruments.clamp(1, 24);
    let at = rng.below(draft.lines.len() as u64) as usize;
    let kind = rng.below(29);
    let line = &mut draft.lines[at];
    if line.list.is_empty() {
        return Some(Change::Tail);
    }
    let item = rng.below(line.list.len() as u64) as usize;
    match kind {
        0 => draft.instruments = *rng.pick(&[0, 25, 26, 256, 257, 65_537, 999_999]),
        1 => return Some(Change::Batches),
        2..=4 => line.length = *rng.pick(&[0, 1441, 1442, 1440 + 65_536, 65_537, 999_999]),
        5 => line.list.clear(),
        6 => {
            let again = *rng.pick(&line.list);
            line.list.insert(item, again);
        }
        7 => line.list[item] = *rng.pick(&[0, m + 1, 255, 256, 257, 65_537, 999_999]),
        8 => {
            let other = rng.below(line.list.len() as u64) as usize;
            line.list[item] = line.list[other];
        }
        9..=11 => {
            let strange = rng.within(1, m + 1);
            let far = *rng.pick(&[25, 32, 33, 256, 65_536]) + line.list[item];
            line.place = Some(if rng.once_in(3) { far } else { strange });
        }
        12 => {
            let count = *rng.pick(&[0, 1, m - 1, m, m + 1, 25, 256, 999_999]);
            return Some(Change::Count {
                line: at + 3,
                count,
            });
        }
        13 => return Some(Change::Tail),
        14 | 15 => {
            return Some(Change::Blank {
                line: rng.within(1, at as u32 + 3) as usize,
            })
        }
        16 | 17 => {
            return Some(Change::End {
                line: rng.within(1, at as u32 + 3) as usize,
            })
        }
        18 => {
            // One calibration too few or too many.
            if draft.calibrations.len() > 1 && rng.once_in(2) {
                draft.calibrations.pop();
            } else {
                draft.calibrations.push(*rng.pick(&[0, 240, 241]));
            }
        }
        19 => line.mark = *rng.pick(&[2, 3, 9, 10, 11, 256, 257, 65_537, 999_999]),
        20 | 21 => {
            line.mark = 1;
            line.place = *rng.pick(&[None, Some(0)]);
        }
        22..=25 => {
            line.list = gen::unordered_list(rng, m);
            // At times with what comes after it, or before it.
            match rng.below(6) {
                0 => line.place = Some(m + 1),
                1 => return Some(Change::End { line: at + 3 }),
                2 => line.list.extend(line.list.first().copied()),
                _ => {}
            }
        }
        _ => {
            let k = rng.below(draft.calibrations.len() as u64) as usize;
            draft.calibrations[k] = *rng.pick(&[241, 242, 256, 257, 496, 65_536, 65_776, 999_999]);
        }
    }
    None
}

/// Sheets with none, few or up to all batches, and up to 16 edits on each.
pub fn edits(seed: u64, count: usize) -> Vec<Case> {
    let mut rng = Rng::new(seed);
    let case = |_| {
        let shape = Shape {
            batches: match rng.below(16) {
                0 => (200, 200),
                1 => (190, 200),
                2 => (1, 200),
                3..=5 => (0, 0),
                _ => (1, 9),
            },
            ..WIDE
        };
        let mut draft = gen::draft(&mut rng, shape);
        if draft.lines.len() > 100 {
            // Short lines keep the sheet short.
            for line in &mut draft.lines {
                line.list.truncate(4);
                if line.given().is_some_and(|j| !line.list.contains(&j)) {
                    line.place = match line.started() {
                        true => Some(line.list[0]),
                        false => *rng.pick(&[Some(0), None]),
                    };
                }
            }
        }
        // The second planner goes along, so that most numbers hit something.
        let mut sheet = draft.sheet();
        let mut calls = Vec::new();
        for _ in 0..rng.within(1, 16) {
            let call = edit(&mut rng, &sheet);
            apply(&mut sheet, &call);
            calls.push(call);
        }
        Case {
            sheet: draft.render(),
            calls,
        }
    };
    (0..count).map(case).collect()
}

/// A sheet of any shape, now and then a large or a crowded one.
fn any_draft(rng: &mut Rng) -> Draft {
    let shape = match rng.below(16) {
        0 => CROWDED,
        1 => gen::LARGE,
        _ => shape(rng),
    };
    gen::draft(rng, shape)
}

/// Sheets with a review, trials at the ends, at random and about the average
/// load, and edits in between, after each of which there is more of the same.
pub fn reviews_and_trials(seed: u64, count: usize) -> Vec<Case> {
    let mut rng = Rng::new(seed);
    let case = |_| {
        let draft = any_draft(&mut rng);
        let mut sheet = draft.sheet();
        let total = sheet.total() as u64;
        let ends = [0, total, total + 1, GREATEST];
        let mut calls = vec![Call::Review];
        calls.extend(ends.map(|level| Call::Trial { level }));
        levels(&mut rng, &sheet, 4, &mut calls);
        for _ in 0..rng.below(4) {
            let call = edit(&mut rng, &sheet);
            apply(&mut sheet, &call);
            calls.push(call);
            calls.push(Call::Review);
            levels(&mut rng, &sheet, 1, &mut calls);
        }
        Case {
            sheet: draft.render(),
            calls,
        }
    };
    (0..count).map(case).collect()
}

/// Calls of every kind in any order on one sheet, good and bad arguments
/// mixed, each on what the one before left. Balance and settle come in either
/// order, alone and more than once.
pub fn runs(seed: u64, count: usize) -> Vec<Case> {
    let mut rng = Rng::new(seed);
    let case = |_| {
        let draft = any_draft(&mut rng);
        let mut sheet = draft.sheet();
        let mut calls = Vec::new();
        for _ in 0..rng.within(1, 16) {
            let call = match rng.below(11) {
                0 => Call::Review,
                1 => Call::Trial {
                    level: rng.below(sheet.total() as u64 + 3),
                },
                2..=4 => Call::Balance {
                    entries: entries(&mut rng, &sheet),
                },
                5 | 6 => Call::Settle {
                    entries: entries(&mut rng, &sheet),
                },
                _ => edit(&mut rng, &sheet),
            };
            apply(&mut sheet, &call);
            calls.push(call);
        }
        Case {
            sheet: draft.render(),
            calls,
        }
    };
    (0..count).map(case).collect()
}

/// Trials at levels of four kinds, `times` of each.
fn levels(rng: &mut Rng, sheet: &Sheet, times: usize, calls: &mut Vec<Call>) {
    let total = sheet.total() as u64;
    let average = total / sheet.instruments() as u64;
    let longest = sheet.longest() as u64;
    let finish = sheet.finish() as u64;
    for _ in 0..times {
        // From below any trial's level to the first that passes at once.
        let low = average.saturating_sub(longest);
        for level in [
            rng.below(total + 2),
            low + rng.below(longest + 2),
            average.saturating_sub(rng.below(3)) + rng.below(3),
            finish.saturating_sub(longest + rng.below(1 + finish / 4)),
        ] {
            calls.push(Call::Trial { level });
        }
    }
}

/// Hard sheets of 24 instruments and 200 batches, each with some edits; of four
/// seeds the second and the fourth have calibrations, and the third has started
/// batches.
pub fn hard_edits(seed: u64, count: usize) -> Vec<(Sheet, Vec<Call>)> {
    let mut rng = Rng::new(seed);
    let case = |_| {
        let start = match seed % 4 {
            0 => gen::hard(rng.next_u64()),
            2 => gen::hard_started(rng.next_u64()),
            _ => gen::hard_calibrated(rng.next_u64()),
        };
        let mut sheet = start.clone();
        let mut calls = Vec::new();
        for _ in 0..rng.within(1, 8) {
            let call = edit(&mut rng, &sheet);
            apply(&mut sheet, &call);
            calls.push(call);
        }
        (start, calls)
    };
    (0..count).map(case).collect()
}

/// Those sheets, tried at every level that halving comes to and at those next
/// to them, and once more after the edits.
pub fn hard(seed: u64, count: usize) -> Vec<Case> {
    let case = |(start, edits): (Sheet, Vec<Call>)| {
        let mut calls = Vec::new();
        halving(&start, &mut calls);
        let mut sheet = start.clone();
        second::run(&mut sheet, &edits);
        calls.extend(edits);
        halving(&sheet, &mut calls);
        Case {
            sheet: Draft::from(&start).render(),
            calls,
        }
    };
    hard_edits(seed, count).into_iter().map(case).collect()
}

fn halving(sheet: &Sheet, calls: &mut Vec<Call>) {
    calls.push(Call::Review);
    let (mut failed, mut passed) = (-1, sheet.finish() as i64);
    while passed - failed > 1 {
        let level = (failed + passed).div_euclid(2);
        for near in [level - 1, level, level + 1] {
            if let Ok(level) = u64::try_from(near) {
                calls.push(Call::Trial { level });
            }
        }
        match trial(sheet, level as u64).unwrap().verdict {
            Verdict::Pass(_) => passed = level,
            Verdict::Fail(_) => failed = level,
        }
    }
}

/// An edit of any kind, its arguments good more often than not.
pub fn edit(rng: &mut Rng, sheet: &Sheet) -> Call {
    let full = sheet.batches().len() == Sheet::BATCHES;
    match rng.below(9) {
        0 | 1 => Call::Add {
            length: length(rng),
            list: list(rng, sheet),
        },
        // A full sheet is kept full more often than not.
        2 if full && !rng.once_in(3) => Call::Add {
            length: length(rng),
            list: list(rng, sheet),
        },
        2 | 3 => Call::Withdraw {
            number: number(rng, sheet),
        },
        4 | 5 => Call::Requalify {
            number: number(rng, sheet),
            list: list(rng, sheet),
        },
        6 => Call::Start {
            number: number(rng, sheet),
        },
        _ => {
            let number = number(rng, sheet);
            Call::Move {
                number,
                instrument: instrument(rng, sheet, number),
            }
        }
    }
}

/// To requalify, move or start the batch of this number, there or not.
pub fn change(rng: &mut Rng, sheet: &Sheet, number: u64) -> Call {
    match rng.below(5) {
        0 | 1 => Call::Requalify {
            number,
            list: list(rng, sheet),
        },
        2 | 3 => Call::Move {
            number,
            instrument: instrument(rng, sheet, number),
        },
        _ => Call::Start { number },
    }
}

/// A number that is no good for anything, or only by chance.
fn edge(rng: &mut Rng, usual: u64) -> u64 {
    let edges = [
        0,
        24,
        25,
        199,
        200,
        201,
        256 + usual,
        1441,
        65_536 + usual,
        100_000 + usual,
        GREATEST - usual,
        GREATEST,
    ];
    *rng.pick(&edges)
}

fn length(rng: &mut Rng) -> u64 {
    let usual = match rng.below(8) {
        0 => 1,
        1 => 1440,
        _ => rng.within(1, 1440),
    } as u64;
    if rng.once_in(6) {
        edge(rng, usual)
    } else {
        usual
    }
}

/// A batch, most often one that is there.
fn number(rng: &mut Rng, sheet: &Sheet) -> u64 {
    let n = sheet.batches().len() as u64;
    match rng.below(10) {
        0 => edge(rng, n),
        1 => rng.below(n + 2),
        2 => n,
        _ => 1 + rng.below(n.max(1)),
    }
}

/// A place for a batch, most often one of its list.
fn instrument(rng: &mut Rng, sheet: &Sheet, number: u64) -> u64 {
    let m = sheet.instruments() as u64;
    let batch = (number as usize).checked_sub(1);
    match batch.and_then(|b| sheet.batches().get(b)) {
        Some(batch) if !rng.once_in(3) => *rng.pick(&batch.list) as u64,
        Some(batch) if rng.once_in(2) => edge(rng, batch.place as u64),
        _ => rng.below(m + 2),
    }
}

/// Entries of a list for records, most often enough of them.
fn entries(rng: &mut Rng, sheet: &Sheet) -> u64 {
    let n = sheet.batches().len() as u64;
    match rng.below(12) {
        0 => 0,
        1 => rng.below(n + 1),
        2 => n.saturating_sub(1),
        3..=6 => n,
        7 | 8 => n + 1,
        9 => n + rng.below(200),
        10 => Sheet::BATCHES as u64,
        _ => GREATEST,
    }
}

/// A list for an edit, sound about half of the time.
fn list(rng: &mut Rng, sheet: &Sheet) -> Vec<u64> {
    let m = sheet.instruments();
    let count = match rng.below(4) {
        0 => 1,
        1 => m,
        _ => rng.within(1, m),
    };
    let mut list: Vec<u64> = gen::list(rng, m, count)
        .into_iter()
        .map(u64::from)
        .collect();
    let k = rng.below(list.len() as u64) as usize;
    match rng.below(19) {
        0 => list.clear(),
        1 => list.insert(k, list[k]),
        2 => list.push(list[k]),
        3 => list[k] = edge(rng, list[k]),
        4 => list[k] = m as u64 + 1,
        5 => list.push(m as u64 + 1),
        6 => list[k] = 0,
        7 => {
            // Longer than any sheet allows, at times by very much.
            let most = if rng.once_in(8) { 255 } else { m + 4 };
            let longer = rng.within(m + 1, most);
            list = (0..longer as u64).map(|i| 1 + i % m as u64).collect();
        }
        8..=10 => {
            let unordered = gen::unordered_list(rng, m);
            list = unordered.into_iter().map(u64::from).collect();
            // At times with a fault that comes before it.
            match rng.below(6) {
                0 => list.push(list[0]),
                1 => list[0] = edge(rng, list[0]),
                _ => {}
            }
        }
        _ => {}
    }
    list
}
