//! Seeded sheets, damaged files, runs, and sheets that make a trial sweat.

use crate::draft::{Draft, Line};
use crate::rng::Rng;
use crate::run::Call;
use crate::sheet::Sheet;

/// Ranges to draw a sheet from, both ends included.
#[derive(Clone, Copy, Debug)]
pub struct Shape {
    pub instruments: (u32, u32),
    pub batches: (u32, u32),
    pub lengths: (u32, u32),
    /// The longest calibration; with 0 none is drawn.
    pub calibrations: u32,
    /// Whether batches may have started.
    pub started: bool,
}

impl Shape {
    /// The same without calibrations.
    pub fn uncalibrated(self) -> Shape {
        Shape {
            calibrations: 0,
            ..self
        }
    }

    /// The same without a started batch.
    pub fn waiting(self) -> Shape {
        Shape {
            started: false,
            ..self
        }
    }
}

/// Few enough plans to look at all of them.
pub const SMALL: Shape = Shape {
    instruments: (1, 4),
    batches: (0, 6),
    lengths: (1, 9),
    calibrations: 9,
    started: true,
};

/// Large enough for long chains, small enough to watch every step.
pub const MEDIUM: Shape = Shape {
    instruments: (1, 9),
    batches: (0, 30),
    lengths: (1, 60),
    calibrations: 60,
    started: true,
};

/// Anything within the limits.
pub const FULL: Shape = Shape {
    instruments: (1, 24),
    batches: (0, 200),
    lengths: (1, 1440),
    calibrations: Sheet::CALIBRATION,
    started: true,
};

/// As large as the limits allow.
pub const LARGE: Shape = Shape {
    instruments: (24, 24),
    batches: (200, 200),
    lengths: (1, 1440),
    calibrations: Sheet::CALIBRATION,
    started: true,
};

/// So many instruments, in any order.
fn any_of(rng: &mut Rng, m: u32, count: u32) -> Vec<u32> {
    let mut all: Vec<u32> = (1..=m).collect();
    rng.shuffle(&mut all);
    all.truncate(count as usize);
    all
}

/// A sound list of so many instruments.
pub fn list(rng: &mut Rng, m: u32, count: u32) -> Vec<u32> {
    let mut list = any_of(rng, m, count);
    list.sort();
    list
}

/// A list that is sound but for its order; on one instrument a sound one.
pub fn unordered_list(rng: &mut Rng, m: u32) -> Vec<u32> {
    let count = rng.within(m.min(2), m);
    let mut list = list(rng, m, count);
    disorder(rng, &mut list);
    list
}

/// Put a list out of order, if it has more than one member.
pub fn disorder<T>(rng: &mut Rng, list: &mut [T]) {
    let Some(last) = list.len().checked_sub(1).filter(|&last| last > 0) else {
        return;
    };
    let k = rng.below(last as u64) as usize;
    match rng.below(4) {
        0 => list.swap(k, k + 1),
        1 => list.swap(k, last),
        2 => list[k..].rotate_right(1),
        _ => list.reverse(),
    }
}

/// Calibrations of up to so many minutes: all 0, all the longest, or some.
pub fn calibrations(rng: &mut Rng, m: u32, longest: u32) -> Vec<u32> {
    if longest == 0 {
        return vec![0; m as usize];
    }
    let kind = rng.below(6);
    let some = (0..m).map(|_| match kind {
        0 | 1 => 0,
        2 => longest,
        3 if !rng.once_in(3) => 0,
        4 if rng.once_in(2) => *rng.pick(&[0, longest]),
        _ => rng.within(0, longest),
    });
    some.collect()
}

/// Start none of the lines' batches, all, half of them or few. One without a
/// place given gets one of its list.
pub fn start(rng: &mut Rng, lines: &mut [Line]) {
    let kind = rng.below(6);
    for line in lines {
        let starts = match kind {
            0 | 1 => false,
            2 => true,
            3 => rng.once_in(2),
            _ => rng.once_in(5),
        };
        if starts {
            line.mark = 1;
            line.place = line.given().or_else(|| Some(*rng.pick(&line.list)));
        }
    }
}

/// A sound draft: how lists, lengths, places, calibrations and marks lean differs
/// from one to the next.
pub fn draft(rng: &mut Rng, shape: Shape) -> Draft {
    let mut draft = unordered(rng, shape);
    draft.lines.iter_mut().for_each(|line| line.list.sort());
    draft
}

/// A draft that is sound but for the order of its lists.
pub fn unordered(rng: &mut Rng, shape: Shape) -> Draft {
    let m = rng.within(shape.instruments.0, shape.instruments.1);
    let n = rng.within(shape.batches.0, shape.batches.1);
    let (shortest, longest) = shape.lengths;
    let lists = rng.below(4);
    let lengths = rng.below(4);
    let places = rng.below(5);
    let usual = rng.within(shortest, longest);
    let lines = (0..n).map(|_| {
        let count = match lists {
            0 => rng.within(1, m),
            1 => rng.within(1, m.min(3)),
            2 if rng.once_in(2) => 1,
            _ => m - rng.within(0, (m - 1).min(1)),
        };
        let list = any_of(rng, m, count);
        let length = match lengths {
            0 => usual,
            1 if rng.once_in(2) => longest,
            2 if !rng.once_in(4) => {
                rng.within(shortest, shortest.midpoint(longest).min(shortest + 3))
            }
            _ => rng.within(shortest, longest),
        };
        let place = match places {
            0 => list.iter().min().copied(),
            1 => Some(0),
            2 => None,
            3 if rng.once_in(2) => *rng.pick(&[Some(0), None]),
            _ => Some(*rng.pick(&list)),
        };
        Line {
            length,
            place,
            mark: 0,
            list,
        }
    });
    let mut lines: Vec<Line> = lines.collect();
    let calibrations = calibrations(rng, m, shape.calibrations);
    if shape.started {
        start(rng, &mut lines);
    }
    Draft {
        instruments: m,
        calibrations,
        lines,
    }
}

/// A sound sheet.
pub fn sheet(rng: &mut Rng, shape: Shape) -> Sheet {
    draft(rng, shape).sheet()
}

/// Numbers that sit at the edges of what a file may hold.
const EDGES: [u32; 19] = [
    0, 1, 2, 3, 7, 23, 24, 25, 199, 200, 201, 239, 240, 241, 1439, 1440, 1441, 100_000, 999_999,
];

/// Spoil a file in one place. Now and then the result is still sound.
pub fn damage(rng: &mut Rng, file: &mut Vec<u8>) {
    const BYTES: [u8; 14] = *b" 0123459\n\t\r-x\0";
    let len = file.len() as u64;
    match rng.below(11) {
        0 => file.truncate(rng.below(len + 1) as usize),
        1 => {
            for _ in 0..rng.within(1, 7) {
                let byte = *rng.pick(&BYTES);
                file.push(byte);
            }
        }
        2 => {
            let byte = *rng.pick(&BYTES);
            file.insert(rng.below(len + 1) as usize, byte);
        }
        3 if len > 0 => {
            file.remove(rng.below(len) as usize);
        }
        4 if len > 0 => {
            let byte = rng.next_u64() as u8;
            file[rng.below(len) as usize] = byte;
        }
        5 if len > 0 => {
            let byte = *rng.pick(&BYTES);
            file[rng.below(len) as usize] = byte;
        }
        6 if !places(file).is_empty() => {
            // Another mark, and often no place or a bad length beside it.
            let at = *rng.pick(&places(file));
            let texts = [
                b"     0", b"     1", b"     1", b"     2", b"     9", b"      ",
            ];
            let mark = *rng.pick(&texts);
            if let Some(field) = file.get_mut(at + 6..at + 12) {
                field.copy_from_slice(mark);
            }
            if rng.once_in(2) {
                let none = *rng.pick(&[b"     0", b"      "]);
                file[at..at + 6].copy_from_slice(none);
            }
            if rng.once_in(4) {
                let length = *rng.pick(&[b"     0", b"  1441"]);
                file[at - 6..at].copy_from_slice(length);
            }
        }
        7 if !places(file).is_empty() => {
            // A list in another order, and at times no LF after it.
            let at = *rng.pick(&places(file));
            let rest = file[at..].iter().position(|&b| b == b'\n');
            let end = at + rest.unwrap_or(file.len() - at);
            let Some(list) = file.get_mut(at + 18..end) else {
                return;
            };
            let mut members: Vec<Vec<u8>> = list.chunks(6).map(<[u8]>::to_vec).collect();
            disorder(rng, &mut members);
            list.copy_from_slice(&members.concat());
            if end < file.len() && rng.once_in(4) {
                file[end] = *rng.pick(&BYTES);
            }
        }
        _ => {
            // Another number in some field, or blanks.
            let starts: Vec<usize> = fields(file);
            if starts.is_empty() {
                return;
            }
            let start = *rng.pick(&starts);
            let field = match rng.below(7) {
                0 => " ".repeat(6),
                1 | 2 => format!("{:>6}", rng.pick(&EDGES)),
                3 | 4 => format!("{:>6}", rng.within(0, 30)),
                _ => format!("{:>6}", rng.within(0, 1500)),
            };
            file[start..start + 6].copy_from_slice(field.as_bytes());
        }
    }
}

/// Where whole fields start in a file that keeps to six columns.
pub fn fields(file: &[u8]) -> Vec<usize> {
    let mut starts = Vec::new();
    let mut at = 0;
    for line in file.split_inclusive(|&b| b == b'\n') {
        starts.extend((0..line.len() / 6).map(|k| at + 6 * k));
        at += line.len();
    }
    starts
}

/// Where the places start in a sheet's file that does so: from line 3 on, one
/// field after the LF of the line before.
pub fn places(file: &[u8]) -> Vec<usize> {
    let line_ends = (0..file.len()).filter(|&at| file[at] == b'\n');
    let starts = line_ends.skip(1).map(|at| at + 7);
    starts.filter(|at| at + 6 <= file.len()).collect()
}

/// Where the marks start, one field after the places.
pub fn marks(file: &[u8]) -> Vec<usize> {
    let starts = places(file).into_iter().map(|at| at + 6);
    starts.filter(|at| at + 6 <= file.len()).collect()
}

/// How many of the places are left blank.
pub fn blank_places(file: &[u8]) -> usize {
    let blank = |&at: &usize| file[at..at + 6] == *b"      ";
    places(file).into_iter().filter(blank).count()
}

/// An accepted file with every place that is 0 or blank filled in: it gets the
/// columns of the lowest instrument listed, which stand three fields further on.
pub fn with_places(file: &[u8]) -> Vec<u8> {
    let mut filled = file.to_vec();
    for at in places(file) {
        if matches!(&file[at..at + 6], b"     0" | b"      ") {
            filled.copy_within(at + 18..at + 24, at);
        }
    }
    filled
}

/// Put another number, no place, or a list out of order in some line of a draft
/// that has one. Now and then the result is still sound.
pub fn misstate(rng: &mut Rng, draft: &mut Draft) {
    let m = draft.instruments;
    let k = rng.below(draft.lines.len() as u64) as usize;
    let line = &mut draft.lines[k];
    let near = *rng.pick(&[0, 1, m - 1, m, m + 1, m + 2]);
    let far = *rng.pick(&EDGES);
    let number = *rng.pick(&[near, near, far]);
    match rng.below(10) {
        0 => line.length = *rng.pick(&EDGES),
        1 => line.length = *rng.pick(&[0, 1, 1439, 1440, 1441]),
        2 => line.place = *rng.pick(&[Some(number), Some(number), None]),
        3 => line.mark = *rng.pick(&[0, 1, 2, 9, 10, number]),
        4 => {
            line.mark = 1;
            line.place = *rng.pick(&[Some(0), None]);
        }
        5 => line.list.push(number),
        6 => line
            .list
            .resize(m as usize + rng.within(0, 2) as usize, number),
        7 | 8 => line.list = unordered_list(rng, m),
        _ => *line.list.last_mut().expect("a list") = number,
    }
}

fn edge_or(rng: &mut Rng, usual: u64) -> u64 {
    match rng.below(12) {
        0 => u64::MAX - rng.below(3),
        1 => u32::MAX as u64 + rng.below(3),
        2 => 256 + rng.below(3),
        3 => *rng.pick(&EDGES) as u64,
        _ => usual,
    }
}

/// A list for an edit, most often a sound one.
pub fn call_list(rng: &mut Rng, m: u32) -> Vec<u64> {
    let count = rng.within(1, m);
    let mut list: Vec<u64> = list(rng, m, count).into_iter().map(u64::from).collect();
    match rng.below(14) {
        0 => list.clear(),
        1 => {
            let again = *rng.pick(&list);
            list.push(again);
        }
        2 => {
            let k = rng.below(list.len() as u64) as usize;
            list[k] = edge_or(rng, 0);
        }
        3 => list = (0..m as u64 + 1 + rng.below(3)).collect(),
        4 | 5 => list = unordered_list(rng, m).into_iter().map(u64::from).collect(),
        _ => {}
    }
    list
}

/// Entries of a list lent for the records of about `n` batches.
fn call_entries(rng: &mut Rng, n: u64) -> u64 {
    let near = (n + rng.below(3)).saturating_sub(1);
    let usual = *rng.pick(&[near, near, Sheet::BATCHES as u64]);
    edge_or(rng, usual)
}

/// Calls of every kind with arguments good and bad, meant for a sheet of `m`
/// instruments that starts with `n` batches of lengths up to `longest`.
pub fn calls(rng: &mut Rng, m: u32, n: u32, longest: u32, count: usize) -> Vec<Call> {
    // A rough count of batches keeps most numbers in range.
    let mut n = n as u64;
    let mut calls = Vec::with_capacity(count);
    for _ in 0..count {
        let usual = rng.below(n + 2);
        let number = edge_or(rng, usual);
        calls.push(match rng.below(14) {
            0..=2 => {
                n = (n + 1).min(Sheet::BATCHES as u64);
                let usual = rng.within(1, longest) as u64;
                Call::Add {
                    length: edge_or(rng, usual),
                    list: call_list(rng, m),
                }
            }
            3 => {
                n = n.saturating_sub(1);
                Call::Withdraw { number }
            }
            4 | 5 => Call::Requalify {
                number,
                list: call_list(rng, m),
            },
            6 | 7 => {
                let usual = rng.below(m as u64 + 2);
                Call::Move {
                    number,
                    instrument: edge_or(rng, usual),
                }
            }
            8 => Call::Review,
            9 | 10 => {
                let usual = rng.below(n * longest as u64 / 2 + 2);
                Call::Trial {
                    level: edge_or(rng, usual),
                }
            }
            11 => Call::Balance {
                entries: call_entries(rng, n),
            },
            12 => Call::Settle {
                entries: call_entries(rng, n),
            },
            _ => Call::Start { number },
        });
    }
    calls
}

/// A sheet at the limits on which trials make very many steps.
///
/// The last instrument is empty and nothing can go there, so a trial never
/// runs out of light instruments. Each of the others has a long batch that
/// cannot leave it. A few more long batches are free and fit nowhere, and to
/// reach them an instrument must first bump off all of the minute-long
/// batches, which have lower numbers.
pub fn hard(seed: u64) -> Sheet {
    let mut rng = Rng::new(seed);
    let m = Sheet::INSTRUMENTS;
    let open: Vec<u32> = (1..m).collect();
    let long = rng.within(Sheet::LENGTH - 40, Sheet::LENGTH);
    let free = rng.within(2, 3);
    let short = Sheet::BATCHES as u32 - open.len() as u32 - free;
    let mut lines = Vec::with_capacity(Sheet::BATCHES);
    let mut put = |length, place, list: &[u32]| {
        lines.push(Line {
            length,
            place: Some(place),
            mark: 0,
            list: list.to_vec(),
        });
    };
    for &j in &open {
        // Some a little shorter, so that sheets differ in more than scale.
        let less = if rng.once_in(4) {
            rng.within(0, long / 4)
        } else {
            0
        };
        put(long - less, j, &[j]);
    }
    for _ in 0..short {
        put(1, 1, &open);
    }
    for _ in 0..free {
        put(long, 1, &open);
    }
    Draft {
        instruments: m,
        calibrations: vec![0; m as usize],
        lines,
    }
    .sheet()
}

/// The same with every long batch that cannot leave qualified on all instruments,
/// and started: nothing that is answered differs.
pub fn hard_started(seed: u64) -> Sheet {
    let mut draft = Draft::from(&hard(seed));
    for line in &mut draft.lines {
        if line.list.len() == 1 {
            line.list = (1..=Sheet::INSTRUMENTS).collect();
            line.mark = 1;
        }
    }
    draft.sheet()
}

/// The hard shape with calibrations in the stead of the batches that cannot leave. To
/// reach a calibration an instrument must first bump off all else.
pub fn hard_calibrated(seed: u64) -> Sheet {
    let mut rng = Rng::new(seed);
    let m = Sheet::INSTRUMENTS;
    let open: Vec<u32> = (1..m).collect();
    let long = rng.within(Sheet::CALIBRATION - 10, Sheet::CALIBRATION);
    let free = rng.within(8, 12) as usize;
    let mut calibrations = vec![long; m as usize];
    for minutes in &mut calibrations {
        if rng.once_in(4) {
            *minutes -= rng.within(0, long / 4);
        }
    }
    calibrations[m as usize - 1] = 0;
    let mut lines = vec![(1, 1, open.as_slice()); Sheet::BATCHES - free];
    lines.extend(vec![(long, 1, open.as_slice()); free]);
    Draft::new(m, &lines).calibrated(&calibrations).sheet()
}
