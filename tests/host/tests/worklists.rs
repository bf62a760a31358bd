//! Worklists (document 02, C-18) through the exported call, beside the second
//! planner's reader: the corners of the form, files that another program wrote,
//! random and damaged ones, what comes first, long files and lists, buffers, and
//! that a taken sheet is the typed one.

use std::fs;
use std::hint::black_box;
use std::path::Path;

use host::check::Lent;
use host::due::Due;
use host::share::shared;
use host::told::{answers, file, left, listed, taken, written};
use host::{take, Hosted, LARGEST_SHEET, SHEET};
use second::rng::Rng;
use second::{corners, exports, gen, Draft};

/// The fewest bytes that the sheet of a worklist has: one instrument, one batch.
const LEAST: usize = 13 + 7 + 31;

/// Takes worklists and watches the memory that it lends.
#[derive(Default)]
struct Judge {
    lent: Lent<u8>,
    /// Calls by refusal number, 0 for none.
    met: [usize; 14],
    /// Refusals 12 at another row than the first.
    later: usize,
}

impl Judge {
    /// One call with a buffer of this size.
    fn call(&mut self, m: u32, calibrations: &[u32], worklist: &[u8], size: usize, due: &Due) {
        let call = |sheet: &mut [u8]| take(m, calibrations, worklist, sheet);
        let hosted = self.lent.lend(size, call);
        let (answer, text) = due.at(size);
        let held = self.lent.holds(text);
        if hosted != answer || held.is_err() {
            let shown = worklist[..worklist.len().min(2_000)].escape_ascii();
            panic!("{hosted:?}, expected {answer:?}; {held:?}\n{m} {calibrations:?}\n{shown}");
        }
        self.met[hosted.refusal as usize] += 1;
        self.later += (hosted.refusal == 12 && hosted.line > 1) as usize;
    }

    /// A call beside the second planner, with a buffer that just fits.
    fn compare(&mut self, m: u32, calibrations: &[u32], worklist: &[u8]) {
        let due = Due::sheet(second::take(m, calibrations, worklist));
        let size = due.length_or(LEAST);
        self.call(m, calibrations, worklist, size, &due);
    }

    /// Each of these was met so often.
    fn expect(&self, least: &[(usize, usize)]) {
        println!(
            "by refusal: {:?}; 12 in a later row: {}",
            self.met, self.later
        );
        for &(refusal, least) in least {
            assert!(self.met[refusal] >= least, "{refusal}: {:?}", self.met);
        }
    }
}

/// What two judges have met.
fn both([mut one, other]: [Judge; 2]) -> Judge {
    one.met = std::array::from_fn(|k| one.met[k] + other.met[k]);
    one.later += other.later;
    one
}

#[test]
fn every_corner() {
    let mut judge = Judge::default();
    for &(file, lines) in corners::TAKEN {
        let sheet = format!("     2{:>6}\n     0     0\n{}", lines.len(), lines.concat());
        let due = Due::Text(sheet.into_bytes());
        judge.call(2, &corners::CALIBRATIONS, file, LARGEST_SHEET, &due);
    }
    for &(file, refusal, row) in corners::REFUSED {
        let due = Due::Refused {
            refusal,
            line: row as usize,
        };
        judge.call(2, &corners::CALIBRATIONS, file, LARGEST_SHEET, &due);
    }
    judge.expect(&[(0, 15), (1, 5), (3, 4), (4, 8), (5, 8), (12, 100), (13, 6)]);
}

/// A file of this crate's folder `worklists`.
fn stored(name: &str) -> Vec<u8> {
    let folder = Path::new(env!("CARGO_MANIFEST_DIR")).join("worklists");
    fs::read(folder.join(name)).unwrap_or_else(|error| panic!("{name}: {error}"))
}

/// Worklists that Python's csv module wrote, quoted in every way that it has.
#[test]
fn written_by_another_program() {
    for (name, due) in [
        ("minimal", "small"),
        ("all", "small"),
        ("nonnumeric", "small"),
        ("mixed", "small"),
        ("none", "single"),
        ("largest", "largest"),
        ("largest-all", "largest"),
    ] {
        let worklist = stored(&format!("{name}.csv"));
        let due = String::from_utf8(stored(&format!("{due}.txt"))).unwrap();
        let sheet = second::read(due.as_bytes()).unwrap();
        let (m, calibrations) = (sheet.instruments(), sheet.calibrations());
        assert_eq!(taken(m, calibrations, &worklist), Ok(due.clone()), "{name}");
        // Without the CRLF at the end it is the same, and without the CR not.
        let cut = worklist.len() - 2;
        assert_eq!(taken(m, calibrations, &worklist[..cut]), Ok(due), "{name}");
        let rows = sheet.batches().len();
        let fault = taken(m, calibrations, &worklist[..cut + 1]);
        assert_eq!(fault, Err((12, rows)), "{name}");
    }
    for (name, fault) in [
        ("lf", (12, 1)),
        ("unix", (12, 1)),
        ("cr", (12, 1)),
        ("tabs", (12, 1)),
        ("semicolons", (12, 1)),
        ("apostrophes", (12, 1)),
        ("header", (12, 1)),
        ("escaped", (12, 2)),
        ("last-lf", (12, 6)),
        ("empty-row", (12, 5)),
        ("lines-in-quotes", (12, 7)),
        ("quote", (12, 7)),
        ("spaces", (12, 3)),
        ("two-hundred-and-one", (2, 0)),
    ] {
        let worklist = stored(&format!("{name}.csv"));
        assert_eq!(taken(24, &[0; 24], &worklist), Err(fault), "{name}");
    }
}

/// A sound draft with a batch.
fn draft(rng: &mut Rng) -> Draft {
    let shape = match rng.below(100) {
        0 => gen::LARGE,
        1..=3 => gen::FULL,
        4..=15 => gen::MEDIUM,
        _ => gen::SMALL,
    };
    let shape = gen::Shape {
        batches: (shape.batches.0.max(1), shape.batches.1),
        ..shape
    };
    gen::draft(rng, shape)
}

/// Worklists that say what a sheet says: the outcome is that of reading it, by the
/// library itself and by the second planner, with a row in the stead of a line.
#[test]
fn as_the_sheet() {
    let states = shared(100, Judge::default, |share, judge| {
        let mut rng = Rng::new(5_000 + share);
        for round in 0..120 {
            let mut draft = draft(&mut rng);
            for _ in 0..round % 3 {
                gen::misstate(&mut rng, &mut draft);
            }
            let (m, calibrations) = (draft.instruments, &draft.calibrations);
            let worklist = exports::worklist(&mut rng, &draft);
            judge.compare(m, calibrations, &worklist);
            let read = written(&file(&draft)).map_err(|(refusal, line)| (refusal, line - 2));
            assert_eq!(taken(m, calibrations, &worklist), read);
        }
    });
    both(states).expect(&[
        (0, 3_000),
        (1, 300),
        (3, 400),
        (4, 1_500),
        (5, 1_000),
        (13, 500),
    ]);
}

/// Worklists that were spoilt in some places, and few bytes without a plan.
#[test]
fn damaged() {
    let states = shared(100, Judge::default, |share, judge| {
        let mut rng = Rng::new(6_000 + share);
        for round in 0..2_000 {
            let mut draft = draft(&mut rng);
            if round % 4 == 0 {
                gen::misstate(&mut rng, &mut draft);
            }
            let mut worklist = exports::worklist(&mut rng, &draft);
            for _ in 0..rng.within(1, 3) {
                exports::damage(&mut rng, &mut worklist);
            }
            judge.compare(draft.instruments, &draft.calibrations, &worklist);
            judge.compare(2, &[0, 9], &exports::scribble(&mut rng));
        }
    });
    let judge = both(states);
    judge.expect(&[
        (0, 10_000),
        (1, 2_000),
        (3, 600),
        (4, 6_000),
        (5, 3_000),
        (13, 2_000),
    ]);
    assert!(judge.met[12] >= 200_000 && judge.later >= 80_000);
}

/// Every file of few bytes from a small alphabet, alone and after some others.
#[test]
fn all_short_files() {
    const ALPHABET: &[u8; 6] = b"01,\"\r\n";
    let fronts: [(&[u8], u32); 7] = [
        (b"", 7),
        (b"1,,0,", 7),
        (b"1,1,0,1\r\n", 6),
        (b"1,\"", 6),
        (b"1,1,", 6),
        (b"1,1,0,\"1", 6),
        (b"1,,0,1\r\n\"1\",\"\",\"0\",\"", 5),
    ];
    let states = shared(fronts.len() as u64, Judge::default, |share, judge| {
        let (front, most) = fronts[share as usize];
        let mut worklist = front.to_vec();
        for length in 0..=most {
            for code in 0..6usize.pow(length) {
                worklist.truncate(front.len());
                let mut rest = code;
                for _ in 0..length {
                    worklist.push(ALPHABET[rest % 6]);
                    rest /= 6;
                }
                judge.compare(1, &[240], &worklist);
            }
        }
    });
    let judge = both(states);
    judge.expect(&[(0, 25), (1, 50), (3, 20), (4, 400), (5, 5)]);
    assert!(judge.met[12] >= 900_000 && judge.later >= 60_000);
}

/// How many rows there are comes after the form of all, and before every row.
#[test]
fn rows() {
    let row = b"30,1,0,1\r\n".as_slice();
    let fault = |rows: &[u8]| taken(2, &[0, 0], rows).map(|_| ());
    for n in 1..=300 {
        let due = if n <= 200 { Ok(()) } else { Err((2, 0)) };
        let rows = row.repeat(n);
        assert_eq!(fault(&rows), due);
        assert_eq!(fault(&rows[..rows.len() - 2]), due);
        // An LF alone, and an empty row.
        assert_eq!(fault(&rows[..rows.len() - 1]), Err((12, n)));
        assert_eq!(
            fault(&[&rows, b"\r\n".as_slice()].concat()),
            Err((12, n + 1))
        );
    }
    for (bad, refusal) in [
        ("0,1,0,1\r\n", 3),
        ("1441,1,0,1\r\n", 3),
        ("30,1,2,1\r\n", 1),
        ("30,1,0,3\r\n", 4),
        ("30,1,0,\"1,1\"\r\n", 4),
        ("30,1,0,\"2,1\"\r\n", 13),
        ("30,2,0,1\r\n", 5),
        ("30,,1,1\r\n", 5),
        ("30,1,0\r\n", 12),
        ("30,1,0,1,1\r\n", 12),
        ("30,1,0,\"1\r\n", 12),
    ] {
        for n in [1, 2, 199, 200, 201, 202, 1_000] {
            for at in [1, 2, 100, 199, 200, 201, 202, 1_000] {
                if at > n {
                    continue;
                }
                let rows = [&row.repeat(at - 1), bad.as_bytes(), &row.repeat(n - at)].concat();
                let due = match refusal {
                    12 => (12, at),
                    _ if n > 200 => (2, 0),
                    _ => (refusal, at),
                };
                assert_eq!(fault(&rows), Err(due), "{bad:?} at {at} of {n}");
            }
        }
    }
    // Rows by the million.
    let mut rows = b"1,,0,1\r\n".repeat(1_000_000);
    assert_eq!(fault(&rows), Err((2, 0)));
    rows.push(b'1');
    assert_eq!(fault(&rows), Err((12, 1_000_001)));
}

/// What the host gives comes before the worklist, whatever that is: first the number
/// of instruments, then the calibrations.
#[test]
fn what_comes_first() {
    let mut judge = Judge::default();
    let bad_row = b"30,99,0,1\r\n".repeat(201);
    let worklists: [&[u8]; 5] = [b"30,1,0,1\r\n", b"", b"30,1,0,1\n", b"0,1,0,1", &bad_row];
    let counts = (0..=26).chain([200, 255, 256, 257, 258, 280, 65_537, 1 << 31, u32::MAX]);
    for m in counts {
        for given in (0..=26usize).chain([256, 257, 1_000]) {
            for bad in [240, 241, 255, 256, 65_536, 1 << 31, u32::MAX] {
                let places = [Some(0), given.checked_sub(1), given.checked_sub(2)];
                for at in places.into_iter().flatten().filter(|&at| at < given) {
                    let mut calibrations = vec![240; given];
                    calibrations[at] = bad;
                    for worklist in worklists {
                        judge.compare(m, &calibrations, worklist);
                    }
                }
            }
        }
        let none = Due::Refused {
            refusal: if (1..=24).contains(&m) { 10 } else { 2 },
            line: 0,
        };
        for worklist in worklists {
            judge.call(m, &[], worklist, LARGEST_SHEET, &none);
            judge.call(m, &vec![241; m.min(30) as usize], worklist, 0, &none);
        }
    }
    judge.expect(&[(0, 50), (2, 10_000), (3, 50), (10, 50_000), (12, 100)]);
    // Each calibration at its limits.
    for m in 1..=24usize {
        for at in 0..m {
            for (minutes, refusal) in [(0, 0), (239, 0), (240, 0), (241, 10), (u32::MAX, 10)] {
                let mut calibrations = vec![240; m];
                calibrations[at] = minutes;
                let sheet = taken(m as u32, &calibrations, b"30,,0,1");
                let draft = Draft::new(m as u32, &[(30, 1, &[1])]).calibrated(&calibrations);
                match refusal {
                    0 => assert_eq!(sheet.unwrap(), file(&draft)),
                    _ => assert_eq!(sheet, Err((refusal, 0))),
                }
            }
        }
    }
}

/// The numbers with commas between them.
fn listing(numbers: impl IntoIterator<Item = u32>) -> String {
    let numbers: Vec<String> = numbers.into_iter().map(|j| j.to_string()).collect();
    numbers.join(",")
}

/// Lists of any length are of the form; those of more than m are 4, whatever their
/// order.
#[test]
fn long_lists() {
    let calibrations = [0; 24];
    let fault = |worklist: &str| taken(24, &calibrations, worklist.as_bytes());
    for n in 1..=24 {
        for list in [Vec::from_iter(1..=n), Vec::from_iter(25 - n..=24)] {
            let row = format!("30,,0,\"{}\"\r\n", listing(list.clone()));
            let draft = Draft::new(24, &[(30, list[0], &list)]);
            assert_eq!(fault(&row).unwrap(), file(&draft));
            let row = format!("30,,0,\"{}\"\r\n", listing(list.into_iter().rev()));
            assert_eq!(fault(&row).is_ok(), n == 1);
            assert!(n == 1 || fault(&row) == Err((13, 1)));
        }
    }
    for n in [
        23, 24, 25, 26, 30, 255, 256, 257, 280, 1_000, 65_537, 1_000_000,
    ] {
        // The first 24 alone would do, one that is there comes again, none is there, or
        // they descend.
        let lists = [
            listing((0..n).map(|k| 1 + k % 24)),
            listing(vec![1; n as usize]),
            listing(vec![999_999; n as usize]),
            listing((1..=n).rev().map(|j| j.min(999_999))),
        ];
        for (k, list) in lists.iter().enumerate() {
            let row = format!("30,,0,\"{list}\"\r\n");
            let due = match k {
                0 if n <= 24 => Ok(()),
                3 if n <= 24 => Err((13, 1)),
                _ => Err((4, 1)),
            };
            assert_eq!(fault(&row).map(|_| ()), due, "{n}");
            // Its last member and what follows are judged before.
            for bad in [
                format!("30,,0,\"{list},\"\r\n"),
                format!("30,,0,\"{list},01\"\r\n"),
                format!("30,,0,\"{list},1000000\"\r\n"),
                format!("30,,0,\"{list}\r\n"),
                format!("30,,0,{list}\r\n"),
            ] {
                assert_eq!(fault(&bad), Err((12, 1)), "{n}");
            }
            assert_eq!(fault(&(row.clone() + "30,,0,1\n")), Err((12, 2)), "{n}");
            // And its length and mark as well.
            let length = row.replacen("30", "0", 1);
            assert_eq!(fault(&length), Err((3, 1)), "{n}");
            let mark = row.replacen(",0,", ",2,", 1);
            assert_eq!(fault(&mark), Err((1, 1)), "{n}");
        }
    }
    // Fields of any length that are no number.
    for n in [7, 1_000, 1_000_000] {
        for text in ["0", "1", "\"\"", " ", "\r\n", ","] {
            let field = text.repeat(n);
            for row in [
                format!("\"{field}\",,0,1"),
                format!("30,\"{field}\",0,1"),
                format!("30,,\"{field}\",1"),
                format!("30,,0,\"{field}\""),
            ] {
                assert_eq!(fault(&row), Err((12, 1)), "{text:?} {n} times");
            }
        }
    }
}

/// Buffers of every size, and the largest sheet in those about its own.
#[test]
fn buffers() {
    let mut judge = Judge::default();
    let mut rng = Rng::new(71);
    for round in 0..150 {
        let mut draft = gen::draft(
            &mut rng,
            gen::Shape {
                batches: (1, 6),
                ..gen::SMALL
            },
        );
        if round % 3 == 0 {
            gen::misstate(&mut rng, &mut draft);
        }
        let mut worklist = exports::worklist(&mut rng, &draft);
        if round % 5 == 0 {
            exports::damage(&mut rng, &mut worklist);
        }
        let (m, calibrations) = (draft.instruments, &draft.calibrations);
        let due = Due::sheet(second::take(m, calibrations, &worklist));
        for size in 0..=due.length_or(LEAST) + 3 {
            judge.call(m, calibrations, &worklist, size, &due);
        }
    }
    judge.expect(&[
        (0, 300),
        (9, 10_000),
        (3, 50),
        (4, 300),
        (5, 100),
        (12, 500),
        (13, 200),
    ]);
    let [worklist, sheet] = ["largest-all.csv", "largest.txt"].map(stored);
    assert_eq!(sheet.len(), LARGEST_SHEET);
    let read = second::read(&sheet).unwrap();
    let due = Due::Text(sheet);
    for size in [0, 1]
        .into_iter()
        .chain(LARGEST_SHEET - 9..LARGEST_SHEET + 9)
    {
        judge.call(24, read.calibrations(), &worklist, size, &due);
    }
    // Refused, whatever the buffer.
    for size in [0, 1, LARGEST_SHEET] {
        for (m, calibrations, worklist, fault) in [
            (25, &[0; 2][..], "", (2, 0)),
            (2, &[0; 1], "", (10, 0)),
            (2, &[0; 2], "", (12, 1)),
            (2, &[0; 2], "30,1,0,1\r\n30,1,0,3\r\n", (4, 2)),
        ] {
            let (refusal, line) = fault;
            let due = Due::Refused { refusal, line };
            judge.call(m, calibrations, worklist.as_bytes(), size, &due);
        }
    }
}

/// A worklist between other bytes, at any offset and cut anywhere with its rest
/// behind it, is what its own bytes are; so are calibrations between other entries.
#[test]
fn what_stands_beside() {
    let mut judge = Judge::default();
    let mut rng = Rng::new(72);
    for round in 0..60 {
        let draft = gen::draft(
            &mut rng,
            gen::Shape {
                batches: (1, 5),
                ..gen::SMALL
            },
        );
        let worklist = exports::worklist(&mut rng, &draft);
        let behind: &[u8] = match round % 3 {
            0 => b"\r\n1,1,0,1\r\n",
            1 => b"\"\"\"\"\"\"\"\"",
            _ => b"11111111",
        };
        let (m, calibrations) = (draft.instruments, &draft.calibrations);
        let entries = [&[7; 3], &calibrations[..], &[241; 3]].concat();
        let calibrations = &entries[3..3 + m as usize];
        for offset in 0..9 {
            let memory = [&behind[..offset.min(behind.len())], &worklist, behind].concat();
            let before = memory.clone();
            let front = offset.min(behind.len());
            for end in 0..=worklist.len() {
                judge.compare(m, calibrations, &memory[front..front + end]);
            }
            assert_eq!(black_box(memory), before, "the worklist stays as it is");
        }
        let fewer = &entries[3..2 + m as usize];
        let more = &entries[3..4 + m as usize];
        for calibrations in [fewer, more, &entries[2..2 + m as usize]] {
            judge.compare(m, calibrations, &worklist);
        }
        let due = [&[7; 3], &draft.calibrations[..], &[241; 3]].concat();
        assert_eq!(black_box(entries), due, "the calibrations stay as they are");
    }
    judge.expect(&[(0, 1_000), (10, 100), (12, 10_000)]);
}

/// A taken sheet goes on as the typed one does: it is planned, run and written back
/// in the same way.
#[test]
fn what_follows() {
    let first = b"30,1,0,\"1,2\"\r\n\"20\",,0,1\r\n10,\"1\",\"0\",\"1,2\"\r\n";
    assert_eq!(taken(2, &[0, 0], first).unwrap(), SHEET);
    let mut rng = Rng::new(73);
    let journal = "     5\n     6     0\n     1    15     1     1\n     9     1\n     7   200\n     8   200\n     5\n     \
                   2     2\n";
    let (mut open, mut done) = (0, 0);
    for _ in 0..400 {
        let draft = draft(&mut rng);
        let worklist = exports::worklist(&mut rng, &draft);
        let sheet = taken(draft.instruments, &draft.calibrations, &worklist).unwrap();
        let typed = file(&draft);
        open += (sheet != typed) as usize;
        assert_eq!(written(&sheet).unwrap(), sheet);
        assert_eq!(listed(&sheet).unwrap(), listed(&typed).unwrap());
        let told = answers(&sheet, journal).unwrap();
        assert_eq!(told, answers(&typed, journal).unwrap());
        assert_eq!(left(&sheet, journal), left(&typed, journal));
        done += told
            .lines()
            .filter(|line| line.starts_with("     0"))
            .count();
    }
    println!("{open} sheets with places not given, {done} calls done");
    assert!(open >= 100 && done >= 2_000);
}

/// One call after the other from several threads: nothing is kept in between.
#[test]
fn nothing_is_kept() {
    let [worklist, sheet] = ["mixed.csv", "small.txt"].map(stored);
    let due = Hosted {
        refusal: 0,
        line: 0,
        length: sheet.len(),
    };
    shared(2_000, Judge::default, |share, judge| {
        let mut rng = Rng::new(7_000 + share);
        judge.compare(2, &[0, 0], &exports::scribble(&mut rng));
        let mut buffer = vec![0; sheet.len()];
        assert_eq!(take(3, &[0, 240, 7], &worklist, &mut buffer), due);
        assert_eq!(buffer, sheet);
    });
}
