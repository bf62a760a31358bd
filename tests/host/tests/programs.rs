//! The programs `bankrun`, `bankwrite` and `banktake` on files, beside the second
//! planner.
//! `BANKPLAN_RUNS` says how many random runs are made, if not the usual number.

use std::env;
use std::fs;
use std::path::{Path, PathBuf};
use std::process::{self, Command, Stdio};
use std::sync::atomic::{AtomicUsize, Ordering};

use host::cases;
use host::due::Due;
use host::journal::journal;
use host::runs::dues;
use host::share::shared;
use host::{LARGEST_SHEET, SHEET};
use second::rng::Rng;
use second::{corners, exports, gen};

/// The most bytes of a journal or a worklist, and of the answers.
const JOURNAL: usize = 262_143;
const ANSWERS: usize = 262_144;

/// What a program printed on standard output and on standard error.
type Printed = [Vec<u8>; 2];

/// Run a program, which always ends well, with this for its standard output.
fn printed_to(program: &str, arguments: &[&Path], out: Stdio) -> Printed {
    let bin = Path::new(env!("CARGO_MANIFEST_DIR")).join("../../target/bin");
    let output = Command::new(bin.join(program))
        .args(arguments)
        .stdin(Stdio::null())
        .stdout(out)
        .output()
        .unwrap_or_else(|error| panic!("target/bin/{program}: {error}; run `make` first"));
    assert!(output.status.success(), "{program}: {}", output.status);
    [output.stdout, output.stderr]
}

fn printed(program: &str, arguments: &[&Path]) -> Printed {
    printed_to(program, arguments, Stdio::piped())
}

/// A folder with a sheet and a journal in it, gone with its owner.
struct Folder(PathBuf);

impl Folder {
    fn new() -> Folder {
        static NEXT: AtomicUsize = AtomicUsize::new(0);
        let next = NEXT.fetch_add(1, Ordering::Relaxed);
        let path = env::temp_dir().join(format!("bankplan-{}-{next}", process::id()));
        fs::create_dir(&path).expect("a new folder");
        Folder(path)
    }

    /// What each program prints for these two files.
    fn run(&self, sheet: &[u8], journal: &[u8]) -> [Printed; 2] {
        let files = ["sheet", "journal"].map(|name| self.0.join(name));
        fs::write(&files[0], sheet).expect("a sheet's file");
        fs::write(&files[1], journal).expect("a journal's file");
        ["bankrun", "bankwrite"].map(|program| printed(program, &[&files[0], &files[1]]))
    }
}

impl Drop for Folder {
    fn drop(&mut self) {
        let _ = fs::remove_dir_all(&self.0);
    }
}

/// A refusal's line.
fn refused(refusal: u32, line: usize) -> Vec<u8> {
    format!("{refusal:>6}{line:>6}\n").into_bytes()
}

/// What each program has to print. A refusal is all that `bankrun` prints,
/// while `bankwrite` prints nothing that could be taken for a sheet.
fn expected(sheet: &[u8], journal: &[u8]) -> [Printed; 2] {
    let [answers, written] = if journal.len() > JOURNAL {
        [19; 2].map(|refusal| Due::Refused { refusal, line: 0 })
    } else {
        dues(sheet, journal)
    };
    let answers = match answers {
        Due::Text(text) if text.len() > ANSWERS => refused(9, 0),
        Due::Text(text) => text,
        Due::Refused { refusal, line } => refused(refusal, line),
    };
    let written = match written {
        Due::Text(text) => [text, vec![]],
        Due::Refused { refusal, line } => [vec![], refused(refusal, line)],
    };
    [[answers, vec![]], written]
}

/// Run both programs and compare all that they print; gives that.
fn compare(folder: &Folder, sheet: &[u8], journal: &[u8]) -> [Printed; 2] {
    let found = folder.run(sheet, journal);
    if found != expected(sheet, journal) {
        let text = String::from_utf8_lossy;
        let found = found.map(|printed| printed.map(|bytes| text(&bytes).into_owned()));
        let (sheet, journal) = (text(sheet), text(journal));
        panic!("{found:?}\nsheet:\n{sheet}\njournal:\n{journal}")
    }
    found
}

/// Calls of every kind on sheets of every size.
#[test]
fn random_runs() {
    let given = env::var("BANKPLAN_RUNS").ok();
    let runs = given.map_or(2_000, |word| word.parse().expect("a number of runs"));
    let start = || (Folder::new(), [0, 0]);
    let states = shared(runs, start, |run, (folder, [lines, changed])| {
        let mut cases = match run % 2 {
            0 => cases::runs(run, 1),
            _ => cases::edits(run, 1),
        };
        let case = cases.remove(0);
        let [[answers, _], [written, _]] = compare(folder, &case.sheet, &journal(&case.calls));
        *lines += answers.iter().filter(|&&b| b == b'\n').count();
        *changed += (written != case.sheet) as usize;
    });
    let [lines, changed] = [0, 1].map(|k| states.iter().map(|(_, count)| count[k]).sum::<usize>());
    println!("{runs} runs, {lines} answers, {changed} sheets changed");
    assert!(lines >= 7 * runs as usize && changed >= runs as usize / 2);
}

/// The examples of two desks' journals, in either order: the same sheet, and the
/// same answers to each desk.
#[test]
fn two_desks() {
    let folder = Folder::new();
    let examples = Path::new(env!("CARGO_MANIFEST_DIR")).join("../../examples");
    let [first, second] = ["desk1.txt", "desk2.txt"]
        .map(|name| fs::read(examples.join(name)).expect("an example of a journal"));
    let [one, other] = [[&first[..], &second].concat(), [second, first].concat()]
        .map(|journal| compare(&folder, SHEET.as_bytes(), &journal));
    assert_eq!(one[1], other[1]);
    assert_ne!(one[1][0], SHEET.as_bytes());
    let (own, others) = one[0][0].split_at(3 * 7);
    assert_eq!(other[0][0], [others, own].concat());
}

/// Sheets and journals that are refused, one or both, and some that are not.
#[test]
fn refusals() {
    let folder = Folder::new();
    let mut counts = [0; 20];
    for (k, case) in cases::faulty(24, 300).into_iter().enumerate() {
        let journal: &[u8] = match k % 3 {
            0 => b"",
            1 => b"     7   200\n     8     0\n     5\n",
            _ => b"     7   200\n     5",
        };
        for sheet in [&case.sheet, SHEET.as_bytes()] {
            compare(&folder, sheet, journal);
            let number = match dues(sheet, journal)[1] {
                Due::Refused { refusal, .. } => refusal,
                Due::Text(_) => 0,
            };
            counts[number as usize] += 1;
        }
    }
    println!("by refusal: {counts:?}");
    for refusal in [0, 1, 2, 3, 4, 5, 10, 13] {
        assert!(counts[refusal] >= 10, "{counts:?}");
    }
    assert!(counts[19] >= 100, "{counts:?}");
}

/// So many reviews and so many edits, which are refused.
fn journal_of(reviews: usize, edits: usize) -> Vec<u8> {
    ("     5\n".repeat(reviews) + &"     2     9\n".repeat(edits)).into_bytes()
}

/// Journals, answers and sheets of the most bytes, and of more.
#[test]
fn limits() {
    let folder = Folder::new();
    let sheet = SHEET.as_bytes();
    let refused = |[ran, wrote]: [Printed; 2], line: &[u8]| {
        assert_eq!(ran, [line, &[]]);
        assert_eq!(wrote, [&[], line]);
    };
    let [ran, wrote] = compare(&folder, sheet, &[]);
    assert_eq!(ran, [b"", b""]);
    assert_eq!(wrote, [sheet, b""]);
    // A review has 7 bytes and an edit 13. A journal that is too long comes
    // before a bad sheet.
    let longest = journal_of(9, 20_160);
    assert_eq!(longest.len(), JOURNAL);
    let [ran, wrote] = compare(&folder, sheet, &longest);
    assert!(ran[0].len() > 100_000);
    assert_eq!(wrote[0], sheet);
    for (reviews, edits, size) in [(11, 20_159, JOURNAL + 1), (0, 50_000, 650_000)] {
        let longer = journal_of(reviews, edits);
        assert_eq!(longer.len(), size);
        refused(compare(&folder, sheet, &longer), b"    19     0\n");
        refused(compare(&folder, b"", &longer), b"    19     0\n");
    }
    // The answer to a review has 31 bytes here, that to an edit 7.
    let [ran, wrote] = compare(&folder, sheet, &journal_of(8_454, 10));
    assert_eq!(ran[0].len(), ANSWERS);
    assert_eq!(wrote[0], sheet);
    assert_eq!(31 * 8_452 + 7 * 19, ANSWERS + 1);
    let [ran, wrote] = compare(&folder, sheet, &journal_of(8_452, 19));
    assert_eq!(ran[0], b"     9     0\n");
    assert_eq!(wrote[0], sheet);
    // The largest sheet, and bytes left over after it.
    let mut largest = cases::largest(44, 1).remove(0).sheet;
    let journal = b"     7   200\n     8   200\n     7   199\n";
    let [ran, wrote] = compare(&folder, &largest, journal);
    assert!(ran[0].ends_with(b"\n     9\n"));
    assert_eq!(wrote[0].len(), LARGEST_SHEET);
    for more in [1, 2, 100_000] {
        largest.resize(LARGEST_SHEET + more, b'\n');
        refused(compare(&folder, &largest, journal), b"     1   203\n");
    }
}

/// Without two files that can be read there is a message and nothing else.
#[test]
fn no_file() {
    let folder = Folder::new();
    let sheet = folder.0.join("sheet");
    fs::write(&sheet, SHEET).expect("a sheet's file");
    let none = folder.0.join("none");
    for program in ["bankrun", "bankwrite"] {
        let usage = format!("usage: {program} SHEET JOURNAL");
        for arguments in [&[][..], &[sheet.as_path()]] {
            let [out, error] = printed(program, arguments);
            assert!(out.is_empty() && error.starts_with(usage.as_bytes()));
        }
        for files in [
            [&sheet, &none],
            [&none, &sheet],
            [&sheet, &folder.0],
            [&folder.0, &sheet],
        ] {
            let [out, error] = printed(program, &files.map(PathBuf::as_path));
            assert!(
                out.is_empty() && error.ends_with(b"\n"),
                "{program} {files:?}"
            );
        }
    }
}

/// What cannot be printed is not lost in silence.
#[test]
fn full_output() {
    let folder = Folder::new();
    folder.run(SHEET.as_bytes(), b"     5\n");
    let files = ["sheet", "journal"].map(|name| folder.0.join(name));
    for program in ["bankrun", "bankwrite"] {
        let full = fs::File::create("/dev/full").expect("a device that is always full");
        let [_, error] = printed_to(program, &[&files[0], &files[1]], full.into());
        let said = format!("{program}: No space left on device\n");
        assert_eq!(error, said.as_bytes());
    }
    fs::write(&files[0], WORKLIST).expect("a worklist's file");
    let full = fs::File::create("/dev/full").expect("a device that is always full");
    let words = [&files[0], Path::new("2"), Path::new("0"), Path::new("0")];
    let [_, error] = printed_to("banktake", &words, full.into());
    assert_eq!(error, b"banktake: No space left on device\n");
}

/// A worklist that says what [`SHEET`] says.
const WORKLIST: &[u8] = b"30,1,0,\"1,2\"\r\n\"20\",,0,1\r\n10,\"1\",\"0\",\"1,2\"\r\n";

/// What `banktake` prints for this worklist and the words after it.
fn took(folder: &Folder, worklist: &[u8], words: &[&str]) -> Printed {
    let file = folder.0.join("worklist");
    fs::write(&file, worklist).expect("a worklist's file");
    let mut arguments = vec![file.as_path()];
    arguments.extend(words.iter().map(Path::new));
    printed("banktake", &arguments)
}

/// The same beside the second planner: the sheet, or nothing but the refusal's line
/// on standard error. Gives the refusal's number.
fn compare_taken(folder: &Folder, worklist: &[u8], m: u32, calibrations: &[u32]) -> u32 {
    let words: Vec<String> = [&[m], calibrations]
        .concat()
        .iter()
        .map(u32::to_string)
        .collect();
    let words: Vec<&str> = words.iter().map(String::as_str).collect();
    let found = took(folder, worklist, &words);
    let (number, due) = match Due::sheet(second::take(m, calibrations, worklist)) {
        Due::Text(text) => (0, [text, vec![]]),
        Due::Refused { refusal, line } => (refusal, [vec![], refused(refusal, line)]),
    };
    if found != due {
        let found = found.map(|bytes| String::from_utf8_lossy(&bytes).into_owned());
        panic!("{found:?}\n{words:?}\n{}", worklist.escape_ascii());
    }
    number
}

/// Worklists good and bad, with calibrations good and bad.
#[test]
fn worklists() {
    let folder = Folder::new();
    assert_eq!(
        took(&folder, WORKLIST, &["2", "0", "0"]),
        [SHEET.as_bytes(), b""]
    );
    let mut met = [0; 14];
    let corners = corners::REFUSED.iter().map(|corner| corner.0);
    for worklist in corners.chain(corners::TAKEN.iter().map(|corner| corner.0)) {
        met[compare_taken(&folder, worklist, 2, &corners::CALIBRATIONS) as usize] += 1;
    }
    let mut rng = Rng::new(45);
    for round in 0..400 {
        let mut draft = gen::draft(&mut rng, [gen::SMALL, gen::MEDIUM, gen::FULL][round % 3]);
        if draft.lines.is_empty() {
            continue;
        }
        if round % 4 == 0 {
            gen::misstate(&mut rng, &mut draft);
        }
        let mut worklist = exports::worklist(&mut rng, &draft);
        if round % 5 == 0 {
            exports::damage(&mut rng, &mut worklist);
        }
        let (mut m, mut calibrations) = (draft.instruments, draft.calibrations);
        match round % 20 {
            7 => m = *rng.pick(&[0, 25, 26, 256, 999_999]),
            11 => calibrations.push(0),
            13 => calibrations[0] = *rng.pick(&[240, 241, 256, 999_999]),
            _ => {}
        }
        met[compare_taken(&folder, &worklist, m, &calibrations) as usize] += 1;
    }
    println!("by refusal: {met:?}");
    for (refusal, least) in [
        (0, 150),
        (1, 5),
        (2, 15),
        (3, 5),
        (4, 10),
        (5, 10),
        (10, 15),
        (12, 130),
        (13, 10),
    ] {
        assert!(met[refusal] >= least, "{met:?}");
    }
    // Fewer calibrations than instruments, and very many.
    for (m, given) in [
        (2, 1),
        (24, 23),
        (24, 25),
        (24, 26),
        (1, 24),
        (24, 200),
        (1, 1_000),
    ] {
        assert_eq!(compare_taken(&folder, WORKLIST, m, &vec![0; given]), 10);
    }
    assert_eq!(compare_taken(&folder, WORKLIST, 25, &vec![0; 25]), 2);
    assert_eq!(compare_taken(&folder, WORKLIST, 0, &[241]), 2);
}

/// The largest sheet, and worklists of the most bytes and of more.
#[test]
fn limits_of_worklists() {
    let folder = Folder::new();
    let case = cases::largest(46, 1).remove(0);
    let sheet = second::read(&case.sheet).expect("a sheet");
    let worklist = exports::worklist(&mut Rng::new(47), &second::Draft::from(&sheet));
    let (m, calibrations) = (sheet.instruments(), sheet.calibrations());
    assert_eq!(compare_taken(&folder, &worklist, m, calibrations), 0);
    // 9 bytes in each of 29,127 rows.
    let row = b"1,1,0,1\r\n";
    let mut longest = row.repeat(JOURNAL / row.len());
    assert_eq!(longest.len(), JOURNAL);
    assert_eq!(
        took(&folder, &longest, &["1", "0"]),
        [vec![], refused(2, 0)]
    );
    longest[JOURNAL - 3] = b'x';
    assert_eq!(
        took(&folder, &longest, &["1", "0"]),
        [vec![], refused(12, 29_127)]
    );
    let members = "1,".repeat((JOURNAL - 9) / 2);
    let list = format!("1,1,0,\"{members}1\"");
    assert_eq!(list.len(), JOURNAL);
    assert_eq!(
        took(&folder, list.as_bytes(), &["1", "0"]),
        [vec![], refused(4, 1)]
    );
    for longer in [JOURNAL + 1, JOURNAL + 2, 650_000] {
        let mut worklist = row.repeat(longer / row.len() + 1);
        worklist.truncate(longer);
        assert_eq!(
            took(&folder, &worklist, &["1", "0"]),
            [vec![], refused(12, 0)]
        );
        // What is wrong with the numbers comes before the file.
        for (words, number) in [(["0", "0"], 2), (["2", "0"], 10), (["1", "241"], 10)] {
            assert_eq!(
                took(&folder, &worklist, &words),
                [vec![], refused(number, 0)]
            );
        }
    }
}

/// Words that are no numbers, and no file.
#[test]
fn no_worklist() {
    let folder = Folder::new();
    let usage = b"usage: banktake WORKLIST INSTRUMENTS CALIBRATION.. > SHEET\n";
    assert_eq!(printed("banktake", &[]), [&b""[..], usage]);
    assert_eq!(took(&folder, WORKLIST, &[]), [&b""[..], usage]);
    for bad in [
        "", " ", "x", "2x", "x2", " 2", "2 ", "+2", "-2", "02", "00", "1000000", "0000002", "2,2",
        "2.0", "0x2",
    ] {
        for words in [[bad, "0", "0"], ["2", bad, "0"], ["2", "0", bad]] {
            assert_eq!(
                took(&folder, WORKLIST, &words),
                [&b""[..], usage],
                "{words:?}"
            );
        }
    }
    // A word is a number of the form, but out of range.
    for (words, refusal) in [
        (["0", "0", "0"], 2),
        (["999999", "0", "0"], 2),
        (["2", "0", "241"], 10),
        (["2", "999999", "0"], 10),
        (["3", "0", "0"], 10),
    ] {
        assert_eq!(
            took(&folder, WORKLIST, &words),
            [vec![], refused(refusal, 0)]
        );
    }
    for file in [folder.0.join("none"), folder.0.clone()] {
        let words = ["2", "0", "0"].map(Path::new);
        let [out, error] = printed("banktake", &[&[file.as_path()], &words[..]].concat());
        assert!(out.is_empty() && error.ends_with(b"\n") && error != usage);
    }
}
