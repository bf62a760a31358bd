//! Calibrations (document 02, C-16): line 2 of a sheet at its limits, what counts
//! them and what does not, and trials that bump them.

use host::filed::made;
use host::journal::journal;
use host::told::{answers, file, listed, numbers, refused, written};
use host::{balance, plan, run, settle, take, write, Move, LARGEST_SHEET, SHEET};
use second::gen::{self, Shape};
use second::rng::Rng;
use second::trial::{Act, State};
use second::{exports, trial, Call, Draft, Verdict};

/// Each calibration at its limits, with all others at theirs.
#[test]
fn limits() {
    for m in 1..=24usize {
        let most = Draft::new(m as u32, &[(9, 1, &[1])]).calibrated(&vec![240; m]);
        assert_eq!(written(&file(&most)).unwrap(), file(&most));
        for k in 0..m {
            for (minutes, refusal) in [(0, 0), (239, 0), (240, 0), (241, 10), (999_999, 10)] {
                let mut draft = most.clone();
                draft.calibrations[k] = minutes;
                let sheet = file(&draft);
                match refusal {
                    0 => assert_eq!(written(&sheet).unwrap(), sheet),
                    _ => assert_eq!(refused(&sheet), (refusal, 2)),
                }
            }
        }
    }
}

/// What comes first on line 2, and around it.
#[test]
fn the_first_fault() {
    let line = |line: &str| SHEET.replacen("     0     0\n", line, 1);
    for (sheet, fault) in [
        // A calibration is judged before the next field and before the LF.
        (line("   241    0x\n"), (10, 2)),
        (line("   241      \n"), (10, 2)),
        (line("   241\n"), (10, 2)),
        (line("   240   241     0\n"), (10, 2)),
        (line("     0   241 \n"), (10, 2)),
        (line("    0x   241\n"), (1, 2)),
        (line("         241\n"), (1, 2)),
        (line("     0  241\n"), (1, 2)),
        (line("     0     0 \n"), (1, 2)),
        (line("     0     0     0\n"), (1, 2)),
        (line("     0\n"), (1, 2)),
        (line("\n"), (1, 2)),
        // After line 1, and before every batch.
        (
            line("   241     0\n").replace("     2     3", "     2   201"),
            (2, 1),
        ),
        (line("   241     0\n").replace("    30", "  1441"), (10, 2)),
        (line("     0   240\n").replace("    30", "  1441"), (3, 3)),
        (line("     0   240\n") + "\n", (1, 6)),
        // Files that end within line 2 and after it.
        ("     2     3\n".into(), (1, 2)),
        ("     2     3\n     0     ".into(), (1, 2)),
        ("     2     3\n     0     0".into(), (1, 2)),
        ("     2     3\n     0     0\n".into(), (1, 3)),
        ("     2     0\n     0     0\n     0".into(), (1, 3)),
    ] {
        assert_eq!(refused(&sheet), fault, "{sheet}");
    }
}

/// Sheets of the form before there was a line 2.
#[test]
fn sheets_without_line_2() {
    let old = |sheet: &str| {
        let lines: Vec<&str> = sheet.split_inclusive('\n').collect();
        [&lines[..1], &lines[2..]].concat().concat()
    };
    // Six good calibrations where two are due: the LF is missing.
    assert_eq!(refused(&old(SHEET)), (1, 2));
    assert_eq!(refused("     2     0\n"), (1, 2));
    assert_eq!(refused("    24     0\n"), (1, 2));
    // The first batch's line passes for line 2, and the last batch is missing.
    let five = Draft::new(5, &[(30, 0, &[2]), (20, 0, &[3])]);
    assert_eq!(refused(&old(&file(&five))), (1, 4));
    // Its length does not.
    let long = Draft::new(2, &[(241, 0, &[1, 2])]);
    assert_eq!(refused(&old(&file(&long))), (10, 2));
    let mut rng = Rng::new(81);
    let mut met = [0; 14];
    for round in 0..2_000 {
        let shape = [gen::SMALL, gen::MEDIUM, gen::FULL][round % 3];
        let sheet = old(&file(&gen::draft(&mut rng, shape)));
        let due = second::read(sheet.as_bytes()).expect_err("a line is missing");
        let fault = refused(&sheet);
        assert_eq!(fault, (due.refusal.number(), due.line as usize));
        met[fault.0 as usize] += 1;
    }
    println!("by refusal: {met:?}");
    assert!(met[1] >= 1_000 && met[10] >= 200);
}

/// One batch of 20, and calibrations of 10 on the first and the third instrument.
fn bumped() -> Draft {
    Draft::new(3, &[(20, 3, &[1, 2, 3])]).calibrated(&[10, 0, 10])
}

/// The trial at 0 step by step: the batch goes to the first instrument, which
/// bumps its calibration off. That has nowhere else to go and returns, and then
/// the batch leaves again.
#[test]
fn a_calibration_is_bumped_and_goes_back() {
    let sheet = bumped().sheet();
    let items = sheet.items();
    let mut state = State::start(&sheet, &items, 0);
    let mut acts = Vec::new();
    while let Some(act) = state.next() {
        state.make(act);
        acts.push(act);
    }
    let (batch, calibration) = (0, 1);
    let raised = |instrument, height| Act::RaiseInstrument { instrument, height };
    let off = |instrument, batch| Act::Unplace { instrument, batch };
    let on = |batch, instrument| Act::Place { batch, instrument };
    let due = [
        raised(3, 1),
        off(3, batch),
        Act::RaiseBatch { batch, height: 1 },
        on(batch, 1),
        raised(1, 1),
        off(1, calibration),
        Act::RaiseBatch {
            batch: calibration,
            height: 2,
        },
        on(calibration, 1),
        raised(1, 2),
        off(1, batch),
        on(batch, 2),
    ];
    assert_eq!(acts, due);
    // The loads are 10, 20 and 10 then. One place is told, the batch's.
    let sheet = file(&bumped());
    let told = "     0     1     5     6     2\n";
    assert_eq!(answers(&sheet, "     6     0\n").unwrap(), told);
    // Balance keeps that trial. Without calibrations no instrument is over.
    let told = "     0    20    20     0     5     6     0     1     1     3     2\n";
    assert_eq!(answers(&sheet, "     7     1\n").unwrap(), told);
    let none = file(&bumped().calibrated(&[0; 3]));
    let told = "     0     1     0     0     3\n";
    assert_eq!(answers(&none, "     6     0\n").unwrap(), told);
    // The first act of a trial that fails, where all that is bumped returns.
    let sheet = file(&Draft::new(2, &[(10, 1, &[1])]).calibrated(&[10, 0]));
    let told = "     0     0     7     8     1\n";
    assert_eq!(answers(&sheet, "     6     0\n").unwrap(), told);
}

/// The most raises of a trial with so many batches and calibrations that count.
fn most_raises(m: u64, items: u64) -> u64 {
    m * (2 * m + 1) + items * (2 * m + 2)
}

/// A trial with more raises than its one batch would allow. Six items allow them.
#[test]
fn more_raises_than_for_batches_alone() {
    let draft = Draft::new(6, &[(5, 2, &[1, 2, 4, 5, 6])]).calibrated(&[3, 4, 0, 1, 4, 4]);
    let told = "     0     0    97   120     1     2     4     5     6\n";
    assert_eq!(answers(&file(&draft), "     6     0\n").unwrap(), told);
    assert!(most_raises(6, 1) < 97 && 97 <= most_raises(6, 6));
    assert_eq!((most_raises(6, 1), most_raises(6, 6)), (92, 162));
}

/// Raises and bumps of every level of small sheets, by the library's own answers.
#[test]
fn counts_of_trials() {
    let mut rng = Rng::new(82);
    let (mut tried, mut worked, mut beyond) = (0, 0, 0);
    for round in 0..12_000 {
        let shape = Shape {
            instruments: [(1, 6), (5, 8)][round % 2],
            batches: [(0, 5), (1, 1)][round % 2],
            lengths: (1, 6),
            calibrations: 6,
            started: true,
        };
        let draft = gen::draft(&mut rng, shape);
        let levels = 0..=draft.sheet().finish() as u64;
        let calls: Vec<Call> = levels.map(|level| Call::Trial { level }).collect();
        let journal = String::from_utf8(journal(&calls)).unwrap();
        let m = draft.instruments as u64;
        let (n, own) = (
            draft.lines.len() as u64,
            draft.calibrations.iter().filter(|&&c| c > 0).count() as u64,
        );
        // A started batch has one instrument.
        let lists = draft.lines.iter().map(|line| match line.started() {
            true => 1,
            false => line.list.len(),
        });
        let lists: usize = lists.sum();
        for line in answers(&file(&draft), &journal).unwrap().lines() {
            let [refusal, passed, raises, bumps, ref rest @ ..] = numbers(line)[..] else {
                panic!("{line}");
            };
            assert_eq!(refusal, 0);
            assert!(raises <= most_raises(m, n + own), "{draft:?}");
            assert!(bumps <= (4 * m + 4) * (lists as u64 + own), "{draft:?}");
            // One place for each batch, and no more.
            assert!(passed == 0 || rest.len() as u64 == n);
            tried += 1;
            worked += (raises > 0) as usize;
            beyond += (raises > most_raises(m, n)) as usize;
        }
    }
    println!(
        "{tried} trials, {worked} with steps, {beyond} with more raises than for batches alone"
    );
    assert!(tried >= 50_000 && worked >= 10_000 && beyond >= 10);
}

/// The greatest total there is, and the level beside it.
#[test]
fn the_greatest_total() {
    let all: Vec<u32> = (1..=24).collect();
    let draft = Draft::new(24, &vec![(1440, 0, all.as_slice()); 200]).calibrated(&[240; 24]);
    assert_eq!(draft.sheet().total(), 293_760);
    let told = answers(&file(&draft), "     6293760\n     6293761\n     5\n").unwrap();
    let lines: Vec<&str> = told.lines().collect();
    assert_eq!(numbers(lines[0])[..4], [0, 1, 0, 0]);
    assert_eq!(numbers(lines[0])[4..], [1; 200]);
    assert_eq!(lines[1], "     8");
    assert_eq!(numbers(lines[2])[..4], [0, 288_240, 1, 288_240]);
    assert_eq!(numbers(lines[2])[4..], [240; 23]);
}

/// Calibrations and no batch: every trial passes at once, and the longest
/// calibration is finish and floor.
#[test]
fn no_batch() {
    let mut rng = Rng::new(83);
    let mut above_0 = 0;
    for round in 0..400 {
        let m = 1 + round % 24;
        let calibrations = gen::calibrations(&mut rng, m, 240);
        let sheet = file(&Draft::new(m, &[]).calibrated(&calibrations));
        let most = calibrations.iter().copied().max().unwrap();
        let total: u32 = calibrations.iter().sum();
        let listing = format!("{most:>6}{most:>6}     0     0     0           0\n     0\n");
        assert_eq!(listed(&sheet).unwrap(), listing);
        let loads: String = calibrations.iter().map(|c| format!("{c:>6}")).collect();
        let level = rng.below(total as u64 + 1);
        let journal = format!(
            "     5\n     6     0\n     6{level:>6}\n     6{total:>6}\n     6{:>6}\n     7     0\n     \
             8     0\n",
            total + 1
        );
        let passed = "     0     1     0     0\n";
        let told = format!(
            "     0{most:>6}     0{loads}\n{passed}{passed}{passed}     8\n     \
             0{most:>6}{most:>6}     0     0     0     0     0\n     0{most:>6}           0     0\n"
        );
        assert_eq!(answers(&sheet, &journal).unwrap(), told);
        assert_eq!(made(sheet.as_bytes(), balance).written, sheet.as_bytes());
        assert_eq!(made(sheet.as_bytes(), settle).written, sheet.as_bytes());
        above_0 += (most > 0) as usize;
    }
    assert!((200..400).contains(&above_0), "{above_0}");
}

/// Only batches are counted in the 200, have numbers, places and records, and need
/// entries: here beside 24 calibrations.
#[test]
fn what_counts_batches_alone() {
    let calibrations = [240; 24];
    let draft =
        |n: usize| Draft::new(24, &vec![(1, 1, [1, 2].as_slice()); n]).calibrated(&calibrations);
    let full = file(&draft(200));
    assert_eq!(listed(&full).unwrap().lines().count(), 202);
    assert_eq!(written(&full).unwrap(), full);
    let add = "     1     5     1     3\n";
    assert_eq!(answers(&full, add).unwrap(), "     7\n");
    let told = answers(&file(&draft(199)), &add.repeat(2)).unwrap();
    assert_eq!(told, "     0\n     7\n");
    // The first calibration would be batch 201, or 4.
    for n in [200, 3] {
        let next = n + 1;
        let journal = format!(
            "     2{next:>6}\n     4{next:>6}     1\n     3{next:>6}     1     1\n     6     0\n     \
             7{:>6}\n     8{n:>6}\n",
            n - 1
        );
        let told = answers(&file(&draft(n)), &journal).unwrap();
        let lines: Vec<&str> = told.lines().collect();
        assert_eq!(lines[..3], ["     6"; 3]);
        let [0, 0 | 1, ..] = numbers(lines[3])[..] else {
            panic!("{told}");
        };
        assert_eq!(lines[4], "     9");
        assert!(lines[5].starts_with("     0"), "{told}");
        let mut moves = vec![Move::default(); n];
        let mut buffer = vec![0; LARGEST_SHEET];
        let balanced = balance(&draft(n).render(), &mut moves, &mut buffer);
        assert_eq!((balanced.refusal, balanced.line), (0, 0));
        assert!(moves.iter().all(|record| record.batch <= n as u32));
        let short = balance(&draft(n).render(), &mut moves[1..], &mut buffer);
        assert_eq!((short.refusal, short.line), (9, 0));
    }
}

/// The first case's sheet with a calibration on its first instrument: batches that
/// may leave it do, though without the calibration one of them stays.
#[test]
fn a_calibration_drives_a_batch_away() {
    let sheet = SHEET.replace("     0     0\n", "    20     0\n");
    let listing = "    40    40    20     2     2           1
     2     1     2
     1     2    30
     2     1    20
     3     2    10
";
    assert_eq!(listed(&sheet).unwrap(), listing);
    let told = "     0    80     1    80     0
     0     1     2     2     2     1     1
     8
     0    40           2     2     1     1     2     3     1     2
     0    40     0    40    40
";
    let journal = "     5\n     6    30\n     6    81\n     8     3\n     5\n";
    assert_eq!(answers(&sheet, journal).unwrap(), told);
}

/// A hash (FNV-1a) of many texts.
struct Digest(u64);

impl Digest {
    fn add(&mut self, text: &str) {
        for byte in text.bytes() {
            self.0 = (self.0 ^ byte as u64).wrapping_mul(0x0100_0000_01b3);
        }
    }
}

/// Where all calibrations and all marks are 0, every answer is what it was before
/// there were any: the figure was taken then, from the same sheets without their
/// line 2 and without marks. Lists were in any order then, and a place not given
/// was the first listed; with that place given their order makes no difference.
#[test]
fn without_calibrations_and_marks_nothing_differs() {
    let mut rng = Rng::new(84);
    let mut digest = Digest(0xcbf2_9ce4_8422_2325);
    let mut failed = 0;
    for round in 0..1_500 {
        let shape = [gen::SMALL, gen::MEDIUM, gen::SMALL, gen::FULL][round % 4];
        let mut draft = gen::unordered(&mut rng, shape.uncalibrated().waiting());
        for line in &mut draft.lines {
            line.place = Some(line.given().unwrap_or(line.list[0]));
            line.list.sort();
        }
        let sheet = draft.sheet();
        let total = sheet.total();
        let journal = format!(
            "     5\n     6     0\n     6{:>6}\n     6{:>6}\n     6{total:>6}\n     6{:>6}\n     \
             8   200\n     5\n     7   200\n     8   200\n     7   199\n     5\n",
            total / draft.instruments,
            total / 2,
            total + 1,
        );
        let told = answers(&file(&draft), &journal).unwrap();
        failed += told
            .lines()
            .filter(|line| line.starts_with("     0     0"))
            .count();
        digest.add(&listed(&file(&draft)).unwrap());
        digest.add(&told);
    }
    println!("{failed} trials fail; {:#018x}", digest.0);
    assert!(failed >= 500);
    assert_eq!(digest.0, 0xa3d5_d366_0078_4d98);
}

/// On sheets with calibrations the same trial, by the second planner's steps, often
/// bumps one off and puts it back, in trials that pass and in those that fail.
#[test]
fn calibrations_are_often_bumped() {
    let mut rng = Rng::new(85);
    let (mut passed, mut failed) = (0, 0);
    for _ in 0..3_000 {
        let draft = gen::draft(&mut rng, gen::SMALL);
        let sheet = draft.sheet();
        let (n, items) = (sheet.batches().len(), sheet.items());
        let levels = 0..sheet.finish();
        let calls: Vec<Call> = levels
            .clone()
            .map(|level| Call::Trial {
                level: level as u64,
            })
            .collect();
        let journal = String::from_utf8(journal(&calls)).unwrap();
        let told = answers(&file(&draft), &journal).unwrap();
        for (level, line) in levels.zip(told.lines()) {
            let mut state = State::start(&sheet, &items, level);
            let mut bumped = false;
            while let Some(act) = state.next() {
                bumped |= matches!(act, Act::Unplace { batch, .. } if batch >= n);
                state.make(act);
            }
            let own: Vec<u32> = items[n..].iter().map(|item| item.place).collect();
            assert_eq!(state.places[n..], own, "all are back");
            let due = trial(&sheet, level as u64).unwrap();
            let (members, pass) = match &due.verdict {
                Verdict::Pass(places) => (places, 1),
                Verdict::Fail(group) => (group, 0),
            };
            let figures = [0, pass, due.raises, due.bumps];
            let told: Vec<u64> = figures.iter().chain(members).map(|&x| x as u64).collect();
            assert_eq!(numbers(line), told, "{draft:?} at {level}");
            match pass {
                1 => passed += bumped as usize,
                _ => failed += bumped as usize,
            }
        }
    }
    println!("a calibration bumped in {passed} trials that pass, {failed} that fail");
    assert!(passed >= 100 && failed >= 500);
}

/// The stack that the header asks for is enough, on the largest sheet there is,
/// for the largest worklist and for a journal with every kind of call.
#[test]
fn the_stack_asked_for() {
    let all: Vec<u32> = (1..=24).collect();
    let lines: Vec<(u32, u32, &[u32])> = (0..200).map(|b| (1 + b * 7, 1, &all[..])).collect();
    let draft = Draft::new(24, &lines).calibrated(&[240; 24]);
    let draft = draft.started(&[7, 150, 200]);
    let sheet = draft.render();
    assert_eq!(sheet.len(), LARGEST_SHEET);
    let worklist = exports::worklist(&mut Rng::new(86), &draft);
    let journal = "     2   199\n     1     9     1     1\n     9   198\n     3     1     2     1     2\n     \
                   4     1     2\n     5\n     6     0\n     6 90000\n     7   200\n     8   200\n     \
                   5\n";
    let calls = move || {
        let (mut moves, mut buffer) = (vec![Move::default(); 200], vec![0; 1 << 18]);
        let done = [
            plan(&sheet, &mut buffer).refusal,
            run(&sheet, journal.as_bytes(), &mut buffer).refusal,
            write(&sheet, journal.as_bytes(), &mut buffer).refusal,
            balance(&sheet, &mut moves, &mut buffer).refusal,
            settle(&sheet, &mut moves, &mut buffer).refusal,
            take(24, &[240; 24], &worklist, &mut buffer).refusal,
        ];
        assert_eq!(done, [0; 6]);
    };
    let thread = std::thread::Builder::new().stack_size(128 << 10);
    thread.spawn(calls).unwrap().join().unwrap();
}
