//! Sheets good, bad and hard, each with every kind of buffer: planned and
//! rewritten beside the second planner.

use std::collections::BTreeSet;
use std::sync::atomic::{AtomicUsize, Ordering};

use host::cases::{self, Case};
use host::check::{compare, Judge, Met};
use host::due::Due;
use host::kinds::Kind;
use host::listing::MOST;
use host::{plan, rewrite, text, SHEET};
use second::rng::Rng;
use second::{gen, trial, Draft, Sheet, Verdict};

/// What a sheet's listing is, or its refusal and line.
fn answer(sheet: &str) -> Result<String, (u32, usize)> {
    text(|listing| plan(sheet.as_bytes(), listing))
}

#[test]
fn known_listings() {
    let first = "    30    30     0     2     2           0
     0
     1     2    30
     2     1    20
     3     1    10
";
    assert_eq!(answer(SHEET).unwrap(), first);
    let second = "     2     3
     0     0
    10     1     0     1     1
    10     0     0     1     1
    10     1     0     1     1
";
    let listing = "    30    30    20     0     0           0
     1     1
     1     1    10
     2     1    10
     3     1    10
";
    assert_eq!(answer(second).unwrap(), listing);
    let empty = "     0     0     0     0     0           0\n     0\n";
    assert_eq!(answer("     1     0\n     0\n").unwrap(), empty);
    let most = format!("    24     0\n{}\n", "     0".repeat(24));
    assert_eq!(answer(&most).unwrap(), empty);
    let longest = "     1     1\n     0\n  1440     0     0     1     1\n";
    let listing = "  1440  1440     0     0     0           0\n     0\n     1     1  1440\n";
    assert_eq!(answer(longest).unwrap(), listing);
    // A blank place is the lowest listed.
    let blank = ["30", "20", "10"]
        .iter()
        .fold(SHEET.to_string(), |text, length| {
            text.replace(&format!("{length}     1"), &format!("{length}      "))
        });
    assert_eq!(answer(&blank).unwrap(), first);
    let blank = "     3     1\n     0     0     0\n    10           0     2     2     3\n";
    let listing = "    10    10     0     0     0           0\n     0\n     1     2    10\n";
    assert_eq!(answer(blank).unwrap(), listing);
}

#[test]
fn known_refusals() {
    let line = "     1     0     0     1     1\n";
    let full = format!("     1   200\n     0\n{}", line.repeat(200));
    assert_eq!(answer(&full).unwrap().lines().count(), 202);
    for (sheet, refusal) in [
        (String::new(), (1, 1)),
        (SHEET.replace("    30", "    07"), (1, 3)),
        (
            format!("     1   201\n     0\n{}", line.repeat(201)),
            (2, 1),
        ),
        ("    25     0\n".into(), (2, 1)),
        (SHEET.replace("    30", "  1441"), (3, 3)),
        (SHEET.replace("1     1\n", "1     3\n"), (4, 4)),
        (SHEET.replace("20     1", "20     2"), (5, 4)),
        (format!("{SHEET} "), (1, 6)),
        (format!("{full}{line}"), (1, 203)),
        (format!("{SHEET}{}", "\n".repeat(1 << 20)), (1, 6)),
        // Blanks in another field than the place.
        ("           0\n".into(), (1, 1)),
        ("     1      \n".into(), (1, 1)),
        (SHEET.replace("    30", "      "), (1, 3)),
        (SHEET.replace("20     1     0", "20     1      "), (1, 4)),
        (SHEET.replace("1     0     1", "1     0      "), (1, 4)),
        (SHEET.replace("1     1\n", "1      \n"), (1, 4)),
        (SHEET.replace("     0     0", "           0"), (1, 2)),
        (SHEET.replace("     0     0", "     0      "), (1, 2)),
        // Another mark than 0 or 1, and one of 1 beside no place.
        (SHEET.replace("30     1     0", "30     1     2"), (1, 3)),
        (SHEET.replace("20     1     0", "20     0     1"), (5, 4)),
        (SHEET.replace("20     1     0", "20           1"), (5, 4)),
        // A list that does not ascend, before the LF and the place.
        (SHEET.replace("     1     2\n", "     2     1\n"), (13, 3)),
        (
            SHEET.replace(
                "10     1     0     2     1     2\n",
                "10     9     0     2     2     1",
            ),
            (13, 5),
        ),
        // Five of them at the end.
        ("     1     1\n     0\n     5     ".into(), (1, 3)),
    ] {
        let start = &sheet[..sheet.len().min(100)];
        assert_eq!(answer(&sheet), Err(refusal), "{start}");
        let written = text(|written| rewrite(sheet.as_bytes(), written));
        assert_eq!(written, Err(refusal), "{start}");
    }
}

/// Every field left blank in turn: in the place that is 0, and refused where the
/// batch has started; anywhere else it is refused at its line. Nothing is written
/// then.
#[test]
fn every_field_blank() {
    let mut judge = Judge::new(plan);
    let (mut taken, mut started, mut refused) = (0, 0, 0);
    for case in cases::sound(17, 150) {
        let file = case.sheet;
        let places = gen::places(&file);
        for at in gen::fields(&file) {
            let mut blank = file.clone();
            blank[at..at + 6].fill(b' ');
            let line = 1 + file[..at].iter().filter(|&&b| b == b'\n').count();
            let due = if places.contains(&at) && file[at + 11] == b'1' {
                started += 1;
                Due::Refused { refusal: 5, line }
            } else if places.contains(&at) {
                taken += 1;
                let mut zero = String::from_utf8(file.clone()).unwrap();
                zero.replace_range(at..at + 6, "     0");
                Due::Text(answer(&zero).unwrap().into_bytes())
            } else {
                refused += 1;
                Due::Refused { refusal: 1, line }
            };
            judge.call(&blank, MOST, &due).unwrap_or_else(|fault| {
                let sheet = String::from_utf8_lossy(&blank);
                panic!("{fault}\nsheet:\n{sheet}")
            });
        }
    }
    println!("{taken} blank places, {started} of started batches, {refused} other blanks");
    assert!(taken >= 1_000 && started >= 500 && refused >= 10_000);
}

/// All good sheets met the buffer that just fits, and so many at least met every
/// kind, of which the first four are too short.
fn rooms_of_good_sheets(met: &Met, least: usize) {
    let all = met.plans.count;
    for calls in [met.planned, met.rewritten] {
        let some = calls[9][0];
        assert_eq!(calls[0], [0, 0, 0, 0, all, some, some, some]);
        assert_eq!(calls[9], [some, some, some, some, 0, 0, 0, 0]);
        assert!(some >= least, "{some} of {all}");
    }
    assert_eq!(met.same + met.filled, all);
}

#[test]
fn sound_sheets() {
    let kinds = Kind::all();
    let of_kind = |run: u64| {
        let kind = kinds[run as usize % kinds.len()];
        let mut rng = Rng::new(run);
        (0..10).map(|_| Case::from(kind.sheet(&mut rng))).collect()
    };
    let met = compare(180, |run| match run {
        0..=47 => of_kind(run),
        48..=51 => cases::largest(run, 25),
        52..=61 => cases::reviews_and_trials(run, 100),
        _ => cases::sound(run, 220),
    });
    println!("{}", met.summary());
    assert_eq!(met.sheets, 48 * 10 + 4 * 25 + 10 * 100 + 118 * 220);
    let plans = &met.plans;
    assert_eq!(plans.count, met.sheets);
    assert!(met.sheets >= 25_000);
    rooms_of_good_sheets(&met, 12_500);
    assert!(plans.empty >= 1_000 && plans.small >= 10_000);
    assert!(plans.middle >= 2_000 && plans.largest >= 500);
    assert!(plans.given >= 100_000 && plans.open >= 100_000);
    assert!(plans.blank >= 85_000);
    assert!(plans.none >= 1_000 && plans.some >= 1_000 && plans.all >= 1_000);
    assert!(plans.shown >= 1_000);
    assert!(plans.calibrated >= 10_000 && plans.only >= 500 && plans.longer >= 2_000);
    assert!(plans.some_started >= 5_000 && plans.all_started >= 2_000);
    assert!(plans.started >= 100_000 && plans.held >= 50_000);
    assert!(plans.worked >= 1_000 && plans.moved >= 1_000);
    assert!(plans.steps >= 1_000 && plans.moves >= 10);
    assert!(met.same >= 5_000 && met.filled >= 5_000);
}

#[test]
fn damaged_sheets() {
    let met = compare(124, |run| match run {
        0..=7 => cases::every_byte(run),
        8..=23 => cases::every_field(run),
        24..=63 => cases::faulty(run, 300),
        _ => cases::damaged(run, 220),
    });
    println!("{}", met.summary());
    assert!(met.sheets >= 40_000);
    rooms_of_good_sheets(&met, 1_000);
    // Some damage leaves a good sheet, with other numbers in it.
    assert!(met.plans.count >= 500 && met.plans.blank >= 1_000);
    assert!(met.same >= 200 && met.filled >= 200);
    for number in [1, 2, 3, 4, 5, 10, 13] {
        assert_eq!(met.planned[number], met.rewritten[number]);
        for count in met.planned[number] {
            assert!(count >= 500, "refusal {number}");
        }
    }
    for number in [1, 3, 4, 5, 13] {
        assert!(met.lines[number].len() >= 100, "lines of refusal {number}");
    }
    assert_eq!(met.lines[2], BTreeSet::from([1]));
    assert_eq!(met.lines[10], BTreeSet::from([2]));
    // A blank place is taken, and hides no other fault of its line; where the batch
    // has started it is one.
    for number in [1, 3, 4, 5, 13] {
        assert!(met.at_blank[number] >= 300, "refusal {number} at a blank");
    }
    assert!(met.plans.some_started >= 300 && met.plans.all_started >= 100);
    assert!(met.plans.calibrated >= 300);
}

/// The most steps of the trials that planning makes; all but the kept one's
/// are in no listing.
fn most_steps(sheet: &Sheet) -> u32 {
    let (mut failed, mut passed) = (-1, sheet.finish() as i64);
    let mut most = 0;
    while passed - failed > 1 {
        let level = (failed + passed).div_euclid(2);
        let answer = trial(sheet, level as u64).unwrap();
        most = most.max(answer.raises + answer.bumps);
        match answer.verdict {
            Verdict::Pass(_) => passed = level,
            Verdict::Fail(_) => failed = level,
        }
    }
    most
}

/// The hard shape as it is, with a few edits made, and without its last byte.
#[test]
fn hard_sheets() {
    let long = AtomicUsize::new(0);
    let met = compare(4, |run| {
        let mut sheets = Vec::new();
        for (start, edits) in cases::hard_edits(run, 1) {
            let mut sheet = start.clone();
            second::run(&mut sheet, &edits);
            long.fetch_add((most_steps(&sheet) >= 100_000) as usize, Ordering::Relaxed);
            let edited = Draft::from(&sheet).render();
            let mut cut = edited.clone();
            cut.pop();
            sheets.extend([Draft::from(&start).render(), edited, cut]);
        }
        sheets.into_iter().map(Case::from).collect()
    });
    let long = long.into_inner();
    println!("{}, {long} long", met.summary());
    assert_eq!((met.sheets, met.plans.count), (12, 8));
    rooms_of_good_sheets(&met, 4);
    assert_eq!((met.planned[1], met.rewritten[1]), ([4; 8], [4; 8]));
    assert!(met.plans.largest >= 4 && met.plans.moved >= 4);
    assert!(long >= 2);
}
