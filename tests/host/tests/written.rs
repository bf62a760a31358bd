//! Sheets written back: known ones, the largest, and what follows from one
//! journal to the next. That every sheet is written as the second planner says
//! is with those that are read (`sheets`) and with the runs (`runs`).

use host::cases;
use host::due::Due;
use host::journal::journal;
use host::runs::{dues, Judge};
use host::{run, text, write, LARGEST_SHEET, SHEET, STARTED};
use second::rng::Rng;
use second::{Call, Draft};

/// The sheet as a journal leaves it.
fn written(sheet: &str, journal: &str) -> String {
    let file = text(|written| write(sheet.as_bytes(), journal.as_bytes(), written));
    file.unwrap_or_else(|refused| panic!("{refused:?}\nsheet:\n{sheet}journal:\n{journal}"))
}

/// Sheets that are small enough to follow by hand, each with what each journal
/// makes of it.
#[test]
fn known_sheets() {
    let planned = SHEET.replace("30     1", "30     2");
    let around = STARTED.replace("10     1", "10     2");
    for (journal, due) in [
        ("", SHEET),
        // Calls that change nothing, and calls that are refused.
        ("     5\n     6     0\n", SHEET),
        (
            "     4     2     2\n     4     1     0\n     2     4\n     2     0\n     6    61\n",
            SHEET,
        ),
        (
            "     1  1441     1     1\n     1     5     2     2     2\n     3     1     0\n",
            SHEET,
        ),
        // Lists that do not ascend.
        (
            "     1     5     2     2     1\n     3     1     2     2     1\n",
            SHEET,
        ),
        // Lists with fewer entries than there are batches.
        ("     7     2\n     8     2\n     8     0\n", SHEET),
        ("     4     1     2\n", &planned),
        ("     7     3\n", &planned),
        ("     8     3\n", &planned),
        ("     7     3\n     8     3\n", &planned),
        ("     8     3\n     7     3\n", &planned),
        ("     7     3\n     4     1     1\n", SHEET),
        (
            "     1    15     2     1     2\n",
            "     2     4
     0     0
    30     1     0     2     1     2
    20     1     0     1     1
    10     1     0     2     1     2
    15     1     0     2     1     2
",
        ),
        (
            "     2     2\n",
            "     2     2
     0     0
    30     1     0     2     1     2
    10     1     0     2     1     2
",
        ),
        // The place is kept where it is listed, and is the lowest otherwise.
        (
            "     3     1     1     2\n     3     1     2     1     2\n     3     3     1     2\n     \
             3     2     2     1     2\n",
            "     2     3
     0     0
    30     2     0     2     1     2
    20     1     0     2     1     2
    10     2     0     1     2
",
        ),
        // Refused calls in between.
        (
            "     4     1     2\n     4     2     2\n     1  1440     1     2\n     2     9\n     \
             3     1     1     1\n     3     3     2     2     1\n     2     2\n     \
             1     7     1     2\n     1     7     2     2     1\n",
            "     2     4
     0     0
    30     1     0     1     1
    10     1     0     2     1     2
  1440     2     0     1     2
     7     2     0     1     2
",
        ),
        (
            "     2     1\n     2     1\n     2     1\n",
            "     2     0\n     0     0\n",
        ),
        // A started batch keeps its list and its place.
        ("     9     1\n", STARTED),
        (
            "     9     1\n     9     1\n     2     1\n     4     1     2\n     3     1     1     2\n",
            STARTED,
        ),
        ("     9     1\n     7     3\n", &around),
        ("     9     1\n     8     3\n", &around),
        (
            "     8     3\n     9     1\n     4     1     1\n",
            &planned.replace("30     2     0", "30     2     1"),
        ),
    ] {
        assert_eq!(written(SHEET, journal), due, "{journal}");
    }
    // Places not given are filled in with the lowest listed, and all else stays.
    let open = "    12     4
     0     0     0     0     0     0     0     0     0     0     0     0
     5           0     2     2    11
    40     0     0     3     3    10    11
     7    12     0     2     2    12
  1440     9     0     1     9
";
    let filled = "    12     4
     0     0     0     0     0     0     0     0     0     0     0     0
     5     2     0     2     2    11
    40     3     0     3     3    10    11
     7    12     0     2     2    12
  1440     9     0     1     9
";
    assert_eq!(written(open, ""), filled);
    assert_eq!(written(filled, ""), filled);
    let moved = filled.replace("40     3", "40    10");
    assert_eq!(written(open, "     4     2    10\n"), moved);
    for (m, minutes) in [(1, 0), (1, 240), (24, 0), (24, 240)] {
        let empty = Draft::new(m, &[]).calibrated(&vec![minutes; m as usize]);
        let empty = String::from_utf8(empty.render()).unwrap();
        assert_eq!(written(&empty, ""), empty);
        let journal = "     7     0\n     8     0\n     2     1\n";
        assert_eq!(written(&empty, journal), empty);
    }
    // Calibrations stay as they are, whatever the calls.
    let calibrated = SHEET.replace("     0     0", "   240     7");
    assert_eq!(written(&calibrated, ""), calibrated);
    let journal =
        "     2     1\n     1    15     1     2\n     4     2     2\n     3     1     1     2\n";
    let left = "     2     3
   240     7
    20     2     0     1     2
    10     2     0     2     1     2
    15     2     0     1     2
";
    assert_eq!(written(&calibrated, journal), left);
    // The first instrument is calibrated for so long that nothing goes there.
    assert_eq!(written(left, "     7     3\n     8     3\n"), left);
    // Balance leaves this sheet as it is, and settle does not.
    let unsettled = "     2     4
     0     0
     2     2     0     1     2
     4     1     0     2     1     2
     5     1     0     2     1     2
     2     2     0     2     1     2
";
    let settled = "     2     4
     0     0
     2     2     0     1     2
     4     2     0     2     1     2
     5     1     0     2     1     2
     2     1     0     2     1     2
";
    assert_eq!(written(unsettled, "     7     4\n"), unsettled);
    assert_eq!(written(unsettled, "     8     3\n"), unsettled);
    assert_eq!(written(unsettled, "     8     4\n"), settled);
}

/// A sheet of 200 batches takes no more, but one for another.
#[test]
fn a_full_sheet() {
    let line = "     1     0     0     1     1\n";
    let filled = line.replace("1     0", "1     1");
    let file = |lines: String| format!("     1   200\n   240\n{lines}");
    let full = file(line.repeat(200));
    assert_eq!(
        written(&full, "     1     9     1     1\n"),
        file(filled.repeat(200))
    );
    let journal =
        "     1     0     0\n     2   200\n     1     9     1     1\n     1     8     1     1\n";
    assert_eq!(
        written(&full, journal),
        file(filled.repeat(199) + &filled.replacen('1', "9", 1))
    );
}

/// The largest there is, as it was read, made by adding to one that is nearly
/// as large, by requalifying all of one that is small, balanced and settled.
#[test]
fn the_largest() {
    assert_eq!(LARGEST_SHEET, 33_958);
    let mut judge = Judge::new(write);
    let all: Vec<u64> = (1..=24).collect();
    let most: Vec<u32> = (1..=24).collect();
    let draft = |batches: usize, list: &[u32]| Draft::new(24, &vec![(1440, 0, list); batches]);
    let requalify = |number| Call::Requalify {
        number,
        list: all.clone(),
    };
    let start = |number| Call::Start { number };
    let add = Call::Add {
        length: 1440,
        list: all.clone(),
    };
    for (sheet, calls) in [
        (draft(200, &most), vec![]),
        (draft(200, &most), vec![add.clone()]),
        (draft(199, &most), vec![add]),
        (draft(200, &[24]), (1..=200).map(requalify).collect()),
        (draft(200, &most), vec![Call::Balance { entries: 200 }]),
        (draft(200, &most), vec![Call::Settle { entries: 200 }]),
        (draft(200, &most), (1..=200).map(start).collect()),
    ] {
        let (sheet, journal) = (sheet.render(), journal(&calls));
        let due = &dues(&sheet, &journal)[1];
        let Due::Text(file) = due else {
            panic!("{due:?}")
        };
        assert_eq!(file.len(), LARGEST_SHEET);
        for size in [0, 1]
            .into_iter()
            .chain(LARGEST_SHEET - 9..LARGEST_SHEET + 9)
        {
            judge
                .call(&sheet, &journal, size, due)
                .unwrap_or_else(|fault| panic!("a buffer of {size}: {fault}\n{calls:?}"));
        }
    }
}

/// A journal made in two parts, the second on the sheet that the first left:
/// the answers and the sheet are those of the whole.
#[test]
fn one_day_after_another() {
    let mut rng = Rng::new(41);
    let (mut both, mut changed) = (0, 0);
    let cases = cases::runs(42, 500)
        .into_iter()
        .chain(cases::edits(43, 1_500));
    for case in cases {
        let sheet = String::from_utf8(case.sheet).unwrap();
        let at = rng.below(case.calls.len() as u64 + 1) as usize;
        let [whole, first, second] = [&case.calls[..], &case.calls[..at], &case.calls[at..]]
            .map(|calls| String::from_utf8(journal(calls)).unwrap());
        let answers = |sheet: &str, journal: &str| {
            text(|answers| run(sheet.as_bytes(), journal.as_bytes(), answers)).unwrap()
        };
        let evening = written(&sheet, &first);
        assert_eq!(written(&evening, &second), written(&sheet, &whole));
        let parts = answers(&sheet, &first) + &answers(&evening, &second);
        assert_eq!(parts, answers(&sheet, &whole));
        both += (!first.is_empty() && !second.is_empty()) as usize;
        changed += (evening != written(&sheet, "")) as usize;
    }
    println!("{both} of two parts, {changed} with another sheet in between");
    assert!(both >= 1_200 && changed >= 1_000);
}
