//! Started batches (document 02, C-17): the mark in files, what an edit of a started
//! batch is refused with, and the first case with one. What plans make of them is in
//! `started_plans`.

use host::journal::journal;
use host::told::{answers, file, left, listed, refused, written};
use host::{SHEET, STARTED};
use second::gen;
use second::rng::Rng;
use second::{Call, Draft};

/// Every mark of a few batches, at every line, with good and bad fields around it.
#[test]
fn marks_in_files() {
    let lines: [(u32, u32, &[u32]); 3] = [(30, 1, &[1, 2]), (20, 2, &[2]), (10, 2, &[1, 2])];
    let sheet = Draft::new(2, &lines);
    // All eight sets of started batches, written as they were read.
    for set in 0..8 {
        let numbers: Vec<usize> = (1..4).filter(|i| set >> (i - 1) & 1 == 1).collect();
        let draft = file(&sheet.clone().started(&numbers));
        assert_eq!(written(&draft), Ok(draft));
    }
    for k in 0..3 {
        for mark in [0, 1, 2, 3, 9, 10, 11, 256, 257, 65_536, 65_537, 999_999] {
            let mut draft = sheet.clone();
            draft.lines[k].mark = mark;
            match mark {
                0 | 1 => assert_eq!(written(&file(&draft)), Ok(file(&draft))),
                _ => assert_eq!(refused(&file(&draft)), (1, k + 3)),
            }
            // A fault of the line before comes first, one of the next does not.
            if k > 0 && mark > 1 {
                let mut early = draft.clone();
                early.lines[k - 1].place = Some(3);
                assert_eq!(refused(&file(&early)), (5, k + 2));
            }
            if k < 2 && mark > 1 {
                draft.lines[k + 1].length = 0;
                assert_eq!(refused(&file(&draft)), (1, k + 3));
            }
        }
        // No place is given: 5, but only where the batch has started.
        for place in [None, Some(0)] {
            let mut draft = sheet.clone();
            draft.lines[k].place = place;
            let first = draft.lines[k].list[0];
            let mut filled = draft.clone();
            filled.lines[k].place = Some(first);
            assert_eq!(written(&file(&draft)), Ok(file(&filled)));
            draft.lines[k].mark = 1;
            assert_eq!(refused(&file(&draft)), (5, k + 3));
        }
    }
}

/// Which of a line's faults is met first.
#[test]
fn the_first_fault() {
    for (line, number) in [
        // The mark after the place's form, and before the count and the place.
        ("     5     9     2     0\n", 1),
        ("     5     1     2     9     9\n", 1),
        ("     5     1           0\n", 1),
        ("     5                 0\n", 1),
        ("     5     1    01     0\n", 1),
        ("     5     1     x     0\n", 1),
        ("     5     1     2", 1),
        ("     5     1\n", 1),
        ("     0     1     2     1     1\n", 3),
        ("  1441           2     1     1\n", 3),
        ("     5    0x     2     1     1\n", 1),
        // A started batch's list is judged like any other, before its place.
        ("     5     0     1     0\n", 4),
        ("     5     0     1     3\n", 4),
        ("     5           1     1     3\n", 4),
        ("     5     1     1     2     1     1\n", 4),
        ("     5     0     1     1     1 \n", 1),
        ("     5           1     1     1     2\n", 1),
        ("     5     0     1     2     1\n", 1),
        ("     5     0     1     2     1     2\n", 5),
        ("     5           1     2     1     2\n", 5),
        ("     5     2     1     1     1\n", 5),
        ("     5     3     1     2     1     2\n", 5),
    ] {
        let alone = format!("     2     1\n     0     0\n{line}");
        assert_eq!(refused(&alone), (number, 3), "{line:?}");
        let good = "     7     2     1     2     1     2\n";
        let second = format!("     2     2\n     0   240\n{good}{line}");
        assert_eq!(refused(&second), (number, 4), "{line:?}");
        // Bytes left over come after it.
        assert_eq!(refused(&(alone + "x")), (number, 3), "{line:?}");
    }
}

/// Sheets of the form without marks: what stands there is a count, and line 3 is
/// refused, whatever the batches are. Without a batch the two forms are one.
#[test]
fn sheets_without_marks() {
    let old = |draft: &Draft| {
        let mut text = draft.render();
        for at in gen::marks(&text).into_iter().rev() {
            text.drain(at..at + 6);
        }
        String::from_utf8(text).expect("plain text")
    };
    let lines: [(u32, u32, &[u32]); 3] = [(30, 1, &[1, 2]), (20, 1, &[1]), (10, 1, &[1, 2])];
    assert_eq!(refused(&old(&Draft::new(2, &lines))), (1, 3));
    // A count of 1 passes for a mark, and the instrument for a count.
    assert_eq!(refused(&old(&Draft::new(2, &lines[1..]))), (1, 3));
    assert_eq!(refused(&old(&Draft::new(24, &[(5, 24, &[24])]))), (1, 3));
    let mut rng = Rng::new(171);
    let (mut bad, mut good) = (0, 0);
    for round in 0..2_000 {
        let shape = [gen::SMALL, gen::MEDIUM, gen::FULL][round % 3];
        let draft = gen::draft(&mut rng, shape);
        match draft.lines.len() {
            0 => {
                assert_eq!(written(&old(&draft)), Ok(file(&draft)));
                good += 1;
            }
            _ => {
                assert_eq!(refused(&old(&draft)), (1, 3));
                bad += 1;
            }
        }
    }
    println!("{bad} refused, {good} without a batch");
    assert!(bad >= 1_500 && good >= 50);
}

/// All orders of 6, 11, 4, 13 and 5: numbers that are there and not, batches that have
/// started and not, and lists and instruments good and bad.
#[test]
fn which_refusal_comes_first() {
    let lines: [(u32, u32, &[u32]); 4] = [
        (30, 1, &[1, 2]),
        (20, 1, &[1, 2]),
        (10, 3, &[3]),
        (15, 2, &[1, 2]),
    ];
    let draft = Draft::new(3, &lines).started(&[1, 3]);
    let sheet = file(&draft);
    let lists: [(&[u64], usize); 10] = [
        (&[1], 0),
        (&[1, 2, 3], 0),
        (&[], 4),
        (&[0], 4),
        (&[4], 4),
        (&[2, 2], 4),
        (&[1, 2, 3, 1], 4),
        (&[3, 2, 2], 4),
        (&[3, 2, 1], 13),
        (&[2, 1], 13),
    ];
    for number in [0, 1, 2, 3, 4, 5, 200, 257, 258, 65_537, 999_999] {
        let (there, started) = ((1..=4).contains(&number), number == 1 || number == 3);
        let due = |good: bool, refusal: usize| match (there, started, good) {
            (false, ..) => 6,
            (_, true, _) => 11,
            (.., false) => refusal,
            _ => 0,
        };
        let mut calls = vec![
            (Call::Withdraw { number }, due(true, 0)),
            (Call::Start { number }, due(true, 0)),
        ];
        for (list, bad) in lists {
            let list = list.to_vec();
            calls.push((Call::Requalify { number, list }, due(bad == 0, bad)));
        }
        for instrument in [0, 1, 2, 3, 4, 257, 999_999] {
            // Not even to where it stands.
            let listed = instrument == 1 || instrument == 2;
            calls.push((Call::Move { number, instrument }, due(listed, 5)));
        }
        for (call, refusal) in calls {
            let journal = String::from_utf8(journal(&[call.clone()])).unwrap();
            let told = format!("{refusal:>6}\n");
            assert_eq!(answers(&sheet, &journal), Ok(told), "{call:?}");
            if refusal != 0 {
                assert_eq!(left(&sheet, &journal).as_ref(), Ok(&sheet), "{call:?}");
            }
        }
    }
}

/// One edit after the other: of a batch that was just started, of one that took the
/// number of a withdrawn one, of one that was just added, and of one that was moved
/// and requalified before.
#[test]
fn edits_and_starts() {
    let lines: [(u32, u32, &[u32]); 3] = [(30, 1, &[1, 2]), (20, 1, &[1, 2]), (10, 3, &[3])];
    let sheet = file(&Draft::new(3, &lines).started(&[1]));
    for (journal, told, after) in [
        (
            "     9     2\n     9     2\n     4     2     2\n     3     2     1     1\n     2     2\n",
            "     0\n    11\n    11\n    11\n    11\n",
            Draft::new(3, &lines).started(&[1, 2]),
        ),
        (
            "     2     2\n     2     1\n     9     2\n     9     3\n     2     2\n",
            "     0\n    11\n     0\n     6\n    11\n",
            Draft::new(3, &[lines[0], lines[2]]).started(&[1, 2]),
        ),
        (
            "     1     5     2     2     3\n     9     4\n     4     4     3\n",
            "     0\n     0\n    11\n",
            Draft::new(3, &[lines[0], lines[1], lines[2], (5, 2, &[2, 3])]).started(&[1, 4]),
        ),
        (
            "     4     2     2\n     3     2     3     1     2     3\n     9     2\n     4     2     3\n",
            "     0\n     0\n     0\n    11\n",
            Draft::new(3, &[lines[0], (20, 2, &[1, 2, 3]), lines[2]]).started(&[1, 2]),
        ),
    ] {
        assert_eq!(answers(&sheet, journal).unwrap(), told, "{journal}");
        assert_eq!(left(&sheet, journal).unwrap(), file(&after), "{journal}");
    }
}

/// The first case's sheet with its first batch started: a trial bumps it off, and it
/// goes back.
#[test]
fn the_first_case_with_a_started_batch() {
    let listing = "    50    50    20     4     6           0
     1     1
     1     1    30
     2     1    20
     3     2    10
";
    assert_eq!(listed(STARTED).unwrap(), listing);
    let journal = "     5\n     6    20\n     6    19\n     8     3\n     5\n     7     3\n";
    let told = "     0    60     3    60     0
     0     1     4     6     1     1     2
     0     0     8    10     1
     0    50           1     1     3     1     2
     0    50     0    50    10
     0    50    50    20     0     0     1     1     0
";
    assert_eq!(answers(STARTED, journal).unwrap(), told);
    let after = STARTED.replace("10     1", "10     2");
    assert_eq!(left(STARTED, journal).unwrap(), after);
    // Before it starts, the best plan moves it alone.
    let listing = listed(SHEET).unwrap();
    assert!(listing.contains("\n     1     2    30\n"), "{listing}");
}
