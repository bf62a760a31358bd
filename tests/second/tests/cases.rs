//! Small cases with known answers.

use second::*;

const P1: &[u8] = b"     2     3
     0     0
    30     1     0     2     1     2
    20     1     0     1     1
    10     1     0     2     1     2
";

const P1_LISTING: &[u8] = b"    30    30     0     2     2           0
     0
     1     2    30
     2     1    20
     3     1    10
";

fn planned(draft: &Draft) -> (Sheet, Plan) {
    let mut sheet = read(&draft.render()).expect("a sound sheet");
    let plan = plan(&mut sheet);
    (sheet, plan)
}

/// Balance a sheet and settle it straight after, each with a list that just
/// suffices.
fn both(sheet: &mut Sheet) -> (Balanced, Settled) {
    let entries = sheet.batches().len() as u64;
    let balanced = balance(sheet, entries).expect("an entry for each batch");
    let settled = settle(sheet, entries).expect("an entry for each batch");
    (balanced, settled)
}

fn went(batch: u32, from: u32, to: u32) -> Move {
    Move { batch, from, to }
}

fn three_tens() -> Draft {
    Draft::new(2, &[(10, 0, &[1]), (10, 0, &[1]), (10, 0, &[1])])
}

fn refused(bytes: &[u8]) -> (u32, u32) {
    let fault = read(bytes).expect_err("a fault");
    (fault.refusal.number(), fault.line)
}

#[test]
fn p1_listing() {
    assert_eq!(program(P1), P1_LISTING);
    let mut buffer = [b'#'; 200];
    let answer = host(P1, &mut buffer);
    let expected = HostAnswer {
        refusal: 0,
        line: 0,
        length: P1_LISTING.len(),
    };
    assert_eq!(answer, expected);
    assert_eq!(&buffer[..P1_LISTING.len()], P1_LISTING);
    assert!(buffer[P1_LISTING.len()..].iter().all(|&b| b == b'#'));

    let mut sheet = read(P1).unwrap();
    let (balanced, settled) = both(&mut sheet);
    let expected = Balanced {
        finish: 30,
        floor: 30,
        group: None,
        level: 0,
        raises: 2,
        bumps: 2,
        records: vec![went(1, 1, 2)],
    };
    assert_eq!(balanced, expected);
    let expected = Settled {
        finish: 30,
        moves: 0,
        records: vec![],
    };
    assert_eq!(settled, expected);
    assert_eq!(sheet.places(), [2, 1, 1]);
}

#[test]
fn p2_all_on_one() {
    let (_, plan) = planned(&three_tens());
    let expected = Plan {
        finish: 30,
        floor: 30,
        group: Some(vec![1]),
        level: 20,
        raises: 0,
        bumps: 0,
        moves: 0,
    };
    assert_eq!(plan, expected);
    let (balanced, settled) = both(&mut three_tens().sheet());
    let expected = Balanced {
        finish: 30,
        floor: 30,
        group: Some(vec![1]),
        level: 20,
        raises: 0,
        bumps: 0,
        records: vec![],
    };
    assert_eq!(balanced, expected);
    let expected = Settled {
        finish: 30,
        moves: 0,
        records: vec![],
    };
    assert_eq!(settled, expected);
    let text = "    30    30    20     0     0           0\n     1     1\n";
    let batches = "     1     1    10\n     2     1    10\n     3     1    10\n";
    let listing = program(&three_tens().render());
    assert_eq!(listing, [text, batches].concat().as_bytes());
}

#[test]
fn p3_no_batch() {
    for m in [1, 2, 23, 24] {
        let (_, plan) = planned(&Draft::new(m, &[]));
        assert_eq!((plan.finish, plan.floor, plan.level), (0, 0, 0));
        assert_eq!((plan.group, plan.moves), (None, 0));
        let (balanced, settled) = both(&mut Sheet::empty(m).unwrap());
        let numbers = (balanced.finish, balanced.floor, balanced.level);
        assert_eq!((numbers, balanced.group), ((0, 0, 0), None));
        assert_eq!((settled.finish, settled.moves), (0, 0));
        assert_eq!([balanced.records, settled.records], [[], []]);
        let listing = program(&Draft::new(m, &[]).render());
        let expected = b"     0     0     0     0     0           0\n     0\n";
        assert_eq!(listing, expected);
    }
}

#[test]
fn p4_one_long_batch() {
    for (m, list) in [(1, vec![1]), (2, vec![2]), (24, vec![3, 7, 24])] {
        let (sheet, plan) = planned(&Draft::new(m, &[(1440, 0, &list)]));
        let numbers = (plan.finish, plan.floor, plan.level);
        assert_eq!(numbers, (1440, 1440, 0));
        assert_eq!(plan.group, None);
        assert_eq!(sheet.places(), [list[0]]);
        let (balanced, settled) = both(&mut Draft::new(m, &[(1440, 0, &list)]).sheet());
        let numbers = (balanced.finish, balanced.floor, balanced.level);
        assert_eq!((numbers, balanced.group), ((1440, 1440, 0), None));
        assert_eq!((settled.finish, settled.moves), (1440, 0));
        assert_eq!([balanced.records, settled.records], [[], []]);
    }
}

fn two_loads(first: u32) -> Sheet {
    Draft::new(2, &[(first - 10, 1, &[1]), (20, 2, &[2]), (10, 1, &[1, 2])]).sheet()
}

#[test]
fn p5_equality_is_no_gain() {
    let answer = review(&two_loads(30));
    assert_eq!((answer.loads, answer.finish), (vec![30, 20], 30));
    assert_eq!(answer.gains, None);
    let mut sheet = two_loads(30);
    let settled = settle(&mut sheet, 3).unwrap();
    assert_eq!((settled.finish, settled.moves), (30, 0));
    assert_eq!(settled.records, []);
    assert_eq!(sheet, two_loads(30));
}

#[test]
fn p6_one_minute_is_a_gain() {
    let answer = review(&two_loads(31));
    assert_eq!((answer.loads, answer.finish), (vec![31, 20], 31));
    assert_eq!(answer.gains, Some(3));
    let mut sheet = two_loads(31);
    let settled = settle(&mut sheet, 3).unwrap();
    assert_eq!((settled.finish, settled.moves), (30, 1));
    assert_eq!(settled.records, [went(3, 1, 2)]);
    assert_eq!(sheet.places(), [1, 2, 2]);
}

#[test]
fn p7_trial_at_0() {
    let sheet = read(P1).unwrap();
    let expected = Trial {
        verdict: Verdict::Pass(vec![2, 1, 1]),
        raises: 2,
        bumps: 2,
    };
    assert_eq!(trial(&sheet, 0), Ok(expected));
}

#[test]
fn p8_trials_at_19_and_20() {
    let sheet = three_tens().sheet();
    let failed = trial(&sheet, 19).unwrap();
    assert_eq!(failed.verdict, Verdict::Fail(vec![1]));
    let passed = Trial {
        verdict: Verdict::Pass(vec![1, 1, 1]),
        raises: 0,
        bumps: 0,
    };
    assert_eq!(trial(&sheet, 20), Ok(passed));
}

#[test]
fn p9_zeros() {
    assert_eq!(refused(b"    07     0\n"), (1, 1));
    assert_eq!(refused(b"     1    07\n"), (1, 1));
    assert_eq!(refused(b"     1    00\n"), (1, 1));
    assert_eq!(refused(b"     1000000\n"), (1, 1));
    assert!(read(b"     1     0\n     0\n").is_ok());
    assert_eq!(refused(b"     1     0\n    07\n"), (1, 2));
    assert_eq!(refused(b"     1     0\n    00\n"), (1, 2));
    let line = b"     1     1\n     0\n     5    00     0     1     1\n";
    assert_eq!(refused(line), (1, 3));
    let line = b"     1     1\n     0\n     5     0     0     1     1\n";
    assert_eq!(read(line).unwrap().places(), [1]);
}

#[test]
fn a_blank_place_is_place_0() {
    // All three of the first case's places are the lowest listed.
    let text = std::str::from_utf8(P1).unwrap();
    let lengths = ["30", "20", "10"];
    let blank = lengths.iter().fold(text.to_string(), |text, length| {
        text.replace(&format!("{length}     1"), &format!("{length}      "))
    });
    assert_eq!(blank.len(), P1.len());
    assert_eq!(read(blank.as_bytes()), read(P1));
    assert_eq!(program(blank.as_bytes()), P1_LISTING);
    let blank = three_tens().without_places();
    assert_eq!(program(&blank.render()), program(&three_tens().render()));

    // Lines for a sheet of three instruments, and the places they come to.
    for (line, place) in [
        ("     5           0     1     2\n", 2),
        ("     5           0     1     3\n", 3),
        ("     5           0     2     2     3\n", 2),
        ("  1440           0     3     1     2     3\n", 1),
        ("     5     0     0     2     2     3\n", 2),
        ("     5     3     0     2     2     3\n", 3),
    ] {
        let file = format!("     3     1\n     0     0     0\n{line}");
        let sheet = read(file.as_bytes()).unwrap();
        assert_eq!(sheet.places(), [place], "{line:?}");
    }
    // Each line by itself.
    let file = b"     3     3
     0     0     0
     5           0     2     2     3
     6     3     0     2     1     3
     7     0     0     2     1     2
";
    assert_eq!(read(file).unwrap().places(), [2, 3, 1]);
}

#[test]
fn a_blank_is_refused_elsewhere() {
    // Files with a blank in another field than the place, and its line.
    for (file, line) in [
        ("           0\n", 1),
        ("     1      \n", 1),
        ("     1     0\n      \n", 2),
        ("     2     0\n           0\n", 2),
        ("     2     0\n   240      \n", 2),
        ("     1     1\n     0\n           1     0     1     1\n", 3),
        ("     1     1\n     0\n     5     1           1     1\n", 3),
        ("     1     1\n     0\n     5                 1     1\n", 3),
        ("     1     1\n     0\n     5     1     0           1\n", 3),
        ("     1     1\n     0\n     5           0           1\n", 3),
        ("     1     1\n     0\n     5     1     0     1      \n", 3),
        ("     1     1\n     0\n     5           0     1      \n", 3),
        (
            "     2     1\n     0     0\n     5     1     0     2           1\n",
            3,
        ),
        (
            "     2     1\n     0     0\n     5     1     0     2     1      \n",
            3,
        ),
        (
            "     1     2\n     0\n     5           0     1     1\n           1     0     1     1\n",
            4,
        ),
        // Five blanks are no place, and after six the mark is still due.
        ("     1     1\n     0\n     5     ", 3),
        ("     1     1\n     0\n     5      ", 3),
        ("     1     1\n     0\n     5          0     1     1\n", 3),
    ] {
        assert_eq!(refused(file.as_bytes()), (1, line), "{file:?}");
    }
}

#[test]
fn p10_longest_length() {
    assert!(read(&Draft::new(1, &[(1440, 0, &[1])]).render()).is_ok());
    assert_eq!(refused(&Draft::new(1, &[(1441, 0, &[1])]).render()), (3, 3));
    assert!(read(&Draft::new(1, &[(1, 0, &[1])]).render()).is_ok());
    assert_eq!(refused(&Draft::new(1, &[(0, 0, &[1])]).render()), (3, 3));
}

fn ones(n: usize) -> Draft {
    Draft::new(3, &vec![(1, 0, [2, 3].as_slice()); n])
}

#[test]
fn two_hundred_batches_and_one_more() {
    assert_eq!(read(&ones(200).render()).unwrap().batches().len(), 200);
    assert_eq!(refused(&ones(201).render()), (2, 1));
    let mut sheet = ones(200).sheet();
    assert_eq!(sheet.add(1, &[1]), Err(Refusal::Full));
    assert_eq!(sheet, ones(200).sheet());
    assert_eq!(sheet.withdraw(1), Ok(()));
    assert_eq!(sheet.add(1, &[1]), Ok(()));
}

#[test]
fn level_up_to_the_total() {
    for sheet in [three_tens().sheet(), read(P1).unwrap(), ones(7).sheet()] {
        let total = sheet.total() as u64;
        assert!(trial(&sheet, total).is_ok());
        for level in [total + 1, total + 2, u32::MAX as u64, 1 << 32, u64::MAX] {
            assert_eq!(trial(&sheet, level), Err(Refusal::Level));
        }
    }
    let none = Sheet::empty(5).unwrap();
    let passed = Trial {
        verdict: Verdict::Pass(vec![]),
        raises: 0,
        bumps: 0,
    };
    assert_eq!(trial(&none, 0), Ok(passed));
    assert_eq!(trial(&none, 1), Err(Refusal::Level));
}

#[test]
fn empty_file() {
    assert_eq!(refused(b""), (1, 1));
    assert_eq!(program(b""), b"     1     1\n");
    let answer = HostAnswer {
        refusal: 1,
        line: 1,
        length: 0,
    };
    assert_eq!(host(b"", &mut []), answer);
}

#[test]
fn passing_is_not_monotone() {
    let sheet = Draft::new(
        3,
        &[
            (4, 2, &[1, 2, 3]),
            (2, 2, &[1, 2]),
            (2, 1, &[1, 2]),
            (3, 1, &[1, 2, 3]),
        ],
    )
    .sheet();
    let passes = |level| matches!(trial(&sheet, level).unwrap().verdict, Verdict::Pass(_));
    assert!(passes(0) && !passes(1) && passes(2));
    // Level 2 is the first that halving tries, 0 the next.
    assert_eq!(sheet.finish(), 6);
    let answer = plan(&mut sheet.clone());
    assert_eq!((answer.level, answer.group), (0, None));
}

/// Every trial that passes leaves the standing places, and settling then moves
/// two batches.
#[test]
fn balance_ends_before_settling() {
    let mut sheet = Draft::new(
        2,
        &[
            (2, 2, &[2]),
            (4, 1, &[1, 2]),
            (5, 1, &[1, 2]),
            (2, 2, &[1, 2]),
        ],
    )
    .sheet();
    let listed = plan(&mut sheet.clone());
    let balanced = balance(&mut sheet, 4).unwrap();
    let expected = Balanced {
        finish: 9,
        floor: 7,
        group: Some(vec![1, 2]),
        level: 4,
        raises: 0,
        bumps: 0,
        records: vec![],
    };
    assert_eq!(balanced, expected);
    assert_eq!(review(&sheet).gains, Some(2));
    let settled = settle(&mut sheet, 4).unwrap();
    let expected = Settled {
        finish: 7,
        moves: 2,
        records: vec![went(2, 1, 2), went(4, 2, 1)],
    };
    assert_eq!(settled, expected);
    assert_eq!(sheet.places(), [2, 2, 1, 1]);
    let numbers = (listed.finish, listed.floor, listed.level, listed.moves);
    assert_eq!((numbers, listed.group), ((7, 7, 4, 2), Some(vec![1, 2])));
}

/// Settling alone, on the first case's sheet; then each of the two again.
#[test]
fn settle_alone() {
    let mut sheet = read(P1).unwrap();
    let settled = settle(&mut sheet, 3).unwrap();
    assert_eq!((settled.finish, settled.moves), (30, 1));
    assert_eq!(settled.records, [went(1, 1, 2)]);
    let once = sheet.clone();
    let again = settle(&mut sheet, 4).unwrap();
    assert_eq!((again.finish, again.moves), (30, 0));
    let balanced = balance(&mut sheet, 4).unwrap();
    assert_eq!((balanced.finish, balanced.raises), (30, 0));
    assert_eq!([again.records, balanced.records], [[], []]);
    assert_eq!(sheet, once);
}

/// Batch 2 goes from 3 to 2 and back, and batch 4 leaves 3 in between.
#[test]
fn a_batch_that_returns_has_no_record() {
    let mut sheet = Draft::new(
        3,
        &[(1, 3, &[3]), (4, 3, &[2, 3]), (2, 2, &[2]), (2, 3, &[1, 3])],
    )
    .sheet();
    let settled = settle(&mut sheet, 4).unwrap();
    let expected = Settled {
        finish: 5,
        moves: 3,
        records: vec![went(4, 3, 1)],
    };
    assert_eq!(settled, expected);
    assert_eq!(sheet.places(), [3, 3, 2, 1]);
}

/// What counts is how many batches there are, not how many records.
#[test]
fn lists_with_too_few_entries() {
    let settled = Draft::new(2, &[(5, 1, &[1]), (5, 2, &[2])]).sheet();
    for sheet in [read(P1).unwrap(), settled, ones(200).sheet()] {
        let n = sheet.batches().len() as u64;
        for entries in 0..n {
            let mut after = sheet.clone();
            assert_eq!(balance(&mut after, entries), Err(Refusal::Buffer));
            assert_eq!(settle(&mut after, entries), Err(Refusal::Buffer));
            assert_eq!(after, sheet);
        }
        let (mut first, mut second) = (sheet.clone(), sheet.clone());
        let due = (balance(&mut first, n), settle(&mut second, n));
        assert!(due.0.is_ok() && due.1.is_ok());
        for entries in [n + 1, 201, 999_999, 1 << 32, u64::MAX] {
            let (mut one, mut other) = (sheet.clone(), sheet.clone());
            let found = (balance(&mut one, entries), settle(&mut other, entries));
            assert_eq!(found, due);
            assert_eq!((one, other), (first.clone(), second.clone()));
        }
    }
    assert_eq!(settle(&mut Sheet::empty(1).unwrap(), 0).unwrap().finish, 0);
    assert_eq!(balance(&mut Sheet::empty(1).unwrap(), 0).unwrap().finish, 0);
}

/// The first case's sheet as a file: settled and balanced it is the same.
#[test]
fn files() {
    let text = std::str::from_utf8(P1).unwrap();
    let after = text.replace("30     1", "30     2");
    let unused = went(7, 8, 9);
    for (entries, room) in [(3, 131), (4, 131), (3, 132), (200, 1_000)] {
        let (mut moves, mut buffer) = (vec![unused; entries], vec![b'#'; room]);
        let (settled, length) = settle_file(P1, &mut moves, &mut buffer).unwrap();
        assert_eq!((settled.finish, settled.moves, length), (30, 1, 131));
        assert_eq!(
            (moves[0], &settled.records[..]),
            (went(1, 1, 2), &moves[..1])
        );
        assert!(moves[1..].iter().all(|&entry| entry == unused));
        assert_eq!(&buffer[..131], after.as_bytes());
        assert!(buffer[131..].iter().all(|&b| b == b'#'));

        let (mut others, mut second) = (vec![unused; entries], vec![b'#'; room]);
        let (balanced, length) = balance_file(P1, &mut others, &mut second).unwrap();
        let numbers = (balanced.finish, balanced.floor, balanced.raises);
        assert_eq!((numbers, length), ((30, 30, 2), 131));
        assert_eq!((others, second), (moves, buffer));
    }
    let bad = text.replace("    20", "  1441");
    let empty: &[u8] = b"";
    for (file, entries, room, refusal, line) in [
        (P1, 2, 1_000, 9, 0),
        (P1, 200, 130, 9, 0),
        (P1, 0, 0, 9, 0),
        (bad.as_bytes(), 200, 1_000, 3, 4),
        (bad.as_bytes(), 2, 0, 3, 4),
        (empty, 0, 0, 1, 1),
    ] {
        let (mut moves, mut buffer) = (vec![unused; entries], vec![b'#'; room]);
        let settled = settle_file(file, &mut moves, &mut buffer).unwrap_err();
        let balanced = balance_file(file, &mut moves, &mut buffer).unwrap_err();
        assert_eq!((settled.refusal.number(), settled.line), (refusal, line));
        assert_eq!(settled, balanced);
        assert_eq!(moves, vec![unused; entries]);
        assert_eq!(buffer, vec![b'#'; room]);
    }
    // Without a batch no entry is needed.
    let none = b"     2     0
     0    15
";
    let mut buffer = [b'#'; 26];
    assert!(settle_file(none, &mut [], &mut buffer).is_ok());
    assert_eq!(buffer, *none);
}

#[test]
fn an_instrument_waits_for_a_lower_one() {
    // Two instruments are over at 0; the lower one acts first.
    let sheet = Draft::new(
        3,
        &[(2, 1, &[1, 3]), (2, 1, &[1]), (2, 2, &[2, 3]), (2, 2, &[2])],
    )
    .sheet();
    let answer = trial(&sheet, 0).unwrap();
    // First to third: two raises, two bumps. Then none is light.
    let expected = Trial {
        verdict: Verdict::Fail(vec![1, 2, 3]),
        raises: 2,
        bumps: 2,
    };
    assert_eq!(answer, expected);
}

#[test]
fn limits_of_an_empty_sheet() {
    assert_eq!(Sheet::empty(0), Err(Refusal::Size));
    assert_eq!(Sheet::empty(25), Err(Refusal::Size));
    for m in 1..=24 {
        assert_eq!(Sheet::empty(m).unwrap().instruments(), m);
    }
}

#[test]
fn written_sheets() {
    let written = |sheet: &Sheet| String::from_utf8(write(sheet)).unwrap();
    assert_eq!(write(&read(P1).unwrap()), P1);
    assert_eq!(
        written(&Sheet::empty(24).unwrap()),
        format!("    24     0\n{}\n", "     0".repeat(24))
    );
    // Places not given are the lowest listed, and lists ascend.
    let file = b"    12     4
     0     0     0     0     0     0     0     0     0     0     0     0
     5           0     2     2    11
    40     0     0     3     3    10    11
     7    12     0     2     2    12
  1440     9     0     1     9
";
    let mut sheet = read(file).unwrap();
    let text = "    12     4
     0     0     0     0     0     0     0     0     0     0     0     0
     5     2     0     2     2    11
    40     3     0     3     3    10    11
     7    12     0     2     2    12
  1440     9     0     1     9
";
    assert_eq!(written(&sheet), text);
    sheet.shift(2, 11).unwrap();
    sheet.withdraw(1).unwrap();
    sheet.requalify(3, &[8, 10]).unwrap();
    sheet.add(100, &[6, 12]).unwrap();
    let text = "    12     4
     0     0     0     0     0     0     0     0     0     0     0     0
    40    11     0     3     3    10    11
     7    12     0     2     2    12
  1440     8     0     2     8    10
   100     6     0     2     6    12
";
    assert_eq!(written(&sheet), text);
    let mut sheet = read(P1).unwrap();
    plan(&mut sheet);
    let text = "     2     3
     0     0
    30     2     0     2     1     2
    20     1     0     1     1
    10     1     0     2     1     2
";
    assert_eq!(written(&sheet), text);
}
