//! The edits: what each refuses, in which order, and what it changes. And
//! what the other calls refuse.

use second::*;

/// Make an edit that must be refused and see that nothing changed.
fn turned_down(sheet: &Sheet, call: Call) -> u32 {
    let mut after = sheet.clone();
    let Answer::Refused(refusal) = apply(&mut after, &call) else {
        panic!("not refused: {call:?}");
    };
    assert_eq!(&after, sheet);
    refusal.number()
}

const ODD: [u64; 6] = [0, 4, 33, 257, 1 << 32, u64::MAX];

#[test]
fn edits_refused() {
    let sheet = Draft::new(3, &[(5, 0, &[1, 2]), (6, 0, &[3]), (7, 1, &[1, 2, 3])]).sheet();
    let odd = ODD
        .iter()
        .flat_map(|&j| [vec![j], vec![1, j], vec![j, 2, 1]]);
    let bad = [
        vec![],
        vec![1, 1],
        vec![3, 2, 3],
        vec![1, 2, 3, 1],
        vec![3, 2, 1, 1],
        vec![1, 2, 3, 4],
    ];
    // Without another fault.
    let unordered = [
        vec![2, 1],
        vec![3, 1],
        vec![3, 2, 1],
        vec![1, 3, 2],
        vec![2, 1, 3],
        vec![2, 3, 1],
    ];
    let bad_lists: Vec<(Vec<u64>, u32)> = (odd.chain(bad).map(|list| (list, 4)))
        .chain(unordered.map(|list| (list, 13)))
        .collect();
    for (list, refusal) in &bad_lists {
        for length in [0, 1441, 65_537, 1 << 32, u64::MAX] {
            let list = list.clone();
            assert_eq!(turned_down(&sheet, Call::Add { length, list }), 3);
        }
        for length in [1, 1440] {
            let list = list.clone();
            assert_eq!(turned_down(&sheet, Call::Add { length, list }), *refusal);
        }
        for number in ODD {
            let list = list.clone();
            assert_eq!(turned_down(&sheet, Call::Requalify { number, list }), 6);
        }
        for number in 1..=3 {
            let list = list.clone();
            let call = Call::Requalify { number, list };
            assert_eq!(turned_down(&sheet, call), *refusal);
        }
    }
    for number in ODD {
        assert_eq!(turned_down(&sheet, Call::Withdraw { number }), 6);
        assert_eq!(turned_down(&sheet, Call::Start { number }), 6);
        let list = vec![1];
        assert_eq!(turned_down(&sheet, Call::Requalify { number, list }), 6);
        for instrument in [0, 1, 9] {
            let call = Call::Move { number, instrument };
            assert_eq!(turned_down(&sheet, call), 6);
        }
    }
    for instrument in ODD {
        for number in 1..=3 {
            let call = Call::Move { number, instrument };
            assert_eq!(turned_down(&sheet, call), 5);
        }
    }
    let call = Call::Move {
        number: 1,
        instrument: 3,
    };
    assert_eq!(turned_down(&sheet, call), 5);

    let full = Draft::new(3, &vec![(5, 0, [2].as_slice()); 200]).sheet();
    for (list, _) in &bad_lists {
        for length in [0, 1, 1441] {
            let list = list.clone();
            assert_eq!(turned_down(&full, Call::Add { length, list }), 7);
        }
    }
    let total = sheet.total() as u64;
    for level in [total + 1, u64::MAX] {
        assert_eq!(turned_down(&sheet, Call::Trial { level }), 8);
    }
    for sheet in [sheet, full] {
        for entries in 0..sheet.batches().len() as u64 {
            assert_eq!(turned_down(&sheet, Call::Balance { entries }), 9);
            assert_eq!(turned_down(&sheet, Call::Settle { entries }), 9);
        }
    }
}

#[test]
fn edits_made() {
    let mut sheet = Draft::new(4, &[(5, 0, &[1, 2]), (6, 0, &[3]), (7, 1, &[1, 2, 3])]).sheet();
    sheet.add(1440, &[2, 4]).unwrap();
    assert_eq!(sheet.places(), [1, 3, 1, 2]);
    sheet.shift(4, 4).unwrap();
    sheet.shift(1, 1).unwrap();
    sheet.shift(1, 2).unwrap();
    assert_eq!(sheet.places(), [2, 3, 1, 4]);
    // Kept where the place is listed, wherever it stands in the list.
    sheet.requalify(4, &[3, 4]).unwrap();
    assert_eq!(sheet.places(), [2, 3, 1, 4]);
    // Otherwise the lowest listed.
    sheet.requalify(4, &[2, 3]).unwrap();
    assert_eq!(sheet.places(), [2, 3, 1, 2]);
    assert_eq!(sheet.batches()[3].list, [2, 3]);
    sheet.withdraw(2).unwrap();
    assert_eq!(sheet.places(), [2, 1, 2]);
    let lengths: Vec<u32> = sheet.batches().iter().map(|b| b.length).collect();
    assert_eq!(lengths, [5, 7, 1440]);
    // Starting a batch changes its mark alone.
    let mut started = sheet.clone();
    started.start(2).unwrap();
    assert_eq!(started.places(), sheet.places());
    let marks: Vec<bool> = started.batches().iter().map(|b| b.started).collect();
    assert_eq!(marks, [false, true, false]);
    let due = Draft::from(&sheet).started(&[2]);
    assert_eq!(Draft::from(&started), due);
    sheet.withdraw(3).unwrap();
    sheet.withdraw(1).unwrap();
    sheet.withdraw(1).unwrap();
    assert_eq!(sheet, Sheet::empty(4).unwrap());
    assert_eq!(sheet.withdraw(1), Err(Refusal::NoBatch));
}
