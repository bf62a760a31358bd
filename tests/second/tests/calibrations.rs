//! Small cases with calibrations (document 02, C-16), worked out by hand.

use second::*;

fn passed(places: &[u32], raises: u32, bumps: u32) -> Result<Trial, Refusal> {
    Ok(Trial {
        verdict: Verdict::Pass(places.to_vec()),
        raises,
        bumps,
    })
}

fn failed(group: &[u32], raises: u32, bumps: u32) -> Result<Trial, Refusal> {
    Ok(Trial {
        verdict: Verdict::Fail(group.to_vec()),
        raises,
        bumps,
    })
}

/// The first case's sheet with a calibration of 20 on its first instrument.
fn first_calibrated() -> Sheet {
    let lines: [(u32, u32, &[u32]); 3] = [(30, 1, &[1, 2]), (20, 1, &[1]), (10, 1, &[1, 2])];
    Draft::new(2, &lines).calibrated(&[20, 0]).sheet()
}

#[test]
fn what_is_counted() {
    let sheet = first_calibrated();
    assert_eq!((sheet.total(), sheet.longest()), (80, 30));
    assert_eq!((sheet.loads(), sheet.finish()), (vec![80, 0], 80));
    assert_eq!((sheet.confined(&[1]), sheet.confined(&[2])), (40, 0));
    assert_eq!(sheet.confined(&[1, 2]), 80);
    let sheet = Draft::new(3, &[(30, 2, &[2])]).calibrated(&[7, 0, 240]);
    let items: Vec<(u32, u32, Vec<u32>)> = sheet
        .sheet()
        .items()
        .into_iter()
        .map(|b| (b.length, b.place, b.list))
        .collect();
    let due = [(30, 2, vec![2]), (7, 1, vec![1]), (240, 3, vec![3])];
    assert_eq!(items, due);
    assert_eq!(sheet.sheet().longest(), 240);
    assert_eq!(Sheet::calibrated(&[240, 241]), Err(Refusal::Calibration));
    assert_eq!(Sheet::calibrated(&[]), Err(Refusal::Size));
    assert_eq!(Sheet::calibrated(&[0; 25]), Err(Refusal::Size));
}

/// At 20 the batch of 30 leaves, and 50 is not over. At 19 it is, and neither
/// instrument is light: the group is both, with 80 minutes. Settling then moves
/// the batch of 10.
#[test]
fn a_calibration_drives_a_batch_away() {
    let mut sheet = first_calibrated();
    assert_eq!(trial(&sheet, 20), passed(&[2, 1, 1], 2, 2));
    assert_eq!(trial(&sheet, 19), failed(&[1, 2], 2, 2));
    assert_eq!(trial(&sheet, 50), passed(&[1, 1, 1], 0, 0));
    assert!(trial(&sheet, 80).is_ok());
    assert_eq!(trial(&sheet, 81), Err(Refusal::Level));
    let answer = review(&sheet);
    assert_eq!((answer.loads, answer.gains), (vec![80, 0], Some(1)));
    let expected = Plan {
        finish: 40,
        floor: 40,
        group: Some(vec![1, 2]),
        level: 20,
        raises: 2,
        bumps: 2,
        moves: 1,
    };
    assert_eq!(plan(&mut sheet), expected);
    assert_eq!(sheet.places(), [2, 1, 2]);
    assert_eq!(sheet.calibrations(), [20, 0]);
    let answer = review(&sheet);
    assert_eq!((answer.loads, answer.gains), (vec![40, 40], None));
    let text = "     2     3
    20     0
    30     2     0     2     1     2
    20     1     0     1     1
    10     2     0     2     1     2
";
    assert_eq!(write(&sheet), text.as_bytes());
}

/// The third instrument's 30 is over at 0. Its batch goes to the first, which bumps
/// its calibration; that returns, and the batch goes on to the second.
#[test]
fn a_calibration_is_bumped_and_goes_back() {
    let draft = Draft::new(3, &[(20, 3, &[1, 2, 3])]).calibrated(&[10, 0, 10]);
    let mut sheet = draft.sheet();
    assert_eq!(trial(&sheet, 0), passed(&[2], 5, 6));
    let answer = balance(&mut sheet, 1).unwrap();
    assert_eq!((answer.finish, answer.floor, answer.level), (20, 20, 0));
    assert_eq!((answer.raises, answer.bumps), (5, 6));
    assert_eq!(sheet.places(), [2]);
    // With nowhere to go all of them return, until the height is above 2m.
    let stuck = Draft::new(2, &[(10, 1, &[1])]).calibrated(&[10, 0]);
    assert_eq!(trial(&stuck.sheet(), 0), failed(&[1], 7, 8));
}

/// One batch would allow 6 * 13 + 1 * 14 = 92 raises; six items allow 162.
#[test]
fn more_raises_than_for_batches_alone() {
    let draft = Draft::new(6, &[(5, 2, &[1, 2, 4, 5, 6])]).calibrated(&[3, 4, 0, 1, 4, 4]);
    assert_eq!(trial(&draft.sheet(), 0), failed(&[1, 2, 4, 5, 6], 97, 120));
}

#[test]
fn no_batch() {
    for calibrations in [vec![240], vec![5, 0, 7], vec![240; 24], vec![0, 1]] {
        let mut sheet = Sheet::calibrated(&calibrations).unwrap();
        let most = calibrations.iter().copied().max().unwrap();
        let total: u32 = calibrations.iter().sum();
        for level in [0, most / 2, most, total] {
            assert_eq!(trial(&sheet, level as u64), passed(&[], 0, 0));
        }
        assert_eq!(trial(&sheet, total as u64 + 1), Err(Refusal::Level));
        let answer = plan(&mut sheet);
        let numbers = (answer.finish, answer.floor, answer.level);
        assert_eq!((numbers, answer.group), ((most, most, 0), None));
        assert_eq!((answer.raises, answer.bumps, answer.moves), (0, 0, 0));
        let answer = review(&sheet);
        assert_eq!((answer.loads, answer.gains), (calibrations, None));
    }
}

/// Batches alone are counted in the 200, have numbers, and need entries.
#[test]
fn what_counts_batches_alone() {
    let lines = vec![(1, 1, [1].as_slice()); 199];
    let mut sheet = Draft::new(24, &lines).calibrated(&[240; 24]).sheet();
    assert_eq!(sheet.total(), 24 * 240 + 199);
    assert_eq!(balance(&mut sheet.clone(), 198), Err(Refusal::Buffer));
    assert!(balance(&mut sheet.clone(), 199).is_ok());
    assert!(settle(&mut sheet.clone(), 199).is_ok());
    assert_eq!(sheet.withdraw(200), Err(Refusal::NoBatch));
    assert_eq!(sheet.shift(200, 1), Err(Refusal::NoBatch));
    assert_eq!(sheet.requalify(200, &[1]), Err(Refusal::NoBatch));
    assert_eq!(sheet.add(1440, &[24]), Ok(()));
    assert_eq!(sheet.add(1, &[24]), Err(Refusal::Full));
    assert_eq!(sheet.calibrations(), [240; 24]);
    assert_eq!(read(&write(&sheet)), Ok(sheet));
}
