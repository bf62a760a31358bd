//! Worklists (document 02, C-18): corners worked out by hand, what comes first,
//! and that a worklist says what the sheet with the same numbers says.

use second::rng::Rng;
use second::*;

/// The refusal's number and the row.
fn refused(m: u32, calibrations: &[u32], worklist: &[u8]) -> (u32, u32) {
    let text = String::from_utf8_lossy(worklist);
    let fault = take(m, calibrations, worklist).expect_err(&text);
    (fault.refusal.number(), fault.line)
}

#[test]
fn corners() {
    for &(file, lines) in corners::TAKEN {
        let taken = take(2, &corners::CALIBRATIONS, file);
        let sheet = format!("     2{:>6}\n     0     0\n{}", lines.len(), lines.concat());
        let text = taken.map(|sheet| String::from_utf8(write(&sheet)).unwrap());
        assert_eq!(text, Ok(sheet), "{}", String::from_utf8_lossy(file));
    }
    for &(file, refusal, row) in corners::REFUSED {
        let found = refused(2, &corners::CALIBRATIONS, file);
        assert_eq!(found, (refusal, row), "{}", String::from_utf8_lossy(file));
    }
}

/// The host's numbers, then the file, then how many rows it has, then the rows.
#[test]
fn the_order() {
    let row = b"30,1,0,1\r\n".as_slice();
    let bad = b"0,2,2,2\r\n".as_slice();
    let broken = b"30,1,0\r\n".as_slice();
    for m in [0, 25, 1000, u32::MAX] {
        assert_eq!(refused(m, &[241], b""), (2, 0));
        assert_eq!(refused(m, &[], row), (2, 0));
        assert_eq!(refused(m, &[0; 25], row), (2, 0));
    }
    for calibrations in [&[][..], &[0], &[0, 0, 0], &[241, 0], &[0, u32::MAX]] {
        assert_eq!(refused(2, calibrations, b""), (10, 0));
        assert_eq!(refused(2, calibrations, row), (10, 0));
        assert_eq!(refused(2, calibrations, &row.repeat(201)), (10, 0));
    }
    assert_eq!(refused(1, &[0], &row.repeat(201)), (2, 0));
    assert_eq!(refused(1, &[0], &bad.repeat(201)), (2, 0));
    assert_eq!(refused(1, &[0], &bad.repeat(200)), (3, 1));
    assert_eq!(
        take(1, &[240], &row.repeat(200)).unwrap().batches().len(),
        200
    );
    let file = [&row.repeat(201)[..], broken].concat();
    assert_eq!(refused(1, &[0], &file), (12, 202));
    let file = [bad, &row.repeat(198), broken].concat();
    assert_eq!(refused(1, &[0], &file), (12, 200));
    let file = [&row.repeat(199)[..], bad].concat();
    assert_eq!(refused(1, &[0], &file), (3, 200));
}

/// A list may have any number of members and be of the form; more than m are 4,
/// whatever their order.
#[test]
fn long_lists() {
    let ascending = |n: usize| (1..=n).map(|j| j.to_string()).collect::<Vec<_>>().join(",");
    let row = |list: &str| format!("30,1,0,\"{list}\"\r\n");
    let calibrations = [7; 24];
    for n in 1..=24 {
        let sheet = take(24, &calibrations, row(&ascending(n)).as_bytes()).unwrap();
        assert_eq!(sheet.batches()[0].list.len(), n);
    }
    for n in [25, 26, 30, 1_000, 1_000_000] {
        let falling: Vec<String> = (0..n).rev().map(|j| j.to_string()).collect();
        for list in [
            vec!["1"; n].join(","),
            vec!["999999"; n].join(","),
            falling.join(","),
        ] {
            let row = row(&list);
            assert_eq!(refused(24, &calibrations, row.as_bytes()), (4, 1));
            // But it is judged whole for its form first.
            let bad = row.replace("\"\r\n", ",\"\r\n");
            assert_eq!(refused(24, &calibrations, bad.as_bytes()), (12, 1));
            let after = row + "30";
            assert_eq!(refused(24, &calibrations, after.as_bytes()), (12, 2));
        }
    }
    assert_eq!(
        refused(24, &calibrations, row(&ascending(25)).as_bytes()),
        (4, 1)
    );
}

/// The outcome is that of reading the sheet that says the same, with a row in the
/// stead of a line.
#[test]
fn as_the_sheet() {
    let mut rng = Rng::new(61);
    let mut met = [0; 14];
    for round in 0..30_000 {
        let shape = match round % 100 {
            0 => gen::FULL,
            1..=9 => gen::MEDIUM,
            _ => gen::SMALL,
        };
        let mut draft = gen::draft(&mut rng, shape);
        if draft.lines.is_empty() {
            continue;
        }
        for _ in 0..round % 3 {
            gen::misstate(&mut rng, &mut draft);
        }
        let worklist = exports::worklist(&mut rng, &draft);
        let taken = take(draft.instruments, &draft.calibrations, &worklist);
        let read = read(&draft.render()).map_err(|fault| Fault {
            line: fault.line - 2,
            ..fault
        });
        assert_eq!(taken, read, "{}", String::from_utf8_lossy(&worklist));
        met[read.map_or_else(|fault| fault.refusal.number(), |_| 0) as usize] += 1;
    }
    println!("by refusal: {met:?}");
    for refusal in [0, 1, 3, 4, 5, 13] {
        assert!(met[refusal] >= 1_000, "{met:?}");
    }
}

/// Damage, most often to the form.
#[test]
fn damaged() {
    let mut rng = Rng::new(62);
    let mut met = [0; 14];
    let mut later = 0;
    for round in 0..60_000 {
        let mut draft = gen::draft(&mut rng, gen::SMALL);
        if draft.lines.is_empty() {
            continue;
        }
        if round % 4 == 0 {
            gen::misstate(&mut rng, &mut draft);
        }
        let mut worklist = exports::worklist(&mut rng, &draft);
        for _ in 0..rng.within(1, 2) {
            exports::damage(&mut rng, &mut worklist);
        }
        let taken = take(draft.instruments, &draft.calibrations, &worklist);
        let (refusal, row) = match taken {
            Ok(sheet) => {
                assert_eq!(read(&write(&sheet)), Ok(sheet));
                (0, 0)
            }
            Err(fault) => (fault.refusal.number(), fault.line),
        };
        met[refusal as usize] += 1;
        later += (refusal == 12 && row > 1) as u32;
        // No row begins but after an LF.
        let lines = worklist.iter().filter(|&&b| b == b'\n').count() as u32;
        assert!(row <= lines + 1);
    }
    println!("by refusal: {met:?}; {later} in a later row");
    for (refusal, least) in [
        (0, 3_000),
        (1, 800),
        (3, 200),
        (4, 2_000),
        (5, 800),
        (12, 30_000),
        (13, 500),
    ] {
        assert!(met[refusal] >= least, "{met:?}");
    }
    assert!(later >= 15_000);
}
