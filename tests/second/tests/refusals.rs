//! Every refusal, at many lines and columns, and which comes first.

use second::rng::Rng;
use second::*;

/// Bytes for a field or for whatever stands in its stead.
fn six(value: u32) -> String {
    format!("{value:>6}")
}

fn text(lines: &[&[&str]]) -> Vec<u8> {
    let mut out = Vec::new();
    for line in lines {
        for field in *line {
            out.extend(field.bytes());
        }
        out.push(b'\n');
    }
    out
}

fn refused(bytes: &[u8]) -> (u32, u32) {
    let fault = read(bytes).expect_err("a fault");
    let found = (fault.refusal.number(), fault.line);
    let mut buffer = [0xa5; 64];
    let answer = host(bytes, &mut buffer);
    assert_eq!(
        (answer.refusal, answer.line, answer.length),
        (found.0, found.1, 0)
    );
    assert_eq!(host(bytes, &mut []), answer);
    let unused = Move {
        batch: 9,
        from: 9,
        to: 9,
    };
    let mut moves = [unused; 3];
    for entries in [0, 3] {
        let moves = &mut moves[..entries];
        let settled = settle_file(bytes, moves, &mut buffer);
        assert_eq!(settled.map(|_| ()), Err(fault));
        let balanced = balance_file(bytes, moves, &mut buffer);
        assert_eq!(balanced.map(|_| ()), Err(fault));
    }
    assert_eq!(moves, [unused; 3]);
    assert_eq!(buffer, [0xa5; 64]);
    let line = six(found.0) + &six(found.1) + "\n";
    assert_eq!(program(bytes), line.as_bytes());
    found
}

fn some_drafts() -> Vec<Draft> {
    let mut rng = Rng::new(2001);
    let mut drafts: Vec<Draft> = (0..12).map(|_| gen::draft(&mut rng, gen::SMALL)).collect();
    drafts.extend((0..3).map(|_| gen::draft(&mut rng, gen::MEDIUM)));
    drafts.push(Draft::new(1, &[]));
    let last = Draft::new(24, &[(1440, 24, &[1, 2, 24]), (1, 0, &[3])]);
    drafts.push(last.clone().without_places());
    let most = [Sheet::CALIBRATION; 24];
    drafts.push(Draft::new(24, &[]).calibrated(&most));
    drafts.push(last.clone().calibrated(&most));
    let listed = Draft::new(24, &[(1440, 24, &[1, 2, 24]), (1, 3, &[3])]);
    drafts.push(listed.clone().started(&[1]));
    drafts.push(listed.all_started());
    drafts.push(last);
    drafts
}

/// Line (from 1) in which a byte stands.
fn line_of(file: &[u8], at: usize) -> u32 {
    1 + file[..at].iter().filter(|&&b| b == b'\n').count() as u32
}

#[test]
fn every_cut() {
    for draft in some_drafts() {
        let file = draft.render();
        for cut in 0..file.len() {
            assert_eq!(refused(&file[..cut]), (1, line_of(&file, cut)));
        }
        assert!(read(&file).is_ok());
    }
}

#[test]
fn every_field_malformed() {
    let bad = [
        "    07",
        "     a",
        "     \t",
        "\t    1",
        " 1   1",
        "-    1",
        "    -1",
        "    +1",
        "1     ",
        "     \n",
        "\n    1",
        "     \r",
        "000000",
        "000001",
        "    00",
        "    1.",
        "   1 0",
        " 00001",
        "     \0",
        "     /",
        "     :",
        "\u{a0}   1",
    ];
    for draft in some_drafts() {
        let file = draft.render();
        for start in gen::fields(&file) {
            for field in bad {
                let mut spoilt = file.clone();
                spoilt.splice(start..start + 6, field.bytes());
                assert_eq!(refused(&spoilt), (1, line_of(&file, start)), "{field:?}");
            }
        }
    }
}

/// Six blanks are as malformed as those, but for the place, where they are 0;
/// that is refused where the batch has started.
#[test]
fn every_field_blank() {
    for draft in some_drafts() {
        let file = draft.render();
        let places = gen::places(&file);
        assert_eq!(places.len(), draft.lines.len());
        for start in gen::fields(&file) {
            let mut blank = file.clone();
            blank[start..start + 6].fill(b' ');
            if places.contains(&start) {
                let mut zero = file.clone();
                zero[start..start + 6].copy_from_slice(b"     0");
                assert_eq!(read(&blank), read(&zero));
                assert_eq!(program(&blank), program(&zero));
                match file[start + 11] {
                    b'0' => assert!(read(&blank).is_ok()),
                    _ => assert_eq!(refused(&blank), (5, line_of(&file, start))),
                }
            } else {
                assert_eq!(refused(&blank), (1, line_of(&file, start)));
            }
        }
    }
}

#[test]
fn every_line_end() {
    for draft in some_drafts() {
        let file = draft.render();
        for at in (0..file.len()).filter(|&at| file[at] == b'\n') {
            let line = line_of(&file, at);
            for byte in [b' ', b'\r', b'1', 0, b'\t', 0x8a] {
                let mut spoilt = file.clone();
                spoilt[at] = byte;
                assert_eq!(refused(&spoilt), (1, line));
                let mut spoilt = file.clone();
                spoilt.insert(at, byte);
                assert_eq!(refused(&spoilt), (1, line));
            }
            let mut spoilt = file.clone();
            spoilt.remove(at);
            assert_eq!(refused(&spoilt), (1, line));
        }
    }
}

#[test]
fn bytes_left_over() {
    let ends: [&[u8]; 9] = [
        b"\n",
        b" ",
        b"      ",
        b"\0",
        b"\n\n\n",
        b"     1",
        b"     1     0     0     1     1\n",
        b"x\ny\nz\n",
        b"\r\n",
    ];
    for draft in some_drafts() {
        for end in ends {
            let file = [&draft.render(), end].concat();
            assert_eq!(refused(&file), (1, draft.lines.len() as u32 + 3));
        }
    }
}

#[test]
fn size_out_of_range() {
    for m in [0, 25, 26, 100, 1440, 999_999] {
        // Nothing after m matters any more.
        for rest in ["", "     1\n", "    01\n", "   201\n", "     0\n", "x"] {
            assert_eq!(refused((six(m) + rest).as_bytes()), (2, 1));
        }
    }
    for m in 1..=24 {
        for n in [201, 202, 1000, 999_999] {
            for rest in ["", "\n", "x", "\n     1"] {
                let file = six(m) + &six(n) + rest;
                assert_eq!(refused(file.as_bytes()), (2, 1));
            }
        }
        for n in [0, 1, 2, 199, 200] {
            let file = six(m) + &six(n) + "\n";
            assert_eq!(refused(file.as_bytes()), (1, 2));
            let file = six(m) + &six(n);
            assert_eq!(refused(file.as_bytes()), (1, 1));
        }
        for n in [1, 2, 199, 200] {
            let file = six(m) + &six(n) + "\n" + &zeros(m);
            assert_eq!(refused(file.as_bytes()), (1, 3));
        }
    }
}

/// A calibration is judged at its own field: what comes before it on line 2 must
/// be good, and nothing after it matters any more.
#[test]
fn calibration_out_of_range() {
    for m in [1, 2, 3, 23, 24] {
        for k in 0..m {
            let before = six(m) + &six(1) + "\n" + &six(240).repeat(k as usize);
            for minutes in [241, 242, 256, 257, 496, 1440, 65_536, 65_776, 999_999] {
                for rest in ["", "\n", "x", "     0", "    07", "   241\n", "      \n"] {
                    let file = before.clone() + &six(minutes) + rest;
                    assert_eq!(refused(file.as_bytes()), (10, 2));
                }
            }
            for bad in ["      ", "   0 1", "   -01", "   24x", "    240", "024000"] {
                let file = before.clone() + bad + &six(241).repeat(m as usize) + "\n";
                assert_eq!(refused(file.as_bytes()), (1, 2), "{bad:?}");
            }
        }
        // One too few or too many: the LF, or its lack, is what shows.
        let batch = "     7     1     0     1     1\n";
        for count in [m - 1, m + 1] {
            let line = six(240).repeat(count as usize) + "\n";
            let file = six(m) + &six(1) + "\n" + &line + batch;
            assert_eq!(refused(file.as_bytes()), (1, 2));
        }
        // Before any fault of a batch, and after those of line 1.
        let good = six(m) + &six(1) + "\n" + &six(240).repeat(m as usize) + "\n";
        assert!(read((good.clone() + batch).as_bytes()).is_ok());
        for file in [
            good.replacen("240", "241", 1) + &batch.replace('7', "0"),
            good.replacen("240", "241", 1),
        ] {
            assert_eq!(refused(file.as_bytes()), (10, 2));
        }
        let spoilt = good
            .replacen("240", "241", 1)
            .replacen("     1\n", "   201\n", 1);
        assert_eq!(refused(spoilt.as_bytes()), (2, 1));
    }
}

/// A file of the form without line 2 has the first batch's line there: what is
/// read as calibrations decides, or else the LF. Without a batch it ends too soon.
#[test]
fn files_without_line_2() {
    let head = |m: u32, n: u32| six(m) + &six(n) + "\n";
    for (file, number, line) in [
        // The first case's sheet: six good calibrations, of which two are due.
        (
            head(2, 3)
                + "    30     1     0     2     1     2\n    20     1     0     1     1\n    10     1     0     2     1     2\n",
            1,
            2,
        ),
        (head(1, 1) + "     5     1     0     1     1\n", 1, 2),
        // Five fields for five calibrations, and then no batch.
        (head(5, 1) + "     5     1     0     1     1\n", 1, 3),
        // Two lines, the second of which is then the first batch's.
        (
            head(5, 2) + "     5     1     0     1     1\n     6     1     0     1     1\n",
            1,
            4,
        ),
        // Too few fields for six instruments: the LF is no blank.
        (head(6, 1) + "     5     1     0     1     1\n", 1, 2),
        (head(2, 1) + "   241     1     0     2     1     2\n", 10, 2),
        (head(2, 1) + "   300           0     2     1     2\n", 10, 2),
        (head(2, 1) + "    30           0     2     1     2\n", 1, 2),
        (head(1, 0), 1, 2),
        (head(24, 0), 1, 2),
    ] {
        assert_eq!(refused(file.as_bytes()), (number, line), "{file:?}");
    }
    // No such file is taken for a sheet, since a line is missing.
    let mut rng = Rng::new(2002);
    for _ in 0..20_000 {
        let file = gen::draft(&mut rng, gen::SMALL).render();
        let mut lines: Vec<&[u8]> = file.split_inclusive(|&b| b == b'\n').collect();
        lines.remove(1);
        let last = lines.len() as u32 + 1;
        let (number, line) = refused(&lines.concat());
        assert!(
            number == 1 && (line == 2 || line == last),
            "{number} {line}"
        );
    }
}

/// A line 2 without a calibration.
fn zeros(m: u32) -> String {
    six(0).repeat(m as usize) + "\n"
}

/// A file with good lines before and after the one under test.
fn around(m: u32, before: usize, line: &str, after: usize) -> Vec<u8> {
    let n = (before + 1 + after) as u32;
    let good = "     7     1     0     1     1\n";
    let mut file = six(m) + &six(n) + "\n" + &zeros(m);
    file += &good.repeat(before);
    file += line;
    file += &good.repeat(after);
    file.into_bytes()
}

#[test]
fn faults_inside_a_batch_line() {
    // Lines for a sheet of three instruments, with the number each earns.
    let lines = [
        // Length, before anything that follows it.
        ("     0     1     0     1     1\n", 3),
        ("  1441     1     0     1     1\n", 3),
        ("999999     1     0     1     1\n", 3),
        ("     0", 3),
        ("  1441    0x     0     0\n", 3),
        ("     0     9     9     9     9\n", 3),
        // A malformed place at its own field, a wrong one only after the LF.
        ("     1    0x     0     0\n", 1),
        ("     1    01     9     9     9\n", 1),
        ("     1     9     0     0\n", 4),
        ("     1     9     0     4     1     2     3     1\n", 4),
        ("     1     9     0     1     4\n", 4),
        ("     1     9     0     1     x\n", 1),
        ("     1     9     0     1     1 \n", 1),
        ("     1     9     0     1     1     2\n", 1),
        ("     1     9     0     1     1\n", 5),
        ("     1     2     0     1     1\n", 5),
        ("     1     4     0     3     1     2     3\n", 5),
        ("     1    24     0     1     1\n", 5),
        ("     1    25     0     1     1\n", 5),
        ("     1    33     0     1     1\n", 5),
        ("     1   257     0     1     1\n", 5),
        ("     1 65537     0     1     1\n", 5),
        ("     1999999     0     1     1\n", 5),
        // A blank place is no fault and hides none.
        ("     0           0     1     1\n", 3),
        ("     1           0     0\n", 4),
        ("     1           0     4", 4),
        ("     1           0     1     4\n", 4),
        ("     1           0     2     1     1\n", 4),
        ("     1           0     1     x\n", 1),
        ("     1           0     1     1 \n", 1),
        ("     1           0     1     1     2\n", 1),
        ("     1      \n", 1),
        ("     1     ", 1),
        ("     1     \n", 1),
        ("     1     \t     0     1     1\n", 1),
        ("     1\t          0     1     1\n", 1),
        // The mark, before the count and all that follows it.
        ("     1     1     2     1     1\n", 1),
        ("     1     1     2     0\n", 1),
        ("     1     1     2     4     9", 1),
        ("     1     9     3     1     1\n", 1),
        ("     1     1    10     1     1\n", 1),
        ("     1     1    11     1     1\n", 1),
        ("     1     1   256     1     1\n", 1),
        ("     1     1   257     1     1\n", 1),
        ("     1     1 65537     1     1\n", 1),
        ("     1     1999999     0\n", 1),
        ("     1     1    01     1     1\n", 1),
        ("     1     1    0x     0\n", 1),
        ("     0     1     2     1     1\n", 3),
        ("     1     1\n", 1),
        ("     1     1     1\n", 1),
        // A started batch has a place, which is judged after the LF as well.
        ("     1     0     1     1     1\n", 5),
        ("     1           1     1     1\n", 5),
        ("     1     2     1     1     1\n", 5),
        ("     1     0     1     3     1     2     3\n", 5),
        ("     1     0     1     0\n", 4),
        ("     1           1     4     1\n", 4),
        ("     1     0     1     1     4\n", 4),
        ("     1           1     2     1     1\n", 4),
        ("     1     0     1     1     1 \n", 1),
        ("     1     0     1     1     x\n", 1),
        ("     1           1     1     1     2\n", 1),
        // A blank in another field is a fault at that field.
        ("           9     9     9     9\n", 1),
        ("      ", 1),
        ("     0      ", 3),
        ("     1     9           4     1\n", 1),
        ("     1     9                 1\n", 1),
        ("     1     9     0           4\n", 1),
        ("     1           0           4\n", 1),
        ("     1     9     0     0      \n", 4),
        ("     1     9     0     1      \n", 1),
        ("     1     1     0     3     1      \n", 1),
        ("     1     1     0     3     1           0\n", 1),
        ("     1     1     0     3     1     1      \n", 4),
        // Count.
        ("     1     1     0     0\n", 4),
        ("     1     1     0     0     1\n", 4),
        ("     1     1     0     0x", 4),
        ("     1     1     0     4", 4),
        ("     1     1     1     4", 4),
        ("     1     1     0999999     1\n", 4),
        ("     1     1     0    0x     1\n", 1),
        // List, each number judged before the next is looked at.
        ("     1     1     0     1     0\n", 4),
        ("     1     1     0     1     4\n", 4),
        ("     1     1     0     1    33\n", 4),
        ("     1     1     0     1   257\n", 4),
        ("     1     1     0     1999999\n", 4),
        ("     1     1     0     2     1     1\n", 4),
        ("     1     1     1     2     1     1\n", 4),
        ("     1     1     0     3     1     2     1\n", 4),
        ("     1     1     0     3     1     2     2\n", 4),
        ("     1     1     0     3     1     1    0x\n", 4),
        ("     1     1     0     3     1     1", 4),
        ("     1     1     0     3     1     0    0x\n", 4),
        ("     1     1     0     3     1    0x     1\n", 1),
        ("     1     1     0     3     1    0x     0\n", 1),
        ("     1     1     0     2     1     2     3\n", 1),
        ("     1     1     0     2     1\n", 1),
        // Its order, once the whole list has passed, and before the LF and the place.
        ("     1     1     0     2     2     1\n", 13),
        ("     1     1     0     3     1     3     2\n", 13),
        ("     1     1     0     3     2     1     3\n", 13),
        ("     1     1     0     3     3     2     1\n", 13),
        ("     1     1     1     2     3     1\n", 13),
        ("     1           0     2     2     1\n", 13),
        ("     1           1     2     2     1\n", 13),
        ("     1     9     0     2     2     1\n", 13),
        ("     1     3     0     2     2     1\n", 13),
        ("     1     1     0     2     2     1", 13),
        ("     1     1     0     2     2     1 \n", 13),
        ("     1     1     0     2     2     1     3\n", 13),
        ("     1     9     0     2     2     1\r\n", 13),
        ("     1     1     0     3     2     1     1\n", 4),
        ("     1     1     0     3     2     1     2\n", 4),
        ("     1     1     0     3     2     1     4\n", 4),
        ("     1     1     0     3     2     1     0\n", 4),
        ("     1     1     0     3     2     1    0x\n", 1),
        ("     1     1     0     3     2     1      \n", 1),
        ("     1     1     0     3     2     1\n", 1),
        ("     1     1     2     2     2     1\n", 1),
        ("     0     1     0     2     2     1\n", 3),
    ];
    for before in [0, 1, 2, 57, 198] {
        let after = [0, 1, 199 - before];
        for (line, number) in lines {
            for after in after {
                let file = around(3, before, line, after);
                assert_eq!(refused(&file), (number, before as u32 + 3), "{line:?}");
            }
        }
    }
}

#[test]
fn the_first_fault_decides() {
    let place = "     1     2     0     1     1\n";
    let length = "     0     1     0     1     1\n";
    let list = "     1     1     0     1     3\n";
    let order = "     1     1     0     2     2     1\n";
    let form = "     1     1     0     1    0x\n";
    let mark = "     1     1     2     1     1\n";
    let open = "     1           1     1     1\n";
    let all = [
        (place, 5),
        (length, 3),
        (list, 4),
        (order, 13),
        (form, 1),
        (mark, 1),
        (open, 5),
    ];
    let head = |n| six(2) + &six(n) + "\n     0   240\n";
    for (first, number) in all {
        for (second, _) in all {
            let file = head(3) + "     7     1     0     1     1\n" + first + second;
            assert_eq!(refused(file.as_bytes()), (number, 4));
        }
        // Left-over bytes and missing lines come last.
        let file = head(1) + first + "left over";
        assert_eq!(refused(file.as_bytes()), (number, 3));
        let file = head(9) + first;
        assert_eq!(refused(file.as_bytes()), (number, 3));
    }
    // A blank place before them changes nothing.
    let good = "     7           0     1     1\n";
    for (line, number) in all {
        let file = head(3) + good + line + good;
        assert_eq!(refused(file.as_bytes()), (number, 4));
    }
    // The LF of the first line comes before any calibration, and that of the
    // second before any batch.
    let file = text(&[&["     2", "     1", " "], &["   241"]]);
    assert_eq!(refused(&file), (1, 1));
    let file = text(&[
        &["     2", "     1"],
        &["     0", "     0", " "],
        &["     0"],
    ]);
    assert_eq!(refused(&file), (1, 2));
}

#[test]
fn list_of_all_instruments() {
    for m in 1..=24u32 {
        let list: Vec<u32> = (1..=m).collect();
        let draft = Draft::new(m, &[(5, 0, &list)]);
        let sheet = read(&draft.render()).unwrap();
        assert_eq!(sheet.batches()[0].place, 1);
        assert_eq!(read(&draft.without_places().render()), Ok(sheet));
        let started = Draft::new(m, &[(5, m, &list)]).all_started();
        assert_eq!(read(&started.render()).unwrap().batches()[0].list, list);
        for bad in [0, m + 1] {
            for k in 0..m as usize {
                let mut list = list.clone();
                list[k] = bad;
                let file = Draft::new(m, &[(5, 0, &list)]).render();
                assert_eq!(refused(&file), (4, 3));
            }
        }
        for k in 1..m as usize {
            for i in 0..k {
                let mut repeated = list.clone();
                repeated[k] = list[i];
                let file = Draft::new(m, &[(5, 0, &repeated)]).render();
                assert_eq!(refused(&file), (4, 3));
                let mut swapped = list.clone();
                swapped.swap(i, k);
                let file = Draft::new(m, &[(5, 0, &swapped)]).render();
                assert_eq!(refused(&file), (13, 3));
            }
        }
        let longer: Vec<u32> = (1..=m + 1).collect();
        let file = Draft::new(m, &[(5, 0, &longer)]).render();
        assert_eq!(refused(&file), (4, 3));
    }
}

#[test]
fn every_place() {
    for m in 1..=24u32 {
        let list: Vec<u32> = (1..=m).filter(|j| j % 3 != 2).collect();
        for place in 0..=m + 2 {
            let started = Draft::new(m, &[(5, place, &list)]).all_started().render();
            match list.contains(&place) {
                true => assert_eq!(read(&started).unwrap().places(), [place]),
                false => assert_eq!(refused(&started), (5, 3)),
            }
            let file = Draft::new(m, &[(5, place, &list)]).render();
            if place == 0 || list.contains(&place) {
                let expected = if place == 0 { 1 } else { place };
                assert_eq!(read(&file).unwrap().batches()[0].place, expected);
            } else {
                assert_eq!(refused(&file), (5, 3));
            }
        }
        let blank = Draft::new(m, &[(5, 0, &list)]).without_places();
        assert_eq!(read(&blank.render()).unwrap().batches()[0].place, 1);
        assert_eq!(refused(&blank.all_started().render()), (5, 3));
    }
}

#[test]
fn buffers_of_every_length() {
    for draft in some_drafts() {
        let file = draft.render();
        let listing = program(&file);
        for room in 0..listing.len() + 20 {
            let mut buffer = vec![0xee; room];
            let answer = host(&file, &mut buffer);
            if room < listing.len() {
                assert_eq!((answer.refusal, answer.line, answer.length), (9, 0, 0));
                assert!(buffer.iter().all(|&b| b == 0xee));
            } else {
                let found = (answer.refusal, answer.line, answer.length);
                assert_eq!(found, (0, 0, listing.len()));
                assert_eq!(&buffer[..listing.len()], listing);
                assert!(buffer[listing.len()..].iter().all(|&b| b == 0xee));
            }
        }
    }
}
