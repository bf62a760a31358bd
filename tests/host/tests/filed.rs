//! Balance and settle on files, with lists and buffers short and long: known
//! ones, good and bad sheets beside the second planner, and one call after
//! another beside a journal.

use std::hint::black_box;

use host::cases::{self, Case};
use host::filed::{
    balance_due, compare, made, settle_due, Answer, Calls, Due, Filer, Judge, Made, Met, Rooms,
};
use host::kinds::{self, Kind};
use host::runs::Runner;
use host::{balance, run, settle, write, Balanced, Move, Settled, LARGEST_SHEET, SHEET};
use second::rng::Rng;
use second::{gen, Draft};

fn went(batch: u32, from: u32, to: u32) -> Move {
    Move { batch, from, to }
}

/// A call comes to this on a sheet that is small enough to follow by hand.
fn known<A: Answer>(sheet: &str, call: Filer<A>, answer: A, records: &[Move], written: &str) {
    let made = made(sheet.as_bytes(), call);
    assert_eq!((made.answer, &made.records[..]), (answer, records));
    assert_eq!(String::from_utf8(made.written).unwrap(), written);
}

#[test]
fn known_answers() {
    let planned = SHEET.replace("30     1", "30     2");
    let balanced = Balanced {
        length: 131,
        finish: 30,
        floor: 30,
        raises: 2,
        bumps: 2,
        records: 1,
        ..Balanced::default()
    };
    known(SHEET, balance, balanced, &[went(1, 1, 2)], &planned);
    let settled = Settled {
        length: 131,
        finish: 30,
        moves: 1,
        records: 1,
        ..Settled::default()
    };
    known(SHEET, settle, settled, &[went(1, 1, 2)], &planned);

    // All on one, with its group; a place not given is filled in.
    let sheet = "     2     3
     0     0
    10     1     0     1     1
    10     0     0     1     1
    10           0     1     1
";
    let written = sheet.replace("10     0", "10     1");
    let written = written.replace("10      ", "10     1");
    let mut group = [0; 24];
    group[0] = 1;
    let balanced = Balanced {
        length: 2 * 13 + 3 * 31,
        finish: 30,
        floor: 30,
        level: 20,
        size: 1,
        group,
        ..Balanced::default()
    };
    known(sheet, balance, balanced, &[], &written);
    let settled = Settled {
        length: 2 * 13 + 3 * 31,
        finish: 30,
        ..Settled::default()
    };
    known(sheet, settle, settled, &[], &written);

    // No batch, and one of the longest.
    for (m, length) in [(1, 13 + 7), (24, 13 + 145)] {
        let sheet = String::from_utf8(Draft::new(m, &[]).render()).unwrap();
        let balanced = Balanced {
            length,
            ..Balanced::default()
        };
        known(&sheet, balance, balanced, &[], &sheet);
        let settled = Settled {
            length,
            ..Settled::default()
        };
        known(&sheet, settle, settled, &[], &sheet);
    }
    let sheet = "     1     1\n     0\n  1440     1     0     1     1\n";
    let balanced = Balanced {
        length: 13 + 7 + 31,
        finish: 1440,
        floor: 1440,
        ..Balanced::default()
    };
    known(sheet, balance, balanced, &[], sheet);
    let settled = Settled {
        length: 13 + 7 + 31,
        finish: 1440,
        ..Settled::default()
    };
    known(sheet, settle, settled, &[], sheet);
}

/// Balance leaves a sheet that is not settled, and a batch that settles away and
/// returns has no record.
#[test]
fn known_settlings() {
    let unsettled = "     2     4
     0     0
     2     2     0     1     2
     4     1     0     2     1     2
     5     1     0     2     1     2
     2     2     0     2     1     2
";
    let mut group = [0; 24];
    group[..2].copy_from_slice(&[1, 2]);
    let balanced = Balanced {
        length: unsettled.len(),
        finish: 9,
        floor: 7,
        level: 4,
        size: 2,
        group,
        ..Balanced::default()
    };
    known(unsettled, balance, balanced, &[], unsettled);
    let settled = Settled {
        length: unsettled.len(),
        finish: 7,
        moves: 2,
        records: 2,
        ..Settled::default()
    };
    let written = "     2     4
     0     0
     2     2     0     1     2
     4     2     0     2     1     2
     5     1     0     2     1     2
     2     1     0     2     1     2
";
    let records = [went(2, 1, 2), went(4, 2, 1)];
    known(unsettled, settle, settled, &records, written);

    let returning = "     3     4
     0     0     0
     1     3     0     1     3
     4     3     0     2     2     3
     2     2     0     1     2
     2     3     0     2     1     3
";
    let settled = Settled {
        length: returning.len(),
        finish: 5,
        moves: 3,
        records: 1,
        ..Settled::default()
    };
    let written = returning.replace("2     3     0     2     1", "2     1     0     2     1");
    known(returning, settle, settled, &[went(4, 3, 1)], &written);
}

/// Every pair of a list and a buffer was met by so many good sheets at least;
/// what is short is refused.
fn rooms_of_good_sheets(met: &Met, least: usize) {
    for calls in [met.balanced, met.settled] {
        for (list, buffer) in (0..25).map(|pair| (pair / 5, pair % 5)) {
            let (done, short) = (calls[0][list][buffer], calls[9][list][buffer]);
            let (met, not) = match list >= 2 && buffer >= 2 {
                true => (done, short),
                false => (short, done),
            };
            assert!(met >= least && not == 0, "{list} {buffer}: {met} {not}");
        }
    }
}

#[test]
fn sound_files() {
    let kinds = Kind::all();
    let of_kind = |share: u64| {
        let kind = kinds[share as usize % kinds.len()];
        let mut rng = Rng::new(share);
        (0..4).map(|_| Case::from(kind.sheet(&mut rng))).collect()
    };
    let met = compare(66, |share| match share {
        0 => vec![
            Case::from(kinds::hard(0)),
            Case::from(kinds::hard_calibrated(0)),
            Case::from(kinds::hard_started(0)),
        ],
        1..=24 => of_kind(share),
        25 => cases::largest(share, 20),
        _ => cases::sound(share, 150),
    });
    println!("{}", met.summary());
    assert_eq!((met.sheets, met.good), (3 + 24 * 4 + 20 + 40 * 150, 6_119));
    rooms_of_good_sheets(&met, 300);
    assert!(met.empty >= 300 && met.largest >= 150 && met.started >= 2_500);
    assert!(met.grouped >= 2_500 && met.all >= 1_500);
    assert!(met.shifted >= 2_000 && met.moved >= 2_000);
    assert!(met.repeated >= 300 && met.different >= 1_500);
    assert!(met.most[0] >= 150 && met.most[1] >= 100, "{:?}", met.most);
}

/// A bad sheet is what its fault is, whatever is lent.
#[test]
fn damaged_files() {
    let met = compare(50, |share| match share {
        0..=1 => cases::every_byte(share),
        2..=3 => cases::every_field(share),
        4..=23 => cases::faulty(share, 150),
        _ => cases::damaged(share, 100),
    });
    println!("{}", met.summary());
    assert!(met.sheets >= 10_000 && met.good >= 500 && met.started >= 200);
    for calls in [met.balanced, met.settled] {
        for number in [1, 2, 3, 4, 5, 10, 13] {
            for count in calls[number].as_flattened() {
                assert!(*count >= 20, "refusal {number}: {:?}", calls[number]);
            }
        }
    }
}

/// Lists from none to two entries more than there are batches, buffers from none
/// to three bytes more than the sheet has, and both very large.
#[test]
fn every_size() {
    fn each<A: Answer>(
        sheet: &[u8],
        judge: &mut Judge<Filer<A>>,
        due: Due<A>,
        count: &mut [u32; 2],
    ) {
        let (batches, bytes) = due.size();
        let lists = (0..=batches + 2).map(|entries| (entries, bytes));
        let buffers = (0..=bytes + 3).map(|size| (batches, size));
        for (entries, size) in lists.chain(buffers).chain([(1 << 16, 1 << 20)]) {
            match judge.call(sheet, entries, size, &due) {
                Ok(found) => count[(found.hosted().refusal != 0) as usize] += 1,
                Err(fault) => {
                    let sheet = String::from_utf8_lossy(sheet);
                    panic!("{entries} entries, {size} bytes: {fault}\nsheet:\n{sheet}")
                }
            }
        }
    }
    let mut balancing: Judge<Filer<Balanced>> = Judge::new(balance);
    let mut settling: Judge<Filer<Settled>> = Judge::new(settle);
    let mut count = [0; 2];
    let sheets = cases::sound(72, 60)
        .into_iter()
        .chain(cases::faulty(73, 20))
        .map(|case| case.sheet)
        .filter(|sheet| sheet.len() <= 1_000);
    for sheet in sheets {
        each(&sheet, &mut balancing, balance_due(&sheet), &mut count);
        each(&sheet, &mut settling, settle_due(&sheet), &mut count);
    }
    let [enough, refused] = count;
    println!("{enough} large enough, {refused} refused");
    assert!(enough >= 500 && refused >= 10_000);
}

/// A sheet that stands between other bytes, at any offset, with a buffer and a
/// list that start at any byte and entry, is what its own bytes are, and stays so.
#[test]
fn any_offset() {
    fn each<A: Answer>(call: Filer<A>, memory: &[u8], own: usize, offset: usize, due: &Due<A>) {
        let sheet = &memory[offset..offset + own];
        let (batches, bytes) = due.size();
        let (answer, records, text) = due.at(batches, bytes);
        let entry = went(u32::MAX, 0, u32::MAX);
        let mut moves = vec![entry; batches + 8];
        let mut written = vec![0xff; bytes + 16];
        let lent = &mut moves[8 - offset % 8..][..batches];
        let found = call(sheet, lent, &mut written[offset..][..bytes]);
        assert_eq!(found, answer);
        let mut moves_due = vec![entry; batches + 8];
        moves_due[8 - offset % 8..][..records.len()].copy_from_slice(records);
        let mut written_due = vec![0xff; bytes + 16];
        written_due[offset..][..text.len()].copy_from_slice(text);
        assert_eq!((moves, written), (moves_due, written_due));
    }
    let mut rng = Rng::new(75);
    for round in 0..60 {
        let mut file = match round {
            0 => SHEET.as_bytes().to_vec(),
            _ => gen::draft(&mut rng, gen::SMALL).render(),
        };
        let own = file.len();
        // What would go on well as a sheet, and what would not.
        file.extend(match round % 3 {
            0 => b"     1     1     0     1     1\n".as_slice(),
            1 => b"\n\n\n\n\n\n\n\n\n",
            _ => b"999999999",
        });
        let (balanced, settled) = (balance_due(&file[..own]), settle_due(&file[..own]));
        for offset in 0..9 {
            let memory = [&file[file.len() - offset..], &file].concat();
            let before = memory.clone();
            each(balance, &memory, own, offset, &balanced);
            each(settle, &memory, own, offset, &settled);
            assert_eq!(black_box(memory), before, "the sheet stays as it is");
        }
    }
}

/// Numbers in six columns each.
fn columns(numbers: impl IntoIterator<Item = u32>) -> String {
    let fields = numbers.into_iter().map(|number| format!("{number:>6}"));
    fields.collect()
}

/// How many records, and those, at the end of a journal's answer.
fn records(records: &[Move]) -> String {
    let numbers = records.iter().flat_map(|r| [r.batch, r.from, r.to]);
    columns([records.len() as u32]) + &columns(numbers) + "\n"
}

/// A journal's answer of the same.
fn balance_line(made: &Made<Balanced>) -> String {
    let a = made.answer;
    let figures = [
        0,
        a.finish,
        a.floor,
        a.level,
        a.raises,
        a.bumps,
        a.size as u32,
    ];
    let group = a.group[..a.size].iter().map(|&j| j as u32);
    columns(figures.into_iter().chain(group)) + &records(&made.records)
}

fn settle_line(made: &Made<Settled>) -> String {
    let moves = format!("{:>12}", made.answer.moves);
    columns([0, made.answer.finish]) + &moves + &records(&made.records)
}

/// The two in any order, alone and more than once, each on the file that the one
/// before left: what a journal of the same has, and what the second planner
/// has. Settling what is settled changes nothing.
#[test]
fn one_after_another() {
    const ORDERS: [&str; 9] = ["7", "8", "78", "87", "77", "88", "788", "878", "7878"];
    let mut balancing: Judge<Filer<Balanced>> = Judge::new(balance);
    let mut settling: Judge<Filer<Settled>> = Judge::new(settle);
    let text = |call: Runner, sheet: &[u8], journal: &str| {
        host::text(|to| call(sheet, journal.as_bytes(), to)).expect("a text")
    };
    let (mut changed, mut again) = (0, 0);
    for (k, Case { sheet, .. }) in cases::sound(76, 900).into_iter().enumerate() {
        let order = ORDERS[k % ORDERS.len()];
        let (mut file, mut journal, mut answers) = (sheet.clone(), String::new(), String::new());
        let mut settled_before = false;
        for kind in order.chars() {
            let fail = |fault: String| {
                let file = String::from_utf8_lossy(&file);
                panic!("{order}: {fault}\n{kind} on:\n{file}")
            };
            let mut calls = Calls::default();
            let left = if kind == '7' {
                let due = balance_due(&file);
                if let Err(fault) = balancing.rooms(&file, &due, Rooms::Two(k), &mut calls) {
                    fail(fault);
                }
                let made = made(&file, balance);
                answers += &balance_line(&made);
                journal += &format!("     7{:>6}\n", made.batches);
                made.written
            } else {
                let due = settle_due(&file);
                if let Err(fault) = settling.rooms(&file, &due, Rooms::Two(k), &mut calls) {
                    fail(fault);
                }
                let made = made(&file, settle);
                if settled_before {
                    assert_eq!((made.answer.moves, made.records.len()), (0, 0));
                    again += 1;
                }
                answers += &settle_line(&made);
                journal += &format!("     8{:>6}\n", made.batches);
                made.written
            };
            settled_before = kind == '8';
            changed += (left != file) as usize;
            file = left;
        }
        assert_eq!(text(run, &sheet, &journal), answers, "{order}");
        assert_eq!(text(write, &sheet, &journal).as_bytes(), file, "{order}");
    }
    println!("{changed} calls changed a sheet, {again} were settled before");
    assert!(changed >= 500 && again >= 150);
}

/// The largest sheets with lists and buffers that are said to suffice always,
/// and one less of each.
#[test]
fn the_largest() {
    fn each<A: Answer>(sheet: &[u8], call: Filer<A>, due: Due<A>) {
        assert_eq!(due.size(), (200, LARGEST_SHEET));
        let mut judge = Judge::new(call);
        for (entries, size, refusal) in [
            (200, LARGEST_SHEET, 0),
            (199, LARGEST_SHEET, 9),
            (200, LARGEST_SHEET - 1, 9),
            (199, LARGEST_SHEET - 1, 9),
        ] {
            let found = judge.call(sheet, entries, size, &due);
            let refused = found.map(|answer| answer.hosted().refusal);
            assert_eq!(refused, Ok(refusal), "{entries} entries, {size} bytes");
        }
    }
    for case in cases::largest(77, 10) {
        each(&case.sheet, balance, balance_due(&case.sheet));
        each(&case.sheet, settle, settle_due(&case.sheet));
    }
}
