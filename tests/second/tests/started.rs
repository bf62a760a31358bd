//! Started batches (document 02, C-17): small cases worked out by hand, which
//! refusal comes first, and what holds where every batch has started.

use second::rng::Rng;
use second::trial::{Act, State};
use second::*;

fn passed(places: &[u32], raises: u32, bumps: u32) -> Result<Trial, Refusal> {
    Ok(Trial {
        verdict: Verdict::Pass(places.to_vec()),
        raises,
        bumps,
    })
}

fn failed(group: &[u32], raises: u32, bumps: u32) -> Result<Trial, Refusal> {
    Ok(Trial {
        verdict: Verdict::Fail(group.to_vec()),
        raises,
        bumps,
    })
}

/// The first case's sheet, whose first batch has started.
const FIRST: &str = "     2     3
     0     0
    30     1     1     2     1     2
    20     1     0     1     1
    10     1     0     2     1     2
";

fn first() -> Sheet {
    read(FIRST.as_bytes()).expect("a sound sheet")
}

#[test]
fn what_is_qualified() {
    let sheet = first();
    let lists: Vec<&[u32]> = sheet.batches().iter().map(|b| b.qualified()).collect();
    assert_eq!(lists, [&[1][..], &[1], &[1, 2]]);
    assert_eq!(sheet.batches()[0].list, [1, 2]);
    assert_eq!((sheet.confined(&[1]), sheet.confined(&[2])), (50, 0));
    assert_eq!(Draft::from(&sheet).pinned().sheet().confined(&[1]), 50);
    assert_eq!(write(&sheet), FIRST.as_bytes());
}

/// Batches 1 and 2 are bumped off and return, and batch 3 leaves. What is left on
/// the first instrument is over below level 20, and confined there.
#[test]
fn the_first_case_with_a_started_batch() {
    let mut sheet = first();
    assert_eq!(review(&sheet).gains, Some(3));
    assert_eq!(trial(&sheet, 20), passed(&[1, 1, 2], 4, 6));
    assert_eq!(trial(&sheet, 19), failed(&[1], 8, 10));
    // With batch 3 there the second is no longer light.
    assert_eq!(trial(&sheet, 0), failed(&[1, 2], 4, 6));
    assert_eq!(trial(&sheet, 60), passed(&[1, 1, 1], 0, 0));
    assert_eq!(trial(&sheet, 61), Err(Refusal::Level));
    let listing = "    50    50    20     4     6           0
     1     1
     1     1    30
     2     1    20
     3     2    10
";
    assert_eq!(program(FIRST.as_bytes()), listing.as_bytes());
    let mut settled = sheet.clone();
    let answer = settle(&mut settled, 3).unwrap();
    assert_eq!((answer.finish, answer.moves), (50, 1));
    let record = Move {
        batch: 3,
        from: 1,
        to: 2,
    };
    assert_eq!(answer.records, [record]);
    let answer = balance(&mut sheet, 3).unwrap();
    assert_eq!(answer.records, [record]);
    assert_eq!(sheet, settled);
    assert_eq!(review(&sheet).gains, None);
    let text = FIRST.replace("10     1", "10     2");
    assert_eq!(write(&sheet), text.as_bytes());
}

/// What acts at level 20 on the first case's sheet, one after the other.
#[test]
fn a_started_batch_is_bumped_and_goes_back() {
    let sheet = first();
    let items = sheet.items();
    let mut state = State::start(&sheet, &items, 20);
    let mut acts = Vec::new();
    while let Some(act) = state.next() {
        state.make(act);
        acts.push(act);
    }
    let off = |batch| Act::Unplace {
        instrument: 1,
        batch,
    };
    let raised = |batch, height| Act::RaiseBatch { batch, height };
    let on = |batch, instrument| Act::Place { batch, instrument };
    let due = [
        Act::RaiseInstrument {
            instrument: 1,
            height: 1,
        },
        off(0),
        raised(0, 2),
        on(0, 1),
        off(1),
        raised(1, 2),
        on(1, 1),
        off(2),
        raised(2, 1),
        on(2, 2),
    ];
    assert_eq!(acts, due);
}

/// A batch that gains does so no more once it has started.
#[test]
fn starting() {
    let file = FIRST.replace("1     1     2", "1     0     2");
    let mut sheet = read(file.as_bytes()).unwrap();
    assert_eq!(review(&sheet).gains, Some(1));
    assert_eq!(sheet.start(1), Ok(()));
    assert_eq!(sheet, first());
    assert_eq!(review(&sheet).gains, Some(3));
    assert_eq!(sheet.start(3), Ok(()));
    assert_eq!(review(&sheet).gains, None);
    // It starts where it is, not where it was at first.
    let mut sheet = read(file.as_bytes()).unwrap();
    sheet.shift(1, 2).unwrap();
    sheet.start(1).unwrap();
    assert_eq!(sheet.batches()[0].qualified(), [2]);
    // One that is added has not started, and those behind one that is withdrawn
    // keep their marks.
    sheet.add(5, &[1, 2]).unwrap();
    sheet.start(4).unwrap();
    sheet.withdraw(2).unwrap();
    let marks: Vec<bool> = sheet.batches().iter().map(|b| b.started).collect();
    assert_eq!(marks, [true, false, true]);
    sheet.add(5, &[1, 2]).unwrap();
    assert!(!sheet.batches()[3].started);
}

/// Every order of 6, 11, 4, 13 and 5, on a sheet of three instruments whose first
/// and third batches have started.
#[test]
fn which_refusal_comes_first() {
    let draft = Draft::new(3, &[(5, 1, &[1, 2]), (6, 1, &[1, 2]), (7, 3, &[3])]);
    let sheet = draft.started(&[1, 3]).sheet();
    let refusal = |call: &Call| {
        let mut after = sheet.clone();
        let answer = apply(&mut after, call);
        match answer {
            Answer::Refused(refusal) => {
                assert_eq!(after, sheet);
                refusal.number()
            }
            Answer::Done => 0,
            other => panic!("{other:?}"),
        }
    };
    let lists: [(&[u64], u32); 10] = [
        (&[1], 0),
        (&[1, 2, 3], 0),
        (&[], 4),
        (&[4], 4),
        (&[1, 1], 4),
        (&[1, 2, 3, 4], 4),
        (&[2, 1], 13),
        (&[3, 1, 2], 13),
        (&[2, 1, 1], 4),
        (&[2, 1, 4], 4),
    ];
    for number in [0, 1, 2, 3, 4, 257, 258, 259, 1 << 32, u64::MAX] {
        let (there, started) = ((1..=3).contains(&number), number == 1 || number == 3);
        // Where a later check fails or none does.
        let due = |last: bool, refusal: u32| match (there, started, last) {
            (false, ..) => 6,
            (_, true, _) => 11,
            (.., false) => refusal,
            (.., true) => 0,
        };
        assert_eq!(refusal(&Call::Withdraw { number }), due(true, 0));
        assert_eq!(refusal(&Call::Start { number }), due(true, 0));
        for (list, bad) in lists {
            let call = Call::Requalify {
                number,
                list: list.to_vec(),
            };
            assert_eq!(refusal(&call), due(bad == 0, bad));
        }
        for instrument in [0, 1, 2, 3, 4, 257, u64::MAX] {
            // A started batch is not even moved to where it is.
            let listed = instrument == 1 || instrument == 2;
            let call = Call::Move { number, instrument };
            assert_eq!(refusal(&call), due(listed, 5));
        }
    }
}

/// The mark's own field: 0 and 1 are taken, and another number is refused before
/// the count is looked at.
#[test]
fn every_mark() {
    let line = |mark: &str, rest: &str| {
        format!("     2     1\n     0     0\n     5     2{mark:>6}{rest}").into_bytes()
    };
    for mark in 0..1_500u32 {
        let file = line(&mark.to_string(), "     2     1     2\n");
        match read(&file) {
            Ok(sheet) => assert_eq!(sheet.batches()[0].started, mark == 1),
            Err(fault) => {
                assert!(mark > 1);
                assert_eq!((fault.refusal, fault.line), (Refusal::Form, 3));
            }
        }
        let fault = read(&line(&mark.to_string(), "     3\n")).unwrap_err();
        let due = match mark {
            0 | 1 => Refusal::List,
            _ => Refusal::Form,
        };
        assert_eq!((fault.refusal, fault.line), (due, 3));
    }
    for mark in ["", "01", "00", "x", "-1", "1 "] {
        let fault = read(&line(mark, "     3\n")).unwrap_err();
        assert_eq!((fault.refusal, fault.line), (Refusal::Form, 3), "{mark:?}");
    }
}

/// A file of the form before there were marks: what is read as the mark is a
/// count. Two or more are no mark, and with one the instrument is taken for the
/// count, after which the line ends too soon.
#[test]
fn files_without_marks() {
    let mut rng = Rng::new(2017);
    let (mut of_one, mut of_more, mut none) = (0, 0, 0);
    for _ in 0..10_000 {
        let draft = gen::draft(&mut rng, gen::SMALL.waiting());
        let file = draft.render();
        let mut old = file.clone();
        for at in gen::marks(&file).into_iter().rev() {
            old.drain(at..at + 6);
        }
        match draft.lines.first() {
            None => {
                assert!(read(&old).is_ok());
                none += 1;
            }
            Some(line) => {
                let fault = read(&old).unwrap_err();
                assert_eq!((fault.refusal, fault.line), (Refusal::Form, 3));
                match line.list.len() {
                    1 => of_one += 1,
                    _ => of_more += 1,
                }
            }
        }
    }
    let counts = [of_one, of_more, none];
    assert!(counts.into_iter().all(|count| count > 500), "{counts:?}");
}

/// Where every batch has started nothing moves. A level passes at once or not at
/// all, so the least that does is the one kept.
#[test]
fn all_started() {
    let mut rng = Rng::new(2018);
    let (mut one, mut every, mut none, mut later) = (0, 0, 0, 0);
    for round in 0..3_000 {
        let shape = [gen::SMALL, gen::SMALL, gen::MEDIUM][round % 3];
        let open = gen::draft(&mut rng, shape.waiting()).sheet();
        let sheet = Draft::from(&open).all_started().sheet();
        let (n, m) = (sheet.batches().len() as u64, sheet.instruments());
        let (loads, finish, longest) = (sheet.loads(), sheet.finish(), sheet.longest());
        assert_eq!(review(&sheet).gains, None);
        let mut after = sheet.clone();
        let settled = settle(&mut after, n).unwrap();
        assert_eq!((settled.finish, settled.moves), (finish, 0));
        let balanced = balance(&mut after, n).unwrap();
        assert_eq!(after, sheet);
        assert_eq!([settled.records, balanced.records], [[], []]);
        let level = finish - longest;
        assert_eq!((balanced.finish, balanced.level), (finish, level));
        assert_eq!((balanced.raises, balanced.bumps), (0, 0));
        if level == 0 {
            assert_eq!((balanced.floor, balanced.group), (longest, None));
            none += 1;
        } else if loads.iter().all(|&load| load >= level) {
            // None was light at the level before.
            let share = sheet.total().div_ceil(m);
            assert_eq!(balanced.floor, longest.max(share));
            assert_eq!(balanced.group, Some((1..=m).collect()));
            every += 1;
        } else {
            let first = loads.iter().position(|&load| load == finish).unwrap();
            assert_eq!(balanced.floor, finish);
            assert_eq!(balanced.group, Some(vec![first as u32 + 1]));
            one += 1;
        }
        later += (plan(&mut open.clone()).finish < finish) as u32;
        // Each refuses every edit, and a batch more is still taken.
        for number in 1..=n {
            let mut after = sheet.clone();
            let started = Err(Refusal::Started);
            assert_eq!(after.withdraw(number), started);
            assert_eq!(after.start(number), started);
            assert_eq!(after.requalify(number, &[1]), started);
            assert_eq!(after.shift(number, 1), started);
            assert_eq!(after, sheet);
        }
    }
    let counts = [one, every, none, later];
    assert!(counts.into_iter().all(|count| count > 200), "{counts:?}");
}

/// The sheet on which the started batches are qualified on their places alone, and
/// have not started, is answered alike.
#[test]
fn as_qualified_there_alone() {
    let mut rng = Rng::new(2019);
    let (mut started, mut held, mut moved) = (0, 0, 0);
    for round in 0..4_000 {
        let shape = [gen::SMALL, gen::MEDIUM][round % 2];
        let draft = gen::draft(&mut rng, shape);
        let sheet = draft.sheet();
        let other = draft.clone().pinned().sheet();
        assert_eq!(program(&write(&sheet)), program(&write(&other)));
        let (total, n) = (sheet.total() as u64, sheet.batches().len() as u64);
        let mut calls = vec![Call::Review];
        calls.extend((0..6).map(|_| Call::Trial {
            level: rng.below(total + 2),
        }));
        let both = [Call::Balance { entries: n }, Call::Settle { entries: n }];
        calls.extend(both.iter().chain(both.iter().rev()).cloned());
        calls.push(Call::Review);
        let (mut one, mut two) = (sheet.clone(), other.clone());
        assert_eq!(run(&mut one, &calls), run(&mut two, &calls));
        assert_eq!(one.places(), two.places());
        for (before, after) in sheet.batches().iter().zip(one.batches()) {
            assert_eq!((&before.list, before.started), (&after.list, after.started));
            assert!(!before.started || before.place == after.place);
            started += before.started as u32;
            moved += (before.place != after.place) as u32;
        }
        // Started batches that would move if they had not.
        let mut free = draft.waiting().sheet();
        run(&mut free, &calls);
        let places = sheet.batches().iter().zip(free.places());
        held += places.filter(|(b, to)| b.started && b.place != *to).count();
    }
    assert!(
        started > 10_000 && held > 2_000 && moved > 5_000,
        "{started} {held} {moved}"
    );
}
