//! Started batches (document 02, C-17) in plans: the place of such a batch stands for
//! its list, and no call moves it. All plans of small sheets with some are in `optimum`.

use host::filed::made;
use host::journal::journal;
use host::listing::Listing;
use host::told::{answers, file, left, listed, numbers};
use host::{balance, settle};
use second::gen;
use second::rng::Rng;
use second::{Call, Draft, Line};

/// Where the batches stand, by a file without a fault.
fn places(sheet: &[u8]) -> Vec<u32> {
    second::read(sheet).expect("a sheet").places()
}

fn balancing(n: usize) -> Call {
    Call::Balance { entries: n as u64 }
}

fn settling(n: usize) -> Call {
    Call::Settle { entries: n as u64 }
}

fn text(calls: &[Call]) -> String {
    String::from_utf8(journal(calls)).expect("plain text")
}

/// The listing of a sheet without a fault.
fn planned(draft: &Draft) -> Listing {
    let listing = listed(&file(draft)).expect("a listing");
    Listing::parse(listing.as_bytes()).expect("a listing in its columns")
}

/// Random sheets for the tests below, with a share of none, some and all started.
fn sheets(seed: u64, count: usize) -> impl Iterator<Item = Draft> {
    let mut rng = Rng::new(seed);
    (0..count).map(move |round| {
        let shape = match round % 12 {
            0 => gen::FULL,
            1..=4 => gen::MEDIUM,
            _ => gen::SMALL,
        };
        gen::draft(&mut rng, shape)
    })
}

/// No call moves a started batch: not balance, not settle, and no passed trial. If
/// they had not started, many of them would go elsewhere.
#[test]
fn a_started_batch_never_moves() {
    let mut rng = Rng::new(172);
    let (mut started, mut moved, mut held) = (0, [0; 3], [0; 3]);
    for draft in sheets(173, 6_000) {
        let sheet = draft.sheet();
        let standing = sheet.places();
        let calls: Vec<Call> = (0..3)
            .map(|_| Call::Trial {
                level: rng.below(sheet.finish() as u64 + 1),
            })
            .collect();
        // The places after a balance, after a settling, and of the trials that pass.
        let after = |draft: &Draft| {
            let file = draft.render();
            let told = answers(&String::from_utf8_lossy(&file), &text(&calls)).unwrap();
            let passed = told.lines().map(numbers).filter(|line| line[1] == 1);
            let tried: Vec<Vec<u32>> = passed
                .map(|line| line[4..].iter().map(|&j| j as u32).collect())
                .collect();
            [
                vec![places(&made(&file, balance).written)],
                vec![places(&made(&file, settle).written)],
                tried,
            ]
        };
        let differ = |found: &[Vec<u32>], i: usize| {
            found
                .iter()
                .filter(|places| places[i] != standing[i])
                .count()
        };
        let (found, free) = (after(&draft), after(&draft.clone().waiting()));
        for (i, line) in draft.lines.iter().enumerate() {
            started += line.started() as usize;
            for kind in 0..3 {
                match line.started() {
                    true => {
                        assert_eq!(differ(&found[kind], i), 0, "batch {} of {draft:?}", i + 1);
                        held[kind] += differ(&free[kind], i);
                    }
                    false => moved[kind] += differ(&found[kind], i),
                }
            }
        }
    }
    println!("{started} started batches, {held:?} of which would move; {moved:?} others do");
    assert!(started >= 20_000);
    assert!(held.into_iter().all(|count| count >= 2_000));
    assert!(moved.into_iter().all(|count| count >= 2_000));
}

/// A sheet is answered as the one on which its started batches may run on their
/// places alone: listing, reviews, trials, balance and settle.
#[test]
fn as_qualified_there_alone() {
    let mut rng = Rng::new(174);
    let (mut differ, mut failed, mut floors) = (0, 0, 0);
    for draft in sheets(175, 4_000) {
        if !draft.lines.iter().any(Line::started) {
            continue;
        }
        let (sheet, other) = (file(&draft), file(&draft.clone().pinned()));
        let (n, total) = (draft.lines.len(), draft.sheet().total() as u64);
        assert_eq!(listed(&sheet), listed(&other), "{sheet}");
        let mut calls = vec![Call::Review];
        for _ in 0..4 {
            let level = rng.below(draft.sheet().finish() as u64 + 1);
            calls.push(Call::Trial { level });
        }
        calls.extend([
            Call::Trial { level: total },
            Call::Trial { level: total + 1 },
        ]);
        calls.extend(match rng.below(2) {
            0 => [balancing(n), Call::Review, settling(n), balancing(n)],
            _ => [settling(n), Call::Review, balancing(n), settling(n)],
        });
        calls.extend([Call::Review, balancing(n - 1)]);
        let journal = text(&calls);
        let told = answers(&sheet, &journal).unwrap();
        assert_eq!(told, answers(&other, &journal).unwrap(), "{sheet}");
        failed += told
            .lines()
            .filter(|line| line.starts_with("     0     0"))
            .count();
        let (one, two) = (
            made(sheet.as_bytes(), balance),
            made(other.as_bytes(), balance),
        );
        assert_eq!(one.records, two.records);
        assert_eq!(
            (one.answer.floor, one.answer.group),
            (two.answer.floor, two.answer.group)
        );
        let (one, two) = (
            made(sheet.as_bytes(), settle),
            made(other.as_bytes(), settle),
        );
        assert_eq!(
            (&one.records, one.answer.moves),
            (&two.records, two.answer.moves)
        );
        // While they waited, the answers were often others.
        let (listing, free) = (planned(&draft), planned(&draft.clone().waiting()));
        differ += (listing != free) as usize;
        floors += (listing.floor > free.floor) as usize;
    }
    println!("{differ} planned otherwise, {floors} with a higher floor, {failed} trials fail");
    assert!(differ >= 800 && floors >= 300 && failed >= 1_000);
}

/// Every batch has started: nothing moves and nothing is refused but edits. A level
/// passes at once or not at all, so the least that does is the one kept.
#[test]
fn all_started() {
    let mut rng = Rng::new(176);
    let (mut one, mut every, mut none, mut later) = (0, 0, 0, 0);
    for round in 0..2_400 {
        let shape = [gen::SMALL, gen::MEDIUM, gen::SMALL, gen::FULL][round % 4];
        let open = gen::draft(&mut rng, shape.waiting());
        let draft = Draft::from(&open.sheet()).all_started();
        let (sheet, n, m) = (draft.sheet(), draft.lines.len(), draft.instruments);
        let (loads, finish, longest) = (sheet.loads(), sheet.finish(), sheet.longest());
        let text_of = file(&draft);
        let found = planned(&draft);
        let level = finish - longest;
        assert_eq!((found.finish, found.level), (finish, level), "{draft:?}");
        assert_eq!((found.raises, found.bumps, found.moves), (0, 0, 0));
        let stand: Vec<u32> = found.batches.iter().map(|batch| batch[1]).collect();
        assert_eq!(stand, sheet.places());
        let (group, floor) = if level == 0 {
            none += 1;
            (vec![], longest)
        } else if loads.iter().all(|&load| load >= level) {
            // None was light at the level before.
            every += 1;
            ((1..=m).collect(), longest.max(sheet.total().div_ceil(m)))
        } else {
            // Nothing can leave the first of those that finish last.
            one += 1;
            let first = loads.iter().position(|&load| load == finish).unwrap();
            (vec![first as u32 + 1], finish)
        };
        assert_eq!((found.group, found.floor), (group, floor), "{draft:?}");
        later += (planned(&open).finish < finish) as usize;

        let balanced = made(text_of.as_bytes(), balance);
        let settled = made(text_of.as_bytes(), settle);
        assert_eq!((balanced.records.len(), settled.records.len()), (0, 0));
        assert_eq!(
            (balanced.answer.finish, balanced.answer.floor),
            (finish, floor)
        );
        assert_eq!((settled.answer.finish, settled.answer.moves), (finish, 0));
        assert_eq!(balanced.written, text_of.as_bytes());
        assert_eq!(settled.written, text_of.as_bytes());
        // None gains, and every edit of a batch is refused; another is taken.
        let mut calls = vec![Call::Review];
        for number in 1..=n as u64 {
            let list = vec![1];
            calls.extend([
                Call::Withdraw { number },
                Call::Requalify { number, list },
                Call::Move {
                    number,
                    instrument: sheet.places()[number as usize - 1] as u64,
                },
                Call::Start { number },
            ]);
        }
        calls.extend([balancing(n), settling(n)]);
        let told = answers(&text_of, &text(&calls)).unwrap();
        let lines: Vec<&str> = told.lines().collect();
        assert_eq!(numbers(lines[0])[..3], [0, finish as u64, 0]);
        assert_eq!(lines[1..=4 * n], vec!["    11"; 4 * n]);
        assert_eq!(left(&text_of, &text(&calls)).unwrap(), text_of);
    }
    println!("{one} with one in the group, {every} with all, {none} with none, {later} could end earlier");
    assert!([one, every, none, later]
        .into_iter()
        .all(|count| count >= 150));
}

/// The written sheet has lists and marks as they were read, and started batches on
/// their places, whatever was balanced, settled, reviewed and tried.
#[test]
fn lists_and_marks_are_kept() {
    let (mut started, mut longer, mut moved) = (0, 0, 0);
    for (round, draft) in sheets(177, 3_000).enumerate() {
        let n = draft.lines.len();
        let mut calls = vec![Call::Review, Call::Trial { level: 0 }];
        calls.extend([balancing(n), settling(n)]);
        calls.rotate_left(round % 4);
        let written = left(&file(&draft), &text(&calls)).unwrap();
        let mut due = draft.clone();
        for (line, place) in due.lines.iter_mut().zip(places(written.as_bytes())) {
            let before = line.given().unwrap_or(line.list[0]);
            assert!(!line.started() || place == before);
            moved += (place != before) as usize;
            started += line.started() as usize;
            longer += (line.started() && line.list.len() > 1) as usize;
            line.place = Some(place);
        }
        assert_eq!(written, file(&due));
        assert_eq!(left(&written, ""), Ok(written));
    }
    println!("{started} started batches kept, {longer} with longer lists; {moved} others moved");
    assert!(started >= 10_000 && longer >= 8_000 && moved >= 3_000);
}
