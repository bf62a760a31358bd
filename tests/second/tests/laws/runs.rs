//! Runs: each call beside a book that is fed the calls and nothing else.

use second::rng::Rng;
use second::*;

use crate::planning::balance_laws;
use crate::settling::{review_laws, settle_laws};
use crate::watch::watch;

/// May the list stand on a sheet of `m` instruments?
fn good_list(list: &[u64], m: u32) -> bool {
    let mut sorted = list.to_vec();
    sorted.sort();
    sorted.dedup();
    let different = sorted.len() == list.len();
    different && !list.is_empty() && list.iter().all(|j| (1..=m as u64).contains(j))
}

/// Is none of the list smaller than the one before it?
fn ascends(list: &[u64]) -> bool {
    list.windows(2).all(|pair| pair[0] <= pair[1])
}

/// The refusal due to a call: the first of its checks that does not hold.
fn refusal_due(book: &Draft, call: &Call) -> Option<Refusal> {
    let there = |number: u64| 1 <= number && number <= book.lines.len() as u64;
    let waits = |number: u64| {
        let line = book.lines.get((number as usize).wrapping_sub(1));
        !line.is_some_and(Line::started)
    };
    let listed = |number: u64, j: u64| {
        let line = &book.lines[number as usize - 1];
        line.list.iter().any(|&k| k as u64 == j)
    };
    let m = book.instruments;
    let lengths = book.lines.iter().map(|line| line.length);
    let minutes = lengths.chain(book.calibrations.iter().copied());
    let total: u64 = minutes.map(u64::from).sum();
    let checks: &[(bool, Refusal)] = match call {
        Call::Add { length, list } => &[
            (book.lines.len() < 200, Refusal::Full),
            (1 <= *length && *length <= 1440, Refusal::Length),
            (good_list(list, m), Refusal::List),
            (ascends(list), Refusal::Order),
        ],
        Call::Withdraw { number } | Call::Start { number } => &[
            (there(*number), Refusal::NoBatch),
            (waits(*number), Refusal::Started),
        ],
        Call::Requalify { number, list } => &[
            (there(*number), Refusal::NoBatch),
            (waits(*number), Refusal::Started),
            (good_list(list, m), Refusal::List),
            (ascends(list), Refusal::Order),
        ],
        Call::Move { number, instrument } => &[
            (there(*number), Refusal::NoBatch),
            (waits(*number), Refusal::Started),
            (
                !there(*number) || listed(*number, *instrument),
                Refusal::Place,
            ),
        ],
        Call::Trial { level } => &[(*level <= total, Refusal::Level)],
        Call::Balance { entries } | Call::Settle { entries } => {
            &[(book.lines.len() as u64 <= *entries, Refusal::Buffer)]
        }
        Call::Review => &[],
    };
    let failed = checks.iter().find(|(holds, _)| !holds);
    failed.map(|(_, refusal)| *refusal)
}

/// Enter a call that is not refused, and give the answer due.
fn enter(book: &mut Draft, call: &Call) -> Answer {
    let narrow = |list: &[u64]| list.iter().map(|&j| j as u32).collect::<Vec<u32>>();
    match call {
        Call::Add { length, list } => book.lines.push(Line {
            length: *length as u32,
            place: list.iter().min().map(|&j| j as u32),
            mark: 0,
            list: narrow(list),
        }),
        Call::Withdraw { number } => {
            book.lines.remove(*number as usize - 1);
        }
        Call::Requalify { number, list } => {
            let line = &mut book.lines[*number as usize - 1];
            line.list = narrow(list);
            let kept = line.place.filter(|place| line.list.contains(place));
            line.place = kept.or(line.list.iter().copied().min());
        }
        Call::Move { number, instrument } => {
            book.lines[*number as usize - 1].place = Some(*instrument as u32);
        }
        Call::Start { number } => book.lines[*number as usize - 1].mark = 1,
        // The rest is worked out on a sheet made from the book.
        Call::Review => {
            let sheet = book.sheet();
            review_laws(&sheet);
            return Answer::Review(review(&sheet));
        }
        Call::Trial { level } => {
            return Answer::Trial(watch(&book.sheet(), *level, 7).answer);
        }
        Call::Balance { .. } => {
            let (after, answer) = balance_laws(&book.sheet());
            *book = Draft::from(&after);
            return Answer::Balance(answer);
        }
        Call::Settle { .. } => {
            let watched = settle_laws(&book.sheet());
            *book = Draft::from(&watched.after);
            return Answer::Settle(watched.answer);
        }
    }
    Answer::Done
}

/// Make the calls, each checked against the book; gives all answers.
fn run_laws(draft: &Draft, calls: &[Call]) -> Vec<Answer> {
    let mut book = Draft::from(&draft.sheet());
    let mut sheet = read(&draft.render()).unwrap();
    let mut answers = Vec::new();
    for call in calls {
        let answer = apply(&mut sheet, call);
        let due = match refusal_due(&book, call) {
            Some(refusal) => Answer::Refused(refusal),
            None => enter(&mut book, call),
        };
        assert_eq!(answer, due, "{call:?}");
        assert_eq!(Draft::from(&sheet), book);
        answers.push(answer);
    }
    let mut at_once = draft.sheet();
    assert_eq!(run(&mut at_once, calls), answers);
    assert_eq!(at_once, sheet);
    answers
}

#[test]
fn runs() {
    let mut rng = Rng::new(31);
    let mut refusals = [0; 14];
    let (mut balanced, mut settled, mut records) = (0, 0, 0);
    for round in 0..4000 {
        let (shape, count) = match round % 10 {
            0 => (gen::MEDIUM, 25),
            _ => (gen::SMALL, 40),
        };
        let draft = gen::draft(&mut rng, shape);
        let n = draft.lines.len() as u32;
        let calls = gen::calls(&mut rng, draft.instruments, n, shape.lengths.1, count);
        for answer in run_laws(&draft, &calls) {
            match answer {
                Answer::Refused(refusal) => refusals[refusal.number() as usize] += 1,
                Answer::Balance(answer) => {
                    balanced += 1;
                    records += answer.records.len();
                }
                Answer::Settle(answer) => {
                    settled += 1;
                    records += answer.records.len();
                }
                _ => {}
            }
        }
    }
    for number in [3, 4, 5, 6, 8, 9, 11, 13] {
        assert!(refusals[number] > 200, "{refusals:?}");
    }
    let counts = [balanced, settled, records];
    assert!(counts.into_iter().all(|count| count > 4000), "{counts:?}");
}

/// Runs that start full, so that adding is refused for want of room.
#[test]
fn runs_on_a_full_sheet() {
    let mut rng = Rng::new(32);
    let mut full = 0;
    for _ in 0..12 {
        let shape = gen::Shape {
            instruments: (2, 6),
            batches: (199, 200),
            lengths: (1, 5),
            calibrations: 5,
            started: true,
        };
        let draft = gen::draft(&mut rng, shape);
        let calls = gen::calls(&mut rng, draft.instruments, 200, 5, 20);
        let answers = run_laws(&draft, &calls);
        let refused = |answer: &&Answer| **answer == Answer::Refused(Refusal::Full);
        full += answers.iter().filter(refused).count();
    }
    assert!(full > 10, "{full}");
}
