//! Review and settling: who gains, and every move.

use std::collections::BTreeSet;

use second::rng::Rng;
use second::settle::next_move;
use second::*;

use crate::common::{chain, loads, open, permitted, record_laws};

/// The batches that gain, by index.
fn gaining(sheet: &Sheet) -> Vec<usize> {
    let loads = loads(sheet, &sheet.places());
    let load = |j: u32| loads[j as usize - 1];
    let gains = |&i: &usize| {
        let b = &sheet.batches()[i];
        let others = open(b).into_iter().filter(|&j| j != b.place);
        others.map(load).any(|l| l + b.length < load(b.place))
    };
    (0..sheet.batches().len()).filter(gains).collect()
}

pub fn review_laws(sheet: &Sheet) {
    let answer = review(sheet);
    assert_eq!(answer.loads, loads(sheet, &sheet.places()));
    assert_eq!(answer.loads, sheet.loads());
    assert_eq!(Some(answer.finish), answer.loads.iter().copied().max());
    assert_eq!(answer.finish, sheet.finish());
    assert_eq!(answer.gains, gaining(sheet).first().map(|i| i + 1));
}

fn squares(sheet: &Sheet) -> u64 {
    let loads = loads(sheet, &sheet.places());
    loads.iter().map(|&l| l as u64 * l as u64).sum()
}

/// A settling that was followed to its end.
pub struct Watched {
    pub after: Sheet,
    pub answer: Settled,
    /// How many batches moved and are where they were.
    pub returned: usize,
}

/// Settle move by move, each chosen again from the rule, and compare.
pub fn settle_laws(sheet: &Sheet) -> Watched {
    let start = squares(sheet);
    let mut now = sheet.clone();
    let mut moves = 0;
    let mut moved = BTreeSet::new();
    loop {
        let loads = loads(&now, &now.places());
        let gaining = gaining(&now);
        let chosen = next_move(&now, &loads);
        let Some(longest) = gaining.iter().map(|&i| now.batches()[i].length).max() else {
            assert_eq!(chosen, None);
            break;
        };
        let mut longest = gaining
            .iter()
            .filter(|&&i| now.batches()[i].length == longest);
        let i = *longest.next().unwrap();
        let b = now.batches()[i].clone();
        assert!(!b.started);
        let others: Vec<u32> = b.list.into_iter().filter(|&j| j != b.place).collect();
        let load = |j: u32| loads[j as usize - 1];
        let least = others.iter().map(|&j| load(j)).min().unwrap();
        let to = others.iter().filter(|&&j| load(j) == least).min().unwrap();
        assert_eq!(chosen, Some((i, *to)));
        let before = squares(&now);
        now.shift(i as u64 + 1, *to as u64).unwrap();
        moves += 1;
        moved.insert(i);
        assert!(squares(&now) + 2 <= before);
    }
    assert!(2 * moves <= start - squares(&now));
    assert!(now.finish() <= sheet.finish());
    assert!(permitted(sheet, &now.places()));
    assert_eq!(moves == 0, gaining(sheet).is_empty());
    let entries = sheet.batches().len() as u64;
    let mut after = sheet.clone();
    if entries > 0 {
        assert_eq!(settle(&mut after, entries - 1), Err(Refusal::Buffer));
        assert_eq!(&after, sheet);
    }
    let answer = settle(&mut after, entries).unwrap();
    assert_eq!((answer.moves, answer.finish), (moves, now.finish()));
    assert_eq!(after, now);
    record_laws(sheet, &after, &answer.records);
    Watched {
        after,
        returned: moved.len() - answer.records.len(),
        answer,
    }
}

#[test]
fn sheets_of_every_size() {
    let mut rng = Rng::new(51);
    let (mut moves, mut most, mut records, mut returned) = (0, 0, 0, 0);
    for round in 0..20_000 {
        let sheet = match round {
            0..600 => gen::sheet(&mut rng, *[gen::FULL, gen::LARGE].get(round % 2).unwrap()),
            600..5000 => gen::sheet(&mut rng, gen::MEDIUM),
            5000..6000 => chain(&mut rng),
            _ => gen::sheet(&mut rng, gen::SMALL),
        };
        review_laws(&sheet);
        let watched = settle_laws(&sheet);
        review_laws(&watched.after);
        moves += watched.answer.moves;
        most = most.max(watched.answer.moves);
        records += watched.answer.records.len();
        returned += watched.returned;
    }
    assert!(moves > 20_000 && most > 100, "{moves} {most}");
    assert!(records > 20_000 && returned > 100, "{records} {returned}");
}

#[test]
fn settled_means_no_single_move_helps() {
    let mut rng = Rng::new(42);
    for _ in 0..3000 {
        let sheet = gen::sheet(&mut rng, gen::SMALL);
        let mut helped = None;
        for number in (1..=sheet.batches().len()).rev() {
            let here = sheet.loads()[sheet.batches()[number - 1].place as usize - 1];
            for j in 1..=sheet.instruments() {
                let mut moved = sheet.clone();
                let made = moved.shift(number as u64, j as u64).is_ok();
                if made && moved.loads()[j as usize - 1] < here {
                    helped = Some(number);
                }
            }
        }
        assert_eq!(review(&sheet).gains, helped);
    }
}
