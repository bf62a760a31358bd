//! Trials: every act, and what a pass and a failure show.

use second::rng::Rng;
use second::*;

use crate::common::{chain, confined, levels, loads, longest, open, optimum};
use crate::watch::{watch, Watched};

/// What a trial's answer shows, whatever its acts were.
fn answer_laws(sheet: &Sheet, level: u64, watched: &Watched) {
    let (level, longest) = (level as u32, longest(sheet));
    match &watched.answer.verdict {
        Verdict::Pass(places) => {
            assert!(loads(sheet, places).iter().all(|&l| l <= level + longest));
        }
        // Spread evenly, the group's confined minutes exceed the level.
        Verdict::Fail(group) => {
            let size = group.len() as u32;
            assert_eq!(sheet.confined(group), confined(sheet, group));
            assert!(confined(sheet, group) >= size * (level + 1) + longest);
        }
    }
}

/// Is the set closed: may no batch placed inside leave it?
fn closed(sheet: &Sheet, places: &[u32], set: u32) -> bool {
    let holds = |j: &u32| set >> (j - 1) & 1 == 1;
    let pairs = sheet.batches().iter().zip(places);
    let mut inside = pairs.filter(|(_, p)| holds(p));
    inside.all(|(b, _)| open(b).iter().all(holds))
}

/// The same group by going through all sets of instruments, and the
/// certificate by going through all plans.
fn failure_laws(sheet: &Sheet, level: u64, watched: &Watched, optimum: u32) {
    let Verdict::Fail(group) = &watched.answer.verdict else {
        return;
    };
    assert!(optimum as u64 >= level + 2);
    let loads = loads(sheet, &watched.places);
    if loads.iter().all(|&l| l as u64 > level) {
        assert_eq!(group.len(), loads.len());
        return;
    }
    let most = level + longest(sheet) as u64;
    let first = loads.iter().position(|&l| l as u64 > most).unwrap();
    let sets = (0..1u32 << loads.len()).filter(|set| set >> first & 1 == 1);
    let least = sets
        .filter(|&set| closed(sheet, &watched.places, set))
        .min_by_key(|set| set.count_ones());
    let set = group.iter().map(|j| 1 << (j - 1)).sum();
    assert_eq!(least, Some(set));
}

#[test]
fn small_sheets() {
    let mut rng = Rng::new(41);
    let (mut failures, mut partial, mut acts) = (0, 0, 0);
    let (mut returned, mut reseated) = (0, 0);
    for _ in 0..20_000 {
        let sheet = gen::sheet(&mut rng, gen::SMALL);
        let optimum = optimum(&sheet);
        for level in 0..=sheet.total() as u64 {
            let watched = watch(&sheet, level, 1);
            answer_laws(&sheet, level, &watched);
            failure_laws(&sheet, level, &watched, optimum);
            acts += watched.answer.raises + watched.answer.bumps;
            returned += watched.returned;
            reseated += watched.reseated;
            if let Verdict::Fail(group) = watched.answer.verdict {
                failures += 1;
                partial += (group.len() < sheet.instruments() as usize) as u32;
            }
        }
    }
    // Both kinds of group are met often.
    assert!(failures > 2000 && partial > 500, "{failures} {partial}");
    assert!(acts > 100_000 && returned > 2000, "{acts} {returned}");
    assert!(reseated > 2000, "{reseated}");
}

fn watched_at(rng: &mut Rng, sheet: &Sheet, few: u64, every: u32) {
    for level in levels(rng, sheet, few) {
        let watched = watch(sheet, level, every);
        answer_laws(sheet, level, &watched);
    }
}

#[test]
fn medium_sheets() {
    let mut rng = Rng::new(22);
    for _ in 0..3000 {
        let sheet = gen::sheet(&mut rng, gen::MEDIUM);
        watched_at(&mut rng, &sheet, 24, 1);
    }
}

#[test]
fn sheets_of_any_size() {
    let mut rng = Rng::new(23);
    for round in 0..200 {
        let shape = [gen::FULL, gen::FULL, gen::LARGE][round % 3];
        let sheet = gen::sheet(&mut rng, shape);
        watched_at(&mut rng, &sheet, 8, 61);
    }
}

#[test]
fn chains() {
    let mut rng = Rng::new(24);
    for _ in 0..500 {
        let sheet = chain(&mut rng);
        watched_at(&mut rng, &sheet, 40, 11);
    }
}
