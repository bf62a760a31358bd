//! Sheets at the limits on which trials make very many steps.

use second::*;

use crate::common::{confined, halving, longest, record_laws, step_bounds};
use crate::settling::settle_laws;
use crate::watch::watch;

fn steps(trial: &Trial) -> u32 {
    trial.raises + trial.bumps
}

#[test]
fn many_steps_within_the_bounds() {
    // With the least number of steps of the longest trial, and of all.
    let plain = (0..10).map(|seed| (seed, gen::hard(seed), [200_000, 600_000]));
    let started = (24..26).map(|seed| (seed, gen::hard_started(seed), [200_000, 600_000]));
    let calibrated = (0..4).map(|seed| (seed, gen::hard_calibrated(seed), [200_000, 250_000]));
    for (seed, sheet, least) in plain.chain(started).chain(calibrated) {
        assert_eq!((sheet.instruments(), sheet.batches().len()), (24, 200));
        let tried = halving(&sheet);
        for (level, answer) in &tried {
            step_bounds(&sheet, answer.raises, answer.bumps);
            if let Verdict::Fail(group) = &answer.verdict {
                let size = group.len() as u32;
                assert!(confined(&sheet, group) >= size * (level + 1) + longest(&sheet));
            }
        }
        let most = tried.iter().map(|(_, t)| steps(t)).max().unwrap();
        let sum: u32 = tried.iter().map(|(_, t)| steps(t)).sum();
        assert!(most > least[0] && sum > least[1], "{seed}: {most} {sum}");

        let mut balanced = sheet.clone();
        let answer = balance(&mut balanced, 200).unwrap();
        let passes = |t: &&(u32, Trial)| matches!(t.1.verdict, Verdict::Pass(_));
        let kept = tried.iter().rev().find(passes).unwrap();
        assert_eq!(
            (answer.level, answer.raises, answer.bumps),
            (kept.0, kept.1.raises, kept.1.bumps)
        );
        assert!(answer.finish <= sheet.finish());
        assert!(answer.finish < answer.floor + longest(&sheet));
        record_laws(&sheet, &balanced, &answer.records);
        let settled = settle_laws(&balanced);
        assert!(settled.answer.finish <= answer.finish);
        assert_eq!(review(&settled.after).gains, None);
    }
}

#[test]
fn a_long_trial_step_by_step() {
    for (sheet, returned, reseated) in [
        (gen::hard(1), 0, 0),
        (gen::hard_calibrated(1), 400, 0),
        (gen::hard_started(1), 0, 400),
    ] {
        let tried = halving(&sheet);
        let (level, answer) = tried.iter().max_by_key(|(_, t)| steps(t)).unwrap();
        let watched = watch(&sheet, *level as u64, 97);
        assert_eq!(&watched.answer, answer);
        assert!(watched.returned >= returned, "{}", watched.returned);
        assert!(watched.reseated >= reseated, "{}", watched.reseated);
    }
}

/// Batches that may run elsewhere but have started are as those that may not.
#[test]
fn started_for_confined() {
    for seed in 0..2 {
        let (mut sheet, mut other) = (gen::hard(seed), gen::hard_started(seed));
        assert_eq!(halving(&sheet), halving(&other));
        assert_eq!(plan(&mut sheet), plan(&mut other));
        assert_eq!(sheet.places(), other.places());
    }
}
