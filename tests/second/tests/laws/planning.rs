//! Planning: balance, its search done again trial by trial, its bounds, and
//! settling straight after it.

use second::rng::Rng;
use second::*;

use crate::common::{chain, confined, halving, longest, optimum, permitted, placed, record_laws};
use crate::settling::{review_laws, settle_laws, Watched};

/// Check a balancing of this sheet; gives what it comes to.
pub fn balance_laws(sheet: &Sheet) -> (Sheet, Balanced) {
    let longest = longest(sheet);
    assert_eq!(sheet.longest(), longest);
    let old = sheet.finish();
    let entries = sheet.batches().len() as u64;
    let mut after = sheet.clone();
    if entries > 0 {
        assert_eq!(balance(&mut after, entries - 1), Err(Refusal::Buffer));
        assert_eq!(&after, sheet);
    }
    let answer = balance(&mut after, entries).unwrap();

    // The last trials that passed and failed.
    let (mut level, mut places) = (old, sheet.places());
    let (mut counts, mut failed) = ((0, 0), None);
    for (tried, answer) in halving(sheet) {
        match answer.verdict {
            Verdict::Pass(reached) => {
                (level, places) = (tried, reached);
                counts = (answer.raises, answer.bumps);
            }
            Verdict::Fail(group) => failed = Some((tried, group)),
        }
    }
    assert_eq!(answer.level, level);
    assert_eq!((answer.raises, answer.bumps), counts);
    assert!(permitted(sheet, &places));
    assert_eq!(after, placed(sheet, &places));
    record_laws(sheet, &after, &answer.records);
    assert_eq!(answer.finish, after.finish());
    assert!(answer.finish <= old);
    assert_eq!(
        answer.group,
        failed.as_ref().map(|(_, group)| group.clone())
    );

    if sheet.batches().is_empty() {
        let numbers = (answer.finish, answer.floor, answer.level);
        assert_eq!(numbers, (longest, longest, 0));
        assert_eq!((answer.raises, answer.bumps), (0, 0));
        assert_eq!(answer.group, None);
    }
    if longest == 0 {
        return (after, answer);
    }
    // The level one below the standing finish passes, so some trial does.
    assert!(answer.level < old);
    assert!(answer.finish <= answer.level + longest);
    match failed {
        Some((f, group)) => {
            assert_eq!(f + 1, answer.level);
            let share = confined(sheet, &group).div_ceil(group.len() as u32);
            assert_eq!(answer.floor, longest.max(share));
            assert!(answer.finish < answer.floor + longest);
        }
        None => {
            assert_eq!(answer.level, 0);
            assert_eq!((answer.finish, answer.floor), (longest, longest));
        }
    }
    (after, answer)
}

/// Check a planning of this sheet, the two calls one after the other; gives what
/// it comes to.
pub fn plan_laws(sheet: &Sheet) -> (Sheet, Balanced, Settled) {
    let (middle, balanced) = balance_laws(sheet);
    let Watched { after, answer, .. } = settle_laws(&middle);
    assert!(answer.finish <= balanced.finish);
    review_laws(&after);
    assert_eq!(review(&after).gains, None);
    let mut planned = sheet.clone();
    let both = Plan {
        finish: answer.finish,
        floor: balanced.floor,
        group: balanced.group.clone(),
        level: balanced.level,
        raises: balanced.raises,
        bumps: balanced.bumps,
        moves: answer.moves,
    };
    assert_eq!(plan(&mut planned), both);
    assert_eq!(planned, after);
    (after, balanced, answer)
}

/// The bounds on the best finish, which was found by going through all plans.
/// Settling keeps them.
fn bounds(sheet: &Sheet, balanced: &Balanced, settled: &Settled, optimum: u32) {
    assert!(balanced.floor <= optimum && optimum <= settled.finish);
    assert!(sheet.total() == 0 || balanced.finish < optimum + longest(sheet));
}

fn started(sheet: &Sheet) -> usize {
    sheet.batches().iter().filter(|b| b.started).count()
}

#[test]
fn small_sheets() {
    let mut rng = Rng::new(52);
    let (mut grouped, mut later, mut settling) = (0, 0, 0);
    let (mut calibrated, mut no_batch) = (0, 0);
    let (mut some, mut all, mut held) = (0, 0, 0);
    for _ in 0..20_000 {
        let sheet = gen::sheet(&mut rng, gen::SMALL);
        let (after, balanced, settled) = plan_laws(&sheet);
        let above_0 = sheet.calibrations().iter().any(|&c| c > 0);
        calibrated += above_0 as u32;
        no_batch += (above_0 && sheet.batches().is_empty()) as u32;
        let (begun, n) = (started(&sheet), sheet.batches().len());
        some += (0 < begun && begun < n) as u32;
        all += (n > 0 && begun == n) as u32;
        held += review(&Draft::from(&sheet).waiting().sheet())
            .gains
            .is_some_and(|number| sheet.batches()[number - 1].started) as u32;
        let optimum = optimum(&sheet);
        bounds(&sheet, &balanced, &settled, optimum);
        grouped += balanced.group.is_some() as u32;
        later += (settled.finish > optimum) as u32;
        settling += (settled.finish < balanced.finish) as u32;
        // What was planned can be planned again, and is not made worse.
        let (_, balanced, settled) = plan_laws(&after);
        bounds(&after, &balanced, &settled, optimum);
    }
    let counts = [
        grouped, later, settling, calibrated, no_batch, some, all, held,
    ];
    assert!(counts.into_iter().all(|count| count > 300), "{counts:?}");
    assert!(
        grouped > 2000 && calibrated > 8000,
        "{grouped} {calibrated}"
    );
}

#[test]
fn medium_sheets_and_chains() {
    let mut rng = Rng::new(53);
    for _ in 0..3000 {
        plan_laws(&gen::sheet(&mut rng, gen::MEDIUM));
    }
    for _ in 0..500 {
        plan_laws(&chain(&mut rng));
    }
}

#[test]
fn larger_sheets() {
    let mut rng = Rng::new(43);
    for _ in 0..720 {
        let shape = *rng.pick(&[gen::MEDIUM, gen::FULL, gen::LARGE]);
        plan_laws(&gen::sheet(&mut rng, shape));
    }
}
