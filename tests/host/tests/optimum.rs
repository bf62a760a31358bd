//! What balance, settle and a listing promise, checked on their own numbers: by
//! going through all plans of small sheets, and without the second planner.

use host::filed::{made, Made};
use host::listing::{Listing, MOST};
use host::{balance, plan, settle, Balanced, Settled};
use second::gen::{self, Shape};
use second::rng::Rng;
use second::{Draft, Line};

fn listing(draft: &Draft) -> Listing {
    let mut buffer = vec![0; MOST];
    let hosted = plan(&draft.render(), &mut buffer);
    assert_eq!((hosted.refusal, hosted.line), (0, 0), "{draft:?}");
    Listing::parse(&buffer[..hosted.length as usize]).expect("a listing in its columns")
}

/// Where a batch may be: on its list, or on its place alone if it has started.
fn open(line: &Line) -> &[u32] {
    match line.started() {
        true => line.place.as_slice(),
        false => &line.list,
    }
}

/// The earliest finish of any permitted plan that calibrates as the sheet does and
/// leaves started batches put.
fn optimum(draft: &Draft) -> u32 {
    least_finish(draft, 0, &mut calibrations(draft))
}

/// That of any plan at all on the lists, wherever batches have started.
fn optimum_of_all(draft: &Draft) -> u32 {
    optimum(&draft.clone().waiting())
}

/// With the first batches placed already, which makes these loads.
fn least_finish(draft: &Draft, placed: usize, loads: &mut [u32; 25]) -> u32 {
    let Some(line) = draft.lines.get(placed) else {
        return *loads.iter().max().unwrap();
    };
    let mut least = u32::MAX;
    for &j in open(line) {
        loads[j as usize] += line.length;
        least = least.min(least_finish(draft, placed + 1, loads));
        loads[j as usize] -= line.length;
    }
    least
}

/// Where a batch stands, by its index.
fn place(draft: &Draft, i: usize) -> u32 {
    let line = &draft.lines[i];
    line.given().unwrap_or(line.list[0])
}

/// The loads without a batch, by instrument number.
fn calibrations(draft: &Draft) -> [u32; 25] {
    let mut loads = [0; 25];
    loads[1..=draft.calibrations.len()].copy_from_slice(&draft.calibrations);
    loads
}

/// Loads by instrument number.
fn loads(draft: &Draft) -> [u32; 25] {
    let mut loads = calibrations(draft);
    for (i, line) in draft.lines.iter().enumerate() {
        loads[place(draft, i) as usize] += line.length;
    }
    loads
}

/// The finish of the plan that the sheet has.
fn standing(draft: &Draft) -> u32 {
    *loads(draft).iter().max().unwrap()
}

/// Does some batch gain?
fn gains(draft: &Draft) -> bool {
    let loads = loads(draft);
    let mut batches = draft.lines.iter().enumerate();
    batches.any(|(i, line)| {
        let here = place(draft, i);
        let mut others = open(line).iter().filter(|&&j| j != here);
        others.any(|&j| loads[j as usize] + line.length < loads[here as usize])
    })
}

/// Lengths of batches, and of calibrations, which are 0 where there is none.
fn lengths(draft: &Draft) -> impl Iterator<Item = u32> + '_ {
    let batches = draft.lines.iter().map(|line| line.length);
    batches.chain(draft.calibrations.iter().copied())
}

fn longest(draft: &Draft) -> u32 {
    lengths(draft).max().unwrap()
}

/// The greatest number of which all of these are multiples.
fn divisor(lengths: impl Iterator<Item = u32>) -> u32 {
    lengths.fold(0, |mut a, mut b| {
        while b > 0 {
            (a, b) = (b, a % b);
        }
        a
    })
}

/// The sheet that the records lead to, which is the one written.
fn led<A>(draft: &Draft, made: &Made<A>) -> Draft {
    let mut left = draft.clone();
    for i in 0..left.lines.len() {
        left.lines[i].place = Some(place(draft, i));
    }
    assert!(made.records.is_sorted_by(|a, b| a.batch < b.batch));
    for record in &made.records {
        let line = &mut left.lines[record.batch as usize - 1];
        assert_eq!(line.place, Some(record.from));
        assert_ne!(record.from, record.to);
        assert!(!line.started(), "a started batch moves");
        assert!(line.list.contains(&record.to), "a permitted plan");
        line.place = Some(record.to);
    }
    assert_eq!(left.render(), made.written, "{draft:?}");
    left
}

/// What holds of any balance, small or not; gives the sheet that is left.
fn balance_laws(draft: &Draft) -> (Balanced, Draft) {
    let made = made(&draft.render(), balance);
    let after = led(draft, &made);
    let answer = made.answer;
    assert_eq!(answer.finish, standing(&after));
    assert!(answer.finish <= standing(draft));

    let longest = longest(draft);
    let group: Vec<u32> = answer.group.iter().map(|&j| j as u32).collect();
    let (group, rest) = group.split_at(answer.size);
    assert!(group.is_sorted_by(|a, b| a < b) && rest.iter().all(|&j| j == 0));
    assert!(group.iter().all(|j| (1..=draft.instruments).contains(j)));
    let inside = |list: &[u32]| list.iter().all(|j| group.contains(j));
    let confined = draft.lines.iter().filter(|line| inside(open(line)));
    let batches: u32 = confined.map(|line| line.length).sum();
    let own = calibrations(draft);
    let minutes = batches + group.iter().map(|&j| own[j as usize]).sum::<u32>();
    match group.len() as u32 {
        0 => assert_eq!((answer.floor, answer.level), (longest, 0)),
        size => assert_eq!(answer.floor, longest.max(minutes.div_ceil(size))),
    }
    assert!(answer.finish <= answer.level + longest);
    if longest > 0 {
        assert!(answer.finish < answer.floor + longest);
    }
    (answer, after)
}

/// What holds of any settling; gives the sheet that is left.
fn settle_laws(draft: &Draft) -> (Settled, Draft) {
    let made = made(&draft.render(), settle);
    let after = led(draft, &made);
    let answer = made.answer;
    assert_eq!(answer.finish, standing(&after));
    assert!(answer.finish <= standing(draft));
    assert!(!gains(&after), "settled");
    assert_eq!(answer.moves > 0, gains(draft));
    assert!(answer.moves >= made.records.len() as u64);
    (answer, after)
}

/// Balance and settle one after the other; a listing has what they have.
fn plan_laws(draft: &Draft) -> (Balanced, Settled) {
    let (balanced, middle) = balance_laws(draft);
    let (settled, after) = settle_laws(&middle);
    let batches = after.lines.iter().enumerate();
    let line = |(i, line): (usize, &Line)| [i as u32 + 1, place(&after, i), line.length];
    let both = Listing {
        finish: settled.finish,
        floor: balanced.floor,
        level: balanced.level,
        raises: balanced.raises,
        bumps: balanced.bumps,
        moves: settled.moves,
        group: balanced.group[..balanced.size]
            .iter()
            .map(|&j| j as u32)
            .collect(),
        batches: batches.map(line).collect(),
    };
    assert_eq!(listing(draft), both);
    (balanced, settled)
}

/// A sheet with few plans against all of them, balanced as it is and once more
/// after settling; gives what planning comes to and the earliest finish of any.
fn compared(draft: &Draft) -> (Balanced, Settled, u32) {
    let (balanced, settled) = plan_laws(draft);
    let (_, rested) = settle_laws(draft);
    let (later, _) = balance_laws(&rested);
    let optimum = optimum(draft);
    assert!(optimum <= settled.finish && settled.finish <= balanced.finish);
    for answer in [balanced, later] {
        assert!(answer.floor <= optimum && optimum <= answer.finish);
        if longest(draft) > 0 {
            // Above the best by at most the longest less g, for every g of
            // which all lengths are multiples: so for the greatest one.
            let latest = optimum + longest(draft) - divisor(lengths(draft));
            assert!(answer.finish <= latest, "{draft:?}");
        }
    }
    (balanced, settled, optimum)
}

#[test]
fn small_sheets() {
    let mut rng = Rng::new(51);
    let (mut best, mut later, mut tight, mut loose, mut empty) = (0, 0, 0, 0, 0);
    let (mut settling, mut calibrated, mut only) = (0, 0, 0);
    let (mut started, mut kept_from, mut beyond) = (0, 0, 0);
    for round in 0..20_000 {
        let shape = Shape {
            instruments: (1, 4),
            batches: (0, 7),
            lengths: [(1, 9), (1, 60), (1, 1440)][round % 3],
            calibrations: [9, 60, 240][round % 3],
            started: true,
        };
        let draft = gen::draft(&mut rng, shape);
        let (balanced, settled, optimum) = compared(&draft);
        let above_0 = draft.calibrations.iter().any(|&c| c > 0);
        calibrated += above_0 as usize;
        if draft.lines.is_empty() {
            let most = draft.calibrations.iter().copied().max().unwrap();
            assert_eq!((balanced.finish, balanced.floor), (most, most));
            assert_eq!((balanced.level, balanced.size), (0, 0));
            assert_eq!((balanced.raises, balanced.bumps), (0, 0));
            empty += 1;
            only += above_0 as usize;
            continue;
        }
        match balanced.finish == optimum {
            true => best += 1,
            false => later += 1,
        }
        match balanced.floor == optimum {
            true => tight += 1,
            false => loose += 1,
        }
        settling += (settled.finish < balanced.finish) as usize;
        if draft.lines.iter().any(Line::started) {
            started += 1;
            // Plans that move started batches may be better, and then they are no
            // measure: even the floor may be above them.
            let free = optimum_of_all(&draft);
            kept_from += (free < optimum) as usize;
            beyond += (free < balanced.floor) as usize;
        }
    }
    println!(
        "finish: {best} best, {later} later, {settling} earlier by settling; floor: {tight} \
         tight, {loose} not; {empty} empty, {only} of them with calibrations; {calibrated} with \
         calibrations; {started} with started batches, {kept_from} kept from a better plan, \
         {beyond} with a floor above that"
    );
    let counts = [best, later, settling, tight, loose, empty, only];
    assert!(counts.into_iter().all(|count| count >= 200), "{counts:?}");
    assert!(calibrated >= 8_000 && started >= 8_000);
    assert!(kept_from >= 1_700 && beyond >= 1_200);
}

/// Lengths that are multiples of one number: how often balance is as late as the
/// bound for that number allows, and settling leaves it so.
#[test]
fn round_lengths() {
    let mut rng = Rng::new(53);
    for step in [2, 3, 5, 15] {
        let (mut reached, mut kept, mut earlier) = (0, 0, 0);
        let (mut calibrated, mut started) = (0, 0);
        for round in 0..10_000 {
            let shape = Shape {
                instruments: (2, 4),
                batches: (2, 6),
                lengths: (1, [2, 2, 3, 1440 / step][round % 4]),
                calibrations: [2, 2, 3, 240 / step][round % 4],
                started: round % 3 > 0,
            };
            let mut draft = gen::draft(&mut rng, shape);
            draft.lines.iter_mut().for_each(|line| line.length *= step);
            draft.calibrations.iter_mut().for_each(|c| *c *= step);
            let (balanced, settled, optimum) = compared(&draft);
            match longest(&draft) - step {
                // Equal lengths, which have a test of their own.
                0 => (),
                most if balanced.finish == optimum + most => {
                    reached += 1;
                    kept += (settled.finish == balanced.finish) as usize;
                    calibrated += draft.calibrations.iter().any(|&c| c > 0) as usize;
                    started += draft.lines.iter().any(Line::started) as usize;
                }
                _ => earlier += 1,
            }
        }
        println!(
            "multiples of {step}: the bound reached {reached} times, {kept} after settling too, \
             {calibrated} with calibrations, {started} with started batches, not {earlier} times"
        );
        assert!(reached >= 50 && kept >= 50 && earlier >= 1_000 && calibrated >= 20);
        assert!(started >= 43);
    }
}

/// Equal lengths: the plan is a best one, also where the floor is below it. In
/// every second sheet some calibrations have that length too.
#[test]
fn equal_lengths() {
    let mut rng = Rng::new(54);
    let (mut below, mut improved, mut started) = ([0; 2], [0; 2], [0; 2]);
    for round in 0..16_000 {
        let calibrated = round % 2;
        let length = rng.within(1, [1440, 240][calibrated]);
        let shape = Shape {
            instruments: (1, 4),
            batches: (1, 7),
            lengths: (length, length),
            calibrations: 0,
            started: round % 4 < 2,
        };
        let mut draft = gen::draft(&mut rng, shape);
        if calibrated == 1 {
            let own = |minutes: &mut u32| *minutes = *rng.pick(&[0, length]);
            draft.calibrations.iter_mut().for_each(own);
        }
        let (balanced, settled, optimum) = compared(&draft);
        assert_eq!((balanced.finish, settled.finish), (optimum, optimum));
        below[calibrated] += (balanced.floor < optimum) as usize;
        let better = optimum < standing(&draft);
        improved[calibrated] += better as usize;
        started[calibrated] += (better && draft.lines.iter().any(Line::started)) as usize;
    }
    println!(
        "equal lengths, without and with calibrations: all best, {improved:?} improved, {started:?} \
         of them with started batches, {below:?} with a floor below"
    );
    assert!(below.into_iter().all(|count| count >= 1_000));
    assert!(improved.into_iter().all(|count| count >= 1_000));
    assert!(started.into_iter().all(|count| count >= 300));
}

/// Calibrations count among the lengths: the bounds that the batches alone would
/// have do not hold, while those with the calibrations do.
#[test]
fn calibrations_count_in_the_bounds() {
    let mut rng = Rng::new(55);
    let (mut not_best, mut longer) = (0, 0);
    for round in 0..20_000 {
        let shape = Shape {
            instruments: (2, 4),
            batches: (2, 6),
            lengths: (1, [1, 3][round % 2]),
            calibrations: 15,
            started: round % 4 < 2,
        };
        let mut draft = gen::draft(&mut rng, shape);
        let step = rng.within(1, 6);
        draft.lines.iter_mut().for_each(|line| line.length *= step);
        let (balanced, _, optimum) = compared(&draft);
        let batches = || draft.lines.iter().map(|line| line.length);
        let most = batches().max().unwrap();
        not_best += (batches().all(|length| length == most) && balanced.finish > optimum) as usize;
        longer += (balanced.finish >= optimum + most) as usize;
    }
    println!(
        "{not_best} plans of batches equally long are no best ones, {longer} are later than the \
         best by the longest batch or more"
    );
    assert!(not_best >= 500 && longer >= 500);
}

#[test]
fn larger_sheets() {
    let mut rng = Rng::new(52);
    let (mut grouped, mut moved, mut alone) = (0, 0, 0);
    for _ in 0..1_500 {
        let shape = *rng.pick(&[gen::MEDIUM, gen::FULL, gen::LARGE]);
        let draft = gen::draft(&mut rng, shape);
        let (balanced, settled) = plan_laws(&draft);
        let (rested, _) = settle_laws(&draft);
        grouped += (balanced.size > 0) as usize;
        moved += (settled.moves > 0) as usize;
        alone += (rested.moves > 0) as usize;
    }
    println!("{grouped} with a group, {moved} with settling moves, {alone} if settled alone");
    assert!(grouped >= 500 && moved >= 100 && alone >= 500);
}
