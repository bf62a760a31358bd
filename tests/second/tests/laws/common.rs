//! Sums, searches and sheets that the other modules share.

use second::rng::Rng;
use second::*;

/// May a batch be on this instrument: one of its list, and the one where it
/// stands if it has started?
pub fn may_be(batch: &Batch, instrument: u32) -> bool {
    let stays = !batch.started || instrument == batch.place;
    stays && batch.list.contains(&instrument)
}

/// The instruments that it may be on.
pub fn open(batch: &Batch) -> Vec<u32> {
    let listed = batch.list.iter().copied();
    listed.filter(|&j| may_be(batch, j)).collect()
}

/// What takes part in a trial: the batches, and each calibration above 0 as one
/// that may be on its own instrument alone.
pub fn items(sheet: &Sheet) -> Vec<Batch> {
    let own = |j: u32| Batch {
        length: sheet.calibrations()[j as usize - 1],
        list: vec![j],
        place: j,
        started: false,
    };
    let calibrations = (1..=sheet.instruments()).map(own);
    let batches = sheet.batches().iter().cloned();
    batches
        .chain(calibrations.filter(|b| b.length > 0))
        .collect()
}

/// The loads of `m` instruments with these items at these places, of which 0 is
/// none.
pub fn item_loads(m: u32, items: &[Batch], places: &[u32]) -> Vec<u32> {
    assert_eq!(items.len(), places.len());
    let of = |j| {
        let pairs = items.iter().zip(places);
        pairs.filter(|(_, p)| **p == j).map(|(b, _)| b.length).sum()
    };
    (1..=m).map(of).collect()
}

/// The loads with the batches at these places.
pub fn loads(sheet: &Sheet, places: &[u32]) -> Vec<u32> {
    let batches = item_loads(sheet.instruments(), sheet.batches(), places);
    let pairs = batches.iter().zip(sheet.calibrations());
    pairs.map(|(batches, own)| batches + own).collect()
}

/// The greatest length of a batch or a calibration.
pub fn longest(sheet: &Sheet) -> u32 {
    let lengths = sheet.batches().iter().map(|b| b.length);
    let all = lengths.chain(sheet.calibrations().iter().copied());
    all.max().unwrap()
}

/// The minutes of batches and calibrations that can be in the group alone.
pub fn confined(sheet: &Sheet, group: &[u32]) -> u32 {
    let inside = |b: &&Batch| open(b).iter().all(|j| group.contains(j));
    let batches = sheet.batches().iter().filter(inside).map(|b| b.length);
    let own = group.iter().map(|&j| sheet.calibrations()[j as usize - 1]);
    batches.chain(own).sum()
}

pub fn permitted(sheet: &Sheet, places: &[u32]) -> bool {
    let mut pairs = sheet.batches().iter().zip(places);
    places.len() == sheet.batches().len() && pairs.all(|(b, &p)| may_be(b, p))
}

/// The sheet with these places.
pub fn placed(sheet: &Sheet, places: &[u32]) -> Sheet {
    let mut draft = Draft::from(sheet);
    for (line, &place) in draft.lines.iter_mut().zip(places) {
        line.place = Some(place);
    }
    draft.sheet()
}

/// The records lead from the sheet to what became of it: they ascend, each says
/// where its batch was, and with all of them made, and no fewer, the sheet is
/// what it became.
pub fn record_laws(sheet: &Sheet, after: &Sheet, records: &[Move]) {
    assert!(records.is_sorted_by(|a, b| a.batch < b.batch));
    let mut made = sheet.clone();
    for record in records {
        let before = sheet.batches()[record.batch as usize - 1].place;
        assert_eq!(record.from, before);
        assert_ne!(record.to, before);
        made.shift(record.batch as u64, record.to as u64).unwrap();
    }
    assert_eq!(&made, after);
}

/// The earliest finish of any permitted plan, by going through all of them. They
/// leave started batches where they are.
pub fn optimum(sheet: &Sheet) -> u32 {
    fn least(sheet: &Sheet, places: &mut Vec<u32>) -> u32 {
        let Some(batch) = sheet.batches().get(places.len()) else {
            return *loads(sheet, places).iter().max().unwrap();
        };
        let mut found = u32::MAX;
        for j in open(batch) {
            places.push(j);
            found = found.min(least(sheet, places));
            places.pop();
        }
        found
    }
    least(sheet, &mut Vec::new())
}

/// Levels worth trying: all of them if they are few.
pub fn levels(rng: &mut Rng, sheet: &Sheet, few: u64) -> Vec<u64> {
    let total = sheet.total() as u64;
    if total <= few {
        return (0..=total).collect();
    }
    let finish = sheet.finish() as u64;
    let average = total / sheet.instruments() as u64;
    let mut levels = vec![0, 1, finish - 1, finish, total];
    levels.extend((0..few / 4).map(|_| rng.below(finish)));
    levels.extend((0..few / 4).map(|_| (average * 2 / 3 + rng.below(average / 2 + 2)).min(total)));
    levels
}

/// Many instruments, few ways out: the sheets on which heights climb.
pub fn chain(rng: &mut Rng) -> Sheet {
    let m = rng.within(3, 16);
    let mut lines = Vec::new();
    for j in 1..=m {
        for _ in 0..rng.within(0, 6) {
            let next = if j == m { 1 } else { j + 1 };
            let list = match rng.below(4) {
                0 => vec![j],
                1 if rng.once_in(3) => gen::list(rng, m, 2),
                _ => vec![j.min(next), j.max(next)],
            };
            lines.push(Line {
                length: rng.within(1, 12),
                place: Some(*rng.pick(&list)),
                mark: 0,
                list,
            });
        }
    }
    rng.shuffle(&mut lines);
    gen::start(rng, &mut lines);
    let draft = Draft {
        instruments: m,
        calibrations: gen::calibrations(rng, m, 12),
        lines,
    };
    draft.sheet()
}

/// The levels that balancing tries, with their answers: both ends of the gap
/// and what each trial found.
pub fn halving(sheet: &Sheet) -> Vec<(u32, Trial)> {
    let mut tried = Vec::new();
    let (mut failed, mut passed) = (-1i64, sheet.finish() as i64);
    while passed - failed > 1 {
        let level = (failed + passed).div_euclid(2);
        let answer = trial(sheet, level as u64).unwrap();
        match answer.verdict {
            Verdict::Pass(_) => passed = level,
            Verdict::Fail(_) => failed = level,
        }
        tried.push((level as u32, answer));
    }
    tried
}

pub fn step_bounds(sheet: &Sheet, raises: u32, bumps: u32) {
    let calibrations = sheet.calibrations().iter().filter(|&&c| c > 0).count() as u32;
    let listed: usize = sheet.batches().iter().map(|b| open(b).len()).sum();
    let (m, n) = (sheet.instruments(), sheet.batches().len() as u32);
    assert!(raises <= m * (2 * m + 1) + (n + calibrations) * (2 * m + 2));
    assert!(bumps <= (4 * m + 4) * (listed as u32 + calibrations));
}
