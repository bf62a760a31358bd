//! Planners that are right but for what they make of calibrations (document 02,
//! C-16) or of started batches (C-17): each of them must be told from a right one.

use second::trial::State;
use second::{Answer, Balanced, Batch, Call, Draft, Move, Refusal, Settled, Sheet, Trial, Verdict};

/// What a planner takes a calibration above 0 for, and a started batch.
#[derive(Clone, Copy, Debug)]
pub struct Ways {
    /// Its minutes are in the loads, may be the longest, and are in the total and
    /// among those confined.
    pub loads: bool,
    pub longest: bool,
    pub total: bool,
    pub confined: bool,
    /// A trial may bump it.
    pub bumped: bool,
    /// Its number comes before those of the batches.
    pub first: bool,
    /// It may be on any instrument.
    pub anywhere: bool,
    /// One of 0 counts as well.
    pub zero: bool,
    /// It is among the places of a passed trial.
    pub placed: bool,
    /// It is one of the 200 batches, and one for which an entry is lent.
    pub full: bool,
    pub entries: bool,
    /// A started batch: a trial may put it elsewhere on its list, or may not even
    /// bump it.
    pub leaves: bool,
    pub frozen: bool,
    /// It gains by its list, is confined by it, and adds it to a trial's group.
    pub gains: bool,
    pub wide: bool,
    pub reaches: bool,
}

const RIGHT: Ways = Ways {
    loads: true,
    longest: true,
    total: true,
    confined: true,
    bumped: true,
    first: false,
    anywhere: false,
    zero: false,
    placed: false,
    full: false,
    entries: false,
    leaves: false,
    frozen: false,
    gains: false,
    wide: false,
    reaches: false,
};

/// The right way, and wrong ones.
pub const WAYS: [(&str, Ways); 17] = [
    ("counts calibrations as it should", RIGHT),
    (
        "leaves calibrations out of the loads",
        Ways {
            loads: false,
            ..RIGHT
        },
    ),
    (
        "leaves calibrations out of the longest",
        Ways {
            longest: false,
            ..RIGHT
        },
    ),
    (
        "leaves calibrations out of the total",
        Ways {
            total: false,
            ..RIGHT
        },
    ),
    (
        "leaves calibrations out of what is confined",
        Ways {
            confined: false,
            ..RIGHT
        },
    ),
    (
        "never bumps a calibration",
        Ways {
            bumped: false,
            ..RIGHT
        },
    ),
    (
        "numbers calibrations before the batches",
        Ways {
            first: true,
            ..RIGHT
        },
    ),
    (
        "lets calibrations go anywhere",
        Ways {
            anywhere: true,
            ..RIGHT
        },
    ),
    (
        "counts calibrations of 0",
        Ways {
            zero: true,
            ..RIGHT
        },
    ),
    (
        "lets a trial move started batches",
        Ways {
            leaves: true,
            ..RIGHT
        },
    ),
    (
        "never bumps a started batch",
        Ways {
            frozen: true,
            ..RIGHT
        },
    ),
    (
        "lets a started batch gain",
        Ways {
            gains: true,
            ..RIGHT
        },
    ),
    (
        "takes the lists of started batches for the floor",
        Ways {
            wide: true,
            ..RIGHT
        },
    ),
    (
        "takes the lists of started batches for the group",
        Ways {
            reaches: true,
            ..RIGHT
        },
    ),
    (
        "gives the places of calibrations",
        Ways {
            placed: true,
            ..RIGHT
        },
    ),
    (
        "counts calibrations among the 200 batches",
        Ways {
            full: true,
            ..RIGHT
        },
    ),
    (
        "wants an entry for each calibration",
        Ways {
            entries: true,
            ..RIGHT
        },
    ),
];

/// How many calibrations are above 0.
pub fn calibrated(sheet: &Sheet) -> usize {
    sheet.calibrations().iter().filter(|&&c| c > 0).count()
}

/// The sheet without calibrations.
fn bare(sheet: &Sheet) -> Sheet {
    let none = vec![0; sheet.instruments() as usize];
    Draft::from(sheet).calibrated(&none).sheet()
}

/// The sheet with no batch started.
fn waiting(sheet: &Sheet) -> Sheet {
    Draft::from(sheet).waiting().sheet()
}

/// The sheet that counts for loads.
fn loaded(sheet: &Sheet, ways: Ways) -> Sheet {
    match ways.loads {
        true => sheet.clone(),
        false => bare(sheet),
    }
}

/// The sheet that counts for gains.
fn gaining(sheet: &Sheet, ways: Ways) -> Sheet {
    match ways.gains {
        true => waiting(&loaded(sheet, ways)),
        false => loaded(sheet, ways),
    }
}

fn longest(sheet: &Sheet, ways: Ways) -> u32 {
    match ways.longest {
        true => sheet.longest(),
        false => bare(sheet).longest(),
    }
}

/// Put the batches of a sheet at these places.
fn place(sheet: &mut Sheet, places: &[u32]) {
    let mut draft = Draft::from(&*sheet);
    for (line, &place) in draft.lines.iter_mut().zip(places) {
        line.place = Some(place);
    }
    *sheet = draft.sheet();
}

fn records(before: &[u32], after: &Sheet) -> Vec<Move> {
    let places = before.iter().copied().zip(after.places());
    let differ = places.zip(1..).filter(|((from, to), _)| from != to);
    differ
        .map(|((from, to), batch)| Move { batch, from, to })
        .collect()
}

/// The batch, not started.
fn opened(batch: Batch) -> Batch {
    Batch {
        started: false,
        ..batch
    }
}

/// A trial at a level that is not refused.
fn trial(sheet: &Sheet, level: u32, ways: Ways) -> Trial {
    let all: Vec<u32> = (1..=sheet.instruments()).collect();
    let own = sheet
        .calibrations()
        .iter()
        .zip(1..)
        .map(|(&length, j)| Batch {
            length,
            list: if ways.anywhere { all.clone() } else { vec![j] },
            place: j,
            started: false,
        });
    let own: Vec<Batch> = match ways.bumped && ways.loads {
        true => own.filter(|b| b.length > 0 || ways.zero).collect(),
        false => Vec::new(),
    };
    let mut batches = match ways.leaves {
        true => waiting(sheet).batches().to_vec(),
        false => sheet.batches().to_vec(),
    };
    if ways.frozen {
        batches.retain(|b| !b.started);
    }
    let n = batches.len();
    let skipped = if ways.first { own.len() } else { 0 };
    let items = match ways.first {
        true => [own, batches].concat(),
        false => [batches, own].concat(),
    };
    let mut state = State::start(sheet, &items, level);
    state.longest = longest(sheet, ways);
    state.loads = loaded(sheet, ways).loads();
    while let Some(act) = state.next() {
        state.make(act);
    }
    let places = state.places.clone();
    let open: Vec<Batch> = items.iter().cloned().map(opened).collect();
    if ways.reaches {
        state.items = &open;
    }
    let mut answer = state.answer();
    if let Verdict::Pass(found) = &mut answer.verdict {
        let mut moved = places[skipped..skipped + n].iter().copied();
        *found = match ways.placed {
            true => places,
            false if ways.frozen => {
                let place = |b: &Batch| match b.started {
                    true => b.place,
                    false => moved.next().expect("a place"),
                };
                sheet.batches().iter().map(place).collect()
            }
            false => moved.collect(),
        };
    }
    answer
}

/// Balance with entries enough.
pub fn balance(sheet: &mut Sheet, ways: Ways) -> Balanced {
    let before = sheet.places();
    let (mut f, mut p) = (-1, loaded(sheet, ways).finish() as i64);
    let (mut kept, mut counts, mut group) = (before.clone(), (0, 0), None);
    while p - f > 1 {
        let level = (f + p) / 2;
        let answer = trial(sheet, level as u32, ways);
        match answer.verdict {
            Verdict::Pass(places) => {
                p = level;
                (kept, counts) = (places, (answer.raises, answer.bumps));
            }
            Verdict::Fail(members) => {
                f = level;
                group = Some(members);
            }
        }
    }
    place(sheet, &kept[..before.len()]);
    let share = |group: &Vec<u32>| {
        let minutes = match (ways.confined, ways.wide) {
            (false, _) => bare(sheet).confined(group),
            (_, true) => waiting(sheet).confined(group),
            _ => sheet.confined(group),
        };
        minutes.div_ceil(group.len() as u32)
    };
    Balanced {
        finish: loaded(sheet, ways).finish(),
        floor: longest(sheet, ways).max(group.as_ref().map_or(0, share)),
        group,
        level: p as u32,
        raises: counts.0,
        bumps: counts.1,
        records: records(&before, sheet),
    }
}

/// Settle with entries enough.
pub fn settle(sheet: &mut Sheet, ways: Ways) -> Settled {
    let mut other = gaining(sheet, ways);
    let answer = second::settle(&mut other, Sheet::BATCHES as u64).expect("entries enough");
    place(sheet, &other.places());
    answer
}

/// Make a call.
pub fn apply(sheet: &mut Sheet, call: &Call, ways: Ways) -> Answer {
    let (n, more) = (sheet.batches().len(), calibrated(sheet));
    let total = match ways.total {
        true => sheet.total(),
        false => bare(sheet).total(),
    };
    let due = n + if ways.entries { more } else { 0 };
    match *call {
        Call::Add { .. } if ways.full && n + more >= Sheet::BATCHES => {
            Answer::Refused(Refusal::Full)
        }
        Call::Review => Answer::Review(second::review(&gaining(sheet, ways))),
        Call::Trial { level } if level > total as u64 => Answer::Refused(Refusal::Level),
        Call::Trial { level } => Answer::Trial(trial(sheet, level as u32, ways)),
        Call::Balance { entries } | Call::Settle { entries } if entries < due as u64 => {
            Answer::Refused(Refusal::Buffer)
        }
        Call::Balance { .. } => Answer::Balance(balance(sheet, ways)),
        Call::Settle { .. } => Answer::Settle(settle(sheet, ways)),
        _ => second::apply(sheet, call),
    }
}
