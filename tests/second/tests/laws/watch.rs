//! A trial followed act by act: before each one, what is due is worked out
//! again from the places and heights alone.

use second::trial::{Act, State};
use second::*;

use crate::common::{item_loads, items, longest, may_be, open, permitted, step_bounds};

/// A batch or an instrument, by its number from 1. Calibrations above 0 are
/// batches here, numbered after the sheet's own.
#[derive(Clone, Copy, Debug, PartialEq, Eq)]
enum Item {
    Batch(usize),
    Instrument(u32),
}

/// A trial's places and heights, with the loads that they sum up to.
struct View<'a> {
    state: &'a State<'a>,
    loads: Vec<u32>,
}

impl<'a> View<'a> {
    fn of(state: &'a State) -> View<'a> {
        let loads = item_loads(state.sheet.instruments(), state.items, &state.places);
        View { state, loads }
    }

    fn items(&self) -> impl Iterator<Item = Item> {
        let batches = (1..=self.state.places.len()).map(Item::Batch);
        batches.chain((1..=self.state.sheet.instruments()).map(Item::Instrument))
    }

    fn height(&self, item: Item) -> u32 {
        match item {
            Item::Batch(i) => self.state.batch_heights[i - 1],
            Item::Instrument(j) => self.state.instrument_heights[j as usize - 1],
        }
    }

    fn light(&self) -> Vec<u32> {
        let all = 1..=self.state.sheet.instruments();
        all.filter(|&j| self.loads[j as usize - 1] <= self.state.level)
            .collect()
    }

    fn overflowing(&self, item: Item) -> bool {
        let most = self.state.level + longest(self.state.sheet);
        match item {
            Item::Batch(i) => self.state.places[i - 1] == 0,
            Item::Instrument(j) => self.loads[j as usize - 1] > most,
        }
    }

    /// The ends of an item's arrows, lowest number first.
    fn ends(&self, item: Item) -> Vec<Item> {
        let State { sheet, places, .. } = self.state;
        let arrow = |i: usize, j: u32| may_be(&self.state.items[i - 1], j);
        match item {
            Item::Batch(i) => (1..=sheet.instruments())
                .filter(|&j| arrow(i, j) && places[i - 1] != j)
                .map(Item::Instrument)
                .collect(),
            Item::Instrument(j) => (1..=places.len())
                .filter(|&i| places[i - 1] == j)
                .map(Item::Batch)
                .collect(),
        }
    }

    /// The end that an item bumps, or the height that it raises itself to.
    fn can(&self, item: Item) -> Option<Result<Item, u32>> {
        let height = self.height(item);
        let spent = match item {
            Item::Batch(_) => false,
            Item::Instrument(_) => height > 2 * self.state.sheet.instruments(),
        };
        if spent || !self.overflowing(item) {
            return None;
        }
        let ends = self.ends(item);
        if let Some(&end) = ends.iter().find(|&&e| self.height(e) + 1 == height) {
            return Some(Ok(end));
        }
        let heights: Vec<u32> = ends.iter().map(|&e| self.height(e)).collect();
        let raises = !ends.is_empty() && heights.iter().all(|&h| height <= h);
        raises.then(|| Err(1 + heights.iter().min().unwrap()))
    }

    /// The act that is due, none where the trial is at its end. An unplaced
    /// batch has a lower turn than any instrument.
    fn due(&self) -> Option<Act> {
        if self.light().is_empty() {
            return None;
        }
        let (item, deed) = self.items().find_map(|x| Some((x, self.can(x)?)))?;
        Some(match (item, deed) {
            (Item::Batch(i), Ok(Item::Instrument(instrument))) => Act::Place {
                batch: i - 1,
                instrument,
            },
            (Item::Instrument(instrument), Ok(Item::Batch(i))) => Act::Unplace {
                instrument,
                batch: i - 1,
            },
            (Item::Batch(i), Err(height)) => Act::RaiseBatch {
                batch: i - 1,
                height,
            },
            (Item::Instrument(instrument), Err(height)) => {
                Act::RaiseInstrument { instrument, height }
            }
            other => panic!("no arrow goes so: {other:?}"),
        })
    }

    /// No arrow falls by more than one, nor does one rise by more from an
    /// instrument to a batch on it, and a light instrument is never raised.
    fn heights_are_near(&self) {
        for item in self.items() {
            for end in self.ends(item) {
                assert!(self.height(item) <= self.height(end) + 1);
                if let Item::Instrument(_) = item {
                    assert!(self.height(end) <= self.height(item) + 1);
                }
            }
        }
        for j in self.light() {
            assert_eq!(self.height(Item::Instrument(j)), 0);
        }
    }
}

/// What an act makes of places and heights.
fn effect<'a>(before: &State<'a>, act: Act) -> State<'a> {
    let mut after = before.clone();
    match act {
        Act::Unplace { instrument, batch } => {
            assert_eq!(before.places[batch], instrument);
            after.places[batch] = 0;
        }
        Act::Place { batch, instrument } => {
            assert_eq!(before.places[batch], 0);
            after.places[batch] = instrument;
        }
        Act::RaiseBatch { batch, height } => {
            assert!(height > before.batch_heights[batch]);
            after.batch_heights[batch] = height;
        }
        Act::RaiseInstrument { instrument, height } => {
            assert!(height > before.instrument_heights[instrument as usize - 1]);
            after.instrument_heights[instrument as usize - 1] = height;
        }
    }
    match act {
        Act::Unplace { .. } | Act::Place { .. } => after.bumps += 1,
        _ => after.raises += 1,
    }
    after.loads = item_loads(after.sheet.instruments(), after.items, &after.places);
    after
}

/// The smallest set with this instrument and, for each batch placed in it, all
/// of the batch's list: whatever can be reached over any number of batches.
fn closure(sheet: &Sheet, places: &[u32], first: u32) -> Vec<u32> {
    let m = sheet.instruments() as usize;
    let mut reach = vec![vec![false; m + 1]; m + 1];
    for (batch, &place) in sheet.batches().iter().zip(places) {
        for j in open(batch) {
            reach[place as usize][j as usize] = true;
        }
    }
    for by in 1..=m {
        for from in 1..=m {
            for to in 1..=m {
                reach[from][to] |= reach[from][by] && reach[by][to];
            }
        }
    }
    let inside = |j: &u32| *j == first || reach[first as usize][*j as usize];
    (1..=sheet.instruments()).filter(inside).collect()
}

/// How a trial went that was followed to its end.
pub struct Watched {
    pub answer: Trial,
    /// Where the batches were at the end.
    pub places: Vec<u32>,
    /// How often a calibration was bumped off its instrument and went back, and
    /// how often a started batch did so.
    pub returned: u32,
    pub reseated: u32,
}

/// Follow a trial and check its answer. The heights of all arrows' ends are
/// compared at every so many acts.
pub fn watch(sheet: &Sheet, level: u64, every: u32) -> Watched {
    let items = items(sheet);
    assert_eq!(sheet.items(), items);
    let mut state = State::start(sheet, &items, level as u32);
    let (m, n) = (sheet.instruments() as usize, sheet.batches().len());
    let (mine, own) = state.places.split_at(n);
    assert_eq!(mine, sheet.places());
    let own = own.to_vec();
    assert_eq!(state.instrument_heights, vec![0; m]);
    assert_eq!(state.batch_heights, vec![0; items.len()]);
    assert_eq!((state.raises, state.bumps), (0, 0));
    let mut light = View::of(&state).light();
    let (mut returned, mut reseated) = (0, 0);
    loop {
        let view = View::of(&state);
        assert_eq!(state.loads, view.loads, "the loads kept");
        let unplaced = state.places.iter().filter(|&&p| p == 0).count();
        assert!(unplaced <= 1);
        let due = view.due();
        if due.is_none() || (state.raises + state.bumps) % every == 0 {
            view.heights_are_near();
        }
        let now = view.light();
        assert!(now.iter().all(|j| light.contains(j)), "none becomes light");
        light = now;
        assert_eq!(state.next(), due);
        let Some(act) = due else { break };
        if let Act::Unplace { .. } | Act::RaiseInstrument { .. } = act {
            assert_eq!(unplaced, 0);
        }
        if let Act::Place { batch, instrument } = act {
            if batch >= n {
                assert_eq!(instrument, own[batch - n]);
                returned += 1;
            } else if sheet.batches()[batch].started {
                assert_eq!(instrument, sheet.batches()[batch].place);
                reseated += 1;
            }
        }
        let expected = effect(&state, act);
        state.make(act);
        assert_eq!(state, expected);
    }
    let (raises, bumps) = (state.raises, state.bumps);
    step_bounds(sheet, raises, bumps);
    let view = View::of(&state);
    let (places, calibrations) = state.places.split_at(n);
    assert!(permitted(sheet, places), "a batch is left over");
    assert_eq!(calibrations, own, "a calibration is left over");
    let over = view.items().find(|&x| view.overflowing(x));
    let places = places.to_vec();
    let verdict = match over {
        None => Verdict::Pass(places.clone()),
        Some(_) if light.is_empty() => Verdict::Fail((1..=sheet.instruments()).collect()),
        Some(Item::Instrument(first)) => Verdict::Fail(closure(sheet, &places, first)),
        Some(Item::Batch(_)) => panic!("a batch is left over"),
    };
    let answer = Trial {
        verdict,
        raises,
        bumps,
    };
    assert_eq!(trial(sheet, level).as_ref(), Ok(&answer));
    assert_eq!(state.answer(), answer);
    Watched {
        answer,
        places,
        returned,
        reseated,
    }
}
