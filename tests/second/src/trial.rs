//! One trial at a level, act by act (document 01, "One trial at a level"; document
//! 02, C-16: calibrations take part as batches, C-17: started batches as those
//! qualified only where they are).

use crate::sheet::{at, Batch, Refusal, Sheet};

#[derive(Clone, Debug, PartialEq, Eq)]
pub struct Trial {
    pub verdict: Verdict,
    pub raises: u32,
    pub bumps: u32,
}

#[derive(Clone, Debug, PartialEq, Eq)]
pub enum Verdict {
    /// The placement of the sheet's own batches, in their order.
    Pass(Vec<u32>),
    /// The group, ascending.
    Fail(Vec<u32>),
}

/// Try a level on a sheet, which stays as it is.
pub fn trial(sheet: &Sheet, level: u64) -> Result<Trial, Refusal> {
    if level > sheet.total() as u64 {
        return Err(Refusal::Level);
    }
    Ok(attempt(sheet, &sheet.items(), level as u32))
}

/// The trial itself, with the sheet's items.
pub(crate) fn attempt(sheet: &Sheet, items: &[Batch], level: u32) -> Trial {
    let mut state = State::start(sheet, items, level);
    while let Some(act) = state.next() {
        state.make(act);
    }
    state.answer()
}

/// What is done. Batches, calibrations after the sheet's own, go by their index,
/// from 0, instruments by their number, from 1.
#[derive(Clone, Copy, Debug, PartialEq, Eq)]
pub enum Act {
    /// An instrument bumps: the batch has no place then.
    Unplace {
        instrument: u32,
        batch: usize,
    },
    /// A batch bumps: it is placed.
    Place {
        batch: usize,
        instrument: u32,
    },
    RaiseBatch {
        batch: usize,
        height: u32,
    },
    RaiseInstrument {
        instrument: u32,
        height: u32,
    },
}

/// A trial between two acts.
#[derive(Clone, Debug, PartialEq, Eq)]
pub struct State<'a> {
    pub sheet: &'a Sheet,
    /// The sheet's items: every one is a batch here.
    pub items: &'a [Batch],
    pub level: u32,
    pub longest: u32,
    pub batch_heights: Vec<u32>,
    pub instrument_heights: Vec<u32>,
    /// 0 for a batch without a place.
    pub places: Vec<u32>,
    pub loads: Vec<u32>,
    pub raises: u32,
    pub bumps: u32,
}

/// The height that an item raises itself to, given the heights of its arrows'
/// ends; none where it is higher than one of them or has no arrow.
fn raised(height: u32, ends: impl Iterator<Item = u32>) -> Option<u32> {
    let least = ends.min()?;
    (height <= least).then_some(1 + least)
}

impl<'a> State<'a> {
    pub fn start(sheet: &'a Sheet, items: &'a [Batch], level: u32) -> State<'a> {
        State {
            sheet,
            items,
            level,
            longest: sheet.longest(),
            batch_heights: vec![0; items.len()],
            instrument_heights: vec![0; sheet.instruments as usize],
            places: items.iter().map(|b| b.place).collect(),
            loads: sheet.loads(),
            raises: 0,
            bumps: 0,
        }
    }

    fn instruments(&self) -> impl Iterator<Item = u32> {
        1..=self.sheet.instruments
    }

    fn light(&self, instrument: u32) -> bool {
        self.loads[at(instrument)] <= self.level
    }

    fn over(&self, instrument: u32) -> bool {
        self.loads[at(instrument)] > self.level + self.longest
    }

    /// The act due now; none where the trial ends, which is looked at before
    /// every act, the first included.
    pub fn next(&self) -> Option<Act> {
        if !self.instruments().any(|j| self.light(j)) {
            return None;
        }
        let mut unplaced = (0..self.places.len()).filter(|&i| self.places[i] == 0);
        let act = unplaced.find_map(|i| self.batch_act(i));
        act.or_else(|| self.instruments().find_map(|j| self.instrument_act(j)))
    }

    /// What a batch without a place does: bump if able, else raise.
    fn batch_act(&self, batch: usize) -> Option<Act> {
        let height = self.batch_heights[batch];
        let qualified = self.items[batch].qualified().iter();
        let ends = qualified.filter(|&&j| j != self.places[batch]);
        let ends = ends.map(|&j| (j, self.instrument_heights[at(j)]));
        let below = ends.clone().find(|&(_, end)| height == end + 1);
        match below {
            Some((instrument, _)) => Some(Act::Place { batch, instrument }),
            None => {
                let height = raised(height, ends.map(|(_, end)| end))?;
                Some(Act::RaiseBatch { batch, height })
            }
        }
    }

    /// What an instrument does: bump if able, else raise.
    fn instrument_act(&self, instrument: u32) -> Option<Act> {
        let height = self.instrument_heights[at(instrument)];
        if !self.over(instrument) || height > 2 * self.sheet.instruments {
            return None;
        }
        let batches = self.places.iter().zip(&self.batch_heights).enumerate();
        let ends = batches.filter(|(_, (&place, _))| place == instrument);
        let ends = ends.map(|(i, (_, &height))| (i, height));
        let below = ends.clone().find(|&(_, end)| height == end + 1);
        match below {
            Some((batch, _)) => Some(Act::Unplace { instrument, batch }),
            None => {
                let height = raised(height, ends.map(|(_, end)| end))?;
                Some(Act::RaiseInstrument { instrument, height })
            }
        }
    }

    pub fn make(&mut self, act: Act) {
        match act {
            Act::Unplace { instrument, batch } => {
                self.places[batch] = 0;
                self.loads[at(instrument)] -= self.items[batch].length;
                self.bumps += 1;
            }
            Act::Place { batch, instrument } => {
                self.places[batch] = instrument;
                self.loads[at(instrument)] += self.items[batch].length;
                self.bumps += 1;
            }
            Act::RaiseBatch { batch, height } => {
                self.batch_heights[batch] = height;
                self.raises += 1;
            }
            Act::RaiseInstrument { instrument, height } => {
                self.instrument_heights[at(instrument)] = height;
                self.raises += 1;
            }
        }
    }

    /// The answer at the end. Where the calibrations are is not said: they are
    /// where they were.
    pub fn answer(mut self) -> Trial {
        let overflows = self.places.contains(&0) || self.instruments().any(|j| self.over(j));
        let verdict = if overflows {
            Verdict::Fail(self.group())
        } else {
            self.places.truncate(self.sheet.batches.len());
            Verdict::Pass(self.places)
        };
        Trial {
            verdict,
            raises: self.raises,
            bumps: self.bumps,
        }
    }

    /// The group of a failure: round by round, what the batches placed in the
    /// group can reach joins it.
    fn group(&self) -> Vec<u32> {
        if !self.instruments().any(|j| self.light(j)) {
            return self.instruments().collect();
        }
        let over = self.instruments().find(|&j| self.over(j));
        let mut group = vec![over.expect("no batch is left without a place")];
        loop {
            let placed = self.items.iter().zip(&self.places);
            let inside = placed.filter(|(_, place)| group.contains(place));
            let reached: Vec<u32> = inside.flat_map(|(b, _)| b.qualified().to_vec()).collect();
            let size = group.len();
            group.extend(reached);
            group.sort();
            group.dedup();
            if group.len() == size {
                return group;
            }
        }
    }
}
