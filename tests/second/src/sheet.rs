//! The sheet and its edits (document 01, "The sheet" and "Refusals"; document 02,
//! C-16 for calibrations, C-17 for started batches, C-20 for lists that ascend).

use std::slice;

/// Why a call is refused; the discriminant is the documents' number.
#[derive(Clone, Copy, Debug, PartialEq, Eq)]
pub enum Refusal {
    /// The bytes are not of the form: a field, a line end, too few or too many.
    Form = 1,
    /// Instruments or batches out of range.
    Size = 2,
    /// Length out of range.
    Length = 3,
    /// The qualified list will not do.
    List = 4,
    /// The place is not in the list.
    Place = 5,
    /// There is no batch of that number.
    NoBatch = 6,
    /// The sheet has no room for another batch.
    Full = 7,
    /// The trial's level is above the total.
    Level = 8,
    /// What the host lends is too short: a buffer for its text, or a list for
    /// the records of moves.
    Buffer = 9,
    /// Calibration out of range.
    Calibration = 10,
    /// The batch has started.
    Started = 11,
    /// The worklist is not of its form.
    Worklist = 12,
    /// The qualified list does not ascend.
    Order = 13,
}

impl Refusal {
    pub fn number(self) -> u32 {
        self as u32
    }
}

/// One batch. Instruments are numbered from 1.
#[derive(Clone, Debug, PartialEq, Eq)]
pub struct Batch {
    pub length: u32,
    /// The qualified instruments, ascending.
    pub list: Vec<u32>,
    pub place: u32,
    pub started: bool,
}

impl Batch {
    /// The instruments that it counts as qualified on: those of its list, or its
    /// place alone once it has started.
    pub fn qualified(&self) -> &[u32] {
        if self.started {
            slice::from_ref(&self.place)
        } else {
            &self.list
        }
    }
}

/// Instruments with their calibrations, and batches, within the limits, every
/// batch on an instrument of its list.
#[derive(Clone, Debug, PartialEq, Eq)]
pub struct Sheet {
    pub(crate) instruments: u32,
    /// Minutes of each instrument's calibration, 0 for none.
    pub(crate) calibrations: Vec<u32>,
    pub(crate) batches: Vec<Batch>,
}

/// Where the entry of this instrument is in a vector with one for each.
pub(crate) fn at(instrument: u32) -> usize {
    instrument as usize - 1
}

/// A list on a sheet of `m` instruments. All of it passes 4 before its order is
/// judged.
pub(crate) fn judge_list(list: &[u64], m: u32) -> Result<Vec<u32>, Refusal> {
    if list.is_empty() || list.len() > m as usize {
        return Err(Refusal::List);
    }
    for (k, j) in list.iter().enumerate() {
        if !(1..=m as u64).contains(j) || list[..k].contains(j) {
            return Err(Refusal::List);
        }
    }
    if !list.is_sorted() {
        return Err(Refusal::Order);
    }
    Ok(list.iter().map(|&j| j as u32).collect())
}

impl Sheet {
    pub const INSTRUMENTS: u32 = 24;
    pub const BATCHES: usize = 200;
    pub const LENGTH: u32 = 1440;
    pub const CALIBRATION: u32 = 240;

    /// A sheet of `m` instruments without a calibration or a batch.
    pub fn empty(m: u32) -> Result<Sheet, Refusal> {
        if !(1..=Self::INSTRUMENTS).contains(&m) {
            return Err(Refusal::Size);
        }
        Ok(Sheet {
            instruments: m,
            calibrations: vec![0; m as usize],
            batches: Vec::new(),
        })
    }

    /// A sheet without a batch whose instruments have these calibrations.
    pub fn calibrated(calibrations: &[u32]) -> Result<Sheet, Refusal> {
        let mut sheet = Sheet::empty(calibrations.len() as u32)?;
        if calibrations.iter().any(|&c| c > Self::CALIBRATION) {
            return Err(Refusal::Calibration);
        }
        sheet.calibrations = calibrations.to_vec();
        Ok(sheet)
    }

    pub fn instruments(&self) -> u32 {
        self.instruments
    }

    /// Instrument number j has the entry j - 1.
    pub fn calibrations(&self) -> &[u32] {
        &self.calibrations
    }

    /// Batch number i is the entry i - 1.
    pub fn batches(&self) -> &[Batch] {
        &self.batches
    }

    /// All that takes time: the batches, and after them the calibrations above
    /// 0, by instrument, each as a batch qualified only where it stands.
    pub fn items(&self) -> Vec<Batch> {
        let mut items = self.batches.clone();
        for (&length, j) in self.calibrations.iter().zip(1..) {
            if length > 0 {
                items.push(Batch {
                    length,
                    list: vec![j],
                    place: j,
                    started: false,
                });
            }
        }
        items
    }

    /// The lengths of the batches, and of the calibrations, 0 where there is none.
    fn lengths(&self) -> impl Iterator<Item = u32> + '_ {
        let batches = self.batches.iter().map(|b| b.length);
        batches.chain(self.calibrations.iter().copied())
    }

    /// All minutes.
    pub fn total(&self) -> u32 {
        self.lengths().sum()
    }

    pub fn longest(&self) -> u32 {
        self.lengths().max().unwrap_or(0)
    }

    pub fn loads(&self) -> Vec<u32> {
        let mut loads = self.calibrations.clone();
        for batch in &self.batches {
            loads[at(batch.place)] += batch.length;
        }
        loads
    }

    /// The greatest load.
    pub fn finish(&self) -> u32 {
        self.loads().into_iter().max().unwrap_or(0)
    }

    /// Where the batches are.
    pub fn places(&self) -> Vec<u32> {
        self.batches.iter().map(|b| b.place).collect()
    }

    /// Minutes of the batches that are qualified on instruments of the group
    /// alone, and of the calibrations in it.
    pub fn confined(&self, group: &[u32]) -> u32 {
        let inside = |b: &&Batch| b.qualified().iter().all(|j| group.contains(j));
        let batches = self.batches.iter().filter(inside).map(|b| b.length);
        let calibrations = group.iter().map(|&j| self.calibrations[at(j)]);
        batches.chain(calibrations).sum()
    }

    /// Add a batch, on the lowest instrument listed.
    pub fn add(&mut self, length: u64, list: &[u64]) -> Result<(), Refusal> {
        if self.batches.len() == Self::BATCHES {
            return Err(Refusal::Full);
        }
        if !(1..=Self::LENGTH as u64).contains(&length) {
            return Err(Refusal::Length);
        }
        let list = judge_list(list, self.instruments)?;
        self.batches.push(Batch {
            length: length as u32,
            place: list[0],
            list,
            started: false,
        });
        Ok(())
    }

    /// Withdraw a batch; later ones move down by one.
    pub fn withdraw(&mut self, number: u64) -> Result<(), Refusal> {
        let index = self.waiting(number)?;
        self.batches.remove(index);
        Ok(())
    }

    /// Give a batch another list; it stays where it is if that is listed, and
    /// otherwise goes to the lowest that is.
    pub fn requalify(&mut self, number: u64, list: &[u64]) -> Result<(), Refusal> {
        let index = self.waiting(number)?;
        let list = judge_list(list, self.instruments)?;
        let batch = &mut self.batches[index];
        if !list.contains(&batch.place) {
            batch.place = list[0];
        }
        batch.list = list;
        Ok(())
    }

    /// Move a batch to an instrument of its list.
    pub fn shift(&mut self, number: u64, instrument: u64) -> Result<(), Refusal> {
        let index = self.waiting(number)?;
        let batch = &mut self.batches[index];
        let listed = batch.list.iter().find(|&&j| j as u64 == instrument);
        batch.place = *listed.ok_or(Refusal::Place)?;
        Ok(())
    }

    /// Start a batch where it is; from then on it stays there.
    pub fn start(&mut self, number: u64) -> Result<(), Refusal> {
        let index = self.waiting(number)?;
        self.batches[index].started = true;
        Ok(())
    }

    /// The index of a batch that may be edited.
    fn waiting(&self, number: u64) -> Result<usize, Refusal> {
        if !(1..=self.batches.len() as u64).contains(&number) {
            return Err(Refusal::NoBatch);
        }
        let index = number as usize - 1;
        if self.batches[index].started {
            return Err(Refusal::Started);
        }
        Ok(index)
    }
}
