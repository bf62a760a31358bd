//! Kinds of sheets at the limits: 24 instruments and 200 batches. But for one hard
//! shape no calibration is above 0. Batches have started in one hard shape, and where
//! the kind of places says so.

use second::rng::Rng;
use second::{gen, Draft, Line};

#[derive(Clone, Copy, Debug)]
pub enum Lists {
    /// Of one to three instruments.
    Short,
    /// Of 20 to 24.
    Long,
}

#[derive(Clone, Copy, Debug)]
pub enum Lengths {
    /// All the same.
    Equal,
    /// Quarters of an hour, up to four hours.
    Round,
    /// Any.
    Random,
}

#[derive(Clone, Copy, Debug)]
pub enum Places {
    /// One of the list.
    Given,
    /// 0: the lowest listed.
    Open,
    /// All on one instrument, which is in every list.
    Crowded,
    /// One of the list; none of the batches, some or all have started there.
    Started,
}

#[derive(Clone, Copy, Debug)]
pub struct Kind {
    pub lists: Lists,
    pub lengths: Lengths,
    pub places: Places,
}

impl Kind {
    /// Every kind.
    pub fn all() -> Vec<Kind> {
        let mut kinds = Vec::new();
        for places in [
            Places::Given,
            Places::Open,
            Places::Crowded,
            Places::Started,
        ] {
            for lists in [Lists::Short, Lists::Long] {
                for lengths in [Lengths::Equal, Lengths::Round, Lengths::Random] {
                    kinds.push(Kind {
                        lists,
                        lengths,
                        places,
                    });
                }
            }
        }
        kinds
    }

    pub fn name(&self) -> String {
        let lists = match self.lists {
            Lists::Short => "short lists",
            Lists::Long => "long lists",
        };
        let lengths = match self.lengths {
            Lengths::Equal => "equal lengths",
            Lengths::Round => "round lengths",
            Lengths::Random => "random lengths",
        };
        let places = match self.places {
            Places::Given => "places given",
            Places::Open => "places not given",
            Places::Crowded => "one crowded",
            Places::Started => "some started",
        };
        format!("{lists}, {lengths}, {places}")
    }

    /// A sheet of this kind.
    pub fn sheet(&self, rng: &mut Rng) -> Vec<u8> {
        self.draft(rng).render()
    }

    /// What it says.
    pub fn draft(&self, rng: &mut Rng) -> Draft {
        let m = 24;
        let usual = rng.within(1, 1440);
        let crowded = rng.within(1, m);
        let line = |_| {
            let count = match self.lists {
                Lists::Short => rng.within(1, 3),
                Lists::Long => rng.within(20, m),
            };
            let mut list = gen::list(rng, m, count);
            let place = match self.places {
                Places::Given | Places::Started => *rng.pick(&list),
                Places::Open => 0,
                Places::Crowded => {
                    if !list.contains(&crowded) {
                        list[0] = crowded;
                        list.sort();
                    }
                    crowded
                }
            };
            let length = match self.lengths {
                Lengths::Equal => usual,
                Lengths::Round => 15 * rng.within(1, 16),
                Lengths::Random => rng.within(1, 1440),
            };
            Line {
                length,
                place: Some(place),
                mark: 0,
                list,
            }
        };
        let mut lines: Vec<Line> = (0..200).map(line).collect();
        if let Places::Started = self.places {
            gen::start(rng, &mut lines);
        }
        Draft {
            lines,
            ..Draft::new(m, &[])
        }
    }
}

/// The hard shape of this seed.
pub fn hard(seed: u64) -> Vec<u8> {
    Draft::from(&gen::hard(seed)).render()
}

/// The hard shape with calibrations.
pub fn hard_calibrated(seed: u64) -> Vec<u8> {
    Draft::from(&gen::hard_calibrated(seed)).render()
}

/// The hard shape with started batches.
pub fn hard_started(seed: u64) -> Vec<u8> {
    Draft::from(&gen::hard_started(seed)).render()
}

/// A sheet of this kind whose last byte, and nothing before it, is a fault.
pub fn last_byte_wrong(kind: &Kind, rng: &mut Rng) -> Vec<u8> {
    let mut sheet = kind.sheet(rng);
    *sheet.last_mut().expect("a last line") = b' ';
    sheet
}
