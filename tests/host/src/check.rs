//! Compares the calls that take a sheet alone with the second planner: what
//! they return, the text, and every byte of the buffer and around it.

use std::collections::BTreeSet;
use std::fmt::Debug;

use second::gen;

use crate::cases::Case;
use crate::due::Due;
use crate::listing::{Listing, MOST};
use crate::share::shared;
use crate::{plan, plan_second, rewrite, Hosted, Move};

/// The fewest bytes that a listing has: that of a sheet without a batch. A
/// written sheet has more than the two that a room may be short of.
pub const LEAST: usize = 43 + 7;

/// Bytes watched on either side of a buffer, and entries of a list.
const MARGIN: usize = 64;

/// Buffers by their size beside that of the text, which counts as the least
/// listing where there is none.
#[derive(Clone, Copy, Debug, PartialEq, Eq)]
pub enum Room {
    Empty,
    One,
    TwoShort,
    OneShort,
    Exact,
    OneMore,
    TwoMore,
    Large,
}

impl Room {
    pub const ALL: [Room; 8] = [
        Room::Empty,
        Room::One,
        Room::TwoShort,
        Room::OneShort,
        Room::Exact,
        Room::OneMore,
        Room::TwoMore,
        Room::Large,
    ];

    fn size(self, text: usize) -> usize {
        match self {
            Room::Empty => 0,
            Room::One => 1,
            Room::TwoShort => text - 2,
            Room::OneShort => text - 1,
            Room::Exact => text,
            Room::OneMore => text + 1,
            Room::TwoMore => text + 2,
            Room::Large => text + 2 * MOST,
        }
    }
}

/// The listing that the second planner makes of a sheet.
pub fn listing_due(sheet: &[u8]) -> Due {
    let mut listing = vec![0; MOST];
    let answer = plan_second(sheet, &mut listing);
    match answer.refusal {
        0 => {
            listing.truncate(answer.length);
            Due::Text(listing)
        }
        refusal => Due::Refused {
            refusal,
            line: answer.line,
        },
    }
}

/// A sheet as the second planner writes it back.
pub fn rewritten_due(sheet: &[u8]) -> Due {
    Due::sheet(second::read(sheet))
}

/// What a buffer or a list is made of.
pub trait Item: Copy + Debug + PartialEq {
    /// One that is in no text and in no record, and differs from its neighbours.
    fn unused(place: usize) -> Self;

    /// These in words.
    fn shown(items: &[Self]) -> String;
}

impl Item for u8 {
    fn unused(place: usize) -> u8 {
        0x80 | (place * 37 % 128) as u8
    }

    fn shown(items: &[u8]) -> String {
        String::from_utf8_lossy(items).into()
    }
}

impl Item for Move {
    fn unused(place: usize) -> Move {
        let number = 0x8000_0000 | (place as u32 * 37);
        Move {
            batch: number,
            from: !number,
            to: number + 1,
        }
    }

    fn shown(items: &[Move]) -> String {
        format!("{items:?}")
    }
}

/// Memory to lend, watched within the buffer or list and on either side of it.
#[derive(Default)]
pub struct Lent<T> {
    clean: Vec<T>,
    items: Vec<T>,
}

impl<T: Item> Lent<T> {
    /// Lend so much; gives what the call returns.
    pub fn lend<R>(&mut self, size: usize, call: impl FnOnce(&mut [T]) -> R) -> R {
        let all = size + 2 * MARGIN;
        let known = self.clean.len();
        self.clean.extend((known..all).map(T::unused));
        self.items.clear();
        self.items.extend(&self.clean[..all]);
        call(&mut self.items[MARGIN..MARGIN + size])
    }

    /// These are at the front of what was last lent, and all else is as it was.
    pub fn holds(&self, front: &[T]) -> Result<(), String> {
        let (lent, clean) = (&self.items, &self.clean[..self.items.len()]);
        let end = MARGIN + front.len();
        if lent[..MARGIN] != clean[..MARGIN] {
            return Err("what stands before the lent place changed".into());
        }
        if lent[end..] != clean[end..] {
            return Err("what stands past the answer changed".into());
        }
        if lent[MARGIN..end] != *front {
            return Err(format!(
                "written:\n{}\nexpected:\n{}",
                T::shown(&lent[MARGIN..end]),
                T::shown(front)
            ));
        }
        Ok(())
    }
}

/// Makes calls with a sheet and watches the memory that it lends.
pub struct Judge<P> {
    planner: P,
    lent: Lent<u8>,
}

/// Calls by refusal number, 0 for none, and by kind of buffer.
pub type Calls = [[usize; 8]; 14];

impl<P: Fn(&[u8], &mut [u8]) -> Hosted> Judge<P> {
    pub fn new(planner: P) -> Judge<P> {
        Judge {
            planner,
            lent: Lent::default(),
        }
    }

    /// One call, with a buffer of this size.
    pub fn call(&mut self, sheet: &[u8], size: usize, due: &Due) -> Result<Hosted, String> {
        let planner = &self.planner;
        let hosted = self.lent.lend(size, |text| planner(sheet, text));
        let (answer, text) = due.at(size);
        if hosted != answer {
            return Err(format!("returned {hosted:?}, expected {answer:?}"));
        }
        self.lent.holds(text)?;
        Ok(hosted)
    }

    /// A call with each of these buffers.
    pub fn rooms(
        &mut self,
        sheet: &[u8],
        due: &Due,
        rooms: &[Room],
        calls: &mut Calls,
    ) -> Result<(), String> {
        for &room in rooms {
            let size = room.size(due.length_or(LEAST));
            let hosted = self
                .call(sheet, size, due)
                .map_err(|fault| format!("a buffer of {size} ({room:?}): {fault}"))?;
            calls[hosted.refusal as usize][room as usize] += 1;
        }
        Ok(())
    }
}

/// How often each thing was met, so that a test can tell what it covered.
#[derive(Clone, Debug, Default)]
pub struct Met {
    /// Good and bad.
    pub sheets: usize,
    /// Plannings and rewritings.
    pub planned: Calls,
    pub rewritten: Calls,
    /// By refusal number, the lines at which reading was refused, and how often
    /// that was one with its place left blank.
    pub lines: [BTreeSet<usize>; 14],
    pub at_blank: [usize; 14],
    pub plans: Plans,
    /// Sheets that were written as they were given, and those in which a place
    /// was filled in.
    pub same: usize,
    pub filled: usize,
}

/// What the plans came to.
#[derive(Clone, Debug, Default)]
pub struct Plans {
    pub count: usize,
    /// Sheets without a batch, of 1 to 9 and of 20 to 199, and those of 24
    /// instruments and 200 batches.
    pub empty: usize,
    pub small: usize,
    pub middle: usize,
    pub largest: usize,
    /// Sheets with a calibration above 0, those of them without a batch, and
    /// those with a calibration that is longer than any batch.
    pub calibrated: usize,
    pub only: usize,
    pub longer: usize,
    /// Sheets with some of several batches started and with all, and started
    /// batches, all of them and those with more than one instrument listed.
    pub some_started: usize,
    pub all_started: usize,
    pub started: usize,
    pub held: usize,
    /// Batches with a place given, with place 0 and with a blank one.
    pub given: usize,
    pub open: usize,
    pub blank: usize,
    /// Groups of no instrument, of some and of all.
    pub none: usize,
    pub some: usize,
    pub all: usize,
    /// Floors that the group shows, not the longest batch or calibration.
    pub shown: usize,
    /// Trials kept that made steps, and settlings that made moves.
    pub worked: usize,
    pub moved: usize,
    /// The most steps of a trial kept, and the most moves.
    pub steps: u32,
    pub moves: u64,
}

impl Met {
    fn sheet(&mut self, sheet: &[u8], due: &Due) {
        self.sheets += 1;
        match due {
            Due::Refused { refusal, line } => {
                let number = *refusal as usize;
                self.lines[number].insert(*line);
                let text = sheet.split(|&b| b == b'\n').nth(line - 1);
                let place = text.and_then(|text| text.get(6..12));
                self.at_blank[number] += (*line > 2 && place == Some(b"      ")) as usize;
            }
            Due::Text(listing) => self.plans.plan(sheet, listing),
        }
    }

    fn add(&mut self, other: Met) {
        self.sheets += other.sheets;
        for (ours, theirs) in self.lines.iter_mut().zip(other.lines) {
            ours.extend(theirs);
        }
        for number in 0..self.at_blank.len() {
            self.at_blank[number] += other.at_blank[number];
            for room in 0..8 {
                self.planned[number][room] += other.planned[number][room];
                self.rewritten[number][room] += other.rewritten[number][room];
            }
        }
        self.plans.add(&other.plans);
        self.same += other.same;
        self.filled += other.filled;
    }

    /// What a test prints of it.
    pub fn summary(&self) -> String {
        let sum = |calls: Calls| calls.map(|rooms| rooms.into_iter().sum::<usize>());
        let (sheets, plans) = (self.sheets, &self.plans);
        let (planned, rewritten) = (sum(self.planned), sum(self.rewritten));
        let (same, filled, at_blank) = (self.same, self.filled, self.at_blank);
        format!(
            "{sheets} sheets, plannings by refusal {planned:?}, {plans:?}; rewritings \
             {rewritten:?}, {same} the same, {filled} with places filled in; refused at a line \
             with a blank place {at_blank:?}"
        )
    }
}

impl Plans {
    fn plan(&mut self, sheet: &[u8], listing: &[u8]) {
        let read = Listing::parse(listing).expect("a listing in its columns");
        let m = String::from_utf8_lossy(&sheet[..6]);
        let m: usize = m.trim_start().parse().expect("a number of instruments");
        let n = read.batches.len();
        self.count += 1;
        self.empty += (n == 0) as usize;
        self.small += (1..=9).contains(&n) as usize;
        self.middle += (20..=199).contains(&n) as usize;
        self.largest += ((m, n) == (24, 200)) as usize;
        let mut lines = sheet.split(|&b| b == b'\n').skip(1);
        let calibrations = lines.next().expect("line 2").chunks(6);
        let minutes = |field| String::from_utf8_lossy(field).trim_start().parse().ok();
        let calibration: u32 = calibrations.filter_map(minutes).max().expect("a field");
        let mut started = 0;
        for line in lines.take(n) {
            match &line[6..12] {
                b"     0" => self.open += 1,
                b"      " => self.blank += 1,
                _ => self.given += 1,
            }
            if line[12..18] == *b"     1" {
                started += 1;
                self.held += (line.len() > 6 * 5) as usize;
            }
        }
        self.started += started;
        self.some_started += (0 < started && started < n) as usize;
        self.all_started += (0 < n && started == n) as usize;
        match read.group.len() {
            0 => self.none += 1,
            k if k < m => self.some += 1,
            _ => self.all += 1,
        }
        let batch = read.batches.iter().map(|batch| batch[2]).max().unwrap_or(0);
        let steps = read.raises + read.bumps;
        self.calibrated += (calibration > 0) as usize;
        self.only += (calibration > 0 && n == 0) as usize;
        self.longer += (calibration > batch) as usize;
        self.shown += (read.floor > batch.max(calibration)) as usize;
        self.worked += (steps > 0) as usize;
        self.moved += (read.moves > 0) as usize;
        self.steps = self.steps.max(steps);
        self.moves = self.moves.max(read.moves);
    }

    fn add(&mut self, other: &Plans) {
        self.count += other.count;
        self.empty += other.empty;
        self.small += other.small;
        self.middle += other.middle;
        self.largest += other.largest;
        self.calibrated += other.calibrated;
        self.only += other.only;
        self.longer += other.longer;
        self.some_started += other.some_started;
        self.all_started += other.all_started;
        self.started += other.started;
        self.held += other.held;
        self.given += other.given;
        self.open += other.open;
        self.blank += other.blank;
        self.none += other.none;
        self.some += other.some;
        self.all += other.all;
        self.shown += other.shown;
        self.worked += other.worked;
        self.moved += other.moved;
        self.steps = self.steps.max(other.steps);
        self.moves = self.moves.max(other.moves);
    }
}

/// Compare many runs, two at a time: `make` gives the sheets of each. All are
/// planned and rewritten, every second one with each kind of buffer and the
/// others with one that just fits.
pub fn compare(runs: u64, make: impl Fn(u64) -> Vec<Case> + Sync) -> Met {
    let start = || (Judge::new(plan), Judge::new(rewrite), Met::default());
    let states = shared(runs, start, |run, (planner, writer, met)| {
        for (k, Case { sheet, .. }) in make(run).into_iter().enumerate() {
            let rooms = match k % 2 {
                0 => Room::ALL.as_slice(),
                _ => &[Room::Exact],
            };
            let listing = listing_due(&sheet);
            met.sheet(&sheet, &listing);
            planner
                .rooms(&sheet, &listing, rooms, &mut met.planned)
                .and_then(|()| rewriting(writer, &sheet, rooms, met))
                .unwrap_or_else(|fault| {
                    let sheet = String::from_utf8_lossy(&sheet);
                    panic!("run {run}: {fault}\nsheet:\n{sheet}")
                });
        }
    });
    let mut total = Met::default();
    states.into_iter().for_each(|(_, _, met)| total.add(met));
    total
}

/// Write a sheet back. The text is the file's own, places not given apart, and
/// that of its own rewriting.
fn rewriting<P: Fn(&[u8], &mut [u8]) -> Hosted>(
    writer: &mut Judge<P>,
    sheet: &[u8],
    rooms: &[Room],
    met: &mut Met,
) -> Result<(), String> {
    let due = rewritten_due(sheet);
    writer.rooms(sheet, &due, rooms, &mut met.rewritten)?;
    let Due::Text(written) = &due else {
        return Ok(());
    };
    if *written != gen::with_places(sheet) {
        return Err("rewriting changes more than places not given".into());
    }
    if written == sheet {
        met.same += 1;
    } else {
        met.filled += 1;
        writer.call(written, written.len(), &due)?;
    }
    Ok(())
}
