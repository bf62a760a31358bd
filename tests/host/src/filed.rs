//! Compares the calls that balance or settle a sheet's file with the second
//! planner: what they return, the records, the sheet that is left, and every
//! entry and byte lent and around it.

use std::fmt::Debug;

use second::{gen, Fault};

use crate::cases::Case;
use crate::check::Lent;
use crate::share::shared;
use crate::{balance, settle, Balanced, Hosted, Move, Settled, LARGEST_SHEET};

/// What either call returns.
pub trait Answer: Copy + Debug + Default + PartialEq {
    /// A refusal with its line, and nothing else.
    fn refused(refusal: u32, line: usize) -> Self;

    /// Refusal, line and length.
    fn hosted(&self) -> Hosted;

    /// How many records there are.
    fn records(&self) -> usize;
}

impl Answer for Balanced {
    fn refused(refusal: u32, line: usize) -> Balanced {
        Balanced {
            refusal,
            line,
            ..Balanced::default()
        }
    }

    fn hosted(&self) -> Hosted {
        Hosted {
            refusal: self.refusal,
            line: self.line,
            length: self.length,
        }
    }

    fn records(&self) -> usize {
        self.records
    }
}

impl Answer for Settled {
    fn refused(refusal: u32, line: usize) -> Settled {
        Settled {
            refusal,
            line,
            ..Settled::default()
        }
    }

    fn hosted(&self) -> Hosted {
        Hosted {
            refusal: self.refusal,
            line: self.line,
            length: self.length,
        }
    }

    fn records(&self) -> usize {
        self.records
    }
}

impl From<second::Move> for Move {
    fn from(record: second::Move) -> Move {
        let second::Move { batch, from, to } = record;
        Move { batch, from, to }
    }
}

/// What is due for a sheet's file, given a list and a buffer that suffice.
#[derive(Clone, Debug, PartialEq, Eq)]
pub enum Due<A> {
    Made(Made<A>),
    Refused { refusal: u32, line: usize },
}

#[derive(Clone, Debug, PartialEq, Eq)]
pub struct Made<A> {
    pub answer: A,
    /// Of the sheet.
    pub batches: usize,
    pub records: Vec<Move>,
    pub written: Vec<u8>,
}

impl<A: Answer> Made<A> {
    fn new(answer: A, moves: [Move; 200], written: Vec<u8>) -> Made<A> {
        Made {
            answer,
            batches: written.iter().filter(|&&b| b == b'\n').count() - 2,
            records: moves[..answer.records()].to_vec(),
            written,
        }
    }
}

/// Make a call on the file of a sheet without a fault, with a list and a buffer
/// that suffice for any.
pub fn made<A: Answer>(sheet: &[u8], call: Filer<A>) -> Made<A> {
    let mut moves = [Move::default(); 200];
    let mut written = vec![0; LARGEST_SHEET];
    let answer = call(sheet, &mut moves, &mut written);
    let Hosted {
        refusal,
        line,
        length,
    } = answer.hosted();
    let file = String::from_utf8_lossy(sheet);
    assert_eq!((refusal, line), (0, 0), "{file}");
    written.truncate(length);
    Made::new(answer, moves, written)
}

impl<A: Answer> Due<A> {
    /// From what the second planner makes of it; `answer` gives what ours has to
    /// return.
    fn of<B>(
        sheet: &[u8],
        call: fn(&[u8], &mut [second::Move], &mut [u8]) -> Result<(B, usize), Fault>,
        answer: fn(B, usize) -> A,
    ) -> Due<A> {
        let unused = second::Move {
            batch: 0,
            from: 0,
            to: 0,
        };
        let mut moves = [unused; 200];
        let mut written = vec![0; LARGEST_SHEET];
        match call(sheet, &mut moves, &mut written) {
            Err(fault) => Due::Refused {
                refusal: fault.refusal.number(),
                line: fault.line as usize,
            },
            Ok((made, length)) => {
                written.truncate(length);
                Due::Made(Made::new(
                    answer(made, length),
                    moves.map(Move::from),
                    written,
                ))
            }
        }
    }

    /// Batches and bytes to lend for: the sheet's, or some where there is none.
    pub fn size(&self) -> (usize, usize) {
        match self {
            Due::Made(made) => (made.batches, made.written.len()),
            Due::Refused { .. } => (3, 100),
        }
    }

    /// What a call with a list of so many entries and a buffer of so many bytes
    /// returns and writes.
    pub fn at(&self, entries: usize, size: usize) -> (A, &[Move], &[u8]) {
        match self {
            Due::Refused { refusal, line } => (A::refused(*refusal, *line), &[], &[]),
            Due::Made(made) if entries < made.batches || size < made.written.len() => {
                (A::refused(9, 0), &[], &[])
            }
            Due::Made(made) => (made.answer, &made.records, &made.written),
        }
    }
}

/// What the second planner makes of a sheet's file by balancing it.
pub fn balance_due(sheet: &[u8]) -> Due<Balanced> {
    Due::of(sheet, second::balance_file, |made, length| {
        let members = made.group.unwrap_or_default();
        let mut group = [0; 24];
        for (byte, &instrument) in group.iter_mut().zip(&members) {
            *byte = instrument as u8;
        }
        Balanced {
            refusal: 0,
            line: 0,
            length,
            finish: made.finish,
            floor: made.floor,
            level: made.level,
            raises: made.raises,
            bumps: made.bumps,
            size: members.len(),
            group,
            records: made.records.len(),
        }
    })
}

/// By settling it.
pub fn settle_due(sheet: &[u8]) -> Due<Settled> {
    Due::of(sheet, second::settle_file, |made, length| Settled {
        refusal: 0,
        line: 0,
        length,
        finish: made.finish,
        moves: made.moves,
        records: made.records.len(),
    })
}

/// A call with a sheet's file; its records go to the list, its sheet to the
/// buffer.
pub type Filer<A> = fn(&[u8], &mut [Move], &mut [u8]) -> A;

/// Makes calls and watches the memory that it lends.
pub struct Judge<F> {
    filer: F,
    moves: Lent<Move>,
    written: Lent<u8>,
}

/// Calls by refusal number, 0 for none, by list and by buffer.
pub type Calls = [[[usize; 5]; 5]; 14];

/// Sizes of a list or a buffer for which so much is due: none, one less, as
/// much, one more and much more. Where nothing is due there is no less.
fn sizes(due: usize, more: usize) -> [Option<usize>; 5] {
    [
        (due > 0).then_some(0),
        due.checked_sub(1),
        Some(due),
        Some(due + 1),
        Some(due + more),
    ]
}

/// The lists and buffers that a call is made with.
#[derive(Clone, Copy, Debug)]
pub enum Rooms {
    /// All five lists with all five buffers.
    All,
    /// Those that just suffice, and one more pair of the 25.
    Two(usize),
}

impl<F> Judge<F> {
    pub fn new(filer: F) -> Judge<F> {
        Judge {
            filer,
            moves: Lent::default(),
            written: Lent::default(),
        }
    }

    /// One call, with a list of so many entries and a buffer of so many bytes.
    pub fn call<A: Answer>(
        &mut self,
        sheet: &[u8],
        entries: usize,
        size: usize,
        due: &Due<A>,
    ) -> Result<A, String>
    where
        F: Fn(&[u8], &mut [Move], &mut [u8]) -> A,
    {
        let (filer, buffer) = (&self.filer, &mut self.written);
        let found = self.moves.lend(entries, |moves| {
            buffer.lend(size, |written| filer(sheet, moves, written))
        });
        let (answer, records, written) = due.at(entries, size);
        if found != answer {
            return Err(format!("returned {found:?}, expected {answer:?}"));
        }
        self.moves.holds(records)?;
        self.written.holds(written)?;
        Ok(found)
    }

    /// A call with each of these lists and buffers.
    pub fn rooms<A: Answer>(
        &mut self,
        sheet: &[u8],
        due: &Due<A>,
        rooms: Rooms,
        calls: &mut Calls,
    ) -> Result<(), String>
    where
        F: Fn(&[u8], &mut [Move], &mut [u8]) -> A,
    {
        let (batches, bytes) = due.size();
        let (lists, buffers) = (sizes(batches, 200), sizes(bytes, LARGEST_SHEET));
        let pairs = match rooms {
            Rooms::All => (0..25).collect(),
            Rooms::Two(pair) => vec![12, pair % 25],
        };
        for pair in pairs {
            let (list, buffer) = (pair / 5, pair % 5);
            let (Some(entries), Some(size)) = (lists[list], buffers[buffer]) else {
                continue;
            };
            let found = self.call(sheet, entries, size, due).map_err(|fault| {
                format!("a list of {entries} entries, a buffer of {size} bytes: {fault}")
            })?;
            calls[found.hosted().refusal as usize][list][buffer] += 1;
        }
        Ok(())
    }
}

/// How often each thing was met, so that a test can tell what it covered.
#[derive(Clone, Debug, Default)]
pub struct Met {
    /// Good and bad.
    pub sheets: usize,
    pub good: usize,
    /// Good ones without a batch, and of 24 instruments and 200 batches.
    pub empty: usize,
    pub largest: usize,
    /// Good ones with a started batch.
    pub started: usize,
    pub balanced: Calls,
    pub settled: Calls,
    /// Balancings with a group, and with a group of all instruments.
    pub grouped: usize,
    pub all: usize,
    /// Balancings and settlings with records, and their most records.
    pub shifted: usize,
    pub moved: usize,
    pub most: [usize; 2],
    /// Settlings with more moves than records.
    pub repeated: usize,
    /// Sheets on which the two leave different places.
    pub different: usize,
}

impl Met {
    fn sheet(&mut self, sheet: &[u8], balanced: &Due<Balanced>, settled: &Due<Settled>) {
        self.sheets += 1;
        let (Due::Made(balanced), Due::Made(settled)) = (balanced, settled) else {
            return;
        };
        self.good += 1;
        let n = balanced.batches;
        let all = sheet[..6] == *format!("{:>6}", balanced.answer.size).as_bytes();
        self.empty += (n == 0) as usize;
        self.largest += (sheet.starts_with(b"    24") && n == 200) as usize;
        let marked = |&at: &usize| sheet[at..at + 6] == *b"     1";
        self.started += gen::marks(sheet).iter().any(marked) as usize;
        self.grouped += (balanced.answer.size > 0) as usize;
        self.all += all as usize;
        let records = [balanced.records.len(), settled.records.len()];
        self.shifted += (records[0] > 0) as usize;
        self.moved += (records[1] > 0) as usize;
        self.most = [0, 1].map(|k| self.most[k].max(records[k]));
        self.repeated += (settled.answer.moves > records[1] as u64) as usize;
        self.different += (balanced.written != settled.written) as usize;
    }

    fn add(&mut self, other: Met) {
        self.sheets += other.sheets;
        self.good += other.good;
        self.empty += other.empty;
        self.largest += other.largest;
        self.started += other.started;
        for (ours, theirs) in [
            (&mut self.balanced, other.balanced),
            (&mut self.settled, other.settled),
        ] {
            let ours = ours.as_flattened_mut().as_flattened_mut();
            let theirs = theirs.as_flattened().as_flattened();
            for (sum, count) in ours.iter_mut().zip(theirs) {
                *sum += count;
            }
        }
        self.grouped += other.grouped;
        self.all += other.all;
        self.shifted += other.shifted;
        self.moved += other.moved;
        self.most = [0, 1].map(|k| self.most[k].max(other.most[k]));
        self.repeated += other.repeated;
        self.different += other.different;
    }

    /// What a test prints of it.
    pub fn summary(&self) -> String {
        let sum = |calls: Calls| calls.map(|lists| lists.as_flattened().iter().sum::<usize>());
        let (balanced, settled) = (sum(self.balanced), sum(self.settled));
        let Met {
            sheets,
            good,
            empty,
            largest,
            started,
            grouped,
            all,
            shifted,
            moved,
            most,
            repeated,
            different,
            ..
        } = self;
        format!(
            "{sheets} sheets, {good} good, {empty} without a batch, {largest} of the largest, \
             {started} with started batches; by refusal {balanced:?} balanced, {settled:?} settled; {grouped} with a group, {all} of \
             all; {shifted} and {moved} with records, at most {most:?}, {repeated} with more moves; \
             {different} left otherwise by the two"
        )
    }
}

/// Compare many shares, two at a time: `make` gives the sheets of each. Each is
/// balanced and settled with a list and a buffer that just suffice and with one
/// other pair, every sixteenth with all pairs.
pub fn compare(shares: u64, make: impl Fn(u64) -> Vec<Case> + Sync) -> Met {
    let start = || {
        let balancing: Judge<Filer<Balanced>> = Judge::new(balance);
        let settling: Judge<Filer<Settled>> = Judge::new(settle);
        (balancing, settling, Met::default())
    };
    let states = shared(shares, start, |share, (balancing, settling, met)| {
        for (k, Case { sheet, .. }) in make(share).into_iter().enumerate() {
            let rooms = match k % 16 {
                15 => Rooms::All,
                _ => Rooms::Two(share as usize + k),
            };
            let (balanced, settled) = (balance_due(&sheet), settle_due(&sheet));
            met.sheet(&sheet, &balanced, &settled);
            balancing
                .rooms(&sheet, &balanced, rooms, &mut met.balanced)
                .map_err(|fault| format!("balance: {fault}"))
                .and_then(|()| {
                    settling
                        .rooms(&sheet, &settled, rooms, &mut met.settled)
                        .map_err(|fault| format!("settle: {fault}"))
                })
                .unwrap_or_else(|fault| {
                    let sheet = String::from_utf8_lossy(&sheet);
                    panic!("share {share}: {fault}\nsheet:\n{sheet}")
                });
        }
    });
    let mut total = Met::default();
    states.into_iter().for_each(|(_, _, met)| total.add(met));
    total
}
