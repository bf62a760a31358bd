//! Compares the calls that take a journal with the second planner: what they
//! return, the answers, the sheet that is left, and every byte of the buffer
//! and around it.

use std::collections::BTreeSet;

use second::{gen, Call, Sheet};

use crate::cases::Case;
use crate::check::Lent;
use crate::due::Due;
use crate::journal::{answers, journal, numbers, put_answer, read, GREATEST};
use crate::seen::Seen;
use crate::share::shared;
use crate::{run, write, Hosted};

/// The fewest bytes that an answer has: that of an edit. A written sheet has
/// more.
pub const LEAST: usize = 7;

/// The refusal of a journal that is not of the form.
pub const BAD_JOURNAL: u32 = 19;

/// A call with a sheet and a journal; its text goes to the buffer.
pub type Runner = fn(&[u8], &[u8], &mut [u8]) -> Hosted;

/// The two: one writes the answers, the other the sheet.
pub const BOTH: [Runner; 2] = [run, write];

/// What the second planner makes of a sheet and a journal, for each of the two
/// calls. The sheet is judged first, then the journal.
pub fn dues(sheet: &[u8], journal: &[u8]) -> [Due; 2] {
    match (second::read(sheet), read(journal)) {
        (Err(fault), _) => [Due::fault(fault), Due::fault(fault)],
        (Ok(_), Err(line)) => bad_journal(line),
        (Ok(mut sheet), Ok(calls)) => {
            let answers = answers(&mut sheet, &calls);
            [answers, second::write(&sheet)].map(Due::Text)
        }
    }
}

/// What is due from each where a journal is not of the form at this line.
pub fn bad_journal(line: usize) -> [Due; 2] {
    [BAD_JOURNAL; 2].map(|refusal| Due::Refused { refusal, line })
}

/// Makes calls and watches the memory that it lends.
pub struct Judge<R> {
    runner: R,
    lent: Lent<u8>,
}

/// The buffers that a call is made with.
#[derive(Clone, Copy, Debug)]
pub enum Rooms {
    /// Four: an empty one, one that is a byte short, one that just fits and
    /// one that is longer by this much.
    All(usize),
    /// The third or the fourth of these alone.
    Exact,
    Longer(usize),
}

/// Calls by refusal number, 0 for none, and by buffer.
pub type Calls = [[usize; 4]; BAD_JOURNAL as usize + 1];

impl<R: Fn(&[u8], &[u8], &mut [u8]) -> Hosted> Judge<R> {
    pub fn new(runner: R) -> Judge<R> {
        Judge {
            runner,
            lent: Lent::default(),
        }
    }

    /// One call, with a buffer of this size.
    pub fn call(
        &mut self,
        sheet: &[u8],
        journal: &[u8],
        size: usize,
        due: &Due,
    ) -> Result<Hosted, String> {
        let runner = &self.runner;
        let ran = self.lent.lend(size, |text| runner(sheet, journal, text));
        let (answer, text) = due.at(size);
        if ran != answer {
            return Err(format!("returned {ran:?}, expected {answer:?}"));
        }
        self.lent.holds(text)?;
        Ok(ran)
    }

    /// A call with each of these buffers.
    pub fn rooms(
        &mut self,
        sheet: &[u8],
        journal: &[u8],
        due: &Due,
        rooms: Rooms,
        calls: &mut Calls,
    ) -> Result<(), String> {
        let fit = due.length_or(LEAST);
        let sizes = match rooms {
            Rooms::All(spare) => [Some(0), fit.checked_sub(1), Some(fit), Some(fit + spare)],
            Rooms::Exact => [None, None, Some(fit), None],
            Rooms::Longer(spare) => [None, None, None, Some(fit + spare)],
        };
        for (k, size) in sizes.into_iter().enumerate() {
            let Some(size) = size else { continue };
            let ran = self
                .call(sheet, journal, size, due)
                .map_err(|fault| format!("a buffer of {size}: {fault}"))?;
            calls[ran.refusal as usize][k] += 1;
        }
        Ok(())
    }
}

/// Makes both calls.
pub struct Judges([Judge<Runner>; 2]);

impl Default for Judges {
    fn default() -> Judges {
        Judges(BOTH.map(Judge::new))
    }
}

impl Judges {
    /// Each call with buffers of the sizes that `sizes` gives for the length of
    /// its text; `made` gets what each returns.
    pub fn call<I: IntoIterator<Item = usize>>(
        &mut self,
        sheet: &[u8],
        journal: &[u8],
        sizes: impl Fn(usize) -> I,
        mut made: impl FnMut(Hosted),
    ) {
        for (judge, due) in self.0.iter_mut().zip(dues(sheet, journal)) {
            for size in sizes(due.length_or(LEAST)) {
                match judge.call(sheet, journal, size, &due) {
                    Ok(ran) => made(ran),
                    Err(fault) => fail(&format!("a buffer of {size}: {fault}"), sheet, journal),
                }
            }
        }
    }

    /// Each call with each of these buffers.
    pub fn rooms(
        &mut self,
        sheet: &[u8],
        journal: &[u8],
        dues: &[Due; 2],
        rooms: Rooms,
        met: &mut Met,
    ) {
        met.pairs += 1;
        for (k, due) in dues.iter().enumerate() {
            let calls = &mut met.calls[k];
            if let Err(fault) = self.0[k].rooms(sheet, journal, due, rooms, calls) {
                fail(&fault, sheet, journal);
            }
            if let Due::Refused { refusal, line } = *due {
                if refusal == BAD_JOURNAL {
                    met.lines.insert(line);
                }
            }
        }
    }
}

fn fail(fault: &str, sheet: &[u8], journal: &[u8]) -> ! {
    let sheet = String::from_utf8_lossy(sheet);
    let journal = String::from_utf8_lossy(journal);
    panic!("{fault}\nsheet:\n{sheet}\njournal:\n{journal}\n{journal:?}")
}

/// How often each thing was met, so that a test can tell what it covered.
#[derive(Clone, Debug, Default)]
pub struct Met {
    /// Sheets with a journal, good and bad.
    pub pairs: usize,
    /// Of both calls.
    pub calls: [Calls; 2],
    /// The lines at which a journal was refused.
    pub lines: BTreeSet<usize>,
    /// What the second planner's answers were.
    pub seen: Seen,
    pub arguments: Arguments,
    pub left: Left,
}

/// What the calls of journals were given.
#[derive(Clone, Debug, Default)]
pub struct Arguments {
    /// Lists of no number, with a number twice, and of more than 24, of 25
    /// and of more than 25 numbers.
    pub empty: usize,
    pub repeated: usize,
    pub above_24: usize,
    pub of_25: usize,
    pub above_25: usize,
    /// Lists of more than 24 numbers on a sheet of 24 instruments, all of
    /// which the first 24 name.
    pub all_and_more: usize,
    /// Lines with the greatest number that a field holds, and with one of six
    /// digits.
    pub greatest: usize,
    pub six_digits: usize,
    pub entries: Entries,
    /// The most calls of a journal, and the most bytes of its answers and of one
    /// of them.
    pub most_calls: usize,
    pub most_bytes: usize,
    pub most_line: usize,
}

/// Lists lent for records, beside the batches that there are.
#[derive(Clone, Debug, Default)]
pub struct Entries {
    /// Without an entry where there is a batch, and where there is none.
    pub none: usize,
    pub none_due: usize,
    /// One entry less than there are batches, as many, and one more.
    pub one_less: usize,
    pub exact: usize,
    pub one_more: usize,
    /// As many as a field can say.
    pub greatest: usize,
}

impl Entries {
    fn list(&mut self, entries: u64, batches: usize) {
        let batches = batches as u64;
        self.none += (entries == 0 && batches > 0) as usize;
        self.none_due += (entries == 0 && batches == 0) as usize;
        self.one_less += (entries + 1 == batches) as usize;
        self.exact += (entries == batches) as usize;
        self.one_more += (entries == batches + 1) as usize;
        self.greatest += (entries == GREATEST) as usize;
    }

    fn add(&mut self, other: &Entries) {
        self.none += other.none;
        self.none_due += other.none_due;
        self.one_less += other.one_less;
        self.exact += other.exact;
        self.one_more += other.one_more;
        self.greatest += other.greatest;
    }
}

impl Arguments {
    /// A call on this sheet.
    fn call(&mut self, call: &Call, sheet: &Sheet) {
        let numbers = numbers(call);
        self.greatest += numbers.contains(&GREATEST) as usize;
        self.six_digits += numbers.iter().any(|&x| x >= 100_000) as usize;
        match call {
            Call::Add { list, .. } | Call::Requalify { list, .. } => {
                let different: BTreeSet<&u64> = list.iter().collect();
                self.empty += list.is_empty() as usize;
                self.repeated += (different.len() < list.len()) as usize;
                self.above_24 += (list.len() > 24) as usize;
                self.of_25 += (list.len() == 25) as usize;
                self.above_25 += (list.len() > 25) as usize;
                if list.len() > 24 && sheet.instruments() == 24 {
                    let front: BTreeSet<u64> = list[..24].iter().copied().collect();
                    self.all_and_more += front.into_iter().eq(1..=24) as usize;
                }
            }
            Call::Balance { entries } | Call::Settle { entries } => {
                self.entries.list(*entries, sheet.batches().len());
            }
            _ => {}
        }
    }

    /// A whole journal's answers.
    fn answers(&mut self, text: &[u8]) {
        let lines = text.split_inclusive(|&b| b == b'\n').map(<[u8]>::len);
        self.most_calls = self.most_calls.max(lines.clone().count());
        self.most_line = self.most_line.max(lines.max().unwrap_or(0));
        self.most_bytes = self.most_bytes.max(text.len());
    }

    fn add(&mut self, other: &Arguments) {
        self.empty += other.empty;
        self.repeated += other.repeated;
        self.above_24 += other.above_24;
        self.of_25 += other.of_25;
        self.above_25 += other.above_25;
        self.all_and_more += other.all_and_more;
        self.greatest += other.greatest;
        self.six_digits += other.six_digits;
        self.entries.add(&other.entries);
        self.most_calls = self.most_calls.max(other.most_calls);
        self.most_bytes = self.most_bytes.max(other.most_bytes);
        self.most_line = self.most_line.max(other.most_line);
    }
}

/// What the sheets were that runs started from and left.
#[derive(Clone, Debug, Default)]
pub struct Left {
    /// Places left blank at the start.
    pub blank: usize,
    /// Sheets that the run changed, other than by filling in places, and those
    /// that it did not.
    pub changed: usize,
    pub kept: usize,
    /// Sheets left without a batch and with 200.
    pub empty: usize,
    pub full: usize,
    /// Sheets with a calibration above 0.
    pub calibrated: usize,
    /// Batches left on another instrument than the lowest listed, and started.
    pub elsewhere: usize,
    pub started: usize,
}

impl Left {
    fn sheet(&mut self, file: &[u8], sheet: &Sheet, written: &[u8]) {
        self.blank += gen::blank_places(file);
        if written == gen::with_places(file) {
            self.kept += 1;
        } else {
            self.changed += 1;
        }
        self.empty += sheet.batches().is_empty() as usize;
        self.full += (sheet.batches().len() == Sheet::BATCHES) as usize;
        self.calibrated += sheet.calibrations().iter().any(|&c| c > 0) as usize;
        for batch in sheet.batches() {
            self.elsewhere += (batch.place != batch.list[0]) as usize;
            self.started += batch.started as usize;
        }
    }

    fn add(&mut self, other: &Left) {
        self.blank += other.blank;
        self.changed += other.changed;
        self.kept += other.kept;
        self.empty += other.empty;
        self.full += other.full;
        self.calibrated += other.calibrated;
        self.elsewhere += other.elsewhere;
        self.started += other.started;
    }
}

impl Met {
    fn add(&mut self, other: Met) {
        self.pairs += other.pairs;
        for (ours, theirs) in self.calls.iter_mut().zip(other.calls) {
            for (ours, theirs) in ours.iter_mut().zip(theirs) {
                for (sum, count) in ours.iter_mut().zip(theirs) {
                    *sum += count;
                }
            }
        }
        self.lines.extend(other.lines);
        self.seen.add(&other.seen);
        self.arguments.add(&other.arguments);
        self.left.add(&other.left);
    }

    /// What a test prints of it.
    pub fn summary(&self) -> String {
        let met = |calls: &Calls| {
            let refusals = (0..calls.len()).filter(|&k| calls[k] != [0; 4]);
            refusals.map(|k| (k, calls[k])).collect::<Vec<_>>()
        };
        let [ran, wrote] = self.calls.each_ref().map(met);
        let (pairs, lines) = (self.pairs, self.lines.len());
        format!(
            "{pairs} sheets with journals, runs by refusal {ran:?}, writings {wrote:?}, bad at \
             {lines} lines; {:?}; {:?}; {:?}",
            self.seen, self.arguments, self.left
        )
    }
}

/// Spread work over two threads, each with judges of its own: `work` gets the
/// number of a share, from 0 on.
fn judged(shares: u64, work: impl Fn(u64, &mut Judges, &mut Met) + Sync) -> Met {
    let start = || (Judges::default(), Met::default());
    let states = shared(shares, start, |share, (judges, met)| {
        work(share, judges, met)
    });
    let mut total = Met::default();
    states.into_iter().for_each(|(_, met)| total.add(met));
    total
}

/// Compare the runs of many shares, `make` giving those of each: the answers,
/// and the sheet that the run leaves. One run in eight is made with all buffers,
/// the others with one that is long enough.
pub fn compare(shares: u64, make: impl Fn(u64) -> Vec<Case> + Sync) -> Met {
    judged(shares, |share, judges, met| {
        for (k, case) in make(share).into_iter().enumerate() {
            let mut sheet = second::read(&case.sheet).expect("a sheet without a fault");
            let mut text = Vec::new();
            for call in &case.calls {
                met.arguments.call(call, &sheet);
                let answer = second::apply(&mut sheet, call);
                met.seen.answer(call, &answer, sheet.instruments());
                put_answer(&mut text, &answer);
            }
            let journal = journal(&case.calls);
            assert_eq!(read(&journal).as_ref(), Ok(&case.calls), "the form itself");
            met.arguments.answers(&text);
            let written = second::write(&sheet);
            met.left.sheet(&case.sheet, &sheet, &written);
            let spare = 1 + k % 99;
            let rooms = match k % 8 {
                7 => Rooms::All(spare),
                1 | 4 => Rooms::Longer(spare),
                _ => Rooms::Exact,
            };
            let dues = [text, written].map(Due::Text);
            judges.rooms(&case.sheet, &journal, &dues, rooms, met);
        }
    })
}

/// Compare pairs of a sheet and a journal, both of any bytes.
pub fn compare_bytes(shares: u64, make: impl Fn(u64) -> Vec<(Vec<u8>, Vec<u8>)> + Sync) -> Met {
    judged(shares, |share, judges, met| {
        for (k, (sheet, journal)) in make(share).into_iter().enumerate() {
            let dues = dues(&sheet, &journal);
            let rooms = Rooms::All(1 + (share as usize + k) % 2_999);
            judges.rooms(&sheet, &journal, &dues, rooms, met);
        }
    })
}
