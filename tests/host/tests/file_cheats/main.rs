//! Balance and settle on files that are right but for one thing, and must be
//! caught.

mod either;
mod own;

use host::astray::{self, Ways, WAYS};
use host::filed::{balance_due, settle_due, Answer, Calls, Due, Filer, Judge, Made, Rooms};
use host::{balance, settle, Balanced, Move, Settled, SHEET, STARTED};
use second::Sheet;

use either::either;
use own::{BALANCE, SETTLE};

/// What cheats change in either answer.
trait Common: Answer {
    fn due(sheet: &[u8]) -> Due<Self>;
    fn line(&mut self) -> &mut usize;
    fn length(&mut self) -> &mut usize;
    fn finish(&mut self) -> &mut u32;
    fn count(&mut self) -> &mut usize;
}

impl Common for Balanced {
    fn due(sheet: &[u8]) -> Due<Balanced> {
        balance_due(sheet)
    }

    fn line(&mut self) -> &mut usize {
        &mut self.line
    }

    fn length(&mut self) -> &mut usize {
        &mut self.length
    }

    fn finish(&mut self) -> &mut u32 {
        &mut self.finish
    }

    fn count(&mut self) -> &mut usize {
        &mut self.records
    }
}

impl Common for Settled {
    fn due(sheet: &[u8]) -> Due<Settled> {
        settle_due(sheet)
    }

    fn line(&mut self) -> &mut usize {
        &mut self.line
    }

    fn length(&mut self) -> &mut usize {
        &mut self.length
    }

    fn finish(&mut self) -> &mut u32 {
        &mut self.finish
    }

    fn count(&mut self) -> &mut usize {
        &mut self.records
    }
}

/// What it does wrong with the call that it is given.
type Cheat<A> = (
    &'static str,
    fn(Filer<A>, &[u8], &mut [Move], &mut [u8]) -> A,
);

/// What the second planner makes of a sheet, changed and put where it goes.
fn made<A: Common>(
    sheet: &[u8],
    moves: &mut [Move],
    written: &mut [u8],
    change: impl FnOnce(&mut Made<A>),
) -> A {
    let mut due = A::due(sheet);
    if let Due::Made(made) = &mut due {
        change(made);
    }
    let (answer, records, text) = due.at(moves.len(), written.len());
    moves[..records.len()].copy_from_slice(records);
    written[..text.len()].copy_from_slice(text);
    answer
}

/// The sheet of a file without a fault.
fn sheet_of(sheet: &[u8]) -> Sheet {
    second::read(sheet).expect("a sheet without a fault")
}

/// Leave another sheet than is due: the records, the text and the finish are
/// those of it.
fn leave<A: Common>(sheet: &[u8], made: &mut Made<A>, left: &Sheet) {
    let places = sheet_of(sheet).places().into_iter().zip(left.places());
    let records = places.zip(1..).filter(|((from, to), _)| from != to);
    made.records = records
        .map(|((from, to), batch)| Move { batch, from, to })
        .collect();
    made.written = second::write(left);
    *made.answer.count() = made.records.len();
    *made.answer.finish() = left.finish();
}

/// Does a call pass for the one that it is to be, on a few sheets?
fn verdict<A: Common>(call: impl Fn(&[u8], &mut [Move], &mut [u8]) -> A) -> Result<(), String> {
    let sheets = [
        SHEET,
        // A group of one, nothing to do.
        "     2     3\n     0     0\n    10     1     0     1     1\n    10     0     0     1     1\n    10     1     0     1     1\n",
        // Balance makes more bumps than raises.
        "     2     2\n     0     0\n    30     0     0     1     1\n    20     0     0     2     1     2\n",
        // Balance moves two batches.
        "     3     3
     0     0     0
    30     1     0     3     1     2     3
    30           0     3     1     2     3
    30     1     0     3     1     2     3
",
        // Balance leaves it with a group of two, settle moves two batches.
        "     2     4
     0     0
     2     2     0     1     2
     4     1     0     2     1     2
     5     1     0     2     1     2
     2     2     0     2     1     2
",
        // Of two batches that gain the second is longer.
        "     2     2\n     0     0\n     3     1     0     2     1     2\n     4     1     0     2     1     2\n",
        // Settling moves a batch away and back.
        "     3     4
     0     0     0
     1     3     0     1     3
     4     3     0     2     2     3
     2     2     0     1     2
     2     3     0     2     1     3
",
        "     2     0\n     0     0\n",
        &SHEET.replace("    20", "  1441"),
        "",
        // A calibration is bumped in the trial kept.
        "     3     1\n    10     0    10\n    20     3     0     3     1     2     3\n",
        // One is longer than any batch.
        "     2     2\n    40     7\n    30     1     0     2     1     2\n     5     2     0     1     2\n",
        // They show the floor of a group.
        "     3     3
    25    25     0
    30     1     0     2     1     2
    30     2     0     2     1     2
    10     1     0     3     1     2     3
",
        "     2     0\n   240   239\n",
        &SHEET.replace("     0     0", "     0   241"),
        // One started batch, all started, a bad mark, and no place beside a mark.
        STARTED,
        &SHEET.replace("1     0     ", "1     1     "),
        &SHEET.replace("20     1     0", "20     1     2"),
        &SHEET.replace("20     1     0", "20     0     1"),
    ];
    let mut judge = Judge::new(call);
    for sheet in sheets {
        let due = A::due(sheet.as_bytes());
        judge.rooms(sheet.as_bytes(), &due, Rooms::All, &mut Calls::default())?;
    }
    Ok(())
}

/// Each is caught, and the honest call is not.
fn caught<A: Common>(honest: Filer<A>, cheats: impl IntoIterator<Item = Cheat<A>>) {
    assert_eq!(verdict(honest), Ok(()));
    for (name, cheat) in cheats {
        let found = verdict(|sheet, moves, written| cheat(honest, sheet, moves, written));
        assert!(found.is_err(), "not caught: {name}");
    }
}

/// Ways to count calibrations and started batches, of which the first is right. The
/// last three are no matter of a single call on a file, or have a cheat above.
fn ways() -> impl Iterator<Item = (usize, (&'static str, Ways))> {
    WAYS.into_iter().take(14).enumerate()
}

#[test]
fn ways_of_balance_are_caught() {
    for (k, (name, ways)) in ways() {
        let found = verdict(|sheet, moves, written| {
            made(sheet, moves, written, |made: &mut Made<Balanced>| {
                let mut left = sheet_of(sheet);
                let balanced = astray::balance(&mut left, ways);
                leave(sheet, made, &left);
                let group = balanced.group.unwrap_or_default();
                made.answer.finish = balanced.finish;
                made.answer.floor = balanced.floor;
                made.answer.level = balanced.level;
                (made.answer.raises, made.answer.bumps) = (balanced.raises, balanced.bumps);
                made.answer.size = group.len();
                made.answer.group = [0; 24];
                for (byte, &j) in made.answer.group.iter_mut().zip(&group) {
                    *byte = j as u8;
                }
            })
        });
        // The total is for single trials alone, and who gains for settling.
        let right = k == 0 || !ways.total || ways.gains;
        assert_eq!(found.is_ok(), right, "{name}: {found:?}");
    }
}

#[test]
fn ways_of_settle_are_caught() {
    for (_, (name, ways)) in ways() {
        let found = verdict(|sheet, moves, written| {
            made(sheet, moves, written, |made: &mut Made<Settled>| {
                let mut left = sheet_of(sheet);
                let settled = astray::settle(&mut left, ways);
                leave(sheet, made, &left);
                made.answer.finish = settled.finish;
                made.answer.moves = settled.moves;
            })
        });
        // Settling goes by the loads and by who gains.
        assert_eq!(
            found.is_ok(),
            ways.loads && !ways.gains,
            "{name}: {found:?}"
        );
    }
}

#[test]
fn cheats_of_balance_are_caught() {
    caught(balance, either().into_iter().chain(BALANCE));
}

#[test]
fn cheats_of_settle_are_caught() {
    caught(settle, either().into_iter().chain(SETTLE));
}
