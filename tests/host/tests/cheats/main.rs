//! Calls with a journal that are right but for one thing, and must be caught.

mod answers;
mod either;
mod written;

use host::astray::{self, Ways, WAYS};
use host::journal::{put_answer, read};
use host::runs::{dues, Calls, Judge, Rooms, Runner, BOTH};
use host::{run, Hosted, SHEET, STARTED};

use answers::ANSWERS;
use either::EITHER;
use written::WRITTEN;

/// What it does wrong with the call that it is given.
type Cheat = (&'static str, fn(Runner, &[u8], &[u8], &mut [u8]) -> Hosted);

const SHORT: Hosted = Hosted {
    refusal: 9,
    line: 0,
    length: 0,
};

/// The answers to a journal's calls made in this way; nothing where the sheet or
/// the journal has a fault.
fn astray(sheet: &[u8], journal: &[u8], ways: Ways) -> Option<Vec<u8>> {
    let (Ok(mut sheet), Ok(calls)) = (second::read(sheet), read(journal)) else {
        return None;
    };
    let mut answers = Vec::new();
    for call in &calls {
        put_answer(&mut answers, &astray::apply(&mut sheet, call, ways));
    }
    Some(answers)
}

/// Does a call pass for the one that it is to be, on a few sheets and journals?
fn verdict(which: usize, call: impl Fn(&[u8], &[u8], &mut [u8]) -> Hosted) -> Result<(), String> {
    let open = "     3     3
     0     0     0
    30     0     0     2     2     3
    20           0     3     1     2     3
    10     3     0     2     1     3
";
    // Balance leaves it, settle does not.
    let unsettled = "     2     4
     0     0
     2     2     0     1     2
     4     1     0     2     1     2
     5     1     0     2     1     2
     2     2     0     2     1     2
";
    // Settling moves a batch away and back.
    let returning = "     3     4
     0     0     0
     1     3     0     1     3
     4     3     0     2     2     3
     2     2     0     1     2
     2     3     0     2     1     3
";
    // Balance makes more bumps than raises.
    let bumps =
        "     2     2\n     0     0\n    30     0     0     1     1\n    20     0     0     2     1     2\n";
    let bad = SHEET.replace("    20", "  1441");
    // A calibration is bumped in a trial, another is longer than any batch.
    let bumped = "     3     1\n    10     0    10\n    20     3     0     3     1     2     3\n";
    let longer =
        "     2     2\n    40     7\n    30     1     0     2     1     2\n     5     2     0     1     2\n";
    // They show the floor of a group.
    let group = "     3     3
    25    25     0
    30     1     0     2     1     2
    30     2     0     2     1     2
    10     1     0     3     1     2     3
";
    let only = "     2     0\n   240   239\n";
    // One batch more is just taken.
    let full = format!(
        "     2   199\n     1     2\n{}",
        "     1     1     0     1     1\n".repeat(199)
    );
    let calibration = SHEET.replace("     0     0", "     0   241");
    let line_2 = SHEET.replace("     0     0\n", "");
    // One started batch, all started, a bad mark, and no place beside a mark.
    let all = SHEET.replace("1     0     ", "1     1     ");
    let mark = SHEET.replace("20     1     0", "20     1     2");
    let no_place = SHEET.replace("20     1     0", "20     0     1");
    let sheets = [
        SHEET,
        open,
        unsettled,
        returning,
        bumps,
        &bad,
        bumped,
        longer,
        group,
        only,
        &full,
        &calibration,
        &line_2,
        STARTED,
        &all,
        &mark,
        &no_place,
    ];
    let edits = "     4     1     2\n     2     9\n     3     3     1     2\n     2     2\n";
    let journals = [
        String::new(),
        "     5\n     4     1     2\n     5\n     7     4\n     8     4\n".into(),
        edits.into(),
        format!("{edits}     1    15     1     1\n     1    15     2     1     2\n     1    15     2     2     1\n"),
        "     4     1     2\n     6     0\n     5\n".into(),
        "     7     3\n     5\n".into(),
        "     8     4\n     5\n".into(),
        "     8     2\n     7     2\n     8     1\n".into(),
        "     6     0\n     6     5\n     6    82\n     6    83\n     6   479\n     6   480\n"
            .into(),
        "     5\n     7   199\n     8   199\n     5\n     1     9     1     1\n     7   200\n"
            .into(),
        "     9     3\n     8     3\n     9     3\n     4     3     1\n     4     3     3\n".into(),
        "     9     1\n     2     1\n     3     1     0\n     3     1     1     1\n     2     9\n     9     9\n".into(),
        format!("{edits}     7     9"),
        format!("{edits}     8     9\n     7\n{edits}"),
        format!("{edits}     9\n{edits}"),
        format!("{edits}     6      \n"),
    ];
    let mut judge = Judge::new(call);
    for sheet in sheets {
        for journal in &journals {
            let (sheet, journal) = (sheet.as_bytes(), journal.as_bytes());
            let due = &dues(sheet, journal)[which];
            judge.rooms(sheet, journal, due, Rooms::All(20), &mut Calls::default())?;
        }
    }
    Ok(())
}

/// Each is caught, and the honest calls are not.
#[test]
fn cheats_are_caught() {
    let own = [ANSWERS.as_slice(), &WRITTEN];
    for (which, honest) in BOTH.into_iter().enumerate() {
        assert_eq!(verdict(which, honest), Ok(()));
        for (name, cheat) in EITHER.iter().chain(own[which]) {
            let found = verdict(which, |sheet, journal, text| {
                cheat(honest, sheet, journal, text)
            });
            assert!(found.is_err(), "not caught: {name}");
        }
    }
    // Ways to count calibrations and started batches, of which the first is right.
    for (k, (name, ways)) in WAYS.into_iter().enumerate() {
        let found = verdict(0, |sheet, journal, text| {
            let Some(answers) = astray(sheet, journal, ways) else {
                return run(sheet, journal, text);
            };
            let Some(front) = text.get_mut(..answers.len()) else {
                return SHORT;
            };
            front.copy_from_slice(&answers);
            Hosted {
                refusal: 0,
                line: 0,
                length: answers.len(),
            }
        });
        assert_eq!(found.is_ok(), k == 0, "{name}: {found:?}");
    }
}
