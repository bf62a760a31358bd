//! What is wrong for the call that writes the sheet.

use host::journal::read;
use host::runs::{Runner, BAD_JOURNAL};
use host::{run, Hosted};
use second::{gen, Answer, Call, Draft};

use crate::{Cheat, SHORT};

/// What is written, changed by way of what it says, to as many bytes.
fn changed(made: Hosted, text: &mut [u8], change: impl FnOnce(&mut Draft)) -> Hosted {
    if made.refusal == 0 {
        let text = &mut text[..made.length];
        let mut draft = Draft::from(&second::read(text).expect("a sheet"));
        change(&mut draft);
        text.copy_from_slice(&draft.render());
    }
    made
}

/// The same, where what is said may need more bytes or fewer.
fn respelt(
    call: Runner,
    sheet: &[u8],
    journal: &[u8],
    text: &mut [u8],
    change: impl FnOnce(&mut Draft),
) -> Hosted {
    let mut whole = vec![0; 10_000];
    let made = call(sheet, journal, &mut whole);
    if made.refusal != 0 {
        return made;
    }
    let mut draft = Draft::from(&second::read(&whole[..made.length]).expect("a sheet"));
    change(&mut draft);
    let other = draft.render();
    let Some(front) = text.get_mut(..other.len()) else {
        return SHORT;
    };
    front.copy_from_slice(&other);
    Hosted {
        length: other.len(),
        ..made
    }
}

/// The journal without the calls that are not to be made; one that is not of
/// the form stays as it is.
fn without(sheet: &[u8], journal: &[u8], mut made: impl FnMut(&Call, &Answer) -> bool) -> Vec<u8> {
    let (Ok(mut sheet), Ok(calls)) = (second::read(sheet), read(journal)) else {
        return journal.to_vec();
    };
    let lines = journal.split_inclusive(|&b| b == b'\n').zip(calls);
    let kept = lines.filter(|(_, call)| made(call, &second::apply(&mut sheet, call)));
    kept.flat_map(|(line, _)| line.to_vec()).collect()
}

/// The journal with a line put before or after each of the calls that are meant.
fn beside(journal: &[u8], meant: fn(&Call) -> bool, before: &[u8], after: &[u8]) -> Vec<u8> {
    let Ok(calls) = read(journal) else {
        return journal.to_vec();
    };
    let lines = journal.split_inclusive(|&b| b == b'\n').zip(&calls);
    let with = lines.flat_map(|(line, call)| match meant(call) {
        true => [before, line, after].concat(),
        false => line.to_vec(),
    });
    with.collect()
}

fn balances(call: &Call) -> bool {
    matches!(call, Call::Balance { .. })
}

fn settles(call: &Call) -> bool {
    matches!(call, Call::Settle { .. })
}

pub const WRITTEN: [Cheat; 30] = [
    ("writes the answers", |_, sheet, journal, text| {
        run(sheet, journal, text)
    }),
    (
        "gives back the file of an empty journal",
        |call, sheet, journal, text| {
            let made = call(sheet, journal, text);
            if made.refusal == 0 && journal.is_empty() {
                text[..made.length].copy_from_slice(sheet);
            }
            made
        },
    ),
    (
        "writes 0 for a calibration",
        |call, sheet, journal, text| {
            changed(call(sheet, journal, text), text, |draft| {
                draft.calibrations.fill(0);
            })
        },
    ),
    (
        "writes the calibrations backwards",
        |call, sheet, journal, text| {
            changed(call(sheet, journal, text), text, |draft| {
                draft.calibrations.reverse();
            })
        },
    ),
    (
        "writes the first calibration for all",
        |call, sheet, journal, text| {
            changed(call(sheet, journal, text), text, |draft| {
                let first = draft.calibrations[0];
                draft.calibrations.fill(first);
            })
        },
    ),
    ("writes 0 for a mark", |call, sheet, journal, text| {
        changed(call(sheet, journal, text), text, |draft| {
            draft.lines.iter_mut().for_each(|line| line.mark = 0);
        })
    }),
    ("writes 1 for a mark", |call, sheet, journal, text| {
        changed(call(sheet, journal, text), text, |draft| {
            draft.lines.iter_mut().for_each(|line| line.mark = 1);
        })
    }),
    (
        "writes the marks of the sheet that was read",
        |call, sheet, journal, text| {
            let made = call(sheet, journal, text);
            changed(made, text, |draft| {
                let first = second::read(sheet).expect("a sheet");
                for (line, batch) in draft.lines.iter_mut().zip(first.batches()) {
                    line.mark = batch.started as u32;
                }
            })
        },
    ),
    (
        "writes a started batch's place for its list",
        |call, sheet, journal, text| {
            respelt(call, sheet, journal, text, |draft| {
                for line in draft.lines.iter_mut().filter(|line| line.started()) {
                    line.list = line.place.into_iter().collect();
                }
            })
        },
    ),
    ("leaves out the marks", |call, sheet, journal, text| {
        let mut whole = vec![0; 10_000];
        let mut made = call(sheet, journal, &mut whole);
        if made.refusal == 0 {
            whole.truncate(made.length);
            for at in gen::marks(&whole).into_iter().rev() {
                whole.drain(at..at + 6);
            }
            let Some(front) = text.get_mut(..whole.len()) else {
                return SHORT;
            };
            front.copy_from_slice(&whole);
            made.length = whole.len();
        }
        made
    }),
    ("enters no start", |call, sheet, journal, text| {
        let starts = |call: &Call| matches!(call, Call::Start { .. });
        let journal = without(sheet, journal, |call, _| !starts(call));
        call(sheet, &journal, text)
    }),
    ("leaves out line 2", |call, sheet, journal, text| {
        let mut whole = vec![0; 10_000];
        let mut made = call(sheet, journal, &mut whole);
        if made.refusal == 0 {
            whole.truncate(made.length);
            let second = whole[13..].iter().position(|&b| b == b'\n').unwrap();
            whole.drain(13..13 + second + 1);
            let Some(front) = text.get_mut(..whole.len()) else {
                return SHORT;
            };
            front.copy_from_slice(&whole);
            made.length = whole.len();
        }
        made
    }),
    ("writes 0 for a place", |call, sheet, journal, text| {
        changed(call(sheet, journal, text), text, |draft| {
            draft.lines.iter_mut().for_each(|line| line.place = Some(0));
        })
    }),
    ("leaves a place blank", |call, sheet, journal, text| {
        changed(call(sheet, journal, text), text, |draft| {
            draft.lines.iter_mut().for_each(|line| line.place = None);
        })
    }),
    (
        "leaves the place of the lowest listed blank",
        |call, sheet, journal, text| {
            changed(call(sheet, journal, text), text, |draft| {
                for line in &mut draft.lines {
                    line.place = line.place.filter(|&place| place != line.list[0]);
                }
            })
        },
    ),
    (
        "writes the lowest listed for a place",
        |call, sheet, journal, text| {
            changed(call(sheet, journal, text), text, |draft| {
                for line in &mut draft.lines {
                    line.place = Some(line.list[0]);
                }
            })
        },
    ),
    (
        "writes the places before the calls",
        |call, sheet, journal, text| {
            let made = call(sheet, journal, text);
            changed(made, text, |draft| {
                let first = second::read(sheet).expect("a sheet");
                for (line, batch) in draft.lines.iter_mut().zip(first.batches()) {
                    if line.list.contains(&batch.place) {
                        line.place = Some(batch.place);
                    }
                }
            })
        },
    ),
    ("writes a list backwards", |call, sheet, journal, text| {
        changed(call(sheet, journal, text), text, |draft| {
            draft.lines.iter_mut().for_each(|line| line.list.reverse());
        })
    }),
    (
        "puts the place first in its list",
        |call, sheet, journal, text| {
            changed(call(sheet, journal, text), text, |draft| {
                for line in &mut draft.lines {
                    line.list.sort_by_key(|&j| Some(j) != line.place);
                }
            })
        },
    ),
    (
        "writes the number of batches before the calls",
        |call, sheet, journal, text| {
            let made = call(sheet, journal, text);
            if made.refusal == 0 {
                text[6..12].copy_from_slice(&sheet[6..12]);
            }
            made
        },
    ),
    ("leaves out the last line", |call, sheet, journal, text| {
        let mut whole = vec![0; 10_000];
        let made = call(sheet, journal, &mut whole);
        if made.refusal != 0 {
            return made;
        }
        let lines = whole[..made.length].split_inclusive(|&b| b == b'\n');
        let last = lines.last().expect("a line").len();
        let length = made.length - last;
        if text.len() < length {
            return SHORT;
        }
        text[..length].copy_from_slice(&whole[..length]);
        Hosted { length, ..made }
    }),
    ("ends in an empty line", |call, sheet, journal, text| {
        let made = call(sheet, journal, text);
        match text.get_mut(made.length) {
            Some(next) if made.refusal == 0 => {
                *next = b'\n';
                Hosted {
                    length: made.length + 1,
                    ..made
                }
            }
            _ => made,
        }
    }),
    ("enters no balance", |call, sheet, journal, text| {
        let journal = without(sheet, journal, |call, _| !balances(call));
        call(sheet, &journal, text)
    }),
    ("enters no settling", |call, sheet, journal, text| {
        let journal = without(sheet, journal, |call, _| !settles(call));
        call(sheet, &journal, text)
    }),
    ("settles after a balance", |call, sheet, journal, text| {
        let journal = beside(journal, balances, b"", b"     8   200\n");
        call(sheet, &journal, text)
    }),
    ("balances before settling", |call, sheet, journal, text| {
        let journal = beside(journal, settles, b"     7   200\n", b"");
        call(sheet, &journal, text)
    }),
    ("enters no edit", |call, sheet, journal, text| {
        let journal = without(sheet, journal, |_, answer| *answer != Answer::Done);
        call(sheet, &journal, text)
    }),
    (
        "enters a trial as a balance",
        |call, sheet, journal, text| {
            let trial = |call: &Call| matches!(call, Call::Trial { .. });
            let journal = beside(journal, trial, b"", b"     7   200\n");
            call(sheet, &journal, text)
        },
    ),
    (
        "ends the run at a refused call",
        |call, sheet, journal, text| {
            let mut refused = false;
            let journal = without(sheet, journal, |_, answer| {
                refused |= matches!(answer, Answer::Refused(_));
                !refused
            });
            call(sheet, &journal, text)
        },
    ),
    (
        "writes no sheet after a refused call",
        |call, sheet, journal, text| {
            let good = without(sheet, journal, |_, answer| {
                !matches!(answer, Answer::Refused(_))
            });
            match read(journal) {
                Ok(_) if good != journal => Hosted {
                    refusal: BAD_JOURNAL,
                    line: 1,
                    length: 0,
                },
                _ => call(sheet, journal, text),
            }
        },
    ),
];
