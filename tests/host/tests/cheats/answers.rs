//! What is wrong for the call that writes the answers.

use host::journal::{put_answer, read};
use host::{run, write, Hosted};
use second::{Answer, Batch, Call, Move, Refusal, Sheet};

use crate::{Cheat, SHORT};

/// The second planner's answers, each changed; `change` also gets the call and the
/// sheet that it left.
fn answering(
    sheet: &[u8],
    journal: &[u8],
    text: &mut [u8],
    mut change: impl FnMut(&Call, &Sheet, &mut Answer),
) -> Hosted {
    let (Ok(mut on), Ok(calls)) = (second::read(sheet), read(journal)) else {
        return run(sheet, journal, text);
    };
    let mut answers = Vec::new();
    for call in &calls {
        let mut answer = second::apply(&mut on, call);
        change(call, &on, &mut answer);
        put_answer(&mut answers, &answer);
    }
    let Some(front) = text.get_mut(..answers.len()) else {
        return SHORT;
    };
    front.copy_from_slice(&answers);
    Hosted {
        refusal: 0,
        line: 0,
        length: answers.len(),
    }
}

/// Those answers with another one for each refusal that `other` has one for.
fn refusing(
    sheet: &[u8],
    journal: &[u8],
    text: &mut [u8],
    other: impl Fn(&Call, &Sheet, Refusal) -> Option<Answer>,
) -> Hosted {
    answering(sheet, journal, text, |call, after, answer| {
        if let Answer::Refused(refusal) = *answer {
            if let Some(other) = other(call, after, refusal) {
                *answer = other;
            }
        }
    })
}

/// Those answers with their records changed.
fn recording(
    sheet: &[u8],
    journal: &[u8],
    text: &mut [u8],
    change: impl Fn(&mut Vec<Move>),
) -> Hosted {
    answering(sheet, journal, text, |_, _, answer| match answer {
        Answer::Balance(balanced) => change(&mut balanced.records),
        Answer::Settle(settled) => change(&mut settled.records),
        _ => {}
    })
}

pub const ANSWERS: [Cheat; 21] = [
    ("judges 11 before 6", |_, sheet, journal, text| {
        refusing(sheet, journal, text, |call, after, refusal| {
            let started = after.batches().iter().any(|b| b.started);
            match (call, refusal) {
                (Call::Add { .. }, _) => None,
                (_, Refusal::NoBatch) if started => Some(Answer::Refused(Refusal::Started)),
                _ => None,
            }
        })
    }),
    ("takes 6 for 11", |_, sheet, journal, text| {
        refusing(sheet, journal, text, |_, _, refusal| {
            (refusal == Refusal::Started).then_some(Answer::Refused(Refusal::NoBatch))
        })
    }),
    ("judges a list before 11", |_, sheet, journal, text| {
        refusing(sheet, journal, text, |call, after, refusal| {
            let mut probe = Sheet::empty(after.instruments()).expect("instruments");
            match (call, refusal) {
                (Call::Requalify { list, .. }, Refusal::Started) => {
                    probe.add(1, list).err().map(Answer::Refused)
                }
                _ => None,
            }
        })
    }),
    ("judges a place before 11", |_, sheet, journal, text| {
        refusing(sheet, journal, text, |call, after, refusal| {
            let Call::Move { number, instrument } = *call else {
                return None;
            };
            let listed = |b: &Batch| b.list.iter().any(|&j| j as u64 == instrument);
            let bad = refusal == Refusal::Started && !listed(&after.batches()[number as usize - 1]);
            bad.then_some(Answer::Refused(Refusal::Place))
        })
    }),
    (
        "moves a started batch to where it is",
        |_, sheet, journal, text| {
            refusing(sheet, journal, text, |call, after, refusal| {
                let Call::Move { number, instrument } = *call else {
                    return None;
                };
                let there = refusal == Refusal::Started
                    && after.batches()[number as usize - 1].place as u64 == instrument;
                there.then_some(Answer::Done)
            })
        },
    ),
    ("starts a started batch", |_, sheet, journal, text| {
        refusing(sheet, journal, text, |call, _, refusal| {
            let again = matches!(call, Call::Start { .. }) && refusal == Refusal::Started;
            again.then_some(Answer::Done)
        })
    }),
    ("withdraws a started batch", |_, sheet, journal, text| {
        refusing(sheet, journal, text, |call, _, refusal| {
            let done = matches!(call, Call::Withdraw { .. }) && refusal == Refusal::Started;
            done.then_some(Answer::Done)
        })
    }),
    ("leaves out the last record", |_, sheet, journal, text| {
        recording(sheet, journal, text, |records| {
            records.pop();
        })
    }),
    ("leaves out the records", |_, sheet, journal, text| {
        recording(sheet, journal, text, Vec::clear)
    }),
    ("gives records descending", |_, sheet, journal, text| {
        recording(sheet, journal, text, |records| records.reverse())
    }),
    ("gives the new place first", |_, sheet, journal, text| {
        recording(sheet, journal, text, |records| {
            for record in records {
                (record.from, record.to) = (record.to, record.from);
            }
        })
    }),
    (
        "gives records of batches from 0",
        |_, sheet, journal, text| {
            recording(sheet, journal, text, |records| {
                for record in records {
                    record.batch -= 1;
                }
            })
        },
    ),
    ("counts records as moves", |_, sheet, journal, text| {
        answering(sheet, journal, text, |_, _, answer| {
            if let Answer::Settle(settled) = answer {
                settled.moves = settled.records.len() as u64;
            }
        })
    }),
    ("balances to a settled finish", |_, sheet, journal, text| {
        answering(sheet, journal, text, |_, after, answer| {
            if let Answer::Balance(balanced) = answer {
                balanced.finish = second::settle(&mut after.clone(), 200).unwrap().finish;
            }
        })
    }),
    (
        "keeps the standing plan with a small floor",
        |_, sheet, journal, text| {
            // Where balance is the first call.
            let mut first = second::read(sheet).ok();
            answering(sheet, journal, text, |_, after, answer| {
                if let (Answer::Balance(balanced), Some(standing)) = (answer, first.take()) {
                    balanced.finish = standing.finish();
                    balanced.floor = after.longest();
                    balanced.group = None;
                    balanced.level = standing.finish();
                    (balanced.raises, balanced.bumps) = (0, 0);
                    balanced.records.clear();
                }
            })
        },
    ),
    ("gives a floor by the longest", |_, sheet, journal, text| {
        answering(sheet, journal, text, |_, after, answer| {
            if let Answer::Balance(balanced) = answer {
                balanced.floor = after.longest();
            }
        })
    }),
    ("gives no group", |_, sheet, journal, text| {
        answering(sheet, journal, text, |_, _, answer| {
            if let Answer::Balance(balanced) = answer {
                balanced.group = None;
            }
        })
    }),
    ("gives bumps for raises", |_, sheet, journal, text| {
        answering(sheet, journal, text, |_, _, answer| {
            if let Answer::Balance(balanced) = answer {
                balanced.raises = balanced.bumps;
            }
        })
    }),
    (
        "gives the moves in six columns",
        |call, sheet, journal, text| {
            let Ok(calls) = read(journal) else {
                return call(sheet, journal, text);
            };
            let mut all = vec![0; 10_000];
            let made = call(sheet, journal, &mut all);
            let mut narrow = Vec::new();
            for (line, call) in all[..made.length]
                .split_inclusive(|&b| b == b'\n')
                .zip(calls)
            {
                match call {
                    Call::Settle { .. } if line.len() > 24 => {
                        narrow.extend([&line[..12], &line[18..]].concat());
                    }
                    _ => narrow.extend(line),
                }
            }
            let Some(front) = text.get_mut(..narrow.len()) else {
                return if made.refusal == 0 { SHORT } else { made };
            };
            front.copy_from_slice(&narrow);
            Hosted {
                length: narrow.len(),
                ..made
            }
        },
    ),
    (
        "makes each call on the first sheet",
        |call, sheet, journal, text| {
            let whole = call(sheet, journal, text);
            if whole.refusal == 0 {
                let mut at = 0;
                for line in journal.split_inclusive(|&b| b == b'\n') {
                    at += call(sheet, line, &mut text[at..]).length;
                }
            }
            whole
        },
    ),
    ("writes the sheet", |_, sheet, journal, text| {
        write(sheet, journal, text)
    }),
];
