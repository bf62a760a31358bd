//! What is wrong for either call.

use host::astray;
use host::filed::{Due, Made};
use host::Move;
use second::{gen, Draft};

use crate::{leave, made, sheet_of, Cheat, Common};

pub fn either<A: Common>() -> Vec<Cheat<A>> {
    vec![
        (
            "writes an entry past the records",
            |call, sheet, moves, written| {
                let mut found = call(sheet, moves, written);
                let past = *found.count();
                if let (0, Some(next)) = (found.hosted().refusal, moves.get_mut(past)) {
                    *next = Move::default();
                }
                found
            },
        ),
        ("clears the last entry", |call, sheet, moves, written| {
            if let Some(last) = moves.last_mut() {
                *last = Move::default();
            }
            call(sheet, moves, written)
        }),
        (
            "writes a byte past the sheet",
            |call, sheet, moves, written| {
                let mut found = call(sheet, moves, written);
                let past = *found.length();
                if let (0, Some(next)) = (found.hosted().refusal, written.get_mut(past)) {
                    *next = 0;
                }
                found
            },
        ),
        ("clears the last byte", |call, sheet, moves, written| {
            if let Some(last) = written.last_mut() {
                *last = 0;
            }
            call(sheet, moves, written)
        }),
        (
            "fills the list beside a short buffer",
            |call, sheet, moves, written| {
                let found = call(sheet, moves, written);
                if let (9, Due::Made(made)) = (found.hosted().refusal, A::due(sheet)) {
                    if moves.len() >= made.batches {
                        moves[..made.records.len()].copy_from_slice(&made.records);
                    }
                }
                found
            },
        ),
        (
            "fills the buffer beside a short list",
            |call, sheet, moves, written| {
                let found = call(sheet, moves, written);
                if let (9, Due::Made(made)) = (found.hosted().refusal, A::due(sheet)) {
                    if written.len() >= made.written.len() {
                        written[..made.written.len()].copy_from_slice(&made.written);
                    }
                }
                found
            },
        ),
        ("writes for a bad sheet", |call, sheet, moves, written| {
            let found = call(sheet, moves, written);
            if (1..=5).contains(&found.hosted().refusal) {
                written.fill(b' ');
            }
            found
        }),
        (
            "writes for a bad calibration",
            |call, sheet, moves, written| {
                let found = call(sheet, moves, written);
                if found.hosted().refusal == 10 {
                    written.fill(b' ');
                }
                found
            },
        ),
        (
            "records for a bad calibration",
            |call, sheet, moves, written| {
                let found = call(sheet, moves, written);
                if found.hosted().refusal == 10 {
                    moves.fill(Move::default());
                }
                found
            },
        ),
        (
            "gives a bad calibration another line",
            |call, sheet, moves, written| {
                let mut found = call(sheet, moves, written);
                *found.line() += (found.hosted().refusal == 10) as usize;
                found
            },
        ),
        (
            "judges the list before a calibration",
            |call, sheet, moves, written| match A::due(sheet) {
                Due::Refused { refusal: 10, .. } if moves.is_empty() => A::refused(9, 0),
                _ => call(sheet, moves, written),
            },
        ),
        (
            "wants an entry for each calibration",
            |_, sheet, moves, written| {
                made(sheet, moves, written, |made: &mut Made<A>| {
                    made.batches += astray::calibrated(&sheet_of(sheet));
                })
            },
        ),
        ("writes 0 for a calibration", |_, sheet, moves, written| {
            made(sheet, moves, written, |made: &mut Made<A>| {
                let mut draft = Draft::from(&sheet_of(&made.written));
                draft.calibrations.fill(0);
                made.written = draft.render();
            })
        }),
        ("writes 0 for a mark", |_, sheet, moves, written| {
            made(sheet, moves, written, |made: &mut Made<A>| {
                let draft = Draft::from(&sheet_of(&made.written)).waiting();
                made.written = draft.render();
            })
        }),
        (
            "writes a started batch's place for its list",
            |_, sheet, moves, written| {
                made(sheet, moves, written, |made: &mut Made<A>| {
                    let mut draft = Draft::from(&sheet_of(&made.written));
                    for line in draft.lines.iter_mut().filter(|line| line.started()) {
                        line.list = line.place.into_iter().collect();
                    }
                    made.written = draft.render();
                    *made.answer.length() = made.written.len();
                })
            },
        ),
        (
            "wants no entry for a started batch",
            |_, sheet, moves, written| {
                made(sheet, moves, written, |made: &mut Made<A>| {
                    let sheet = sheet_of(sheet);
                    made.batches = sheet.batches().iter().filter(|b| !b.started).count();
                })
            },
        ),
        (
            "gives a record of a started batch",
            |_, sheet, moves, written| {
                made(sheet, moves, written, |made: &mut Made<A>| {
                    let sheet = sheet_of(sheet);
                    for (batch, number) in sheet.batches().iter().zip(1..) {
                        if batch.started {
                            made.records.push(Move {
                                batch: number,
                                from: batch.place,
                                to: batch.place,
                            });
                        }
                    }
                    made.records.sort_by_key(|record| record.batch);
                    *made.answer.count() = made.records.len();
                })
            },
        ),
        ("takes no notice of marks", |call, sheet, moves, written| {
            let mut sheet = sheet.to_vec();
            for at in gen::marks(&sheet) {
                if sheet[at..at + 6] == *b"     1" {
                    sheet[at + 5] = b'0';
                }
            }
            call(&sheet, moves, written)
        }),
        ("leaves out line 2", |_, sheet, moves, written| {
            made(sheet, moves, written, |made: &mut Made<A>| {
                let line = 6 * sheet_of(sheet).instruments() as usize + 1;
                made.written.drain(13..13 + line);
                *made.answer.length() -= line;
            })
        }),
        (
            "gives a record of a calibration",
            |_, sheet, moves, written| {
                made(sheet, moves, written, |made: &mut Made<A>| {
                    let sheet = sheet_of(sheet);
                    if astray::calibrated(&sheet) > 0 && made.records.len() < made.batches {
                        let batch = sheet.batches().len() as u32 + 1;
                        made.records.push(Move {
                            batch,
                            from: 1,
                            to: 1,
                        });
                        *made.answer.count() += 1;
                    }
                })
            },
        ),
        ("records for a bad sheet", |call, sheet, moves, written| {
            let found = call(sheet, moves, written);
            if (1..=5).contains(&found.hosted().refusal) {
                moves.fill(Move::default());
            }
            found
        }),
        (
            "judges the list before the sheet",
            |call, sheet, moves, written| match A::due(sheet) {
                Due::Refused { .. } if moves.is_empty() => A::refused(9, 0),
                _ => call(sheet, moves, written),
            },
        ),
        (
            "judges the buffer before the sheet",
            |call, sheet, moves, written| match A::due(sheet) {
                Due::Refused { .. } if written.is_empty() => A::refused(9, 0),
                _ => call(sheet, moves, written),
            },
        ),
        ("wants one entry more", |_, sheet, moves, written| {
            made(sheet, moves, written, |made: &mut Made<A>| {
                made.batches += 1;
            })
        }),
        (
            "wants an entry for each record alone",
            |_, sheet, moves, written| {
                made(sheet, moves, written, |made: &mut Made<A>| {
                    made.batches = made.records.len();
                })
            },
        ),
        (
            "fills what there is of a short list",
            |call, sheet, moves, written| {
                let mut all = [Move::default(); 200];
                let mut found = call(sheet, &mut all, written);
                let records = *found.count();
                for (entry, record) in moves.iter_mut().zip(&all[..records]) {
                    *entry = *record;
                }
                found
            },
        ),
        (
            "wants one byte more",
            |call, sheet, moves, written| match A::due(sheet) {
                Due::Made(made) if made.written.len() == written.len() => A::refused(9, 0),
                _ => call(sheet, moves, written),
            },
        ),
        ("gives a line with 9", |call, sheet, moves, written| {
            let mut found = call(sheet, moves, written);
            *found.line() += (found.hosted().refusal == 9) as usize;
            found
        }),
        (
            "gives a line with an answer",
            |call, sheet, moves, written| {
                let mut found = call(sheet, moves, written);
                *found.line() += (found.hosted().refusal == 0) as usize;
                found
            },
        ),
        ("counts lines from 0", |call, sheet, moves, written| {
            let mut found = call(sheet, moves, written);
            *found.line() -= (1..=5).contains(&found.hosted().refusal) as usize;
            found
        }),
        (
            "gives a length with a refusal",
            |call, sheet, moves, written| {
                let mut found = call(sheet, moves, written);
                *found.length() += (found.hosted().refusal != 0) as usize;
                found
            },
        ),
        (
            "gives a finish with a refusal",
            |call, sheet, moves, written| {
                let mut found = call(sheet, moves, written);
                *found.finish() += (found.hosted().refusal != 0) as u32;
                found
            },
        ),
        (
            "counts records with a refusal",
            |call, sheet, moves, written| {
                let mut found = call(sheet, moves, written);
                *found.count() += (found.hosted().refusal != 0) as usize;
                found
            },
        ),
        ("gives another finish", |_, sheet, moves, written| {
            made(sheet, moves, written, |made: &mut Made<A>| {
                *made.answer.finish() += 1;
            })
        }),
        ("counts one record more", |_, sheet, moves, written| {
            made(sheet, moves, written, |made: &mut Made<A>| {
                *made.answer.count() += 1;
            })
        }),
        ("leaves out the last record", |_, sheet, moves, written| {
            made(sheet, moves, written, |made: &mut Made<A>| {
                made.records.pop();
                *made.answer.count() = made.records.len();
            })
        }),
        ("leaves out the first record", |_, sheet, moves, written| {
            made(sheet, moves, written, |made: &mut Made<A>| {
                made.records = made.records.split_off(made.records.len().min(1));
                *made.answer.count() = made.records.len();
            })
        }),
        ("gives records descending", |_, sheet, moves, written| {
            made(sheet, moves, written, |made: &mut Made<A>| {
                made.records.reverse();
            })
        }),
        ("gives the new place first", |_, sheet, moves, written| {
            made(sheet, moves, written, |made: &mut Made<A>| {
                for record in &mut made.records {
                    (record.from, record.to) = (record.to, record.from);
                }
            })
        }),
        (
            "gives records of batches from 0",
            |_, sheet, moves, written| {
                made(sheet, moves, written, |made: &mut Made<A>| {
                    for record in &mut made.records {
                        record.batch -= 1;
                    }
                })
            },
        ),
        (
            "gives a record for every batch",
            |_, sheet, moves, written| {
                made(sheet, moves, written, |made: &mut Made<A>| {
                    let after = sheet_of(&made.written).places();
                    let places = sheet_of(sheet).places().into_iter().zip(after);
                    let record = |((from, to), batch)| Move { batch, from, to };
                    made.records = places.zip(1..).map(record).collect();
                    *made.answer.count() = made.records.len();
                })
            },
        ),
        ("writes the sheet as it was", |_, sheet, moves, written| {
            made(sheet, moves, written, |made: &mut Made<A>| {
                made.written = second::write(&sheet_of(sheet));
            })
        }),
        ("writes 0 for a place", |_, sheet, moves, written| {
            made(sheet, moves, written, |made: &mut Made<A>| {
                let mut draft = Draft::from(&sheet_of(&made.written));
                draft.lines.iter_mut().for_each(|line| line.place = Some(0));
                made.written = draft.render();
            })
        }),
        ("leaves out the last LF", |_, sheet, moves, written| {
            made(sheet, moves, written, |made: &mut Made<A>| {
                made.written.pop();
                *made.answer.length() -= 1;
            })
        }),
        (
            "puts batches on the lowest listed",
            |_, sheet, moves, written| {
                made(sheet, moves, written, |made: &mut Made<A>| {
                    let mut draft = Draft::from(&sheet_of(sheet));
                    draft.lines.iter_mut().for_each(|line| line.place = None);
                    leave(sheet, made, &draft.waiting().sheet());
                })
            },
        ),
    ]
}
