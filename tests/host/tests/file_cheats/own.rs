//! What is wrong for one of the two calls.

use host::filed::Made;
use host::{Balanced, Move, Settled};
use second::settle::next_move;
use second::Sheet;

use crate::{leave, made, sheet_of, Cheat};

pub const BALANCE: [Cheat<Balanced>; 10] = [
    (
        "keeps the standing plan with a small floor",
        |_, sheet, moves, written| {
            made(sheet, moves, written, |made: &mut Made<Balanced>| {
                let standing = sheet_of(sheet);
                leave(sheet, made, &standing);
                made.answer.floor = standing.longest();
                made.answer.level = standing.finish();
                (made.answer.raises, made.answer.bumps) = (0, 0);
                (made.answer.size, made.answer.group) = (0, [0; 24]);
            })
        },
    ),
    ("keeps the standing plan", |_, sheet, moves, written| {
        made(sheet, moves, written, |made: &mut Made<Balanced>| {
            leave(sheet, made, &sheet_of(sheet));
        })
    }),
    ("settles as well", |_, sheet, moves, written| {
        made(sheet, moves, written, |made: &mut Made<Balanced>| {
            let mut left = sheet_of(&made.written);
            second::settle(&mut left, 200).expect("entries enough");
            leave(sheet, made, &left);
        })
    }),
    ("gives the settled finish", |_, sheet, moves, written| {
        made(sheet, moves, written, |made: &mut Made<Balanced>| {
            let mut left = sheet_of(&made.written);
            let settled = second::settle(&mut left, 200).expect("entries enough");
            made.answer.finish = settled.finish;
        })
    }),
    (
        "gives a floor by the longest",
        |_, sheet, moves, written| {
            made(sheet, moves, written, |made: &mut Made<Balanced>| {
                made.answer.floor = sheet_of(sheet).longest();
            })
        },
    ),
    ("gives bumps for raises", |_, sheet, moves, written| {
        made(sheet, moves, written, |made: &mut Made<Balanced>| {
            made.answer.raises = made.answer.bumps;
        })
    }),
    (
        "gives the level of the last failure",
        |_, sheet, moves, written| {
            made(sheet, moves, written, |made: &mut Made<Balanced>| {
                made.answer.level -= (made.answer.size > 0) as u32;
            })
        },
    ),
    ("gives the group descending", |_, sheet, moves, written| {
        made(sheet, moves, written, |made: &mut Made<Balanced>| {
            let size = made.answer.size;
            made.answer.group[..size].reverse();
        })
    }),
    (
        "leaves something past the group",
        |_, sheet, moves, written| {
            made(sheet, moves, written, |made: &mut Made<Balanced>| {
                made.answer.group[23] = 1;
            })
        },
    ),
    (
        "gives a group with a refusal",
        |call, sheet, moves, written| {
            let mut found = call(sheet, moves, written);
            if found.refusal != 0 {
                (found.size, found.group[0]) = (1, 1);
            }
            found
        },
    ),
];

/// Settle as long as `next` says how; gives the batches that move, in order.
fn settling(sheet: &mut Sheet, next: impl Fn(&Sheet) -> Option<(usize, u32)>) -> Vec<usize> {
    let mut moved = Vec::new();
    while let Some((i, to)) = next(sheet) {
        sheet
            .shift(i as u64 + 1, to as u64)
            .expect("a listed place");
        moved.push(i);
    }
    moved
}

fn by_the_rule(sheet: &Sheet) -> Option<(usize, u32)> {
    next_move(sheet, &sheet.loads())
}

pub const SETTLE: [Cheat<Settled>; 8] = [
    ("leaves a gain", |_, sheet, moves, written| {
        made(sheet, moves, written, |made: &mut Made<Settled>| {
            let mut left = sheet_of(sheet);
            for _ in 1..made.answer.moves {
                let (i, to) = by_the_rule(&left).expect("a batch that gains");
                left.shift(i as u64 + 1, to as u64).expect("a listed place");
            }
            leave(sheet, made, &left);
            made.answer.moves = made.answer.moves.saturating_sub(1);
        })
    }),
    ("settles nothing", |_, sheet, moves, written| {
        made(sheet, moves, written, |made: &mut Made<Settled>| {
            leave(sheet, made, &sheet_of(sheet));
            made.answer.moves = 0;
        })
    }),
    (
        "moves the lowest batch that gains",
        |_, sheet, moves, written| {
            made(sheet, moves, written, |made: &mut Made<Settled>| {
                let mut left = sheet_of(sheet);
                let moved = settling(&mut left, |sheet| {
                    let number = second::review(sheet).gains?;
                    let loads = sheet.loads();
                    let batch = &sheet.batches()[number - 1];
                    let others = batch.list.iter().filter(|&&j| j != batch.place);
                    let to = others.min_by_key(|&&j| (loads[j as usize - 1], j))?;
                    Some((number - 1, *to))
                });
                leave(sheet, made, &left);
                made.answer.moves = moved.len() as u64;
            })
        },
    ),
    ("counts records as moves", |_, sheet, moves, written| {
        made(sheet, moves, written, |made: &mut Made<Settled>| {
            made.answer.moves = made.records.len() as u64;
        })
    }),
    ("counts moves as records", |_, sheet, moves, written| {
        made(sheet, moves, written, |made: &mut Made<Settled>| {
            made.answer.records = made.answer.moves as usize;
        })
    }),
    (
        "gives a record of a batch that returned",
        |_, sheet, moves, written| {
            made(sheet, moves, written, |made: &mut Made<Settled>| {
                let before = sheet_of(sheet).places();
                let mut moved = settling(&mut sheet_of(sheet), by_the_rule);
                moved.sort();
                moved.dedup();
                let after = sheet_of(&made.written).places();
                let record = |&i: &usize| Move {
                    batch: i as u32 + 1,
                    from: before[i],
                    to: after[i],
                };
                made.records = moved.iter().map(record).collect();
                made.answer.records = made.records.len();
            })
        },
    ),
    (
        "gives a record for each move",
        |_, sheet, moves, written| {
            made(sheet, moves, written, |made: &mut Made<Settled>| {
                let mut now = sheet_of(sheet);
                made.records.clear();
                while let Some((i, to)) = by_the_rule(&now) {
                    made.records.push(Move {
                        batch: i as u32 + 1,
                        from: now.batches()[i].place,
                        to,
                    });
                    now.shift(i as u64 + 1, to as u64).expect("a listed place");
                }
                made.answer.records = made.records.len();
            })
        },
    ),
    ("balances first", |_, sheet, moves, written| {
        made(sheet, moves, written, |made: &mut Made<Settled>| {
            let mut left = sheet_of(sheet);
            second::balance(&mut left, 200).expect("entries enough");
            let settled = second::settle(&mut left, 200).expect("entries enough");
            leave(sheet, made, &left);
            made.answer.moves = settled.moves;
        })
    }),
];
