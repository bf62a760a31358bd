//! Balance and settle on files: beside reading, the call on the sheet, and
//! writing, one after the other, with lists and buffers short and long.

use std::fmt::Debug;

use second::rng::Rng;
use second::*;

/// A call on a file, the same on a sheet, and its records.
struct Both<A> {
    on_file: fn(&[u8], &mut [Move], &mut [u8]) -> Result<(A, usize), Fault>,
    on_sheet: fn(&mut Sheet, u64) -> Result<A, Refusal>,
    records: fn(&A) -> &[Move],
}

/// An entry and a byte that no answer has.
const UNUSED: Move = Move {
    batch: 777,
    from: 888,
    to: 999,
};
const BYTE: u8 = 0xa5;

/// The call on a file with a list and a buffer of these sizes; gives its
/// refusal, 0 for none.
fn file_laws<A: Debug + PartialEq>(
    file: &[u8],
    entries: usize,
    room: usize,
    both: &Both<A>,
) -> u32 {
    let mut moves = vec![UNUSED; entries];
    let mut buffer = vec![BYTE; room];
    let found = (both.on_file)(file, &mut moves, &mut buffer);

    let (mut moves_due, mut buffer_due) = (vec![UNUSED; entries], vec![BYTE; room]);
    let lent = Fault {
        refusal: Refusal::Buffer,
        line: 0,
    };
    let due = match read(file) {
        Err(fault) => Err(fault),
        Ok(sheet) if entries < sheet.batches().len() => Err(lent),
        Ok(mut sheet) => {
            let answer = (both.on_sheet)(&mut sheet, 200).unwrap();
            let text = Draft::from(&sheet).render();
            if room < text.len() {
                Err(lent)
            } else {
                let records = (both.records)(&answer);
                moves_due.splice(..records.len(), records.iter().copied());
                buffer_due.splice(..text.len(), text.iter().copied());
                Ok((answer, text.len()))
            }
        }
    };
    assert_eq!((&moves, &buffer), (&moves_due, &buffer_due));
    assert_eq!(found, due);
    found.map_or_else(|fault| fault.refusal.number(), |_| 0)
}

#[test]
fn good_and_damaged() {
    let balancing = Both {
        on_file: balance_file,
        on_sheet: balance,
        records: |answer: &Balanced| &answer.records,
    };
    let settling = Both {
        on_file: settle_file,
        on_sheet: settle,
        records: |answer: &Settled| &answer.records,
    };
    let mut rng = Rng::new(61);
    let mut refusals = [0; 14];
    for round in 0..6_000 {
        let shape = match round % 100 {
            0 => gen::FULL,
            1..10 => gen::MEDIUM,
            _ => gen::SMALL,
        };
        let draft = gen::draft(&mut rng, shape);
        let mut file = draft.render();
        if round % 2 == 0 {
            gen::damage(&mut rng, &mut file);
        }
        let n = draft.lines.len();
        let list = [n.saturating_sub(1), n, n + 1, 0, 200];
        // Damage may change how long the sheet is that is written.
        let fit = file.len();
        let rooms = [fit.saturating_sub(1), fit, fit + 1, 0, 40_000];
        for (entries, room) in [
            (n, fit),
            (200, 40_000),
            (*rng.pick(&list), *rng.pick(&rooms)),
        ] {
            for refusal in [
                file_laws(&file, entries, room, &balancing),
                file_laws(&file, entries, room, &settling),
            ] {
                refusals[refusal as usize] += 1;
            }
        }
    }
    for number in [0, 1, 2, 3, 4, 5, 9, 10, 13] {
        assert!(refusals[number] > 50, "{refusals:?}");
    }
}
