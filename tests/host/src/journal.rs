//! A journal's text, a reader of it, and the text of the answers that the
//! second planner gives.

use second::{apply, Answer, Call, Move, Sheet, Verdict};

/// The greatest number that a field holds.
pub const GREATEST: u64 = 999_999;

/// The number that says which kind of call a line is.
pub fn kind(call: &Call) -> u64 {
    match call {
        Call::Add { .. } => 1,
        Call::Withdraw { .. } => 2,
        Call::Requalify { .. } => 3,
        Call::Move { .. } => 4,
        Call::Review => 5,
        Call::Trial { .. } => 6,
        Call::Balance { .. } => 7,
        Call::Settle { .. } => 8,
        Call::Start { .. } => 9,
    }
}

/// The numbers of a call's line.
pub fn numbers(call: &Call) -> Vec<u64> {
    let mut numbers = vec![kind(call)];
    match call {
        Call::Add { length: a, list } | Call::Requalify { number: a, list } => {
            numbers.extend([*a, list.len() as u64]);
            numbers.extend(list);
        }
        Call::Withdraw { number } | Call::Start { number } => numbers.push(*number),
        Call::Move { number, instrument } => numbers.extend([number, instrument]),
        Call::Trial { level } => numbers.push(*level),
        Call::Balance { entries } | Call::Settle { entries } => numbers.push(*entries),
        Call::Review => {}
    }
    numbers
}

fn put_columns<const W: usize>(text: &mut Vec<u8>, number: u64) {
    let field = format!("{number:>W$}");
    assert_eq!(field.len(), W, "{number} fits its columns");
    text.extend(field.bytes());
}

fn put_numbers(text: &mut Vec<u8>, numbers: impl IntoIterator<Item = u64>) {
    for number in numbers {
        put_columns::<6>(text, number);
    }
}

/// The journal of these calls. Their numbers must fit six columns.
pub fn journal(calls: &[Call]) -> Vec<u8> {
    let mut text = Vec::new();
    for call in calls {
        put_numbers(&mut text, numbers(call));
        text.push(b'\n');
    }
    text
}

/// The calls of a journal, or the first line that is not of the form. No
/// field holds an LF, so lines are told apart first, then fields, then what
/// the numbers are.
pub fn read(journal: &[u8]) -> Result<Vec<Call>, usize> {
    let lines = journal.split_inclusive(|&b| b == b'\n').enumerate();
    lines
        .map(|(k, line)| call(line).ok_or(k + 1))
        .collect::<Result<Vec<Call>, usize>>()
}

fn call(line: &[u8]) -> Option<Call> {
    let text = std::str::from_utf8(line.strip_suffix(b"\n")?).ok()?;
    if !text.is_ascii() || text.len() % 6 != 0 {
        return None;
    }
    let fields = (0..text.len() / 6).map(|k| &text[6 * k..6 * k + 6]);
    let numbers: Vec<u64> = fields.map(field).collect::<Option<_>>()?;
    Some(match *numbers.as_slice() {
        [1, length, count, ref list @ ..] if list.len() as u64 == count => Call::Add {
            length,
            list: list.to_vec(),
        },
        [2, number] => Call::Withdraw { number },
        [3, number, count, ref list @ ..] if list.len() as u64 == count => Call::Requalify {
            number,
            list: list.to_vec(),
        },
        [4, number, instrument] => Call::Move { number, instrument },
        [5] => Call::Review,
        [6, level] => Call::Trial { level },
        [7, entries] => Call::Balance { entries },
        [8, entries] => Call::Settle { entries },
        [9, number] => Call::Start { number },
        _ => return None,
    })
}

/// The number that stands at the right of six columns, nothing if the columns
/// would look otherwise.
fn field(text: &str) -> Option<u64> {
    let number: u64 = text.trim_start_matches(' ').parse().ok()?;
    (format!("{number:>6}") == text).then_some(number)
}

fn put_records(text: &mut Vec<u8>, records: &[Move]) {
    put_numbers(text, [records.len() as u64]);
    for record in records {
        let numbers = [record.batch, record.from, record.to];
        put_numbers(text, numbers.map(u64::from));
    }
}

/// Add the line of an answer.
pub fn put_answer(text: &mut Vec<u8>, answer: &Answer) {
    match answer {
        Answer::Refused(refusal) => put_numbers(text, [refusal.number() as u64]),
        Answer::Done => put_numbers(text, [0]),
        Answer::Review(review) => {
            let gains = review.gains.unwrap_or(0) as u64;
            put_numbers(text, [0, review.finish as u64, gains]);
            put_numbers(text, review.loads.iter().map(|&load| load as u64));
        }
        Answer::Trial(trial) => {
            let passed = matches!(trial.verdict, Verdict::Pass(_)) as u64;
            put_numbers(text, [0, passed, trial.raises as u64, trial.bumps as u64]);
            match &trial.verdict {
                Verdict::Pass(places) => put_numbers(text, places.iter().map(|&j| j as u64)),
                Verdict::Fail(group) => put_numbers(text, group.iter().map(|&j| j as u64)),
            }
        }
        Answer::Balance(balanced) => {
            let figures = [
                0,
                balanced.finish,
                balanced.floor,
                balanced.level,
                balanced.raises,
                balanced.bumps,
            ];
            put_numbers(text, figures.map(u64::from));
            let group = balanced.group.as_deref().unwrap_or(&[]);
            put_numbers(text, [group.len() as u64]);
            put_numbers(text, group.iter().map(|&j| j as u64));
            put_records(text, &balanced.records);
        }
        Answer::Settle(settled) => {
            put_numbers(text, [0, settled.finish as u64]);
            put_columns::<12>(text, settled.moves);
            put_records(text, &settled.records);
        }
    }
    text.push(b'\n');
}

/// The text of the second planner's answers; the sheet is left as the last
/// call leaves it.
pub fn answers(sheet: &mut Sheet, calls: &[Call]) -> Vec<u8> {
    let mut text = Vec::new();
    for call in calls {
        put_answer(&mut text, &apply(sheet, call));
    }
    text
}
