//! Worklists as a sample system exports them, and spoilt ones.

use crate::draft::{Draft, Line};
use crate::gen::disorder;
use crate::rng::Rng;

/// A worklist with a row for each of the draft's lines, at least one, that says
/// what they say. Lists of several instruments are quoted, and other fields as it
/// comes; a CRLF at the end may be left out.
pub fn worklist(rng: &mut Rng, draft: &Draft) -> Vec<u8> {
    assert!(!draft.lines.is_empty(), "no worklist is without a row");
    let quotes = rng.below(3);
    let mut quoted = |field: String| match quotes {
        0 if !field.contains(',') => field,
        2 if !field.contains(',') && rng.once_in(2) => field,
        _ => format!("\"{field}\""),
    };
    let row = |line: &Line| {
        let place = line.place.map_or(String::new(), |place| place.to_string());
        let list: Vec<String> = line.list.iter().map(u32::to_string).collect();
        let fields = [
            line.length.to_string(),
            place,
            line.mark.to_string(),
            list.join(","),
        ];
        fields.map(&mut quoted).join(",")
    };
    let rows: Vec<String> = draft.lines.iter().map(row).collect();
    let mut text = rows.join("\r\n");
    if rng.once_in(2) {
        text += "\r\n";
    }
    text.into_bytes()
}

/// Spoil a worklist in one place. Now and then the result is still of the form.
pub fn damage(rng: &mut Rng, file: &mut Vec<u8>) {
    const BYTES: [u8; 16] = *b"0129,,\"\"\r\n\r\n \tx+";
    const TEXTS: [&str; 16] = [
        "\r\n",
        "\r\n",
        "\n",
        "\r",
        "\"\"",
        "\"",
        ",",
        ",,",
        "\"1,2\"",
        "1,1,0,1\r\n",
        "\r\n1,1,0,1",
        "00",
        "1000000",
        " ",
        "\"\r\n\"",
        "\n\r",
    ];
    let at = rng.below(file.len() as u64 + 1) as usize;
    let inside = at < file.len();
    match rng.below(14) {
        0 => file.truncate(at),
        1 => file.push(*rng.pick(&BYTES)),
        2 => file.insert(at, *rng.pick(&BYTES)),
        3 if inside => {
            file.remove(at);
        }
        4 if inside => file[at] = rng.next_u64() as u8,
        5 if inside => file[at] = *rng.pick(&BYTES),
        6 => {
            // What ends a row, or all of them.
            let all = rng.once_in(2);
            let end = *rng.pick(&["\n", "\r", "\r\n\r\n", "\n\r", ",", ""]);
            let mut ends: Vec<usize> = (0..file.len())
                .filter(|&at| file[at..].starts_with(b"\r\n"))
                .collect();
            if !all && !ends.is_empty() {
                ends = vec![*rng.pick(&ends)];
            }
            for at in ends.into_iter().rev() {
                file.splice(at..at + 2, end.bytes());
            }
        }
        7 if inside => {
            // Two bytes change places.
            let other = rng.below(file.len() as u64) as usize;
            file.swap(at, other);
        }
        8 => {
            // A part stands twice.
            let end = (at + rng.within(1, 12) as usize).min(file.len());
            let part = file[at..end].to_vec();
            file.splice(at..at, part);
        }
        9 => {
            // A row is gone, or stands twice.
            let mut rows: Vec<Vec<u8>> = file
                .split_inclusive(|&b| b == b'\n')
                .map(<[u8]>::to_vec)
                .collect();
            if !rows.is_empty() {
                let k = rng.below(rows.len() as u64) as usize;
                let row = rows.remove(k);
                if rng.once_in(2) {
                    rows.splice(k..k, [row.clone(), row]);
                }
            }
            *file = rows.concat();
        }
        10 | 11 => {
            // Another digit.
            let digits: Vec<usize> = (0..file.len())
                .filter(|&at| file[at].is_ascii_digit())
                .collect();
            if !digits.is_empty() {
                file[*rng.pick(&digits)] = *rng.pick(b"0123456789");
            }
        }
        12 => {
            // A quoted list in another order.
            let text = String::from_utf8_lossy(file).into_owned();
            let parts: Vec<&str> = text.split('"').collect();
            let lists: Vec<usize> = (0..parts.len())
                .filter(|&k| k % 2 == 1 && parts[k].contains(','))
                .collect();
            if !lists.is_empty() {
                let k = *rng.pick(&lists);
                let mut members: Vec<&str> = parts[k].split(',').collect();
                disorder(rng, &mut members);
                let list = members.join(",");
                let parts = [&parts[..k], &[list.as_str()], &parts[k + 1..]].concat();
                *file = parts.join("\"").into_bytes();
            }
        }
        _ => {
            let text = *rng.pick(&TEXTS);
            file.splice(at..at, text.bytes());
        }
    }
}

/// Few bytes of the kinds that a worklist has.
pub fn scribble(rng: &mut Rng) -> Vec<u8> {
    const TEXTS: [&str; 16] = [
        "0", "1", "2", "3", "30", "1,", ",1", ",0,", ",", "\"", "\"", "\r\n", "\r", "\n", " ",
        "\"1,2\"",
    ];
    let count = rng.within(0, 12);
    (0..count).flat_map(|_| rng.pick(&TEXTS).bytes()).collect()
}
