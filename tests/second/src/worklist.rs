//! Worklists of the sample system as sheets (document 02, C-18): a file of RFC
//! 4180 without a header, a row for each batch. The file is judged whole before
//! any batch is.

use crate::read::Fault;
use crate::sheet::{judge_list, Batch, Refusal, Sheet};

/// What a row says.
struct Row {
    length: u32,
    /// None where the field is empty.
    place: Option<u32>,
    mark: u32,
    list: Vec<u64>,
}

/// The sheet that says what the worklist says, on `m` instruments with these
/// calibrations. A fault's line is the row's, from 1, and 0 where the fault is
/// not in a row.
pub fn take(m: u32, calibrations: &[u32], worklist: &[u8]) -> Result<Sheet, Fault> {
    let fault = |line| move |refusal| Fault { refusal, line };
    if !(1..=Sheet::INSTRUMENTS).contains(&m) {
        return Err(fault(0)(Refusal::Size));
    }
    let long = |&minutes: &u32| minutes > Sheet::CALIBRATION;
    if calibrations.len() != m as usize || calibrations.iter().any(long) {
        return Err(fault(0)(Refusal::Calibration));
    }
    let rows = rows(worklist).map_err(|line| fault(line)(Refusal::Worklist))?;
    if rows.len() > Sheet::BATCHES {
        return Err(fault(0)(Refusal::Size));
    }
    let mut batches = Vec::new();
    for (row, line) in rows.into_iter().zip(1..) {
        batches.push(batch(row, m).map_err(fault(line))?);
    }
    Ok(Sheet {
        instruments: m,
        calibrations: calibrations.to_vec(),
        batches,
    })
}

/// The batch of a row, on a sheet of `m` instruments, judged in the order of a
/// sheet's line.
fn batch(row: Row, m: u32) -> Result<Batch, Refusal> {
    let length = row.length;
    if !(1..=Sheet::LENGTH).contains(&length) {
        return Err(Refusal::Length);
    }
    if row.mark > 1 {
        return Err(Refusal::Form);
    }
    let list = judge_list(&row.list, m)?;
    let started = row.mark == 1;
    let place = match row.place {
        None | Some(0) if started => return Err(Refusal::Place),
        None | Some(0) => list[0],
        Some(place) if list.contains(&place) => place,
        Some(_) => return Err(Refusal::Place),
    };
    Ok(Batch {
        length,
        list,
        place,
        started,
    })
}

/// All rows, or the number of the first that is faulty. An empty file has a row;
/// after a CRLF there is another one only if a byte follows.
fn rows(worklist: &[u8]) -> Result<Vec<Row>, u32> {
    let mut rest = worklist;
    let mut rows = Vec::new();
    loop {
        let row = record(&mut rest).and_then(row);
        rows.push(row.ok_or(rows.len() as u32 + 1)?);
        if rest.is_empty() {
            return Ok(rows);
        }
    }
}

/// The four fields of a row: length, place, mark and list.
fn row(fields: Vec<Vec<u8>>) -> Option<Row> {
    let [length, place, mark, list] = &fields[..] else {
        return None;
    };
    let place = match &place[..] {
        [] => None,
        digits => Some(number(digits)?),
    };
    let list = list.split(|&b| b == b',');
    Some(Row {
        length: number(length)?,
        place,
        mark: number(mark)?,
        list: list
            .map(|j| number(j).map(u64::from))
            .collect::<Option<_>>()?,
    })
}

/// One to six digits, with no 0 in front of another.
fn number(digits: &[u8]) -> Option<u32> {
    let spare_zero = digits.len() > 1 && digits[0] == b'0';
    if digits.is_empty() || digits.len() > 6 || spare_zero {
        return None;
    }
    let mut number = 0;
    for digit in digits {
        number = 10 * number + (*digit as char).to_digit(10)?;
    }
    Some(number)
}

/// The next record and the CRLF after it, if the file does not end here.
fn record(rest: &mut &[u8]) -> Option<Vec<Vec<u8>>> {
    let mut fields = vec![field(rest)?];
    loop {
        match *rest {
            [] => return Some(fields),
            [b'\r', b'\n', after @ ..] => {
                *rest = after;
                return Some(fields);
            }
            [b',', after @ ..] => {
                *rest = after;
                fields.push(field(rest)?);
            }
            _ => return None,
        }
    }
}

/// The next field, without its quotes. What ends it is left.
fn field(rest: &mut &[u8]) -> Option<Vec<u8>> {
    if let [b'"', after @ ..] = *rest {
        *rest = after;
        return quoted(rest);
    }
    let end = rest.iter().position(|&b| !is_text(b));
    let (field, after) = rest.split_at(end.unwrap_or(rest.len()));
    *rest = after;
    Some(field.to_vec())
}

/// What stands before the closing quote. Two quotes stand for one.
fn quoted(rest: &mut &[u8]) -> Option<Vec<u8>> {
    let mut field = Vec::new();
    loop {
        let (byte, after) = match *rest {
            [b'"', b'"', after @ ..] => (b'"', after),
            [b'"', after @ ..] => {
                *rest = after;
                return Some(field);
            }
            [b, after @ ..] if is_text(*b) || matches!(b, b',' | b'\r' | b'\n') => (*b, after),
            _ => return None,
        };
        field.push(byte);
        *rest = after;
    }
}

/// The RFC's TEXTDATA.
fn is_text(byte: u8) -> bool {
    matches!(byte, 0x20..=0x21 | 0x23..=0x2b | 0x2d..=0x7e)
}

#[cfg(test)]
mod tests {
    use super::{number, record};

    /// The records of a file, and whether all of it is of the form.
    fn records(file: &str) -> (Vec<Vec<String>>, bool) {
        let mut rest = file.as_bytes();
        let mut records = Vec::new();
        loop {
            let Some(record) = record(&mut rest) else {
                return (records, false);
            };
            let text = |field| String::from_utf8(field).unwrap();
            records.push(record.into_iter().map(text).collect());
            if rest.is_empty() {
                return (records, true);
            }
        }
    }

    #[test]
    fn files_of_the_form() {
        let due: [(&str, &[&[&str]]); 14] = [
            ("", &[&[""]]),
            ("\r\n", &[&[""]]),
            ("\r\n\r\n", &[&[""], &[""]]),
            (",", &[&["", ""]]),
            (",\r\n,", &[&["", ""], &["", ""]]),
            ("\"\"", &[&[""]]),
            ("\"\",\r\n", &[&["", ""]]),
            // The RFC's own.
            (
                "aaa,bbb,ccc\r\nzzz,yyy,xxx\r\n",
                &[&["aaa", "bbb", "ccc"], &["zzz", "yyy", "xxx"]],
            ),
            (
                "aaa,bbb,ccc\r\nzzz,yyy,xxx",
                &[&["aaa", "bbb", "ccc"], &["zzz", "yyy", "xxx"]],
            ),
            (
                "\"aaa\",\"bbb\",\"ccc\"\r\nzzz,yyy,xxx",
                &[&["aaa", "bbb", "ccc"], &["zzz", "yyy", "xxx"]],
            ),
            (
                "\"aaa\",\"b\r\nbb\",\"ccc\"\r\nzzz,yyy,xxx",
                &[&["aaa", "b\r\nbb", "ccc"], &["zzz", "yyy", "xxx"]],
            ),
            ("\"aaa\",\"b\"\"bb\",\"ccc\"", &[&["aaa", "b\"bb", "ccc"]]),
            ("\"\"\"\",\"\"\"\"\"\"", &[&["\"", "\"\""]]),
            (" !#$+-~, x ,\"\r,\n\"", &[&[" !#$+-~", " x ", "\r,\n"]]),
        ];
        for (file, records_due) in due {
            let (found, whole) = records(file);
            assert!(whole, "{file:?}");
            assert_eq!(found, records_due, "{file:?}");
        }
    }

    /// The file breaks in the record after so many.
    #[test]
    fn files_not_of_the_form() {
        for (file, before) in [
            ("\n", 0),
            ("\r", 0),
            ("a\n", 0),
            ("a\r", 0),
            ("a\rb", 0),
            ("a\r\r\n", 0),
            ("a\n\r\n", 0),
            ("a\r\nb\n", 1),
            ("a\r\n\r\nb\r", 2),
            ("\"", 0),
            ("\"a", 0),
            ("\"a\"\"", 0),
            ("\"a\r\nb", 0),
            ("\"a\"b", 0),
            ("\"a\" ,b", 0),
            ("\"a\"\r", 0),
            ("\"a\"\n", 0),
            ("a\"", 0),
            ("a\"b\"", 0),
            (" \"a\"", 0),
            ("a,b\r\n\"a\",\"b\"c\r\nd", 1),
            ("a\t", 0),
            ("\"a\t\"", 0),
            ("\"a\0\"", 0),
            ("a\u{7f}", 0),
            ("\"\u{7f}\"", 0),
            ("\u{80}", 0),
            ("\"\u{80}\"", 0),
        ] {
            let (found, whole) = records(file);
            assert!(!whole, "{file:?}");
            assert_eq!(found.len(), before, "{file:?}");
        }
    }

    /// Each byte alone, in an unquoted field and between quotes.
    #[test]
    fn every_byte() {
        for byte in 0..=255u8 {
            let plain = (0x20..0x7f).contains(&byte) && !b"\",".contains(&byte);
            let mut file = &[b'a', byte, b'a'][..];
            let found = record(&mut file);
            match byte {
                b',' => assert_eq!(found, Some(vec![b"a".to_vec(), b"a".to_vec()])),
                _ => assert_eq!(found, plain.then(|| vec![vec![b'a', byte, b'a']])),
            }
            let inside = plain || b",\r\n".contains(&byte);
            let mut file = &[b'"', b'a', byte, b'a', b'"'][..];
            let due = inside.then(|| vec![vec![b'a', byte, b'a']]);
            assert_eq!(record(&mut file), due, "{byte}");
        }
    }

    #[test]
    fn every_number() {
        for v in 0..1_000_000u32 {
            assert_eq!(number(v.to_string().as_bytes()), Some(v));
        }
        for text in [
            "", "1000000", "0000000", "00", "01", "000001", "1 ", " 1", "+1", "-1", "-0", "1.",
            "1e3", "0x1", "1a", "/", ":", "1,2", "\u{b2}", "\u{663}",
        ] {
            assert_eq!(number(text.as_bytes()), None, "{text:?}");
        }
    }
}
