//! From a file's bytes to a sheet (document 01, "The sheet"; document 02, C-11
//! for a place left blank, C-16 for line 2, C-17 for the mark, C-20 for lists that
//! ascend): from the front, and the first fault decides.

use crate::sheet::{Batch, Refusal, Sheet};

/// Why a file is no sheet, and at which line, from 1.
#[derive(Clone, Copy, Debug, PartialEq, Eq)]
pub struct Fault {
    pub refusal: Refusal,
    pub line: u32,
}

/// Read a whole file.
pub fn read(bytes: &[u8]) -> Result<Sheet, Fault> {
    let fault = |line| move |refusal| Fault { refusal, line };
    let mut rest = bytes;
    let (m, n) = head(&mut rest).map_err(fault(1))?;
    let calibrations = calibrations(&mut rest, m).map_err(fault(2))?;
    let mut batches = Vec::new();
    for line in 3..n + 3 {
        batches.push(batch(&mut rest, m).map_err(fault(line))?);
    }
    if !rest.is_empty() {
        return Err(fault(n + 3)(Refusal::Form));
    }
    Ok(Sheet {
        instruments: m,
        calibrations,
        batches,
    })
}

/// Line 1: how many instruments and how many batches.
fn head(rest: &mut &[u8]) -> Result<(u32, u32), Refusal> {
    let m = number(rest)?;
    if !(1..=Sheet::INSTRUMENTS).contains(&m) {
        return Err(Refusal::Size);
    }
    let n = number(rest)?;
    if n > Sheet::BATCHES as u32 {
        return Err(Refusal::Size);
    }
    line_end(rest)?;
    Ok((m, n))
}

/// Line 2: a calibration for each of `m` instruments.
fn calibrations(rest: &mut &[u8], m: u32) -> Result<Vec<u32>, Refusal> {
    let mut calibrations = Vec::new();
    for _ in 0..m {
        let minutes = number(rest)?;
        if minutes > Sheet::CALIBRATION {
            return Err(Refusal::Calibration);
        }
        calibrations.push(minutes);
    }
    line_end(rest)?;
    Ok(calibrations)
}

/// A batch's line, on a sheet of `m` instruments. A number is judged before
/// the next field is read, but the list's order only after the whole list, and
/// the place only after the line's LF. A place left blank is place 0, which a
/// started batch may not have.
fn batch(rest: &mut &[u8], m: u32) -> Result<Batch, Refusal> {
    let length = number(rest)?;
    if !(1..=Sheet::LENGTH).contains(&length) {
        return Err(Refusal::Length);
    }
    let place = field(rest)?.unwrap_or(0);
    let mark = number(rest)?;
    if mark > 1 {
        return Err(Refusal::Form);
    }
    let started = mark == 1;
    let count = number(rest)?;
    if !(1..=m).contains(&count) {
        return Err(Refusal::List);
    }
    let mut list = Vec::new();
    for _ in 0..count {
        let instrument = number(rest)?;
        if !(1..=m).contains(&instrument) || list.contains(&instrument) {
            return Err(Refusal::List);
        }
        list.push(instrument);
    }
    if !list.is_sorted() {
        return Err(Refusal::Order);
    }
    line_end(rest)?;
    let place = if place == 0 && !started {
        list[0]
    } else {
        place
    };
    if !list.contains(&place) {
        return Err(Refusal::Place);
    }
    Ok(Batch {
        length,
        list,
        place,
        started,
    })
}

/// The number in the next six columns, which may not be blank.
fn number(rest: &mut &[u8]) -> Result<u32, Refusal> {
    field(rest)?.ok_or(Refusal::Form)
}

/// The number in the next six columns: blanks, then at least one digit, and
/// no 0 in front of another digit. None where all six are blanks.
fn field(rest: &mut &[u8]) -> Result<Option<u32>, Refusal> {
    let (columns, after) = rest.split_at_checked(6).ok_or(Refusal::Form)?;
    let blanks = columns.iter().take_while(|&&b| b == b' ').count();
    let digits = &columns[blanks..];
    if digits.is_empty() {
        *rest = after;
        return Ok(None);
    }
    let spare_zero = digits.len() > 1 && digits[0] == b'0';
    if spare_zero || !digits.iter().all(u8::is_ascii_digit) {
        return Err(Refusal::Form);
    }
    *rest = after;
    let append = |number, digit: &u8| 10 * number + (digit - b'0') as u32;
    Ok(Some(digits.iter().fold(0, append)))
}

fn line_end(rest: &mut &[u8]) -> Result<(), Refusal> {
    *rest = rest.strip_prefix(b"\n").ok_or(Refusal::Form)?;
    Ok(())
}

#[cfg(test)]
mod tests {
    use super::{field, number};
    use crate::sheet::Refusal;

    /// What these columns hold. A field that may not be blank agrees, but for
    /// refusing the blanks.
    fn held(columns: &[u8; 6]) -> Result<Option<u32>, Refusal> {
        let mut rest = columns.as_slice();
        let found = field(&mut rest);
        assert_eq!(rest.len(), if found.is_ok() { 0 } else { 6 });
        let sure = number(&mut columns.as_slice());
        assert_eq!(sure.ok(), found.ok().flatten(), "{columns:?}");
        found
    }

    /// What these columns are the text of.
    fn by_text(columns: &[u8; 6]) -> Result<Option<u32>, Refusal> {
        if columns == b"      " {
            return Ok(None);
        }
        std::str::from_utf8(columns)
            .ok()
            .and_then(|text| text.trim_start_matches(' ').parse::<u32>().ok())
            .filter(|v| format!("{v:>6}").as_bytes() == columns)
            .map(Some)
            .ok_or(Refusal::Form)
    }

    #[test]
    fn every_number_of_six_columns() {
        let mut text = [0u8; 6];
        for v in 0..1_000_000u32 {
            text.copy_from_slice(format!("{v:>6}").as_bytes());
            assert_eq!(held(&text), Ok(Some(v)));
        }
    }

    #[test]
    fn six_bytes_from_a_small_alphabet() {
        let alphabet = [b' ', b'0', b'1', b'9', b'/', b':', 0x10, 0xb0];
        let (mut numbers, mut blank) = (0, 0);
        for code in 0..8usize.pow(6) {
            let columns: [u8; 6] = std::array::from_fn(|i| alphabet[code >> (3 * i) & 7]);
            let found = held(&columns);
            assert_eq!(found, by_text(&columns), "{columns:?}");
            numbers += matches!(found, Ok(Some(_))) as u32;
            blank += (found == Ok(None)) as u32;
        }
        // 0, and 1 or 9 followed by up to five digits of three.
        assert_eq!((numbers, blank), (1 + 2 * (1 + 3 + 9 + 27 + 81 + 243), 1));
    }

    #[test]
    fn one_strange_byte() {
        for text in [b"  1234", b"      "] {
            for byte in 0..=255u8 {
                for column in 0..6 {
                    let mut columns = *text;
                    columns[column] = byte;
                    assert_eq!(held(&columns), by_text(&columns), "{columns:?}");
                }
            }
        }
    }

    #[test]
    fn fewer_than_six_bytes() {
        for text in ["", " ", "1", "     ", "12345"] {
            assert_eq!(field(&mut text.as_bytes()), Err(Refusal::Form));
            assert_eq!(number(&mut text.as_bytes()), Err(Refusal::Form));
        }
    }

    /// What follows the six columns is left for the next field.
    #[test]
    fn more_than_six_bytes() {
        for (text, held) in [("           1", None), ("     7     1", Some(7))] {
            let mut rest = text.as_bytes();
            assert_eq!(field(&mut rest), Ok(held));
            assert_eq!(rest, &text.as_bytes()[6..]);
        }
    }
}
