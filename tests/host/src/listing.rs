//! A listing's numbers, taken from its columns.

use std::fmt::Write as _;

/// The most bytes that a listing has: 24 instruments, all in the group, and
/// 200 batches.
pub const MOST: usize = 43 + 6 * 25 + 1 + 200 * 19;

#[derive(Clone, Debug, Default, PartialEq, Eq)]
pub struct Listing {
    pub finish: u32,
    pub floor: u32,
    pub level: u32,
    pub raises: u32,
    pub bumps: u32,
    pub moves: u64,
    /// Instruments from 1, none where no trial failed.
    pub group: Vec<u32>,
    /// Number, place and length.
    pub batches: Vec<[u32; 3]>,
}

impl Listing {
    /// Take a listing apart; nothing if its layout is not to the byte the
    /// one due to its numbers.
    pub fn parse(bytes: &[u8]) -> Option<Listing> {
        let text = std::str::from_utf8(bytes).ok()?;
        let mut lines = text.lines();
        let head = lines.next()?;
        let (first, moves) = head.split_at_checked(30)?;
        let &[finish, floor, level, raises, bumps] = fields(first)?.as_slice() else {
            return None;
        };
        let group = fields(lines.next()?)?;
        let batches = lines.map(|line| fields(line)?.try_into().ok());
        let listing = Listing {
            finish,
            floor,
            level,
            raises,
            bumps,
            moves: moves.trim_start().parse().ok()?,
            group: group.get(1..)?.to_vec(),
            batches: batches.collect::<Option<_>>()?,
        };
        (listing.text() == text).then_some(listing)
    }

    fn text(&self) -> String {
        let mut text = String::with_capacity(MOST);
        for number in [self.finish, self.floor, self.level, self.raises, self.bumps] {
            write!(text, "{number:>6}").unwrap();
        }
        writeln!(text, "{:>12}", self.moves).unwrap();
        write!(text, "{:>6}", self.group.len()).unwrap();
        for instrument in &self.group {
            write!(text, "{instrument:>6}").unwrap();
        }
        text.push('\n');
        for [number, place, length] in &self.batches {
            writeln!(text, "{number:>6}{place:>6}{length:>6}").unwrap();
        }
        text
    }
}

/// The numbers of a line of six-column fields.
fn fields(line: &str) -> Option<Vec<u32>> {
    let columns = line.as_bytes().chunks(6);
    let number = |field| std::str::from_utf8(field).ok()?.trim_start().parse().ok();
    columns.map(number).collect()
}
