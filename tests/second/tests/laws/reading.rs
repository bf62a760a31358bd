//! Reading: every fault of a file is noted with where it shows, and the first
//! of them must be the refusal.

use std::ops::RangeInclusive;

use second::rng::Rng;
use second::*;

/// The number whose text in six columns these bytes are.
fn number(columns: &[u8]) -> Option<u32> {
    let text = std::str::from_utf8(columns).ok()?;
    let number: u32 = text.trim_start_matches(' ').parse().ok()?;
    (format!("{number:>6}") == text).then_some(number)
}

/// Faults of a file, each with the place in the order of judging where it
/// shows, its number and its line.
#[derive(Default)]
struct Faults(Vec<(usize, u32, u32)>);

impl Faults {
    fn note(&mut self, at: usize, number: u32, line: u32) {
        self.0.push((at, number, line));
    }

    /// A field that must be of the form, and in range or else earns a number.
    fn judge(&mut self, text: &Text, k: usize, range: RangeInclusive<u32>, number: u32) {
        match text.field(k) {
            None => self.note(k, 1, text.line),
            Some(x) if !range.contains(&x) => self.note(k, number, text.line),
            Some(_) => {}
        }
    }

    fn first(&self) -> Option<(u32, u32)> {
        let first = self.0.iter().min_by_key(|fault| fault.0)?;
        Some((first.1, first.2))
    }
}

/// A file's bytes from the start of a line on.
struct Text<'a> {
    rest: &'a [u8],
    line: u32,
}

impl<'a> Text<'a> {
    /// Field number `k` of the line, from 0.
    fn field(&self, k: usize) -> Option<u32> {
        number(self.rest.get(6 * k..6 * k + 6)?)
    }

    /// Are all six columns of that field blanks?
    fn blank(&self, k: usize) -> bool {
        self.rest.get(6 * k..6 * k + 6) == Some(b"      ")
    }

    fn ends_after(&self, fields: usize) -> bool {
        self.rest.get(6 * fields) == Some(&b'\n')
    }

    /// What follows the line, which has so many fields.
    fn after(&self, fields: usize) -> Text<'a> {
        Text {
            rest: &self.rest[6 * fields + 1..],
            line: self.line + 1,
        }
    }
}

fn head_faults(text: &Text) -> Faults {
    let mut faults = Faults::default();
    faults.judge(text, 0, 1..=24, 2);
    faults.judge(text, 1, 0..=200, 2);
    if !text.ends_after(2) {
        faults.note(2, 1, 1);
    }
    faults
}

/// The faults of line 2, on a sheet of `m` instruments.
fn calibration_faults(text: &Text, m: usize) -> Faults {
    let mut faults = Faults::default();
    for k in 0..m {
        faults.judge(text, k, 0..=240, 10);
    }
    if !text.ends_after(m) {
        faults.note(m, 1, text.line);
    }
    faults
}

/// The faults of a batch's line, and its batch where there are none. Without a
/// good count, which is a fault before all that follows it, there is no list.
fn line_faults(text: &Text, m: u32) -> (Faults, Line) {
    let mut faults = Faults::default();
    faults.judge(text, 0, 1..=1440, 3);
    let place = text.field(1);
    if place.is_none() && !text.blank(1) {
        faults.note(1, 1, text.line);
    }
    faults.judge(text, 2, 0..=1, 1);
    faults.judge(text, 3, 1..=m, 4);
    let [length, mark, count] = [0, 2, 3].map(|k| text.field(k).unwrap_or(0));
    let mut list = Vec::new();
    if (1..=m).contains(&count) {
        let last = 4 + count as usize;
        for k in 4..last {
            faults.judge(text, k, 1..=m, 4);
            let instrument = text.field(k).unwrap_or(0);
            if list.contains(&instrument) {
                faults.note(k, 4, text.line);
            }
            list.extend(text.field(k));
        }
        if list.windows(2).any(|pair| pair[1] < pair[0]) {
            faults.note(last, 13, text.line);
        }
        if !text.ends_after(last) {
            faults.note(last + 1, 1, text.line);
        }
        let given = place.filter(|&place| place != 0);
        if given.map_or(mark == 1, |place| !list.contains(&place)) {
            faults.note(last + 2, 5, text.line);
        }
    }
    (
        faults,
        Line {
            length,
            place,
            mark,
            list,
        },
    )
}

/// What reading a file must give.
fn due(file: &[u8]) -> Result<Draft, (u32, u32)> {
    let mut text = Text {
        rest: file,
        line: 1,
    };
    if let Some(fault) = head_faults(&text).first() {
        return Err(fault);
    }
    let [m, n] = [0, 1].map(|k| text.field(k).unwrap());
    let mut draft = Draft::new(m, &[]);
    text = text.after(2);
    if let Some(fault) = calibration_faults(&text, m as usize).first() {
        return Err(fault);
    }
    draft.calibrations = (0..m as usize).map(|k| text.field(k).unwrap()).collect();
    text = text.after(m as usize);
    for _ in 0..n {
        let (faults, batch) = line_faults(&text, m);
        if let Some(fault) = faults.first() {
            return Err(fault);
        }
        text = text.after(4 + batch.list.len());
        draft.lines.push(batch);
    }
    match text.rest {
        [] => Ok(draft),
        _ => Err((1, text.line)),
    }
}

/// Read a file and check what comes of it.
fn read_laws(file: &[u8]) -> Result<Sheet, Fault> {
    let found = read(file);
    match (&found, due(file)) {
        (Ok(sheet), Ok(mut draft)) => {
            // The file is the very text of the sheet, places not given apart.
            assert_eq!(draft.render(), file);
            for line in &mut draft.lines {
                let lowest = line.list.iter().copied().min();
                line.place = line.given().or(lowest);
            }
            assert_eq!(Draft::from(sheet), draft);
        }
        (Err(fault), Err(due)) => assert_eq!((fault.refusal.number(), fault.line), due),
        (found, due) => panic!("{found:?}, but due is {due:?}"),
    }
    found
}

#[test]
fn files_read_back() {
    let mut rng = Rng::new(11);
    let (mut given, mut zero, mut blank, mut started) = (0, 0, 0, 0);
    for shape in [gen::SMALL, gen::MEDIUM, gen::FULL, gen::LARGE] {
        for _ in 0..150 {
            let draft = gen::draft(&mut rng, shape);
            let sheet = read_laws(&draft.render()).expect("a sound file");
            assert_eq!(sheet, draft.sheet());
            assert_eq!(read(&Draft::from(&sheet).render()), Ok(sheet));
            for line in &draft.lines {
                started += line.started() as u32;
                match line.place {
                    None => blank += 1,
                    Some(0) => zero += 1,
                    Some(_) => given += 1,
                }
            }
        }
    }
    let counts = [given, zero, blank, started];
    assert!(counts.into_iter().all(|count| count > 5_000), "{counts:?}");
}

#[test]
fn damaged_files() {
    let mut rng = Rng::new(12);
    let (mut sound, mut blank, mut started) = (0, 0, 0);
    let (mut bad_mark, mut no_place) = (0, 0);
    let mut by_number = [0; 14];
    for round in 0..30_000 {
        let shape = if round % 8 == 0 {
            gen::MEDIUM
        } else {
            gen::SMALL
        };
        let mut file = gen::draft(&mut rng, shape).render();
        for _ in 0..rng.within(1, 3) {
            gen::damage(&mut rng, &mut file);
        }
        match read_laws(&file) {
            Ok(sheet) => {
                sound += 1;
                blank += (gen::blank_places(&file) > 0) as u32;
                started += sheet.batches().iter().any(|b| b.started) as u32;
            }
            Err(fault) => {
                by_number[fault.refusal.number() as usize] += 1;
                // A line with all fields in their columns.
                let at = gen::places(&file)
                    .get((fault.line as usize).wrapping_sub(3))
                    .copied();
                let fields = at.and_then(|at| file.get(at..at + 12));
                let Some((place, mark)) = fields.map(|fields| fields.split_at(6)) else {
                    continue;
                };
                let other = number(mark).is_some_and(|mark| mark > 1);
                let open = matches!(place, b"     0" | b"      ") && mark == b"     1";
                bad_mark += (fault.refusal == Refusal::Form && other) as u32;
                no_place += (fault.refusal == Refusal::Place && open) as u32;
            }
        }
    }
    // The damage is varied enough to meet every outcome often.
    assert!(sound > 100 && blank > 100, "{sound}, {blank} of them blank");
    let counts = [started, bad_mark, no_place];
    assert!(counts.into_iter().all(|count| count > 100), "{counts:?}");
    for number in [1, 2, 3, 4, 5, 10, 13] {
        assert!(by_number[number] > 100, "{by_number:?}");
    }
    for number in [6, 7, 8, 9, 11, 12] {
        assert_eq!(by_number[number], 0, "{by_number:?}");
    }
}

/// Every batch line that can be made of up to seven numbers, blanks and LFs.
#[test]
fn every_short_line() {
    const HEAD: &[u8] = b"     2     1\n     0   240\n";
    const PIECES: [&[u8]; 5] = [b"     0", b"     1", b"     2", b"      ", b"\n"];
    let (mut sound, mut blank, mut started, mut unordered) = (0, 0, 0, 0);
    let mut lines: Vec<Vec<u8>> = vec![Vec::new()];
    for _ in 0..=7 {
        for line in &lines {
            let file = [HEAD, line.as_slice()].concat();
            match read_laws(&file) {
                Ok(sheet) => {
                    sound += 1;
                    blank += gen::blank_places(&file);
                    started += sheet.batches()[0].started as u32;
                }
                Err(fault) => unordered += (fault.refusal == Refusal::Order) as u32,
            }
        }
        let longer = |line: &Vec<u8>| PIECES.map(|piece| [line, piece].concat());
        lines = lines.iter().flat_map(longer).collect();
    }
    // Two lengths. A list of one has that place, 0 or a blank one, the list of two
    // both places, 0 or a blank one. One that has started has neither 0 nor a blank.
    assert_eq!(started, 2 * (2 + 2));
    assert_eq!(sound, started + 2 * (2 * 3 + 4));
    assert_eq!(blank, 2 * (2 + 1));
    // Two and one, with either mark, any of four places, and no LF or any next piece.
    assert_eq!(unordered, 2 * 2 * 4 * (1 + 5));
}

/// Every line 2 that can be made of up to four numbers, blanks and LFs, for one
/// and two instruments without a batch.
#[test]
fn every_short_line_2() {
    const PIECES: [&[u8]; 5] = [b"     0", b"   240", b"   241", b"      ", b"\n"];
    let mut by_number = [0; 12];
    let mut lines: Vec<Vec<u8>> = vec![Vec::new()];
    for _ in 0..=4 {
        for line in &lines {
            for head in ["     1     0\n", "     2     0\n"] {
                let file = [head.as_bytes(), line].concat();
                let number = match read_laws(&file) {
                    Ok(_) => 0,
                    Err(fault) => {
                        // Only bytes after a good line 2 are at line 3.
                        let good = |end: usize| read(&file[..end]).is_ok();
                        assert_eq!(fault.line == 3, (0..file.len()).any(good));
                        fault.refusal.number()
                    }
                };
                by_number[number as usize] += 1;
            }
        }
        let longer = |line: &Vec<u8>| PIECES.map(|piece| [line, piece].concat());
        lines = lines.iter().flat_map(longer).collect();
    }
    // Two calibrations for one instrument, four pairs for two.
    assert_eq!(by_number[0], 2 + 4);
    // 241 as the first field, before anything; or as the second of two, after
    // one of two good ones.
    let lines = |fields: u32| (0..=4 - fields).map(|more| 5u32.pow(more)).sum::<u32>();
    assert_eq!(by_number[10], 2 * lines(1) + 2 * lines(2));
    let all: u32 = by_number.iter().sum();
    assert_eq!(by_number[0] + by_number[1] + by_number[10], all);
}

#[test]
fn noise() {
    const ALPHABETS: [&[u8]; 3] = [b" \n0123456789", b"  1 2\n", &[0x20, 0x31, 0xff]];
    let mut rng = Rng::new(13);
    for _ in 0..30_000 {
        let length = rng.below(60) as usize;
        let alphabet = *rng.pick(&ALPHABETS);
        let file: Vec<u8> = (0..length).map(|_| *rng.pick(alphabet)).collect();
        let _ = read_laws(&file);
    }
}
