//! Descriptions of sheet files, good or bad, and the bytes they stand for.

use crate::sheet::Sheet;

/// One batch line as it is to be written.
#[derive(Clone, Debug, PartialEq, Eq)]
pub struct Line {
    pub length: u32,
    /// The place field: an instrument, 0, or nothing, which leaves its columns
    /// blank. With 0 or nothing the choice is the reader's.
    pub place: Option<u32>,
    /// 1 where the batch has started, and otherwise 0.
    pub mark: u32,
    pub list: Vec<u32>,
}

impl Line {
    pub fn started(&self) -> bool {
        self.mark == 1
    }

    /// The instrument given, where one is.
    pub fn given(&self) -> Option<u32> {
        self.place.filter(|&place| place != 0)
    }
}

/// A whole file as it is to be written. Nothing here is checked.
#[derive(Clone, Debug, PartialEq, Eq)]
pub struct Draft {
    pub instruments: u32,
    pub calibrations: Vec<u32>,
    pub lines: Vec<Line>,
}

impl Draft {
    /// Lines by length, place and list, every place as a number, every mark 0, and
    /// every calibration 0.
    pub fn new(instruments: u32, lines: &[(u32, u32, &[u32])]) -> Draft {
        let line = |&(length, place, list): &(u32, u32, &[u32])| Line {
            length,
            place: Some(place),
            mark: 0,
            list: list.to_vec(),
        };
        Draft {
            instruments,
            calibrations: vec![0; instruments as usize],
            lines: lines.iter().map(line).collect(),
        }
    }

    /// The same with these calibrations.
    pub fn calibrated(mut self, calibrations: &[u32]) -> Draft {
        self.calibrations = calibrations.to_vec();
        self
    }

    /// The same with these batches started, by number.
    pub fn started(mut self, numbers: &[usize]) -> Draft {
        for &number in numbers {
            self.lines[number - 1].mark = 1;
        }
        self
    }

    /// The same with every batch started.
    pub fn all_started(mut self) -> Draft {
        self.lines.iter_mut().for_each(|line| line.mark = 1);
        self
    }

    /// The same with no batch started.
    pub fn waiting(mut self) -> Draft {
        self.lines.iter_mut().for_each(|line| line.mark = 0);
        self
    }

    /// The same with no batch started, but every one that had qualified only on
    /// its place.
    pub fn pinned(mut self) -> Draft {
        for line in self.lines.iter_mut().filter(|line| line.started()) {
            line.list = line.given().into_iter().collect();
        }
        self.waiting()
    }

    /// The same with every place left blank.
    pub fn without_places(mut self) -> Draft {
        for line in &mut self.lines {
            line.place = None;
        }
        self
    }

    /// The file's bytes.
    pub fn render(&self) -> Vec<u8> {
        let mut out = Vec::new();
        let batches = self.lines.len() as u32;
        put_line(&mut out, &[Some(self.instruments), Some(batches)]);
        let calibrations: Vec<Option<u32>> = self.calibrations.iter().copied().map(Some).collect();
        put_line(&mut out, &calibrations);
        for line in &self.lines {
            let count = line.list.len() as u32;
            let mut fields = vec![Some(line.length), line.place, Some(line.mark), Some(count)];
            fields.extend(line.list.iter().copied().map(Some));
            put_line(&mut out, &fields);
        }
        out
    }

    /// The sheet that reading the bytes must give, made by edits instead.
    /// Panics on a draft with a fault.
    pub fn sheet(&self) -> Sheet {
        let mut sheet = Sheet::calibrated(&self.calibrations).expect("a sound line 2");
        assert_eq!(sheet.instruments(), self.instruments);
        for (i, line) in self.lines.iter().enumerate() {
            let list: Vec<u64> = line.list.iter().map(|&j| j as u64).collect();
            sheet.add(line.length as u64, &list).expect("a sound line");
            if let Some(place) = line.given() {
                sheet
                    .shift(i as u64 + 1, place as u64)
                    .expect("a listed place");
            }
            assert!(line.mark <= 1, "a sound mark");
            if line.started() {
                assert!(line.given().is_some(), "started, and no place is given");
                sheet.start(i as u64 + 1).expect("a batch to start");
            }
        }
        sheet
    }
}

/// What a sheet holds, every place written out.
impl From<&Sheet> for Draft {
    fn from(sheet: &Sheet) -> Draft {
        Draft {
            instruments: sheet.instruments(),
            calibrations: sheet.calibrations().to_vec(),
            lines: sheet
                .batches()
                .iter()
                .map(|b| Line {
                    length: b.length,
                    place: Some(b.place),
                    mark: b.started as u32,
                    list: b.list.clone(),
                })
                .collect(),
        }
    }
}

/// A line of fields, each a number or blank.
fn put_line(out: &mut Vec<u8>, fields: &[Option<u32>]) {
    for field in fields {
        match field {
            Some(number) => out.extend(format!("{number:>6}").bytes()),
            None => out.extend(b"      "),
        }
    }
    out.push(b'\n');
}
