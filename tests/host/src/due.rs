//! What a call from outside has to return and to write.

use second::{Fault, Sheet};

use crate::Hosted;

/// A text, or a refusal with its line.
#[derive(Clone, Debug, PartialEq, Eq)]
pub enum Due {
    Text(Vec<u8>),
    Refused { refusal: u32, line: usize },
}

impl Due {
    /// What is due where reading the sheet, or taking the worklist, finds this fault.
    pub fn fault(fault: Fault) -> Due {
        Due::Refused {
            refusal: fault.refusal.number(),
            line: fault.line as usize,
        }
    }

    /// The sheet that was read or taken, written, or the fault that was found.
    pub fn sheet(read: Result<Sheet, Fault>) -> Due {
        read.map_or_else(Due::fault, |sheet| Due::Text(second::write(&sheet)))
    }

    /// How many bytes the text has; for a refusal `least`.
    pub fn length_or(&self, least: usize) -> usize {
        match self {
            Due::Text(text) => text.len(),
            Due::Refused { .. } => least,
        }
    }

    /// What a call with a buffer of this size returns and writes.
    pub fn at(&self, size: usize) -> (Hosted, &[u8]) {
        let answer = |refusal, line, length| Hosted {
            refusal,
            line,
            length,
        };
        match self {
            Due::Refused { refusal, line } => (answer(*refusal, *line, 0), &[]),
            Due::Text(text) if size < text.len() => (answer(9, 0, 0), &[]),
            Due::Text(text) => (answer(0, 0, text.len()), text),
        }
    }
}
