//! From a sheet to a file's bytes (document 02, C-13, C-16 for line 2, C-17 for
//! the mark and C-20 for the lists).

use crate::listing::put_line;
use crate::sheet::Sheet;

/// The sheet in the form that the reader takes. Lists ascend, and every place is
/// the true one, of a started batch too.
pub fn write(sheet: &Sheet) -> Vec<u8> {
    let mut text = String::new();
    let batches = sheet.batches();
    put_line(&mut text, &[sheet.instruments(), batches.len() as u32]);
    put_line(&mut text, sheet.calibrations());
    for batch in batches {
        let (mark, count) = (batch.started as u32, batch.list.len() as u32);
        let mut fields = vec![batch.length, batch.place, mark, count];
        fields.extend(&batch.list);
        put_line(&mut text, &fields);
    }
    text.into_bytes()
}
