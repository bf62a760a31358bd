//! Writing: beside a draft of the sheet, and beside the file that the sheet was
//! read from.

use second::rng::Rng;
use second::*;

const SHAPES: [gen::Shape; 4] = [gen::SMALL, gen::MEDIUM, gen::FULL, gen::LARGE];

/// Write a sheet and check the text.
fn write_laws(sheet: &Sheet) -> Vec<u8> {
    let text = write(sheet);
    assert_eq!(text, Draft::from(sheet).render());
    assert_eq!(read(&text).as_ref(), Ok(sheet));
    text
}

/// Files as drafted and files that damage leaves without a fault.
#[test]
fn accepted_files() {
    let mut rng = Rng::new(51);
    let (mut same, mut zero, mut blank, mut damaged, mut started) = (0, 0, 0, 0, 0);
    for round in 0..10_000 {
        let shape = if round % 50 == 0 {
            *rng.pick(&SHAPES)
        } else {
            gen::SMALL
        };
        let mut file = gen::draft(&mut rng, shape).render();
        if round % 2 == 0 {
            gen::damage(&mut rng, &mut file);
        }
        let Ok(sheet) = read(&file) else { continue };
        let text = write_laws(&sheet);
        assert_eq!(text, gen::with_places(&file));
        same += (text == file) as u32;
        for at in gen::places(&file) {
            zero += (file[at..at + 6] == *b"     0") as u32;
            blank += (file[at..at + 6] == *b"      ") as u32;
        }
        started += sheet.batches().iter().filter(|b| b.started).count() as u32;
        damaged += (round % 2 == 0) as u32;
    }
    let counts = [same, zero, blank, damaged, started];
    assert!(counts.into_iter().all(|count| count > 300), "{counts:?}");
}

/// What calls leave is written and read back as any sheet is; places that are not
/// the lowest listed are met often. The text is the same where the sheet is, and
/// only there.
#[test]
fn after_calls() {
    let mut rng = Rng::new(52);
    let (mut elsewhere, mut changed, mut kept) = (0, 0, 0);
    let (mut started, mut longer) = (0, 0);
    for round in 0..600 {
        let shape = SHAPES[if round % 20 == 0 { 2 } else { round % 2 }];
        let mut sheet = gen::sheet(&mut rng, shape);
        let (m, n) = (sheet.instruments(), sheet.batches().len() as u32);
        let mut before = write_laws(&sheet);
        for call in gen::calls(&mut rng, m, n, shape.lengths.1, 12) {
            let was = sheet.clone();
            apply(&mut sheet, &call);
            let after = write_laws(&sheet);
            assert_eq!(before == after, was == sheet);
            if before == after {
                kept += 1;
            } else {
                changed += 1;
            }
            before = after;
        }
        for batch in sheet.batches() {
            elsewhere += (batch.place != batch.list[0]) as u32;
            started += batch.started as u32;
            longer += (batch.started && batch.list.len() > 1) as u32;
        }
    }
    let counts = [elsewhere, changed, kept, started, longer];
    assert!(counts.into_iter().all(|count| count > 1_000), "{counts:?}");
}
