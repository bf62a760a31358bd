//! Whole runs, journals good and bad, each with several buffers: both calls
//! that take a journal beside the second planner.

use std::hint::black_box;
use std::sync::atomic::{AtomicUsize, Ordering};

use host::cases::{self, Case};
use host::journal::{journal, kind, read, GREATEST};
use host::runs::{
    bad_journal, compare, compare_bytes, Judges, Met, Rooms, BAD_JOURNAL, BOTH, LEAST,
};
use host::{run, text, LONGEST_ANSWER, SHEET};
use second::rng::Rng;
use second::{gen, Call, Draft};

/// What the answers to a journal are, or its refusal and line.
fn answer(sheet: &str, journal: &str) -> Result<String, (u32, usize)> {
    text(|answers| run(sheet.as_bytes(), journal.as_bytes(), answers))
}

/// The lines in full, on a sheet that is small enough to follow by hand.
#[test]
fn known_answers() {
    let lines = [
        ("     5", "     0    60     1    60     0"),
        ("     6     0", "     0     1     2     2     2     1     1"),
        ("     6    60", "     0     1     0     0     1     1     1"),
        ("     6    61", "     8"),
        ("     6999999", "     8"),
        ("     4     3     2", "     0"),
        ("     4     2     2", "     5"),
        ("     4     4     2", "     6"),
        ("     4     3     1", "     0"),
        ("     7     2", "     9"),
        ("     8     2", "     9"),
        ("     8     0", "     9"),
        ("     5", "     0    60     1    60     0"),
        (
            "     7     3",
            "     0    30    30     0     2     2     0     1     1     1     2",
        ),
        ("     8     3", "     0    30           0     0"),
        ("     5", "     0    30     0    30    30"),
        // Settling alone, with lists of more entries than there are batches.
        ("     4     1     1", "     0"),
        (
            "     8     4",
            "     0    30           1     1     1     1     2",
        ),
        ("     8999999", "     0    30           0     0"),
        (
            "     7999999",
            "     0    30    30     0     0     0     0     0",
        ),
        ("     1    40     1     1", "     0"),
        ("     1    40     0", "     4"),
        ("     1    40     2     1     1", "     4"),
        ("     1    40     2     2     1", "    13"),
        ("     1  1441     2     2     1", "     3"),
        ("     1  1441     1     1", "     3"),
        ("     3     4     1     2", "     0"),
        ("     3     4     0", "     4"),
        ("     3     4     2     2     1", "    13"),
        ("     3     5     2     2     1", "     6"),
        ("     3     0     1     1", "     6"),
        ("     5", "     0    70     1    30    70"),
        ("     2     4", "     0"),
        ("     2     4", "     6"),
        ("     5", "     0    30     0    30    30"),
        // A started batch stays: the first one, moved back before it starts.
        ("     4     1     1", "     0"),
        ("     9     1", "     0"),
        ("     9     1", "    11"),
        ("     9     4", "     6"),
        ("     2     1", "    11"),
        ("     3     1     0", "    11"),
        ("     3     1     2     2     1", "    11"),
        ("     4     1     0", "    11"),
        ("     5", "     0    60     3    60     0"),
        (
            "     7     3",
            "     0    50    50    20     4     6     1     1     1     3     1     2",
        ),
        ("     8     3", "     0    50           0     0"),
    ];
    let file = |lines: Vec<&str>| lines.join("\n") + "\n";
    let (calls, answers): (Vec<&str>, Vec<&str>) = lines.into_iter().unzip();
    assert_eq!(answer(SHEET, &file(calls)), Ok(file(answers)));
    let group = "     2     3
     0     0
    10     1     0     1     1
    10     0     0     1     1
    10     1     0     1     1
";
    let plan = "     7     3\n     8     3\n";
    let answers = "     0    30    30    20     0     0     1     1     0
     0    30           0     0
";
    assert_eq!(answer(group, plan).unwrap(), answers);
    let blank = group.replace("10     0", "10      ");
    assert_eq!(answer(&blank, plan).unwrap(), answers);
    let failure = "     0     0     9    12     1\n";
    assert_eq!(answer(group, "     6    19\n").unwrap(), failure);
    assert_eq!(answer(SHEET, "").unwrap(), "");
    // Without a batch no entry is needed.
    let answers = "     0     0     0     0     0     0     0     0
     0     0           0     0
";
    let empty = answer(
        "     2     0\n     0     0\n",
        "     7     0\n     8     0\n",
    );
    assert_eq!(empty.unwrap(), answers);
    let answers = "     0  1440  1440     0     0     0     0     0
     0  1440           0     0
";
    let longest = "     1     1\n     0\n  1440     0     0     1     1\n";
    let one = answer(longest, "     7     1\n     8     1\n");
    assert_eq!(one.unwrap(), answers);
}

/// Balance ends before settling, whose moves are not the records: there are two
/// sheets on which settling has work to do.
#[test]
fn known_records() {
    let unsettled = "     2     4
     0     0
     2     2     0     1     2
     4     1     0     2     1     2
     5     1     0     2     1     2
     2     2     0     2     1     2
";
    let answers = "     0     9     2     9     4
     0     9     7     4     0     0     2     1     2     0
     0     7           2     2     2     1     2     4     2     1
     0     7     0     7     6
";
    let journal = "     5\n     7     4\n     8     4\n     5\n";
    assert_eq!(answer(unsettled, journal).unwrap(), answers);
    // Batch 2 leaves and returns.
    let returning = "     3     4
     0     0     0
     1     3     0     1     3
     4     3     0     2     2     3
     2     2     0     1     2
     2     3     0     2     1     3
";
    let answers = "     0     5           3     1     4     3     1\n";
    assert_eq!(answer(returning, "     8     4\n").unwrap(), answers);
    // A balance with a record and a group.
    let again = "     2     3
     0     0
     3     1     0     2     1     2
     4     1     0     1     1
     2     1     0     1     1
";
    let answers =
        "     0     6     5     2     2     2     2     1     2     1     1     1     2\n";
    assert_eq!(answer(again, "     7     3\n").unwrap(), answers);
}

#[test]
fn known_refusals() {
    let good = "     5\n";
    let many = 70_000;
    for (journal, line) in [
        ("     5".into(), 1),
        ("\n".into(), 1),
        (" ".into(), 1),
        ("     0\n".into(), 1),
        ("     9\n".into(), 1),
        ("     9     3     1\n".into(), 1),
        ("     9      \n".into(), 1),
        ("    10\n".into(), 1),
        ("    10     3\n".into(), 1),
        ("     7\n".into(), 1),
        ("     8\n".into(), 1),
        ("     7     3     3\n".into(), 1),
        ("     8     3     0\n".into(), 1),
        ("     7      \n".into(), 1),
        ("     8    03\n".into(), 1),
        ("     8    -1\n".into(), 1),
        ("    05\n".into(), 1),
        ("5     \n".into(), 1),
        ("     5\r\n".into(), 1),
        ("     5 \n".into(), 1),
        ("     5     1\n".into(), 1),
        ("     6\n".into(), 1),
        ("     6    -1\n".into(), 1),
        ("     2     1     1\n".into(), 1),
        ("     4     1\n".into(), 1),
        ("     1     1\n".into(), 1),
        ("     1     1     1\n".into(), 1),
        ("     1     1     1     1     1\n".into(), 1),
        ("     3     1     2     1\n".into(), 1),
        ("     3     1999999     1\n".into(), 1),
        ("      \n".into(), 1),
        ("     6      \n".into(), 1),
        ("     4     1      \n".into(), 1),
        ("     1     9           1\n".into(), 1),
        ("     3     1     1      \n".into(), 1),
        (format!("{good}           1\n"), 2),
        (format!("{good}     7     3"), 2),
        (format!("{good}     8     3\n     7\n"), 3),
        (format!("{good}\n{good}"), 2),
        (format!("{good}     9\n     9\n"), 2),
        (format!("{good}{good}x"), 3),
        (format!("{}x{good}", good.repeat(many)), many + 1),
    ] {
        let start = &journal[..journal.len().min(100)];
        let journal = journal.as_bytes();
        for call in BOTH {
            let answer = |sheet: &str| text(|to| call(sheet.as_bytes(), journal, to));
            let refused = Err((BAD_JOURNAL, line));
            assert_eq!(answer(SHEET), refused, "{start}");
            // No line of the sheet is the one given.
            assert_eq!(answer("     1     0\n     0\n"), refused, "{start}");
            // The sheet comes first.
            let sheet = SHEET.replace("    20", "  1441");
            assert_eq!(answer(&sheet), Err((3, 4)), "{start}");
            let sheet = SHEET.replace("     0     0", "     0   241");
            assert_eq!(answer(&sheet), Err((10, 2)), "{start}");
            assert_eq!(answer(""), Err((1, 1)), "{start}");
        }
        assert_eq!(read(journal), Err(line), "{start}");
    }
}

/// Make a call's numbers fit their columns.
fn fitting(rng: &mut Rng, call: &mut Call) {
    let mut fit = |number: &mut u64| {
        *number = match rng.below(2) {
            0 => *number % (GREATEST + 1),
            _ => (*number).min(GREATEST),
        }
    };
    match call {
        Call::Add { length: a, list } | Call::Requalify { number: a, list } => {
            fit(a);
            list.iter_mut().for_each(fit);
        }
        Call::Withdraw { number } | Call::Start { number } => fit(number),
        Call::Move { number, instrument } => {
            fit(number);
            fit(instrument);
        }
        Call::Trial { level } => fit(level),
        Call::Balance { entries } | Call::Settle { entries } => fit(entries),
        Call::Review => {}
    }
}

/// Calls of every kind on this sheet, of lengths up to `longest`.
fn any_calls(rng: &mut Rng, draft: &Draft, longest: u32, count: usize) -> Vec<Call> {
    let (m, n) = (draft.instruments, draft.lines.len() as u32);
    let mut calls = gen::calls(rng, m, n, longest, count);
    for call in &mut calls {
        fitting(rng, call);
    }
    calls
}

/// A call with a list of about as many numbers as a sheet has instruments at
/// most, or of very many; what is wrong with it shows late or not at all.
fn long(rng: &mut Rng) -> Call {
    let mut list: Vec<u64> = (1..=24).collect();
    if rng.once_in(2) {
        rng.shuffle(&mut list);
    }
    let size = *rng.pick(&[23, 24, 24, 25, 25, 26, 27, 40, 300]);
    while list.len() < size {
        let next = *rng.pick(&[0, 1, 24, 25, list[0], GREATEST]);
        list.push(next);
    }
    list.truncate(size);
    match rng.below(2) {
        0 => Call::Add {
            length: rng.below(1_500),
            list,
        },
        _ => Call::Requalify {
            number: rng.below(12),
            list,
        },
    }
}

/// These cases with more long lists and high levels.
fn longer(seed: u64, mut cases: Vec<Case>) -> Vec<Case> {
    let mut rng = Rng::new(seed);
    for case in &mut cases {
        for _ in 0..rng.below(3) {
            let at = rng.below(case.calls.len() as u64 + 1) as usize;
            let call = match rng.below(4) {
                0 => Call::Trial {
                    level: GREATEST - rng.below(GREATEST),
                },
                _ => long(&mut rng),
            };
            case.calls.insert(at, call);
        }
    }
    cases
}

/// Every buffer was met by so many good pairs at least, and all pairs had one
/// that is long enough.
fn rooms_of_good_pairs(met: &Met, least: usize) {
    for calls in met.calls {
        let [empty, short, exact, longer] = calls[9];
        assert!(empty >= least && short >= least, "{calls:?}");
        assert_eq!((exact, longer), (0, 0));
        let [empty, short, exact, longer] = calls[0];
        assert_eq!((empty, short), (0, 0));
        assert!(exact >= least && longer >= least, "{calls:?}");
        // Those with all buffers had both of the last two.
        assert_eq!(exact + longer - calls[9][0], met.pairs);
    }
}

#[test]
fn random_runs() {
    let met = compare(178, |share| match share {
        0..=3 => cases::hard(share, 1),
        4..=75 => longer(share, cases::runs(share, 100)),
        76..=135 => longer(share, cases::edits(share, 220)),
        _ => longer(share, cases::reviews_and_trials(share, 100)),
    });
    println!("{}", met.summary());
    assert_eq!(met.pairs, 4 + 72 * 100 + 60 * 220 + 42 * 100);
    rooms_of_good_pairs(&met, 2_500);
    let seen = &met.seen;
    for kind in 1..=9 {
        assert!(seen.calls[kind][0] >= 6_000, "calls of kind {kind}");
    }
    for (kind, refusal) in [
        (1, 3),
        (1, 4),
        (1, 7),
        (2, 6),
        (2, 11),
        (3, 4),
        (3, 6),
        (3, 11),
        (4, 5),
        (4, 6),
        (4, 11),
        (9, 6),
        (9, 11),
        (6, 8),
        (7, 9),
        (8, 9),
    ] {
        assert!(seen.calls[kind][refusal] >= 1_900, "{refusal} of {kind}");
    }
    assert!(seen.calls[1][13] >= 2_000 && seen.calls[3][13] >= 1_200);
    assert_eq!(seen.calls[5][0], seen.gaining + seen.settled);
    assert!(seen.gaining >= 7_000 && seen.settled >= 6_000);
    assert_eq!(seen.calls[7][0], seen.grouped + seen.ungrouped);
    assert!(seen.grouped >= 5_000 && seen.ungrouped >= 3_000);
    assert!(seen.shifted >= 2_000 && seen.moved >= 2_000);
    assert!(seen.repeated >= 300 && seen.most_records >= 150);
    let trials = &seen.trials;
    assert_eq!(seen.calls[6][0], trials.passed + trials.failed);
    assert!(trials.passed >= 75_000 && trials.worked >= 21_000);
    assert!(trials.failed >= 14_000);
    assert!(trials.partial >= 3_000 && trials.several >= 500);
    assert!(trials.most >= 200_000);
    assert!(trials.long_passes + trials.long_failures >= 100);
    let arguments = &met.arguments;
    assert!(arguments.empty >= 1_000 && arguments.repeated >= 1_000);
    assert!(arguments.above_24 >= 1_000 && arguments.of_25 >= 1_000);
    assert!(arguments.above_25 >= 1_000 && arguments.all_and_more >= 500);
    assert!(arguments.greatest >= 1_000 && arguments.six_digits >= 5_000);
    assert!((3_000..=LONGEST_ANSWER).contains(&arguments.most_line));
    let entries = &arguments.entries;
    assert!(entries.none >= 1_500 && entries.none_due >= 500);
    assert!(entries.one_less >= 1_500 && entries.exact >= 5_000);
    assert!(entries.one_more >= 2_500 && entries.greatest >= 1_500);
    let left = &met.left;
    assert!(left.blank >= 150_000, "{} blank places", left.blank);
    assert!(left.changed >= 15_000 && left.kept >= 5_000);
    assert!(left.empty >= 2_000 && left.full >= 800);
    assert!(left.calibrated >= 10_000);
    assert!(left.started >= 150_000, "{}", left.started);
    assert!(left.elsewhere >= 200_000, "{}", left.elsewhere);
}

/// Journals of two thousand calls.
#[test]
fn long_runs() {
    let met = compare(4, |share| {
        let mut rng = Rng::new(share);
        let case = |_| {
            let draft = gen::draft(&mut rng, gen::MEDIUM);
            Case {
                sheet: draft.render(),
                calls: any_calls(&mut rng, &draft, 60, 2_000),
            }
        };
        (0..16).map(case).collect()
    });
    println!("{}", met.summary());
    assert_eq!((met.pairs, met.left.changed), (64, 64));
    rooms_of_good_pairs(&met, 8);
    assert!(met.arguments.most_calls >= 2_000);
    assert!(met.arguments.most_bytes >= 1 << 17);
    for kind in 1..=9 {
        assert!(met.seen.calls[kind][0] >= 1_600, "calls of kind {kind}");
    }
}

/// A small sheet and few calls.
fn small(rng: &mut Rng) -> (Vec<u8>, Vec<Call>) {
    let shape = *rng.pick(&[gen::SMALL, gen::MEDIUM]);
    let draft = gen::draft(rng, shape);
    let count = rng.within(0, 12) as usize;
    let mut calls = any_calls(rng, &draft, shape.lengths.1, count);
    if rng.once_in(4) {
        calls.push(long(rng));
    }
    (draft.render(), calls)
}

/// A sheet at the limits and few calls.
fn large(rng: &mut Rng) -> (Vec<u8>, Vec<Call>) {
    let draft = gen::draft(rng, gen::LARGE);
    (draft.render(), any_calls(rng, &draft, 1440, 4))
}

/// So many journals were good and so many bad at least, the same ones for both
/// calls and with every buffer.
fn good_and_bad(met: &Met, good: usize, bad: usize) {
    for calls in met.calls {
        let (taken, refused) = (calls[0][2], calls[BAD_JOURNAL as usize]);
        assert_eq!(taken + refused[2], met.pairs);
        assert_eq!(refused, [refused[0]; 4]);
        assert!(taken >= good && refused[0] >= bad, "{calls:?}");
    }
}

/// Journals spoilt at random; some keep to the form, with other calls in them.
#[test]
fn damaged_journals() {
    let met = compare_bytes(60, |share| {
        let mut rng = Rng::new(share);
        let pair = |_| {
            let (sheet, calls) = small(&mut rng);
            let mut journal = journal(&calls);
            for _ in 0..rng.within(1, 3) {
                gen::damage(&mut rng, &mut journal);
            }
            (sheet, journal)
        };
        (0..300).map(pair).collect()
    });
    println!("{}", met.summary());
    assert_eq!(met.pairs, 60 * 300);
    good_and_bad(&met, 1_500, 10_000);
    // Good ones with a call: only to them a buffer can be a byte short.
    assert!(met.calls[0][9][1] >= 1_000, "{:?}", met.calls[0][9]);
    assert!(met.lines.len() >= 12, "{:?}", met.lines);
}

/// One journal with all kinds of call, spoilt at every byte: the byte changed,
/// another put before it, the byte left out, and the journal cut there or
/// carried on from there.
#[test]
fn every_byte() {
    const BYTES: &[u8; 17] = b" 0123456789\n\t\r-x\xb0";
    let file = b"     1    12     2     1     2
     2     3
     3     1     1     2
     4     2     1
     5
     6    24
     7     3
     8     3
     6     0
     9     2
     4     2     1
";
    let sheet = SHEET.as_bytes();
    let met = compare_bytes(file.len() as u64, |at| {
        let at = at as usize;
        let mut journals = vec![file[..at].to_vec(), [file, &file[at..]].concat()];
        for &byte in BYTES {
            let mut changed = file.to_vec();
            changed[at] = byte;
            let mut longer = file.to_vec();
            longer.insert(at, byte);
            journals.extend([changed, longer]);
        }
        let mut shorter = file.to_vec();
        shorter.remove(at);
        journals.push(shorter);
        let pair = |journal| (sheet.to_vec(), journal);
        journals.into_iter().map(pair).collect()
    });
    println!("{}", met.summary());
    assert_eq!(met.pairs, file.len() * 37);
    good_and_bad(&met, 300, 3_000);
    assert!((1..=12).all(|line| met.lines.contains(&line)));
}

/// Every field of a journal left blank in turn: it is refused at its line, and
/// nothing is written.
#[test]
fn every_field_blank() {
    let mut judges = Judges::default();
    let mut rng = Rng::new(33);
    let mut met = Met::default();
    let mut kinds = [0; 10];
    for _ in 0..200 {
        let (sheet, calls) = small(&mut rng);
        let file = journal(&calls);
        for at in gen::fields(&file) {
            let mut blank = file.clone();
            blank[at..at + 6].fill(b' ');
            let ends = file[..at].iter().filter(|&&b| b == b'\n').count();
            let dues = bad_journal(ends + 1);
            judges.rooms(&sheet, &blank, &dues, Rooms::All(99), &mut met);
            kinds[kind(&calls[ends]) as usize] += 1;
        }
    }
    println!("{}, by kind of call {:?}", met.summary(), &kinds[1..]);
    good_and_bad(&met, 0, met.pairs);
    assert!((1..=12).all(|line| met.lines.contains(&line)));
    assert!(kinds[1..].iter().all(|&count| count >= 50), "{kinds:?}");
}

/// Bytes of any value, those of a journal in any order, and fields and line
/// ends in any order.
#[test]
fn random_bytes() {
    let met = compare_bytes(62, |share| {
        let mut rng = Rng::new(share);
        let pair = |k| {
            let (sheet, _) = small(&mut rng);
            let size = rng.below(60);
            let journal: Vec<u8> = match k % 4 {
                0 => (0..size).map(|_| rng.next_u64() as u8).collect(),
                1 => (0..size).map(|_| *rng.pick(b" 156789\n")).collect(),
                2 => {
                    let fields = [
                        "     1", "     2", "     5", "     6", "     7", "     8", "     9",
                        "      ", "\n",
                    ];
                    let field = |_| *rng.pick(&fields);
                    (0..size / 6).map(field).collect::<String>().into()
                }
                _ => {
                    // Lines of the right kinds, most with the right numbers.
                    let lines = [
                        "     5\n",
                        "     7    30\n",
                        "     8    30\n",
                        "     7     2\n",
                        "     8     2\n",
                        "     6     1\n",
                        "     2     1\n",
                        "     9     1\n",
                        "     4     1     2\n",
                        "     1     9     1     1\n",
                        "     3     1     1     1\n",
                        "     3     1     0\n",
                        "     3     1     2     1\n",
                        "     6     1     1\n",
                        "     7\n",
                        "     8\n",
                        "     9\n",
                        "     5",
                    ];
                    let line = |_| *rng.pick(&lines);
                    (0..size / 6).map(line).collect::<String>().into()
                }
            };
            (sheet, journal)
        };
        (0..400).map(pair).collect()
    });
    println!("{}", met.summary());
    assert_eq!(met.pairs, 62 * 400);
    good_and_bad(&met, 2_000, 15_000);
    // Good ones with a call: only to them a buffer can be a byte short.
    assert!(met.calls[0][9][1] >= 1_200, "{:?}", met.calls[0][9]);
    assert!((1..=8).all(|line| met.lines.contains(&line)));
}

/// A bad sheet comes before any journal and any buffer, a bad journal before
/// any buffer.
#[test]
fn which_comes_first() {
    let both = AtomicUsize::new(0);
    let met = compare_bytes(40, |share| {
        let mut rng = Rng::new(share);
        let mut pairs = Vec::new();
        for case in cases::faulty(share, 100) {
            let (good_sheet, calls) = small(&mut rng);
            let good = journal(&calls);
            let mut bad = [&good[..], b"     5"].concat();
            if rng.once_in(2) {
                bad.extend(&good);
            }
            let refused = second::read(&case.sheet).is_err();
            both.fetch_add(refused as usize, Ordering::Relaxed);
            for sheet in [case.sheet, good_sheet] {
                pairs.extend([(sheet.clone(), good.clone()), (sheet, bad.clone())]);
            }
        }
        pairs
    });
    let both = both.into_inner();
    println!("{}, {both} times both are bad", met.summary());
    assert_eq!(met.pairs, 40 * 400);
    assert!(both >= 3_500);
    for calls in met.calls {
        let empty = |refusal: usize| calls[refusal][0];
        let of_sheets = [1, 2, 3, 4, 5, 10, 13];
        for refusal in of_sheets {
            assert!(empty(refusal) >= 400, "refusal {refusal}");
        }
        // With the good journal and with the bad one.
        assert_eq!(of_sheets.map(empty).iter().sum::<usize>(), 2 * both);
        assert!(empty(BAD_JOURNAL as usize) >= 4_000);
        assert!(empty(9) >= 3_000);
    }
}

/// From none to three bytes more than the text has; where it is long, none, one
/// and those about its own length.
#[test]
fn every_size() {
    let mut judges = Judges::default();
    let mut rng = Rng::new(31);
    let (mut short, mut enough, mut bad) = (0, 0, 0);
    let sizes = |fit: usize| match fit {
        0..1_000 => (0..=fit + 3).collect(),
        _ => [0, 1]
            .into_iter()
            .chain(fit - 5..=fit + 3)
            .collect::<Vec<_>>(),
    };
    for round in 0..100 {
        let (sheet, calls) = match round {
            0..80 => small(&mut rng),
            _ => large(&mut rng),
        };
        let mut journal = journal(&calls);
        if round % 4 == 0 {
            journal.push(b' ');
        }
        judges.call(&sheet, &journal, sizes, |ran| match ran.refusal {
            0 => enough += 1,
            9 => short += 1,
            _ => bad += 1,
        });
    }
    println!("{short} too short, {enough} large enough, {bad} with bad journals");
    assert!(short >= 20_000, "{short}");
    assert_eq!((enough, bad), (2 * 75 * 4, 2 * 25 * (LEAST + 4)));
}

/// A journal that stands between other bytes, at any offset and cut anywhere
/// with its rest behind it, is what its own bytes are, and stays so.
#[test]
fn bytes_beside_the_journal() {
    let mut judges = Judges::default();
    let mut rng = Rng::new(32);
    let (mut good, mut bad) = (0, 0);
    for round in 0..40 {
        let (sheet, calls) = small(&mut rng);
        let mut file = journal(&calls);
        let own = file.len();
        // What would go on well as a journal, and what would not.
        file.extend(match round % 3 {
            0 => b"     5\n     7    30\n".as_slice(),
            1 => b"\n\n\n\n\n\n\n\n",
            _ => b"99999999",
        });
        for offset in 0..9 {
            let memory = [&file[file.len() - offset..], &file].concat();
            let before = (sheet.clone(), memory.clone());
            let first = if offset == 0 { 0 } else { own };
            for end in first..=own {
                let journal = &memory[offset..offset + end];
                let size = |fit| [fit + 9];
                judges.call(&sheet, journal, size, |ran| match ran.refusal {
                    0 => good += 1,
                    _ => bad += 1,
                });
            }
            assert_eq!(
                black_box((&sheet, &memory)),
                (&before.0, &before.1),
                "sheet and journal stay as they are"
            );
        }
    }
    println!("{good} good, {bad} cut within a line");
    assert!(good >= 2 * 40 * 9 && bad >= 2 * 3_000);
}
