//! Lists that ascend (document 02, C-20): which fault of a line comes first, lists
//! in every order wherever one is given, and that written sheets are alike where
//! what they hold is. Wrong judges and wrong writers are told from the library.

use std::collections::{BTreeMap, BTreeSet};

use host::check::Judge;
use host::due::Due;
use host::journal::journal;
use host::told::{answers, file, left, taken, written};
use host::{rewrite, run, text, write, LARGEST_SHEET};
use second::gen::{self, Shape};
use second::rng::Rng;
use second::{Call, Draft, Line, Sheet};

/// When a list is refused with 13, and where that stands among the other faults.
#[derive(Clone, Copy, Debug, PartialEq, Eq, PartialOrd, Ord)]
enum Way {
    /// Once the whole list has passed 4, and before the LF.
    Right,
    /// The same, but equal neighbours are 13 too.
    Equal,
    /// At the field that is smaller than the one before it.
    AtField,
    /// By the last two members alone.
    LastTwo,
    /// By the first two alone.
    FirstTwo,
    Never,
    BeforeMark,
    AfterEnd,
    AfterPlace,
}

/// The wrong ways.
const WRONG: [Way; 8] = [
    Way::Equal,
    Way::AtField,
    Way::LastTwo,
    Way::FirstTwo,
    Way::Never,
    Way::BeforeMark,
    Way::AfterEnd,
    Way::AfterPlace,
];

/// Those of them that are wrong about a list by itself.
const WRONG_LISTS: &[Way] = WRONG.split_at(5).0;

/// The places in a list at which a member is smaller than the one before it, by
/// this way.
fn breaks(list: &[u64], way: Way) -> Vec<usize> {
    let compared = match way {
        Way::Never => 0..0,
        Way::LastTwo => list.len().saturating_sub(1).max(1)..list.len(),
        Way::FirstTwo => 1..list.len().min(2),
        _ => 1..list.len(),
    };
    let falls = |&k: &usize| list[k] < list[k - 1] || way == Way::Equal && list[k] == list[k - 1];
    compared.filter(falls).collect()
}

/// Is this member of a list 4, by its range or as a repeat?
fn strange(list: &[u64], k: usize, m: u64, way: Way) -> bool {
    let before = match way {
        Way::Equal => k.saturating_sub(1),
        _ => k,
    };
    !(1..=m).contains(&list[k]) || list[..before].contains(&list[k])
}

/// The refusal of a list that an edit or a row gives, 0 for none.
fn list_due(list: &[u64], m: u64, way: Way) -> u32 {
    if list.is_empty() || list.len() > m as usize {
        return 4;
    }
    let breaks = breaks(list, way);
    for k in 0..list.len() {
        if strange(list, k, m, way) {
            return 4;
        }
        if way == Way::AtField && breaks.contains(&k) {
            return 13;
        }
    }
    if breaks.is_empty() {
        0
    } else {
        13
    }
}

/// The refusal of the line that the text starts with, 0 for none: every fault is
/// noted with when it is judged, and the first decides.
fn line_due(text: &str, m: u64, way: Way) -> u32 {
    let field = |k: usize| text.get(6 * k..6 * k + 6);
    let number = |k: usize| field(k)?.trim_start_matches(' ').parse::<u64>().ok();
    let mut faults: Vec<(usize, u32)> = Vec::new();
    let mut note = |when: usize, there: bool, refusal: u32| {
        if there {
            faults.push((when, refusal));
        }
    };
    let within = |k: usize, low: u64, high: u64| number(k).is_none_or(|x| low <= x && x <= high);
    note(0, number(0).is_none(), 1);
    note(1, !within(0, 1, 1440), 3);
    note(2, number(1).is_none() && field(1) != Some("      "), 1);
    note(4, number(2).is_none(), 1);
    note(5, !within(2, 0, 1), 1);
    note(6, number(3).is_none(), 1);
    note(7, !within(3, 1, m), 4);
    let count = number(3).filter(|count| (1..=m).contains(count));
    let count = count.unwrap_or(0) as usize;
    // What is no number is refused there, so that it does not count what it is.
    let list: Vec<u64> = (4..4 + count).map(|k| number(k).unwrap_or(0)).collect();
    for k in 0..count {
        note(10 + 3 * k, number(4 + k).is_none(), 1);
        note(11 + 3 * k, strange(&list, k, m, way), 4);
    }
    let last = 10 + 3 * count;
    for k in breaks(&list, way) {
        let when = match way {
            Way::AtField => 12 + 3 * k,
            Way::BeforeMark => 3,
            Way::AfterEnd => last + 2,
            Way::AfterPlace => last + 4,
            _ => last,
        };
        note(when, true, 13);
    }
    let end = 6 * (4 + count);
    note(last + 1, text.get(end..end + 1) != Some("\n"), 1);
    let given = number(1).filter(|&place| place != 0);
    let absent = given.map_or(number(2) == Some(1), |place| !list.contains(&place));
    note(last + 3, absent, 5);
    faults.into_iter().min().map_or(0, |(_, refusal)| refusal)
}

/// How often each refusal was met, 0 for none, and how often each wrong way would
/// have answered another.
#[derive(Debug, Default)]
struct Met {
    refusals: BTreeMap<u32, usize>,
    told: BTreeMap<Way, usize>,
}

impl Met {
    fn answer(&mut self, refusal: u32, wrong: &[Way], due: impl Fn(Way) -> u32) {
        assert_eq!(refusal, due(Way::Right));
        *self.refusals.entry(refusal).or_default() += 1;
        for &way in wrong {
            *self.told.entry(way).or_default() += (due(way) != refusal) as usize;
        }
    }

    /// These were met so often at least, and every wrong way was told.
    fn expect(&self, least: &[(u32, usize)], wrong: &[Way]) {
        println!("by refusal: {:?}; told: {:?}", self.refusals, self.told);
        for (refusal, least) in least {
            assert!(self.refusals[refusal] >= *least, "{refusal}: {self:?}");
        }
        assert!(wrong.iter().all(|way| self.told[way] > 0), "{self:?}");
    }
}

/// Every line that can be made of good and bad parts, as the first, the second or the
/// third of a sheet: the refusal and its line, by the order of faults above and by
/// the second planner, and nothing is written.
#[test]
fn faults_of_a_line() {
    const LENGTHS: [&str; 3] = ["    30", "  1441", "    3x"];
    const PLACES: [&str; 5] = ["      ", "     0", "     2", "     5", "     x"];
    const MARKS: [&str; 4] = ["     0", "     1", "     2", "      "];
    const COUNTS: [&str; 6] = ["     3", "     2", "     4", "     0", "     5", "     x"];
    const MEMBERS: [&str; 6] = ["     1", "     2", "     3", "     4", "     5", "     x"];
    const ENDS: [&str; 4] = ["\n", "", " \n", "\r\n"];
    const GOOD: &str = "    20     4     0     2     1     4\n";
    let parts: [&[&str]; 8] = [
        &LENGTHS, &PLACES, &MARKS, &COUNTS, &MEMBERS, &MEMBERS, &MEMBERS, &ENDS,
    ];
    let all: usize = parts.iter().map(|part| part.len()).product();
    let mut judge = Judge::new(rewrite);
    let (mut met, mut lines) = (Met::default(), BTreeSet::new());
    for index in 0..all {
        let mut rest = index;
        let chosen = parts.map(|part| {
            let text = part[rest % part.len()];
            rest /= part.len();
            text
        });
        // Seven divides no number of variants: each of them is met in all three lines.
        let before = index % 7 % 3;
        let text = chosen.concat() + &GOOD.repeat(2 - before);
        let head = "     4     3\n     0     0     0     0\n";
        let sheet = head.to_string() + &GOOD.repeat(before) + &text;
        let (refusal, line) = match second::read(sheet.as_bytes()) {
            Err(fault) => (fault.refusal.number(), fault.line as usize),
            Ok(_) => (0, 0),
        };
        let due = match refusal {
            0 => {
                // All is as it was, but for a place not given.
                let mut fields = chosen;
                if matches!(fields[1], "      " | "     0") {
                    fields[1] = fields[4];
                }
                let good = [
                    GOOD.repeat(before),
                    fields.concat(),
                    GOOD.repeat(2 - before),
                ];
                Due::Text((head.to_string() + &good.concat()).into_bytes())
            }
            _ => Due::Refused { refusal, line },
        };
        let hosted = judge.call(sheet.as_bytes(), LARGEST_SHEET, &due);
        let hosted = hosted.unwrap_or_else(|fault| panic!("{fault}\n{sheet}"));
        if hosted.refusal != 0 {
            assert_eq!(hosted.line, 3 + before, "{sheet}");
        }
        if hosted.refusal == 13 {
            lines.insert(hosted.line);
        }
        met.answer(hosted.refusal, &WRONG, |way| line_due(&text, 4, way));
    }
    println!("{all} lines");
    met.expect(
        &[(1, 100_000), (3, 50_000), (4, 20_000), (13, 1_000)],
        &WRONG,
    );
    assert_eq!(lines, BTreeSet::from([3, 4, 5]));
    // Of the four good lists one is without 2. The place may be open until the batch
    // has started.
    assert_eq!(met.refusals[&0], (4 + 4 + 3) + 3);
    assert_eq!(met.refusals[&5], (1 + 4) + (4 + 4 + 1 + 4));
}

/// All lists of up to so many numbers from 0 up to `highest`.
fn lists(most: usize, highest: u64) -> Vec<Vec<u64>> {
    let mut all = vec![vec![]];
    let mut last = all.clone();
    for _ in 0..most {
        let longer = |list: &Vec<u64>| {
            let list = list.clone();
            (0..=highest).map(move |j| [&list[..], &[j]].concat())
        };
        last = last.iter().flat_map(longer).collect();
        all.extend(last.iter().cloned());
    }
    all
}

/// Every row of good and bad numbers, alone and after another: they are judged in the
/// order of a sheet's line, of which a row has no LF.
#[test]
fn faults_of_a_row() {
    const M: u64 = 4;
    let wrong: Vec<Way> = WRONG.into_iter().filter(|&w| w != Way::AfterEnd).collect();
    let (mut met, mut rows) = (Met::default(), 0);
    for list in lists(3, 5).into_iter().filter(|list| !list.is_empty()) {
        let members: Vec<String> = list.iter().map(u64::to_string).collect();
        for (place, given) in [("", 0), ("0", 0), ("2", 2), ("5", 5)] {
            for (length, mark) in [(30, 0), (30, 1), (30, 2), (0, 0), (1441, 2)] {
                let due = |way: Way| {
                    let listed = list_due(&list, M, way);
                    let absent = match given {
                        0 => mark == 1,
                        _ => !list.contains(&given),
                    };
                    let order = match way {
                        Way::BeforeMark => 1,
                        Way::AfterPlace => 6,
                        _ => 4,
                    };
                    let faults = [
                        (0, length != 30, 3),
                        (2, mark > 1, 1),
                        (3, listed == 4, 4),
                        (order, listed == 13, 13),
                        (5, absent, 5),
                    ];
                    let there = faults.into_iter().filter(|fault| fault.1);
                    there.min().map_or(0, |fault| fault.2)
                };
                let row = format!("{length},{place},{mark},\"{}\"", members.join(","));
                let before = rows % 2;
                let worklist = "30,4,1,\"1,4\"\r\n".repeat(before) + &row;
                let found = taken(M as u32, &[0; 4], worklist.as_bytes());
                let second = second::take(M as u32, &[0; 4], worklist.as_bytes());
                let second = second.map(|sheet| second::write(&sheet));
                let refusal = match (&found, second) {
                    (Ok(sheet), Ok(written)) => {
                        assert_eq!(sheet.as_bytes(), written);
                        0
                    }
                    (&Err((refusal, row)), Err(fault)) => {
                        assert_eq!((refusal, row), (fault.refusal.number(), before + 1));
                        refusal
                    }
                    (found, second) => panic!("{found:?}, {second:?}: {worklist}"),
                };
                met.answer(refusal, &wrong, due);
                rows += 1;
            }
        }
    }
    println!("{rows} rows");
    let least = [
        (0, 25),
        (1, 500),
        (3, 1_000),
        (4, 1_000),
        (5, 50),
        (13, 100),
    ];
    met.expect(&least, &wrong);
}

/// A line for a batch of this length at this place.
fn line(length: u32, place: u32, mark: u32, list: &[u64]) -> Line {
    Line {
        length,
        place: Some(place),
        mark,
        list: list.iter().map(|&j| j as u32).collect(),
    }
}

/// A sheet of `m` instruments with these lines.
fn draft(m: u64, lines: Vec<Line>) -> Draft {
    Draft {
        lines,
        ..Draft::new(m as u32, &[])
    }
}

/// Every list that can be made of the instruments and of a number on either side of
/// theirs, one member too many included (of five instruments, those of up to four):
/// in a sheet's line, in a worklist's row, and in edits of a batch that waits, of one
/// that has started and of none.
#[test]
fn lists_in_every_order() {
    let (mut met, mut kept, mut moved) = (Met::default(), 0, 0);
    let mut tried = 0;
    for m in 1..=5u64 {
        let all: Vec<u64> = (1..=m).collect();
        let waiting = line(30, m as u32, 0, &all);
        let started = line(20, 1, 1, &all);
        let base = draft(m, vec![waiting.clone(), started.clone()]);
        let sheet = file(&base);
        let most = if m < 5 { m + 1 } else { 4 };
        for list in lists(most as usize, m + 1) {
            tried += 1;
            let refusal = list_due(&list, m, Way::Right);
            let lowest = list.iter().copied().min().unwrap_or(0) as u32;

            // A line with its place left open, and the row that says the same.
            let mut open = line(9, 0, 0, &list);
            let taken_due = |line: usize| match refusal {
                0 => Ok(file(&draft(m, vec![self::line(9, lowest, 0, &list)]))),
                _ => Err((refusal, line)),
            };
            let zero = written(&file(&draft(m, vec![open.clone()])));
            open.place = None;
            assert_eq!(zero, written(&file(&draft(m, vec![open]))));
            assert_eq!(zero, taken_due(3), "{list:?}");
            met.answer(
                zero.map_or_else(|fault| fault.0, |_| 0),
                WRONG_LISTS,
                |way| list_due(&list, m, way),
            );
            let members: Vec<String> = list.iter().map(u64::to_string).collect();
            let row = format!("9,,0,\"{}\"", members.join(","));
            let found = taken(m as u32, &vec![0; m as usize], row.as_bytes());
            match list.is_empty() {
                true => assert_eq!(found, Err((12, 1))),
                false => assert_eq!(found, taken_due(1), "{list:?}"),
            }

            // An edit of each kind that takes a list, and what they leave.
            let requalify = |number| Call::Requalify {
                number,
                list: list.clone(),
            };
            let add = Call::Add {
                length: 9,
                list: list.clone(),
            };
            let long = Call::Add {
                length: 1441,
                list: list.clone(),
            };
            let calls = [add, long, requalify(1), requalify(2), requalify(9)];
            let journal = String::from_utf8(journal(&calls)).unwrap();
            let told = format!("{refusal:>6}\n     3\n{refusal:>6}\n    11\n     6\n");
            assert_eq!(answers(&sheet, &journal), Ok(told), "{list:?}");
            let mut after = base.clone();
            if refusal == 0 {
                let stays = list.contains(&m);
                let place = if stays { m as u32 } else { lowest };
                after.lines[0] = line(30, place, 0, &list);
                after.lines.push(line(9, lowest, 0, &list));
                kept += (stays && lowest < place) as usize;
                moved += !stays as usize;
            }
            assert_eq!(left(&sheet, &journal), Ok(file(&after)), "{list:?}");
        }
    }
    // On a full sheet none is looked at.
    let full = file(&draft(3, vec![line(1, 1, 0, &[1]); 200]));
    let add = |list| Call::Add { length: 9, list };
    let calls: Vec<Call> = lists(4, 4).into_iter().map(add).collect();
    let journal = String::from_utf8(journal(&calls)).unwrap();
    let told = answers(&full, &journal);
    assert_eq!(told, Ok("     7\n".repeat(calls.len())));
    println!("{tried} lists; accepted where the place is kept {kept} times, and lost {moved}");
    met.expect(&[(4, 12_000)], WRONG_LISTS);
    // All sets but the empty one, and of five instruments but the whole one too. The
    // place, which is the highest instrument, is in none of those that lose it.
    assert_eq!(met.refusals[&0], 1 + 3 + 7 + 15 + 30);
    assert_eq!((moved, kept), (1 + 3 + 7 + 15, 1 + 3 + 7 + 14));
    // All other orders of these: there are 20 sets of two members, 15 of three and 6
    // of four.
    assert_eq!(met.refusals[&13], 20 + 5 * 15 + 23 * 6);
}

/// What a sheet holds, its lists as sets.
type Contents = (u32, Vec<u32>, Vec<(u32, u32, bool, BTreeSet<u32>)>);

fn contents(sheet: &Sheet) -> Contents {
    let batches = sheet.batches().iter().map(|b| {
        let list = b.list.iter().copied().collect();
        (b.length, b.place, b.started, list)
    });
    let calibrations = sheet.calibrations().to_vec();
    (sheet.instruments(), calibrations, batches.collect())
}

/// In how many ways two differ: instruments, calibrations, number of batches, and
/// of the batches lengths, places, marks and sets. And which of these differs last.
fn differences(one: &Contents, other: &Contents) -> (usize, usize) {
    let pairs = || one.2.iter().zip(&other.2);
    let differ = [
        one.0 != other.0,
        one.1 != other.1,
        one.2.len() != other.2.len(),
        pairs().any(|(a, b)| a.0 != b.0),
        pairs().any(|(a, b)| a.1 != b.1),
        pairs().any(|(a, b)| a.2 != b.2),
        pairs().any(|(a, b)| a.3 != b.3),
    ];
    let last = (0..7).filter(|&k| differ[k]).next_back().unwrap_or(7);
    (differ.into_iter().filter(|&d| d).count(), last)
}

/// A small sheet, some calls on it, and what they leave.
struct Reached {
    sheet: Vec<u8>,
    journal: Vec<u8>,
    bytes: String,
    holds: Contents,
}

fn reached(rng: &mut Rng) -> Reached {
    let shape = Shape {
        instruments: (1, 3),
        batches: (0, 2),
        lengths: (1, 2),
        calibrations: [0, 0, 1][rng.below(3) as usize],
        started: rng.once_in(2),
    };
    let draft = gen::draft(rng, shape);
    let (m, n) = (draft.instruments, draft.lines.len() as u64);
    let list = |rng: &mut Rng| {
        let count = rng.within(1, m);
        let mut list = gen::list(rng, m, count);
        if rng.once_in(6) {
            gen::disorder(rng, &mut list);
        }
        list.into_iter().map(u64::from).collect::<Vec<u64>>()
    };
    let call = |rng: &mut Rng| {
        let number = 1 + rng.below(n.max(1));
        match rng.below(8) {
            0 | 1 => Call::Add {
                length: rng.within(1, 2) as u64,
                list: list(rng),
            },
            2 => Call::Withdraw { number },
            3 => Call::Requalify {
                number,
                list: list(rng),
            },
            4 => Call::Move {
                number,
                instrument: rng.within(1, m) as u64,
            },
            5 => Call::Start { number },
            6 => Call::Balance { entries: 9 },
            _ => Call::Settle { entries: 9 },
        }
    };
    let calls: Vec<Call> = (0..rng.below(4)).map(|_| call(rng)).collect();
    let (sheet, journal) = (draft.render(), journal(&calls));
    let mut book = second::read(&sheet).expect("a sheet");
    second::run(&mut book, &calls);
    Reached {
        bytes: text(|buffer| write(&sheet, &journal, buffer)).expect("a sheet"),
        holds: contents(&book),
        sheet,
        journal,
    }
}

/// How many pairs have equal bytes without equal contents, or the reverse.
fn broken(all: &[Reached], bytes: impl Fn(&Reached) -> Vec<u8>) -> usize {
    let written: Vec<Vec<u8>> = all.iter().map(bytes).collect();
    let mut broken = 0;
    for (k, one) in all.iter().enumerate() {
        for (other, text) in all[..k].iter().zip(&written) {
            broken += ((one.holds == other.holds) != (written[k] == *text)) as usize;
        }
    }
    broken
}

/// Sheets that were typed with places or without, edited and planned: their written
/// bytes are equal where their contents are, and only there.
#[test]
fn equal_bytes_for_equal_contents() {
    let mut rng = Rng::new(201);
    let all: Vec<Reached> = (0..1_200).map(|_| reached(&mut rng)).collect();
    assert_eq!(broken(&all, |one| one.bytes.clone().into_bytes()), 0);
    let (mut equal, mut otherwise, mut near) = (0, 0, [0; 8]);
    for (k, one) in all.iter().enumerate() {
        assert_eq!(written(&one.bytes).as_ref(), Ok(&one.bytes));
        for other in &all[..k] {
            let (count, last) = differences(&one.holds, &other.holds);
            equal += (count == 0) as usize;
            // From another file, by other calls.
            let apart = one.sheet != other.sheet && one.journal != other.journal;
            otherwise += (count == 0 && apart) as usize;
            near[last] += (count == 1) as usize;
        }
    }
    println!(
        "of {} sheets {equal} pairs are equal, {otherwise} reached otherwise; {near:?} differ in \
         one way",
        all.len()
    );
    assert!(otherwise >= 1_000, "{otherwise}");
    // Another number of instruments has another number of calibrations.
    assert!(near[1..7].iter().all(|&count| count >= 50), "{near:?}");

    // Writers that would break this.
    let as_typed = |one: &Reached| match one.journal.is_empty() {
        true => one.sheet.clone(),
        false => one.bytes.clone().into_bytes(),
    };
    let changed = |one: &Reached, change: fn(&mut Line)| {
        let sheet = second::read(one.bytes.as_bytes()).expect("a sheet");
        let mut draft = Draft::from(&sheet);
        draft.lines.iter_mut().for_each(change);
        draft.render()
    };
    let by_answers = |one: &Reached| {
        let told = text(|answers| run(&one.sheet, &one.journal, answers)).expect("answers");
        (one.bytes.clone() + &told).into_bytes()
    };
    let unmarked = |one: &Reached| changed(one, |line| line.mark = 0);
    let unlisted = |one: &Reached| changed(one, |line| line.list.truncate(1));
    let found = [
        broken(&all, as_typed),
        broken(&all, by_answers),
        broken(&all, unmarked),
        broken(&all, unlisted),
    ];
    println!("pairs that wrong writers break: {found:?}");
    assert!(found.into_iter().all(|pairs| pairs >= 100), "{found:?}");
}
