//! Edits in either order (document 02, C-19): calls that requalify, move or start
//! different batches, made through the journal in one order and in others. Each is
//! to get the same answer, and the sheet left is to be the same, byte for byte.
//! Adding and withdrawing have no such law, nor have two edits of one batch.

use std::collections::{BTreeMap, BTreeSet};
use std::fs;

use host::cases;
use host::journal::{journal, kind, put_answer, read, GREATEST};
use host::told::{answers, file, left};
use host::SHEET;
use second::gen::{self, Shape};
use second::rng::Rng;
use second::{Answer, Call, Draft, Refusal, Sheet};

/// What calls come to: a line for each answer, and the file of the sheet left.
#[derive(Clone, Debug, PartialEq, Eq)]
struct Outcome {
    lines: Vec<String>,
    left: String,
}

fn lines(text: &str) -> Vec<String> {
    text.lines().map(String::from).collect()
}

/// Through the journal. This is the proved code.
fn library(sheet: &str, calls: &[Call]) -> Outcome {
    let journal = String::from_utf8(journal(calls)).expect("plain text");
    Outcome {
        lines: lines(&answers(sheet, &journal).expect("answers")),
        left: left(sheet, &journal).expect("a sheet"),
    }
}

/// Through the second planner, or one that makes a call in this way instead.
fn planner(apply: impl Fn(&mut Sheet, &Call) -> Answer) -> impl Fn(&str, &[Call]) -> Outcome {
    move |sheet, calls| {
        let mut sheet = second::read(sheet.as_bytes()).expect("a sheet");
        let mut text = Vec::new();
        for call in calls {
            put_answer(&mut text, &apply(&mut sheet, call));
        }
        Outcome {
            lines: lines(&String::from_utf8(text).expect("plain text")),
            left: String::from_utf8(second::write(&sheet)).expect("plain text"),
        }
    }
}

/// Whether it makes a difference which of two calls comes first: to what one of
/// them is answered, or to the sheet left.
fn order_counts(run: impl Fn(&str, &[Call]) -> Outcome, sheet: &str, pair: &[Call; 2]) -> bool {
    let [c, d] = pair;
    let one = run(sheet, pair);
    let other = run(sheet, &[d.clone(), c.clone()]);
    assert_eq!((one.lines.len(), other.lines.len()), (2, 2));
    one.lines.iter().ne(other.lines.iter().rev()) || one.left != other.left
}

/// Up to all instruments and a few batches, of which some have started.
const FEW: Shape = Shape {
    instruments: (1, 24),
    batches: (1, 9),
    ..gen::FULL
};

fn shape(rng: &mut Rng) -> Shape {
    match rng.below(40) {
        0 => gen::LARGE,
        1 => gen::FULL,
        2..=9 => gen::MEDIUM,
        10..=19 => gen::SMALL,
        _ => FEW,
    }
}

/// The number of a batch that is there, or of none.
fn number(rng: &mut Rng, n: u64) -> u64 {
    match rng.below(6) {
        0 => *rng.pick(&[0, n + 1, n + 2, 201, 256, 257, 65_537, GREATEST]),
        _ => 1 + rng.below(n.max(1)),
    }
}

/// Two edits of different batches, there or not.
fn independent(rng: &mut Rng, sheet: &Sheet) -> [Call; 2] {
    let n = sheet.batches().len() as u64;
    let first = number(rng, n);
    let mut second = number(rng, n);
    while second == first {
        second = number(rng, n + 3);
    }
    [first, second].map(|number| cases::change(rng, sheet, number))
}

/// What a call was answered: its kind, and its refusal or 0.
type Told = (u64, u64);

fn told(call: &Call, line: &str) -> Told {
    (kind(call), line.trim_start().parse().expect("a refusal"))
}

/// Each of these kinds with each of its refusals.
const TOLD: [Told; 12] = [
    (3, 0),
    (3, 4),
    (3, 6),
    (3, 11),
    (3, 13),
    (4, 0),
    (4, 5),
    (4, 6),
    (4, 11),
    (9, 0),
    (9, 6),
    (9, 11),
];

#[test]
fn random_pairs() {
    let mut rng = Rng::new(190);
    let mut met: BTreeMap<(Told, Told), usize> = BTreeMap::new();
    let mut changed = 0;
    for _ in 0..4_000 {
        let shape = shape(&mut rng);
        let draft = gen::draft(&mut rng, shape);
        let (sheet, text) = (draft.sheet(), file(&draft));
        let before = library(&text, &[]).left;
        for _ in 0..8 {
            let pair = independent(&mut rng, &sheet);
            assert!(!order_counts(library, &text, &pair), "{pair:?} on\n{text}");
            let Outcome { lines, left } = library(&text, &pair);
            let [c, d] = [0, 1].map(|k| told(&pair[k], &lines[k]));
            *met.entry((c.min(d), c.max(d))).or_default() += 1;
            changed += (left != before) as usize;
        }
    }
    println!("{changed} change the sheet; {met:?}");
    assert!(changed >= 10_000);
    // Every kind with every answer, beside every other.
    for (k, &c) in TOLD.iter().enumerate() {
        for &d in &TOLD[k..] {
            assert!(
                met.get(&(c, d)).is_some_and(|&times| times >= 15),
                "{c:?} beside {d:?}"
            );
        }
    }
    assert_eq!(met.len(), 78);
}

/// All edits of one small sheet, with every number, instrument and list about its
/// limits.
#[test]
fn every_pair() {
    let lines: [(u32, u32, &[u32]); 3] = [(30, 2, &[1, 2]), (20, 1, &[1]), (10, 1, &[1, 2])];
    let sheet = file(&Draft::new(2, &lines).started(&[1]));
    let mut lists: Vec<Vec<u64>> = vec![vec![], vec![1, 2, 1]];
    for i in 0..4 {
        lists.push(vec![i]);
        lists.extend((0..4).map(|j| vec![i, j]));
    }
    let mut calls = Vec::new();
    for number in 0..5 {
        calls.push((number, Call::Start { number }));
        calls.extend((0..4).map(|instrument| (number, Call::Move { number, instrument })));
        let list = |list: &Vec<u64>| Call::Requalify {
            number,
            list: list.clone(),
        };
        calls.extend(lists.iter().map(|l| (number, list(l))));
    }
    let before = library(&sheet, &[]).left;
    let (mut changing, mut counting) = (0, 0);
    for (k, (a, c)) in calls.iter().enumerate() {
        for (b, d) in &calls[..k] {
            let pair = [c.clone(), d.clone()];
            let counts = order_counts(library, &sheet, &pair);
            if a == b {
                counting += counts as usize;
                continue;
            }
            assert!(!counts, "{pair:?}");
            changing += (library(&sheet, &pair).left != before) as usize;
        }
    }
    println!("{changing} pairs change the sheet, of one batch the order of {counting} counts");
    assert_eq!(calls.len(), 5 * 27);
    assert!(changing >= 700 && counting >= 60);
}

/// The edits of two desks, of different batches.
fn desks(rng: &mut Rng, sheet: &Sheet, most: u64) -> [Vec<Call>; 2] {
    let n = sheet.batches().len() as u64;
    // All batches, and two numbers without one.
    let none = *rng.pick(&[0, n + 2, n + 256, GREATEST]);
    let mut numbers: Vec<u64> = (1..=n + 1).chain([none]).collect();
    rng.shuffle(&mut numbers);
    // A few, so that a desk edits a batch more than once.
    numbers.truncate(2 + rng.below(8) as usize);
    let at = 1 + rng.below(numbers.len() as u64 - 1) as usize;
    let (first, second) = numbers.split_at(at);
    [first, second].map(|own| {
        let count = rng.below(most + 1);
        let edit = |_| {
            let number = *rng.pick(own);
            cases::change(rng, sheet, number)
        };
        (0..count).map(edit).collect()
    })
}

/// Who is next, 0 or 1, until both lists are used up.
type Turns = Vec<usize>;

fn turns(rng: &mut Rng, desks: &[Vec<Call>; 2]) -> Turns {
    let mut turns = [0, 1].map(|desk| vec![desk; desks[desk].len()]).concat();
    rng.shuffle(&mut turns);
    turns
}

/// Two desks' edits between other calls.
#[derive(Debug)]
struct Day {
    sheet: String,
    before: Vec<Call>,
    desks: [Vec<Call>; 2],
    after: Vec<Call>,
}

impl Day {
    /// Any calls, and then the desks' edits on the sheet that they leave, and any
    /// calls again.
    fn new(rng: &mut Rng, most: u64) -> Day {
        let shape = shape(rng);
        let draft = gen::draft(rng, shape);
        let mut sheet = draft.sheet();
        let any = |rng: &mut Rng, sheet: &mut Sheet| {
            let count = rng.below(5);
            let call = |_| {
                let entries = *rng.pick(&[0, 200]);
                let call = match rng.below(9) {
                    0 => Call::Review,
                    1 => Call::Trial {
                        level: rng.below(sheet.total() as u64 + 2),
                    },
                    2 => Call::Balance { entries },
                    3 => Call::Settle { entries },
                    _ => cases::edit(rng, sheet),
                };
                second::apply(sheet, &call);
                call
            };
            (0..count).map(call).collect::<Vec<Call>>()
        };
        let before = any(rng, &mut sheet);
        let desks = desks(rng, &sheet, most);
        second::run(&mut sheet, &desks.concat());
        let mut after = any(rng, &mut sheet);
        after.extend([Call::Review, Call::Settle { entries: 200 }]);
        Day {
            sheet: file(&draft),
            before,
            desks,
            after,
        }
    }

    /// All calls, with the desks' by these turns.
    fn calls(&self, turns: &[usize]) -> Vec<Call> {
        let mut next = self.desks.each_ref().map(|desk| desk.iter().cloned());
        let by_turns = turns.iter().map(|&desk| next[desk].next().expect("a call"));
        let by_turns: Vec<Call> = by_turns.collect();
        assert!(next.iter().all(|rest| rest.len() == 0), "all calls of both");
        [&self.before[..], &by_turns, &self.after].concat()
    }

    /// What each desk is told where the other makes no call.
    fn alone(&self, run: &impl Fn(&str, &[Call]) -> Outcome) -> [Vec<String>; 2] {
        self.desks.each_ref().map(|desk| {
            let outcome = run(&self.sheet, &[&self.before[..], desk].concat());
            outcome.lines[self.before.len()..].to_vec()
        })
    }

    /// Whether the turns count: a desk is told something else than without the
    /// other, or a later call or the sheet differs from where the first desk made
    /// all of its edits before the second.
    fn turns_count(&self, run: impl Fn(&str, &[Call]) -> Outcome, turns: &[usize]) -> bool {
        let mut one_by_one = turns.to_vec();
        one_by_one.sort();
        let due = run(&self.sheet, &self.calls(&one_by_one));
        let told = run(&self.sheet, &self.calls(turns));
        let (start, end) = (self.before.len(), self.before.len() + turns.len());
        let to = |desk: usize| {
            let own = turns.iter().zip(&told.lines[start..end]);
            own.filter(move |(&k, _)| k == desk)
                .map(|(_, line)| line.clone())
        };
        let apart = [0, 1].map(|desk| to(desk).collect::<Vec<_>>());
        apart != self.alone(&run) || told.lines[end..] != due.lines[end..] || told.left != due.left
    }
}

#[test]
fn random_interleavings() {
    let mut rng = Rng::new(191);
    let (mut refused, mut made, mut mixed, mut longest) = (0, 0, 0, 0);
    for round in 0..3_000 {
        let most = if round % 50 == 0 { 60 } else { 9 };
        let day = Day::new(&mut rng, most);
        for _ in 0..2 {
            let turns = turns(&mut rng, &day.desks);
            assert!(!day.turns_count(library, &turns), "{turns:?} of {day:#?}");
            mixed += !turns.is_sorted() as usize;
            longest = longest.max(turns.len());
        }
        for line in day.alone(&library).concat() {
            match line.trim_start() {
                "0" => made += 1,
                _ => refused += 1,
            }
        }
    }
    println!("{made} edits made, {refused} refused, {mixed} times mixed, {longest} at most");
    assert!(made >= 5_000 && refused >= 5_000 && mixed >= 4_000);
    assert!(longest >= 80);
}

/// Every way to interleave the desks' edits.
fn all_turns(desks: &[Vec<Call>; 2]) -> Vec<Turns> {
    let [a, b] = desks.each_ref().map(Vec::len);
    let sets = (0u32..1 << (a + b)).filter(|set| set.count_ones() as usize == b);
    sets.map(|set| (0..a + b).map(|k| (set >> k & 1) as usize).collect())
        .collect()
}

/// Lists of up to three edits each, in every way.
#[test]
fn all_interleavings() {
    let mut rng = Rng::new(192);
    let mut ways = [0; 21];
    for _ in 0..600 {
        let day = Day::new(&mut rng, 3);
        let all = all_turns(&day.desks);
        for turns in &all {
            assert!(!day.turns_count(library, turns), "{turns:?} of {day:#?}");
        }
        ways[all.len()] += 1;
    }
    println!("sheets by how many ways there are: {ways:?}");
    assert!(ways[20] >= 25 && ways[10] >= 50 && ways[6] >= 20);
}

/// The two examples of journals, in every way: what each desk is told, and the
/// sheet.
#[test]
fn known_desks() {
    let desks = ["desk1", "desk2"].map(|name| {
        let path = format!("{}/../../examples/{name}.txt", env!("CARGO_MANIFEST_DIR"));
        read(&fs::read(path).expect("an example")).expect("a journal")
    });
    let day = Day {
        sheet: SHEET.into(),
        before: Vec::new(),
        desks,
        after: Vec::new(),
    };
    let told = [
        ["     0", "     6", "     0"],
        ["     0", "     0", "    11"],
    ];
    assert_eq!(day.alone(&library), told);
    let after = "     2     3
     0     0
    30     2     0     1     2
    20     1     1     1     1
    10     2     1     2     1     2
";
    let all = all_turns(&day.desks);
    assert_eq!(all.len(), 20);
    for turns in all {
        assert!(!day.turns_count(library, &turns), "{turns:?}");
        assert_eq!(library(SHEET, &day.calls(&turns)).left, after);
    }
}

/// Edits that the law leaves out, by what kinds they are: those that renumber, with
/// any other, and two of one batch.
#[test]
fn where_the_order_counts() {
    let mut rng = Rng::new(193);
    let mut met: BTreeMap<(u64, u64), usize> = BTreeMap::new();
    let of_all = planner(second::apply);
    for round in 0..12_000 {
        let draft = gen::draft(&mut rng, [gen::SMALL, FEW][round % 2]);
        let (sheet, text) = (draft.sheet(), file(&draft));
        let n = sheet.batches().len() as u64;
        let pair = match round % 3 {
            0 => {
                let number = 1 + rng.below(n + 1);
                [(); 2].map(|()| cases::change(&mut rng, &sheet, number))
            }
            _ => [(); 2].map(|()| cases::edit(&mut rng, &sheet)),
        };
        let kinds = pair.each_ref().map(kind);
        if round % 3 > 0 && !kinds.contains(&1) && !kinds.contains(&2) {
            continue;
        }
        let counts = order_counts(library, &text, &pair);
        assert_eq!(
            counts,
            order_counts(&of_all, &text, &pair),
            "{pair:?} on\n{text}"
        );
        let kinds = (kinds[0].min(kinds[1]), kinds[0].max(kinds[1]));
        *met.entry(kinds).or_default() += counts as usize;
    }
    println!("{met:?}");
    let kinds = [1, 2, 3, 4, 9];
    for (k, &a) in kinds.iter().enumerate() {
        for &b in &kinds[k..] {
            assert!(met[&(a, b)] >= 8, "{a} beside {b}: {met:?}");
        }
    }
}

/// A way to make a call that looks at other batches, or changes them.
type Wrong = fn(&mut Sheet, &Call) -> Answer;

/// The batch that a call starts.
fn starts(sheet: &Sheet, call: &Call) -> Option<usize> {
    match *call {
        Call::Start { number } if (1..=sheet.batches().len() as u64).contains(&number) => {
            Some(number as usize - 1)
        }
        _ => None,
    }
}

/// Planners of which two desks would get different sheets or answers.
const WRONG: [(&str, Wrong); 5] = [
    ("a started batch comes first", |sheet, call| {
        let batch = starts(sheet, call);
        let answer = second::apply(sheet, call);
        if let (Some(batch), Answer::Done) = (batch, &answer) {
            let mut draft = Draft::from(&*sheet);
            draft.lines[..=batch].rotate_right(1);
            *sheet = draft.sheet();
        }
        answer
    }),
    ("one started batch to an instrument", |sheet, call| {
        if let Some(batch) = starts(sheet, call) {
            let place = sheet.batches()[batch].place;
            if sheet
                .batches()
                .iter()
                .any(|b| b.started && b.place == place)
            {
                return Answer::Refused(Refusal::Started);
            }
        }
        second::apply(sheet, call)
    }),
    ("no move to where another batch is", |sheet, call| {
        let mut after = sheet.clone();
        let answer = second::apply(&mut after, call);
        if let (Call::Move { instrument, .. }, Answer::Done) = (call, &answer) {
            if sheet.places().contains(&(*instrument as u32)) {
                return Answer::Refused(Refusal::Place);
            }
        }
        *sheet = after;
        answer
    }),
    (
        "batches of one list are requalified together",
        |sheet, call| {
            let before = sheet.clone();
            let answer = second::apply(sheet, call);
            if let (Call::Requalify { number, list }, Answer::Done) = (call, &answer) {
                let own = &before.batches()[*number as usize - 1].list;
                for (batch, k) in before.batches().iter().zip(1..) {
                    if batch.list == *own && !batch.started {
                        sheet.requalify(k, list).expect("a good list");
                    }
                }
            }
            answer
        },
    ),
    (
        "nothing is edited once batch 1 has started",
        |sheet, call| {
            let started = sheet.batches().first().is_some_and(|b| b.started);
            match started && kind(call) != 5 {
                true => Answer::Refused(Refusal::Started),
                false => second::apply(sheet, call),
            }
        },
    ),
];

/// Each of them is told from a right one, by a pair of edits and by two desks.
#[test]
fn wrong_planners() {
    let mut told: [BTreeSet<&str>; 2] = Default::default();
    let mut rng = Rng::new(194);
    for _ in 0..3_000 {
        let draft = gen::draft(&mut rng, FEW.waiting());
        let (sheet, text) = (draft.sheet(), file(&draft));
        let pair = independent(&mut rng, &sheet);
        let day = Day {
            desks: desks(&mut rng, &sheet, 6),
            sheet: text.clone(),
            before: Vec::new(),
            after: vec![Call::Review],
        };
        let turns = turns(&mut rng, &day.desks);
        assert!(!order_counts(planner(second::apply), &text, &pair));
        assert!(!day.turns_count(planner(second::apply), &turns));
        for (name, wrong) in WRONG {
            if order_counts(planner(wrong), &text, &pair) {
                told[0].insert(name);
            }
            if day.turns_count(planner(wrong), &turns) {
                told[1].insert(name);
            }
        }
    }
    for (name, _) in WRONG {
        assert!(
            told.iter().all(|told| told.contains(name)),
            "{name}: {told:?}"
        );
    }
}
