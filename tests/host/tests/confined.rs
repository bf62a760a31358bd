//! Whether a batch's list lies inside a group, taken a word at a time (document
//! 02, C-15). No exported call says it alone, but the floor shows it: here are
//! sheets on which one instrument of one list decides the floor, planned beside
//! the second planner, and wrong ways to tell, each given away by some of them.

use std::array;
use std::collections::BTreeMap;

use host::listing::Listing;
use host::marks::{by_word, marks, one_by_one, words, Marks, Words};
use host::{plan, plan_second, text};
use second::gen::{self, Shape};
use second::rng::Rng;
use second::{Draft, Sheet};

/// The floor where this tells which lists lie in the group.
fn floor(sheet: &Sheet, group: &[u32], mut inside: impl FnMut(&Marks, &Marks) -> bool) -> u32 {
    let marked = marks(group);
    let items = sheet.items();
    let confined = items.iter();
    let confined = confined.filter(|item| inside(&marks(item.qualified()), &marked));
    let minutes: u32 = confined.map(|item| item.length).sum();
    sheet.longest().max(minutes.div_ceil(group.len() as u32))
}

/// Plan a sheet; gives the listing, which is the second planner's.
fn planned(sheet: &Sheet) -> Listing {
    let file = second::write(sheet);
    let made = text(|listing| plan(&file, listing));
    let due = text(|listing| plan_second(&file, listing));
    assert_eq!(made, due, "{sheet:?}");
    Listing::parse(due.unwrap().as_bytes()).expect("a listing in its columns")
}

/// A sheet whose group is this one: 20 minutes for each of its instruments, in
/// batches of 10, cannot leave it. One more batch, of 9 minutes, stands on the
/// instrument that alone decides whether its list lies inside: the others of its
/// list are in the group.
struct Near {
    sheet: Sheet,
    group: Vec<u32>,
    decides: u32,
    /// How many instruments that list has.
    listed: usize,
}

impl Near {
    fn new(m: u32, group: &[u32], decides: u32, list: Vec<u32>, rng: &mut Rng) -> Near {
        let size = group.len();
        let pair = |k| {
            let mut pair = vec![group[k], group[(k + 1) % size]];
            pair.sort();
            pair.dedup();
            pair
        };
        // All have the whole group, or each of them two neighbours in it.
        let whole = rng.once_in(2);
        let pairs: Vec<Vec<u32>> = (0..size).map(pair).collect();
        let fixed = |k: usize| (10, group[k], if whole { group } else { &pairs[k] });
        let mut lines: Vec<_> = (0..2 * size).map(|k| fixed(k % size)).collect();
        let index = *rng.pick(&[0, size, 2 * size]);
        lines.insert(index, (9, decides, &list));
        Near {
            sheet: Draft::new(m, &lines).sheet(),
            group: group.to_vec(),
            decides,
            listed: list.len(),
        }
    }

    fn inside(&self) -> bool {
        self.group.contains(&self.decides)
    }
}

/// From 0 on.
fn word(instrument: u32) -> u32 {
    (instrument - 1) / 4
}

/// Small banks, and banks that end at a word's edge or beside one.
const BANKS: [u32; 15] = [1, 2, 3, 4, 5, 8, 9, 12, 13, 16, 17, 20, 21, 23, 24];

/// For every instrument of these banks the groups below with it and without it,
/// and for each of them lists of it alone and together with one, every other one
/// and all of the group; for banks that are not full one of these lists.
fn nears() -> Vec<Near> {
    let mut rng = Rng::new(61);
    let mut nears = Vec::new();
    for m in BANKS {
        for (x, with) in (1..=m).flat_map(|x| [(x, false), (x, true)]) {
            let next = (word(x) + 1) % (word(m) + 1);
            let some = rng.next_u64();
            let members: [&dyn Fn(u32) -> bool; 10] = [
                &|_| false,
                &|j| j == 1 + (x + 4) % m,
                &|_| true,
                &|j| j % 2 == x % 2,
                &|j| j % 2 != x % 2,
                &|j| word(j) == word(x),
                &|j| word(j) != word(x),
                &|j| word(j) == next,
                &|j| word(j) != next,
                &|j| some >> j & 1 == 1,
            ];
            // What the groups have besides it.
            let besides = members
                .map(|member| -> Vec<u32> { (1..=m).filter(|&j| j != x && member(j)).collect() });
            let mut besides = besides.to_vec();
            besides.sort();
            besides.dedup();
            besides.retain(|rest| with || !rest.is_empty());
            for rest in besides {
                let and_it = |rest: &[u32]| {
                    let mut list = [rest, &[x]].concat();
                    list.sort();
                    list
                };
                let group = if with { and_it(&rest) } else { rest.clone() };
                let end = rng.below(rest.len() as u64 + 1) as usize;
                let one_or_none = &rest[end.saturating_sub(1)..end];
                let alternate: Vec<u32> = rest.iter().copied().step_by(2).collect();
                let mut lists = [&[], one_or_none, &alternate, &rest].map(and_it).to_vec();
                lists.dedup();
                if m < 24 {
                    lists = vec![rng.pick(&lists).clone()];
                }
                for list in lists {
                    nears.push(Near::new(m, &group, x, list, &mut rng));
                }
            }
        }
    }
    nears
}

#[test]
fn one_instrument_decides() {
    // How often each of these is met, by whether the list lies inside.
    let mut met = BTreeMap::new();
    for (m, with) in BANKS.into_iter().flat_map(|m| [(m, false), (m, true)]) {
        met.extend((1..=m).map(|x| ((format!("{x} of {m}"), with), 0)));
    }
    for near in nears() {
        let Near { sheet, group, .. } = &near;
        let listing = planned(sheet);
        assert_eq!(listing.group, *group, "{sheet:?}");
        // The floor shows the group, and whether the batch is confined to it.
        let size = group.len() as u32;
        let [without, with] = [20 * size, 20 * size + 9].map(|minutes| minutes.div_ceil(size));
        assert!(sheet.longest() < without && without < with);
        assert_eq!(listing.floor, if near.inside() { with } else { without });
        assert_eq!(floor(sheet, group, by_word), listing.floor);

        let m = sheet.instruments();
        let rest: Vec<u32> = (1..=m).filter(|j| !group.contains(j)).collect();
        let is_word = |set: &[u32]| set.len() == 4 && word(set[0]) == word(set[3]);
        let every_other = |set: &[u32]| set.windows(2).all(|pair| pair[0] + 2 == pair[1]);
        for (name, is) in [
            ("all instruments", rest.is_empty()),
            ("all but one", rest.len() == 1),
            ("one instrument", size == 1),
            ("every other one", size > 2 && every_other(group)),
            ("one whole word", is_word(group)),
            ("all but one word", size > 4 && is_word(&rest)),
            ("a list of one", near.listed == 1),
            ("a list of 24", near.listed == 24),
            (&format!("{} of {m}", near.decides), true),
        ] {
            *met.entry((name.into(), near.inside())).or_insert(0) += is as usize;
        }
    }
    for ((name, inside), count) in met {
        println!("{name}, inside {inside}: {count}");
        // Nothing is outside the group of all, and a bank of one has no other.
        let never = !inside && ["all instruments", "1 of 1"].contains(&name.as_str());
        assert_eq!(count == 0, never, "{name}, inside {inside}");
    }
}

/// Sheets of any shape on which the floor is above the longest length.
#[test]
fn random_sheets() {
    let mut rng = Rng::new(62);
    let (mut shown, mut part, mut near) = ([0; 24], 0, 0);
    for round in 0..3_000 {
        let m = 1 + round % 24;
        let shape = Shape {
            instruments: (m, m),
            batches: (10, 60),
            lengths: (1, 60),
            calibrations: 30,
            started: true,
        };
        let sheet = gen::sheet(&mut rng, shape);
        let listing = planned(&sheet);
        let group = &listing.group;
        if listing.floor == sheet.longest() {
            continue;
        }
        assert_eq!(floor(&sheet, group, one_by_one), listing.floor);
        shown[m as usize - 1] += 1;
        part += (group.len() < m as usize) as usize;
        // Were one mark outside the group passed over, the floor would rise.
        let loose = |l: &Marks, g: &Marks| (0..24).filter(|&i| l[i] > g[i]).count() <= 1;
        near += (floor(&sheet, group, loose) > listing.floor) as usize;
    }
    println!("above longest, by instruments: {shown:?}");
    println!("{part} with a part of the instruments, {near} nearly higher");
    assert!(shown.into_iter().all(|count| count >= 50) && part >= 200 && near >= 200);
}

fn every(list: Words, group: Words, good: impl Fn(u32, u32) -> bool) -> bool {
    list.into_iter().zip(group).all(|(l, g)| good(l, g))
}

type Way = fn(Words, Words) -> bool;

/// Wrong ways to judge the words.
const JUDGED: [(&str, Way); 11] = [
    ("or for and", |l, g| every(l, g, |l, g| l | !g == 0)),
    ("swapped", |l, g| every(l, g, |l, g| g & !l == 0)),
    ("complement forgotten", |l, g| {
        every(l, g, |l, g| l & g == 0)
    }),
    ("complement of yes or no", |l, g| {
        every(l, g, |l, g| l == 0 || g != 0)
    }),
    ("compared as numbers", |l, g| every(l, g, |l, g| l <= g)),
    ("equal only", |l, g| l == g),
    ("one good word is enough", |l, g| {
        !every(l, g, |l, g| l & !g != 0)
    }),
    ("one common mark is enough", |l, g| {
        !every(l, g, |l, g| l & g == 0)
    }),
    ("the first word's answer", |l, g| l[0] & !g[0] == 0),
    ("the last word's answer", |l, g| l[5] & !g[5] == 0),
    ("marks of a word on one another", |l, g| {
        let one = |word: u32| word.to_le_bytes().into_iter().max();
        every(l, g, |l, g| one(l) <= one(g))
    }),
];

/// Which mark is put at each place of the words, if any.
type Made = [Option<usize>; 24];

/// Wrong ways to make them.
fn wrongly_made() -> Vec<(String, Made)> {
    let without = |out: &dyn Fn(usize) -> bool| array::from_fn(|i| Some(i).filter(|&i| !out(i)));
    let mut ways = Vec::new();
    for k in 0..4 {
        let name = format!("mark {} of each word dropped", k + 1);
        ways.push((name, without(&|i| i % 4 == k)));
    }
    for w in 0..6 {
        ways.push((format!("word {} left out", w + 1), without(&|i| i / 4 == w)));
    }
    for p in 0..24 {
        ways.push((format!("mark {} dropped", p + 1), without(&|i| i == p)));
        let twice = array::from_fn(|i| Some(if i == p { p ^ 1 } else { i }));
        ways.push((format!("mark {} twice, for {}", (p ^ 1) + 1, p + 1), twice));
    }
    let three = array::from_fn(|i| (i % 4 < 3).then_some(i / 4 * 3 + i % 4));
    ways.push(("three marks a word".into(), three));
    ways
}

/// Each gives some of the sheets another floor. No planner is called: this is
/// about the sheets.
#[test]
fn wrong_ways_are_found() {
    let nears = nears();
    let found = |name: &str, wrong: &dyn Fn(&Near) -> u32| {
        let differs = |near: &&Near| floor(&near.sheet, &near.group, one_by_one) != wrong(near);
        let count = nears.iter().filter(differs).count();
        println!("{name}: {count} of {}", nears.len());
        assert!(count > 0, "not found: {name}");
    };
    for (name, way) in JUDGED {
        let inside = |l: &Marks, g: &Marks| way(words(l), words(g));
        found(name, &|near| floor(&near.sheet, &near.group, inside));
    }
    for (name, made) in wrongly_made() {
        let make = |marks: &Marks| made.map(|from| from.map_or(0, |i| marks[i]));
        let both = |l: &Marks, g: &Marks| by_word(&make(l), &make(g));
        found(&name, &|near| floor(&near.sheet, &near.group, both));
        let one = |l: &Marks, g: &Marks| by_word(l, &make(g));
        let name = format!("{name}, in the group's words only");
        found(&name, &|near| floor(&near.sheet, &near.group, one));
    }
    found("marks of earlier lists kept", &|near| {
        let mut kept = [0; 24];
        floor(&near.sheet, &near.group, |list, group| {
            kept = array::from_fn(|i| kept[i] | list[i]);
            by_word(&kept, group)
        })
    });
}
