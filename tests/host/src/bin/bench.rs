//! How long the exported call takes, and the second planner for the same.
//!
//! `cargo run --release --bin bench [ROUNDS]`. Both go from a sheet's bytes to
//! the listing's bytes, in a buffer of their own that is not cleared. They
//! take short turns on the same sheets; a first round is not counted. What
//! counts is this thread's processor time, so that other work on the machine
//! disturbs less. The times are the middle ones of all rounds, in microseconds
//! a sheet, and the ratio is the middle one of the rounds' ratios. The least
//! times and their ratio follow. The goal is a ratio of at most 1.5 on every
//! kind of sheet.
//!
//! Then what it costs to ask of each of a sheet's 200 lists whether it lies
//! inside the group that planning gives: by a set of instruments in one number
//! for each, by six words made of 24 marks, and by the marks one after the other
//! up to the first outside. No exported call does that alone, so the loops are
//! this program's own, and the code for them is rustc's; the sets and the marks
//! are made before. The times are nanoseconds for the 200, the middle ones and
//! the least ones; the group's size and how many lists lie inside follow, on
//! average. No goal is set for these.

use std::env;
use std::hint::black_box;

use host::kinds::{self, Kind, Lengths, Lists, Places};
use host::listing::{Listing, MOST};
use host::marks::{by_word, marks, one_by_one};
use host::{plan, plan_second, Hosted};
use second::rng::Rng;

/// The greatest ratio that is good enough.
const GOAL: f64 = 1.5;

/// Sheets of a kind.
const SHEETS: u64 = 24;

/// How often a turn asks of all lists of these sheets whether they are confined.
const TIMES: usize = 50;

/// About how many microseconds a turn takes.
const TURN: f64 = 500.0;

/// This thread's processor time in microseconds.
fn now() -> f64 {
    #[repr(C)]
    struct Time {
        seconds: i64,
        nanoseconds: i64,
    }
    extern "C" {
        fn clock_gettime(clock: i32, time: *mut Time) -> i32;
    }
    /// Linux's number for it.
    const CLOCK_THREAD_CPUTIME_ID: i32 = 3;
    let mut time = Time {
        seconds: 0,
        nanoseconds: 0,
    };
    // SAFETY: `time` has the form of `struct timespec` on x86-64.
    let failed = unsafe { clock_gettime(CLOCK_THREAD_CPUTIME_ID, &mut time) };
    assert_eq!(failed, 0, "the clock is there");
    1e6 * time.seconds as f64 + 1e-3 * time.nanoseconds as f64
}

/// Microseconds for these sheets, `times` times over.
fn turn(
    planner: impl Fn(&[u8], &mut [u8]) -> Hosted,
    sheets: &[Vec<u8>],
    times: usize,
    listing: &mut [u8],
) -> f64 {
    let start = now();
    for _ in 0..times {
        for sheet in sheets {
            black_box(planner(black_box(sheet), black_box(listing)));
        }
    }
    now() - start
}

fn middle(mut numbers: Vec<f64>) -> f64 {
    numbers.sort_by(f64::total_cmp);
    numbers[numbers.len() / 2]
}

fn least(numbers: &[f64]) -> f64 {
    numbers.iter().copied().fold(f64::INFINITY, f64::min)
}

/// Time a kind and print its line; gives both ratios.
fn row(name: &str, sheets: &[Vec<u8>], rounds: usize) -> [f64; 2] {
    let (mut listing, mut listing2) = (vec![0; MOST], vec![0; MOST]);
    for sheet in sheets {
        let same = plan(sheet, &mut listing) == plan_second(sheet, &mut listing2);
        assert!(same && listing == listing2, "{name}: the answers differ");
    }
    // A turn takes some of the sheets, or all of them several times.
    let all = turn(plan_second, sheets, 1, &mut listing2);
    let times = (TURN / all).ceil() as usize;
    let some = (TURN / all * sheets.len() as f64).ceil() as usize;
    let turns = || sheets.chunks(some.min(sheets.len()));
    let each = (times * sheets.len()) as f64;
    let (mut ours, mut theirs) = (Vec::new(), Vec::new());
    for round in 0..=rounds {
        let (mut a, mut b) = (0.0, 0.0);
        for (k, sheets) in turns().enumerate() {
            // Neither is always the first.
            if (round + k) % 2 == 0 {
                a += turn(plan, sheets, times, &mut listing);
                b += turn(plan_second, sheets, times, &mut listing2);
            } else {
                b += turn(plan_second, sheets, times, &mut listing2);
                a += turn(plan, sheets, times, &mut listing);
            }
        }
        if round > 0 {
            ours.push(a / each);
            theirs.push(b / each);
        }
    }
    let ratios = ours.iter().zip(&theirs).map(|(a, b)| a / b).collect();
    let (ratio, best, best2) = (middle(ratios), least(&ours), least(&theirs));
    let best_ratio = best / best2;
    let (ours, theirs) = (middle(ours), middle(theirs));
    println!(
        "{name:<46} {ours:9.1} {theirs:9.1} {ratio:7.3}   {best:9.1} {best2:9.1} {best_ratio:7.3}"
    );
    [ratio, best_ratio]
}

/// A set of instruments in one number.
fn set(instruments: &[u32]) -> u32 {
    instruments.iter().fold(0, |set, j| set | 1 << (j - 1))
}

fn by_set(list: &u32, group: &u32) -> bool {
    list & !group == 0
}

/// Nanoseconds for the lists of a sheet. Each sheet is its group and its lists.
fn asking<S>(sheets: &[(S, Vec<S>)], inside: impl Fn(&S, &S) -> bool) -> f64 {
    let start = now();
    for _ in 0..TIMES {
        for (group, lists) in sheets {
            let asked = |list: &&S| inside(black_box(*list), black_box(group));
            black_box(lists.iter().filter(asked).count());
        }
    }
    1e3 * (now() - start) / (TIMES * sheets.len()) as f64
}

/// Time the three ways on the sheets of a kind and print their line. The groups
/// come from the listings, which `row` has compared with the second planner's.
fn confinement(kind: &Kind, rounds: usize) {
    let mut rng = Rng::new(1);
    let mut listing = vec![0; MOST];
    let (mut sets, mut marked) = (Vec::new(), Vec::new());
    let (mut members, mut confined) = (0, 0);
    for _ in 0..SHEETS {
        let draft = kind.draft(&mut rng);
        let length = plan(&draft.render(), &mut listing).length;
        let group = Listing::parse(&listing[..length]).expect("a listing").group;
        let lists = || draft.lines.iter().map(|line| line.list.as_slice());
        members += group.len();
        for list in lists() {
            let inside = list.iter().all(|j| group.contains(j));
            let ways = [
                by_set(&set(list), &set(&group)),
                by_word(&marks(list), &marks(&group)),
                one_by_one(&marks(list), &marks(&group)),
            ];
            assert_eq!(ways, [inside; 3], "the ways differ");
            confined += inside as usize;
        }
        sets.push((set(&group), lists().map(set).collect()));
        marked.push((marks(&group), lists().map(marks).collect()));
    }
    let mut times = [const { Vec::new() }; 3];
    for round in 0..=rounds {
        // None is always the first.
        for way in (round..round + 3).map(|k| k % 3) {
            let time = match way {
                0 => asking(&sets, by_set),
                1 => asking(&marked, by_word),
                _ => asking(&marked, one_by_one),
            };
            if round > 0 {
                times[way].push(time);
            }
        }
    }
    let [best, best2, best3] = times.each_ref().map(|times| least(times));
    let [by_set, by_word, by_byte] = times.map(middle);
    let [members, confined] = [members, confined].map(|sum| sum as f64 / SHEETS as f64);
    println!(
        "{:<46} {by_set:9.0} {by_word:9.0} {by_byte:9.0}   {best:9.0} {best2:9.0} {best3:9.0}   \
         {members:7.1} {confined:7.1}",
        kind.name()
    );
}

fn main() {
    let given = env::args().nth(1);
    let rounds = given.map_or(15, |word| word.parse().expect("a number of rounds"));
    assert!(rounds > 0, "at least one round");
    println!(
        "{:<46} {:>9} {:>9} {:>7}   {:>9} {:>9} {:>7}",
        "sheets of 24 x 200", "ours us", "second us", "ratio", "least us", "least us", "ratio"
    );
    let mut worst = [0.0f64; 2];
    let mut time = |name: &str, sheets: Vec<Vec<u8>>| {
        let ratios = row(name, &sheets, rounds);
        worst = [worst[0].max(ratios[0]), worst[1].max(ratios[1])];
    };
    for kind in Kind::all() {
        let mut rng = Rng::new(1);
        let sheets = (0..SHEETS).map(|_| kind.sheet(&mut rng)).collect();
        time(&kind.name(), sheets);
    }
    time("the hard shape", (0..4).map(kinds::hard).collect());
    let calibrated = (0..4).map(kinds::hard_calibrated).collect();
    time("the hard shape with calibrations", calibrated);
    let started = (0..4).map(kinds::hard_started).collect();
    time("the hard shape with started batches", started);
    for (name, lists) in [
        ("reading alone, short lists", Lists::Short),
        ("reading alone, long lists", Lists::Long),
    ] {
        let kind = Kind {
            lists,
            lengths: Lengths::Random,
            places: Places::Given,
        };
        let mut rng = Rng::new(2);
        let bad = |_| kinds::last_byte_wrong(&kind, &mut rng);
        time(name, (0..SHEETS).map(bad).collect());
    }
    println!(
        "worst ratio {:.3}, of least times {:.3}; the goal is at most {GOAL}",
        worst[0], worst[1]
    );
    println!(
        "\n{:<46} {:>9} {:>9} {:>9}   {:>9} {:>9} {:>9}   {:>7} {:>7}",
        "whether 200 lists lie inside the group",
        "set ns",
        "words ns",
        "bytes ns",
        "least ns",
        "least ns",
        "least ns",
        "group",
        "inside"
    );
    for lists in [Lists::Short, Lists::Long] {
        for places in [Places::Given, Places::Crowded] {
            let lengths = Lengths::Random;
            let kind = Kind {
                lists,
                lengths,
                places,
            };
            confinement(&kind, rounds);
        }
    }
}
