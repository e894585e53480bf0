//! Times this project beside others, on the same inputs, in one run of three repetitions that take turns: its lowering beside the original's
//! `synth_seq_match`, its tick beside a plain interpreter in C, its matcher beside a plain one in C that fills the same tables. The best
//! repetition of each counts.
//!
//! Of the original its lowering call alone is timed, with its own expansion; making its syntax tree and dropping what it returns is
//! not. Here work is lent as long as the tree needs it and output as long as the listing is; the tree is read from its words.
use compare::listing::{self, Counts};
use compare::original::{self, UNLIMITED};
use compare::trees::{atom, balanced, consecutive, delay, nonconsecutive, throughout, tower, within, Random};
use compare::{commands, interpreter, matcher, rules, runs, sva};
use std::hint::black_box;
use std::time::{Duration, Instant};

/// How often each row is measured, and for how long at least: a row by itself, and one of many trees.
const REPETITIONS: usize = 3;
const LEAST: Duration = Duration::from_millis(200);
const BRIEF: Duration = Duration::from_millis(1);

/// How many random trees are timed, of up to so many nodes and words.
const RANDOM_TREES: usize = 3000;
const NODES: usize = 40;
const WORDS: usize = 1 << 20;

/// So many calls, and how long they took.
type Batch<'a> = &'a mut dyn FnMut(usize) -> Duration;

/// Nanoseconds a call of each, the best of three repetitions, which take turns.
fn best<const N: usize>(least: Duration, mut batches: [Batch; N]) -> [f64; N] {
    let mut best = [f64::MAX; N];
    let calls = batches.each_mut().map(|batch| enough(least, batch));
    for _ in 0..REPETITIONS {
        for (i, batch) in batches.iter_mut().enumerate() {
            best[i] = best[i].min(batch(calls[i]).as_nanos() as f64 / calls[i] as f64);
        }
    }
    best
}

/// How many calls take long enough to be measured.
fn enough(least: Duration, batch: &mut Batch) -> usize {
    let mut calls = 1;
    loop {
        let taken = batch(calls);
        if taken >= least {
            return calls;
        }
        calls *= if taken * 20 < least { 10 } else { 2 };
    }
}

/// What lowering a tree takes here and by the original, in nanoseconds, and its listing; none if it is refused or longer.
fn lowered(tree: &[u32], most: usize, least: Duration) -> Option<([f64; 2], Vec<u32>)> {
    let decided = rules::decided(tree, 16 * rules::ENTRIES as usize, most);
    let sizes = decided.answer.ok()?;
    let mut work = vec![0; 16 * decided.most_entries as usize];
    let mut out = vec![0; sizes.words as usize];
    let mut lowered_here = |calls| {
        let start = Instant::now();
        for _ in 0..calls {
            let (number, ..) = sva::lower(black_box(tree), &mut work, &mut out);
            assert_eq!(number, 0);
        }
        start.elapsed()
    };
    let sequence = original::sequence(tree);
    let mut lowered_there = |calls| {
        let mut taken = Duration::ZERO;
        for _ in 0..calls {
            let start = Instant::now();
            let lowered = black_box(original::lower_unwatched(black_box(&sequence)));
            taken += start.elapsed();
            drop(lowered);
        }
        taken
    };
    let times = best(least, [&mut lowered_here, &mut lowered_there]);
    assert!(original::lower_unwatched(&sequence).words() == out, "the same words");
    Some((times, out))
}

/// A row of one tree.
fn lowering(name: &str, tree: &[u32]) {
    let ([here, there], out) = lowered(tree, usize::MAX, LEAST).expect("an accepted tree");
    let Counts { registers, words, .. } = listing::counts(&out);
    println!("| {name} | {registers} | {words} | {here:.0} | {there:.0} | {:.3} |", here / there);
}

/// Random trees: the mean ratio, and the highest with its row.
fn random_lowerings() {
    let mut random = Random(2026);
    let (mut timed, mut sum, mut highest) = (0, 0.0, (0.0, String::new()));
    while timed < RANDOM_TREES {
        let nodes = 1 + random.below(NODES);
        let tree = random.tree(nodes);
        let Some(([here, there], out)) = lowered(&tree, WORDS, BRIEF) else { continue };
        timed += 1;
        sum += here / there;
        if here / there > highest.0 {
            let Counts { registers, words, .. } = listing::counts(&out);
            highest = (here / there, format!("nodes: {} | {registers} | {words} | {here:.0} | {there:.0}", tree.len() / 5));
        }
    }
    println!("| {timed} random trees, of up to {NODES} nodes: the mean | | | | | {:.3} |", sum / timed as f64);
    println!("| the highest of them, {} | {:.3} |", highest.1, highest.0);
}

/// A tick: of the registers now and the atoms, into the registers next, with a stack.
type Tick<'a> = dyn Fn(&[u8], &[u8], &mut [u8], &mut [u8]) -> u8 + 'a;

/// One tick after another over random atoms: here, in C checked once, in C checked at every tick.
fn ticking(name: &str, tree: &[u32]) {
    let decided = rules::decided(tree, 16 * rules::ENTRIES as usize, usize::MAX);
    let mut words = vec![0; decided.answer.expect("an accepted tree").words as usize];
    let mut work = vec![0; 16 * decided.most_entries as usize];
    let (_, Counts { registers, words: count, deepest }, _) = sva::lower(tree, &mut work, &mut words);
    let mut random = Random(77);
    let atoms: Vec<[u8; 3]> = (0..1024).map(|_| [0; 3].map(|_: u8| random.below(2) as u8)).collect();
    let run = |calls: usize, tick: &Tick| {
        let (mut now, mut next, mut stack) = (vec![0; registers], vec![0; registers], vec![0; deepest]);
        let start = Instant::now();
        for call in 0..calls {
            black_box(tick(&now, &atoms[call % 1024], &mut next, &mut stack));
            std::mem::swap(&mut now, &mut next);
        }
        start.elapsed()
    };
    let mut ticked_here = |calls| {
        run(calls, &|now, atoms, next, stack| {
            let (number, matched, _) = sva::tick(&words, now, atoms, next, stack);
            assert_eq!(number, 0);
            matched
        })
    };
    // Safety: a listing that was lowered passes the check, with buffers as long as its counts.
    let mut once = |calls| run(calls, &|now, atoms, next, stack| unsafe { interpreter::tick(&words, now, atoms, next, stack) });
    let mut every = |calls| {
        run(calls, &|now, atoms, next, stack| {
            assert!(interpreter::check(&words, now, atoms, next.len(), stack.len()).is_ok());
            // Safety: the check is Ok.
            unsafe { interpreter::tick(&words, now, atoms, next, stack) }
        })
    };
    let [here, once, every] = best(LEAST, [&mut ticked_here, &mut once, &mut every]);
    println!("| {name} | {registers} | {count} | {here:.1} | {once:.1} | {every:.1} | {:.2} | {:.2} |", here / once, here / every);
}

/// How many atoms a recorded row has.
const WIDTH: usize = 8;

/// A tree over the longest recording, of bits that are 1 so many times in a hundred: here, and in C with nothing checked.
fn matching(name: &str, tree: &[u32], percent: usize) {
    let ticks = runs::TICKS;
    let rows = Random(256).rows(ticks, WIDTH, percent);
    let [mut answers, mut plain] = [vec![9; ticks], vec![9; ticks]];
    let mut work = vec![0; tree.len() / 5 * (ticks + 1) * (ticks + 1)];
    let mut tables = work.clone();
    let mut matched_here = |calls| {
        let start = Instant::now();
        for _ in 0..calls {
            assert_eq!(sva::matches(black_box(tree), &rows, WIDTH, &mut answers, &mut work), (0, ticks, 0));
        }
        start.elapsed()
    };
    let mut matched_in_c = |calls| {
        let start = Instant::now();
        for _ in 0..calls {
            // Safety: they are answered with ticks, as is asserted above.
            unsafe { matcher::matches(black_box(tree), &rows, WIDTH, &mut plain, &mut tables) };
        }
        start.elapsed()
    };
    let [here, c] = best(LEAST, [&mut matched_here, &mut matched_in_c]).map(|nanoseconds| nanoseconds / 1e6);
    assert!(answers == plain, "the same answers");
    println!("| {name} | {} | {percent} | {here:.2} | {c:.2} | {:.2} |", tree.len() / 5, here / c);
}

/// Trees over recordings: as they are written, and the dearest.
fn matchings() {
    let (a, b, c) = (atom(0), atom(1), atom(2));
    println!("\n| matcher | nodes | atoms that hold, % | here, ms | C, ms | here / C |\n|---|---|---|---|---|---|");
    matching("`a ##1 b`", &delay(&a, &b, 1, 1), 50);
    matching("`a ##1 b[*1:3] ##2 c`", &delay(&delay(&a, &consecutive(&b, 1, 3), 1, 1), &c, 2, 2), 50);
    let inner = throughout(2, &delay(&a, &consecutive(&b, 1, 4), 0, 3));
    let ten = consecutive(&within(&inner, &delay(&atom(3), &atom(4), 1, UNLIMITED)), 1, UNLIMITED);
    matching("`((c throughout (a ##[0:3] b[*1:4])) within (d ##[1:$] e))[*1:$]`", &ten, 50);
    matching("the same", &ten, 100);
    matching("`a[*1:$]`", &consecutive(&a, 1, UNLIMITED), 100);
    matching("`a[*0:$]` under 62 `[*0:$]`", &tower(a.clone(), 63, |t| consecutive(t, 0, UNLIMITED)), 100);
    matching("`a[*0:$]`, then 31 `##[0:$] b`", &tower(consecutive(&a, 0, UNLIMITED), 31, |t| delay(t, &b, 0, UNLIMITED)), 100);
    let slow = [consecutive(&a, 0, 1), consecutive(&a, 1, UNLIMITED)].map(|operand| consecutive(&operand, 100, 256));
    matching("16 of `a[*0:1][*100:256]`, `##[0:$]`", &balanced(&vec![slow[0].clone(); 16], 0, UNLIMITED), 100);
    matching("16 of `a[*1:$][*100:256]`, `##[0:$]`", &balanced(&vec![slow[1].clone(); 16], 0, UNLIMITED), 100);
}

/// All rows.
fn rows() {
    let (a, b, c) = (atom(0), atom(1), atom(2));
    let typical = delay(&delay(&a, &consecutive(&b, 1, 3), 1, 1), &c, 2, 2);
    println!("| lowering | registers | words | here, ns | the original, ns | here / the original |\n|---|---|---|---|---|---|");
    lowering("`a ##1 b`", &delay(&a, &b, 1, 1));
    lowering("`a ##1 b[*1:3] ##2 c`", &typical);
    lowering("`a ##[0:63] b`", &delay(&a, &b, 0, 63));
    lowering("`a ##[0:255] b`", &delay(&a, &b, 0, 255));
    lowering("`a[*1:256]`", &consecutive(&a, 1, 256));
    lowering("`a[*256][*256]`", &consecutive(&consecutive(&a, 256, 256), 256, 256));
    lowering("`a ##65536 b`", &delay(&a, &b, 65_536, 65_536));
    lowering("1,365 `a[=1]`, `##[0:$]`", &balanced(&vec![nonconsecutive(&a, 1); 1365], 0, UNLIMITED));
    let row = |max: &dyn Fn(u32) -> u32| (0..254).fold(a.clone(), |left, level| delay(&left, &b, 0, max(level)));
    lowering("254 `##0 b` in a row", &row(&|_| 0));
    lowering("the same, the first eight `##[0:1]`", &row(&|level| u32::from(level < 8)));
    lowering("the same, the last eight `##[0:1]`", &row(&|level| u32::from(level > 245)));
    let eight = |tree: &[u32]| tower(tree.to_vec(), 8, |left| delay(left, &b, 0, 1));
    let once = |tree: &[u32], floors| tower(tree.to_vec(), floors, |operand| consecutive(operand, 1, 1));
    let long = tower(a.clone(), 200, |left| delay(left, &c, 0, 0));
    lowering("200 `##0 c` in a row, on the left of eight `##[0:1] b`", &delay(&long, &eight(&a), 0, 0));
    lowering("`a` under 246 `[*1]`, then eight `##[0:1] b`", &eight(&once(&a, 246)));
    lowering("16 of `a` under 230 `[*1]`, then eight `##[0:1] b`", &eight(&balanced(&vec![once(&a, 230); 16], 0, 0)));
    lowering("eight `##[0:1]` within 200 `##0 c`", &within(&eight(&a), &long));
    random_lowerings();
    println!("\n| tick | registers | words | here, ns | C checked once, ns | C checked at every tick, ns | here / once | here / every |");
    println!("|---|---|---|---|---|---|---|---|");
    ticking("`a ##1 b`", &delay(&a, &b, 1, 1));
    ticking("`a ##1 b[*1:3] ##2 c`", &typical);
    ticking("`a ##[0:63] b`", &delay(&a, &b, 0, 63));
    matchings();
}

fn main() {
    commands::words("usage: bench [--help]", |words| words.is_empty());
    commands::run(rows);
}
