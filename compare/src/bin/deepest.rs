//! The deepest trees of every kind, accepted and refused, on a stack of just the bytes that `include/sva.h` promises to be enough, or of as
//! many as the first argument says: what `sva_lower` answers is what the specification does, and of the listings some ticks and stretches are
//! taken on the same stack; towers of 64 nodes are matched on it. Ends with the most bytes that a call wrote to.
//!
//! Seen on x86-64: 47,888 bytes at most. With an older toolchain, and the code compiled for Arm: 64,384 bytes at most. Of that toolchain's
//! archive for x86-64 before it had the matcher, under an emulator, a program in C lowered the same trees through `c/small_stack.c`, with one
//! tick and one stretch of each listing: 64,328 bytes at most; with 61,440 in place of the promised 65,536 a segmentation fault, at the fifth
//! tree.
use compare::listing::Counts;
use compare::original::UNLIMITED;
use compare::rules::{decided, Refusal, ENTRIES};
use compare::small_stack::{promised, SmallStack};
use compare::trees::{atom, balanced, consecutive, delay, goto, nonconsecutive, throughout, tower, within};
use compare::{commands, runs};

/// No longer listing is written.
const WORDS: usize = 1 << 20;

/// What stands at the bottom of a tower, accepted and refused in every way that is decided there or above it.
fn bottoms() -> Vec<Vec<u32>> {
    let (a, b) = (atom(0), atom(1));
    vec![
        a.clone(),
        goto(&a, 3),
        nonconsecutive(&a, 3),
        consecutive(&a, 2, UNLIMITED),
        consecutive(&a, 0, UNLIMITED),
        consecutive(&a, 0, 0),
        consecutive(&a, 2, 2),
        consecutive(&a, 0, 257),
        consecutive(&throughout(3, &a), 2, 2),
        throughout(3, &a),
        throughout(3, &goto(&a, 1)),
        goto(&delay(&a, &b, 1, 1), 1),
        delay(&a, &b, 0, UNLIMITED),
        delay(&a, &b, 0, 255),
        delay(&a, &b, 0, 256),
        within(&a, &b),
    ]
}

/// One floor more over a tree.
type Floor = fn(&[u32]) -> Vec<u32>;

/// A floor of every kind, also of several alternatives and with other operands beside it.
fn floors() -> Vec<Floor> {
    vec![
        |t| delay(t, &atom(1), 1, 1),
        |t| delay(&atom(1), t, 1, 1),
        |t| delay(t, &atom(1), 0, 0),
        |t| delay(&atom(1), t, 0, UNLIMITED),
        |t| delay(&atom(1), t, 0, 1),
        |t| delay(t, &consecutive(&atom(1), 0, 1), 1, 1),
        |t| delay(&atom(1), &consecutive(t, 0, 1), 1, 1),
        |t| consecutive(t, 1, 1),
        |t| consecutive(t, 0, 1),
        |t| consecutive(t, 1, 2),
        |t| consecutive(t, 2, 2),
        |t| throughout(2, t),
        |t| delay(&throughout(2, &atom(1)), t, 1, 1),
        |t| throughout(2, &delay(t, &atom(1), 1, 1)),
        |t| throughout(2, &consecutive(t, 1, 2)),
    ]
}

/// Towers of every kind of floor over every bottom, just as high as is accepted, higher, and lower where floors double.
fn towers() -> Vec<Vec<u32>> {
    let mut trees = Vec::new();
    for bottom in bottoms() {
        for floor in floors() {
            for height in [8, 16, 126, 127, 254, 255, 256] {
                trees.push(tower(bottom.clone(), height, floor));
            }
            trees.push(within(&tower(bottom.clone(), 254, floor), &atom(1)));
            trees.push(within(&atom(1), &tower(bottom.clone(), 254, floor)));
        }
    }
    trees
}

/// Copies under a tower and over one, as many as there is room for, and tables of 4,096 nodes.
fn wide() -> Vec<Vec<u32>> {
    let (a, b) = (atom(0), atom(1));
    let square = |n: u32| consecutive(&consecutive(&a, n, n), n, n);
    let mut trees = vec![balanced(&vec![a.clone(); 2048], 1, 1), consecutive(&balanced(&vec![a.clone(); 2048], 1, 1), 1, 1)];
    for floors in [250, 253, 254] {
        trees.push(tower(square(255), floors, |t| delay(t, &b, 1, 1)));
        trees.push(tower(square(255), floors, |t| consecutive(t, 1, 1)));
        trees.push(tower(square(181), floors, |t| throughout(2, t)));
        trees.push(consecutive(&tower(a.clone(), floors, |t| delay(&b, t, 1, 1)), 256, 256));
        trees.push(consecutive(&tower(a.clone(), floors, |t| throughout(2, t)), 200, 200));
    }
    trees.push(tower(a, 16, |t| consecutive(t, 2, 2)));
    trees
}

/// One tree: its answer, by the specification; and of its listing a tick, and the stretches of the first and the last register.
fn seen(stack: &mut SmallStack, tree: &[u32], work: &mut [u32], out: &mut [u32]) -> Result<Counts, Refusal> {
    let expected = decided(tree, work.len(), out.len()).answer;
    let (number, counts, place) = stack.lower(tree, work, out);
    if number != 0 {
        assert_eq!(expected.err(), Some(Refusal { number, place }), "{tree:?}");
        return Err(Refusal { number, place });
    }
    let sizes = expected.expect("an accepted tree");
    assert_eq!((counts.registers as u64, counts.words as u64), (sizes.registers, sizes.words), "{tree:?}");
    let listing = &out[..counts.words];
    let (now, mut next) = (vec![0; counts.registers], vec![0; counts.registers]);
    assert_eq!(stack.tick(listing, &now, &[1; 8], &mut next, &mut vec![0; counts.deepest]).0, 0);
    assert_eq!(stack.tick(&listing[1..], &now, &[1; 8], &mut next, &mut vec![0; counts.deepest]).0, 21);
    for register in [0, counts.registers.saturating_sub(1)] {
        assert_eq!(stack.stretch(listing, register as u32).1 > 0, counts.registers > 0);
    }
    Ok(counts)
}

/// Towers as high as the matcher takes them, over two ticks: answered as the sets of runs say.
fn matched(stack: &mut SmallStack) -> usize {
    let rows = [1; 2 * 8];
    let (mut answers, mut work) = (vec![0; 2], vec![0; runs::NODES * 9]);
    let mut count = 0;
    for bottom in bottoms() {
        for floor in floors() {
            let tree = (0..).map(|height| tower(bottom.clone(), height, floor)).take_while(|tree| tree.len() <= 5 * runs::NODES).last();
            let tree = tree.expect("a tower of some height");
            let expected = runs::judged(&tree, &rows, 8, answers.len(), work.len());
            let (number, ticks, place) = stack.matches(&tree, &rows, 8, &mut answers, &mut work);
            match expected {
                Err(refusal) => assert_eq!(refusal, Refusal { number, place }, "{tree:?}"),
                Ok(_) => assert_eq!((number, ticks, &answers), (0, 2, &runs::answers(&tree, &rows, 8)), "{tree:?}"),
            }
            count += 1;
        }
    }
    count
}

/// All of them, on a stack of so many bytes.
fn run(bytes: usize) {
    let mut stack = SmallStack { bytes, most: 0 };
    let (mut work, mut out) = (vec![0; 16 * ENTRIES as usize], vec![0; WORDS]);
    let (mut accepted, mut refused) = (0, [0; 15]);
    for tree in [towers(), wide()].concat() {
        match seen(&mut stack, &tree, &mut work, &mut out) {
            Ok(_) => accepted += 1,
            Err(refusal) => refused[refusal.number as usize] += 1,
        }
    }
    println!("{accepted} trees lowered, refused by number: {:?}", &refused[1..]);
    println!("{} towers matched", matched(&mut stack));
    println!("{} bytes of stack at most, of {bytes}", stack.most);
}

fn main() {
    let words = commands::words("usage: deepest [BYTES | --help]", |words| {
        words.len() < 2 && words.iter().all(|word| word.parse::<usize>().is_ok())
    });
    let bytes = words.first().map_or_else(promised, |word| word.parse().expect("a number"));
    commands::run(move || run(bytes));
}
