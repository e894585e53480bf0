//! Trees at the specification's limits, from both sides. Each is compared with exactly the work and output that it needs, and with one word less.
use crate::original::UNLIMITED;
use crate::trees::{atom, balanced, consecutive, delay, goto, nonconsecutive, throughout, tower, within};

/// All of them.
pub fn limits() -> Vec<Vec<u32>> {
    [repetitions(), alternatives(), depths(), registers(), entries(), tables(), windows()].concat()
}

/// Repetition counts around 256.
fn repetitions() -> Vec<Vec<u32>> {
    let a = atom(0);
    let mut trees = Vec::new();
    for n in [1, 2, 255, 256, 257, UNLIMITED - 1] {
        trees.push(consecutive(&a, n, n));
        trees.push(consecutive(&a, 1, n));
        trees.push(consecutive(&a, 0, n));
        trees.push(consecutive(&a, n, UNLIMITED));
        trees.push(goto(&a, n));
        trees.push(nonconsecutive(&a, n));
        trees.push(delay(&atom(1), &delay(&nonconsecutive(&a, n), &atom(2), 0, UNLIMITED), 0, 0));
    }
    trees
}

/// Alternatives around 256, of hops, of repetitions, of products, and of a root within's pairs.
fn alternatives() -> Vec<Vec<u32>> {
    let (a, b) = (atom(0), atom(1));
    let hops = |width: u32| delay(&a, &b, 0, width - 1);
    let mut trees = Vec::new();
    for n in [255, 256, 257] {
        trees.push(hops(n));
        trees.push(delay(&a, &b, 3, n + 2));
        trees.push(within(&hops(n), &a));
        trees.push(within(&a, &hops(n)));
        trees.push(throughout(2, &hops(n)));
    }
    for (one, two) in [(16, 16), (16, 17), (17, 16), (15, 17), (2, 128), (128, 2), (2, 129), (85, 3), (86, 3)] {
        trees.push(delay(&hops(one), &a, 0, two - 1));
        trees.push(delay(&hops(one), &hops(two), 1, 1));
        trees.push(within(&hops(one), &hops(two)));
    }
    for (width, most) in [(2, 7), (2, 8), (3, 5), (4, 4), (6, 3), (15, 2), (16, 2), (17, 2), (300, 2)] {
        trees.push(consecutive(&hops(width), 1, most));
        trees.push(consecutive(&hops(width), most, most));
        trees.push(consecutive(&hops(width), 0, most));
    }
    trees
}

/// Depths around 256: chains to the left, to the right, of repetitions, of throughouts, below a root within.
fn depths() -> Vec<Vec<u32>> {
    let (a, b) = (atom(0), atom(1));
    let mut trees = Vec::new();
    for floors in [254, 255, 256] {
        trees.push(tower(a.clone(), floors, |t| throughout(1, t)));
        trees.push(tower(a.clone(), floors, |t| consecutive(t, 1, 1)));
        trees.push(tower(a.clone(), floors, |t| delay(t, &b, 0, 0)));
        trees.push(tower(a.clone(), floors, |t| delay(&b, t, 1, 1)));
        trees.push(tower(goto(&a, 2), floors, |t| delay(&b, t, 0, UNLIMITED)));
        let deep = tower(a.clone(), floors, |t| consecutive(t, 1, 1));
        trees.push(within(&deep, &b));
        trees.push(within(&b, &deep));
        trees.push(delay(&consecutive(&deep, 0, 0), &b, 1, 1));
        trees.push(delay(&b, &consecutive(&deep, 0, 0), 1, 1));
    }
    trees
}

/// Registers around 65,536: delays, latches, machines, windows.
fn registers() -> Vec<Vec<u32>> {
    let (a, b) = (atom(0), atom(1));
    let mut trees = Vec::new();
    for n in [65_535, 65_536, 65_537, UNLIMITED - 1] {
        trees.push(delay(&a, &b, n, n));
        trees.push(delay(&a, &b, n, UNLIMITED));
        trees.push(within(&a, &delay(&a, &b, n, n)));
        trees.push(throughout(2, &delay(&a, &b, n, n)));
        trees.push(delay(&delay(&a, &consecutive(&b, 0, 0), n, n), &b, 1, 1));
        trees.push(delay(&delay(&a, &consecutive(&b, 0, 0), 2, 2), &b, n, n));
    }
    for n in [32_767, 32_768, 32_769] {
        trees.push(within(&a, &delay(&a, &b, n, n)));
        trees.push(delay(&delay(&a, &b, n, n), &a, n, n));
    }
    for last in [255, 256] {
        let mut machines = vec![goto(&a, 256); 255];
        machines.push(goto(&b, last));
        trees.push(balanced(&machines, 0, 0));
        machines.push(nonconsecutive(&b, 1));
        trees.push(balanced(&machines, 0, 0));
    }
    trees
}

/// Entries around 65,536, of terms and of guard atoms.
fn entries() -> Vec<Vec<u32>> {
    let a = atom(0);
    let square = |n: u32| consecutive(&consecutive(&a, 256, 256), n, n);
    let guarded = |n: u32| consecutive(&consecutive(&throughout(1, &a), 128, 128), n, n);
    let hops = |n: u32| delay(&consecutive(&a, n, n), &a, 0, 255);
    vec![
        square(255),
        square(256),
        delay(&square(256), &a, 0, 0),
        delay(&square(255), &consecutive(&a, 256, 256), 0, 0),
        throughout(1, &square(255)),
        throughout(1, &square(256)),
        guarded(256),
        throughout(2, &guarded(256)),
        hops(254),
        hops(255),
        hops(256),
        within(&square(255), &consecutive(&a, 256, 256)),
        within(&square(255), &delay(&consecutive(&a, 256, 256), &a, 0, 0)),
    ]
}

/// Tables around 4,096 nodes, and atoms around 65,535.
fn tables() -> Vec<Vec<u32>> {
    let atoms = |count: usize| vec![atom(3); count];
    let mut trees = vec![vec![], vec![1], vec![1, 0, 0, 0], atom(65_535), atom(65_536)];
    trees.push(balanced(&atoms(2048), 0, 0));
    trees.push(consecutive(&balanced(&atoms(2048), 1, 1), 1, 1));
    trees.push(consecutive(&consecutive(&balanced(&atoms(2048), 1, 1), 1, 1), 1, 1));
    trees.push(throughout(65_535, &atom(0)));
    trees.push(throughout(65_536, &atom(0)));
    trees.push(balanced(&vec![nonconsecutive(&atom(1), 1); 300], 0, UNLIMITED));
    trees
}

/// Windows whose sum passes 2^32 where the tree is still accepted, since nothing that long is built.
fn windows() -> Vec<Vec<u32>> {
    let (a, b) = (atom(0), atom(1));
    let long = |more: u32| delay(&delay(&a, &b, UNLIMITED - 1, UNLIMITED - 1), &a, more, more);
    vec![within(&long(0), &b), within(&long(1), &b), within(&long(2), &b), within(&long(2), &delay(&a, &b, 1, 1))]
}
