//! What the original does with the smallest trees on which it and the specification part, or might: a row each, as docs/DIFFERENCES.md has them. Then
//! what lowering and the matcher do with those on which lowering and the standard part.
use compare::commands;
use compare::listing;
use compare::original::{self, Outcome, UNLIMITED};
use compare::rules::{self, REGISTERS};
use compare::sva::Sva;
use compare::trees::{atom, consecutive, delay, goto, nonconsecutive, throughout, tower, within};

/// One row: the name, what the original does, what is done here.
fn row(name: &str, tree: &[u32]) {
    let there = match original::lower(&original::sequence(tree), REGISTERS as usize, false) {
        Outcome::Lowered(lowering) => shortened(&listing::text(&lowering.words())),
        Outcome::Diagnosed(count) => format!("{count} diagnostics"),
        Outcome::Panicked(count) => format!("panics after {count} diagnostics"),
        Outcome::TooManyRegisters => "stopped at its 65,537th register".to_string(),
    };
    println!("| `{name}` | {there} | {} |", lowered(tree));
}

/// What lowering does here.
fn lowered(tree: &[u32]) -> String {
    match (Sva { guards: 8 }).lower(tree, 16 * rules::ENTRIES as usize, 1 << 20) {
        Ok(Ok((_, words))) => shortened(&listing::text(&words)),
        Ok(Err(refusal)) => format!("refused {} {}", refusal.number, refusal.place),
        Err(fault) => fault,
    }
}

/// The ticks of the recording that the matcher is asked about: a, b, c and d at each.
const TICKS: usize = 4;

/// One row: the name, what lowering does, and at which ticks the matcher says that a match ends.
fn matched(name: &str, tree: &[u32]) {
    let work = tree.len() / 5 * (TICKS + 1) * (TICKS + 1);
    let answer = match (Sva { guards: 8 }).matches(tree, &[1; 4 * TICKS], 4, TICKS, work) {
        Ok(Ok(bytes)) => format!("{bytes:?}"),
        Ok(Err(refusal)) => format!("refused {} {}", refusal.number, refusal.place),
        Err(fault) => fault,
    };
    println!("| `{name}` | {} | {answer} |", lowered(tree));
}

/// A text on one line, without its middle if it is long.
fn shortened(text: &str) -> String {
    let lines: Vec<&str> = text.lines().collect();
    match lines.len() {
        0..=6 => lines.join("; "),
        more => format!("{}; ..; {}", lines[0], lines[more - 1]),
    }
}

/// A tree whose root has this range instead of its own.
fn ranged(mut tree: Vec<u32>, min: u32, max: u32) -> Vec<u32> {
    let end = tree.len();
    tree[end - 2..].copy_from_slice(&[min, max]);
    tree
}

/// Ranges that are none.
fn ranges() {
    let (a, b) = (atom(0), atom(1));
    row("a[->2]", &goto(&a, 2));
    row("a[->2:5]", &ranged(goto(&a, 2), 2, 5));
    row("a[->2:$]", &ranged(goto(&a, 2), 2, UNLIMITED));
    row("a[->1]", &goto(&a, 1));
    row("a[->0]", &ranged(goto(&a, 1), 0, 0));
    row("a[*3]", &consecutive(&a, 3, 3));
    row("a[*3:2]", &ranged(consecutive(&a, 3, 3), 3, 2));
    row("a[*1:0]", &ranged(consecutive(&a, 1, 1), 1, 0));
    row("a ##[3:2] b", &delay(&a, &b, 3, 2));
    row("c throughout (a ##[3:2] b)", &throughout(2, &delay(&a, &b, 3, 2)));
    row("(a ##[3:2] b) within c", &within(&delay(&a, &b, 3, 2), &atom(2)));
}

/// Caps: alternatives, depth, registers, windows.
fn caps() {
    let (a, b) = (atom(0), atom(1));
    let hops = |width: u32| delay(&a, &b, 0, width - 1);
    row("(a ##[0:16] b)[*2]", &consecutive(&hops(17), 2, 2));
    row("(a ##[0:16] b)[*1:2]", &consecutive(&hops(17), 1, 2));
    row("a ##1 (a ##[0:16] b)[*2]", &delay(&a, &consecutive(&hops(17), 2, 2), 1, 1));
    row("a[*0:256]", &consecutive(&a, 0, 256));
    row("a ##[0:256] b", &hops(257));
    row("256 throughouts over a", &tower(a.clone(), 256, |tree| throughout(1, tree)));
    row("a within (255 times (..)[*1] over b)", &within(&a, &tower(b.clone(), 255, |tree| consecutive(tree, 1, 1))));
    row("a ##65537 b", &delay(&a, &b, 65_537, 65_537));
    let long = |more: u32| delay(&delay(&a, &b, UNLIMITED - 1, UNLIMITED - 1), &a, more, more);
    row("(a ##4294967294 b ##0 a) within b", &within(&long(0), &b));
    row("(a ##4294967294 b ##1 a) within b", &within(&long(1), &b));
}

/// Empties, and operands that are not visited.
fn empties() {
    let (a, b, c) = (atom(0), atom(1), atom(2));
    let none = consecutive(&b, 0, 0);
    let joined = |before: u32, after: u32| delay(&delay(&a, &none, before, before), &c, after, after);
    row("a[*0]", &consecutive(&a, 0, 0));
    row("a[*0] ##1 b", &delay(&consecutive(&a, 0, 0), &b, 1, 1));
    row("a ##1 b[*0]", &delay(&a, &none, 1, 1));
    row("a ##2 b[*0] ##1 c", &joined(2, 1));
    row("a ##0 b[*0] ##1 c", &joined(0, 1));
    row("a ##1 b[*0] ##0 c", &joined(1, 0));
    row("a ##[1:$] b[*0]", &delay(&a, &none, 1, UNLIMITED));
    row("a ##1 b[*0] ##[1:$] c", &delay(&delay(&a, &none, 1, 1), &c, 1, UNLIMITED));
    row("c throughout (a ##1 b[*0])", &throughout(2, &delay(&a, &none, 1, 1)));
    row("a ##1 (b within c)[*0]", &delay(&a, &consecutive(&within(&b, &c), 0, 0), 1, 1));
    row("(a ##1 b)[->1]", &goto(&delay(&a, &b, 1, 1), 1));
    row("(a[*0:1])[*1:$]", &consecutive(&consecutive(&a, 0, 1), 1, UNLIMITED));
}

/// Where lowering, as the original, and the standard part.
fn standard() {
    let [a, b, c, d] = [0, 1, 2, 3].map(atom);
    matched("a ##1 (c throughout (b ##1 d))", &delay(&a, &throughout(2, &delay(&b, &d, 1, 1)), 1, 1));
    matched("(b ##1 c)[->1]", &goto(&delay(&b, &c, 1, 1), 1));
    matched("(a ##1 b)[=2]", &nonconsecutive(&delay(&a, &b, 1, 1), 2));
    matched("(a ##1 b)[*1:$]", &consecutive(&delay(&a, &b, 1, 1), 1, UNLIMITED));
    matched("c throughout (a ##[1:$] b)", &throughout(2, &delay(&a, &b, 1, UNLIMITED)));
    matched("c throughout b[->2]", &throughout(2, &goto(&b, 2)));
    matched("(a within b) ##1 c", &delay(&within(&a, &b), &c, 1, 1));
    matched("(a ##[1:$] b) within c", &within(&delay(&a, &b, 1, UNLIMITED), &c));
    matched("(c throughout a) within b", &within(&throughout(2, &a), &b));
    matched("a[*0]", &consecutive(&a, 0, 0));
    matched("a[*0:1]", &consecutive(&a, 0, 1));
    matched("a[*0:1] ##1 b", &delay(&consecutive(&a, 0, 1), &b, 1, 1));
    let maybe = consecutive(&b, 0, 1);
    matched("a ##0 b[*0:1] ##1 c", &delay(&delay(&a, &maybe, 0, 0), &c, 1, 1));
    matched("a ##1 b[*0:1] ##0 c", &delay(&delay(&a, &maybe, 1, 1), &c, 0, 0));
    matched("a ##[1:$] b[*0]", &delay(&a, &consecutive(&b, 0, 0), 1, UNLIMITED));
    matched("a ##[0:256] b", &delay(&a, &b, 0, 256));
    matched("a[*257]", &consecutive(&a, 257, 257));
    matched("a ##4294967294 b", &delay(&a, &b, UNLIMITED - 1, UNLIMITED - 1));
}

/// All rows.
fn rows() {
    println!("| input | the original | here |\n|---|---|---|");
    ranges();
    caps();
    empties();
    println!("\n| input | lowering | the matcher, over {TICKS} ticks of 1 |\n|---|---|---|");
    standard();
}

fn main() {
    commands::words("usage: differences [--help]", |words| words.is_empty());
    commands::run(rows);
}
