//! The original, asked: tree words to its syntax tree, its `synth_seq_match`, and its assignments and match expression as listing words.
//!
//! Example: `a ##1 b` gives one assignment, to register "seq.0", and the match expression `seq.0 & |a1`: the words of the specification's case.
use crate::elaborate::ast::{HierPath, Ident, Lvalue, Span};
use crate::elaborate::{BinOp, Elaborator, Expr, ExprKind, RepeatKind, SeqAlt, Sequence, Stmt, Stop, SvaRegs, UnOp};
use crate::listing;
use std::cell::Cell;
use std::panic::{self, AssertUnwindSafe};
use std::sync::Once;

/// `$`, as max only.
pub const UNLIMITED: u32 = u32::MAX;

/// What the original made of a tree.
pub struct Lowering {
    pub assignments: Vec<Stmt>,
    pub matched: Expr,
}

/// How a call of the original ended. A diagnostic or panic comes with the number of diagnostics up to then.
pub enum Outcome {
    Lowered(Lowering),
    Diagnosed(usize),
    Panicked(usize),
    TooManyRegisters,
}

/// The identifier of an atom.
fn atom(number: u32) -> Expr {
    let span = Span;
    let name = format!("a{number}");
    Expr { kind: ExprKind::Ident(HierPath { segments: vec![Ident { name, span }], span }), span }
}

/// The syntax tree of a table whose nodes are formed and used once each.
pub fn sequence(tree: &[u32]) -> Sequence {
    let mut nodes: Vec<Option<Sequence>> = Vec::new();
    for node in tree.chunks_exact(5) {
        let (min, max) = (node[3], Some(node[4]).filter(|m| *m != UNLIMITED));
        let mut operand = |word: usize| Box::new(nodes[node[word] as usize].take().expect("an operand used once"));
        let made = match node[0] {
            1 => Sequence::Boolean(atom(node[1])),
            2 => Sequence::Delay { min, max, lhs: operand(1), rhs: operand(2) },
            3 => Sequence::Repeat { seq: operand(1), min, max, kind: RepeatKind::Consec },
            4 => Sequence::Repeat { seq: operand(1), min, max, kind: RepeatKind::Goto },
            5 => Sequence::Repeat { seq: operand(1), min, max, kind: RepeatKind::Nonconsec },
            6 => Sequence::Throughout { cond: Box::new(atom(node[1])), seq: operand(2) },
            _ => Sequence::Within { seq1: operand(1), seq2: operand(2) },
        };
        nodes.push(Some(made));
    }
    nodes.pop().flatten().expect("a root")
}

thread_local! {
    static ASKING: Cell<bool> = const { Cell::new(false) };
}

/// Keeps the original's panics off the error output; all others are still reported.
fn silence_the_original() {
    static ONCE: Once = Once::new();
    ONCE.call_once(|| {
        let report = panic::take_hook();
        panic::set_hook(Box::new(move |why| {
            if !ASKING.get() {
                report(why);
            }
        }));
    });
}

/// Runs a part of the original with a new elaborator; what it gave, or how it ended.
fn ask<T>(limit: usize, stop_at_diagnostic: bool, part: impl FnOnce(&mut Elaborator) -> T) -> Result<T, Outcome> {
    silence_the_original();
    let mut elaborator = Elaborator::new(limit, stop_at_diagnostic);
    ASKING.set(true);
    let given = panic::catch_unwind(AssertUnwindSafe(|| part(&mut elaborator)));
    ASKING.set(false);
    let diagnostics = elaborator.diagnostics;
    match given {
        Ok(_) if diagnostics > 0 => Err(Outcome::Diagnosed(diagnostics)),
        Ok(given) => Ok(given),
        Err(why) => Err(match why.downcast_ref::<Stop>() {
            Some(Stop::Diagnostic) => Outcome::Diagnosed(diagnostics),
            Some(Stop::Registers) if diagnostics > 0 => Outcome::Diagnosed(diagnostics),
            Some(Stop::Registers) => Outcome::TooManyRegisters,
            None => Outcome::Panicked(diagnostics),
        }),
    }
}

/// The original's lowering of a sequence, which may take up to `limit` registers.
pub fn lower(sequence: &Sequence, limit: usize, stop_at_diagnostic: bool) -> Outcome {
    let lowered = ask(limit, stop_at_diagnostic, |elaborator| {
        let mut assignments = Vec::new();
        let matched = elaborator.synth_seq_match(sequence, &mut SvaRegs, &mut assignments, Span);
        Lowering { assignments, matched }
    });
    match lowered {
        Ok(lowering) => Outcome::Lowered(lowering),
        Err(outcome) => outcome,
    }
}

/// The original's lowering and nothing else, for timing.
pub fn lower_unwatched(sequence: &Sequence) -> Lowering {
    let mut elaborator = Elaborator::new(usize::MAX, false);
    let mut assignments = Vec::new();
    let matched = elaborator.synth_seq_match(sequence, &mut SvaRegs, &mut assignments, Span);
    Lowering { assignments, matched }
}

/// The original's alternatives of a sequence, unless it diagnoses.
pub(crate) fn alternatives(sequence: &Sequence) -> Option<Vec<SeqAlt>> {
    ask(0, true, |elaborator| elaborator.expand_sequence(sequence, &mut SvaRegs)).ok()
}

/// How many atoms a guard has.
pub(crate) fn guard_atoms(guard: &Expr) -> usize {
    match &guard.kind {
        ExprKind::Binary { lhs, rhs, .. } => guard_atoms(lhs) + guard_atoms(rhs),
        _ => 1,
    }
}

/// An atom's or a register's name taken apart: the tag, empty for an atom, and the number.
fn named(path: &HierPath) -> (&str, u32) {
    let name = path.segments[0].name.as_str();
    match name.split_once('.') {
        Some((tag, number)) => (tag, number.parse().expect("a register's number")),
        None => ("", name[1..].parse().expect("an atom's number")),
    }
}

/// Appends an expression's words: postfix, left operand first.
fn append(words: &mut Vec<u32>, expression: &Expr) {
    match &expression.kind {
        ExprKind::Ident(path) => {
            let (tag, number) = named(path);
            let operation = if tag.is_empty() { listing::ATOM } else { listing::REGISTER };
            words.push(listing::word(operation, number));
        }
        ExprKind::IntLit { raw, .. } => {
            let operation = if raw.ends_with('0') { listing::ZERO } else { listing::ONE };
            words.push(listing::word(operation, 0));
        }
        ExprKind::Unary { op, operand } => {
            append(words, operand);
            words.push(listing::word(if matches!(op, UnOp::RedOr) { listing::ANY } else { listing::NOT }, 0));
        }
        ExprKind::Binary { op, lhs, rhs } => {
            append(words, lhs);
            append(words, rhs);
            words.push(listing::word(if matches!(op, BinOp::BitAnd) { listing::AND } else { listing::OR }, 0));
        }
        _ => unreachable!("an expression that no lowering makes"),
    }
}

/// The register that an assignment drives, with its tag, and the expression.
fn assigned(assignment: &Stmt) -> (&str, u32, &Expr) {
    let Stmt::NonBlocking { lhs: Lvalue::Ident(path), rhs, .. } = assignment else {
        unreachable!("a statement that no lowering makes");
    };
    let (tag, number) = named(path);
    (tag, number, rhs)
}

impl Lowering {
    /// The listing's words.
    pub fn words(&self) -> Vec<u32> {
        let mut words = Vec::new();
        for assignment in &self.assignments {
            let (tag, number, expression) = assigned(assignment);
            append(&mut words, expression);
            let tag = listing::TAGS.iter().position(|t| *t == tag).expect("a tag of the specification");
            words.push(listing::word(9 + tag as u32, number));
        }
        append(&mut words, &self.matched);
        words.push(listing::word(listing::MATCH, 0));
        words
    }

    /// One tick of the original's expressions: the registers afterwards, and the match bit.
    pub fn tick(&self, now: &[u8], atoms: &[u8], next: &mut [u8]) -> u8 {
        for assignment in &self.assignments {
            let (_, number, expression) = assigned(assignment);
            next[number as usize] = value(expression, now, atoms);
        }
        value(&self.matched, now, atoms)
    }
}

/// The value of an expression, a bit.
fn value(expression: &Expr, now: &[u8], atoms: &[u8]) -> u8 {
    match &expression.kind {
        ExprKind::Ident(path) => match named(path) {
            ("", number) => atoms[number as usize],
            (_, number) => now[number as usize],
        },
        ExprKind::IntLit { raw, .. } => u8::from(raw.ends_with('1')),
        ExprKind::Unary { op: UnOp::RedOr, operand } => value(operand, now, atoms),
        ExprKind::Unary { op: UnOp::BitNot, operand } => 1 - value(operand, now, atoms),
        ExprKind::Binary { op: BinOp::BitAnd, lhs, rhs } => value(lhs, now, atoms) & value(rhs, now, atoms),
        ExprKind::Binary { op: BinOp::BitOr, lhs, rhs } => value(lhs, now, atoms) | value(rhs, now, atoms),
        _ => unreachable!("an expression that no lowering makes"),
    }
}
