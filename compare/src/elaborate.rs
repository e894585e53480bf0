//! What the original's three files lean on, as little as they need: syntax trees, an elaborator that counts diagnostics and numbers
//! registers, and two rewritings that do nothing here. Trees come resolved, so there is no named sequence and no sampled value.
//!
//! The elaborator can stop its caller: at the first diagnostic, if that is asked for, and at a register past the limit, since a hop of
//! 4,294,967,294 would otherwise be counted out. Both stops unwind with a `Stop`.
use std::collections::BTreeMap;
use std::panic::resume_unwind;

include!(concat!(env!("OUT_DIR"), "/original_files.rs"));

pub(crate) use sva_seq::{SeqAlt, SeqHop, SeqTerm};

pub use ast::{BinOp, Expr, ExprKind, RepeatKind, Sequence, Stmt, UnOp};

/// The syntax trees, with the cases that the original names.
pub mod ast {
    /// A place in a source text. Trees of words have none.
    #[derive(Clone, Copy, Default)]
    pub struct Span;

    #[derive(Clone)]
    pub struct Ident {
        pub name: String,
        pub span: Span,
    }

    #[derive(Clone)]
    pub struct HierPath {
        pub segments: Vec<Ident>,
        pub span: Span,
    }

    #[derive(Clone, Copy)]
    pub enum UnOp {
        RedOr,
        BitNot,
    }

    #[derive(Clone, Copy)]
    pub enum BinOp {
        BitAnd,
        BitOr,
        CaseEq,
    }

    #[derive(Clone, Copy)]
    pub enum IntLitKind {
        Sized,
        Decimal,
    }

    #[derive(Clone)]
    pub struct Expr {
        pub kind: ExprKind,
        pub span: Span,
    }

    #[derive(Clone)]
    pub enum ExprKind {
        Ident(HierPath),
        IntLit { kind: IntLitKind, raw: String },
        StrLit { raw: String },
        Unary { op: UnOp, operand: Box<Expr> },
        Binary { op: BinOp, lhs: Box<Expr>, rhs: Box<Expr> },
        Ternary { cond: Box<Expr>, then_e: Box<Expr>, else_e: Box<Expr> },
        BitSelect { base: Box<Expr>, index: Box<Expr> },
        Call { name: HierPath, args: Vec<Expr> },
    }

    #[derive(Clone)]
    pub enum Lvalue {
        Ident(HierPath),
    }

    #[derive(Clone)]
    pub enum Stmt {
        NonBlocking { lhs: Lvalue, delay: Option<Expr>, event: Option<Sensitivity>, rhs: Expr, span: Span },
        SysTaskCall { name: Ident, args: Vec<Expr>, span: Span },
        Block { label: Option<Ident>, decls: Vec<Ident>, stmts: Vec<Stmt>, span: Span },
    }

    pub enum CaseItem {
        Match { body: Stmt },
        Default { body: Stmt },
    }

    #[derive(Clone, Copy, PartialEq)]
    pub enum Edge {
        Any,
    }

    #[derive(Clone)]
    pub struct Event {
        pub edge: Edge,
        pub expr: Expr,
    }

    #[derive(Clone)]
    pub enum Sensitivity {
        Star,
        List(Vec<Event>),
    }

    #[derive(Clone, Copy, PartialEq)]
    pub enum RepeatKind {
        Consec,
        Goto,
        Nonconsec,
    }

    #[derive(Clone)]
    pub enum Sequence {
        Boolean(Expr),
        Delay { min: u32, max: Option<u32>, lhs: Box<Sequence>, rhs: Box<Sequence> },
        Repeat { seq: Box<Sequence>, min: u32, max: Option<u32>, kind: RepeatKind },
        Throughout { cond: Box<Expr>, seq: Box<Sequence> },
        Within { seq1: Box<Sequence>, seq2: Box<Sequence> },
        Clocked { clock: Sensitivity, seq: Box<Sequence> },
        Instance { name: Ident, args: Vec<Expr>, span: Span },
        MatchItem { seq: Box<Sequence>, assigns: Vec<(Ident, Expr)> },
    }

    #[derive(Clone)]
    pub struct SeqDecl {
        pub name: Ident,
        pub formals: Vec<Ident>,
        pub body: Sequence,
    }
}

/// The kind of a diagnostic.
pub enum MsgCode {
    ElabUnsupported,
}

/// Registers of sampled values: none are made.
#[derive(Default)]
pub struct SvaRegs;

/// Why the original was stopped before its end.
pub enum Stop {
    Diagnostic,
    Registers,
}

/// Counts diagnostics, numbers registers.
pub struct Elaborator<'a> {
    pub diagnostics: usize,
    pub registers: usize,
    register_limit: usize,
    stop_at_diagnostic: bool,
    seq_table: &'a BTreeMap<String, ast::SeqDecl>,
    sva_inline_stack: Vec<String>,
    sva_seq_depth: u32,
}

/// No sequence has a name.
static NO_SEQUENCES: BTreeMap<String, ast::SeqDecl> = BTreeMap::new();

impl Elaborator<'static> {
    /// An elaborator that has seen nothing.
    pub fn new(register_limit: usize, stop_at_diagnostic: bool) -> Self {
        Elaborator {
            diagnostics: 0,
            registers: 0,
            register_limit,
            stop_at_diagnostic,
            seq_table: &NO_SEQUENCES,
            sva_inline_stack: Vec::new(),
            sva_seq_depth: 0,
        }
    }
}

impl Elaborator<'_> {
    /// Counts a diagnostic; its words are not kept.
    fn error(&mut self, _code: MsgCode, _message: &str) {
        self.diagnostics += 1;
        if self.stop_at_diagnostic {
            resume_unwind(Box::new(Stop::Diagnostic));
        }
    }

    /// The name of the next register: its tag, a dot, its number.
    fn fresh_sva_reg(&mut self, _width: u32, tag: &str) -> String {
        if self.registers == self.register_limit {
            resume_unwind(Box::new(Stop::Registers));
        }
        let name = format!("{tag}.{}", self.registers);
        self.registers += 1;
        name
    }

    /// The expression itself.
    fn rewrite_sampled(&mut self, e: &Expr, _regs: &mut SvaRegs) -> Expr {
        e.clone()
    }

    /// The sequence itself.
    fn resolve_named_top(&mut self, seq: &Sequence) -> Sequence {
        seq.clone()
    }
}

/// The expression itself: nothing has formals.
fn subst_expr(e: &Expr, _formals: &BTreeMap<String, Expr>) -> Expr {
    e.clone()
}
