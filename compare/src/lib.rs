//! The evidence from outside: this project's lowering beside the original Rust.
//!
//! `elaborate` compiles the original's files as they are and `original` asks them; `sva` calls this project's archive and looks at every
//! lent buffer; `rules` decides each refusal anew, by the specification; `trees` makes the trees; `runs` decides anew what a match is, and
//! `recordings` makes what the matcher is asked; `commands` reads command lines. The programs: `compare`, `matched`, `bench`, `recorded`, `differences`,
//! and of the machine's stack `frames` and `deepest`.
pub mod commands;
pub mod elaborate;
pub mod interpreter;
pub mod limits;
pub mod listing;
pub mod matcher;
pub mod original;
pub mod recorded;
pub mod recordings;
pub mod rules;
pub mod runs;
pub mod sizes;
pub mod small_stack;
pub mod sva;
pub mod trees;
