//! Sequents for an Event-B machine and its refinement: a plain reading of the paper.

pub mod against;
pub mod batches;
pub mod bench;
pub mod by_sequent;
pub mod campaign;
pub mod checks;
pub mod evaluate;
pub mod formula;
pub mod generate;
#[cfg(library)]
pub mod library;
pub mod mentioned;
pub mod numbers;
pub mod operators;
pub mod plain;
pub mod press;
pub mod presses;
pub mod program;
pub mod refute;
pub mod replay;
pub mod replays;
pub mod rows;
pub mod runs;
pub mod sequents;
pub mod services;
pub mod shrink;
pub mod stack;
pub mod states;
pub mod statistics;
pub mod table;
pub mod validity;
