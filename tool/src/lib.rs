//! The engineer's tool: models in Event-B's notation as tables, and what the proved library answers, with names.

pub mod answers;
pub mod bench;
pub mod commands;
pub mod discharge;
pub mod evaluate;
pub mod faults;
pub mod formula;
pub mod library;
pub mod log;
pub mod missing;
pub mod names;
pub mod notation;
pub mod origin;
pub mod provers;
pub mod refusal;
pub mod refute;
pub mod replay;
pub mod report;
pub mod rows;
pub mod sequents;
pub mod show;
pub mod smt;
pub mod some_value;
pub mod source;
pub mod table;
