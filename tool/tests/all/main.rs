//! The integration tests as one program, a module for each subject.

mod bench;
mod common;
mod damaged;
mod guide;
mod layout;
mod logs;
mod models;
mod notation;
mod press;
mod program;
mod provers;
mod refusals;
mod refute;
mod replay;
mod round_trip;
mod script;
mod smt;
