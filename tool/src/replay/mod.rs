//! Replays a log against a model: the library's verdict, and on a refusal the step, the row and the reason in words.

pub mod find;
pub mod judge;
pub mod reasons;
pub mod terms;
pub mod words;
