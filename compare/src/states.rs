//! States and steps to press: reached by pressing, searched for by what a press gives, and damaged ones.

pub mod batch;
pub mod damage;
pub mod family;
pub mod maker;
pub mod reduced;
pub mod tables;
pub mod values;
