//! Tables and logs to replay: real runs, found by trying values, and damaged ones.

pub mod batch;
pub mod damage;
pub mod family;
pub mod recorded;
pub mod simulate;
pub mod tables;
pub mod terms;
pub mod values;
pub mod wild;
