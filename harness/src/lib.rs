//! The proved margin book beside a second implementation of its rules in plain Rust.

pub mod generate;
pub mod independent;
pub mod loads;
pub mod proved;
