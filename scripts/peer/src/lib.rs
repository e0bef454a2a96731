//! Shared by the programs of this package: inputs, numbers that look random, sums, and the answers of the Rust crate.
pub mod inputs;
pub mod oracle;
pub mod random;
pub mod sums;
#[rustfmt::skip]
pub mod tokens;
