//! A second model of the boards' vote, and what is needed to hold the proved library against it.

pub mod acceptance;
pub mod board;
pub mod boards;
pub mod compare;
pub mod coverage;
pub mod file;
pub mod generate;
pub mod limits;
#[cfg(test)]
mod literal;
pub mod machine;
pub mod proved;
pub mod random;
pub mod record;
pub mod shorten;
pub mod signer;
pub mod store;
pub mod text;
pub mod timing;
pub mod trial;
pub mod words;
