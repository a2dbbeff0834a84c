//! The rules of document 01 and of the requests in document 02 that are built,
//! written a second time and for plainness, and the cases that the engine is
//! held against.
//!
//! Nothing here is taken from the engine: the two share the documents alone.

pub mod bits;
pub mod cause;
pub mod counts;
pub mod examples;
pub mod exercise;
pub mod files;
pub mod hour;
pub mod load;
pub mod numbers;
pub mod random;
pub mod read;
pub mod split;
pub mod statements;
pub mod write;

#[cfg(test)]
mod vectors;

/// The most kW of anything.
pub const MOST_KW: i64 = 20_000_000;

/// What is asked of each call, one module a call. Each has `HEADER`, which
/// names the fields of a case, and `line`, the case whose turn it is with what
/// the call must answer and leave behind.
pub mod cases {
    pub mod cause;
    pub mod check;
    pub mod counts;
    pub mod hour;
    pub mod list_cause;
    pub mod load;
    pub mod participants;
    pub mod read;
    pub mod row;
    pub mod split;
    pub mod write;

    pub mod faults;
    pub mod file;
}
