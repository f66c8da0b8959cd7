//! A second, independent implementation of the link of docs/RULES.md.
//! `checksum`, `frame`, `link` and `chain` are the implementation; the rest
//! compares it with the rig and searches it for faults.

#![forbid(unsafe_code)]

pub mod answer;
pub mod bus;
pub mod chain;
pub mod checksum;
pub mod count;
pub mod examples;
pub mod frame;
pub mod generate;
pub mod link;
pub mod random;
pub mod rounds;
pub mod script;
