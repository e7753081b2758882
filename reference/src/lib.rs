//! A second, independent reading of RFC 798, RFC 803 and the scope paper, in
//! plain Rust. It shares no code with the crates under `crates/`; the program
//! `compare` calls what they come to, by the package `dacom450`. Beside it stands
//! `documents`, which looks up what the documents say.

pub mod appendix;
pub mod capture;
pub mod compare;
pub mod documents;
pub mod file;
pub mod frame;
pub mod listing;
pub mod octets;
pub mod page;
pub mod part;
pub mod random;
pub mod refusal;
pub mod register;
pub mod search;
