//! Document 01 and document 02's #102, #103, #105, #107 and #108 once more, by another road: a
//! second implementation, simple and literal, with an exhaustive judge, a generator, a corpus and a
//! harness.

#![forbid(unsafe_code)]
#![warn(missing_docs)]

pub mod bounded;
pub mod bytes;
pub mod check;
pub mod corpus;
pub mod corpus_reader;
pub mod expression;
pub mod extras;
pub mod families;
pub mod forms;
pub mod generator;
pub mod groups;
pub mod harness;
pub mod judge;
pub mod judged;
pub mod limits;
pub mod listing;
pub mod machine;
pub mod one_trace;
pub mod order;
pub mod program;
pub mod record;
pub mod replay;
pub mod slip;
pub mod start;
pub mod start_extras;
