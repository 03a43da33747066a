//! The plain program: the same jobs as the library's, without proofs.
//!
//! Tables and texts are lent, checked where they lie and read in linear passes;
//! scratch is on the stack. A call that is refused has written nothing.

pub mod circuit;
pub mod depth;
pub mod evaluation;
pub mod finding;
pub mod gates;
pub mod lines;
pub mod listing;
pub mod matching;
pub mod refusal;
pub mod rewriting;
pub mod rules;
pub mod sites;
pub mod translation;
