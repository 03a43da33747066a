//! An independent reading of paper 01, "The depth rewriter and its rules", and
//! of requests 2026-01 to 2026-08 of paper 02, "More changes customers want".
//!
//! Everything here is plain and slow on purpose: each function renders a
//! sentence or two of the papers, named in its comment by section. Nothing is
//! shared with the product, so that agreement of the two says something.
//!
//! The calls: [`lines::read`], [`lines::write`], [`evaluation::evaluate`],
//! [`depth::measure`], [`rules::judge`], [`matching::match_site`],
//! [`finding::find_mask`], [`rewriting::rewrite`], [`translation::translate`],
//! [`listing::listing`] and [`listing::program_output`]. The register programs
//! of others are judged by [`checking::check_program`], whatever registers they
//! take, and by [`discipline::check_discipline`], which lets one pass for each
//! circuit; they are run by [`machine::run`], and
//! [`registers::registers_written`] says what they write. Programs that
//! take any registers, and load at any time before a use, are judged by
//! [`rivals::check_rival`], and [`rivals::fewest_registers`] searches for one on
//! the fewest registers.

pub mod cases;
pub mod checking;
pub mod circuit;
pub mod depth;
pub mod discipline;
pub mod evaluation;
pub mod finding;
pub mod gates;
pub mod generator;
pub mod holding;
pub mod lines;
pub mod listing;
pub mod lists;
pub mod machine;
pub mod matching;
pub mod random;
pub mod refusal;
pub mod registers;
pub mod rewriting;
pub mod rivals;
pub mod rules;
pub mod sites;
pub mod starting;
pub mod translation;
