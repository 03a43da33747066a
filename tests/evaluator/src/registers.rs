//! The registers that a program writes (02, 2026-03).

use std::collections::BTreeSet;

use crate::machine::{AND, INSTRUCTION_NUMBERS, LOAD, XOR};

/// The registers that a program's numbers write, each once: those of its loads
/// and operations. An emit writes none.
pub fn registers_written(program: &[u32]) -> BTreeSet<u32> {
    let written = |instruction: &[u32]| match *instruction {
        [LOAD | XOR | AND, d, ..] => Some(d),
        _ => None,
    };
    let instructions = program.chunks(INSTRUCTION_NUMBERS);
    instructions.filter_map(written).collect()
}
