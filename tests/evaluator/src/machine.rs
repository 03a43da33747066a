//! The register machine (01, Register program; 02, 2026-01 and 2026-06).

use std::collections::HashMap;

use crate::evaluation::bit_of;
use crate::gates::CONSTANTS;

pub type Instruction = [u32; 4];

pub const XOR: u32 = 1;
pub const AND: u32 = 2;
pub const EMIT: u32 = 3;
pub const LOAD: u32 = 4;

/// Numbers in one instruction.
pub const INSTRUCTION_NUMBERS: usize = 4;

/// What an emit gives.
#[derive(Clone, Copy, Debug, PartialEq, Eq)]
pub struct Value {
    pub bit: bool,
    pub level: u64,
}

/// What a full register holds: a value, and whether it is public (02,
/// 2026-06).
#[derive(Clone, Copy)]
struct Content {
    value: Value,
    public: bool,
}

/// A run that ended early: the instruction at fault, from 0, and what was
/// emitted before it.
#[derive(Clone, Debug, PartialEq, Eq)]
pub struct Fault {
    pub instruction: usize,
    pub emitted: Vec<Value>,
}

struct Machine<'a> {
    limit: u32,
    inputs: &'a [u8],
    /// The starting level of each input.
    levels: &'a [u32],
    registers: HashMap<u32, Content>,
    emitted: Vec<Value>,
}

/// Runs a program on a machine of `limit` registers, empty at first, given a
/// byte and a starting level an input; numbers that don't make up an
/// instruction are one more fault.
pub fn run(
    limit: u32,
    inputs: &[u8],
    levels: &[u32],
    program: &[u32],
) -> Result<Vec<Value>, Fault> {
    let mut machine = Machine {
        limit,
        inputs,
        levels,
        registers: HashMap::new(),
        emitted: Vec::new(),
    };
    for (instruction, numbers) in program.chunks(INSTRUCTION_NUMBERS).enumerate() {
        if machine.perform(numbers).is_none() {
            return Err(Fault {
                instruction,
                emitted: machine.emitted,
            });
        }
    }
    Ok(machine.emitted)
}

impl Machine<'_> {
    /// Performs one instruction; none is a fault.
    fn perform(&mut self, numbers: &[u32]) -> Option<()> {
        match *numbers {
            [LOAD, d, reference, 0] => self.write(d, self.source(reference)?),
            [XOR, d, a, b] => {
                let operands = [self.read(a)?, self.read(b)?];
                let [a, b] = operands.map(|operand| operand.value);
                self.write(d, result(a.bit ^ b.bit, a.level.max(b.level)))
            }
            [AND, d, a, b] => {
                let operands = [self.read(a)?, self.read(b)?];
                let reads_public = operands.iter().any(|operand| operand.public);
                let [a, b] = operands.map(|operand| operand.value);
                let own = u64::from(!reads_public);
                self.write(d, result(a.bit & b.bit, own + a.level.max(b.level)))
            }
            [EMIT, a, 0, 0] => {
                self.emitted.push(self.read(a)?.value);
                Some(())
            }
            _ => None,
        }
    }

    /// A constant at level 0, which is public, or an input at its starting
    /// level (02, 2026-01: "the level of its load"); none for any other
    /// reference.
    fn source(&self, reference: u32) -> Option<Content> {
        let Some(input) = (reference as usize).checked_sub(CONSTANTS) else {
            let bit = reference == 1;
            return Some(Content {
                value: Value { bit, level: 0 },
                public: true,
            });
        };
        let bit = bit_of(*self.inputs.get(input)?);
        let level = u64::from(self.levels[input]);
        Some(Content {
            value: Value { bit, level },
            public: false,
        })
    }

    /// What a full register holds; registers not below the limit are never
    /// full.
    fn read(&self, register: u32) -> Option<Content> {
        self.registers.get(&register).copied()
    }

    /// Overwrites all that the register held, its being public too.
    fn write(&mut self, register: u32, content: Content) -> Option<()> {
        if register >= self.limit {
            return None;
        }
        self.registers.insert(register, content);
        Some(())
    }
}

/// What an operation puts into its register. It is never public, whatever it
/// was made of: only a load makes a register so.
fn result(bit: bool, level: u64) -> Content {
    Content {
        value: Value { bit, level },
        public: false,
    }
}
