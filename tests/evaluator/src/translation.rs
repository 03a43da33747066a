//! A simple translator of its own (01, Register program; 02, 2026-03 and
//! 2026-05).

use crate::circuit::Circuit;
use crate::holding::{after, before, Holding, Moment};
use crate::lines::lines_of_table;
use crate::machine::{Instruction, EMIT, INSTRUCTION_NUMBERS, LOAD};
use crate::refusal::{overwrite, refuse_if, require_room, Answer, CIRCUIT, NO_TABLE};

pub const MOST_REGISTERS: u32 = 1024;
/// Numbers in a longest program.
pub const PROGRAM_NUMBERS: usize = 11_272;

/// What a call of [`translate`] gives back beside its buffer.
#[derive(Clone, Copy, Debug, PartialEq, Eq)]
pub struct Translated {
    pub instructions: usize,
    pub need: usize,
}

/// Translates a circuit into a lent program.
pub fn translate(circuit: &[u32], limit: u32, program: &mut [u32]) -> Answer<Translated> {
    let lines = lines_of_table(circuit, CIRCUIT)?;
    require_room(program, PROGRAM_NUMBERS)?;
    let trimmed = Circuit::checked(&lines)?.trimmed();
    refuse_if(!is_limit(limit), 9, NO_TABLE)?;
    let holding = Holding::of(&trimmed);
    let need = holding.need();
    refuse_if(need > limit as usize, 10, NO_TABLE)?;
    let instructions = allocated(&trimmed, &holding);
    overwrite(program, &instructions.concat());
    Ok(Translated {
        instructions: instructions.len(),
        need,
    })
}

/// Translates into a buffer of its own, and gives the program's numbers too.
pub fn program_of(circuit: &[u32], limit: u32) -> Answer<(Translated, Vec<u32>)> {
    let mut program = vec![0; PROGRAM_NUMBERS];
    let translated = translate(circuit, limit, &mut program)?;
    program.truncate(INSTRUCTION_NUMBERS * translated.instructions);
    Ok((translated, program))
}

/// 01, Refusals, 9: whether a register limit is within 1 to 1,024.
pub fn is_limit(limit: u32) -> bool {
    (1..=MOST_REGISTERS).contains(&limit)
}

/// 01, Register program: an operation a gate, a load for each used constant or
/// input, an emit an output.
pub fn instruction_count(trimmed: &Circuit, holding: &Holding) -> usize {
    trimmed.gates.len() + holding.loads() + trimmed.outputs.len()
}

/// The circuit's one program (02, 2026-05). Of a gate's operands the left comes
/// first: in its load, as a, and in its freeing. The result takes a register
/// only then, as it may have that of an operand (01). What outputs alone use is
/// loaded in their order.
fn allocated(trimmed: &Circuit, holding: &Holding) -> Vec<Instruction> {
    let mut allocator = Allocator::of(holding);
    for (index, gate) in trimmed.gates.iter().enumerate() {
        allocator.load(&gate.operands(), before(index));
        let [a, b] = gate
            .operands()
            .map(|operand| allocator.register_of(operand));
        allocator.free(&gate.operands(), after(index));
        let d = allocator.take(trimmed.first_gate() + index);
        allocator.program.push([gate.kind.number(), d, a, b]);
    }
    allocator.load(&trimmed.outputs, holding.emits);
    for &output in &trimmed.outputs {
        let a = allocator.register_of(output);
        allocator.program.push([EMIT, a, 0, 0]);
    }
    allocator.program
}

struct Allocator<'a> {
    holding: &'a Holding,
    /// The reference whose value each register holds.
    owners: Vec<Option<usize>>,
    /// The registers that were freed and are still free, in the order in which
    /// they were.
    freed: Vec<usize>,
    program: Vec<Instruction>,
}

impl Allocator<'_> {
    fn of(holding: &Holding) -> Allocator<'_> {
        Allocator {
            holding,
            owners: Vec::new(),
            freed: Vec::new(),
            program: Vec::new(),
        }
    }

    /// Loads those of the references that are due now, in the order in which
    /// they are named (02, 2026-05). Named twice, one is loaded once (01).
    fn load(&mut self, references: &[usize], moment: Moment) {
        let due = self.holding.loads_at(moment);
        for &reference in references {
            if due.contains(&reference) && self.find(reference).is_none() {
                let d = self.take(reference);
                self.program.push([LOAD, d, reference as u32, 0]);
            }
        }
    }

    /// Frees the registers of those references that were just used for the last
    /// time, in the order in which they are named (02, 2026-05). That of equal
    /// operands is without an owner the second time, and so it is freed once.
    fn free(&mut self, references: &[usize], moment: Moment) {
        for &reference in references {
            if !self.holding.is_held(reference, moment) {
                if let Some(register) = self.find(reference) {
                    self.owners[register] = None;
                    self.freed.push(register);
                }
            }
        }
    }

    /// Of the free registers the one freed last; if all that were freed are
    /// taken again, the lowest that was never used (02, 2026-05).
    fn take(&mut self, reference: usize) -> u32 {
        let register = self.freed.pop().unwrap_or_else(|| {
            self.owners.push(None);
            self.owners.len() - 1
        });
        self.owners[register] = Some(reference);
        register as u32
    }

    fn register_of(&self, reference: usize) -> u32 {
        let register = self.find(reference);
        register.expect("a held value is in a register") as u32
    }

    fn find(&self, reference: usize) -> Option<usize> {
        self.owners
            .iter()
            .position(|&owner| owner == Some(reference))
    }
}
