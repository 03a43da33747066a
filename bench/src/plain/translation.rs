//! The translator to a register program.
//!
//! Registers freed lie on a stack: the last one freed is taken first, else the
//! lowest never used. A left operand is loaded and freed before the right one.

use super::circuit::{Circuit, MOST_GATES, MOST_INPUTS, MOST_OUTPUTS, MOST_REFERENCES};
use super::gates::CONSTANTS;
use super::lines::{lines_of, Line};
use super::refusal::{require, require_room, Answer, CIRCUIT, NO_TABLE};

pub const MOST_REGISTERS: usize = 1024;
const MOST_SOURCES: usize = CONSTANTS + MOST_INPUTS;
/// Numbers in a longest program: an operation a gate, a load a constant or
/// input, an emit an output.
pub const PROGRAM_NUMBERS: usize = 4 * (MOST_GATES + MOST_SOURCES + MOST_OUTPUTS);

const EMIT: u32 = 3;
const LOAD: u32 = 4;

/// What a translation gives back beside its buffer.
#[derive(Clone, Copy, Debug, Default, PartialEq, Eq)]
pub struct Translated {
    pub instructions: usize,
    pub need: usize,
}

/// Translates a circuit into a lent program.
pub fn translate(circuit: &[u32], limit: u32, program: &mut [u32]) -> Answer<Translated> {
    let lines = lines_of(circuit, CIRCUIT)?;
    require_room(program, PROGRAM_NUMBERS)?;
    let circuit = Circuit::checked(lines)?;
    let limit = limit as usize;
    require((1..=MOST_REGISTERS).contains(&limit), 9, NO_TABLE)?;
    let uses = LastUses::new(circuit);
    let mut count = Count::default();
    uses.walk(circuit, &mut count);
    require(count.total.need <= limit, 10, NO_TABLE)?;
    uses.walk(circuit, &mut Writer::new(program));
    Ok(count.total)
}

/// What is done with a program's steps: they are counted, then, if there are
/// registers enough, written.
trait Steps {
    fn load(&mut self, source: usize);
    /// An operation; each operand says whether its value is read for the last
    /// time. The same value twice is said to be so once.
    fn operate(&mut self, own: usize, gate: Line, last: [bool; 2]);
    fn emit(&mut self, output: usize);
}

/// Until when each value is held. A dead gate is not trimmed away but passed
/// over, which leaves the same program: loads name constants and inputs only.
struct LastUses {
    /// 0 if there is none, else the last using gate or [`END`].
    by: [u16; MOST_REFERENCES],
}

/// The last use of what is held to the end.
const END: u16 = u16::MAX;

impl LastUses {
    fn new(circuit: Circuit) -> LastUses {
        let mut by = [0; MOST_REFERENCES];
        for output in circuit.outputs() {
            by[output] = END;
        }
        let first = circuit.first_gate();
        for (index, &[_, left, right]) in circuit.gates.iter().enumerate().rev() {
            if by[first + index] == 0 {
                continue;
            }
            for operand in [left, right] {
                let last = &mut by[operand as usize];
                let own = (first + index) as u16;
                *last = if *last == 0 { own } else { *last };
            }
        }
        LastUses { by }
    }

    /// Goes through the steps of the program in order.
    fn walk(&self, circuit: Circuit, steps: &mut impl Steps) {
        let first = circuit.first_gate();
        let mut loaded = [false; MOST_SOURCES];
        let mut load = |steps: &mut _, reference: usize| {
            if reference < first && !loaded[reference] {
                loaded[reference] = true;
                Steps::load(steps, reference);
            }
        };
        for (own, &gate) in (first..).zip(circuit.gates) {
            if self.by[own] == 0 {
                continue;
            }
            let [_, left, right] = gate.map(|number| number as usize);
            load(steps, left);
            load(steps, right);
            let is_last = |operand: usize| usize::from(self.by[operand]) == own;
            steps.operate(own, gate, [is_last(left), left != right && is_last(right)]);
        }
        circuit.outputs().for_each(|output| load(steps, output));
        circuit.outputs().for_each(|output| steps.emit(output));
    }
}

/// Counts the instructions, the values held and the most of these.
#[derive(Default)]
struct Count {
    held: usize,
    total: Translated,
}

impl Count {
    fn instruction(&mut self) {
        self.total.instructions += 1;
        self.total.need = self.total.need.max(self.held);
    }
}

impl Steps for Count {
    fn load(&mut self, _: usize) {
        self.held += 1;
        self.instruction();
    }

    fn operate(&mut self, _: usize, _: Line, last: [bool; 2]) {
        self.held -= last.into_iter().filter(|&is_last| is_last).count();
        self.held += 1;
        self.instruction();
    }

    fn emit(&mut self, _: usize) {
        self.instruction();
    }
}

/// Writes the instructions, given registers enough.
struct Writer<'a> {
    program: std::slice::IterMut<'a, [u32; 4]>,
    /// The register of each value held.
    registers: [u16; MOST_REFERENCES],
    /// A stack with a place more than there can be registers on it.
    freed: [u16; MOST_REGISTERS + 1],
    freed_count: usize,
    used: u16,
}

impl<'a> Writer<'a> {
    fn new(program: &'a mut [u32]) -> Self {
        Writer {
            program: program.as_chunks_mut().0.iter_mut(),
            registers: [0; MOST_REFERENCES],
            freed: [0; MOST_REGISTERS + 1],
            freed_count: 0,
            used: 0,
        }
    }

    fn write(&mut self, instruction: [u32; 4]) {
        let place = self.program.next();
        *place.expect("a longest program has room") = instruction;
    }

    /// Takes a register for a value.
    fn take(&mut self, reference: usize) -> u32 {
        let register = if self.freed_count > 0 {
            self.freed_count -= 1;
            self.freed[self.freed_count]
        } else {
            self.used += 1;
            self.used - 1
        };
        self.registers[reference] = register;
        u32::from(register)
    }

    /// Frees a register if its value was read for the last time. Put down it
    /// is in any case: whether it counts is hard to predict for a branch.
    fn free_if(&mut self, is_last: bool, register: u32) {
        self.freed[self.freed_count] = register as u16;
        self.freed_count += usize::from(is_last);
    }

    fn register_of(&self, reference: usize) -> u32 {
        u32::from(self.registers[reference])
    }
}

impl Steps for Writer<'_> {
    fn load(&mut self, source: usize) {
        let register = self.take(source);
        self.write([LOAD, register, source as u32, 0]);
    }

    fn operate(&mut self, own: usize, [kind, left, right]: Line, last: [bool; 2]) {
        let operands = [left, right].map(|operand| self.register_of(operand as usize));
        for (register, is_last) in operands.into_iter().zip(last) {
            self.free_if(is_last, register);
        }
        let [a, b] = operands;
        let result = self.take(own);
        self.write([kind, result, a, b]);
    }

    fn emit(&mut self, output: usize) {
        let register = self.register_of(output);
        self.write([EMIT, register, 0, 0]);
    }
}
