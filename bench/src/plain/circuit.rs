//! Circuits in tables.

use super::gates::{Faults, CONSTANTS};
use super::lines::Line;
use super::refusal::{require, Answer, CIRCUIT};

pub const MOST_INPUTS: usize = 512;
pub const MOST_GATES: usize = 2048;
pub const MOST_OUTPUTS: usize = 256;
pub const MOST_LINES: usize = 1 + MOST_INPUTS + MOST_GATES + MOST_OUTPUTS;
pub const MOST_REFERENCES: usize = CONSTANTS + MOST_INPUTS + MOST_GATES;
/// Numbers in the table of a largest circuit.
pub const CIRCUIT_NUMBERS: usize = 3 * MOST_LINES;

/// What a starting line begins with.
pub const STARTING: u32 = 4;
pub const HIGHEST_LEVEL: u32 = 255;

/// A well-formed circuit, left where it lies.
#[derive(Clone, Copy)]
pub struct Circuit<'a> {
    pub inputs: usize,
    /// The starting lines.
    pub starts: &'a [Line],
    pub gates: &'a [Line],
    closings: &'a [Line],
}

impl<'a> Circuit<'a> {
    /// The circuit of a table's lines, tested for refusals 4, 5, 11, 6 and 7.
    pub fn checked(lines: &'a [Line]) -> Answer<Self> {
        let run = lines[1..].iter().take_while(|line| line[0] == STARTING);
        Circuit::counted(lines, lines.len(), run.count())
    }

    /// The same for as many lines as are at hand, which are all or those of a
    /// largest circuit, given how many there are and how many of them are
    /// starting lines.
    pub fn counted(lines: &'a [Line], count: usize, starting: usize) -> Answer<Self> {
        let [inputs, gates, outputs] = lines[0].map(|number| number as usize);
        let within =
            inputs <= MOST_INPUTS && gates <= MOST_GATES && (1..=MOST_OUTPUTS).contains(&outputs);
        require(within, 4, CIRCUIT)?;
        require(count == 1 + starting + gates + outputs, 5, CIRCUIT)?;
        // No more starting lines than inputs can ascend; so all lines of a
        // circuit that gets beyond this are at hand.
        require(starting <= inputs, 11, CIRCUIT)?;
        let (starts, rest) = lines[1..].split_at(starting);
        require(are_starts(starts, inputs), 11, CIRCUIT)?;
        let (gates, closings) = rest.split_at(gates);
        let circuit = Circuit {
            inputs,
            starts,
            gates,
            closings,
        };
        circuit.faults().refuse(CIRCUIT)?;
        Ok(circuit)
    }

    fn faults(&self) -> Faults {
        let mut faults = Faults::default();
        faults.note_gates(self.gates, self.first_gate());
        for closing in self.closings {
            faults.note_closing(closing, self.first_gate() + self.gates.len());
        }
        faults
    }

    /// The reference of the first gate.
    pub fn first_gate(&self) -> usize {
        CONSTANTS + self.inputs
    }

    /// The outputs' references.
    pub fn outputs(&self) -> impl ExactSizeIterator<Item = usize> + 'a {
        self.closings.iter().map(|closing| closing[1] as usize)
    }
}

/// Whether references ascend within the inputs, and levels are within their
/// range. Of references that ascend the last is the largest.
fn are_starts(starts: &[Line], inputs: usize) -> bool {
    let mut last = CONSTANTS as u32 - 1;
    let mut right = true;
    for &[_, reference, level] in starts {
        right &= reference > last && (1..=HIGHEST_LEVEL).contains(&level);
        last = reference;
    }
    right && (last as usize) < CONSTANTS + inputs
}
