//! Circuits, their checks and trimming (01, Circuits; 02, 2026-01).

use crate::gates::{closing_line, closing_of, gates_of, references_hold, Gate, CONSTANTS};
use crate::lines::Line;
use crate::refusal::{refuse_if, Answer, Refusal, CIRCUIT};
use crate::starting::{split_starting, starting_levels, starts_hold, starts_of, Start};

pub const MOST_INPUTS: u32 = 512;
pub const MOST_GATES: u32 = 2048;
pub const MOST_OUTPUTS: u32 = 256;
/// Numbers in the table of a largest circuit (02, 2026-01: "result and working
/// tables grow to 8,451 numbers").
pub const CIRCUIT_NUMBERS: usize = 8451;

#[derive(Clone, Debug, PartialEq, Eq)]
pub struct Circuit {
    pub inputs: usize,
    pub starts: Vec<Start>,
    pub gates: Vec<Gate>,
    pub outputs: Vec<usize>,
}

impl Circuit {
    /// The circuit of a table's lines, tested for refusals 4, 5, 11, 6 and 7:
    /// 11 is "tested after 5".
    pub fn checked(lines: &[Line]) -> Answer<Circuit> {
        let [inputs, gates, outputs] = lines[0];
        let outside =
            inputs > MOST_INPUTS || gates > MOST_GATES || !(1..=MOST_OUTPUTS).contains(&outputs);
        refuse_if(outside, 4, CIRCUIT)?;
        let (gates, outputs) = (gates as usize, outputs as usize);
        let (starting, rest) = split_starting(&lines[1..]);
        // "The circuit's line count includes them."
        let count = 1 + starting.len() + gates + outputs;
        refuse_if(lines.len() != count, 5, CIRCUIT)?;
        let (inputs, starts) = (inputs as usize, starts_of(starting));
        refuse_if(!starts_hold(inputs, &starts), 11, CIRCUIT)?;
        let (gates, closings) = rest.split_at(gates);
        let circuit =
            Circuit::from_parts(inputs, starts, gates, closings).ok_or(Refusal::new(6, CIRCUIT))?;
        let hold = references_hold(circuit.inputs, &circuit.gates, &circuit.outputs);
        refuse_if(!hold, 7, CIRCUIT)?;
        Ok(circuit)
    }

    fn from_parts(
        inputs: usize,
        starts: Vec<Start>,
        gates: &[Line],
        closings: &[Line],
    ) -> Option<Circuit> {
        Some(Circuit {
            inputs,
            starts,
            gates: gates_of(gates)?,
            outputs: closings.iter().map(closing_of).collect::<Option<_>>()?,
        })
    }

    pub fn lines(&self) -> Vec<Line> {
        let counts = [self.inputs, self.gates.len(), self.outputs.len()];
        let mut lines = vec![counts.map(|count| count as u32)];
        lines.extend(self.starts.iter().map(|start| start.line()));
        lines.extend(self.gates.iter().map(|gate| gate.line()));
        lines.extend(self.outputs.iter().map(|&output| closing_line(output)));
        lines
    }

    /// The reference of the first gate.
    pub fn first_gate(&self) -> usize {
        CONSTANTS + self.inputs
    }

    /// How many references there are.
    pub fn references(&self) -> usize {
        self.first_gate() + self.gates.len()
    }

    /// 02, 2026-01: the starting level of each input.
    pub fn starting_levels(&self) -> Vec<u32> {
        starting_levels(self.inputs, &self.starts)
    }

    /// Which gate a reference is, counted from 0; none if it is no gate.
    pub fn gate_index(&self, reference: usize) -> Option<usize> {
        (self.first_gate()..self.references())
            .contains(&reference)
            .then(|| reference - self.first_gate())
    }

    /// The gate that a reference is, if it is one.
    pub fn gate(&self, reference: usize) -> Option<Gate> {
        Some(self.gates[self.gate_index(reference)?])
    }

    /// For each reference the gates, counted from 0, that use it.
    pub fn users(&self) -> Vec<Vec<usize>> {
        let mut users = vec![Vec::new(); self.references()];
        for (index, gate) in self.gates.iter().enumerate() {
            for operand in gate.operands() {
                users[operand].push(index);
            }
        }
        users
    }

    /// 01, Circuits: the references that some output reaches.
    pub fn live(&self) -> Vec<bool> {
        let mut reached = vec![false; self.references()];
        let mut waiting = self.outputs.clone();
        while let Some(reference) = waiting.pop() {
            if reached[reference] {
                continue;
            }
            reached[reference] = true;
            if let Some(gate) = self.gate(reference) {
                waiting.extend(gate.operands());
            }
        }
        reached
    }

    /// 01, Circuits: the live gates only, in order, renumbered; every input
    /// stays, and 02, 2026-01: "trimming keeps these lines", those of inputs
    /// that nothing uses too.
    pub fn trimmed(&self) -> Circuit {
        let live = self.live();
        let mut names: Vec<usize> = (0..self.first_gate()).collect();
        let mut gates = Vec::new();
        for (gate, reference) in self.gates.iter().zip(self.first_gate()..) {
            // A dead gate's name is never asked for by a live one.
            names.push(self.first_gate() + gates.len());
            if live[reference] {
                gates.push(gate.renamed(&names));
            }
        }
        let outputs = self.outputs.iter().map(|&output| names[output]).collect();
        Circuit {
            inputs: self.inputs,
            starts: self.starts.clone(),
            gates,
            outputs,
        }
    }
}
