//! Depth and critical count.

use super::circuit::{Circuit, MOST_REFERENCES};
use super::gates::{AND, CONSTANTS};
use super::lines::{lines_of, Line};
use super::refusal::{Answer, CIRCUIT};
use super::rules::MOST_SIDE_GATES;

/// D and N; the derived order is D first, then N.
#[derive(Clone, Copy, Debug, PartialEq, Eq, PartialOrd, Ord)]
pub struct Pair {
    pub depth: u32,
    pub critical: u32,
}

/// D and N of a circuit's table.
pub fn measure(circuit: &[u32]) -> Answer<Pair> {
    let circuit = Circuit::checked(lines_of(circuit, CIRCUIT)?)?;
    Ok(Survey::blank().circuit(circuit))
}

/// Places of a survey: a circuit's references, and beyond them room for the
/// gates of a rule's right side.
pub const MOST_PLACES: usize = MOST_REFERENCES + MOST_SIDE_GATES;

/// One number a place; no depth exceeds the number of gates by more than a
/// starting level.
pub type Places = [u16; MOST_PLACES];

/// Depths from below and reaches from above. Gates are handed over in blocks
/// that lie one after another, so that one block can stand in for a gate
/// without a new table.
pub struct Survey {
    pub depth: Places,
    /// 0 if no output reaches the place, else 1 more than its above.
    pub reach: Places,
    /// A gate's place whose uses are uses of a constant, though they don't say
    /// so; 0, which is a constant's own, if there is no such gate.
    pub constant: usize,
}

impl Survey {
    pub fn blank() -> Survey {
        Survey {
            depth: [0; MOST_PLACES],
            reach: [0; MOST_PLACES],
            constant: 0,
        }
    }

    /// Surveys a whole circuit, nothing having been surveyed before.
    pub fn circuit(&mut self, circuit: Circuit) -> Pair {
        for &[_, reference, level] in circuit.starts {
            self.depth[reference as usize] = level as u16;
        }
        self.rise(circuit.gates, circuit.first_gate());
        let depth = self.start_fall(circuit.outputs());
        let critical = self.fall(circuit.gates, circuit.first_gate(), depth);
        Pair { depth, critical }
    }

    /// Works out the depths of a block of gates, the first at place `base`,
    /// once those of all their operands are known. A gate's own contribution
    /// comes first, then the larger operand depth. It is kept as a truth value
    /// until they are added; made a number at once, it took measuring 3 to 6 %
    /// longer.
    pub fn rise(&mut self, gates: &[Line], base: usize) {
        for (own, &gate) in (base..).zip(gates) {
            let counts = self.counts(gate);
            let [_, left, right] = gate.map(|number| number as usize);
            let larger = self.depth[left].max(self.depth[right]);
            self.depth[own] = u16::from(counts) + larger;
        }
    }

    /// Whether a gate counts for depth, above and N: an AND without a constant
    /// as an operand does. The tests end at the first that fails; with all of
    /// them made for every gate, measuring took a quarter longer.
    fn counts(&self, [kind, left, right]: Line) -> bool {
        let varies = |operand: u32| {
            let operand = operand as usize;
            operand >= CONSTANTS && operand != self.constant
        };
        kind == AND && varies(left) && varies(right)
    }

    /// Starts the reaches, all of them 0, at the outputs; gives D.
    pub fn start_fall(&mut self, outputs: impl Iterator<Item = usize>) -> u32 {
        let mut largest = 0;
        for output in outputs {
            self.reach[output] = 1;
            largest = largest.max(self.depth[output]);
        }
        u32::from(largest)
    }

    /// Hands the reaches of a block of gates, the first at place `base`, down
    /// to their operands, once those of all their users are known; gives the
    /// number of critical gates in the block.
    pub fn fall(&mut self, gates: &[Line], base: usize, depth: u32) -> u32 {
        let mut critical = 0;
        for (index, &gate) in gates.iter().enumerate().rev() {
            let reach = self.reach[base + index];
            if reach == 0 {
                continue;
            }
            let counts = self.counts(gate);
            let [_, left, right] = gate.map(|number| number as usize);
            self.extend(left, reach + u16::from(counts));
            self.extend(right, reach + u16::from(counts));
            let path = u32::from(self.depth[base + index] + reach - 1);
            critical += u32::from(counts && path == depth);
        }
        critical
    }

    /// A place is reached at least that far.
    pub fn extend(&mut self, place: usize, reach: u16) {
        self.reach[place] = self.reach[place].max(reach);
    }

    /// Whether some output reaches the place.
    pub fn is_live(&self, place: usize) -> bool {
        self.reach[place] != 0
    }
}
