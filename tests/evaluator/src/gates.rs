//! Gates: what circuits and both sides of rules have in common.

use crate::lines::Line;

/// The constants 0 and 1 take the first two references.
pub const CONSTANTS: usize = 2;

#[derive(Clone, Copy, Debug, PartialEq, Eq)]
pub enum Kind {
    Xor,
    And,
}

#[derive(Clone, Copy, Debug, PartialEq, Eq)]
pub struct Gate {
    pub kind: Kind,
    pub left: usize,
    pub right: usize,
}

impl Kind {
    /// 01, Circuits: 1 is XOR, 2 is AND.
    pub fn number(self) -> u32 {
        match self {
            Kind::Xor => 1,
            Kind::And => 2,
        }
    }

    fn from_number(number: u32) -> Option<Kind> {
        [Kind::Xor, Kind::And]
            .into_iter()
            .find(|kind| kind.number() == number)
    }

    pub fn other(self) -> Kind {
        match self {
            Kind::Xor => Kind::And,
            Kind::And => Kind::Xor,
        }
    }

    pub fn apply(self, left: bool, right: bool) -> bool {
        match self {
            Kind::Xor => left != right,
            Kind::And => left && right,
        }
    }
}

impl Gate {
    pub fn new(kind: Kind, left: usize, right: usize) -> Gate {
        Gate { kind, left, right }
    }

    pub fn operands(self) -> [usize; 2] {
        [self.left, self.right]
    }

    /// Whether a circuit's gate counts for depth, above and N: an AND does,
    /// unless an operand is reference 0 or 1 (02, 2026-06). What an operand
    /// that is a gate comes to is not asked: it may well be constant.
    pub fn counts(self) -> bool {
        let is_constant = |&operand: &usize| operand < CONSTANTS;
        self.kind == Kind::And && !self.operands().iter().any(is_constant)
    }

    pub fn swapped(self) -> Gate {
        Gate::new(self.kind, self.right, self.left)
    }

    /// The same gate with each operand r replaced by `names[r]`.
    pub fn renamed(self, names: &[usize]) -> Gate {
        Gate::new(self.kind, names[self.left], names[self.right])
    }

    pub fn line(self) -> Line {
        [self.kind.number(), self.left as u32, self.right as u32]
    }

    fn from_line(&[kind, left, right]: &Line) -> Option<Gate> {
        Some(Gate::new(
            Kind::from_number(kind)?,
            left as usize,
            right as usize,
        ))
    }
}

/// The gates of gate lines; none if a kind is neither 1 nor 2.
pub fn gates_of(lines: &[Line]) -> Option<Vec<Gate>> {
    lines.iter().map(Gate::from_line).collect()
}

/// The closing line of a reference.
pub fn closing_line(reference: usize) -> Line {
    [3, reference as u32, 0]
}

/// The reference of a closing line; none if it is not 3, reference, 0.
pub fn closing_of(line: &Line) -> Option<usize> {
    match line {
        &[3, reference, 0] => Some(reference as usize),
        _ => None,
    }
}

/// 01, Refusals, 7: every operand is below its gate, and every closing
/// reference within constants, `inputs` inputs or holes, and the gates.
pub fn references_hold(inputs: usize, gates: &[Gate], closings: &[usize]) -> bool {
    let first = CONSTANTS + inputs;
    let below = |(gate, own): (&Gate, usize)| gate.left < own && gate.right < own;
    gates.iter().zip(first..).all(below)
        && closings
            .iter()
            .all(|&closing| closing < first + gates.len())
}

/// The bits of all references, given those of the inputs or holes.
pub fn values(inputs: &[bool], gates: &[Gate]) -> Vec<bool> {
    let mut bits = vec![false, true];
    bits.extend(inputs);
    for gate in gates {
        bits.push(gate.kind.apply(bits[gate.left], bits[gate.right]));
    }
    bits
}
