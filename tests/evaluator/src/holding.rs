//! When each value is held, and the need (01, Register program).

use crate::circuit::Circuit;

/// The moments of a program: one just before and one just after each gate's
/// operation, and one before the first emit.
pub type Moment = usize;

/// Just before the operation of a gate, its operands loaded.
pub fn before(gate: usize) -> Moment {
    2 * gate
}

/// Just after the operation of a gate.
pub fn after(gate: usize) -> Moment {
    2 * gate + 1
}

/// The first and the last moment at which a value is held.
#[derive(Clone, Copy, Debug, PartialEq, Eq)]
struct Span {
    first: Moment,
    last: Moment,
}

/// The holding of every reference's value in a trimmed circuit.
pub struct Holding {
    spans: Vec<Option<Span>>,
    first_gate: usize,
    /// The moment before the first emit.
    pub emits: Moment,
}

impl Holding {
    pub fn of(trimmed: &Circuit) -> Holding {
        let users = trimmed.users();
        let span = |reference: usize| span(trimmed, reference, &users[reference]);
        Holding {
            spans: (0..trimmed.references()).map(span).collect(),
            first_gate: trimmed.first_gate(),
            emits: before(trimmed.gates.len()),
        }
    }

    pub fn is_held(&self, reference: usize, moment: Moment) -> bool {
        self.spans[reference].is_some_and(|span| span.first <= moment && moment <= span.last)
    }

    /// The constants and inputs that are loaded for a moment.
    pub fn loads_at(&self, moment: Moment) -> Vec<usize> {
        let loaded =
            |&reference: &usize| self.spans[reference].is_some_and(|span| span.first == moment);
        (0..self.first_gate).filter(loaded).collect()
    }

    /// How many constants and inputs are used at all.
    pub fn loads(&self) -> usize {
        self.spans[..self.first_gate].iter().flatten().count()
    }

    /// The need: the most values held at any moment.
    pub fn need(&self) -> usize {
        let held_at = |moment| {
            let held = |&reference: &usize| self.is_held(reference, moment);
            (0..self.spans.len()).filter(held).count()
        };
        (0..=self.emits).map(held_at).max().unwrap_or(0)
    }
}

/// When a reference's value is held, given the gates that use it; none if
/// neither a gate nor an output uses it.
fn span(circuit: &Circuit, reference: usize, users: &[usize]) -> Option<Span> {
    let emits = before(circuit.gates.len());
    let last = if circuit.outputs.contains(&reference) {
        emits
    } else {
        before(*users.last()?)
    };
    let first = match circuit.gate_index(reference) {
        Some(own) => after(own),
        None => users.first().map_or(emits, |&user| before(user)),
    };
    Some(Span { first, last })
}
