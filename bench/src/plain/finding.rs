//! The finder of swap masks.

use std::ops::ControlFlow;

use super::circuit::Circuit;
use super::lines::Line;
use super::matching::{bind_part, checked, judged_at, root_bound, Bindings};
use super::refusal::{require, Answer, NO_TABLE};
use super::rules::Rule;

/// The highest limit of ways.
pub const MOST_WAYS: u32 = 65_535;

/// The outcomes beside verdicts 1 to 3.
pub const MASK: u8 = 0;
pub const NONE: u8 = 4;
pub const SPENT: u8 = 5;

/// What a search gives back; the mask is 0 unless that is the outcome.
#[derive(Clone, Copy, Debug, PartialEq, Eq)]
pub struct Found {
    pub outcome: u8,
    pub mask: u32,
    pub ways: u32,
}

/// Finds the smallest mask with which a rule matches at a gate of the trimmed
/// circuit, in no more ways than the limit.
pub fn find_mask(
    circuit: &[u32],
    rules: &[u32],
    rule: u32,
    gate: u32,
    limit: u32,
) -> Answer<Found> {
    let (circuit, rules) = checked(circuit, rules)?;
    require((1..=MOST_WAYS).contains(&limit), 12, NO_TABLE)?;
    Ok(match judged_at(circuit, &rules, rule, gate) {
        Ok((rule, gate)) => Search::new(circuit, rule, limit).at(gate),
        Err(verdict) => Found {
            outcome: verdict,
            mask: 0,
            ways: 0,
        },
    })
}

struct Search<'a> {
    gates: &'a [Line],
    /// The reference of the first of the gates.
    first: usize,
    rule: Rule<'a>,
    limit: u32,
    ways: u32,
}

/// An outcome and its mask, at which a search ends before all is tried.
type End = (u8, u32);

impl<'a> Search<'a> {
    fn new(circuit: Circuit<'a>, rule: Rule<'a>, limit: u32) -> Self {
        Search {
            gates: circuit.gates,
            first: circuit.first_gate(),
            rule,
            limit,
            ways: 0,
        }
    }

    fn at(mut self, gate: usize) -> Found {
        let bound = root_bound(self.rule, gate);
        let (outcome, mask) = match self.below(self.rule.left.len(), 0, &bound) {
            ControlFlow::Break(end) => end,
            ControlFlow::Continue(()) => (NONE, 0),
        };
        Found {
            outcome,
            mask,
            ways: self.ways,
        }
    }

    /// Tries so many of the left gates that are first in line order, the last
    /// of them before the others.
    fn below(&mut self, left: usize, mask: u32, bound: &Bindings) -> ControlFlow<End> {
        let Some(index) = left.checked_sub(1) else {
            return ControlFlow::Break((MASK, mask));
        };
        for mask in [mask, mask | 1 << index] {
            if self.ways == self.limit {
                return ControlFlow::Break((SPENT, 0));
            }
            self.ways += 1;
            let mut trial = *bound;
            if bind_part(self.gates, self.first, self.rule, index, mask, &mut trial) {
                self.below(index, mask, &trial)?;
            }
        }
        ControlFlow::Continue(())
    }
}
