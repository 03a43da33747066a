//! The finder of swap masks (02, 2026-02).
//!
//! The search is not run. Its orders are those of the numbers: left gates from
//! the last to the first are mask bits from the highest to the lowest, and "as
//! written, then crosswise" is 0, then 1. So the search comes upon the masks in
//! ascending order, and its first match is the smallest matching mask. Its
//! trials are gathered from the masks up to that one.

use std::collections::HashSet;
use std::ops::Range;

use crate::circuit::Circuit;
use crate::matching::{bindings, judged_at, part_holds, root_bound, trimmed_and_rules};
use crate::refusal::{refuse_if, Answer, NO_TABLE};
use crate::rules::{Judge, Rule, Verdict};

/// The highest limit of ways.
pub const MOST_WAYS: u32 = 65_535;

/// The outcomes beside verdicts 1 to 3.
pub const MASK: u8 = 0;
pub const NONE: u8 = 4;
pub const SPENT: u8 = 5;

/// What a call of [`find_mask`] gives back. The mask is 0 unless that is the
/// outcome.
#[derive(Clone, Copy, Debug, PartialEq, Eq)]
pub struct Found {
    pub outcome: u8,
    pub mask: u32,
    pub ways: u32,
}

/// Finds the smallest mask with which a rule matches at a gate of the trimmed
/// circuit, if the search for it has no more ways than the limit.
pub fn find_mask(
    circuit: &[u32],
    rules: &[u32],
    rule: u32,
    gate: u32,
    limit: u32,
) -> Answer<Found> {
    let (circuit, rules) = trimmed_and_rules(circuit, rules)?;
    refuse_if(!(1..=MOST_WAYS).contains(&limit), 12, NO_TABLE)?;
    Ok(match judged_at(&circuit, &Judge::of(&rules), rule, gate) {
        Ok(rule) => Search::of(&circuit, rule, gate as usize).within(limit),
        Err(verdict) => Found::without_mask(verdict, 0),
    })
}

impl Found {
    fn without_mask(outcome: Verdict, ways: u32) -> Found {
        Found {
            outcome,
            mask: 0,
            ways,
        }
    }
}

/// What a search comes to that no limit ends.
struct Search {
    first_match: Option<u32>,
    ways: u32,
}

impl Search {
    fn of(circuit: &Circuit, rule: &Rule, gate: usize) -> Search {
        let last = (1 << rule.left.len()) - 1;
        let matches = |&mask: &u32| bindings(circuit, rule, gate, mask).is_some();
        let first_match = (0..=last).find(matches);
        // "The search ends at its first match, or when no trial is left."
        let end = first_match.unwrap_or(last);
        let trials: HashSet<Trial> = (0..=end)
            .flat_map(|mask| trials(circuit, rule, gate, mask))
            .collect();
        Search {
            first_match,
            ways: trials.len() as u32,
        }
    }

    /// "Spent", exactly if there are more ways than the limit, whatever the
    /// search would have come to.
    fn within(self, limit: u32) -> Found {
        if self.ways > limit {
            return Found::without_mask(SPENT, limit);
        }
        match self.first_match {
            Some(mask) => Found {
                outcome: MASK,
                mask,
                ways: self.ways,
            },
            None => Found::without_mask(NONE, self.ways),
        }
    }
}

/// A left gate's index, and the bits of that gate and those behind it: masks
/// that differ in lower bits only share the trial.
type Trial = (usize, u32);

/// The trials on the way to a mask.
fn trials(circuit: &Circuit, rule: &Rule, gate: usize, mask: u32) -> impl Iterator<Item = Trial> {
    let indices = tried(circuit, rule, gate, mask);
    indices.map(move |index| (index, mask >> index))
}

/// The left gates that are tried on the way to a mask: from the last down to
/// the first whose part of the match does not hold, since that trial is not
/// followed, or else to the first of all.
fn tried(circuit: &Circuit, rule: &Rule, gate: usize, mask: u32) -> Range<usize> {
    let count = rule.left.len();
    let mut bound = root_bound(rule, gate);
    let fails = |&index: &usize| !part_holds(circuit, rule, index, mask, &mut bound);
    let end = (0..count).rev().find(fails);
    end.unwrap_or(0)..count
}
