//! Whether a rule matches at a gate (01, Sites, match).

use std::collections::HashMap;

use crate::circuit::Circuit;
use crate::gates::CONSTANTS;
use crate::lines::lines_of_table;
use crate::refusal::{Answer, CIRCUIT, RULES};
use crate::rules::{checked_rules, Judge, Rule, Verdict};
use crate::sites::Site;

/// From holes and left gates of a rule to references of a circuit.
pub type Bindings = HashMap<usize, usize>;

/// The first of verdicts 1 to 4 that applies in the trimmed circuit, else 0.
pub fn match_site(
    circuit: &[u32],
    rules: &[u32],
    rule: u32,
    gate: u32,
    mask: u32,
) -> Answer<Verdict> {
    let (circuit, rules) = trimmed_and_rules(circuit, rules)?;
    let site = Site { rule, gate, mask };
    let verdict = matched(&circuit, &Judge::of(&rules), site).err();
    Ok(verdict.unwrap_or(0))
}

/// The trimmed circuit and the rules of two tables, tested for 1 of both, then
/// for the other refusals of the circuit, then for those of the rules.
pub fn trimmed_and_rules(circuit: &[u32], rules: &[u32]) -> Answer<(Circuit, Vec<Rule>)> {
    let circuit_lines = lines_of_table(circuit, CIRCUIT)?;
    let rules_lines = lines_of_table(rules, RULES)?;
    let circuit = Circuit::checked(&circuit_lines)?.trimmed();
    Ok((circuit, checked_rules(&rules_lines)?))
}

/// The site's rule with its bindings, or the first of verdicts 1 to 4.
pub fn matched<'a>(
    circuit: &Circuit,
    judge: &Judge<'a>,
    site: Site,
) -> Result<(&'a Rule, Bindings), Verdict> {
    let rule = judged_at(circuit, judge, site.rule, site.gate)?;
    let bindings = bindings(circuit, rule, site.gate as usize, site.mask).ok_or(4)?;
    Ok((rule, bindings))
}

/// The rule of that number, if it is sound and the reference is a gate, or the
/// first of verdicts 1 to 3.
pub fn judged_at<'a>(
    circuit: &Circuit,
    judge: &Judge<'a>,
    rule: u32,
    gate: u32,
) -> Result<&'a Rule, Verdict> {
    let rule = judge.judged(rule)?;
    circuit.gate(gate as usize).ok_or(3)?;
    Ok(rule)
}

/// The bindings of a match; none if there is no match or the mask has a bit
/// beyond the left gates.
pub fn bindings(circuit: &Circuit, rule: &Rule, gate: usize, mask: u32) -> Option<Bindings> {
    if mask >> rule.left.len() != 0 {
        return None;
    }
    let mut bound = root_bound(rule, gate);
    let mut indices = (0..rule.left.len()).rev();
    let matches = indices.all(|index| part_holds(circuit, rule, index, mask, &mut bound));
    matches.then_some(bound)
}

/// "The last left gate is bound to the site's gate."
pub fn root_bound(rule: &Rule, gate: usize) -> Bindings {
    let last = rule.first_gate() + rule.left.len() - 1;
    Bindings::from([(last, gate)])
}

/// Whether one left gate's part of the match holds, given the bindings that
/// the parts of the gates behind it made; makes its own.
pub fn part_holds(
    circuit: &Circuit,
    rule: &Rule,
    index: usize,
    mask: u32,
    bound: &mut Bindings,
) -> bool {
    let pattern = rule.left[index];
    let Some(found) = circuit.gate(bound[&(rule.first_gate() + index)]) else {
        return false;
    };
    let crosswise = mask >> index & 1 == 1;
    let target = if crosswise { found.swapped() } else { found };
    pattern.kind == target.kind
        && pairs(bound, pattern.left, target.left)
        && pairs(bound, pattern.right, target.right)
}

/// Pairs a rule's operand with a circuit's: a constant needs the same
/// constant, the unbound becomes bound, the bound needs the same reference.
fn pairs(bound: &mut Bindings, operand: usize, reference: usize) -> bool {
    if operand < CONSTANTS {
        return operand == reference;
    }
    *bound.entry(operand).or_insert(reference) == reference
}
