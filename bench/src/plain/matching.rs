//! Whether a rule matches at a gate.

use super::circuit::{Circuit, MOST_REFERENCES};
use super::lines::{lines_of, Line};
use super::refusal::{Answer, CIRCUIT, RULES};
use super::rules::{Rule, Rules, Verdict, SIDE_REFERENCES};

/// The circuit's reference for each reference of a rule's left side.
pub type Bindings = [u32; SIDE_REFERENCES];

/// What no reference is.
const UNBOUND: u32 = u32::MAX;

/// The first of verdicts 1 to 4 that applies in the trimmed circuit, else 0.
pub fn match_site(
    circuit: &[u32],
    rules: &[u32],
    rule: u32,
    gate: u32,
    mask: u32,
) -> Answer<Verdict> {
    let (circuit, rules) = checked(circuit, rules)?;
    let found = matched(circuit, &rules, [rule, gate, mask]);
    Ok(found.err().unwrap_or(0))
}

/// The circuit and the rules of two tables: 1 for both before the others.
pub fn checked<'a>(circuit: &'a [u32], rules: &'a [u32]) -> Answer<(Circuit<'a>, Rules<'a>)> {
    let circuit = lines_of(circuit, CIRCUIT)?;
    let rules = lines_of(rules, RULES)?;
    Ok((Circuit::checked(circuit)?, Rules::checked(rules)?))
}

fn matched(circuit: Circuit, rules: &Rules, [rule, gate, mask]: Line) -> Result<Bindings, Verdict> {
    let (rule, gate) = judged_at(circuit, rules, rule, gate)?;
    bind(circuit.gates, circuit.first_gate(), rule, gate, mask).ok_or(4)
}

/// The rule of a number and the reference that a gate of the trimmed circuit
/// has before trimming, or the first of verdicts 1 to 3.
pub fn judged_at<'a>(
    circuit: Circuit,
    rules: &Rules<'a>,
    rule: u32,
    gate: u32,
) -> Result<(Rule<'a>, usize), Verdict> {
    let rule = rules.rule(rules.index_of(rule).ok_or(1)?);
    if !rule.is_sound() {
        return Err(2);
    }
    Ok((rule, untrimmed(circuit, gate as usize).ok_or(3)?))
}

/// The reference that a gate of the trimmed circuit has before trimming. A
/// match there is one in the trimmed circuit too, which is thus never made.
fn untrimmed(circuit: Circuit, gate: usize) -> Option<usize> {
    let first = circuit.first_gate();
    let live = live_references(circuit);
    let mut live_gates = (first..first + circuit.gates.len()).filter(|&own| live[own]);
    live_gates.nth(gate.checked_sub(first)?)
}

fn live_references(circuit: Circuit) -> [bool; MOST_REFERENCES] {
    let mut live = [false; MOST_REFERENCES];
    for output in circuit.outputs() {
        live[output] = true;
    }
    let first = circuit.first_gate();
    for (index, &[_, left, right]) in circuit.gates.iter().enumerate().rev() {
        if live[first + index] {
            live[left as usize] = true;
            live[right as usize] = true;
        }
    }
    live
}

/// Matches a rule's left side at a gate; none if it does not match, or the
/// mask has a bit beyond the left gates. The first of `gates` is `first`.
pub fn bind(gates: &[Line], first: usize, rule: Rule, gate: usize, mask: u32) -> Option<Bindings> {
    if mask >> rule.left.len() != 0 {
        return None;
    }
    let mut bound = root_bound(rule, gate);
    for index in (0..rule.left.len()).rev() {
        if !bind_part(gates, first, rule, index, mask, &mut bound) {
            return None;
        }
    }
    Some(bound)
}

/// The bindings before any part of a match: the last left gate's only.
pub fn root_bound(rule: Rule, gate: usize) -> Bindings {
    let mut bound = [UNBOUND; SIDE_REFERENCES];
    // A constant needs the same constant, as if it were bound to it.
    bound[0] = 0;
    bound[1] = 1;
    bound[rule.first_gate() + rule.left.len() - 1] = gate as u32;
    bound
}

/// Binds what one left gate's part of the match binds; false if it does not
/// hold.
#[inline]
pub fn bind_part(
    gates: &[Line],
    first: usize,
    rule: Rule,
    index: usize,
    mask: u32,
    bound: &mut Bindings,
) -> bool {
    let [kind, left, right] = rule.left[index];
    let target = bound[rule.first_gate() + index] as usize;
    // What lies below the first gate wraps round to beyond the last.
    let Some(&[found, a, b]) = gates.get(target.wrapping_sub(first)) else {
        return false;
    };
    let (a, b) = if mask >> index & 1 == 1 {
        (b, a)
    } else {
        (a, b)
    };
    found == kind && pair(bound, left, a) && pair(bound, right, b)
}

/// Pairs a rule's operand with a circuit's: the unbound becomes bound, the
/// bound needs the same reference.
fn pair(bound: &mut Bindings, operand: u32, reference: u32) -> bool {
    let binding = &mut bound[operand as usize];
    if *binding == UNBOUND {
        *binding = reference;
    }
    *binding == reference
}
