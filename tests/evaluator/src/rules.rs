//! Rules, their checks and the judge (01, Rules).

use std::cell::OnceCell;

use crate::gates::{closing_line, closing_of, gates_of, references_hold, values, Gate, CONSTANTS};
use crate::lines::{lines_of_table, Line};
use crate::lists::{list_count, list_lines};
use crate::refusal::{refuse_if, Answer, Refusal, RULES};

pub const MOST_RULES: u32 = 64;
/// 02, 2026-07; they were six in 01.
pub const MOST_HOLES: u32 = 10;
pub const MOST_SIDE_GATES: u32 = 15;

/// What is said of a site: 0 kept, or the first of 1 to 6 that applies.
pub type Verdict = u8;

#[derive(Clone, Debug, PartialEq, Eq)]
pub struct Rule {
    pub holes: usize,
    pub left: Vec<Gate>,
    pub right: Vec<Gate>,
    pub closing: usize,
}

/// Judges a rule of a table: verdict 1 or 2, else 0.
pub fn judge(rules: &[u32], rule: u32) -> Answer<Verdict> {
    let rules = checked_rules(&lines_of_table(rules, RULES)?)?;
    Ok(Judge::of(&rules).judged(rule).err().unwrap_or(0))
}

/// Rules that are judged when they are first asked for, and not again: what is
/// said of a rule depends on no circuit.
pub struct Judge<'a> {
    pub rules: &'a [Rule],
    sound: Vec<OnceCell<bool>>,
}

impl<'a> Judge<'a> {
    pub fn of(rules: &'a [Rule]) -> Judge<'a> {
        Judge {
            rules,
            sound: vec![OnceCell::new(); rules.len()],
        }
    }

    /// The rule of that number if it is there and sound, else verdict 1 or 2.
    pub fn judged(&self, number: u32) -> Result<&'a Rule, Verdict> {
        let index = (number as usize).checked_sub(1).ok_or(1)?;
        let rule = self.rules.get(index).ok_or(1)?;
        if *self.sound[index].get_or_init(|| rule.is_sound()) {
            Ok(rule)
        } else {
            Err(2)
        }
    }
}

impl Rule {
    /// The reference of the first gate of either side.
    pub fn first_gate(&self) -> usize {
        CONSTANTS + self.holes
    }

    /// 01, Rules: the sides agree on all assignments, which are tried one by
    /// one, 1,024 of them if there are ten holes (02, 2026-07).
    pub fn is_sound(&self) -> bool {
        self.assignments().all(|bits| self.agrees_on(&bits))
    }

    /// Every assignment of bits to the holes.
    pub fn assignments(&self) -> impl Iterator<Item = Vec<bool>> {
        let holes = self.holes;
        (0..1u32 << holes).map(move |number| assignment(holes, number))
    }

    /// The left side's last gate and the right side's closing reference have
    /// the same bit.
    pub fn agrees_on(&self, bits: &[bool]) -> bool {
        let left = values(bits, &self.left);
        let right = values(bits, &self.right);
        left.last() == right.get(self.closing)
    }

    pub fn lines(&self) -> Vec<Line> {
        let counts = [self.holes, self.left.len(), self.right.len()];
        let mut lines = vec![counts.map(|count| count as u32)];
        lines.extend(self.left.iter().chain(&self.right).map(|gate| gate.line()));
        lines.push(closing_line(self.closing));
        lines
    }

    /// 01, Refusals, 7, for one rule.
    fn references_hold(&self) -> bool {
        references_hold(self.holes, &self.left, &[])
            && references_hold(self.holes, &self.right, &[self.closing])
    }

    /// 01, Rules: every hole and every left gate but the last is an operand on
    /// the left side (operands being below their gates, of a later gate).
    fn uses_all(&self) -> bool {
        let last = self.first_gate() + self.left.len() - 1;
        (CONSTANTS..last).all(|reference| {
            self.left
                .iter()
                .any(|gate| gate.operands().contains(&reference))
        })
    }
}

/// The assignment in which hole i has bit i of a number.
pub fn assignment(holes: usize, number: u32) -> Vec<bool> {
    (0..holes).map(|hole| number >> hole & 1 == 1).collect()
}

/// The lines of a rules table.
pub fn rules_lines(rules: &[Rule]) -> Vec<Line> {
    list_lines(rules.iter().map(Rule::lines))
}

/// The rules of a table's lines, tested for 4 and 5 in one walk, then 6, 7, 8.
pub fn checked_rules(lines: &[Line]) -> Answer<Vec<Rule>> {
    let parts = walk(lines)?;
    let rules: Option<Vec<Rule>> = parts.iter().map(RuleLines::rule).collect();
    let rules = rules.ok_or(Refusal::new(6, RULES))?;
    refuse_if(!rules.iter().all(Rule::references_hold), 7, RULES)?;
    refuse_if(!rules.iter().all(Rule::uses_all), 8, RULES)?;
    Ok(rules)
}

/// The lines of one rule.
struct RuleLines<'a> {
    holes: u32,
    left: &'a [Line],
    right: &'a [Line],
    closing: &'a Line,
}

impl RuleLines<'_> {
    /// The rule, if its gate lines and its closing line are such.
    fn rule(&self) -> Option<Rule> {
        Some(Rule {
            holes: self.holes as usize,
            left: gates_of(self.left)?,
            right: gates_of(self.right)?,
            closing: closing_of(self.closing)?,
        })
    }
}

/// 01, Refusals, 5: one walk from the top for 4 and 5.
fn walk(lines: &[Line]) -> Answer<Vec<RuleLines<'_>>> {
    let count = list_count(lines, MOST_RULES, RULES)?;
    let mut rest = &lines[1..];
    let mut parts = Vec::new();
    for _ in 0..count {
        let (part, after) = take_rule(rest)?;
        parts.push(part);
        rest = after;
    }
    refuse_if(!rest.is_empty(), 5, RULES)?;
    Ok(parts)
}

/// The next rule's lines and those after it.
fn take_rule(lines: &[Line]) -> Answer<(RuleLines<'_>, &[Line])> {
    let (&[holes, left, right], body) = lines.split_first().ok_or(Refusal::new(5, RULES))?;
    let outside =
        holes > MOST_HOLES || !(1..=MOST_SIDE_GATES).contains(&left) || right > MOST_SIDE_GATES;
    refuse_if(outside, 4, RULES)?;
    let (left, right) = (left as usize, right as usize);
    refuse_if(body.len() < left + right + 1, 5, RULES)?;
    let part = RuleLines {
        holes,
        left: &body[..left],
        right: &body[left..left + right],
        closing: &body[left + right],
    };
    Ok((part, &body[left + right + 1..]))
}
