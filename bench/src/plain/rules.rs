//! Rules in tables, and the judge.

use super::gates::{work_out, Faults, CONSTANTS};
use super::lines::{lines_of, Line};
use super::refusal::{require, Answer, Refusal, RULES};

pub const MOST_RULES: usize = 64;
pub const MOST_HOLES: usize = 10;
pub const MOST_SIDE_GATES: usize = 15;
pub const MOST_RULE_LINES: usize = 1 + MOST_RULES * (2 + 2 * MOST_SIDE_GATES);
/// References of a side with as many holes and gates as there may be.
pub const SIDE_REFERENCES: usize = CONSTANTS + MOST_HOLES + MOST_SIDE_GATES;

/// What is said of a site: 0 kept, or the first of 1 to 6 that applies.
pub type Verdict = u8;

/// So many holes have as many assignments as a word has bits.
pub const WORD_HOLES: usize = 6;

/// The constants and the first holes under all 64 assignments of these, one to
/// each bit.
const ASSIGNMENTS: [u64; CONSTANTS + WORD_HOLES] = [
    0,
    !0,
    0xaaaa_aaaa_aaaa_aaaa,
    0xcccc_cccc_cccc_cccc,
    0xf0f0_f0f0_f0f0_f0f0,
    0xff00_ff00_ff00_ff00,
    0xffff_0000_ffff_0000,
    0xffff_ffff_0000_0000,
];

/// Judges a rule of a table: verdict 1 or 2, else 0.
pub fn judge(rules: &[u32], rule: u32) -> Answer<Verdict> {
    let rules = Rules::checked(lines_of(rules, RULES)?)?;
    Ok(match rules.index_of(rule) {
        None => 1,
        Some(index) if rules.rule(index).is_sound() => 0,
        Some(_) => 2,
    })
}

/// Well-formed rules, left where they lie, with the line of each rule's head.
pub struct Rules<'a> {
    lines: &'a [Line],
    heads: [usize; MOST_RULES],
    count: usize,
}

/// One of the rules.
#[derive(Clone, Copy)]
pub struct Rule<'a> {
    pub holes: usize,
    pub left: &'a [Line],
    pub right: &'a [Line],
    closing: &'a Line,
}

impl<'a> Rules<'a> {
    /// The rules of a table's lines: 4 and 5 in one walk from the top, and on
    /// the same walk what there is of 6 to 8.
    pub fn checked(lines: &'a [Line]) -> Answer<Self> {
        let count = list_count(lines, MOST_RULES, RULES)?;
        let mut heads = [0; MOST_RULES];
        let mut faults = Faults::default();
        let mut place = 1;
        for head in &mut heads[..count] {
            let (rule, size) = Rule::walked(&lines[place..])?;
            rule.note_faults(&mut faults);
            *head = place;
            place += size;
        }
        require(place == lines.len(), 5, RULES)?;
        faults.refuse(RULES)?;
        Ok(Rules {
            lines,
            heads,
            count,
        })
    }

    /// The index of a rule's number, if there is such a rule.
    pub fn index_of(&self, number: u32) -> Option<usize> {
        let index = (number as usize).checked_sub(1)?;
        (index < self.count).then_some(index)
    }

    pub fn rule(&self, index: usize) -> Rule<'a> {
        let (head, body) = (
            self.lines[self.heads[index]],
            &self.lines[self.heads[index] + 1..],
        );
        Rule::of(head.map(|number| number as usize), body)
    }
}

impl<'a> Rule<'a> {
    fn of([holes, left, right]: [usize; 3], body: &'a [Line]) -> Self {
        Rule {
            holes,
            left: &body[..left],
            right: &body[left..left + right],
            closing: &body[left + right],
        }
    }

    /// The rule at the top of the lines, tested for 4 and 5, and how many of
    /// the lines are its own.
    fn walked(lines: &'a [Line]) -> Answer<(Self, usize)> {
        let (head, body) = lines.split_first().ok_or(Refusal {
            number: 5,
            table: RULES,
        })?;
        let [holes, left, right] = head.map(|number| number as usize);
        let within = holes <= MOST_HOLES
            && (1..=MOST_SIDE_GATES).contains(&left)
            && right <= MOST_SIDE_GATES;
        require(within, 4, RULES)?;
        let own = left + right + 1;
        require(body.len() >= own, 5, RULES)?;
        Ok((Rule::of([holes, left, right], body), 1 + own))
    }

    fn note_faults(&self, faults: &mut Faults) {
        faults.note_gates(self.left, self.first_gate());
        faults.note_gates(self.right, self.first_gate());
        faults.note_closing(self.closing, self.first_gate() + self.right.len());
        faults.note_idle(self.has_idle());
    }

    /// Whether a hole or a left gate but the last is no operand on the left.
    fn has_idle(&self) -> bool {
        let bit = |operand| 1_u32.checked_shl(operand).unwrap_or(0);
        let used = self
            .left
            .iter()
            .fold(0, |used, &[_, left, right]| used | bit(left) | bit(right));
        let last = self.first_gate() + self.left.len() - 1;
        let owed = (1 << last) - (1 << CONSTANTS);
        used & owed != owed
    }

    /// The reference of the first gate of either side.
    pub fn first_gate(&self) -> usize {
        CONSTANTS + self.holes
    }

    /// The right side's reference.
    pub fn closing(&self) -> usize {
        self.closing[1] as usize
    }

    /// Whether the sides agree on all assignments, word by word; the first that
    /// differs settles it.
    pub fn is_sound(&self) -> bool {
        let mut values = [0; SIDE_REFERENCES];
        values[..ASSIGNMENTS.len()].copy_from_slice(&ASSIGNMENTS);
        let words = 1 << self.holes.saturating_sub(WORD_HOLES);
        (0..words).all(|word| self.agrees_in(word, &mut values))
    }

    /// Whether both sides agree on the assignments of a word: in it the holes
    /// beyond the first six have the bits of its number. Holes that the rule
    /// lacks only repeat the others' assignments. The sides are worked out in
    /// the same place, one after the other: neither reads the other's gates.
    fn agrees_in(&self, word: u64, values: &mut [u64; SIDE_REFERENCES]) -> bool {
        for hole in WORD_HOLES..self.holes {
            let bit = word >> (hole - WORD_HOLES) & 1;
            values[CONSTANTS + hole] = bit.wrapping_neg();
        }
        let first = self.first_gate();
        work_out(self.left, first, values);
        let left = values[first + self.left.len() - 1];
        work_out(self.right, first, values);
        left == values[self.closing()]
    }
}

/// The count of a head that is a count and two zeros, tested for refusal 4.
pub fn list_count(lines: &[Line], most: usize, table: u32) -> Answer<usize> {
    let [count, second, third] = lines[0];
    let within = count as usize <= most && second == 0 && third == 0;
    require(within, 4, table)?;
    Ok(count as usize)
}
