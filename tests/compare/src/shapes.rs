//! Circuits, rules and sites of shapes that the evaluator's generator does not draw.

use std::collections::VecDeque;

use evaluator::circuit::{Circuit, MOST_GATES, MOST_INPUTS, MOST_OUTPUTS};
use evaluator::gates::{Gate, Kind, CONSTANTS};
use evaluator::generator::{
    differing, outnumber, some_starts, spoil_starts, stock, symmetric_rule,
};
use evaluator::lines::Line;
use evaluator::random::Random;
use evaluator::rules::{assignment, rules_lines, Rule, MOST_HOLES, MOST_RULES, MOST_SIDE_GATES};
use evaluator::sites::{Site, MOST_SITES};
use evaluator::starting::{Start, HIGHEST_LEVEL};

/// So many holes have as many assignments as a word has bits, and rules of more of them are judged by several words.
const WORD_HOLES: usize = 6;

/// A circuit, rules and sites.
pub struct Draft {
    pub circuit: Circuit,
    pub rules: Vec<Rule>,
    pub sites: Vec<Site>,
}

impl Draft {
    /// The same with starting lines that give 11.
    pub fn with_wrong_starts(mut self, random: &mut Random) -> Draft {
        let (inputs, gates) = (self.circuit.inputs, self.circuit.gates.len());
        spoil_starts(random, &mut self.circuit.starts, inputs, gates);
        self
    }

    /// The circuit's lines, now and again with one more or less than its head says.
    pub fn circuit_lines(&self, random: &mut Random) -> Vec<Line> {
        let mut lines = self.circuit.lines();
        if random.chance(10) {
            let last = lines[lines.len() - 1];
            let count = random.pick(&[lines.len() - 1, lines.len() + 1]);
            lines.resize(count, last);
        }
        lines
    }

    /// The rules' lines, now and again with a rule that is said to have another number of holes.
    pub fn rules_lines(&self, random: &mut Random) -> Vec<Line> {
        let mut lines = rules_lines(&self.rules);
        if random.chance(10) {
            let before = &self.rules[..random.below(self.rules.len())];
            let head = 1 + before.iter().map(|rule| rule.lines().len()).sum::<usize>();
            let most = MOST_HOLES as usize;
            lines[head][0] = random.between(WORD_HOLES, most + 2) as u32;
        }
        lines
    }
}

/// A circuit that needs about as many registers as there can be: products that are all held before they are added up.
pub fn crowded(random: &mut Random) -> Draft {
    let inputs = random.between(1, 8);
    let first = CONSTANTS + inputs;
    let products = MOST_GATES as usize / 2 - random.below(4);
    let mut gates: Vec<Gate> = (0..products)
        .map(|_| any_gate(random, Kind::And, first))
        .collect();
    let mut sum = first;
    for product in first + 1..first + products {
        gates.push(Gate::new(Kind::Xor, sum, product));
        sum = first + gates.len() - 1;
    }
    let circuit = Circuit {
        inputs,
        starts: some_starts(random, inputs),
        gates,
        outputs: vec![sum],
    };
    with_stock(random, circuit)
}

/// A circuit that hands on many of its inputs as they are, in any order and some of them several times, beside a few gates: most of
/// the loads are before the emits.
pub fn handed_on(random: &mut Random) -> Draft {
    let inputs = random.between(1, MOST_INPUTS as usize);
    let first = CONSTANTS + inputs;
    let mut gates = any_gates(random, first);
    gates.push(any_gate(random, Kind::And, first + gates.len()));
    let end = first + gates.len();
    let count = random.between(1, MOST_OUTPUTS as usize);
    let circuit = Circuit {
        inputs,
        starts: some_starts(random, inputs),
        gates,
        outputs: (0..count).map(|_| random.below(end)).collect(),
    };
    with_stock(random, circuit)
}

/// A circuit of as many inputs, gates and outputs as there may be, all gates live, and both constants and all inputs used; in half
/// the cases with as many starting lines too.
pub fn full(random: &mut Random) -> Draft {
    let inputs = MOST_INPUTS as usize;
    let first = CONSTANTS + inputs;
    let end = first + MOST_GATES as usize;
    let kinds = random.pick(&[[Kind::And, Kind::And], [Kind::Xor, Kind::And]]);
    let mut gates = Vec::new();
    for own in first..end {
        let [last, operand] = match own - first {
            0 => [0, 1],
            index if index <= inputs => [own - 1, CONSTANTS + index - 1],
            _ => [own - 1, random.below(own)],
        };
        gates.push(Gate::new(random.pick(&kinds), last, operand));
    }
    let mut outputs = vec![end - 1];
    outputs.resize_with(MOST_OUTPUTS as usize, || random.below(end));
    let starts = if random.chance(50) {
        all_starts(random, inputs)
    } else {
        some_starts(random, inputs)
    };
    let circuit = Circuit {
        inputs,
        starts,
        gates,
        outputs,
    };
    with_stock(random, circuit)
}

/// A circuit with more starting lines than one of as many inputs as there may be can have: they give 11, however many lines that makes.
pub fn overfull(random: &mut Random) -> Draft {
    let mut draft = full(random);
    let inputs = draft.circuit.inputs;
    draft.circuit.starts = all_starts(random, inputs);
    outnumber(random, &mut draft.circuit.starts, inputs);
    draft
}

/// A starting line of any level for every input.
fn all_starts(random: &mut Random, inputs: usize) -> Vec<Start> {
    let start = |reference| Start {
        reference,
        level: random.between(1, HIGHEST_LEVEL as usize) as u32,
    };
    (CONSTANTS..CONSTANTS + inputs).map(start).collect()
}

/// The circuit with as many rules and sites as there may be, at any of its gates.
fn with_stock(random: &mut Random, circuit: Circuit) -> Draft {
    let rules: Vec<Rule> = stock()
        .into_iter()
        .cycle()
        .take(MOST_RULES as usize)
        .collect();
    let site = |_| Site {
        rule: random.between(1, rules.len()) as u32,
        gate: random.between(circuit.first_gate(), circuit.references() - 1) as u32,
        mask: random.below(4) as u32,
    };
    Draft {
        sites: (0..MOST_SITES).map(site).collect(),
        circuit,
        rules,
    }
}

/// A gate of any operands below `own`.
fn any_gate(random: &mut Random, kind: Kind, own: usize) -> Gate {
    Gate::new(kind, random.below(own), random.below(own))
}

/// A rule whose pattern is a chain of up to as many gates as there may be, a circuit with that pattern in it, and sites there.
pub fn chained(random: &mut Random) -> Draft {
    let rule = chain_rule(random, 1);
    let mask = any_mask(random, &rule);
    let (circuit, end) = planted(random, &rule, mask, 0);
    aimed(random, rule, circuit, end, mask)
}

/// The same with a rule of so many holes that several words are judged (02, 2026-07), and behind it, for each such number of holes,
/// one that is unsound on a single assignment; the word of that assignment goes round from turn to turn.
pub fn wide(random: &mut Random, turn: usize) -> Draft {
    let rule = wide_rule(random);
    let mask = any_mask(random, &rule);
    let (circuit, end) = planted(random, &rule, mask, 0);
    let mut draft = aimed(random, rule, circuit, end, mask);
    for holes in WORD_HOLES + 1..=MOST_HOLES as usize {
        let words = 1 << (holes - WORD_HOLES);
        draft.rules.push(differing_in(random, holes, turn % words));
    }
    draft
}

/// The same with a rule in stock, most of whose holes are constants in the circuit, and an AND above the pattern: such ANDs cost no
/// level as take a constant, by what they are or by what the rule makes of them (02, 2026-06).
pub fn constant(random: &mut Random) -> Draft {
    let mut rules = stock();
    let rule = rules.swap_remove(random.below(rules.len()));
    let mask = any_mask(random, &rule);
    let (mut circuit, end) = planted(random, &rule, mask, 70);
    let above = Gate::new(Kind::And, end, random.below(circuit.references()));
    if random.chance(70) {
        circuit.outputs.clear();
    }
    circuit.outputs.push(circuit.references());
    circuit.gates.push(random.pick(&[above, above.swapped()]));
    aimed(random, rule, circuit, end, mask)
}

/// The same with a pattern that has many ways to be searched; in half the cases the circuit differs from it in its first gate, so
/// that all of them are tried.
pub fn symmetric(random: &mut Random) -> Draft {
    let rule = symmetric_rule(random);
    let mask = any_mask(random, &rule);
    let (mut circuit, end) = planted(random, &rule, mask, 0);
    if random.chance(50) {
        let start = end + 1 - rule.left.len() - circuit.first_gate();
        let gate = &mut circuit.gates[start];
        gate.kind = gate.kind.other();
    }
    aimed(random, rule, circuit, end, mask)
}

/// A rule of as many holes and gates as there may be, a chain, or one that is unsound on a single assignment.
fn wide_rule(random: &mut Random) -> Rule {
    let least = WORD_HOLES + 1;
    match random.below(3) {
        0 => largest_rule(),
        1 => chain_rule(random, least),
        _ => {
            let holes = random.between(least, MOST_HOLES as usize);
            let word = random.below(1 << (holes - WORD_HOLES));
            differing_in(random, holes, word)
        }
    }
}

/// The rule in stock of the most holes, which has as many left gates as there may be.
fn largest_rule() -> Rule {
    let rules = stock().into_iter();
    rules
        .max_by_key(|rule| rule.holes)
        .expect("there are rules in stock")
}

/// A rule that is unsound on a single assignment of such a word, often its first or last.
fn differing_in(random: &mut Random, holes: usize, word: usize) -> Rule {
    loop {
        let last = (1 << WORD_HOLES) - 1;
        let any = random.between(0, last);
        let number = word << WORD_HOLES | random.pick(&[0, any, last]);
        // Where most bits are 0 there are not gates enough.
        if let Some(rule) = differing(&assignment(holes, number as u32)) {
            return rule;
        }
    }
}

fn any_mask(random: &mut Random, rule: &Rule) -> u32 {
    random.below(1 << rule.left.len()) as u32
}

/// The circuit with the rule among a few others, and sites at or near a live gate.
fn aimed(random: &mut Random, rule: Rule, circuit: Circuit, gate: usize, mask: u32) -> Draft {
    let mut rules = stock();
    let start = random.below(rules.len());
    rules.rotate_left(start);
    rules.truncate(random.below(4));
    let place = random.between(0, rules.len());
    rules.insert(place, rule);
    let site = Site {
        rule: place as u32 + 1,
        gate: trimmed_name(&circuit, gate) as u32,
        mask,
    };
    let count = random.between(1, 8);
    Draft {
        sites: (0..count).map(|_| near(random, site)).collect(),
        circuit,
        rules,
    }
}

/// From a product or sum of holes, so many at least and some of them repeated, to the balanced one without repetition; now and
/// then unsound.
fn chain_rule(random: &mut Random, least: usize) -> Rule {
    let kind = random.pick(&[Kind::Xor, Kind::And]);
    let holes = random.between(least, MOST_HOLES as usize);
    let first = CONSTANTS + holes;
    let operands = chain_operands(random, holes);
    let odd = |&hole: &usize| operands.iter().filter(|&&other| other == hole).count() % 2 == 1;
    let mut terms: VecDeque<usize> = (CONSTANTS..first)
        .filter(|hole| kind == Kind::And || odd(hole))
        .collect();
    if random.chance(20) {
        terms.pop_back();
    }
    let (right, closing) = balanced(kind, terms, first);
    Rule {
        holes,
        left: chain(random, kind, &operands, first),
        right,
        closing,
    }
}

/// Every hole at least once, in random order.
fn chain_operands(random: &mut Random, holes: usize) -> Vec<usize> {
    let count = random.between(holes.max(2), MOST_SIDE_GATES as usize + 1);
    let mut operands: Vec<usize> = (CONSTANTS..CONSTANTS + holes).collect();
    while operands.len() < count {
        let place = random.between(0, operands.len());
        operands.insert(place, random.between(CONSTANTS, CONSTANTS + holes - 1));
    }
    operands
}

/// The gates that combine the operands one after another, the first gate being reference `first`.
fn chain(random: &mut Random, kind: Kind, operands: &[usize], first: usize) -> Vec<Gate> {
    let mut combined = operands[0];
    let mut gates = Vec::new();
    for (&operand, own) in operands[1..].iter().zip(first..) {
        let gate = Gate::new(kind, combined, operand);
        gates.push(random.pick(&[gate, gate.swapped()]));
        combined = own;
    }
    gates
}

/// The gates that combine the terms in a balanced tree, and the reference of what they make.
fn balanced(kind: Kind, mut terms: VecDeque<usize>, first: usize) -> (Vec<Gate>, usize) {
    let mut gates = Vec::new();
    while terms.len() > 1 {
        let operands: Vec<usize> = terms.drain(..2).collect();
        terms.push_back(first + gates.len());
        gates.push(Gate::new(kind, operands[0], operands[1]));
    }
    (gates, terms.pop_back().unwrap_or(0))
}

/// A circuit with a rule's left side in it, crossed where the mask says so, and the reference of its last gate. So many holes of a
/// hundred are constants for certain, others now and then.
fn planted(random: &mut Random, rule: &Rule, mask: u32, constants: usize) -> (Circuit, usize) {
    let inputs = random.between(0, 8);
    let first = CONSTANTS + inputs;
    let mut gates = any_gates(random, first);
    let mut names = vec![0, 1];
    let below = first + gates.len();
    for _ in 0..rule.holes {
        let end = if random.chance(constants) {
            CONSTANTS
        } else {
            below
        };
        names.push(random.below(end));
    }
    for (index, gate) in rule.left.iter().enumerate() {
        let gate = gate.renamed(&names);
        names.push(first + gates.len());
        gates.push(if mask >> index & 1 == 1 {
            gate.swapped()
        } else {
            gate
        });
    }
    let end = first + gates.len() - 1;
    gates.extend(any_gates(random, end + 1));
    let last = first + gates.len() - 1;
    let outputs = vec![end, last, random.below(last)];
    let circuit = Circuit {
        inputs,
        starts: some_starts(random, inputs),
        gates,
        outputs,
    };
    (circuit, end)
}

/// A few gates of any kind and operands, the first of them being reference `first`.
fn any_gates(random: &mut Random, first: usize) -> Vec<Gate> {
    let count = random.between(0, 6);
    (first..first + count)
        .map(|own| {
            let kind = random.pick(&[Kind::Xor, Kind::And]);
            any_gate(random, kind, own)
        })
        .collect()
}

/// The reference of a live gate once the circuit is trimmed.
fn trimmed_name(circuit: &Circuit, gate: usize) -> usize {
    let first = circuit.first_gate();
    let live = &circuit.live()[first..gate];
    first + live.iter().filter(|&&live| live).count()
}

/// The same site, or one that differs in one number; all are short enough for a text.
fn near(random: &mut Random, site: Site) -> Site {
    let mut near = site;
    match random.below(5) {
        0 => near.mask ^= 1 << random.below(19),
        1 => near.gate = random.below(2 * near.gate as usize) as u32,
        2 => near.rule = random.below(5) as u32,
        _ => {}
    }
    near
}
