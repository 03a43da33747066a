//! Circuits for random cases, with left sides of rules planted in them.

use super::rules::sometimes_swapped;
use super::starts::some_starts;
use crate::circuit::{Circuit, MOST_GATES, MOST_INPUTS, MOST_OUTPUTS};
use crate::gates::{Gate, Kind, CONSTANTS};
use crate::random::Random;
use crate::rules::Rule;

/// A circuit of up to about thirty gates, in half the cases with dead ones.
pub fn small(random: &mut Random, rules: &[Rule]) -> Circuit {
    let inputs = random.pick(&[0, 1, 1, 2, 2, 3, 4, 5, 6, 8]);
    let wanted = random.between(0, 25);
    let mut growing = Growing::new(inputs, random.chance(50));
    while growing.gates.len() < wanted {
        if !rules.is_empty() && random.chance(60) {
            let rule = random.below(rules.len());
            growing.plant(random, &rules[rule]);
        } else {
            growing.random_gate(random);
        }
    }
    let outputs = random.pick(&[1, 1, 1, 2, 3, 5]);
    growing.closed(random, outputs)
}

/// A circuit of nearly as many gates as there may be, all of them live.
pub fn large(random: &mut Random, rules: &[Rule]) -> Circuit {
    let inputs = random.pick(&[3, 40, MOST_INPUTS as usize]);
    let most = MOST_GATES as usize;
    let fewer = random.between(most - 13, most);
    let wanted = random.pick(&[fewer, most]);
    let mut growing = Growing::new(inputs, true);
    while growing.gates.len() < wanted {
        let rule = &rules[random.below(rules.len())];
        let fits = growing.gates.len() + rule.left.len() <= wanted;
        if fits && rule.holes > 0 && random.chance(30) {
            growing.plant(random, rule);
        } else {
            growing.random_gate(random);
        }
    }
    let outputs = random.pick(&[1, 7, MOST_OUTPUTS as usize]);
    growing.closed(random, outputs)
}

/// A circuit without its outputs yet.
struct Growing {
    inputs: usize,
    gates: Vec<Gate>,
    /// Whether what is added must use the last reference, so that all gates
    /// are live once the last is an output.
    chained: bool,
}

impl Growing {
    fn new(inputs: usize, chained: bool) -> Growing {
        Growing {
            inputs,
            gates: Vec::new(),
            chained,
        }
    }

    /// The reference that the next gate gets.
    fn next(&self) -> usize {
        CONSTANTS + self.inputs + self.gates.len()
    }

    /// Some reference, more often a late one than an early one; now and then a
    /// constant, in large circuits too: by it an AND costs no level (02,
    /// 2026-06).
    fn some_reference(&self, random: &mut Random) -> usize {
        let recent = self.next().min(5);
        if random.chance(10) {
            random.below(CONSTANTS)
        } else if random.chance(50) {
            self.next() - 1 - random.below(recent)
        } else {
            random.below(self.next())
        }
    }

    /// The first operand of what is added.
    fn first_operand(&self, random: &mut Random) -> usize {
        if self.chained {
            self.next() - 1
        } else {
            self.some_reference(random)
        }
    }

    fn random_gate(&mut self, random: &mut Random) {
        let kind = random.pick(&[Kind::Xor, Kind::And, Kind::And]);
        let gate = Gate::new(
            kind,
            self.first_operand(random),
            self.some_reference(random),
        );
        self.gates.push(sometimes_swapped(random, gate));
    }

    /// Adds a rule's left side on some references, with operands exchanged
    /// here and there; now and then with a first gate of the other kind, at
    /// which a match fails last of all.
    fn plant(&mut self, random: &mut Random, rule: &Rule) {
        let mut names = vec![0, 1];
        for hole in 0..rule.holes {
            names.push(match hole {
                0 => self.first_operand(random),
                _ => self.some_reference(random),
            });
        }
        let start = self.gates.len();
        for gate in &rule.left {
            names.push(self.next());
            let planted = gate.renamed(&names);
            self.gates.push(sometimes_swapped(random, planted));
        }
        if random.chance(10) {
            self.gates[start].kind = self.gates[start].kind.other();
        }
    }

    /// The circuit with so many outputs, the last reference among them.
    fn closed(self, random: &mut Random, outputs: usize) -> Circuit {
        let mut references = vec![self.next() - 1];
        while references.len() < outputs {
            references.push(self.some_reference(random));
        }
        let place = random.below(outputs);
        references.swap(0, place);
        Circuit {
            inputs: self.inputs,
            starts: some_starts(random, self.inputs),
            gates: self.gates,
            outputs: references,
        }
    }
}
