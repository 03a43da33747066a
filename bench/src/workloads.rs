//! Workloads of growing size, the same on every run and machine.

use std::ops::Range;

use crate::plain::circuit::{
    CIRCUIT_NUMBERS, HIGHEST_LEVEL, MOST_GATES, MOST_INPUTS, MOST_OUTPUTS, STARTING,
};
use crate::plain::finding::{find_mask, Found, MASK, MOST_WAYS};
use crate::plain::gates::{AND, CLOSING, CONSTANTS, XOR};
use crate::plain::lines::{self, Line, LINE_BYTES};
use crate::plain::matching::match_site;
use crate::plain::rewriting::rewrite;
use crate::plain::rules::{
    Verdict, MOST_HOLES, MOST_RULES, MOST_SIDE_GATES, SIDE_REFERENCES, WORD_HOLES,
};
use crate::plain::sites::MOST_SITES;

/// The numbers of gates.
pub const SIZES: [usize; 4] = [MOST_GATES / 8, MOST_GATES / 4, MOST_GATES / 2, MOST_GATES];

/// A circuit, rules and sites, as tables and as texts.
pub struct Workload {
    pub name: &'static str,
    pub gates: usize,
    pub circuit: Form,
    pub rules: Form,
    pub sites: Form,
    /// Bytes for the circuit's inputs.
    pub inputs: Vec<u8>,
}

/// A table and the same as a text.
pub struct Form {
    pub table: Vec<u32>,
    pub text: Vec<u8>,
}

/// All workloads of one size.
pub fn of_size(gates: usize) -> [Workload; 6] {
    [
        random(gates),
        levels(gates),
        chain(gates),
        mismatch(gates),
        wide(gates),
        doubled(gates),
    ]
}

/// A random circuit with rules and sites of all sorts; some gates are dead.
pub fn random(gates: usize) -> Workload {
    let mut random = Random::new(gates);
    let circuit = random_circuit(&mut random, gates * MOST_INPUTS / MOST_GATES, gates);
    let rules = stock(gates * MOST_RULES / MOST_GATES);
    let sites = mixed_sites(&mut random, &circuit, &rules);
    Workload::new("random", &mut random, circuit, rules, sites)
}

/// The same with as many inputs as there may be at every size, each of which
/// has a starting line.
pub fn levels(gates: usize) -> Workload {
    let mut random = Random::new(gates);
    let mut circuit = random_circuit(&mut random, MOST_INPUTS, gates);
    let starts = (CONSTANTS..CONSTANTS + MOST_INPUTS).map(|input| {
        let level = 1 + random.below(HIGHEST_LEVEL as usize);
        [STARTING, input as u32, level as u32]
    });
    circuit.splice(1..1, starts);
    let rules = stock(gates * MOST_RULES / MOST_GATES);
    let sites = mixed_sites(&mut random, &circuit, &rules);
    Workload::new("levels", &mut random, circuit, rules, sites)
}

/// A long chain of ANDs with a rule that balances it; as many sites as
/// possible are kept.
pub fn chain(gates: usize) -> Workload {
    let mut random = Random::new(gates);
    let circuit = chain_circuit(gates);
    let rules = listed([balance()]);
    let sites = kept_sites(&circuit, &rules);
    Workload::new("chain", &mut random, circuit, rules, sites)
}

/// The same chain with sites that all get verdict 4, but only at the last of
/// the rule's gates to be tried.
pub fn mismatch(gates: usize) -> Workload {
    let mut random = Random::new(gates);
    let circuit = chain_circuit(gates);
    let sites = (0..MOST_SITES).map(|_| {
        // Any gate of the trimmed circuit but its first.
        let gate = first_gate(&circuit) + 1 + random.below(gates - 2);
        // Swapped at its last gate, the rule looks for its first gate in one
        // of the inputs.
        [1, gate as u32, 1 << 1]
    });
    let sites = sites.collect();
    Workload::new("mismatch", &mut random, circuit, listed([balance()]), sites)
}

/// Copies of a rule's left side in a row, and as many sites as there may be for
/// that one rule, of as many holes and gates as there may be: at each copy, the
/// last one first, it is kept, and in the rounds after that it no longer
/// matches.
pub fn wide(gates: usize) -> Workload {
    let mut random = Random::new(gates);
    let circuit = copies_circuit(gates);
    // The last gate, the dead ones having been trimmed away.
    let last = first_gate(&circuit) + gates - 1 - dead_gates(gates);
    let copies = (gates - dead_gates(gates)) / MOST_SIDE_GATES;
    let round = (0..copies).map(|copy| [1, (last - copy * MOST_SIDE_GATES) as u32, 0]);
    let sites = round.cycle().take(MOST_SITES).collect();
    Workload::new("wide", &mut random, circuit, listed([largest()]), sites)
}

/// A chain of ANDs, but for its end, with a rule of as many left gates as there
/// may be that has as many ways to be searched for there as there can be. All
/// but its first gate have the one before them as both operands, and so have
/// the circuit's last ones: each is followed as written and crosswise. The
/// first is a hole times itself, and the circuit's gate there has two operands:
/// it fails both ways, at the last of all pairings.
pub fn doubled(gates: usize) -> Workload {
    let mut random = Random::new(gates);
    let mut circuit = chain_circuit(gates);
    let end = first_gate(&circuit) + gates;
    let above = MOST_SIDE_GATES - 1;
    circuit.splice(1 + gates - above..1 + gates, squares(end - above..end));
    // Of one hole, and closing on it.
    let first = CONSTANTS + 1;
    let left: Vec<Line> = squares(first..first + MOST_SIDE_GATES).collect();
    let rules = listed([rule(1, &left, &[])]);
    // The last gate, the dead one having been trimmed away.
    let sites = vec![[1, end as u32 - 2, 0]];
    Workload::new("doubled", &mut random, circuit, rules, sites)
}

impl Workload {
    fn new(
        name: &'static str,
        random: &mut Random,
        circuit: Vec<Line>,
        rules: Vec<Line>,
        sites: Vec<Line>,
    ) -> Workload {
        let [inputs, gates, _] = circuit[0].map(|number| number as usize);
        Workload {
            name,
            gates,
            inputs: (0..inputs).map(|_| random.below(2) as u8).collect(),
            circuit: Form::new(&circuit),
            rules: Form::new(&rules),
            sites: Form::new(&listed(sites.into_iter().map(|site| [site]))),
        }
    }

    /// Circuit, rules and sites.
    pub fn forms(&self) -> [&Form; 3] {
        [&self.circuit, &self.rules, &self.sites]
    }

    /// A site at which a rule matches in the trimmed circuit.
    pub fn matching_site(&self) -> Line {
        let beyond = CONSTANTS + self.inputs.len() + self.gates;
        let mut sites = (0..beyond as u32).rev().map(|gate| [1, gate, 0]);
        let matches = |&[rule, gate, mask]: &Line| {
            match_site(&self.circuit.table, &self.rules.table, rule, gate, mask) == Ok(0)
        };
        sites
            .find(matches)
            .expect("the first rule matches somewhere")
    }

    /// Of the sites' rules and gates, in the trimmed circuit, those whose
    /// search takes the most ways, among such as find a mask if there are any;
    /// and the highest limit.
    pub fn longest_search(&self) -> Line {
        let sites = self.sites.table.as_chunks().0[1..].iter();
        let wanted = sites.map(|&[rule, gate, _]: &Line| [rule, gate, MOST_WAYS]);
        let length = |&wanted: &Line| {
            let found = self.found(wanted);
            (found.outcome == MASK, found.ways)
        };
        wanted.max_by_key(length).expect("there are sites")
    }

    /// What is found of a rule, at a gate, within a limit.
    pub fn found(&self, [rule, gate, limit]: Line) -> Found {
        find_mask(&self.circuit.table, &self.rules.table, rule, gate, limit)
            .expect("well-formed tables and a limit in its range")
    }
}

impl Form {
    fn new(lines: &[Line]) -> Form {
        let table = lines.concat();
        let mut text = vec![0; LINE_BYTES * lines.len()];
        lines::write(&table, &mut text).expect("small numbers and room for them");
        Form { table, text }
    }
}

/// The lines of a table whose head is a count and two zeros.
fn listed<P: IntoIterator<Item = Line>>(parts: impl IntoIterator<Item = P>) -> Vec<Line> {
    let mut lines = vec![[0; 3]];
    for part in parts {
        lines[0][0] += 1;
        lines.extend(part);
    }
    lines
}

/// The lines of a circuit.
fn circuit_of(inputs: usize, gates: Vec<Line>, outputs: Vec<usize>) -> Vec<Line> {
    let counts = [inputs, gates.len(), outputs.len()];
    let mut lines = vec![counts.map(|count| count as u32)];
    lines.extend(gates);
    lines.extend(
        outputs
            .into_iter()
            .map(|output| [CLOSING, output as u32, 0]),
    );
    lines
}

/// The reference of a circuit's first gate.
fn first_gate(circuit: &[Line]) -> usize {
    CONSTANTS + circuit[0][0] as usize
}

/// A chain of ANDs that takes the inputs in turn. Before it stands a dead gate:
/// in a largest circuit, that leaves room for one gate more on the way.
fn chain_circuit(gates: usize) -> Vec<Line> {
    let inputs = MOST_INPUTS.min(gates);
    let first = CONSTANTS + inputs;
    let dead = [XOR, 0, 0];
    let mut lines = vec![dead];
    lines.extend(chained(inputs, first + 1, |_| AND).take(gates - 1));
    circuit_of(inputs, lines, vec![first + gates - 1])
}

/// So many gates of copies in a row are dead: those that make up no copy, and
/// as many as one, so that a largest circuit has room for a right side.
fn dead_gates(gates: usize) -> usize {
    MOST_SIDE_GATES + gates % MOST_SIDE_GATES
}

/// Dead gates, and then copies of the largest rule's left side: the first hole
/// is the gate before the copy, the others are the inputs in turn.
fn copies_circuit(gates: usize) -> Vec<Line> {
    let inputs = MOST_INPUTS.min(gates);
    let first = CONSTANTS + inputs;
    let dead = [XOR, 0, 0];
    let mut lines = vec![dead; dead_gates(gates)];
    while lines.len() < gates {
        let own = first + lines.len();
        // Below the first copy there is no gate that is live.
        let before = if lines.len() == dead_gates(gates) {
            CONSTANTS
        } else {
            own - 1
        };
        let holes = (1..MOST_HOLES).map(|hole| CONSTANTS + (own + hole) % inputs);
        let names = (0..CONSTANTS).chain([before]).chain(holes).chain(own..);
        let names: Vec<usize> = names.take(SIDE_REFERENCES).collect();
        let name = |operand: u32| names[operand as usize] as u32;
        let copy = largest_left().into_iter();
        lines.extend(copy.map(|[kind, left, right]| [kind, name(left), name(right)]));
    }
    circuit_of(inputs, lines, vec![first + gates - 1])
}

/// Gates from reference `first` on, each of the one before it and the next of
/// so many inputs or holes, which come round again and again.
fn chained(inputs: usize, first: usize, kind: impl Fn(usize) -> u32) -> impl Iterator<Item = Line> {
    (0..).map(move |index| {
        let before = match index {
            0 => CONSTANTS,
            _ => first + index - 1,
        };
        let input = CONSTANTS + (index + 1) % inputs;
        [kind(index), before as u32, input as u32]
    })
}

/// Gates of such references, each of the one before it twice.
fn squares(own: Range<usize>) -> impl Iterator<Item = Line> {
    own.map(|own| [AND, own as u32 - 1, own as u32 - 1])
}

/// How far back most operands of a random circuit lie.
const NEAR: usize = 48;

/// Gates with operands mostly near, sometimes far; the outputs are gates that
/// no other uses, so that most of the circuit is live.
fn random_circuit(random: &mut Random, inputs: usize, gates: usize) -> Vec<Line> {
    let first = CONSTANTS + inputs;
    let mut used = vec![false; first + gates];
    let mut lines = Vec::new();
    for own in first..first + gates {
        let far = if random.below(4) == 0 { own } else { NEAR };
        let [left, right] = [NEAR, far].map(|reach| own - 1 - random.below(reach.min(own)));
        used[left] = true;
        used[right] = true;
        let kind = [XOR, AND][random.below(2)];
        lines.push([kind, left as u32, right as u32]);
    }
    let unused = (first..first + gates).rev().filter(|&own| !used[own]);
    let outputs = unused.take(gates * MOST_OUTPUTS / MOST_GATES).collect();
    circuit_of(inputs, lines, outputs)
}

/// (v·w)·y to v·(w·y).
fn balance() -> Vec<Line> {
    rule(3, &[[AND, 2, 3], [AND, 5, 4]], &[[AND, 3, 4], [AND, 2, 5]])
}

/// So many rules: a few of different shapes, over and over.
fn stock(count: usize) -> Vec<Line> {
    let shapes = [
        balance(),
        // (v·w)⊕(v·y) to v·(w⊕y)
        rule(
            3,
            &[[AND, 2, 3], [AND, 2, 4], [XOR, 5, 6]],
            &[[XOR, 3, 4], [AND, 2, 5]],
        ),
        // (v⊕w)·y to (v·y)⊕(w·y)
        rule(
            3,
            &[[XOR, 2, 3], [AND, 5, 4]],
            &[[AND, 2, 4], [AND, 3, 4], [XOR, 5, 6]],
        ),
        // (v⊕w)⊕y to v⊕(w⊕y)
        rule(3, &[[XOR, 2, 3], [XOR, 5, 4]], &[[XOR, 3, 4], [XOR, 2, 5]]),
        // ((v·w)⊕y)·z to (v·(w·z))⊕(y·z)
        rule(
            4,
            &[[AND, 2, 3], [XOR, 6, 4], [AND, 7, 5]],
            &[[AND, 3, 5], [AND, 2, 6], [AND, 4, 5], [XOR, 7, 8]],
        ),
        // v·w to v⊕w, not sound
        rule(2, &[[AND, 2, 3]], &[[XOR, 2, 3]]),
        // v·w to w·v
        rule(2, &[[AND, 2, 3]], &[[AND, 3, 2]]),
        mirrored(),
    ];
    listed(shapes.into_iter().cycle().take(count))
}

/// The lines of a rule that closes on its last right gate.
fn rule(holes: usize, left: &[Line], right: &[Line]) -> Vec<Line> {
    let counts = [holes, left.len(), right.len()].map(|count| count as u32);
    let closing = CONSTANTS + holes + right.len() - 1;
    [&[counts], left, right, &[[CLOSING, closing as u32, 0]]].concat()
}

/// As many holes and gates as there may be. With p the product of all holes,
/// one after another on the left, in pairs on the right, and q to v the first
/// six of them: (((((p⊕q)·r)⊕s)·t)⊕u)·v to p⊕(((((q·r)⊕s)·t)⊕u)·v).
fn largest() -> Vec<Line> {
    let first = CONSTANTS + MOST_HOLES;
    let product = first + MOST_HOLES - 2;
    let pairs = (CONSTANTS..).step_by(2).take(MOST_HOLES - 1);
    let mut right: Vec<Line> = pairs
        .map(|operand| [AND, operand as u32, operand as u32 + 1])
        .collect();
    right.extend(chained(MOST_HOLES, product + 1, alternating).take(5));
    let last = first + right.len() - 1;
    right.push([XOR, product as u32, last as u32]);
    rule(MOST_HOLES, &largest_left(), &right)
}

fn largest_left() -> Vec<Line> {
    let kind = |index| {
        if index < MOST_HOLES - 1 {
            AND
        } else {
            alternating(index)
        }
    };
    let gates = chained(MOST_HOLES, CONSTANTS + MOST_HOLES, kind);
    gates.take(MOST_SIDE_GATES).collect()
}

fn alternating(index: usize) -> u32 {
    [AND, XOR][index % 2]
}

/// As many gates as there may be, of as many holes as one word has assignments
/// for, to the same with operands exchanged.
fn mirrored() -> Vec<Line> {
    let gates = chained(WORD_HOLES, CONSTANTS + WORD_HOLES, alternating);
    let left: Vec<Line> = gates.take(MOST_SIDE_GATES).collect();
    let swapped = |&[kind, left, right]: &Line| [kind, right, left];
    let right: Vec<Line> = left.iter().map(swapped).collect();
    rule(WORD_HOLES, &left, &right)
}

/// How often a random site is drawn in search of a verdict.
const DRAWS: usize = 12;

/// Random sites; in turn a kept one, one with verdict 6 and one with another
/// is looked for.
fn mixed_sites(random: &mut Random, circuit: &[Line], rules: &[Line]) -> Vec<Line> {
    let mut growing = Growing::new(circuit, rules);
    for step in 0..MOST_SITES {
        let gates = growing.gates();
        let drawn = (0..DRAWS).map(|_| {
            let rule = 1 + random.below(rules[0][0] as usize);
            let gate = gates.start + random.below(gates.len());
            [rule, gate, random.below(4)].map(|number| number as u32)
        });
        growing.push(drawn, |verdict| match step % 3 {
            0 => verdict == 0,
            1 => verdict == 6,
            _ => (1..=5).contains(&verdict),
        });
    }
    growing.sites
}

/// Sites from the end of a chain downwards, then from its end again, as long
/// as any can be kept.
fn kept_sites(circuit: &[Line], rules: &[Line]) -> Vec<Line> {
    let mut growing = Growing::new(circuit, rules);
    let mut last = growing.gates().end;
    for _ in 0..MOST_SITES {
        let gates = growing.gates();
        let downwards = (gates.start..last).rev().chain((last..gates.end).rev());
        growing.push(downwards.map(|gate| [1, gate as u32, 0]), |verdict| {
            verdict == 0
        });
        last = growing.sites.last().map_or(last, |site| site[1] as usize);
    }
    growing.sites
}

/// A list of sites that grows with its circuit, so that each site is chosen
/// for the circuit as it then is.
struct Growing<'a> {
    circuit: Vec<u32>,
    rules: &'a [Line],
    sites: Vec<Line>,
}

impl<'a> Growing<'a> {
    fn new(circuit: &[Line], rules: &'a [Line]) -> Self {
        let mut growing = Growing {
            circuit: circuit.concat(),
            rules,
            sites: Vec::new(),
        };
        growing.circuit = growing.rewritten(&[]).0;
        growing
    }

    /// The references of the current circuit's gates.
    fn gates(&self) -> Range<usize> {
        let first = CONSTANTS + self.circuit[0] as usize;
        first..first + self.circuit[1] as usize
    }

    /// Appends the first of the choices with a wanted verdict, or the last.
    fn push(&mut self, choices: impl IntoIterator<Item = Line>, wanted: impl Fn(Verdict) -> bool) {
        let mut chosen = None;
        for site in choices {
            let (next, verdict) = self.rewritten(&[site]);
            chosen = Some((site, next));
            if wanted(verdict) {
                break;
            }
        }
        let (site, next) = chosen.expect("there is some choice");
        self.sites.push(site);
        self.circuit = next;
    }

    /// The circuit after some sites, and the first one's verdict.
    fn rewritten(&self, sites: &[Line]) -> (Vec<u32>, Verdict) {
        let sites = listed(sites.iter().map(|&site| [site])).concat();
        let [mut result, mut work] = [0; 2].map(|zero| vec![zero; CIRCUIT_NUMBERS]);
        let mut verdicts = [0; MOST_SITES];
        let rules = self.rules.concat();
        let done = rewrite(
            &self.circuit,
            &rules,
            &sites,
            &mut result,
            &mut work,
            &mut verdicts,
        );
        result.truncate(3 * done.expect("well-formed tables").lines);
        (result, verdicts[0])
    }
}

/// Pseudo-random numbers (splitmix64).
struct Random {
    state: u64,
}

impl Random {
    fn new(seed: usize) -> Random {
        Random { state: seed as u64 }
    }

    /// A number below `end`, which is at least 1.
    fn below(&mut self, end: usize) -> usize {
        self.state = self.state.wrapping_add(0x9e37_79b9_7f4a_7c15);
        let mut mixed = self.state;
        mixed = (mixed ^ mixed >> 30).wrapping_mul(0xbf58_476d_1ce4_e5b9);
        mixed = (mixed ^ mixed >> 27).wrapping_mul(0x94d0_49bb_1331_11eb);
        ((mixed ^ mixed >> 31) % end as u64) as usize
    }
}
