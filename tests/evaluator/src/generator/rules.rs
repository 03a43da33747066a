//! Rules for random cases: sound, unsound, and unsound by one assignment.

use crate::gates::{Gate, Kind, CONSTANTS};
use crate::random::Random;
use crate::rules::{assignment, Rule, MOST_HOLES, MOST_SIDE_GATES};

const X: Kind = Kind::Xor;
const A: Kind = Kind::And;

type Side = &'static [(Kind, usize, usize)];

/// Sound rules: holes, left gates, right gates, closing reference.
const STOCK: [(usize, Side, Side, usize); 21] = [
    // ((v·w)·y)·z to (v·w)·(y·z)
    (
        4,
        &[(A, 2, 3), (A, 6, 4), (A, 7, 5)],
        &[(A, 2, 3), (A, 4, 5), (A, 6, 7)],
        8,
    ),
    // ((v·w)·y)·z to ((v·w)·z)·((w⊕z)⊕y)
    (
        4,
        &[(A, 2, 3), (A, 6, 4), (A, 7, 5)],
        &[(A, 2, 3), (A, 6, 5), (X, 3, 5), (X, 8, 4), (A, 7, 9)],
        10,
    ),
    // ((v·w)⊕y)·z to (v·(w·z))⊕(y·z)
    (
        4,
        &[(A, 2, 3), (X, 6, 4), (A, 7, 5)],
        &[(A, 3, 5), (A, 2, 6), (A, 4, 5), (X, 7, 8)],
        9,
    ),
    // ((((u·v)·w)·x)·y)·z to ((u·v)·w)·((x·y)·z)
    (
        6,
        &[(A, 2, 3), (A, 8, 4), (A, 9, 5), (A, 10, 6), (A, 11, 7)],
        &[(A, 2, 3), (A, 8, 4), (A, 5, 6), (A, 10, 7), (A, 9, 11)],
        12,
    ),
    // (((((((r·s)·t)·u)·v)·w)·x)·y)·z to ((r·s)·(t·u))·(((v·w)·(x·y))·z)
    (
        9,
        &[
            (A, 2, 3),
            (A, 11, 4),
            (A, 12, 5),
            (A, 13, 6),
            (A, 14, 7),
            (A, 15, 8),
            (A, 16, 9),
            (A, 17, 10),
        ],
        &[
            (A, 2, 3),
            (A, 4, 5),
            (A, 6, 7),
            (A, 8, 9),
            (A, 11, 12),
            (A, 13, 14),
            (A, 16, 10),
            (A, 15, 17),
        ],
        18,
    ),
    // With p the product of all ten holes, one after another on the left, in
    // pairs on the right: (((((p⊕q)·r)⊕s)·t)⊕u)·v to p⊕(((((q·r)⊕s)·t)⊕u)·v)
    (
        10,
        &[
            (A, 2, 3),
            (A, 12, 4),
            (A, 13, 5),
            (A, 14, 6),
            (A, 15, 7),
            (A, 16, 8),
            (A, 17, 9),
            (A, 18, 10),
            (A, 19, 11),
            (X, 20, 2),
            (A, 21, 3),
            (X, 22, 4),
            (A, 23, 5),
            (X, 24, 6),
            (A, 25, 7),
        ],
        &[
            (A, 2, 3),
            (A, 4, 5),
            (A, 6, 7),
            (A, 8, 9),
            (A, 10, 11),
            (A, 12, 13),
            (A, 14, 15),
            (A, 16, 17),
            (A, 18, 19),
            (A, 2, 3),
            (X, 21, 4),
            (A, 22, 5),
            (X, 23, 6),
            (A, 24, 7),
            (X, 20, 25),
        ],
        26,
    ),
    // (v·w)⊕(v·y) to v·(w⊕y)
    (
        3,
        &[(A, 2, 3), (A, 2, 4), (X, 5, 6)],
        &[(X, 3, 4), (A, 2, 5)],
        6,
    ),
    // (v⊕w)·y to (v·y)⊕(w·y), which gains where v and w are constants
    (
        3,
        &[(X, 2, 3), (A, 5, 4)],
        &[(A, 2, 4), (A, 3, 4), (X, 5, 6)],
        7,
    ),
    // (v·w)·(v·y) to v·(w·y)
    (
        3,
        &[(A, 2, 3), (A, 2, 4), (A, 5, 6)],
        &[(A, 3, 4), (A, 2, 5)],
        6,
    ),
    // (v·w)⊕v to v·(w⊕1)
    (2, &[(A, 2, 3), (X, 4, 2)], &[(X, 3, 1), (A, 2, 4)], 5),
    // v·(v·w) to v·w
    (2, &[(A, 2, 3), (A, 2, 4)], &[(A, 2, 3)], 4),
    // (v⊕w)⊕w to v
    (2, &[(X, 2, 3), (X, 4, 3)], &[], 2),
    // v·w to w·v
    (2, &[(A, 2, 3)], &[(A, 3, 2)], 4),
    // v·(v⊕1) to 0
    (1, &[(X, 2, 1), (A, 2, 3)], &[], 0),
    // v·v to v
    (1, &[(A, 2, 2)], &[], 2),
    // v·v to v·1
    (1, &[(A, 2, 2)], &[(A, 2, 1)], 3),
    // v·1 to v
    (1, &[(A, 2, 1)], &[], 2),
    // v·0 to 0
    (1, &[(A, 2, 0)], &[], 0),
    // v⊕v to 0
    (1, &[(X, 2, 2)], &[], 0),
    // v⊕0 to v
    (1, &[(X, 2, 0)], &[], 2),
    // 1·1 to 1
    (0, &[(A, 1, 1)], &[], 1),
];

/// All sound rules in stock.
pub fn stock() -> Vec<Rule> {
    let gates = |side: Side| {
        side.iter()
            .map(|&(kind, left, right)| Gate::new(kind, left, right))
            .collect()
    };
    STOCK
        .iter()
        .map(|&(holes, left, right, closing)| Rule {
            holes,
            left: gates(left),
            right: gates(right),
            closing,
        })
        .collect()
}

/// So many rules of all sorts.
pub fn mixture(random: &mut Random, count: usize) -> Vec<Rule> {
    (0..count).map(|_| any_rule(random)).collect()
}

fn any_rule(random: &mut Random) -> Rule {
    match random.below(21) {
        0..=8 => stock_variant(random),
        9..=11 => spoiled_variant(random),
        12 => differing_rule(random),
        13..=14 => random_rule(random),
        15..=16 => mirrored_rule(random),
        17 => symmetric_rule(random),
        _ => padded_variant(random),
    }
}

/// A rule in stock, its operands and holes in another order.
fn stock_variant(random: &mut Random) -> Rule {
    variant(random, &stock())
}

/// One of the rules, its operands and holes in another order.
fn variant(random: &mut Random, rules: &[Rule]) -> Rule {
    let rule = &rules[random.below(rules.len())];
    let mixed = with_operands_mixed(random, rule);
    with_holes_mixed(random, &mixed)
}

fn with_operands_mixed(random: &mut Random, rule: &Rule) -> Rule {
    let mut mixed = rule.clone();
    for gate in mixed.left.iter_mut().chain(&mut mixed.right) {
        *gate = sometimes_swapped(random, *gate);
    }
    mixed
}

/// The gate, now and then with its operands exchanged.
pub fn sometimes_swapped(random: &mut Random, gate: Gate) -> Gate {
    if random.chance(30) {
        gate.swapped()
    } else {
        gate
    }
}

/// The rule with two holes exchanged throughout.
fn with_holes_mixed(random: &mut Random, rule: &Rule) -> Rule {
    let most = rule.first_gate() + rule.left.len().max(rule.right.len());
    let mut names: Vec<usize> = (0..most).collect();
    if rule.holes > 0 {
        let mut hole = || random.between(CONSTANTS, rule.first_gate() - 1);
        names.swap(hole(), hole());
    }
    renamed(rule, rule.holes, &names, &names)
}

/// The rule with that many holes and its references renamed side by side.
pub fn renamed(rule: &Rule, holes: usize, left: &[usize], right: &[usize]) -> Rule {
    Rule {
        holes,
        left: rule.left.iter().map(|gate| gate.renamed(left)).collect(),
        right: rule.right.iter().map(|gate| gate.renamed(right)).collect(),
        closing: right[rule.closing],
    }
}

/// A hole of a side and the bit that it is to have.
type Literal = (usize, bool);

/// The holes of an assignment with their bits.
fn literals(bits: &[bool]) -> Vec<Literal> {
    (CONSTANTS..).zip(bits.iter().copied()).collect()
}

/// Gates, the first of reference `first`, for the product that is 1 exactly if
/// the holes have those bits, and its reference (1 if there are no holes).
fn product(literals: &[Literal], first: usize) -> (Vec<Gate>, usize) {
    let mut gates = Vec::new();
    let mut append = |gate| {
        gates.push(gate);
        first + gates.len() - 1
    };
    let mut product = None;
    for &(hole, bit) in literals {
        let factor = if bit {
            hole
        } else {
            append(Gate::new(X, hole, 1))
        };
        product = Some(product.map_or(factor, |before| append(Gate::new(A, factor, before))));
    }
    (gates, product.unwrap_or(1))
}

/// A sound rule made unsound on exactly one assignment; none if that takes
/// more right gates than there may be.
pub fn spoiled(rule: &Rule, bits: &[bool]) -> Option<Rule> {
    let mut spoiled = rule.clone();
    let first = rule.first_gate() + rule.right.len();
    let (gates, product) = product(&literals(bits), first);
    spoiled.right.extend(gates);
    spoiled.right.push(Gate::new(X, rule.closing, product));
    spoiled.closing = rule.first_gate() + spoiled.right.len() - 1;
    (spoiled.right.len() <= MOST_SIDE_GATES as usize).then_some(spoiled)
}

fn spoiled_variant(random: &mut Random) -> Rule {
    let rule = stock_variant(random);
    let bits = random_bits(random, rule.holes);
    spoiled(&rule, &bits).unwrap_or_else(|| differing_rule(random))
}

fn random_bits(random: &mut Random, holes: usize) -> Vec<bool> {
    assignment(holes, random.below(1 << holes) as u32)
}

/// A rule of at least one hole that is unsound on exactly one assignment; none
/// if that takes more left gates than there may be: if at least eight of ten
/// bits are 0, or all of nine.
///
/// With p the product of all holes but one, v, that is 1 on the assignment: if
/// v is 0 there, p·v to p, which spares the gate that would turn v round; else
/// p·v to 0.
pub fn differing(bits: &[bool]) -> Option<Rule> {
    let first = CONSTANTS + bits.len();
    let mut others = literals(bits);
    let place = bits.iter().position(|bit| !bit).unwrap_or(0);
    let (hole, bit) = others.remove(place);
    let (gates, product) = product(&others, first);
    let mut left = gates.clone();
    left.push(Gate::new(A, product, hole));
    let (right, closing) = if bit {
        (Vec::new(), 0)
    } else {
        (gates, product)
    };
    let rule = Rule {
        holes: bits.len(),
        left,
        right,
        closing,
    };
    (rule.left.len() <= MOST_SIDE_GATES as usize).then_some(rule)
}

/// Such a rule of any assignment for which there is one.
fn differing_rule(random: &mut Random) -> Rule {
    loop {
        let holes = random.between(1, MOST_HOLES as usize);
        let bits = random_bits(random, holes);
        if let Some(rule) = differing(&bits) {
            return rule;
        }
    }
}

/// Any left side to any right side: mostly unsound.
fn random_rule(random: &mut Random) -> Rule {
    let (holes, left) = random_left(random);
    let first = CONSTANTS + holes;
    let mut right = Vec::new();
    for own in first..first + random.between(0, 5) {
        let [a, b] = [0; 2].map(|_| random.below(own));
        right.push(Gate::new(random.pick(&[X, A]), a, b));
    }
    let closing = random.below(first + right.len());
    Rule {
        holes,
        left,
        right,
        closing,
    }
}

fn mirrored_rule(random: &mut Random) -> Rule {
    let (holes, left) = random_left(random);
    mirrored(holes, left)
}

/// A left side to the same with operands exchanged: sound, nothing gained.
fn mirrored(holes: usize, left: Vec<Gate>) -> Rule {
    Rule {
        holes,
        right: left.iter().map(|gate| gate.swapped()).collect(),
        closing: CONSTANTS + holes + left.len() - 1,
        left,
    }
}

/// A rule that has many ways to be searched for where it is planted, since
/// many of its gates' parts of the match hold as written and crosswise.
pub fn symmetric_rule(random: &mut Random) -> Rule {
    let count = random.between(1, MOST_SIDE_GATES as usize);
    if random.chance(50) {
        doubled_rule(random, count)
    } else {
        tree_rule(random, count)
    }
}

/// A chain in which most gates have the one before them as both operands.
fn doubled_rule(random: &mut Random, count: usize) -> Rule {
    let first = CONSTANTS + 1;
    let equal = random.pick(&[50, 80, 100]);
    let other = random.below(first);
    let mut left = vec![Gate::new(random.pick(&[X, A]), CONSTANTS, other)];
    for own in first + 1..first + count {
        let operand = if random.chance(equal) {
            own - 1
        } else {
            random.below(own)
        };
        let gate = Gate::new(random.pick(&[X, A]), own - 1, operand);
        left.push(sometimes_swapped(random, gate));
    }
    mirrored(1, left)
}

/// A tree of gates of one kind: only by the holes, far below, can it be told
/// which operand is which.
fn tree_rule(random: &mut Random, count: usize) -> Rule {
    let kind = random.pick(&[X, A]);
    let holes = random.between(1, (count + 1).min(MOST_HOLES as usize));
    let first = CONSTANTS + holes;
    // Node k, from 1, has below it nodes 2k and 2k + 1, which beyond the last
    // gate are holes: each of them once, then any.
    let mut operand = |node: usize| match node.checked_sub(count + 1) {
        None => first + count - node,
        Some(place) if place < holes => CONSTANTS + place,
        Some(_) => CONSTANTS + random.below(holes),
    };
    let nodes = (1..=count).rev();
    let left = nodes.map(|node| Gate::new(kind, operand(2 * node), operand(2 * node + 1)));
    mirrored(holes, left.collect())
}

/// Holes and left gates such that every one of them is used.
fn random_left(random: &mut Random) -> (usize, Vec<Gate>) {
    let holes = random.between(0, MOST_HOLES as usize);
    let count = random.between(holes.max(2) - 1, holes.max(2) + 2);
    let first = CONSTANTS + holes;
    let mut unused: Vec<usize> = (CONSTANTS..first).collect();
    let mut gates = Vec::new();
    for own in first..first + count {
        // Each later gate can take away at most one more than it adds.
        let later = first + count - 1 - own;
        let left = random_operand(random, own, &mut unused, later + 1);
        let right = random_operand(random, own, &mut unused, later);
        gates.push(Gate::new(random.pick(&[X, A]), left, right));
        unused.push(own);
    }
    (holes, gates)
}

/// An operand below `own`: an unused one if there are more of them than `room`,
/// often so even if not.
fn random_operand(random: &mut Random, own: usize, unused: &mut Vec<usize>, room: usize) -> usize {
    let forced = unused.len() > room;
    let operand = if forced || !unused.is_empty() && random.chance(60) {
        unused[random.below(unused.len())]
    } else {
        random.below(own)
    };
    unused.retain(|&reference| reference != operand);
    operand
}

/// A rule in stock whose right side has idle gates up to a number.
fn padded_variant(random: &mut Random) -> Rule {
    let mut rule = stock_variant(random);
    let most = MOST_SIDE_GATES as usize;
    let count = random.between(most - 3, most);
    while rule.right.len() < count {
        let own = rule.first_gate() + rule.right.len();
        rule.right.push(Gate::new(A, own - 1, random.below(own)));
    }
    rule
}

/// A rule in stock that has room for it, spoilt by a hole or a left gate that
/// nothing on the left uses.
pub fn idle_variant(random: &mut Random) -> Rule {
    let mut rules = stock();
    rules.retain(|rule| rule.left.len() < MOST_SIDE_GATES as usize);
    let rule = variant(random, &rules);
    let idle_hole = rule.holes < MOST_HOLES as usize && random.chance(50);
    if idle_hole {
        with_idle_hole(random, &rule)
    } else {
        with_idle_gate(random, &rule)
    }
}

/// The names that make room for one reference.
fn names_around(room: usize) -> Vec<usize> {
    let most = CONSTANTS + (MOST_HOLES + MOST_SIDE_GATES) as usize;
    (0..most)
        .map(|reference| reference + usize::from(reference >= room))
        .collect()
}

/// One more hole, used nowhere or on the right side only.
fn with_idle_hole(random: &mut Random, rule: &Rule) -> Rule {
    let hole = rule.first_gate();
    let names = names_around(hole);
    let mut idle = renamed(rule, rule.holes + 1, &names, &names);
    if random.chance(50) {
        idle.closing = hole;
    }
    idle
}

/// One more left gate before the last.
fn with_idle_gate(random: &mut Random, rule: &Rule) -> Rule {
    let index = random.below(rule.left.len());
    let own = rule.first_gate() + index;
    let same: Vec<usize> = (0..names_around(own).len()).collect();
    let mut idle = renamed(rule, rule.holes, &names_around(own), &same);
    let gate = Gate::new(random.pick(&[X, A]), random.below(own), random.below(own));
    idle.left.insert(index, gate);
    idle
}
