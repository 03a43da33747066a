//! Depths beside the equation of 003, section 2.1 (02, 2026-04), read here
//! once more: from a circuit's lines, and from the last reference down. What a
//! gate contributes is read once more too, with 02, 2026-06.

mod common;

use std::collections::BTreeMap;

use common::{random_circuits, BALANCED, CHAIN, ONE_TIMES};
use evaluator::circuit::Circuit;
use evaluator::depth::{depths, pair};
use evaluator::gates::closing_of;
use evaluator::lines::Line;
use evaluator::starting::split_starting;

/// A circuit's lines as the graph of 003.
struct Graph<'a> {
    /// The reference of the first gate.
    first: u32,
    starting: &'a [Line],
    gates: &'a [Line],
    closings: &'a [Line],
    /// The depths found so far.
    known: BTreeMap<u32, u32>,
}

impl Graph<'_> {
    fn of(lines: &[Line]) -> Graph<'_> {
        let [inputs, gates, _] = lines[0];
        let (starting, rest) = split_starting(&lines[1..]);
        let (gates, closings) = rest.split_at(gates as usize);
        Graph {
            first: 2 + inputs,
            starting,
            gates,
            closings,
            known: BTreeMap::new(),
        }
    }

    /// The line of v; none if v is a constant or an input.
    fn gate(&self, v: u32) -> Option<Line> {
        let index = v.checked_sub(self.first)?;
        Some(self.gates[index as usize])
    }

    /// 003's d: 1 for an AND, 0 for all else, and by 02, 2026-06, for an AND
    /// with 0 or 1 on one side or on both.
    fn d(&self, v: u32) -> u32 {
        match self.gate(v) {
            Some([2, 0 | 1, _] | [2, _, 0 | 1]) => 0,
            Some([2, _, _]) => 1,
            _ => 0,
        }
    }

    /// Each c with an edge (v, c).
    fn fanins(&self, v: u32) -> Vec<u32> {
        self.gate(v)
            .map_or(vec![], |[_, left, right]| vec![left, right])
    }

    /// What takes the maximum's place where there is no fanin: 0, or by 02,
    /// 2026-01, an input's starting level.
    fn start(&self, v: u32) -> u32 {
        let line = self.starting.iter().find(|line| line[1] == v);
        line.map_or(0, |line| line[2])
    }

    /// 003's MD: d, and the largest MD of a fanin.
    fn md(&mut self, v: u32) -> u32 {
        if let Some(&known) = self.known.get(&v) {
            return known;
        }
        let fanins = self.fanins(v).into_iter();
        let largest = fanins.map(|c| self.md(c)).max();
        let md = self.d(v) + largest.unwrap_or(self.start(v));
        self.known.insert(v, md);
        md
    }

    /// MD(v) of every v. The last comes first, so that the recursion and not
    /// the order of the gates leads to the others.
    fn all(&mut self) -> Vec<u32> {
        let end = self.first + self.gates.len() as u32;
        for v in (0..end).rev() {
            self.md(v);
        }
        self.known.values().copied().collect()
    }

    /// The largest MD of an output; which are outputs, 01's closing lines say.
    fn whole(&mut self) -> Option<u32> {
        let outputs = self.closings.iter().flat_map(closing_of);
        outputs.map(|output| self.md(output as u32)).max()
    }
}

/// The circuit's depths, which are those of the equation, as is D.
fn depths_by_equation(lines: &[Line]) -> Vec<u32> {
    let circuit = Circuit::checked(lines).expect("a well-formed circuit");
    let mut graph = Graph::of(lines);
    let found = depths(&circuit);
    assert_eq!(found, graph.all(), "{lines:?}");
    assert_eq!(Some(pair(&circuit).depth), graph.whole(), "{lines:?}");
    found
}

/// The circuit has these depths, constants and inputs first, and this D.
fn has(lines: &[Line], expected: &[u32], depth: u32) {
    assert_eq!(depths_by_equation(lines), expected, "{lines:?}");
    assert_eq!(Graph::of(lines).whole(), Some(depth), "{lines:?}");
}

#[test]
fn the_marked_examples_have_these_depths() {
    has(CHAIN, &[0, 0, 0, 0, 0, 0, 1, 2, 3], 3);
    has(BALANCED, &[0, 0, 0, 0, 0, 0, 1, 1, 2], 2);
    has(ONE_TIMES, &[0, 0, 0, 0], 0);
}

#[test]
fn without_gates_all_depths_are_0() {
    has(&[[0, 0, 1], [3, 0, 0]], &[0, 0], 0);
    has(&[[0, 0, 2], [3, 1, 0], [3, 0, 0]], &[0, 0], 0);
    has(&[[3, 0, 1], [3, 4, 0]], &[0, 0, 0, 0, 0], 0);
}

#[test]
fn an_xor_adds_nothing() {
    let gates = [[1, 2, 3], [1, 4, 2], [1, 1, 5], [1, 6, 6]];
    let lines = [&[[2, 4, 1]], &gates[..], &[[3, 7, 0]]].concat();
    has(&lines, &[0; 8], 0);
    // Beneath it a product, on the left, on the right and on both sides.
    let gates = [[2, 2, 3], [1, 4, 2], [1, 3, 4], [1, 5, 6]];
    let lines = [&[[2, 4, 1]], &gates[..], &[[3, 7, 0]]].concat();
    has(&lines, &[0, 0, 0, 0, 1, 1, 1, 1], 1);
}

#[test]
fn an_and_with_a_constant_adds_nothing() {
    for constant in [0, 1] {
        let gates = [[2, constant, 2], [2, 3, constant], [2, constant, constant]];
        let lines = [&[[1, 3, 2]], &gates[..], &[[3, 4, 0], [3, 5, 0]]].concat();
        has(&lines, &[0; 6], 0);
        // The same above a product.
        let gates = [[2, 2, 2], [2, constant, 3], [2, 4, constant]];
        let lines = [&[[1, 3, 1]], &gates[..], &[[3, 5, 0]]].concat();
        has(&lines, &[0, 0, 0, 1, 1, 1], 1);
    }
    has(
        &[[0, 2, 1], [2, 0, 1], [2, 1, 2], [3, 3, 0]],
        &[0, 0, 0, 0],
        0,
    );
}

#[test]
fn an_and_of_gates_that_are_constant_adds_1() {
    // 0⊕0, 1·1 and 2⊕2, each times itself, and the second times an input.
    let gates = [
        [1, 0, 0],
        [2, 1, 1],
        [1, 2, 2],
        [2, 3, 3],
        [2, 4, 4],
        [2, 5, 5],
        [2, 2, 4],
    ];
    let lines = [&[[1, 7, 1]], &gates[..], &[[3, 9, 0]]].concat();
    has(&lines, &[0, 0, 0, 0, 0, 0, 1, 1, 1, 1], 1);
}

#[test]
fn equal_operands_count_once() {
    let gates = [[2, 2, 2], [2, 3, 3], [1, 4, 4], [2, 5, 5]];
    let lines = [&[[1, 4, 1]], &gates[..], &[[3, 6, 0]]].concat();
    has(&lines, &[0, 0, 0, 1, 2, 2, 3], 3);
}

#[test]
fn the_larger_operand_may_be_either() {
    // 4 has depth 1 and 5 depth 2; each kind takes them both ways round.
    let gates = [
        [2, 2, 3],
        [2, 4, 2],
        [2, 4, 5],
        [2, 5, 4],
        [1, 4, 5],
        [1, 5, 4],
    ];
    let lines = [&[[2, 6, 1]], &gates[..], &[[3, 4, 0]]].concat();
    has(&lines, &[0, 0, 0, 0, 1, 2, 3, 3, 2, 2], 1);
}

#[test]
fn dead_gates_have_depths_without_a_say_in_d() {
    // Nothing uses 6, so 003 has it among the outputs; 01 does not.
    let gates = [[2, 2, 3], [2, 4, 4], [2, 5, 2], [1, 4, 3]];
    let lines = [&[[2, 4, 2]], &gates[..], &[[3, 7, 0], [3, 4, 0]]].concat();
    has(&lines, &[0, 0, 0, 0, 1, 2, 3, 1], 1);
    // An output that gates use is none of 003's, but one of 01's.
    let lines = [&[[2, 4, 2]], &gates[..], &[[3, 7, 0], [3, 5, 0]]].concat();
    has(&lines, &[0, 0, 0, 0, 1, 2, 3, 1], 2);
}

#[test]
fn inputs_have_their_starting_levels() {
    // Inputs 2 and 4 arrive at 3 and 255; the product 5 is at 1, and 7, which is
    // 6·0, where 6 is.
    let starting = [[4, 2, 3], [4, 4, 255]];
    let gates = [
        [2, 3, 3],
        [1, 5, 2],
        [2, 6, 0],
        [2, 5, 2],
        [2, 4, 8],
        [1, 1, 4],
    ];
    let lines = [&[[3, 6, 1]], &starting[..], &gates[..], &[[3, 9, 0]]].concat();
    has(&lines, &[0, 0, 3, 0, 255, 1, 3, 3, 4, 256, 255], 256);
    has(&[[1, 0, 1], [4, 2, 7], [3, 2, 0]], &[0, 0, 7], 7);
    has(&[[1, 0, 1], [4, 2, 7], [3, 1, 0]], &[0, 0, 7], 0);
}

#[test]
fn random_circuits_have_the_depths_of_the_equation() {
    let mut count = 0;
    for circuit in random_circuits(6, 2000) {
        depths_by_equation(&circuit.lines());
        count += 1;
    }
    assert!(count > 1000, "{count}");
}
