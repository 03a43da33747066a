//! Depth and critical count (01, Depth and critical count; 003, section 2.1;
//! 02, 2026-01, 2026-04 and 2026-06).

use crate::circuit::Circuit;
use crate::gates::{Gate, CONSTANTS};
use crate::lines::lines_of_table;
use crate::refusal::{Answer, CIRCUIT};

/// D and N; the derived order is that of 01: D first, then N.
#[derive(Clone, Copy, Debug, PartialEq, Eq, PartialOrd, Ord)]
pub struct Pair {
    pub depth: u32,
    pub critical: u32,
}

/// D and N of a circuit's table.
pub fn measure(circuit: &[u32]) -> Answer<Pair> {
    let lines = lines_of_table(circuit, CIRCUIT)?;
    Ok(pair(&Circuit::checked(&lines)?))
}

/// D and N: N counts live ANDs whose depth and above make up D, but for those
/// that count as an XOR does.
pub fn pair(circuit: &Circuit) -> Pair {
    let depths = depths(circuit);
    let largest = circuit.outputs.iter().map(|&output| depths[output]).max();
    let depth = largest.unwrap_or(0);
    let live = circuit.live();
    let mut paths = Paths::new(circuit);
    let critical = (circuit.first_gate()..circuit.references())
        .filter(|&v| live[v] && circuit.gate(v).is_some_and(Gate::counts))
        .filter(|&v| paths.above(v).map(|above| depths[v] + above) == Some(depth))
        .count() as u32;
    Pair { depth, critical }
}

/// The depth of every reference: a constant's is 0, an input's, by 02,
/// 2026-01, its starting level. A gate's is worked out in the steps of 003,
/// section 2.1, as 02, 2026-04, asks: what it contributes itself, the larger
/// operand depth, their sum.
pub fn depths(circuit: &Circuit) -> Vec<u32> {
    let mut depths = vec![0; CONSTANTS];
    depths.extend(circuit.starting_levels());
    for gate in &circuit.gates {
        let own = u32::from(gate.counts());
        let larger = depths[gate.left].max(depths[gate.right]);
        depths.push(own + larger);
    }
    depths
}

/// Walks paths up to the outputs, remembering what it has found.
struct Paths<'a> {
    circuit: &'a Circuit,
    users: Vec<Vec<usize>>,
    known: Vec<Option<Option<u32>>>,
}

impl Paths<'_> {
    fn new(circuit: &Circuit) -> Paths<'_> {
        Paths {
            circuit,
            users: circuit.users(),
            known: vec![None; circuit.references()],
        }
    }

    /// The most ANDs, v not counted, on a path from v up to an output; none if
    /// no path leads to one. Such as count as an XOR does are walked through.
    fn above(&mut self, v: usize) -> Option<u32> {
        if let Some(known) = self.known[v] {
            return known;
        }
        let ends_here = self.circuit.outputs.contains(&v);
        let mut most = ends_here.then_some(0);
        for user in self.users[v].clone() {
            let own = u32::from(self.circuit.gates[user].counts());
            let through = self.above(self.circuit.first_gate() + user);
            most = most.max(through.map(|beyond| own + beyond));
        }
        self.known[v] = Some(most);
        most
    }
}
