//! Replacement, verdicts and the run over the sites (01, Sites; 02, 2026-01).

use crate::circuit::{Circuit, CIRCUIT_NUMBERS, MOST_GATES};
use crate::depth::{pair, Pair};
use crate::lines::{lines_of_table, Line};
use crate::matching::{matched, Bindings};
use crate::refusal::{overwrite, require_room, Answer, CIRCUIT, RULES, SITES};
use crate::rules::{checked_rules, Judge, Rule, Verdict};
use crate::sites::{checked_sites, Site, MOST_SITES};

/// What a call of [`rewrite`] gives back beside its buffers.
#[derive(Clone, Copy, Debug, PartialEq, Eq)]
pub struct Rewritten {
    pub lines: usize,
    pub old: Pair,
    pub new: Pair,
    pub kept: usize,
}

/// The whole result of a run.
#[derive(Clone, Debug, PartialEq, Eq)]
pub struct Run {
    pub circuit: Circuit,
    pub verdicts: Vec<Verdict>,
    pub old: Pair,
    pub new: Pair,
}

/// Rewrites a circuit into a lent table; the working table is left alone.
pub fn rewrite(
    circuit: &[u32],
    rules: &[u32],
    sites: &[u32],
    result: &mut [u32],
    work: &mut [u32],
    verdicts: &mut [u8],
) -> Answer<Rewritten> {
    let circuit = lines_of_table(circuit, CIRCUIT)?;
    let rules = lines_of_table(rules, RULES)?;
    let sites = lines_of_table(sites, SITES)?;
    require_room(result, CIRCUIT_NUMBERS)?;
    require_room(work, CIRCUIT_NUMBERS)?;
    require_room(verdicts, MOST_SITES as usize)?;
    let run = run(&circuit, &rules, &sites)?;
    let lines = run.circuit.lines();
    overwrite(result, &lines.concat());
    overwrite(verdicts, &run.verdicts);
    Ok(Rewritten {
        lines: lines.len(),
        old: run.old,
        new: run.new,
        kept: run.kept(),
    })
}

/// Checks the three tables' lines for 4 to 8 and 11, one after another, and
/// runs.
pub fn run(circuit: &[Line], rules: &[Line], sites: &[Line]) -> Answer<Run> {
    let circuit = Circuit::checked(circuit)?;
    let rules = checked_rules(rules)?;
    let sites = checked_sites(sites)?;
    Ok(Run::of(&circuit, &rules, &sites))
}

impl Run {
    /// Trims, then takes the sites in order; each gets what the one before it
    /// left.
    pub fn of(circuit: &Circuit, rules: &[Rule], sites: &[Site]) -> Run {
        let judge = Judge::of(rules);
        let mut current = circuit.trimmed();
        let mut verdicts = Vec::new();
        for &site in sites {
            verdicts.push(step(&mut current, &judge, site));
        }
        Run {
            old: pair(circuit),
            new: pair(&current),
            circuit: current,
            verdicts,
        }
    }

    /// The number of zero verdicts.
    pub fn kept(&self) -> usize {
        self.verdicts
            .iter()
            .filter(|&&verdict| verdict == 0)
            .count()
    }
}

/// Takes one site: the circuit changes only if the verdict is 0.
pub fn step(circuit: &mut Circuit, judge: &Judge, site: Site) -> Verdict {
    match improved(circuit, judge, site) {
        Ok(next) => {
            *circuit = next;
            0
        }
        Err(verdict) => verdict,
    }
}

/// The circuit after a kept site, or the first verdict that applies.
pub fn improved(circuit: &Circuit, judge: &Judge, site: Site) -> Result<Circuit, Verdict> {
    let (rule, bindings) = matched(circuit, judge, site)?;
    if circuit.gates.len() - 1 + rule.right.len() > MOST_GATES as usize {
        return Err(5);
    }
    let next = replaced(circuit, rule, &bindings, site.gate as usize).trimmed();
    if pair(&next) < pair(circuit) {
        Ok(next)
    } else {
        Err(6)
    }
}

/// 01, Sites, replacement: a new gate list with the right gates in the place of
/// `gate`, and every reference renamed to its place in it. Inputs keep their
/// references, and so the starting lines stay.
pub fn replaced(circuit: &Circuit, rule: &Rule, bindings: &Bindings, gate: usize) -> Circuit {
    let first = circuit.first_gate();
    let mut names: Vec<usize> = (0..first).collect();
    let mut gates = Vec::new();
    for (old, reference) in circuit.gates.iter().zip(first..) {
        if reference == gate {
            let mut side = side_names(rule, bindings, &names);
            for right in &rule.right {
                side.push(first + gates.len());
                gates.push(right.renamed(&side));
            }
            names.push(side[rule.closing]);
        } else {
            names.push(first + gates.len());
            gates.push(old.renamed(&names));
        }
    }
    let outputs = circuit
        .outputs
        .iter()
        .map(|&output| names[output])
        .collect();
    Circuit {
        inputs: circuit.inputs,
        starts: circuit.starts.clone(),
        gates,
        outputs,
    }
}

/// The names of a right side's constants and holes in the new circuit.
fn side_names(rule: &Rule, bindings: &Bindings, names: &[usize]) -> Vec<usize> {
    let mut side = vec![0, 1];
    side.extend((side.len()..rule.first_gate()).map(|hole| names[bindings[&hole]]));
    side
}
