//! Sites for random cases, chosen for each verdict in turn.

use crate::circuit::Circuit;
use crate::lines::LARGEST;
use crate::matching::bindings;
use crate::random::Random;
use crate::rewriting::{improved, step};
use crate::rules::{Judge, Rule, Verdict};
use crate::sites::Site;

/// A number that no rule and no reference has.
const FAR: usize = LARGEST as usize;
/// Verdicts to wish for; more of those that change or nearly change something.
const WISHES: [Verdict; 14] = [0, 0, 0, 0, 0, 1, 2, 2, 3, 4, 4, 5, 6, 6];
/// Masks that are tried for a match at one gate.
const MASKS: usize = 64;

/// So many sites, each with up to `tries` attempts at a wished verdict.
pub fn wished(
    random: &mut Random,
    circuit: &Circuit,
    rules: &[Rule],
    count: usize,
    tries: usize,
) -> Vec<Site> {
    let judge = Judge::of(rules);
    let mut current = circuit.trimmed();
    let mut sites = Vec::new();
    for _ in 0..count {
        let wish = random.pick(&WISHES);
        let site = attempt(random, &current, &judge, wish, tries);
        step(&mut current, &judge, site);
        sites.push(site);
    }
    sites
}

/// A site of the wished verdict, or the last of the attempts.
fn attempt(
    random: &mut Random,
    circuit: &Circuit,
    judge: &Judge,
    wish: Verdict,
    tries: usize,
) -> Site {
    let mut site = drawn(random, circuit, judge, wish);
    for _ in 1..tries {
        if improved(circuit, judge, site).err().unwrap_or(0) == wish {
            break;
        }
        site = drawn(random, circuit, judge, wish);
    }
    site
}

/// A site that might get the verdict: right in what is tested before it, of any
/// sort in what is tested after it.
fn drawn(random: &mut Random, circuit: &Circuit, judge: &Judge, wish: Verdict) -> Site {
    let rule = drawn_rule(random, judge.rules.len(), wish == 1);
    let gate = match wish {
        1 | 2 => random.below(circuit.references() + 2),
        3 => drawn_non_gate(random, circuit),
        _ => drawn_gate(random, circuit),
    };
    let mask = match wish {
        1..=4 => random.pick(&[0, 0, 1, 2, 3, 4, 5, 1 << 14, 1 << 15, FAR]),
        _ => drawn_match(random, circuit, judge, rule, gate),
    };
    Site {
        rule: rule as u32,
        gate: gate as u32,
        mask: mask as u32,
    }
}

fn drawn_rule(random: &mut Random, rules: usize, missing: bool) -> usize {
    if missing || rules == 0 {
        random.pick(&[0, rules + 1, rules + 2, FAR])
    } else {
        random.between(1, rules)
    }
}

fn drawn_non_gate(random: &mut Random, circuit: &Circuit) -> usize {
    let beyond = circuit.references();
    let below = random.below(circuit.first_gate());
    random.pick(&[below, circuit.first_gate() - 1, beyond, beyond + 1, FAR])
}

fn drawn_gate(random: &mut Random, circuit: &Circuit) -> usize {
    let count = circuit.gates.len().max(1);
    circuit.first_gate() + random.below(count)
}

/// A mask with which the rule matches at the gate, if there is one.
fn drawn_match(
    random: &mut Random,
    circuit: &Circuit,
    judge: &Judge,
    rule: usize,
    gate: usize,
) -> usize {
    let Ok(rule) = judge.judged(rule as u32) else {
        return 0;
    };
    let matching: Vec<usize> = (0..MASKS)
        .filter(|&mask| bindings(circuit, rule, gate, mask as u32).is_some())
        .collect();
    if matching.is_empty() {
        0
    } else {
        random.pick(&matching)
    }
}
