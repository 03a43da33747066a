//! Random cases: a circuit's, a rules' and a sites' text, some of them damaged.

mod circuits;
mod damage;
mod rules;
mod sites;
mod starts;

use crate::circuit::Circuit;
use crate::random::Random;
use crate::refusal::Refusal;
use crate::rules::Rule;
use crate::sites::Site;

pub use damage::FAULTS;
pub use rules::{differing, spoiled, stock, symmetric_rule};
pub use starts::{outnumber, some_starts, spoil_starts};

/// The three texts of a case.
pub struct Case {
    pub circuit: Vec<u8>,
    pub rules: Vec<u8>,
    pub sites: Vec<u8>,
}

/// A case before damage.
struct Draft {
    circuit: Circuit,
    rules: Vec<Rule>,
    sites: Vec<Site>,
}

/// Every so many cases one is near the limits of sizes.
const LARGE_EVERY: u64 = 50;
/// Every so many cases one has a text longer than a file may count.
const LONG_EVERY: u64 = 100;

/// The case of a seed and a number from 1. Every fourth has one damage, each
/// kind in turn; many of those halfway between have several.
pub fn case(seed: u64, number: u64) -> Case {
    let mut random = Random::new(seed, number);
    let faults = faults(&mut random, number);
    let draft = if number % LARGE_EVERY == LARGE_EVERY / 2 {
        large_draft(&mut random)
    } else {
        small_draft(&mut random, faults.is_empty())
    };
    let mut case = damage::damaged(&mut random, draft, &faults);
    if number % LONG_EVERY == LONG_EVERY / 2 + 1 {
        damage::lengthen(&mut random, &mut case);
    }
    case
}

/// The refusals that a case's damages aim at.
fn faults(random: &mut Random, number: u64) -> Vec<Refusal> {
    match number % 4 {
        0 => vec![FAULTS[(number / 4) as usize % FAULTS.len()]],
        2 if random.chance(60) => {
            let count = random.between(2, 4);
            (0..count).map(|_| random.pick(&FAULTS)).collect()
        }
        _ => Vec::new(),
    }
}

/// Up to about thirty gates; without rules only if that is allowed.
fn small_draft(random: &mut Random, may_lack_rules: bool) -> Draft {
    let lacks_rules = may_lack_rules && random.chance(3);
    let count = if lacks_rules { 0 } else { random.between(1, 6) };
    let rules = rules::mixture(random, count);
    let circuit = circuits::small(random, &rules);
    let count = random.between(0, 9);
    let sites = sites::wished(random, &circuit, &rules, count, 60);
    Draft {
        circuit,
        rules,
        sites,
    }
}

/// Nearly as many gates as there may be, all live; often as many outputs and
/// sites as there may be.
fn large_draft(random: &mut Random) -> Draft {
    let count = random.pick(&[5, 20, 64]);
    let rules = rules::mixture(random, count);
    let circuit = circuits::large(random, &rules);
    let (count, tries) = random.pick(&[(12, 8), (512, 1)]);
    let sites = sites::wished(random, &circuit, &rules, count, tries);
    Draft {
        circuit,
        rules,
        sites,
    }
}
