//! The workloads are what they are called, and agree on the whole.

mod common;

use common::{agree, old_bytes, old_numbers, slow_find, slow_rewrite};

use bench::jobs::{of_workloads, Buffers};
use bench::plain::circuit::CIRCUIT_NUMBERS;
use bench::plain::finding::{Found, MASK, NONE, SPENT};
use bench::plain::rewriting::rewrite;
use bench::plain::sites::MOST_SITES;
use bench::plain::translation::PROGRAM_NUMBERS;
use bench::program::{is_refusal, Plain};
use bench::workloads::{chain, doubled, levels, mismatch, of_size, random, wide, Workload, SIZES};

/// The verdicts of a workload's sites.
fn verdicts(workload: &Workload) -> Vec<u8> {
    let [mut result, mut work] = [0; 2].map(|zero| vec![zero; CIRCUIT_NUMBERS]);
    let mut verdicts = vec![u8::MAX; MOST_SITES];
    let [circuit, rules, sites] = tables(workload);
    rewrite(circuit, rules, sites, &mut result, &mut work, &mut verdicts)
        .expect("a workload is well-formed");
    verdicts
}

fn tables(workload: &Workload) -> [&[u32]; 3] {
    workload.forms().map(|form| form.table.as_slice())
}

fn count(verdicts: &[u8], wanted: u8) -> usize {
    verdicts
        .iter()
        .filter(|&&verdict| verdict == wanted)
        .count()
}

#[test]
fn every_job_succeeds() {
    for gates in SIZES {
        for job in of_workloads(&of_size(gates)) {
            assert_eq!(job.gates, gates);
            let result = job.run(&Plain, &mut Buffers::fresh());
            assert!(!is_refusal(result), "{}: {result}", job.name);
        }
    }
}

#[test]
fn random_sites_are_of_all_sorts() {
    for gates in SIZES {
        for workload in [random(gates), levels(gates)] {
            let verdicts = verdicts(&workload);
            for verdict in [0, 2, 4, 6] {
                let name = workload.name;
                let found = count(&verdicts, verdict) > 0;
                assert!(found, "{name}: {gates} gates, verdict {verdict}");
            }
        }
    }
}

#[test]
fn every_input_arrives_at_a_level() {
    for gates in SIZES {
        let workload = levels(gates);
        let lines = workload.circuit.table.as_chunks::<3>().0;
        let starting = lines[1..].iter().take_while(|line| line[0] == 4);
        assert_eq!((lines[0][0], starting.count()), (512, 512));
    }
}

#[test]
fn chains_are_shortened_until_they_are_balanced() {
    for gates in SIZES {
        // A chain of n gates can be shortened to the depth of a balanced tree.
        let shortest = gates.ilog2() as usize;
        let kept = count(&verdicts(&chain(gates)), 0);
        assert_eq!(kept, MOST_SITES.min(gates - 1 - shortest));
    }
}

#[test]
fn mismatching_sites_all_get_verdict_4() {
    for gates in SIZES {
        assert_eq!(verdicts(&mismatch(gates)), [4; MOST_SITES]);
    }
}

#[test]
fn wide_sites_all_name_one_rule_of_ten_holes() {
    for gates in SIZES {
        let workload = wide(gates);
        let [_, rules, sites] = tables(&workload);
        assert_eq!(rules[..6], [1, 0, 0, 10, 15, 15]);
        assert_eq!(sites[..3], [512, 0, 0]);
        let (sites, _) = sites[3..].as_chunks::<3>();
        assert!(sites.iter().all(|site| site[0] == 1));
        // All copies are rewritten in the first round: fifteen gates each, and
        // fewer than thirty more that are dead.
        let verdicts = verdicts(&workload);
        let kept = count(&verdicts, 0);
        assert!(15 * kept <= gates && gates < 15 * (kept + 2));
        assert_eq!(count(&verdicts[..kept], 0), kept);
        assert_eq!(count(&verdicts, 4), MOST_SITES - kept);
    }
}

/// What both programs find in a workload.
fn found(workload: &Workload, wanted: [u32; 3]) -> Found {
    let [circuit, rules, _] = tables(workload);
    let found = workload.found(wanted);
    assert_eq!(slow_find(circuit, rules, wanted), Ok(found));
    found
}

#[test]
fn doubled_gates_have_all_ways_there_can_be() {
    for gates in SIZES {
        let workload = doubled(gates);
        let [rule, gate, most] = workload.longest_search();
        let at = |limit| {
            let found = found(&workload, [rule, gate, limit]);
            (found.outcome, found.ways)
        };
        assert_eq!(at(most), (NONE, 65_534));
        assert_eq!(at(65_533), (SPENT, 65_533));
    }
}

#[test]
fn random_searches_find_a_mask_after_wrong_ways() {
    for gates in SIZES {
        let workload = random(gates);
        let found = found(&workload, workload.longest_search());
        assert!(found.outcome == MASK && found.ways > 3, "{found:?}");
    }
}

#[test]
fn rewriting_workloads_agrees() {
    for workload in SIZES.iter().flat_map(|&gates| of_size(gates)) {
        let [circuit, rules, sites] = tables(&workload);
        let old = (old_numbers(PROGRAM_NUMBERS), old_bytes(MOST_SITES));
        let mut work = old_numbers(CIRCUIT_NUMBERS);
        let mut slow_work = work.clone();
        let answer = agree(
            old,
            |(result, verdicts)| rewrite(circuit, rules, sites, result, &mut work, verdicts),
            |(result, verdicts)| {
                slow_rewrite(circuit, rules, sites, result, &mut slow_work, verdicts)
            },
        );
        assert!(answer.is_ok());
    }
}
