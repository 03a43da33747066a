//! The plain program beside the slow evaluator on random and damaged cases:
//! the same answers, and the same in every lent buffer afterwards.

mod common;

use std::collections::{BTreeMap, BTreeSet};

use common::{
    agree, old_bytes, old_numbers, our_pair, ours, slow_find, slow_rewrite, slow_translate,
};

use bench::plain::circuit::{CIRCUIT_NUMBERS, MOST_OUTPUTS};
use bench::plain::finding::MOST_WAYS;
use bench::plain::listing::LISTING_BYTES;
use bench::plain::refusal::{Answer, Refusal};
use bench::plain::sites::MOST_SITES;
use bench::plain::translation::PROGRAM_NUMBERS;
use bench::plain::{
    depth, evaluation, finding, lines, listing, matching, rewriting, rules, translation,
};
use bench::workloads::{levels, random, Workload};
use evaluator::generator::{case, Case};
use evaluator::lines::text_of;
use evaluator::random::Random;

const SEED: u64 = 20;
const CASES: u64 = 2000;

/// Numbers near limits and far beyond them.
const ODD: [u32; 18] = [
    0,
    1,
    2,
    3,
    10,
    11,
    16,
    64,
    65,
    512,
    1024,
    2049,
    65_535,
    65_536,
    999_999,
    1_000_000,
    1 << 31,
    u32::MAX,
];

/// The tables of a case's texts, torn where a text is no table; some of them
/// damaged with numbers that no text can hold.
fn tables(random: &mut Random, case: &Case) -> [Vec<u32>; 3] {
    [&case.circuit, &case.rules, &case.sites].map(|text| {
        let mut table = match evaluator::lines::lines_of_text(text, 0) {
            Ok(lines) => lines.concat(),
            Err(_) => vec![7; random.below(3)],
        };
        if random.chance(8) && !table.is_empty() {
            let place = random.below(table.len());
            table[place] = random.pick(&ODD);
        }
        table
    })
}

/// Mostly a buffer's least length, else one too short or one to spare.
fn length(random: &mut Random, least: usize) -> usize {
    match random.below(8) {
        0 => least.saturating_sub(1),
        1 => least + random.between(1, 7),
        _ => least,
    }
}

/// The refusals of each call that have been seen, as number and table; a
/// success is seen as (0, 0).
#[derive(Default)]
struct Seen {
    outcomes: BTreeMap<&'static str, BTreeSet<(u32, u32)>>,
    /// The finder's outcomes.
    found: BTreeSet<u8>,
}

impl Seen {
    fn note<T>(&mut self, call: &'static str, answer: Answer<T>) {
        let outcome = answer.map_or_else(|refusal| (refusal.number, refusal.table), |_| (0, 0));
        self.outcomes.entry(call).or_default().insert(outcome);
    }

    fn lines(&mut self, random: &mut Random, texts: [&[u8]; 3], tables: &[Vec<u32>; 3]) {
        for text in texts {
            let answer = agree(
                old_numbers(length(random, text.len() / 19 * 3)),
                |table| lines::read(text, table),
                |table| ours(evaluator::lines::read(text, table)),
            );
            self.note("read", answer);
        }
        for table in tables {
            let answer = agree(
                old_bytes(length(random, table.len() / 3 * 19)),
                |text| lines::write(table, text),
                |text| ours(evaluator::lines::write(table, text)),
            );
            self.note("write", answer);
        }
    }

    fn circuit(&mut self, random: &mut Random, circuit: &[u32]) {
        let answer = agree(
            (),
            |_| depth::measure(circuit),
            |_| ours(evaluator::depth::measure(circuit)).map(our_pair),
        );
        self.note("measure", answer);
        let inputs = circuit.first().map_or(0, |&count| count.min(600) as usize);
        let inputs: Vec<u8> = (0..length(random, inputs))
            .map(|_| random.input_byte())
            .collect();
        let answer = agree(
            old_bytes(length(random, MOST_OUTPUTS)),
            |outputs| evaluation::evaluate(circuit, &inputs, outputs),
            |outputs| ours(evaluator::evaluation::evaluate(circuit, &inputs, outputs)),
        );
        self.note("evaluate", answer);
    }

    fn rules(&mut self, random: &mut Random, [circuit, rules, sites]: &[Vec<u32>; 3]) {
        use evaluator::matching::match_site;
        let mut chosen: Vec<[u32; 3]> = sites.as_chunks().0.iter().copied().take(12).collect();
        for _ in 0..4 {
            chosen.push([0; 3].map(|_| random.pick(&ODD)));
        }
        for [rule, gate, mask] in chosen {
            let answer = agree(
                (),
                |_| rules::judge(rules, rule),
                |_| ours(evaluator::rules::judge(rules, rule)),
            );
            self.note("judge", answer);
            let answer = agree(
                (),
                |_| matching::match_site(circuit, rules, rule, gate, mask),
                |_| ours(match_site(circuit, rules, rule, gate, mask)),
            );
            self.note("match", answer);
            self.finding(random, [circuit, rules], [rule, gate]);
        }
    }

    /// At limits around the ways, and at one that may be out of range.
    fn finding(&mut self, random: &mut Random, tables: [&[u32]; 2], [rule, gate]: [u32; 2]) {
        let [circuit, rules] = tables;
        let plain = |limit| finding::find_mask(circuit, rules, rule, gate, limit);
        let ways = plain(MOST_WAYS).map_or(1, |found| found.ways.max(1));
        let near = random.pick(&[ways - 1, ways, ways + 1]);
        for limit in [near, MOST_WAYS, random.pick(&ODD)] {
            let answer = plain(limit);
            assert_eq!(answer, slow_find(circuit, rules, [rule, gate, limit]));
            self.found.extend(answer.map(|found| found.outcome));
            self.note("find", answer);
        }
    }

    /// The working table is free after a success only.
    fn rewriting(&mut self, random: &mut Random, [circuit, rules, sites]: &[Vec<u32>; 3]) {
        let [result, old_work] = [0; 2].map(|_| old_numbers(length(random, CIRCUIT_NUMBERS)));
        let [mut work, mut slow_work] = [0; 2].map(|_| old_work.clone());
        let answer = agree(
            (result, old_bytes(length(random, MOST_SITES))),
            |(result, verdicts)| {
                rewriting::rewrite(circuit, rules, sites, result, &mut work, verdicts)
            },
            |(result, verdicts)| {
                slow_rewrite(circuit, rules, sites, result, &mut slow_work, verdicts)
            },
        );
        assert!(answer.is_ok() || work == old_work);
        self.note("rewrite", answer);
    }

    fn listing(&mut self, random: &mut Random, [circuit, rules, sites]: [&[u8]; 3]) {
        let answer = agree(
            old_bytes(length(random, LISTING_BYTES)),
            |buffer| listing::listing(circuit, rules, sites, buffer),
            |buffer| ours(evaluator::listing::listing(circuit, rules, sites, buffer)),
        );
        self.note("listing", answer);
    }

    /// At limits around the need, and at one that may be out of range.
    fn translation(&mut self, random: &mut Random, circuit: &[u32]) {
        let old = old_numbers(length(random, PROGRAM_NUMBERS));
        let most = slow_translate(circuit, 1024, &mut old.clone());
        let need = most.map_or(1, |done| done.need as u32);
        for limit in [need - 1, need, need + 1, 1024, random.pick(&ODD)] {
            let answer = agree(
                old.clone(),
                |program| translation::translate(circuit, limit, program),
                |program| slow_translate(circuit, limit, program),
            );
            self.note("translate", answer);
        }
    }

    /// Every outcome that a call has by the paper has been seen, and no other.
    fn is_complete(&self) {
        let circuit: &[_] = &[(4, 1), (5, 1), (11, 1), (6, 1), (7, 1)];
        let rules: &[_] = &[(4, 2), (5, 2), (6, 2), (7, 2), (8, 2)];
        let three: &[_] = &[circuit, rules, &[(4, 3), (5, 3)]].concat();
        let torn: &[_] = &[(1, 1), (1, 2), (1, 3)];
        let done: &[_] = &[(0, 0)];
        let short: &[_] = &[(2, 0)];
        let expected = [
            ("evaluate", vec![done, &[(1, 1), (1, 0)], short, circuit]),
            (
                "find",
                vec![done, &[(1, 1), (1, 2)], circuit, rules, &[(12, 0)]],
            ),
            ("judge", vec![done, &[(1, 2)], rules]),
            (
                "listing",
                vec![done, torn, &[(3, 1), (3, 2), (3, 3)], short, three],
            ),
            ("match", vec![done, &[(1, 1), (1, 2)], circuit, rules]),
            ("measure", vec![done, &[(1, 1)], circuit]),
            ("read", vec![done, &[(1, 0), (3, 0)], short]),
            ("rewrite", vec![done, torn, short, three]),
            (
                "translate",
                vec![done, &[(1, 1)], short, circuit, &[(9, 0), (10, 0)]],
            ),
            ("write", vec![done, &[(1, 0), (3, 0)], short]),
        ];
        let expected = expected.map(|(call, parts)| (call, parts.concat().into_iter().collect()));
        assert_eq!(self.outcomes, expected.into_iter().collect());
        assert_eq!(self.found, (0..=5).collect());
    }
}

#[test]
fn random_cases_agree() {
    let mut seen = Seen::default();
    for number in 1..=CASES {
        let case = case(SEED, number);
        let mut random = Random::new(SEED + 1, number);
        let texts: [&[u8]; 3] = [&case.circuit, &case.rules, &case.sites];
        let tables = tables(&mut random, &case);
        seen.lines(&mut random, texts, &tables);
        seen.circuit(&mut random, &tables[0]);
        seen.rules(&mut random, &tables);
        seen.rewriting(&mut random, &tables);
        seen.listing(&mut random, texts);
        seen.translation(&mut random, &tables[0]);
    }
    seen.is_complete();
}

/// As many rules of as many gates as there may be.
fn largest_rules() -> Vec<[u32; 3]> {
    let chain = (0..15).map(|index: u32| [2, 2, 2 + index]);
    let mut rule = vec![[1, 15, 15]];
    rule.extend(chain.clone().chain(chain));
    rule.push([3, 17, 0]);
    let mut lines = vec![[64, 0, 0]];
    lines.extend(rule.repeat(64));
    lines
}

fn agreed_listing([circuit, rules, sites]: &[Vec<u8>; 3]) -> Answer<usize> {
    agree(
        old_bytes(LISTING_BYTES),
        |buffer| listing::listing(circuit, rules, sites, buffer),
        |buffer| ours(evaluator::listing::listing(circuit, rules, sites, buffer)),
    )
}

/// The texts of a workload, with as many rules as there may be.
fn largest_texts(workload: &Workload) -> [Vec<u8>; 3] {
    let [circuit, _, sites] = workload.forms().map(|form| form.text.clone());
    [circuit, text_of(&largest_rules()), sites]
}

fn refused<T>(number: u32, table: u32) -> Answer<T> {
    Err(Refusal { number, table })
}

#[test]
fn largest_texts_agree_and_so_do_longer_ones() {
    for workload in [random(2048), levels(2048)] {
        let whole = largest_texts(&workload);
        let mut answers = Vec::new();
        for longer in 0..=whole.len() {
            let mut texts = whole.clone();
            if let Some(text) = texts.get_mut(longer) {
                text.extend_from_within(text.len() - 19..);
            }
            answers.push(agreed_listing(&texts));
        }
        assert_eq!(answers[..3], [1, 2, 3].map(|table| refused(5, table)));
        assert!(answers[3].is_ok());
    }
}

#[test]
fn more_starting_lines_than_a_largest_circuit_has() {
    let workload = levels(2048);
    let [circuit, rules, sites] = largest_texts(&workload);
    let (head, rest) = circuit.split_at(19);
    for more in [1, 2, 88, 3000] {
        let starting = b"     4     2     1\n".repeat(more);
        let longer = [head, &starting, rest].concat();
        let answer = |circuit| agreed_listing(&[circuit, rules.clone(), sites.clone()]);
        assert_eq!(answer(longer.clone()), refused(11, 1));
        // With a line too many or too few it is another refusal, and with one
        // that is none, however far behind, a third.
        let too_many = [&longer, &rest[rest.len() - 19..]].concat();
        assert_eq!(answer(too_many), refused(5, 1));
        assert_eq!(answer(longer[..longer.len() - 19].to_vec()), refused(5, 1));
        let misprinted = [&longer, &[b' '; 19][..]].concat();
        assert_eq!(answer(misprinted), refused(3, 1));
        let starting_only = [head, &starting].concat();
        assert_eq!(answer(starting_only), refused(5, 1));
    }
}
