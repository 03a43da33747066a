//! A case: three texts and three tables, some of them damaged, and the calls that are tried on them.

use evaluator::circuit::{Circuit, MOST_INPUTS};
use evaluator::finding::{find_mask, MOST_WAYS};
use evaluator::generator;
use evaluator::holding::Holding;
use evaluator::lines::{lines_of_table, read_line, text_of, Line, LINE_BYTES};
use evaluator::random::Random;
use evaluator::refusal::CIRCUIT;
use evaluator::rules::MOST_RULES;
use evaluator::sites::sites_lines;
use evaluator::starting::STARTING;
use evaluator::translation::MOST_REGISTERS;

use crate::calls::Calls;
use crate::numbers::{
    alter, any_lines, odd_number, spoil_run, spoil_table, spoil_text, LINE_NUMBERS,
};
use crate::shapes::{chained, constant, crowded, full, handed_on, overfull, symmetric, wide};

/// How many rules are judged, sites matched and searched, and limits picked in a case or search.
const JUDGED: u32 = 8;
const MATCHED: usize = 5;
const SEARCHED: usize = 2;
const LIMITS: usize = 3;

/// A circuit's, a rules' and a sites' text and table; they may be damaged in different ways.
pub struct Case {
    texts: [Vec<u8>; 3],
    tables: [Vec<u32>; 3],
}

impl Case {
    /// The case of a seed and a number from 1.
    pub fn new(random: &mut Random, seed: u64, number: u64) -> Case {
        let texts = texts(random, seed, number);
        let tables = texts.each_ref().map(|text| table_of(random, text));
        let mut case = Case { texts, tables };
        case.spoil(random);
        case
    }

    /// Damages each table and text now and then, beside what the generator did.
    fn spoil(&mut self, random: &mut Random) {
        for table in &mut self.tables {
            if random.chance(8) {
                spoil_table(random, table);
            }
        }
        if random.chance(6) {
            spoil_run(random, &mut self.tables[0], STARTING);
        }
        for text in &mut self.texts {
            if random.chance(5) {
                spoil_text(random, text);
            }
        }
        for _ in 0..random.below(3) {
            // Beyond its head a table of sites may hold any number.
            alter(random, &mut self.tables[2], LINE_NUMBERS);
        }
    }

    /// Tries every export.
    pub fn try_all(&self, calls: &mut Calls) {
        let [circuit, rules, sites] = self.tables.each_ref().map(Vec::as_slice);
        try_lines(calls, &self.texts, &self.tables);
        calls.measure(circuit);
        try_evaluate(calls, circuit);
        try_judge(calls, rules);
        try_match(calls, circuit, rules, sites);
        try_find(calls, circuit, rules, sites);
        calls.rewrite([circuit, rules, sites]);
        try_translate(calls, circuit);
        calls.listing(self.texts.each_ref().map(Vec::as_slice));
    }
}

/// Mostly a case of the evaluator's generator.
fn texts(random: &mut Random, seed: u64, number: u64) -> [Vec<u8>; 3] {
    let draft = match number % 200 {
        7 => crowded(random),
        31 | 131 => handed_on(random),
        57 | 157 => overfull(random),
        107 => full(random),
        113 => full(random).with_wrong_starts(random),
        rest if rest % 20 == 5 => wide(random, number as usize / 20),
        rest if rest % 20 == 9 => symmetric(random),
        rest if rest % 20 == 17 => constant(random),
        rest if rest % 10 == 3 => {
            let draft = chained(random);
            if random.chance(30) {
                draft.with_wrong_starts(random)
            } else {
                draft
            }
        }
        _ => {
            let case = generator::case(seed, number);
            return [case.circuit, case.rules, case.sites];
        }
    };
    let circuit = draft.circuit_lines(random);
    let rules = draft.rules_lines(random);
    let sites = sites_lines(&draft.sites);
    [circuit, rules, sites].map(|lines| text_of(&lines))
}

/// A text's numbers, with any numbers in place of what is not a line, and a torn line at the end of a torn text.
fn table_of(random: &mut Random, text: &[u8]) -> Vec<u32> {
    let chunks = text.chunks_exact(LINE_BYTES);
    let torn = chunks.remainder().len().min(2);
    let mut table = Vec::new();
    for chunk in chunks {
        let line = read_line(chunk);
        table.extend(line.unwrap_or_else(|| [0; 3].map(|old| odd_number(random, old))));
    }
    table.resize(table.len() + torn, 0);
    table
}

/// The line layer on the case's texts and tables, and on lines of numbers of all lengths.
fn try_lines(calls: &mut Calls, texts: &[Vec<u8>], tables: &[Vec<u32>]) {
    for text in texts {
        calls.read(text);
    }
    for table in tables {
        calls.write(table);
    }
    let lines = any_lines(&mut calls.random);
    let (mut text, mut table) = (text_of(&lines), lines.concat());
    if calls.random.chance(50) {
        spoil_text(&mut calls.random, &mut text);
        spoil_table(&mut calls.random, &mut table);
    }
    calls.read(&text);
    calls.write(&table);
}

/// The evaluator on as many bytes as the head says, and on a few more or less.
fn try_evaluate(calls: &mut Calls, circuit: &[u32]) {
    let inputs = head(circuit, MOST_INPUTS);
    let wrong = [inputs.saturating_sub(1), inputs + 1, 0, 2 * inputs];
    for count in [inputs, calls.random.pick(&wrong)] {
        let random = &mut calls.random;
        let bytes: Vec<u8> = (0..count).map(|_| random.input_byte()).collect();
        calls.evaluate(circuit, &bytes);
    }
}

/// The judge on the first few rules, on one of all or just outside, and on any number.
fn try_judge(calls: &mut Calls, rules: &[u32]) {
    let count = head(rules, MOST_RULES);
    let near = calls.random.between(0, count as usize + 1) as u32;
    let any = odd_number(&mut calls.random, count);
    for rule in (1..=count.min(JUDGED)).chain([near, any]) {
        calls.judge(rules, rule);
    }
}

/// The match at the first few sites, and at one of them with another number.
fn try_match(calls: &mut Calls, circuit: &[u32], rules: &[u32], sites: &[u32]) {
    for site in some_sites(&mut calls.random, sites, MATCHED) {
        calls.match_site(circuit, rules, site);
    }
}

/// The finder at the first few sites, at one of them with another number, and at the end of the circuit, each with limits around
/// the ways and at the ends of the range.
fn try_find(calls: &mut Calls, circuit: &[u32], rules: &[u32], sites: &[u32]) {
    let mut searched = some_sites(&mut calls.random, sites, SEARCHED);
    searched.push(end_site(&mut calls.random, circuit, rules));
    for [rule, gate, _] in searched {
        let found = find_mask(circuit, rules, rule, gate, MOST_WAYS);
        let ways = found.map_or(9, |found| found.ways.max(1));
        let any = odd_number(&mut calls.random, ways);
        let near = [ways - 1, ways, ways + 1];
        let most = MOST_WAYS;
        let limits = [&near[..], &near, &near, &[0, 1, 2, most, most + 1, any]].concat();
        for _ in 0..LIMITS {
            let limit = calls.random.pick(&limits);
            calls.find_mask(circuit, rules, [rule, gate, limit]);
        }
    }
}

/// The first few sites, and one of them with another number.
fn some_sites(random: &mut Random, sites: &[u32], count: usize) -> Vec<Line> {
    let (lines, _) = sites.as_chunks::<LINE_NUMBERS>();
    let mut some: Vec<Line> = lines.iter().skip(1).take(count).copied().collect();
    let mut other = some.first().copied().unwrap_or_default();
    alter(random, &mut other, 0);
    some.push(other);
    some
}

/// Any rule at the last gate of a trimmed circuit, with mask 0.
fn end_site(random: &mut Random, circuit: &[u32], rules: &[u32]) -> Line {
    let last = trimmed(circuit).map_or(0, |trimmed| trimmed.references() - 1);
    let rule = random.between(1, head(rules, MOST_RULES).max(1) as usize);
    [rule as u32, last as u32, 0]
}

/// The translator at the need and at the largest limit, which have the same program, and at others around the need, at the ends
/// of the range and outside it.
fn try_translate(calls: &mut Calls, circuit: &[u32]) {
    let need = need(circuit).unwrap_or(9);
    let any = odd_number(&mut calls.random, need);
    let most = MOST_REGISTERS;
    let limits = [0, 1, need - 1, need + 1, most + 1, any];
    let others = [0; LIMITS].map(|_| calls.random.pick(&limits));
    for limit in [need, most].into_iter().chain(others) {
        calls.translate(circuit, limit);
    }
    calls.judge_program(circuit);
}

/// The need of a circuit's table, if it is one.
fn need(circuit: &[u32]) -> Option<u32> {
    Some(Holding::of(&trimmed(circuit)?).need() as u32)
}

/// The trimmed circuit of a table, if it is one.
fn trimmed(circuit: &[u32]) -> Option<Circuit> {
    let lines = lines_of_table(circuit, CIRCUIT).ok()?;
    Some(Circuit::checked(&lines).ok()?.trimmed())
}

/// The first number of a table, if there is one, up to the largest that it may be.
fn head(table: &[u32], most: u32) -> u32 {
    table.first().map_or(0, |&count| count.min(most))
}
