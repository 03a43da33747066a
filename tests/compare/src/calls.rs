//! Each call of the library beside the evaluator's: the result, and every place of every slice afterwards.

use evaluator::circuit::{CIRCUIT_NUMBERS, MOST_OUTPUTS};
use evaluator::depth::{self, Pair};
use evaluator::discipline::check_discipline;
use evaluator::finding::{self, Found};
use evaluator::lines::{self, Line, LINE_BYTES};
use evaluator::listing::{self, LISTING_BYTES};
use evaluator::machine::INSTRUCTION_NUMBERS;
use evaluator::random::Random;
use evaluator::refusal::Answer;
use evaluator::rewriting::{self, Rewritten};
use evaluator::rules::{self, Verdict};
use evaluator::sites::MOST_SITES;
use evaluator::translation::{self, MOST_REGISTERS, PROGRAM_NUMBERS};
use evaluator::{evaluation, matching};

use crate::call::Call;
use crate::exports::{
    Export, Outcome, EVALUATE, FIND, JUDGE, LISTING, MATCH, MEASURE, READ, REWRITE, TRANSLATE,
    WRITE,
};
use crate::library::*;
use crate::numbers::LINE_NUMBERS;
use crate::slices::{Element, Slice, Watched};
use crate::tally::Tally;

/// Calls a function of the library with slices, each a pointer and a length, and then numbers.
///
/// This is sound by what the header promises: the library keeps no pointer, and reads and writes only within the slices, which are
/// owned here, lie apart from each other and outlive the call.
macro_rules! call {
    ($function:ident, $($slice:ident),* $(; $($number:expr),*)?) => {
        unsafe { $function($($slice.pointer(), $slice.len(),)* $($($number),*)?) }
    };
}

/// A function of a circuit, rules and three numbers.
type OnRules = unsafe extern "C" fn(*const u32, usize, *const u32, usize, u32, u32, u32) -> u64;

/// The calls of one case.
pub struct Calls<'a> {
    /// What reproduces the case.
    pub case: String,
    pub random: Random,
    pub tally: &'a mut Tally,
}

impl Calls<'_> {
    pub fn read(&mut self, text: &[u8]) {
        let mut given = self.given("text", text);
        let mut table = self.lent("table", text.len() / LINE_BYTES * LINE_NUMBERS);
        let answer = lines::read(text, table.expected());
        let result = call!(napspruce_read, given, table);
        let expected = answer.map(|_| vec![0]);
        self.settle(Call::new(&READ, result, expected, vec![&given, &table]));
    }

    pub fn write(&mut self, table: &[u32]) {
        let mut given = self.given("table", table);
        let mut text = self.lent("text", table.len() / LINE_NUMBERS * LINE_BYTES);
        let answer = lines::write(table, text.expected());
        let result = call!(napspruce_write, given, text);
        let expected = answer.map(|_| vec![0]);
        self.settle(Call::new(&WRITE, result, expected, vec![&given, &text]));
    }

    pub fn evaluate(&mut self, circuit: &[u32], inputs: &[u8]) {
        let mut given = self.given("circuit", circuit);
        let mut bytes = self.given("inputs", inputs);
        let mut outputs = self.lent("outputs", MOST_OUTPUTS as usize);
        let answer = evaluation::evaluate(circuit, inputs, outputs.expected());
        let result = call!(napspruce_evaluate, given, bytes, outputs);
        let expected = answer.map(|count| vec![count as u64]);
        let slices: Vec<&dyn Watched> = vec![&given, &bytes, &outputs];
        self.settle(Call::new(&EVALUATE, result, expected, slices));
    }

    pub fn measure(&mut self, circuit: &[u32]) {
        let mut given = self.given("circuit", circuit);
        let result = call!(napspruce_measure, given);
        let expected = depth::measure(circuit).map(|pair| pair_values(pair).to_vec());
        self.settle(Call::new(&MEASURE, result, expected, vec![&given]));
    }

    pub fn judge(&mut self, rules: &[u32], rule: u32) {
        let mut given = self.given("rules", rules);
        let answer = rules::judge(rules, rule);
        let result = call!(napspruce_judge, given; rule);
        let expected = answer.map(|verdict| vec![verdict.into()]);
        let call = Call::new(&JUDGE, result, expected, vec![&given]);
        self.settle(call.with_numbers(&[rule]).with_verdicts(answer.iter()));
    }

    pub fn match_site(&mut self, circuit: &[u32], rules: &[u32], site: Line) {
        let [rule, gate, mask] = site;
        let answer = matching::match_site(circuit, rules, rule, gate, mask);
        let values = answer.map(|verdict| (verdict, vec![verdict.into()]));
        self.on_rules(&MATCH, napspruce_match, [circuit, rules], site, values);
    }

    pub fn find_mask(&mut self, circuit: &[u32], rules: &[u32], wanted: Line) {
        let [rule, gate, limit] = wanted;
        let answer = finding::find_mask(circuit, rules, rule, gate, limit);
        let values = answer.map(|found| (found.outcome, found_values(found)));
        self.on_rules(&FIND, napspruce_find, [circuit, rules], wanted, values);
    }

    /// A call that gives a verdict or outcome, and values for the number.
    fn on_rules(
        &mut self,
        export: &Export,
        function: OnRules,
        [circuit, rules]: [&[u32]; 2],
        numbers: Line,
        answer: Answer<(Verdict, Vec<u64>)>,
    ) {
        let mut given = self.given("circuit", circuit);
        let mut patterns = self.given("rules", rules);
        let [first, second, third] = numbers;
        let result = call!(function, given, patterns; first, second, third);
        let verdict = answer.as_ref().ok().map(|(verdict, _)| *verdict);
        let expected = answer.map(|(_, values)| values);
        let call = Call::new(export, result, expected, vec![&given, &patterns]);
        self.settle(call.with_numbers(&numbers).with_verdicts(verdict.iter()));
    }

    pub fn rewrite(&mut self, [circuit, rules, sites]: [&[u32]; 3]) {
        let mut given = self.given("circuit", circuit);
        let mut patterns = self.given("rules", rules);
        let mut places = self.given("sites", sites);
        let mut result = self.lent("result", CIRCUIT_NUMBERS);
        let mut work = self.lent("work", CIRCUIT_NUMBERS);
        let mut verdicts = self.lent("verdicts", MOST_SITES as usize);
        let answer = rewriting::rewrite(
            circuit,
            rules,
            sites,
            result.expected(),
            work.expected(),
            verdicts.expected(),
        );
        let packed = call!(
            napspruce_rewrite,
            given,
            patterns,
            places,
            result,
            work,
            verdicts
        );
        let mut told = Vec::new();
        if answer.is_ok() {
            work.leave_open();
            told.extend_from_slice(&verdicts.expected()[..sites.len() / LINE_NUMBERS - 1]);
        }
        let expected = answer.map(rewritten_values);
        let slices: Vec<&dyn Watched> = vec![&given, &patterns, &places, &result, &work, &verdicts];
        self.settle(Call::new(&REWRITE, packed, expected, slices).with_verdicts(told.iter()));
    }

    /// Each circuit has just one program (02, 2026-05), which is compared like every other buffer.
    pub fn translate(&mut self, circuit: &[u32], limit: u32) {
        let mut given = self.given("circuit", circuit);
        let mut program = self.lent("program", PROGRAM_NUMBERS);
        let answer = translation::translate(circuit, limit, program.expected());
        let result = translate_call(&mut given, limit, &mut program);
        let expected = answer.map(|done| vec![done.need as u64, done.instructions as u64]);
        let call = Call::new(&TRANSLATE, result, expected, vec![&given, &program]);
        self.settle(call.with_numbers(&[limit]));
    }

    /// The program that the library leaves, judged and run as it stands: of what it must be, this is a second reading, without the
    /// evaluator's translator.
    pub fn judge_program(&mut self, circuit: &[u32]) {
        let mut given = self.given("circuit", circuit);
        let mut program = Slice::lent(&mut self.random, "program", PROGRAM_NUMBERS);
        let result = translate_call(&mut given, MOST_REGISTERS, &mut program);
        let Ok(&[_, instructions]) = TRANSLATE.unpacked(result).as_deref() else {
            return;
        };
        let numbers = INSTRUCTION_NUMBERS * instructions as usize;
        let left = program.contents().get(..numbers).unwrap_or_default();
        let complaint = check_discipline(circuit, left).err();
        self.tally.test(complaint.as_slice(), || {
            format!("{}: program of {}", self.case, given.shown())
        });
    }

    pub fn listing(&mut self, [circuit, rules, sites]: [&[u8]; 3]) {
        let mut given = self.given("circuit", circuit);
        let mut patterns = self.given("rules", rules);
        let mut places = self.given("sites", sites);
        let mut listing = self.lent("listing", LISTING_BYTES);
        let answer = listing::listing(circuit, rules, sites, listing.expected());
        let result = call!(napspruce_listing, given, patterns, places, listing);
        let mut told = Vec::new();
        if let Ok(length) = answer {
            let verdict_lines = listing.expected()[..length].rchunks(LINE_BYTES);
            let sites = sites.len() / LINE_BYTES - 1;
            told.extend(verdict_lines.take(sites).map(last_digit));
        }
        let expected = answer.map(|length| vec![length as u64]);
        let slices: Vec<&dyn Watched> = vec![&given, &patterns, &places, &listing];
        self.settle(Call::new(&LISTING, result, expected, slices).with_verdicts(told.iter()));
    }

    fn given<T: Element>(&mut self, name: &'static str, contents: &[T]) -> Slice<T> {
        Slice::given(&mut self.random, name, contents)
    }

    /// A lent buffer of about as many elements as are needed, now and then too short.
    fn lent<T: Element>(&mut self, name: &'static str, needed: usize) -> Slice<T> {
        let random = &mut self.random;
        let len = match random.below(40) {
            0 | 1 => needed.saturating_sub(1),
            2 => random.below(needed + 1) * random.below(2),
            3..=13 => needed + random.between(1, 40),
            _ => needed,
        };
        Slice::lent(random, name, len)
    }

    /// Counts a call as a test and, if it passed, what it came to.
    fn settle(&mut self, call: Call) {
        let complaints = call.complaints();
        self.tally
            .test(&complaints, || format!("{}: {}", self.case, call.shown()));
        if complaints.is_empty() {
            let outcome = call.expected.err();
            let outcome = outcome.map_or(Outcome::Success, Outcome::Refused);
            self.tally.count(call.export, outcome);
            for verdict in call.verdicts {
                self.tally.count(call.export, Outcome::Verdict(verdict));
            }
        }
    }
}

/// Calls `translate`, whose limit stands between its slices.
fn translate_call(circuit: &mut Slice<u32>, limit: u32, program: &mut Slice<u32>) -> u64 {
    let (circuit_len, program_len) = (circuit.len(), program.len());
    let (circuit, program) = (circuit.pointer(), program.pointer());
    unsafe { napspruce_translate(circuit, circuit_len, limit, program, program_len) }
}

fn pair_values(pair: Pair) -> [u64; 2] {
    [pair.depth, pair.critical].map(u64::from)
}

fn found_values(found: Found) -> Vec<u64> {
    vec![found.ways.into(), found.outcome.into(), found.mask.into()]
}

fn rewritten_values(run: Rewritten) -> Vec<u64> {
    let mut values = [run.old, run.new].map(pair_values).concat();
    values.push(run.kept as u64);
    values
}

/// The verdict at the end of a listing's line.
fn last_digit(line: &[u8]) -> Verdict {
    line[LINE_BYTES - 2] - b'0'
}
