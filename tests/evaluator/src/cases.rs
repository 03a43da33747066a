//! What the test program `cases` must print: for each case, of three files, a
//! line with what the calls give, and then what the program gives.

use std::fmt::Display;
use std::path::Path;
use std::{fs, io};

use crate::circuit::{Circuit, MOST_OUTPUTS};
use crate::depth::measure;
use crate::evaluation::evaluate;
use crate::finding::{find_mask, MOST_WAYS};
use crate::lines::{self, Line};
use crate::listing::program_output;
use crate::machine::{run, Value};
use crate::matching::match_site;
use crate::refusal::{Answer, CIRCUIT};
use crate::registers::registers_written;
use crate::rewriting::rewrite;
use crate::rules::judge;
use crate::translation::program_of;

/// As many numbers as the program's tables have room for.
const CIRCUIT_ROOM: usize = 10_347;
const TABLE_ROOM: usize = 8_451;
const SITES_ROOM: usize = 1_539;

/// The register limits that every circuit is translated with.
const LIMITS: [u32; 9] = [0, 1, 2, 3, 4, 6, 10, 1024, 1025];

/// The largest numbers, which are tried beside the sites.
const LARGEST: [Line; 2] = [[1, u32::MAX, u32::MAX], [u32::MAX; 3]];

/// What is printed for each case of a folder, whose `args` name three files of
/// its `data` a case; one that can't be opened is empty.
pub fn printed(folder: &Path) -> io::Result<Vec<String>> {
    let args = fs::read_to_string(folder.join("args"))?;
    let names: Vec<&str> = args.lines().collect();
    let text = |name: &str| fs::read(folder.join("data").join(name)).unwrap_or_default();
    let case = |names: &[&str]| {
        let [circuit, rules, sites] = [0, 1, 2].map(|file| text(names[file]));
        let calls = calls(&circuit, &rules, &sites);
        let listing = program_output(&circuit, &rules, &sites);
        let listing = String::from_utf8_lossy(&listing);
        format!("{}: {calls}, listing\n{listing}", names.join(" "))
    };
    Ok(names.chunks_exact(3).map(case).collect())
}

/// What the calls give for three texts.
fn calls(circuit: &[u8], rules: &[u8], sites: &[u8]) -> String {
    let gates = numbers(circuit, TABLE_ROOM);
    let patterns = numbers(rules, TABLE_ROOM);
    let places = numbers(sites, SITES_ROOM);
    [
        recoding(circuit),
        inspection(&numbers(circuit, CIRCUIT_ROOM)),
        judgements(&patterns),
        matches(&gates, &patterns, &places),
        searches(&gates, &patterns, &places),
        rewriting(&gates, &patterns, &places),
    ]
    .concat()
}

/// The numbers of a text that reads into a table of that room; none if it is refused.
fn numbers(text: &[u8], room: usize) -> Vec<u32> {
    let mut table = vec![0; room];
    let lines = lines::read(text, &mut table).unwrap_or(0);
    table.truncate(3 * lines);
    table
}

/// The count that a table's head begins with, up to the most that is allowed.
fn head_count(table: &[u32], most: u32) -> u32 {
    table.first().map_or(0, |&count| count.min(most))
}

/// Words for an answer: its values, each after a blank, or the refusal.
fn words<T: Display>(answer: Answer<Vec<T>>) -> String {
    match answer {
        Ok(values) => values.iter().map(|value| format!(" {value}")).collect(),
        Err(refusal) => format!(" refused {} {}", refusal.number, refusal.table),
    }
}

/// The text validated, then read and written back with room for four lines.
fn recoding(text: &[u8]) -> String {
    let whole = lines::lines_of_text(text, 0).map(|lines| lines.len());
    let recoded = whole.and_then(|_| lines::read(text, &mut [0; 12]));
    let counted = |answer: Answer<usize>| words(answer.map(|lines| vec![format!("lines {lines}")]));
    format!(
        "validate{}, read and write{}",
        counted(whole),
        counted(recoded)
    )
}

/// A circuit measured, evaluated on patterns of bytes, and translated.
fn inspection(table: &[u32]) -> String {
    let pair = measure(table).map(|pair| vec![format!("D {} N {}", pair.depth, pair.critical)]);
    let inputs = head_count(table, 512) as usize;
    let mut line = format!(", measure{}, evaluate", words(pair));
    for (pattern, more) in [(0, 0), (1, 0), (2, 0), (3, 0), (0, 1)] {
        line += &evaluation(table, pattern, inputs + more, MOST_OUTPUTS as usize);
    }
    line += &evaluation(table, 0, inputs, MOST_OUTPUTS as usize - 1);
    line += ", translate";
    for limit in LIMITS {
        line += &words(translation(table, limit));
    }
    line + &short_program(table, inputs)
}

/// The number of instructions, the need, and how many registers the program writes.
pub fn translation(table: &[u32], limit: u32) -> Answer<Vec<usize>> {
    let (translated, program) = program_of(table, limit)?;
    let written = registers_written(&program).len();
    Ok(vec![translated.instructions, translated.need, written])
}

/// A program of fewer than 25 instructions, whole, and what it emits with no more registers than the need.
fn short_program(table: &[u32], inputs: usize) -> String {
    let Ok((translated, program)) = program_of(table, 1024) else {
        return String::new();
    };
    let levels = starting_levels(table).expect("what is translated is a circuit");
    if translated.instructions >= 25 {
        return String::new();
    }
    let emitted = |pattern| {
        let need = translated.need as u32;
        let emitted = run(need, &bytes(pattern, inputs), &levels, &program);
        let values = emitted.expect("the need is enough");
        let words = |value: &Value| format!(" {} {}", u8::from(value.bit), value.level);
        values.iter().map(words).collect::<String>()
    };
    let runs = format!(", run{}, run{}", emitted(3), emitted(1));
    format!(", program{}{runs}", words(Ok(program)))
}

/// The level at which the machine loads each input.
fn starting_levels(table: &[u32]) -> Answer<Vec<u32>> {
    let lines = lines::lines_of_table(table, CIRCUIT)?;
    Ok(Circuit::checked(&lines)?.starting_levels())
}

/// In pattern k the first k of each three bytes are not 0.
fn bytes(pattern: usize, inputs: usize) -> Vec<u8> {
    let byte = |i| if i % 3 < pattern { 200 } else { 0 };
    (0..inputs).map(byte).collect()
}

/// The outputs as one word of bits.
fn evaluation(table: &[u32], pattern: usize, inputs: usize, room: usize) -> String {
    let mut outputs = vec![0; room];
    let count = evaluate(table, &bytes(pattern, inputs), &mut outputs);
    let word = |count: usize| outputs[..count].iter().map(u8::to_string).collect();
    words(count.map(|count| vec![String::from_iter::<Vec<String>>(word(count))]))
}

/// Rule 0, each rule, the number behind the last, and the largest number.
fn judgements(rules: &[u32]) -> String {
    let last = head_count(rules, 64) + 1;
    let verdict = |rule| words(judge(rules, rule).map(|verdict| vec![verdict]));
    let all: String = (0..=last).chain([u32::MAX]).map(verdict).collect();
    format!(", judge{all}")
}

/// Each line behind the head of the sites.
fn listed(sites: &[u32]) -> impl Iterator<Item = Line> + '_ {
    let lines = sites.chunks_exact(3).skip(1);
    lines.map(|line| [line[0], line[1], line[2]])
}

/// Each line behind the head of the sites, and the largest numbers.
fn matches(circuit: &[u32], rules: &[u32], sites: &[u32]) -> String {
    let verdict = |[rule, gate, mask]: Line| {
        words(match_site(circuit, rules, rule, gate, mask).map(|verdict| vec![verdict]))
    };
    let all: String = listed(sites).chain(LARGEST).map(verdict).collect();
    format!(", match{all}")
}

/// Outcome, mask and ways for each line behind the head of the sites, with a
/// limit in place of its mask: 1, and one below, at and one above the ways of
/// its search, which are 0 where there is none; and for the largest numbers.
fn searches(circuit: &[u32], rules: &[u32], sites: &[u32]) -> String {
    let limited = |[rule, gate, _]: Line| {
        let ways = find_mask(circuit, rules, rule, gate, MOST_WAYS).map_or(0, |found| found.ways);
        [1, ways.saturating_sub(1), ways, ways + 1].map(|limit| [rule, gate, limit])
    };
    let search = |[rule, gate, limit]: Line| {
        let found = find_mask(circuit, rules, rule, gate, limit);
        words(found.map(|found| vec![found.outcome.into(), found.mask, found.ways]))
    };
    let wanted = listed(sites).flat_map(limited).chain(LARGEST);
    let all: String = wanted.map(search).collect();
    format!(", find{all}")
}

/// The answer, the table that was written and how many numbers were, and the verdicts.
fn rewriting(circuit: &[u32], rules: &[u32], sites: &[u32]) -> String {
    let mut result = vec![u32::MAX; TABLE_ROOM + 1];
    let mut work = vec![0; TABLE_ROOM];
    let mut verdicts = vec![u8::MAX; 513];
    let answer = rewrite(circuit, rules, sites, &mut result, &mut work, &mut verdicts);
    result.retain(|&number| number != u32::MAX);
    verdicts.retain(|&verdict| verdict != u8::MAX);
    let written = result.len();
    let values = answer.map(|done| {
        let (old, new) = (done.old, done.new);
        vec![
            done.lines as u32,
            old.depth,
            old.critical,
            new.depth,
            new.critical,
            done.kept as u32,
        ]
    });
    let table = words(Ok(result));
    format!(
        ", rewrite{} table{table} written {written} verdicts{}",
        words(values),
        words(Ok(verdicts))
    )
}
