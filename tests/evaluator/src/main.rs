//! The evaluator's commands, each on text files.

use std::io::{self, Write};
use std::path::Path;
use std::process::ExitCode;
use std::{env, fs};

use evaluator::cases;
use evaluator::circuit::MOST_OUTPUTS;
use evaluator::depth::measure;
use evaluator::evaluation::evaluate;
use evaluator::finding::find_mask;
use evaluator::generator::case;
use evaluator::lines::lines_of_text;
use evaluator::listing::program_output;
use evaluator::matching::match_site;
use evaluator::refusal::{Answer, CIRCUIT, RULES};
use evaluator::rules::judge;

const USAGE: &str = "evaluator listing CIRCUIT RULES SITES
evaluator judge RULES RULE
evaluator match CIRCUIT RULES RULE GATE MASK
evaluator find CIRCUIT RULES RULE GATE LIMIT
evaluator measure CIRCUIT
evaluator evaluate CIRCUIT BYTE..
evaluator translate CIRCUIT LIMIT
evaluator cases FOLDER
evaluator random SEED N DIR";

fn main() -> ExitCode {
    let words: Vec<String> = env::args().skip(1).collect();
    let words: Vec<&str> = words.iter().map(String::as_str).collect();
    let Some(text) = answer(&words) else {
        eprintln!("{USAGE}");
        return ExitCode::from(2);
    };
    match text.and_then(|text| io::stdout().write_all(&text)) {
        Ok(()) => ExitCode::SUCCESS,
        Err(error) => {
            eprintln!("{error}");
            ExitCode::FAILURE
        }
    }
}

/// What a command prints; none if there is no such command.
fn answer(words: &[&str]) -> Option<io::Result<Vec<u8>>> {
    let printed = match *words {
        ["listing", circuit, rules, sites] => {
            program_output(&file(circuit), &file(rules), &file(sites))
        }
        ["judge", rules, rule] => values(judge_file(rules, number(rule)?)),
        ["match", circuit, rules, rule, gate, mask] => {
            let site = [number(rule)?, number(gate)?, number(mask)?];
            values(match_files(circuit, rules, site))
        }
        ["find", circuit, rules, rule, gate, limit] => {
            let wanted = [number(rule)?, number(gate)?, number(limit)?];
            values(find_files(circuit, rules, wanted))
        }
        ["measure", circuit] => values(measure_file(circuit)),
        ["evaluate", circuit, ref bytes @ ..] => {
            let bytes: Option<Vec<u8>> = bytes.iter().map(|byte| number(byte)).collect();
            values(evaluate_file(circuit, &bytes?))
        }
        ["translate", circuit, limit] => values(translate_file(circuit, number(limit)?)),
        ["cases", folder] => {
            let printed = cases::printed(Path::new(folder));
            return Some(printed.map(|cases| cases.concat().into_bytes()));
        }
        ["random", seed, count, directory] => {
            let written = write_cases(number(seed)?, number(count)?, Path::new(directory));
            return Some(written.map(|()| Vec::new()));
        }
        _ => return None,
    };
    Some(Ok(printed))
}

fn number<T: std::str::FromStr>(word: &str) -> Option<T> {
    word.parse().ok()
}

/// A file's contents; one that can't be opened is empty.
fn file(path: &str) -> Vec<u8> {
    fs::read(path).unwrap_or_default()
}

/// The table of a text file, refused with that table's number.
fn table(path: &str, table: u32) -> Answer<Vec<u32>> {
    Ok(lines_of_text(&file(path), table)?.concat())
}

/// The values of an answer on one line, or its refusal.
fn values(answer: Answer<Vec<u64>>) -> Vec<u8> {
    let line = match answer {
        Ok(values) => {
            let words: Vec<String> = values.iter().map(u64::to_string).collect();
            words.join(" ")
        }
        Err(refusal) => format!("refused {} {}", refusal.number, refusal.table),
    };
    (line + "\n").into_bytes()
}

fn judge_file(rules: &str, rule: u32) -> Answer<Vec<u64>> {
    let verdict = judge(&table(rules, RULES)?, rule)?;
    Ok(vec![u64::from(verdict)])
}

fn match_files(circuit: &str, rules: &str, [rule, gate, mask]: [u32; 3]) -> Answer<Vec<u64>> {
    let circuit = table(circuit, CIRCUIT)?;
    let rules = table(rules, RULES)?;
    let verdict = match_site(&circuit, &rules, rule, gate, mask)?;
    Ok(vec![u64::from(verdict)])
}

/// The outcome, the mask and the ways.
fn find_files(circuit: &str, rules: &str, [rule, gate, limit]: [u32; 3]) -> Answer<Vec<u64>> {
    let circuit = table(circuit, CIRCUIT)?;
    let rules = table(rules, RULES)?;
    let found = find_mask(&circuit, &rules, rule, gate, limit)?;
    Ok(vec![
        found.outcome.into(),
        found.mask.into(),
        found.ways.into(),
    ])
}

fn measure_file(circuit: &str) -> Answer<Vec<u64>> {
    let pair = measure(&table(circuit, CIRCUIT)?)?;
    Ok(vec![u64::from(pair.depth), u64::from(pair.critical)])
}

fn evaluate_file(circuit: &str, bytes: &[u8]) -> Answer<Vec<u64>> {
    let mut outputs = [0; MOST_OUTPUTS as usize];
    let count = evaluate(&table(circuit, CIRCUIT)?, bytes, &mut outputs)?;
    Ok(outputs[..count].iter().map(|&bit| u64::from(bit)).collect())
}

/// The number of instructions, the need, and how many registers the program writes.
fn translate_file(circuit: &str, limit: u32) -> Answer<Vec<u64>> {
    let values = cases::translation(&table(circuit, CIRCUIT)?, limit)?;
    Ok(values.into_iter().map(|value| value as u64).collect())
}

/// Writes cases 1 to `count` of a seed into directories 0001, 0002 and so on.
fn write_cases(seed: u64, count: u64, directory: &Path) -> io::Result<()> {
    for number in 1..=count {
        let place = directory.join(format!("{number:04}"));
        fs::create_dir_all(&place)?;
        let case = case(seed, number);
        fs::write(place.join("circuit"), case.circuit)?;
        fs::write(place.join("rules"), case.rules)?;
        fs::write(place.join("sites"), case.sites)?;
    }
    Ok(())
}
