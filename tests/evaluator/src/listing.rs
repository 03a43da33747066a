//! The host service and the program (01, Register program, end, and Marked
//! examples).

use crate::depth::Pair;
use crate::lines::{lines_of_text, text_of, Line};
use crate::refusal::{overwrite, require_room, Answer, Refusal, CIRCUIT, RULES, SITES};
use crate::rewriting::{run, Run};

/// Bytes of a longest listing (02, 2026-01: "and the listing buffer to 63,308
/// bytes").
pub const LISTING_BYTES: usize = 63_308;
/// How many bytes of a file count at most.
pub const FILE_BYTES: usize = 65_531;

/// Writes the listing of three texts into a lent buffer; gives its length.
pub fn listing(circuit: &[u8], rules: &[u8], sites: &[u8], buffer: &mut [u8]) -> Answer<usize> {
    let circuit = lines_of_text(circuit, CIRCUIT)?;
    let rules = lines_of_text(rules, RULES)?;
    let sites = lines_of_text(sites, SITES)?;
    require_room(buffer, LISTING_BYTES)?;
    let text = text_of(&listing_lines(&run(&circuit, &rules, &sites)?));
    overwrite(buffer, &text);
    Ok(text.len())
}

/// The listing's result as the host service in C gets it.
pub fn c_result(answer: Answer<usize>) -> u64 {
    answer.map_or_else(Refusal::c_result, |length| length as u64)
}

/// The bytes of a file that count.
pub fn counted(file: &[u8]) -> &[u8] {
    &file[..file.len().min(FILE_BYTES)]
}

/// What the program prints for the contents of its three files; one that can't
/// be opened is empty.
pub fn program_output(circuit: &[u8], rules: &[u8], sites: &[u8]) -> Vec<u8> {
    let mut buffer = vec![0; LISTING_BYTES];
    let [circuit, rules, sites] = [circuit, rules, sites].map(counted);
    match listing(circuit, rules, sites, &mut buffer) {
        Ok(length) => buffer[..length].to_vec(),
        Err(refusal) => text_of(&[[9, refusal.number, refusal.table]]),
    }
}

/// The circuit, both pairs, sites and kept, then each site's verdict.
fn listing_lines(run: &Run) -> Vec<Line> {
    let pair_line = |kind, pair: Pair| [kind, pair.depth, pair.critical];
    let mut lines = run.circuit.lines();
    lines.push(pair_line(5, run.old));
    lines.push(pair_line(6, run.new));
    lines.push([7, run.verdicts.len() as u32, run.kept() as u32]);
    let verdicts = run.verdicts.iter().zip(1..);
    lines.extend(verdicts.map(|(&verdict, site)| [8, site, u32::from(verdict)]));
    lines
}
