//! The slow evaluator's answers in the plain program's types, and comparisons.
//! Not every test uses all of them.
#![allow(dead_code)]

use std::fmt::Debug;

use bench::plain::depth::Pair;
use bench::plain::finding::Found;
use bench::plain::refusal::{Answer, Refusal};
use bench::plain::rewriting::Rewritten;
use bench::plain::translation::Translated;

/// Runs both on the same old buffers: the answers and what the buffers then
/// hold must be the same. Gives the answer.
pub fn agree<B, T>(old: B, plain: impl FnOnce(&mut B) -> T, slow: impl FnOnce(&mut B) -> T) -> T
where
    B: Clone + PartialEq,
    T: Debug + PartialEq,
{
    let (mut plain_buffers, mut slow_buffers) = (old.clone(), old);
    let answer = plain(&mut plain_buffers);
    assert_eq!(answer, slow(&mut slow_buffers));
    assert!(plain_buffers == slow_buffers, "{answer:?}: buffers differ");
    answer
}

/// Old contents in which each place differs from its neighbours.
pub fn old_numbers(length: usize) -> Vec<u32> {
    (0..length as u32).map(|place| 3_000_000 + place).collect()
}

pub fn old_bytes(length: usize) -> Vec<u8> {
    (0..length).map(|place| 100 + (place % 100) as u8).collect()
}

pub fn ours<T>(answer: evaluator::refusal::Answer<T>) -> Answer<T> {
    answer.map_err(|refusal| Refusal {
        number: refusal.number,
        table: refusal.table,
    })
}

pub fn our_pair(pair: evaluator::depth::Pair) -> Pair {
    Pair {
        depth: pair.depth,
        critical: pair.critical,
    }
}

pub fn slow_find(circuit: &[u32], rules: &[u32], [rule, gate, limit]: [u32; 3]) -> Answer<Found> {
    use evaluator::finding::find_mask;
    let found = ours(find_mask(circuit, rules, rule, gate, limit))?;
    Ok(Found {
        outcome: found.outcome,
        mask: found.mask,
        ways: found.ways,
    })
}

pub fn slow_rewrite(
    circuit: &[u32],
    rules: &[u32],
    sites: &[u32],
    result: &mut [u32],
    work: &mut [u32],
    verdicts: &mut [u8],
) -> Answer<Rewritten> {
    use evaluator::rewriting::rewrite;
    let done = ours(rewrite(circuit, rules, sites, result, work, verdicts))?;
    Ok(Rewritten {
        lines: done.lines,
        old: our_pair(done.old),
        new: our_pair(done.new),
        kept: done.kept,
    })
}

pub fn slow_translate(circuit: &[u32], limit: u32, program: &mut [u32]) -> Answer<Translated> {
    let done = ours(evaluator::translation::translate(circuit, limit, program))?;
    Ok(Translated {
        instructions: done.instructions,
        need: done.need,
    })
}
