//! The ten calls, so that jobs can be given the one program or the other.

use crate::plain::refusal::{Answer, Refusal};
use crate::plain::{
    depth, evaluation, finding, lines, listing, matching, rewriting, rules, translation,
};

/// The calls as the library exports them, parameters in the same order.
///
/// A refusal is 1,000,000 + 10 x number + table. Otherwise the result is, for
/// reading and writing, 0; for a pair, D in the high 32 bits and N in the low;
/// for a translation, the need in the high 32 bits and the instructions in the
/// low; for a search, the ways in the high 32 bits, then the outcome and the
/// mask, 16 bits each; for a rewriting, old D, old N, new D, new N and kept, 12
/// bits each; and for the other calls the number they give.
pub trait Program {
    fn read(&self, text: &[u8], table: &mut [u32]) -> u64;
    fn write(&self, table: &[u32], text: &mut [u8]) -> u64;
    fn evaluate(&self, circuit: &[u32], inputs: &[u8], outputs: &mut [u8]) -> u64;
    fn measure(&self, circuit: &[u32]) -> u64;
    fn judge(&self, rules: &[u32], rule: u32) -> u64;
    fn match_site(&self, circuit: &[u32], rules: &[u32], site: [u32; 3]) -> u64;
    /// The three numbers are a rule, a gate and a limit of ways.
    fn find_mask(&self, circuit: &[u32], rules: &[u32], wanted: [u32; 3]) -> u64;
    fn rewrite(&self, tables: [&[u32]; 3], buffers: Rewriting) -> u64;
    fn translate(&self, circuit: &[u32], limit: u32, program: &mut [u32]) -> u64;
    fn listing(&self, texts: [&[u8]; 3], listing: &mut [u8]) -> u64;
}

/// The buffers lent to the rewriter.
pub struct Rewriting<'a> {
    pub result: &'a mut [u32],
    pub work: &'a mut [u32],
    pub verdicts: &'a mut [u8],
}

/// Whether a result is a refusal; no success has such a number.
pub fn is_refusal(result: u64) -> bool {
    (1_000_000..1_001_000).contains(&result)
}

/// The plain program.
pub struct Plain;

impl Program for Plain {
    fn read(&self, text: &[u8], table: &mut [u32]) -> u64 {
        packed(lines::read(text, table), |_| 0)
    }

    fn write(&self, table: &[u32], text: &mut [u8]) -> u64 {
        packed(lines::write(table, text), |_| 0)
    }

    fn evaluate(&self, circuit: &[u32], inputs: &[u8], outputs: &mut [u8]) -> u64 {
        let answer = evaluation::evaluate(circuit, inputs, outputs);
        packed(answer, |outputs| outputs as u64)
    }

    fn measure(&self, circuit: &[u32]) -> u64 {
        packed(depth::measure(circuit), |pair| {
            high_and_low(pair.depth, pair.critical)
        })
    }

    fn judge(&self, rules: &[u32], rule: u32) -> u64 {
        packed(rules::judge(rules, rule), u64::from)
    }

    fn match_site(&self, circuit: &[u32], rules: &[u32], [rule, gate, mask]: [u32; 3]) -> u64 {
        let answer = matching::match_site(circuit, rules, rule, gate, mask);
        packed(answer, u64::from)
    }

    fn find_mask(&self, circuit: &[u32], rules: &[u32], [rule, gate, limit]: [u32; 3]) -> u64 {
        let answer = finding::find_mask(circuit, rules, rule, gate, limit);
        packed(answer, |found| {
            high_and_low(found.ways, u32::from(found.outcome) << 16 | found.mask)
        })
    }

    fn rewrite(&self, [circuit, rules, sites]: [&[u32]; 3], buffers: Rewriting) -> u64 {
        let Rewriting {
            result,
            work,
            verdicts,
        } = buffers;
        let answer = rewriting::rewrite(circuit, rules, sites, result, work, verdicts);
        packed(answer, pack_rewritten)
    }

    fn translate(&self, circuit: &[u32], limit: u32, program: &mut [u32]) -> u64 {
        let answer = translation::translate(circuit, limit, program);
        packed(answer, |done| {
            high_and_low(done.need as u32, done.instructions as u32)
        })
    }

    fn listing(&self, [circuit, rules, sites]: [&[u8]; 3], listing: &mut [u8]) -> u64 {
        let answer = listing::listing(circuit, rules, sites, listing);
        packed(answer, |length| length as u64)
    }
}

fn packed<T>(answer: Answer<T>, success: impl FnOnce(T) -> u64) -> u64 {
    answer.map_or_else(pack_refusal, success)
}

fn pack_refusal(refusal: Refusal) -> u64 {
    1_000_000 + 10 * u64::from(refusal.number) + u64::from(refusal.table)
}

fn high_and_low(high: u32, low: u32) -> u64 {
    u64::from(high) << 32 | u64::from(low)
}

fn pack_rewritten(done: rewriting::Rewritten) -> u64 {
    let (old, new) = (done.old, done.new);
    [old.depth, old.critical, new.depth, new.critical]
        .into_iter()
        .chain([done.kept as u32])
        .fold(0, |packed, part| packed << 12 | u64::from(part))
}
