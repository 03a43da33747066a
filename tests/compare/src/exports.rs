//! What include/napspruce.h says of each function: how its result is one number, and which refusals and verdicts it has.

use evaluator::refusal::{Answer, Refusal, CIRCUIT, NO_TABLE, RULES, SITES};

/// A place of a result in the number, from a bit, so many bits wide.
struct Field {
    shift: u32,
    width: u32,
}

pub struct Export {
    pub name: &'static str,
    fields: &'static [Field],
    refusals: &'static [&'static [Refusal]],
    /// How many verdicts, or outcomes of a search, it can give, from 0.
    verdicts: u8,
}

/// What a call can come to.
#[derive(Clone, Copy, Debug, PartialEq, Eq, PartialOrd, Ord)]
pub enum Outcome {
    Success,
    Refused(Refusal),
    Verdict(u8),
}

const fn field(shift: u32, width: u32) -> Field {
    Field { shift, width }
}

const WHOLE: &[Field] = &[field(0, 64)];
const HALVES: &[Field] = &[field(32, 32), field(0, 32)];
const FOUND: &[Field] = &[field(32, 32), field(16, 16), field(0, 16)];
const REWRITTEN: &[Field] = &[
    field(48, 16),
    field(36, 12),
    field(24, 12),
    field(12, 12),
    field(0, 12),
];

const fn refusal(number: u32, table: u32) -> Refusal {
    Refusal::new(number, table)
}

const LINES: &[Refusal] = &[
    refusal(1, NO_TABLE),
    refusal(3, NO_TABLE),
    refusal(2, NO_TABLE),
];
const TORN_CIRCUIT: &[Refusal] = &[refusal(1, CIRCUIT)];
const TORN_RULES: &[Refusal] = &[refusal(1, RULES)];
const TORN: &[Refusal] = &[refusal(1, CIRCUIT), refusal(1, RULES), refusal(1, SITES)];
const MISPRINTED: &[Refusal] = &[refusal(3, CIRCUIT), refusal(3, RULES), refusal(3, SITES)];
const SHORT_BUFFER: &[Refusal] = &[refusal(2, NO_TABLE)];
const BAD_CIRCUIT: &[Refusal] = &[
    refusal(4, CIRCUIT),
    refusal(5, CIRCUIT),
    refusal(11, CIRCUIT),
    refusal(6, CIRCUIT),
    refusal(7, CIRCUIT),
];
const BAD_RULES: &[Refusal] = &[
    refusal(4, RULES),
    refusal(5, RULES),
    refusal(6, RULES),
    refusal(7, RULES),
    refusal(8, RULES),
];
const BAD_SITES: &[Refusal] = &[refusal(4, SITES), refusal(5, SITES)];
const WRONG_INPUTS: &[Refusal] = &[refusal(1, NO_TABLE)];
const WRONG_LIMIT: &[Refusal] = &[refusal(9, NO_TABLE), refusal(10, NO_TABLE)];
const WRONG_WAYS: &[Refusal] = &[refusal(12, NO_TABLE)];

const fn export(
    name: &'static str,
    fields: &'static [Field],
    refusals: &'static [&'static [Refusal]],
    verdicts: u8,
) -> Export {
    Export {
        name,
        fields,
        refusals,
        verdicts,
    }
}

pub const READ: Export = export("read", WHOLE, &[LINES], 0);
pub const WRITE: Export = export("write", WHOLE, &[LINES], 0);
pub const EVALUATE: Export = export(
    "evaluate",
    WHOLE,
    &[TORN_CIRCUIT, SHORT_BUFFER, BAD_CIRCUIT, WRONG_INPUTS],
    0,
);
pub const MEASURE: Export = export("measure", HALVES, &[TORN_CIRCUIT, BAD_CIRCUIT], 0);
pub const JUDGE: Export = export("judge", WHOLE, &[TORN_RULES, BAD_RULES], 3);
pub const MATCH: Export = export(
    "match",
    WHOLE,
    &[TORN_CIRCUIT, TORN_RULES, BAD_CIRCUIT, BAD_RULES],
    5,
);
pub const FIND: Export = export(
    "find",
    FOUND,
    &[TORN_CIRCUIT, TORN_RULES, BAD_CIRCUIT, BAD_RULES, WRONG_WAYS],
    6,
);
pub const REWRITE: Export = export(
    "rewrite",
    REWRITTEN,
    &[TORN, SHORT_BUFFER, BAD_CIRCUIT, BAD_RULES, BAD_SITES],
    7,
);
pub const TRANSLATE: Export = export(
    "translate",
    HALVES,
    &[TORN_CIRCUIT, SHORT_BUFFER, BAD_CIRCUIT, WRONG_LIMIT],
    0,
);
pub const LISTING: Export = export(
    "listing",
    WHOLE,
    &[
        TORN,
        MISPRINTED,
        SHORT_BUFFER,
        BAD_CIRCUIT,
        BAD_RULES,
        BAD_SITES,
    ],
    7,
);

pub const EXPORTS: [Export; 10] = [
    READ, WRITE, EVALUATE, MEASURE, JUDGE, MATCH, FIND, REWRITE, TRANSLATE, LISTING,
];

impl Export {
    /// All that its calls can come to.
    pub fn outcomes(&self) -> Vec<Outcome> {
        let refusals = self.refusals.iter().copied().flatten();
        let mut outcomes = vec![Outcome::Success];
        outcomes.extend(refusals.map(|&refusal| Outcome::Refused(refusal)));
        outcomes.extend((0..self.verdicts).map(Outcome::Verdict));
        outcomes
    }

    /// The number that stands for an answer.
    pub fn packed(&self, answer: &Answer<Vec<u64>>) -> u64 {
        match answer {
            Ok(values) => {
                let places = self.fields.iter().zip(values);
                places.map(|(field, value)| value << field.shift).sum()
            }
            Err(refusal) => refusal.c_result(),
        }
    }

    /// The answer that a number stands for, as the header's macros take it apart.
    pub fn unpacked(&self, result: u64) -> Answer<Vec<u64>> {
        if result / 1000 == 1000 {
            let [number, table] = [result % 1000 / 10, result % 10].map(|part| part as u32);
            return Err(Refusal::new(number, table));
        }
        Ok(self.fields.iter().map(|field| field.of(result)).collect())
    }
}

impl Field {
    fn of(&self, result: u64) -> u64 {
        result >> self.shift & u64::MAX >> (u64::BITS - self.width)
    }
}
