//! Checks any register program against 01, Register program, and 02, 2026-01,
//! 2026-03 and 2026-06, whichever free registers it takes and in whichever order
//! it loads: these are judged by [`crate::discipline`].

use std::collections::{BTreeSet, HashMap};

use crate::circuit::Circuit;
use crate::depth::{depths, pair};
use crate::evaluation::output_bits;
use crate::holding::{after, before, Holding, Moment};
use crate::lines::lines_of_table;
use crate::machine::{run, Instruction, Value, EMIT, INSTRUCTION_NUMBERS, LOAD};
use crate::random::Random;
use crate::refusal::CIRCUIT;
use crate::registers::registers_written;
use crate::translation::{instruction_count, is_limit};

/// How many random inputs a program is run on, beside all zeros and all ones.
const RUNS: usize = 16;

/// What is wrong with a program, in words.
pub type Checked = Result<(), String>;

/// Whether a program (its numbers, nothing beyond) and a need do what is asked
/// for a circuit's table and a limit.
pub fn check_program(circuit: &[u32], limit: u32, program: &[u32], need: u32) -> Checked {
    let circuit = circuit_of(circuit)?;
    let trimmed = circuit.trimmed();
    let holding = Holding::of(&trimmed);
    demand(is_limit(limit), || format!("limit {limit}"))?;
    demand(need as usize == holding.need(), || {
        format!("need {need}, not {}", holding.need())
    })?;
    demand(need <= limit, || format!("need {need} above {limit}"))?;
    let count = instruction_count(&trimmed, &holding);
    demand(program.len() == count * INSTRUCTION_NUMBERS, || {
        format!("{} numbers for {count} instructions", program.len())
    })?;
    Reader::new(limit, program, &holding).follow(&trimmed)?;
    check_registers(program, need)?;
    check_runs(&circuit, limit, program)
}

/// 02, 2026-03: "the number of different registers written is exactly the
/// circuit's need", "and their numbers are all below the need".
pub fn check_registers(program: &[u32], need: u32) -> Checked {
    let written = registers_written(program);
    demand(written.len() == need as usize, || {
        format!("{} registers written, not {need}", written.len())
    })?;
    demand(written.iter().all(|&register| register < need), || {
        format!("registers {written:?} written, not all below {need}")
    })
}

pub(crate) fn demand(condition: bool, complaint: impl Fn() -> String) -> Checked {
    if condition {
        Ok(())
    } else {
        Err(complaint())
    }
}

pub(crate) fn circuit_of(table: &[u32]) -> Result<Circuit, String> {
    let circuit = lines_of_table(table, CIRCUIT).and_then(|lines| Circuit::checked(&lines));
    circuit.map_err(|refusal| format!("circuit: {refusal:?}"))
}

/// Follows a program, knowing whose value each register holds.
struct Reader<'a> {
    limit: u32,
    rest: std::slice::Chunks<'a, u32>,
    holding: &'a Holding,
    owners: HashMap<u32, usize>,
}

impl<'a> Reader<'a> {
    fn new(limit: u32, program: &'a [u32], holding: &'a Holding) -> Reader<'a> {
        Reader {
            limit,
            rest: program.chunks(INSTRUCTION_NUMBERS),
            holding,
            owners: HashMap::new(),
        }
    }

    /// Each gate's loads and operation in order, the last loads, the emits.
    fn follow(mut self, trimmed: &Circuit) -> Checked {
        for (index, gate) in trimmed.gates.iter().enumerate() {
            self.loads(before(index))?;
            let [kind, d, a, b] = self.next()?;
            demand(kind == gate.kind.number(), || {
                format!("gate {index}: kind {kind}")
            })?;
            // 02, 2026-05: a is the left operand, though the bits and levels
            // would be the same the other way round.
            self.reads(a, gate.left)?;
            self.reads(b, gate.right)?;
            self.writes(d, trimmed.first_gate() + index, after(index))?;
        }
        self.loads(self.holding.emits)?;
        for &output in &trimmed.outputs {
            let [kind, a, second, third] = self.next()?;
            demand([kind, second, third] == [EMIT, 0, 0], || {
                format!("no emit of {output}")
            })?;
            self.reads(a, output)?;
        }
        Ok(())
    }

    fn next(&mut self) -> Result<Instruction, String> {
        let numbers = self.rest.next().ok_or("too short")?;
        numbers.try_into().map_err(|_| "torn".to_string())
    }

    /// Exactly the loads of a moment, whichever comes first.
    fn loads(&mut self, moment: Moment) -> Checked {
        let mut owed: BTreeSet<usize> = self.holding.loads_at(moment).into_iter().collect();
        while !owed.is_empty() {
            let [kind, d, reference, last] = self.next()?;
            let owed_load = kind == LOAD && owed.remove(&(reference as usize)) && last == 0;
            demand(owed_load, || format!("moment {moment}: loads of {owed:?}"))?;
            self.writes(d, reference as usize, moment)?;
        }
        Ok(())
    }

    /// The register holds that reference's value.
    fn reads(&self, register: u32, reference: usize) -> Checked {
        let owner = self.owners.get(&register);
        demand(owner == Some(&reference), || {
            format!("register {register} has {owner:?}, not {reference}")
        })
    }

    /// The register is below the limit, and free at that moment but for what
    /// is now put into it.
    fn writes(&mut self, register: u32, reference: usize, moment: Moment) -> Checked {
        demand(register < self.limit, || {
            format!("register {register} not below {}", self.limit)
        })?;
        let old = self.owners.insert(register, reference);
        let held = old.filter(|&old| self.holding.is_held(old, moment));
        demand(held.is_none(), || {
            format!("{reference} overwrites {held:?} in register {register}")
        })
    }
}

/// Runs the program beside the plain evaluator: the same bits, each level the
/// output's depth, the highest of them D.
fn check_runs(circuit: &Circuit, limit: u32, program: &[u32]) -> Checked {
    let depths = depths(circuit);
    let depth = u64::from(pair(circuit).depth);
    let levels = circuit.starting_levels();
    for inputs in trial_inputs(circuit.inputs) {
        let emitted =
            run(limit, &inputs, &levels, program).map_err(|fault| format!("{fault:?}"))?;
        let expected: Vec<Value> = output_bits(circuit, &inputs)
            .into_iter()
            .zip(&circuit.outputs)
            .map(|(bit, &output)| Value {
                bit,
                level: u64::from(depths[output]),
            })
            .collect();
        demand(emitted == expected, || {
            format!("on {inputs:?} {emitted:?}, not {expected:?}")
        })?;
        let highest = emitted.iter().map(|value| value.level).max();
        demand(highest == Some(depth), || format!("level {highest:?}"))?;
    }
    Ok(())
}

/// All zeros, all ones, and random bytes, half of them 0.
fn trial_inputs(inputs: usize) -> Vec<Vec<u8>> {
    let mut random = Random::new(0, inputs as u64);
    let mut trials = vec![vec![0; inputs], vec![1; inputs]];
    for _ in 0..RUNS {
        trials.push((0..inputs).map(|_| random.input_byte()).collect());
    }
    trials
}
