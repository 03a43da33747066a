//! Starting lines for random cases, right ones and such as give 11.

use crate::gates::CONSTANTS;
use crate::lines::LARGEST;
use crate::random::Random;
use crate::starting::{Start, HIGHEST_LEVEL, LOWEST_LEVEL};

/// Starting lines of none, some or all of the inputs. Most levels are low: a
/// few ANDs make up for them, so that they decide what is critical.
pub fn some_starts(random: &mut Random, inputs: usize) -> Vec<Start> {
    let listed = random.pick(&[0, 0, 30, 60, 100]);
    let highest = random.pick(&[1, 2, 4, 12, HIGHEST_LEVEL]);
    let mut starts = Vec::new();
    for reference in CONSTANTS..CONSTANTS + inputs {
        if random.chance(listed) {
            starts.push(Start {
                reference,
                level: some_level(random, highest),
            });
        }
    }
    starts
}

/// A level up to the highest wanted, or now and then one of the two ends.
fn some_level(random: &mut Random, highest: u32) -> u32 {
    if random.chance(10) {
        random.pick(&[LOWEST_LEVEL, HIGHEST_LEVEL])
    } else {
        random.between(LOWEST_LEVEL as usize, highest as usize) as u32
    }
}

/// Makes starting lines give 11 in one of the ways there are, if need be by one
/// line more.
pub fn spoil_starts(random: &mut Random, starts: &mut Vec<Start>, inputs: usize, gates: usize) {
    if starts.is_empty() {
        starts.push(Start {
            reference: CONSTANTS + random.below(inputs.max(1)),
            level: LOWEST_LEVEL,
        });
    }
    let place = random.below(starts.len());
    match random.below(6) {
        0 => starts[place].level = random.pick(&[0, 256, 257, LARGEST]),
        1 => starts[place].reference = random.below(CONSTANTS),
        2 => starts[place].reference = beyond_inputs(random, inputs, gates),
        3 => repeat(random, starts, place),
        4 => exchange(random, starts, place),
        _ => outnumber(random, starts, inputs),
    }
}

/// The first gate, the last one, or a reference beyond the circuit.
fn beyond_inputs(random: &mut Random, inputs: usize, gates: usize) -> usize {
    let first = CONSTANTS + inputs;
    random.pick(&[
        first,
        first + gates.saturating_sub(1),
        first + gates,
        LARGEST as usize,
    ])
}

/// A line whose reference equals the one before.
fn repeat(random: &mut Random, starts: &mut Vec<Start>, place: usize) {
    let level = some_level(random, HIGHEST_LEVEL);
    let again = Start {
        level,
        ..starts[place]
    };
    starts.insert(place + 1, again);
}

/// A line whose reference is below the one before; equal to it if there is
/// only one line.
fn exchange(random: &mut Random, starts: &mut Vec<Start>, place: usize) {
    let other = random.below(starts.len());
    if other == place {
        repeat(random, starts, place);
    } else {
        starts.swap(place, other);
    }
}

/// Makes starting lines, of which there is one at least, more than there are
/// inputs: the references go on ascending, or the last one comes again and
/// again.
pub fn outnumber(random: &mut Random, starts: &mut Vec<Start>, inputs: usize) {
    let step = random.below(2);
    let count = inputs + random.pick(&[1, 2, 88]);
    while starts.len() < count {
        let last = starts[starts.len() - 1];
        starts.push(Start {
            reference: (last.reference + step).min(LARGEST as usize),
            level: some_level(random, HIGHEST_LEVEL),
        });
    }
}
