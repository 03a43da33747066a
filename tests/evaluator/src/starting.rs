//! Starting lines: inputs that arrive at a level (02, 2026-01).

use crate::gates::CONSTANTS;
use crate::lines::Line;

/// What a starting line begins with.
pub const STARTING: u32 = 4;
pub const LOWEST_LEVEL: u32 = 1;
pub const HIGHEST_LEVEL: u32 = 255;

/// A starting line: 4, input reference, level.
#[derive(Clone, Copy, Debug, PartialEq, Eq)]
pub struct Start {
    pub reference: usize,
    pub level: u32,
}

impl Start {
    pub fn line(self) -> Line {
        [STARTING, self.reference as u32, self.level]
    }
}

/// Parts what follows a circuit's head: "right after a circuit's head, all
/// lines that begin with 4", whatever else is in them, and the rest. A first
/// gate line that begins with 4 is among the former.
pub fn split_starting(lines: &[Line]) -> (&[Line], &[Line]) {
    let run = lines.iter().take_while(|line| line[0] == STARTING).count();
    lines.split_at(run)
}

/// What starting lines say, right or wrong.
pub fn starts_of(starting: &[Line]) -> Vec<Start> {
    let start = |&[_, reference, level]: &Line| Start {
        reference: reference as usize,
        level,
    };
    starting.iter().map(start).collect()
}

/// Whether no line gives 11: "a starting line with a reference that is not an
/// input or not above the one before, or a level out of range".
pub fn starts_hold(inputs: usize, starts: &[Start]) -> bool {
    let are_inputs = starts
        .iter()
        .all(|start| (CONSTANTS..CONSTANTS + inputs).contains(&start.reference));
    let are_above = starts
        .windows(2)
        .all(|two| two[1].reference > two[0].reference);
    let are_levels = starts
        .iter()
        .all(|start| (LOWEST_LEVEL..=HIGHEST_LEVEL).contains(&start.level));
    are_inputs && are_above && are_levels
}

/// The starting level of each input: "an unlisted input starts at 0".
pub fn starting_levels(inputs: usize, starts: &[Start]) -> Vec<u32> {
    let mut levels = vec![0; inputs];
    for start in starts {
        levels[start.reference - CONSTANTS] = start.level;
    }
    levels
}
