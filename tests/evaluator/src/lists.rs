//! What tables of rules and of sites have in common: a head with a count and
//! two zeros.

use crate::lines::Line;
use crate::refusal::{refuse_if, Answer};

/// The count of a table's head, tested for refusal 4.
pub fn list_count(lines: &[Line], most: u32, table: u32) -> Answer<usize> {
    let [count, second, third] = lines[0];
    let outside = count > most || second != 0 || third != 0;
    refuse_if(outside, 4, table)?;
    Ok(count as usize)
}

/// The lines of a table of such parts.
pub fn list_lines<P: IntoIterator<Item = Line>>(
    parts: impl ExactSizeIterator<Item = P>,
) -> Vec<Line> {
    let mut lines = vec![[parts.len() as u32, 0, 0]];
    lines.extend(parts.flatten());
    lines
}
