//! Sites in tables.

use super::lines::Line;
use super::refusal::{require, Answer, SITES};
use super::rules::list_count;

pub const MOST_SITES: usize = 512;
pub const MOST_SITE_LINES: usize = 1 + MOST_SITES;

/// The sites of a table's lines, tested for 4 and 5.
pub fn checked_sites(lines: &[Line]) -> Answer<&[Line]> {
    let count = list_count(lines, MOST_SITES, SITES)?;
    require(lines.len() == 1 + count, 5, SITES)?;
    Ok(&lines[1..])
}
