//! Tables of sites (01, Sites).

use crate::lines::Line;
use crate::lists::{list_count, list_lines};
use crate::refusal::{refuse_if, Answer, SITES};

pub const MOST_SITES: u32 = 512;

#[derive(Clone, Copy, Debug, PartialEq, Eq)]
pub struct Site {
    pub rule: u32,
    pub gate: u32,
    pub mask: u32,
}

/// The sites of a table's lines, tested for 4 and 5.
pub fn checked_sites(lines: &[Line]) -> Answer<Vec<Site>> {
    let count = list_count(lines, MOST_SITES, SITES)?;
    refuse_if(lines.len() != 1 + count, 5, SITES)?;
    let site = |&[rule, gate, mask]: &Line| Site { rule, gate, mask };
    Ok(lines[1..].iter().map(site).collect())
}

/// The lines of a sites table.
pub fn sites_lines(sites: &[Site]) -> Vec<Line> {
    list_lines(sites.iter().map(|site| [[site.rule, site.gate, site.mask]]))
}
