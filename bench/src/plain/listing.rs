//! The host service: three texts to a printed listing.

use super::circuit::{Circuit, MOST_LINES, STARTING};
use super::depth::Pair;
use super::lines::{read_into, run_of, text_of, Line, TextLine, LINE_BYTES};
use super::refusal::{require_room, Answer, CIRCUIT, RULES, SITES};
use super::rewriting::{Done, Order};
use super::rules::MOST_RULE_LINES;
use super::sites::{MOST_SITES, MOST_SITE_LINES};

/// Bytes of a longest listing: the circuit, three lines, a line a site.
pub const LISTING_BYTES: usize = LINE_BYTES * (MOST_LINES + 3 + MOST_SITES);

/// Writes the listing of three texts into a lent buffer; gives its length.
pub fn listing(circuit: &[u8], rules: &[u8], sites: &[u8], buffer: &mut [u8]) -> Answer<usize> {
    // One line more than a table can have is enough to see that a text has
    // too many. The circuit's lines are counted in the text, since those that
    // find no room may be starting lines.
    let mut rooms = (
        [[0; 3]; MOST_LINES],
        [[0; 3]; MOST_RULE_LINES + 1],
        [[0; 3]; MOST_SITE_LINES + 1],
    );
    let text = circuit;
    let circuit = read_into(text, CIRCUIT, &mut rooms.0)?;
    let rules = read_into(rules, RULES, &mut rooms.1)?;
    let sites = read_into(sites, SITES, &mut rooms.2)?;
    require_room(buffer, LISTING_BYTES)?;
    let starting = run_of(b'0' + STARTING as u8, text);
    let circuit = Circuit::counted(circuit, text.len() / LINE_BYTES, starting)?;
    let order = Order::checked(circuit, rules, sites)?;
    let mut room = [[0; 3]; MOST_LINES];
    let mut spare = [[0; 3]; MOST_LINES];
    let mut verdicts = [0; MOST_SITES];
    let done = order.run(&mut room, &mut spare, &mut verdicts);
    let printed = print(&done, &verdicts, buffer.as_chunks_mut().0);
    Ok(LINE_BYTES * printed)
}

/// Prints the circuit, both pairs, sites and kept, then each site's verdict;
/// gives the number of lines.
fn print(done: &Done, verdicts: &[u8], room: &mut [TextLine]) -> usize {
    let (circuit, rest) = room.split_at_mut(done.lines.len());
    for (place, &line) in circuit.iter_mut().zip(done.lines) {
        *place = text_of(line);
    }
    let pair_line = |kind, pair: Pair| [kind, pair.depth, pair.critical];
    let summary: [Line; 3] = [
        pair_line(5, done.old),
        pair_line(6, done.new),
        [7, done.sites as u32, done.kept as u32],
    ];
    let verdicts = (1..).zip(&verdicts[..done.sites]);
    let verdict_lines = verdicts.map(|(site, &verdict)| [8, site, u32::from(verdict)]);
    for (place, line) in rest
        .iter_mut()
        .zip(summary.into_iter().chain(verdict_lines))
    {
        *place = text_of(line);
    }
    done.lines.len() + summary.len() + done.sites
}
