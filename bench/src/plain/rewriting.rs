//! The run over the sites: verdicts, replacement and trimming.

use std::mem;

use super::circuit::{Circuit, CIRCUIT_NUMBERS, MOST_GATES, MOST_LINES, MOST_OUTPUTS};
use super::depth::{Pair, Places, Survey, MOST_PLACES};
use super::gates::{CLOSING, CONSTANTS};
use super::lines::{lines_of, Line};
use super::matching::{bind, Bindings};
use super::refusal::{require_room, Answer, CIRCUIT, RULES, SITES};
use super::rules::{Rule, Rules, Verdict, MOST_RULES, MOST_SIDE_GATES};
use super::sites::{checked_sites, MOST_SITES};

/// What a rewriting gives back beside its buffers.
#[derive(Clone, Copy, Debug, PartialEq, Eq)]
pub struct Rewritten {
    pub lines: usize,
    pub old: Pair,
    pub new: Pair,
    pub kept: usize,
}

/// Rewrites a circuit into a lent table.
pub fn rewrite(
    circuit: &[u32],
    rules: &[u32],
    sites: &[u32],
    result: &mut [u32],
    work: &mut [u32],
    verdicts: &mut [u8],
) -> Answer<Rewritten> {
    let circuit = lines_of(circuit, CIRCUIT)?;
    let rules = lines_of(rules, RULES)?;
    let sites = lines_of(sites, SITES)?;
    require_room(result, CIRCUIT_NUMBERS)?;
    require_room(work, CIRCUIT_NUMBERS)?;
    require_room(verdicts, MOST_SITES)?;
    let order = Order::checked(Circuit::checked(circuit)?, rules, sites)?;
    let mut spare = [[0; 3]; MOST_LINES];
    let done = order.run(work.as_chunks_mut().0, &mut spare, verdicts);
    // The result is copied once at the end: what lies beyond it in the lent
    // table must stay, and the circuit may have been longer on the way.
    result.as_chunks_mut().0[..done.lines.len()].copy_from_slice(done.lines);
    Ok(Rewritten {
        lines: done.lines.len(),
        old: done.old,
        new: done.new,
        kept: done.kept,
    })
}

/// A circuit, rules and sites that are well-formed.
pub struct Order<'a> {
    circuit: Circuit<'a>,
    rules: Rules<'a>,
    sites: &'a [Line],
}

/// An order carried out; the circuit's lines lie in one of the two rooms.
pub struct Done<'a> {
    pub lines: &'a [Line],
    pub old: Pair,
    pub new: Pair,
    pub sites: usize,
    pub kept: usize,
}

impl<'a> Order<'a> {
    /// Tests the lines of rules and sites for 4 to 8, once the circuit is
    /// known to be well-formed.
    pub fn checked(circuit: Circuit<'a>, rules: &'a [Line], sites: &'a [Line]) -> Answer<Self> {
        Ok(Order {
            circuit,
            rules: Rules::checked(rules)?,
            sites: checked_sites(sites)?,
        })
    }

    /// Trims, then takes the sites in order and puts down their verdicts. Each
    /// of the two rooms holds a largest circuit.
    pub fn run<'b>(
        &self,
        room: &'b mut [Line],
        spare: &'b mut [Line],
        verdicts: &mut [u8],
    ) -> Done<'b> {
        let mut judge = Judge::new(&self.rules);
        let mut scratch = Scratch::blank();
        let mut run = Run::new(self.circuit, room, spare, &mut scratch);
        let old = run.pair;
        let mut kept = 0;
        for (place, &site) in verdicts.iter_mut().zip(self.sites) {
            *place = run.step(&mut judge, site).err().unwrap_or(0);
            kept += usize::from(*place == 0);
        }
        Done {
            old,
            new: run.pair,
            sites: self.sites.len(),
            kept,
            lines: run.finished(),
        }
    }
}

/// Judges each rule at most once in a run.
struct Judge<'a> {
    rules: &'a Rules<'a>,
    sound: [Option<bool>; MOST_RULES],
}

impl<'a> Judge<'a> {
    fn new(rules: &'a Rules<'a>) -> Self {
        Judge {
            rules,
            sound: [None; MOST_RULES],
        }
    }

    /// The index of the rule of that number, or verdict 1 or 2.
    fn sound_index(&mut self, number: u32) -> Result<usize, Verdict> {
        let index = self.rules.index_of(number).ok_or(1)?;
        let rule = || self.rules.rule(index);
        if *self.sound[index].get_or_insert_with(|| rule().is_sound()) {
            Ok(index)
        } else {
            Err(2)
        }
    }
}

/// What a run works in, made once and never moved.
struct Scratch {
    survey: Survey,
    names: Places,
    depth: Places,
}

impl Scratch {
    fn blank() -> Self {
        Scratch {
            survey: Survey::blank(),
            names: [0; MOST_PLACES],
            depth: [0; MOST_PLACES],
        }
    }
}

/// The current circuit, trimmed.
struct Run<'a, 'b, 'c> {
    inputs: usize,
    /// The starting lines, which stay.
    starts: &'c [Line],
    /// Its gates, after places for the head and the starting lines.
    lines: &'b mut [Line],
    gates: usize,
    outputs: Outputs,
    pair: Pair,
    /// Depths and reaches of the circuit as it would be after a replacement.
    survey: &'a mut Survey,
    /// Knows the current depths, since it put the current gates down.
    trimmer: Trimmer<'a, 'b>,
}

impl<'a, 'b, 'c> Run<'a, 'b, 'c> {
    fn new(
        circuit: Circuit<'c>,
        room: &'b mut [Line],
        spare: &'b mut [Line],
        scratch: &'a mut Scratch,
    ) -> Self {
        let first = circuit.first_gate();
        let survey = &mut scratch.survey;
        let pair = survey.circuit(circuit);
        scratch.depth[..first].copy_from_slice(&survey.depth[..first]);
        let top = 1 + circuit.starts.len();
        let mut trimmer = Trimmer::new(first, top, room, &mut scratch.names, &mut scratch.depth);
        trimmer.append(survey, circuit.gates, first);
        let mut run = Run {
            inputs: circuit.inputs,
            starts: circuit.starts,
            lines: spare,
            gates: 0,
            outputs: Outputs::new(circuit.outputs()),
            pair,
            survey,
            trimmer,
        };
        run.take_trimmed(pair);
        run
    }

    /// Takes one site: it is kept, or has the first verdict that applies.
    fn step(&mut self, judge: &mut Judge, [rule, gate, mask]: Line) -> Result<(), Verdict> {
        let rule = judge.rules.rule(judge.sound_index(rule)?);
        let (first, gate) = (self.trimmer.first, gate as usize);
        let gates = &self.lines[self.trimmer.top..][..self.gates];
        if !(first..first + gates.len()).contains(&gate) {
            return Err(3);
        }
        let Some(bound) = bind(gates, first, rule, gate, mask) else {
            return Err(4);
        };
        if gates.len() - 1 + rule.right.len() > MOST_GATES {
            return Err(5);
        }
        let replacement = Replacement::new(rule, bound, gate, first + gates.len());
        let pair = self.lower_pair(&replacement).ok_or(6)?;
        self.keep(&replacement, pair);
        Ok(())
    }

    /// The pair after the replacement if it is lower than the current one.
    fn lower_pair(&mut self, new: &Replacement) -> Option<Pair> {
        let first = self.trimmer.first;
        let gates = &self.lines[self.trimmer.top..][..self.gates];
        let (below, above) = new.around(gates, first);
        let survey = &mut *self.survey;
        // The gates above still name the gate, and not yet what its uses become.
        survey.constant = if new.closing < CONSTANTS { new.gate } else { 0 };
        survey.depth[..new.gate].copy_from_slice(&self.trimmer.depth[..new.gate]);
        survey.rise(new.right(), new.base);
        survey.depth[new.gate] = survey.depth[new.closing];
        survey.rise(above, new.gate + 1);
        survey.reach[..new.base + new.count].fill(0);
        let depth = survey.start_fall(self.outputs.references());
        if depth > self.pair.depth {
            return None;
        }
        let mut critical = survey.fall(above, new.gate + 1, depth);
        survey.extend(new.closing, survey.reach[new.gate]);
        critical += survey.fall(new.right(), new.base, depth);
        critical += survey.fall(below, first, depth);
        let pair = Pair { depth, critical };
        (pair < self.pair).then_some(pair)
    }

    /// Replaces and trims in one go, by the survey just made.
    fn keep(&mut self, new: &Replacement, pair: Pair) {
        let gates = &self.lines[self.trimmer.top..][..self.gates];
        let (below, above) = new.around(gates, self.trimmer.first);
        let (survey, trimmer) = (&*self.survey, &mut self.trimmer);
        trimmer.append(survey, below, trimmer.first);
        trimmer.append(survey, new.right(), new.base);
        trimmer.names[new.gate] = trimmer.names[new.closing];
        trimmer.append(survey, above, new.gate + 1);
        self.take_trimmed(pair);
    }

    /// What the trimmer holds becomes the current circuit.
    fn take_trimmed(&mut self, pair: Pair) {
        self.outputs.rename(self.trimmer.names);
        self.gates = mem::take(&mut self.trimmer.gates);
        mem::swap(&mut self.lines, &mut self.trimmer.lines);
        self.pair = pair;
    }

    /// All lines of the current circuit.
    fn finished(self) -> &'b [Line] {
        let outputs = &self.outputs;
        let counts = [self.inputs, self.gates, outputs.count];
        self.lines[0] = counts.map(|count| count as u32);
        let top = self.trimmer.top;
        self.lines[1..top].copy_from_slice(self.starts);
        let closings = self.lines[top + self.gates..].iter_mut();
        for (line, output) in closings.zip(outputs.references()) {
            *line = [CLOSING, output as u32, 0];
        }
        &self.lines[..top + self.gates + outputs.count]
    }
}

/// The outputs of the current circuit.
struct Outputs {
    references: [u16; MOST_OUTPUTS],
    count: usize,
}

impl Outputs {
    fn new(outputs: impl ExactSizeIterator<Item = usize>) -> Self {
        let mut references = [0; MOST_OUTPUTS];
        let count = outputs.len();
        for (place, output) in references.iter_mut().zip(outputs) {
            *place = output as u16;
        }
        Outputs { references, count }
    }

    fn references(&self) -> impl Iterator<Item = usize> + '_ {
        self.references[..self.count]
            .iter()
            .copied()
            .map(usize::from)
    }

    fn rename(&mut self, names: &Places) {
        for output in &mut self.references[..self.count] {
            *output = names[usize::from(*output)];
        }
    }
}

/// A rule's right side for a gate, without a new table: its gates take the
/// places from `base`, beyond those of the circuit, and are to be looked at
/// where the gate lies.
struct Replacement {
    gate: usize,
    base: usize,
    right: [Line; MOST_SIDE_GATES],
    count: usize,
    /// The place that each use of the gate becomes.
    closing: usize,
}

impl Replacement {
    fn new(rule: Rule, bound: Bindings, gate: usize, base: usize) -> Self {
        // Holes keep their bindings; the left gates' are no longer needed.
        let mut names = bound;
        for (name, place) in names[rule.first_gate()..].iter_mut().zip(base..) {
            *name = place as u32;
        }
        let mut right = [[0; 3]; MOST_SIDE_GATES];
        for (line, &[kind, a, b]) in right.iter_mut().zip(rule.right) {
            *line = [kind, names[a as usize], names[b as usize]];
        }
        Replacement {
            gate,
            base,
            right,
            count: rule.right.len(),
            closing: names[rule.closing()] as usize,
        }
    }

    fn right(&self) -> &[Line] {
        &self.right[..self.count]
    }

    /// The gates before and after the one to be replaced.
    fn around<'a>(&self, gates: &'a [Line], first: usize) -> (&'a [Line], &'a [Line]) {
        let index = self.gate - first;
        (&gates[..index], &gates[index + 1..])
    }
}

/// Puts the live gates of blocks down one after another, renumbered.
struct Trimmer<'a, 'b> {
    first: usize,
    /// The place of the first gate's line.
    top: usize,
    lines: &'b mut [Line],
    gates: usize,
    /// The new reference of each place; constants and inputs keep theirs.
    names: &'a mut Places,
    /// The depth of each new reference, and those of constants and inputs.
    depth: &'a mut Places,
}

impl<'a, 'b> Trimmer<'a, 'b> {
    fn new(
        first: usize,
        top: usize,
        lines: &'b mut [Line],
        names: &'a mut Places,
        depth: &'a mut Places,
    ) -> Self {
        for (name, place) in names[..first].iter_mut().zip(0..) {
            *name = place;
        }
        Trimmer {
            first,
            top,
            lines,
            gates: 0,
            names,
            depth,
        }
    }

    /// Appends the live gates of a block, the first at place `base`.
    fn append(&mut self, survey: &Survey, gates: &[Line], base: usize) {
        for (place, &[kind, left, right]) in (base..).zip(gates) {
            if !survey.is_live(place) {
                continue;
            }
            let own = self.first + self.gates;
            let operands = [left, right].map(|operand| self.names[operand as usize]);
            let [left, right] = operands.map(u32::from);
            self.lines[self.top + self.gates] = [kind, left, right];
            self.names[place] = own as u16;
            self.depth[own] = survey.depth[place];
            self.gates += 1;
        }
    }
}
