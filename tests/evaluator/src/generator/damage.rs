//! Damage to a draft, each aimed at one refusal.

use super::rules::idle_variant;
use super::starts::spoil_starts;
use super::{Case, Draft};
use crate::circuit::{Circuit, MOST_GATES, MOST_INPUTS, MOST_OUTPUTS};
use crate::gates::CONSTANTS;
use crate::lines::{read_line, text_of, Line, LARGEST, LINE_BYTES};
use crate::listing::FILE_BYTES;
use crate::random::Random;
use crate::refusal::{Refusal, CIRCUIT, RULES, SITES};
use crate::rules::{rules_lines, Rule, MOST_HOLES, MOST_RULES, MOST_SIDE_GATES};
use crate::sites::{sites_lines, MOST_SITES};
use crate::starting::{starts_of, STARTING};

/// Every refusal that a listing of three texts can have, given its buffer.
pub const FAULTS: [Refusal; 18] = [
    Refusal::new(1, CIRCUIT),
    Refusal::new(1, RULES),
    Refusal::new(1, SITES),
    Refusal::new(3, CIRCUIT),
    Refusal::new(3, RULES),
    Refusal::new(3, SITES),
    Refusal::new(4, CIRCUIT),
    Refusal::new(4, RULES),
    Refusal::new(4, SITES),
    Refusal::new(5, CIRCUIT),
    Refusal::new(5, RULES),
    Refusal::new(5, SITES),
    Refusal::new(11, CIRCUIT),
    Refusal::new(6, CIRCUIT),
    Refusal::new(6, RULES),
    Refusal::new(7, CIRCUIT),
    Refusal::new(7, RULES),
    Refusal::new(8, RULES),
];

/// The order in which damages are done: each leaves the later ones possible.
const ORDER: [u32; 8] = [8, 7, 6, 11, 4, 5, 3, 1];

/// What a line of a table is, with what its numbers may be.
#[derive(Clone, Copy)]
enum Role {
    /// The least and the largest of each number.
    Head([(u32, u32); 3]),
    Start,
    /// The gate's own reference.
    Gate(u32),
    /// The first reference beyond those that may be closed on.
    Closing(u32),
    Site,
}

/// A table on its way to a text.
struct Sheet {
    lines: Vec<Line>,
    roles: Vec<Role>,
}

/// The texts of a draft with all those damages.
pub fn damaged(random: &mut Random, mut draft: Draft, faults: &[Refusal]) -> Case {
    let of = |number| faults.iter().filter(move |fault| fault.number == number);
    for _ in of(8) {
        let rule = random.below(draft.rules.len());
        draft.rules[rule] = idle_variant(random);
    }
    let mut sheets = sheets(&draft);
    for fault in ORDER.into_iter().flat_map(of) {
        sheets[fault.table as usize - 1].damage(random, *fault);
    }
    let mut texts = sheets.map(|sheet| text_of(&sheet.lines));
    for fault in ORDER.into_iter().flat_map(of) {
        damage_text(random, &mut texts[fault.table as usize - 1], fault.number);
    }
    let [circuit, rules, sites] = texts;
    Case {
        circuit,
        rules,
        sites,
    }
}

fn sheets(draft: &Draft) -> [Sheet; 3] {
    let rule_roles = draft.rules.iter().flat_map(rule_roles);
    let site_roles = draft.sites.iter().map(|_| Role::Site);
    [
        Sheet {
            lines: draft.circuit.lines(),
            roles: circuit_roles(&draft.circuit),
        },
        Sheet {
            lines: rules_lines(&draft.rules),
            roles: list_roles(MOST_RULES, rule_roles),
        },
        Sheet {
            lines: sites_lines(&draft.sites),
            roles: list_roles(MOST_SITES, site_roles),
        },
    ]
}

/// The roles of a table whose head is a count and two zeros.
fn list_roles(most: u32, parts: impl Iterator<Item = Role>) -> Vec<Role> {
    let mut roles = vec![Role::Head([(0, most), (0, 0), (0, 0)])];
    roles.extend(parts);
    roles
}

fn circuit_roles(circuit: &Circuit) -> Vec<Role> {
    let head = [(0, MOST_INPUTS), (0, MOST_GATES), (1, MOST_OUTPUTS)];
    let mut roles = vec![Role::Head(head)];
    roles.extend(circuit.starts.iter().map(|_| Role::Start));
    roles.extend(gate_roles(circuit.inputs, circuit.gates.len()));
    let closing = Role::Closing(circuit.references() as u32);
    roles.extend(circuit.outputs.iter().map(|_| closing));
    roles
}

fn rule_roles(rule: &Rule) -> Vec<Role> {
    let head = [(0, MOST_HOLES), (1, MOST_SIDE_GATES), (0, MOST_SIDE_GATES)];
    let mut roles = vec![Role::Head(head)];
    roles.extend(gate_roles(rule.holes, rule.left.len()));
    roles.extend(gate_roles(rule.holes, rule.right.len()));
    let beyond = rule.first_gate() + rule.right.len();
    roles.push(Role::Closing(beyond as u32));
    roles
}

fn gate_roles(inputs: usize, gates: usize) -> impl Iterator<Item = Role> {
    let first = CONSTANTS + inputs;
    (first..first + gates).map(|own| Role::Gate(own as u32))
}

impl Sheet {
    /// Does the damage of refusals 4 to 7 and 11; no other.
    fn damage(&mut self, random: &mut Random, fault: Refusal) {
        match fault.number {
            4 => self.break_limit(random),
            5 if fault.table == CIRCUIT && random.chance(50) => self.break_run(random),
            5 => self.miscount(random),
            6 => self.mistake_kind(random),
            7 => self.reach_beyond(random),
            11 => self.mistake_start(random),
            _ => {}
        }
    }

    /// How many starting lines there are, by their places.
    fn starts(&self) -> usize {
        let is_start = |role: &&Role| matches!(role, Role::Start);
        self.roles.iter().filter(is_start).count()
    }

    /// Some line of the wanted roles; there is always one.
    fn some_line(&self, random: &mut Random, wanted: fn(&Role) -> bool) -> usize {
        let found: Vec<usize> = (0..self.roles.len())
            .filter(|&line| wanted(&self.roles[line]))
            .collect();
        random.pick(&found)
    }

    fn break_limit(&mut self, random: &mut Random) {
        let line = self.some_line(random, |role| matches!(role, Role::Head(_)));
        let Role::Head(limits) = self.roles[line] else {
            return;
        };
        let column = random.below(limits.len());
        let (least, largest) = limits[column];
        let below = least.checked_sub(1).unwrap_or(largest + 1);
        self.lines[line][column] = random.pick(&[below, largest + 1, largest + 2, LARGEST]);
    }

    /// Takes lines away or puts some in, never the head. A starting line less
    /// would be counted rightly.
    fn miscount(&mut self, random: &mut Random) {
        let place = random.between(1 + self.starts(), self.lines.len());
        let there = place < self.lines.len();
        match random.below(3) {
            0 if there => {
                self.lines.remove(place);
            }
            1 if there => self.lines.truncate(place),
            _ => {
                let copy = self.lines[random.below(self.lines.len())];
                let place = random.between(1, self.lines.len());
                self.lines.insert(place, copy);
            }
        }
    }

    /// Makes the run of starting lines longer or shorter with as many lines in
    /// all: by what one of them or the line behind them begins with, or by
    /// exchanging one of them for another line.
    fn break_run(&mut self, random: &mut Random) {
        let run = self.starts();
        match random.below(3) {
            0 if run > 0 => {
                let line = random.between(1, run);
                self.lines[line][0] = random.pick(&[0, 1, 2, 3, 5, LARGEST]);
            }
            1 if run > 0 => {
                let line = random.between(1, run);
                let other = random.between(1 + run, self.lines.len() - 1);
                self.lines.swap(line, other);
            }
            _ => self.lines[1 + run][0] = STARTING,
        }
    }

    /// Makes the starting lines give 11.
    fn mistake_start(&mut self, random: &mut Random) {
        let [inputs, gates, _] = self.lines[0].map(|number| number as usize);
        let places = 1..1 + self.starts();
        let mut starts = starts_of(&self.lines[places.clone()]);
        spoil_starts(random, &mut starts, inputs, gates);
        let roles = starts.iter().map(|_| Role::Start);
        self.roles.splice(places.clone(), roles);
        self.lines
            .splice(places, starts.iter().map(|start| start.line()));
    }

    fn mistake_kind(&mut self, random: &mut Random) {
        let line = self.some_line(random, is_gate_or_closing);
        match self.roles[line] {
            Role::Gate(_) => self.lines[line][0] = random.pick(&[0, 3, 4, LARGEST]),
            _ if random.chance(50) => self.lines[line][0] = random.pick(&[0, 1, 2, 4]),
            _ => self.lines[line][2] = random.pick(&[1, 3, LARGEST]),
        }
    }

    fn reach_beyond(&mut self, random: &mut Random) {
        let line = self.some_line(random, is_gate_or_closing);
        let (column, beyond) = match self.roles[line] {
            Role::Gate(own) => (random.between(1, 2), own),
            Role::Closing(beyond) => (1, beyond),
            _ => return,
        };
        self.lines[line][column] = random.pick(&[beyond, beyond + 1, LARGEST]);
    }
}

fn is_gate_or_closing(role: &Role) -> bool {
    matches!(role, Role::Gate(_) | Role::Closing(_))
}

/// Does the damage of refusals 3 and 1; no other.
fn damage_text(random: &mut Random, text: &mut Vec<u8>, number: u32) {
    match number {
        3 => misprint(random, text),
        1 => tear(random, text),
        _ => {}
    }
}

/// Empties the text, or makes it end within a line.
fn tear(random: &mut Random, text: &mut Vec<u8>) {
    let bytes = random.between(1, LINE_BYTES - 1);
    match random.below(3) {
        0 => text.clear(),
        1 => text.truncate(text.len().saturating_sub(bytes)),
        _ => text.resize(text.len() + bytes, b' '),
    }
}

/// Makes one line of the text not a line.
fn misprint(random: &mut Random, text: &mut [u8]) {
    let place = random.below(text.len() / LINE_BYTES) * LINE_BYTES;
    let line = &mut text[place..place + LINE_BYTES];
    while read_line(line).is_some() {
        let column = 6 * random.below(3);
        misprint_number(random, &mut line[column..column + 6]);
        if random.chance(15) {
            line[LINE_BYTES - 1] = random.pick(b" \r0");
        }
    }
}

/// Writes a number in some way that is mostly none of those allowed.
fn misprint_number(random: &mut Random, columns: &mut [u8]) {
    let blanks = columns.iter().take_while(|&&byte| byte == b' ').count();
    match random.below(7) {
        0 => columns.fill(b' '),
        1 => columns.rotate_left(blanks),
        2 => columns[..blanks].fill(b'0'),
        3 => columns[blanks.max(1) - 1] = random.pick(b"0+-"),
        4 => columns[0] = random.pick(b"\t\0x"),
        5 => columns[5] = random.pick(b" \n:/"),
        _ => columns[random.below(6)] = random.between(0, 255) as u8,
    }
}

/// Makes one text longer than a file may count: whole lines up to there, and
/// what is no line beyond.
pub fn lengthen(random: &mut Random, case: &mut Case) {
    let texts = [&mut case.circuit, &mut case.rules, &mut case.sites];
    let text = texts.into_iter().nth(random.below(3));
    if let Some(text) = text {
        let last = text[text.len() - LINE_BYTES..].to_vec();
        while text.len() < FILE_BYTES {
            text.extend(&last);
        }
        let bytes = random.between(1, 2 * LINE_BYTES);
        text.resize(text.len() + bytes, b'x');
    }
}
