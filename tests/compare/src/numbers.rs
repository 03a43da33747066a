//! Random numbers, lines, and edits of tables and texts that know nothing of circuits.

use evaluator::lines::Line;
use evaluator::random::Random;

pub const LINE_NUMBERS: usize = 3;

/// Limits of 01 and 02 and their neighbours, numbers whose triple is near 2 to the power 32, and the largest.
const ODD: [u32; 35] = [
    0,
    1,
    2,
    3,
    4,
    6,
    7,
    10,
    11,
    15,
    16,
    64,
    65,
    255,
    256,
    257,
    512,
    513,
    2048,
    2049,
    2561,
    2562,
    65_534,
    65_535,
    1 << 16,
    999_999,
    1_000_000,
    u32::MAX / 3,
    u32::MAX / 3 + 1,
    1 << 30,
    1 << 31,
    u32::MAX / 2,
    u32::MAX - 2,
    u32::MAX - 1,
    u32::MAX,
];

/// Bytes that a misprint is made of.
const BYTES: &[u8] = b" 0159\n\r\t\0+-/:;\x1f\x21\x80\xff";

/// A number near an old one or equal to it but for one bit, or one that is likely to be wrong in its place.
pub fn odd_number(random: &mut Random, old: u32) -> u32 {
    match random.below(10) {
        0 => old.wrapping_add(1),
        1 => old.wrapping_sub(1),
        2 | 3 => old ^ 1 << random.below(32),
        4 => random.below(1 << 32) as u32,
        _ => random.pick(&ODD),
    }
}

/// A few lines whose numbers have one to six digits.
pub fn any_lines(random: &mut Random) -> Vec<Line> {
    let count = random.between(1, 12);
    let mut number = || {
        let digits = random.between(1, 6) as u32;
        random.below(10usize.pow(digits)) as u32
    };
    (0..count).map(|_| [0; 3].map(|_| number())).collect()
}

/// Puts another number into one place from `first` on, if there is one.
pub fn alter(random: &mut Random, table: &mut [u32], first: usize) {
    if first < table.len() {
        let place = random.between(first, table.len() - 1);
        table[place] = odd_number(random, table[place]);
    }
}

/// The first line of a table, as far as it is there.
fn head(table: &mut [u32]) -> &mut [u32] {
    let count = table.len().min(LINE_NUMBERS);
    &mut table[..count]
}

/// Makes one to three edits to a table: other numbers, or more or fewer of them.
pub fn spoil_table(random: &mut Random, table: &mut Vec<u32>) {
    for _ in 0..random.between(1, 3) {
        let count = random.between(1, 6);
        match random.below(20) {
            0 => table.clear(),
            1 | 2 => table.truncate(table.len().saturating_sub(count)),
            3 | 4 => table.extend((0..count).map(|_| odd_number(random, 0))),
            5..=7 => alter(random, head(table), 0),
            _ => alter(random, table, 0),
        }
    }
}

/// Puts another number into one of the lines behind the head that begin with `first`, or into the line behind them.
pub fn spoil_run(random: &mut Random, table: &mut [u32], first: u32) {
    let (lines, _) = table.as_chunks_mut::<LINE_NUMBERS>();
    let run = lines.iter().skip(1).take_while(|line| line[0] == first);
    let end = 2 + run.count();
    if end <= lines.len() {
        let line = random.between(1, end - 1);
        alter(random, &mut lines[line], 0);
    }
}

/// Puts another byte into one to three places of a text.
pub fn spoil_text(random: &mut Random, text: &mut [u8]) {
    for _ in 0..random.between(1, 3) {
        if !text.is_empty() {
            let place = random.below(text.len());
            text[place] = random.pick(BYTES);
        }
    }
}
