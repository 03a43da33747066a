//! Texts and tables of lines (01, Lines).

use crate::refusal::{overwrite, refuse_if, require_room, Answer, Refusal, NO_TABLE};

/// The three numbers of a line.
pub type Line = [u32; 3];

pub const LINE_BYTES: usize = 19;
const LINE_NUMBERS: usize = 3;
const COLUMNS: usize = 6;
/// The largest number of a line in a text.
pub const LARGEST: u32 = 999_999;

/// Reads a text into a lent table; gives the number of lines.
pub fn read(text: &[u8], table: &mut [u32]) -> Answer<usize> {
    let lines = lines_of_text(text, NO_TABLE)?;
    let numbers = lines.concat();
    require_room(table, numbers.len())?;
    overwrite(table, &numbers);
    Ok(lines.len())
}

/// Writes a table into a lent text; gives the number of lines.
pub fn write(table: &[u32], text: &mut [u8]) -> Answer<usize> {
    let lines = lines_of_table(table, NO_TABLE)?;
    refuse_if(table.iter().any(|&number| number > LARGEST), 3, NO_TABLE)?;
    require_room(text, lines.len() * LINE_BYTES)?;
    overwrite(text, &text_of(&lines));
    Ok(lines.len())
}

/// The lines of a text, tested for refusal 1, then 3.
pub fn lines_of_text(text: &[u8], table: u32) -> Answer<Vec<Line>> {
    let chunks = text.chunks_exact(LINE_BYTES);
    let torn = text.is_empty() || !chunks.remainder().is_empty();
    refuse_if(torn, 1, table)?;
    let lines: Option<Vec<Line>> = chunks.map(read_line).collect();
    lines.ok_or(Refusal::new(3, table))
}

/// The lines of a table, tested for refusal 1.
pub fn lines_of_table(numbers: &[u32], table: u32) -> Answer<Vec<Line>> {
    let chunks = numbers.chunks_exact(LINE_NUMBERS);
    let torn = numbers.is_empty() || !chunks.remainder().is_empty();
    refuse_if(torn, 1, table)?;
    Ok(chunks.map(|three| [three[0], three[1], three[2]]).collect())
}

/// The text of lines whose numbers are all at most 999,999.
pub fn text_of(lines: &[Line]) -> Vec<u8> {
    let text: String = lines
        .iter()
        .map(|[a, b, c]| format!("{a:>6}{b:>6}{c:>6}\n"))
        .collect();
    text.into_bytes()
}

/// A line of 19 bytes, if it is written as 01, Lines, says.
pub fn read_line(bytes: &[u8]) -> Option<Line> {
    let (columns, end) = bytes.split_at(LINE_NUMBERS * COLUMNS);
    if end != b"\n" {
        return None;
    }
    let number = |place: usize| read_number(&columns[place * COLUMNS..][..COLUMNS]);
    Some([number(0)?, number(1)?, number(2)?])
}

/// Blanks, then digits up to the last column, the first of several not a 0.
fn read_number(columns: &[u8]) -> Option<u32> {
    let blanks = columns.iter().take_while(|&&byte| byte == b' ').count();
    let digits = &columns[blanks..];
    let leading_zero = digits.len() > 1 && digits[0] == b'0';
    if digits.is_empty() || leading_zero || !digits.iter().all(u8::is_ascii_digit) {
        return None;
    }
    let append = |number, digit: &u8| 10 * number + u32::from(digit - b'0');
    Some(digits.iter().fold(0, append))
}
