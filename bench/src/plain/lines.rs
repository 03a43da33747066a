//! The line layer: texts of 19 bytes a line, tables of three numbers a line.

use super::refusal::{require, require_room, Answer, NO_TABLE};

pub type Line = [u32; 3];

pub const LINE_BYTES: usize = 19;
pub type TextLine = [u8; LINE_BYTES];

/// The largest number that a text can hold.
const LARGEST: u32 = 999_999;
const COLUMNS: usize = 6;

/// Reads a text into a lent table; gives the number of lines.
pub fn read(text: &[u8], table: &mut [u32]) -> Answer<usize> {
    let lines = lines_of(text, NO_TABLE)?;
    // Every line is tested before the first is stored, so that a refusal
    // leaves the table as it was.
    require(lines.iter().all(is_line), 3, NO_TABLE)?;
    let (room, _) = table.as_chunks_mut();
    require_room(room, lines.len())?;
    for (place, line) in room.iter_mut().zip(lines) {
        read_line(line, place);
    }
    Ok(lines.len())
}

/// Writes a table into a lent text; gives the number of lines.
pub fn write(table: &[u32], text: &mut [u8]) -> Answer<usize> {
    let lines = lines_of(table, NO_TABLE)?;
    let writable = table.iter().all(|&number| number <= LARGEST);
    require(writable, 3, NO_TABLE)?;
    let (room, _) = text.as_chunks_mut();
    require_room(room, lines.len())?;
    for (place, &line) in room.iter_mut().zip(lines) {
        *place = text_of(line);
    }
    Ok(lines.len())
}

/// The lines of a text or a table, tested for refusal 1.
pub fn lines_of<T, const SIZE: usize>(all: &[T], table: u32) -> Answer<&[[T; SIZE]]> {
    let (lines, torn) = all.as_chunks();
    require(!lines.is_empty() && torn.is_empty(), 1, table)?;
    Ok(lines)
}

/// Reads a text into scratch, tested for refusals 1 and 3; gives the lines
/// that found room. Lines beyond it are tested but not stored.
pub fn read_into<'a>(text: &[u8], table: u32, room: &'a mut [Line]) -> Answer<&'a [Line]> {
    let lines = lines_of(text, table)?;
    let (stored, beyond) = lines.split_at(lines.len().min(room.len()));
    for (place, line) in room.iter_mut().zip(stored) {
        require(is_line(line), 3, table)?;
        read_line(line, place);
    }
    require(beyond.iter().all(is_line), 3, table)?;
    Ok(&room[..stored.len()])
}

/// How many lines of a text there are from the second on that begin with a
/// number of one digit, if all are lines.
pub fn run_of(digit: u8, text: &[u8]) -> usize {
    let (lines, _) = text.as_chunks::<LINE_BYTES>();
    let first = [b' ', b' ', b' ', b' ', b' ', digit];
    let run = lines[1..]
        .iter()
        .take_while(|line| line.starts_with(&first));
    run.count()
}

/// The columns of a line's three numbers.
fn columns_of(line: &TextLine) -> &[[u8; COLUMNS]] {
    line.as_chunks().0
}

fn is_line(line: &TextLine) -> bool {
    line[LINE_BYTES - 1] == b'\n' && columns_of(line).iter().all(is_number)
}

/// Blanks, then digits up to the last column, the first of several not a 0.
fn is_number(columns: &[u8; COLUMNS]) -> bool {
    let blanks = columns.iter().take_while(|&&byte| byte == b' ').count();
    match &columns[blanks..] {
        [b'0'] => true,
        [b'1'..=b'9', rest @ ..] => rest.iter().all(u8::is_ascii_digit),
        _ => false,
    }
}

/// Reads a line that is one.
fn read_line(line: &TextLine, place: &mut Line) {
    for (number, columns) in place.iter_mut().zip(columns_of(line)) {
        *number = number_of(columns);
    }
}

/// Where there are only digits and blanks, the low half of a byte is the digit,
/// and 0 for a blank.
fn number_of(columns: &[u8; COLUMNS]) -> u32 {
    let append = |number, byte: &u8| 10 * number + u32::from(byte & 15);
    columns.iter().fold(0, append)
}

/// The text of a line whose numbers are at most 999,999.
pub fn text_of(line: Line) -> TextLine {
    let mut text = [b' '; LINE_BYTES];
    text[LINE_BYTES - 1] = b'\n';
    let (columns, _) = text.as_chunks_mut::<COLUMNS>();
    for (columns, number) in columns.iter_mut().zip(line) {
        print_number(number, columns);
    }
    text
}

/// Prints a number's digits from the right; the other columns stay blank.
fn print_number(number: u32, columns: &mut [u8; COLUMNS]) {
    let mut rest = number;
    for column in columns.iter_mut().rev() {
        *column = b'0' + (rest % 10) as u8;
        rest /= 10;
        if rest == 0 {
            break;
        }
    }
}
