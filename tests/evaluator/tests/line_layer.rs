//! Reading and writing alone.

mod common;

use common::{refused, OLD, OLD_BYTE};
use evaluator::lines::{read, write};

fn read_one(line: &str) -> Result<[u32; 3], u32> {
    let mut table = [OLD; 3];
    match read(line.as_bytes(), &mut table) {
        Ok(lines) => {
            assert_eq!(lines, 1);
            Ok(table)
        }
        Err(refusal) => {
            assert_eq!((table, refusal.table), ([OLD; 3], 0));
            Err(refusal.number)
        }
    }
}

#[test]
fn lines_that_are_lines() {
    assert_eq!(read_one("     0     1999999\n"), Ok([0, 1, 999_999]));
    assert_eq!(read_one("     1111111     2\n"), Ok([1, 111_111, 2]));
    assert_eq!(read_one("    10   200  3000\n"), Ok([10, 200, 3000]));
}

#[test]
fn lines_that_are_none() {
    for line in [
        "                 0\n",
        "     0     0    00\n",
        "000001     0     0\n",
        "1          0     0\n",
        "     1     0     0 ",
        "     1     0     0\r",
        "    +1     0     0\n",
        "    -1     0     0\n",
        "   1 1     0     0\n",
        "\t    1     0     0\n",
        "     1     0     :\n",
        "     1     0     /\n",
    ] {
        assert_eq!(read_one(line), Err(3), "{line:?}");
    }
}

#[test]
fn texts_that_are_no_lines() {
    assert_eq!(read_one(""), Err(1));
    assert_eq!(read_one("     1     1     1"), Err(1));
    assert_eq!(read_one("     1     1     1\n "), Err(1));
}

#[test]
fn reading_keeps_what_is_beyond() {
    let mut table = [OLD; 5];
    assert_eq!(read(b"     1     2     3\n", &mut table), Ok(1));
    assert_eq!(table, [1, 2, 3, OLD, OLD]);
}

#[test]
fn reading_tests_1_then_3_then_2() {
    let mut short = [OLD; 2];
    assert_eq!(read(b"x", &mut short), refused(1, 0));
    assert_eq!(read(&[b'x'; 19], &mut short), refused(3, 0));
    let line = b"     1     2     3\n";
    assert_eq!(read(line, &mut short), refused(2, 0));
    assert_eq!(short, [OLD; 2]);
}

#[test]
fn writing_gives_the_text() {
    let mut text = [OLD_BYTE; 40];
    assert_eq!(write(&[0, 1, 999_999, 20, 3, 4], &mut text), Ok(2));
    assert_eq!(&text[..38], b"     0     1999999\n    20     3     4\n");
    assert_eq!(text[38..], [OLD_BYTE; 2]);
}

#[test]
fn writing_tests_1_then_3_then_2() {
    let mut short = [OLD_BYTE; 18];
    assert_eq!(write(&[], &mut short), refused(1, 0));
    assert_eq!(write(&[1_000_000, 0], &mut short), refused(1, 0));
    assert_eq!(write(&[0, 0, 1_000_000], &mut short), refused(3, 0));
    assert_eq!(write(&[0, 0, u32::MAX], &mut short), refused(3, 0));
    assert_eq!(write(&[0, 0, 0], &mut short), refused(2, 0));
    assert_eq!(short, [OLD_BYTE; 18]);
}
