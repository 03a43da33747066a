//! The registers that a program takes, and the order of its loads (02, 2026-05).

use bench::plain::translation::{translate, Translated, PROGRAM_NUMBERS};

#[test]
fn registers_are_taken_as_agreed() {
    let circuit = [
        [3, 3, 3],
        [2, 2, 3],
        [1, 5, 4],
        [2, 6, 6],
        [3, 7, 0],
        [3, 1, 0],
        [3, 7, 0],
    ];
    let expected = [
        // The left operand is loaded first; both are freed, the right one
        // last, and that one is taken.
        [4, 0, 2, 0],
        [4, 1, 3, 0],
        [2, 1, 0, 1],
        // The register freed before is taken for the load.
        [4, 0, 4, 0],
        [1, 0, 1, 0],
        // Equal operands are freed once.
        [2, 0, 0, 0],
        // What only outputs use is loaded before the emits.
        [4, 1, 1, 0],
        [3, 0, 0, 0],
        [3, 1, 0, 0],
        [3, 0, 0, 0],
    ];
    let mut program = [0; PROGRAM_NUMBERS];
    let answer = translate(&circuit.concat(), 2, &mut program);
    let instructions = expected.len();
    assert_eq!(
        answer,
        Ok(Translated {
            instructions,
            need: 2
        })
    );
    assert_eq!(program[..4 * instructions], expected.concat());
}
