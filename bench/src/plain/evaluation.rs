//! The plain evaluator.

use super::circuit::{Circuit, MOST_OUTPUTS, MOST_REFERENCES};
use super::gates::{work_out, CONSTANTS};
use super::lines::lines_of;
use super::refusal::{require, require_room, Answer, CIRCUIT, NO_TABLE};

/// Evaluates a circuit on input bytes into lent output bytes; gives the number
/// of outputs.
pub fn evaluate(circuit: &[u32], inputs: &[u8], outputs: &mut [u8]) -> Answer<usize> {
    let lines = lines_of(circuit, CIRCUIT)?;
    require_room(outputs, MOST_OUTPUTS)?;
    let circuit = Circuit::checked(lines)?;
    require(inputs.len() == circuit.inputs, 1, NO_TABLE)?;
    let mut bits = [0; MOST_REFERENCES];
    bits[1] = 1;
    for (bit, &byte) in bits[CONSTANTS..].iter_mut().zip(inputs) {
        *bit = u8::from(byte != 0);
    }
    work_out(circuit.gates, circuit.first_gate(), &mut bits);
    for (place, output) in outputs.iter_mut().zip(circuit.outputs()) {
        *place = bits[output];
    }
    Ok(circuit.outputs().len())
}
