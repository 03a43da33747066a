//! The plain evaluator (01, Circuits).

use crate::circuit::{Circuit, MOST_OUTPUTS};
use crate::gates::values;
use crate::lines::lines_of_table;
use crate::refusal::{overwrite, refuse_if, require_room, Answer, CIRCUIT, NO_TABLE};

/// Evaluates a circuit on input bytes into lent output bytes; gives the number
/// of outputs.
pub fn evaluate(circuit: &[u32], inputs: &[u8], outputs: &mut [u8]) -> Answer<usize> {
    let lines = lines_of_table(circuit, CIRCUIT)?;
    require_room(outputs, MOST_OUTPUTS as usize)?;
    let circuit = Circuit::checked(&lines)?;
    refuse_if(inputs.len() != circuit.inputs, 1, NO_TABLE)?;
    let bits = output_bits(&circuit, inputs);
    let bytes: Vec<u8> = bits.into_iter().map(u8::from).collect();
    overwrite(outputs, &bytes);
    Ok(bytes.len())
}

/// The bit of an input byte: 0 for 0, 1 for any other.
pub fn bit_of(byte: u8) -> bool {
    byte != 0
}

/// The outputs' bits in the order of the closing lines.
pub fn output_bits(circuit: &Circuit, inputs: &[u8]) -> Vec<bool> {
    let inputs: Vec<bool> = inputs.iter().map(|&byte| bit_of(byte)).collect();
    let bits = values(&inputs, &circuit.gates);
    circuit.outputs.iter().map(|&output| bits[output]).collect()
}
