//! The C functions of the library under test, each behind a safe call.

use crate::program::{Program, Rewriting};

extern "C" {
    fn napspruce_read(
        text: *const u8,
        text_count: usize,
        table: *mut u32,
        table_count: usize,
    ) -> u64;
    fn napspruce_write(
        table: *const u32,
        table_count: usize,
        text: *mut u8,
        text_count: usize,
    ) -> u64;
    fn napspruce_evaluate(
        circuit: *const u32,
        circuit_count: usize,
        inputs: *const u8,
        inputs_count: usize,
        outputs: *mut u8,
        outputs_count: usize,
    ) -> u64;
    fn napspruce_measure(circuit: *const u32, circuit_count: usize) -> u64;
    fn napspruce_judge(rules: *const u32, rules_count: usize, rule: u32) -> u64;
    fn napspruce_match(
        circuit: *const u32,
        circuit_count: usize,
        rules: *const u32,
        rules_count: usize,
        rule: u32,
        gate: u32,
        mask: u32,
    ) -> u64;
    fn napspruce_find(
        circuit: *const u32,
        circuit_count: usize,
        rules: *const u32,
        rules_count: usize,
        rule: u32,
        gate: u32,
        limit: u32,
    ) -> u64;
    fn napspruce_rewrite(
        circuit: *const u32,
        circuit_count: usize,
        rules: *const u32,
        rules_count: usize,
        sites: *const u32,
        sites_count: usize,
        result: *mut u32,
        result_count: usize,
        work: *mut u32,
        work_count: usize,
        verdicts: *mut u8,
        verdicts_count: usize,
    ) -> u64;
    fn napspruce_translate(
        circuit: *const u32,
        circuit_count: usize,
        limit: u32,
        program: *mut u32,
        program_count: usize,
    ) -> u64;
    fn napspruce_listing(
        circuit: *const u8,
        circuit_count: usize,
        rules: *const u8,
        rules_count: usize,
        sites: *const u8,
        sites_count: usize,
        listing: *mut u8,
        listing_count: usize,
    ) -> u64;
}

/// A function of a circuit, rules and three numbers.
type OnRules = unsafe extern "C" fn(*const u32, usize, *const u32, usize, u32, u32, u32) -> u64;

/// The library under test.
pub struct Product;

// Each call below is sound for the same reason: the library keeps no pointer,
// and reads or writes only within the slices it is lent, whose pointers and
// counts are handed over as they are.
impl Program for Product {
    fn read(&self, text: &[u8], table: &mut [u32]) -> u64 {
        unsafe { napspruce_read(text.as_ptr(), text.len(), table.as_mut_ptr(), table.len()) }
    }

    fn write(&self, table: &[u32], text: &mut [u8]) -> u64 {
        unsafe { napspruce_write(table.as_ptr(), table.len(), text.as_mut_ptr(), text.len()) }
    }

    fn evaluate(&self, circuit: &[u32], inputs: &[u8], outputs: &mut [u8]) -> u64 {
        unsafe {
            napspruce_evaluate(
                circuit.as_ptr(),
                circuit.len(),
                inputs.as_ptr(),
                inputs.len(),
                outputs.as_mut_ptr(),
                outputs.len(),
            )
        }
    }

    fn measure(&self, circuit: &[u32]) -> u64 {
        unsafe { napspruce_measure(circuit.as_ptr(), circuit.len()) }
    }

    fn judge(&self, rules: &[u32], rule: u32) -> u64 {
        unsafe { napspruce_judge(rules.as_ptr(), rules.len(), rule) }
    }

    fn match_site(&self, circuit: &[u32], rules: &[u32], site: [u32; 3]) -> u64 {
        on_rules(napspruce_match, circuit, rules, site)
    }

    fn find_mask(&self, circuit: &[u32], rules: &[u32], wanted: [u32; 3]) -> u64 {
        on_rules(napspruce_find, circuit, rules, wanted)
    }

    fn rewrite(&self, [circuit, rules, sites]: [&[u32]; 3], buffers: Rewriting) -> u64 {
        unsafe {
            napspruce_rewrite(
                circuit.as_ptr(),
                circuit.len(),
                rules.as_ptr(),
                rules.len(),
                sites.as_ptr(),
                sites.len(),
                buffers.result.as_mut_ptr(),
                buffers.result.len(),
                buffers.work.as_mut_ptr(),
                buffers.work.len(),
                buffers.verdicts.as_mut_ptr(),
                buffers.verdicts.len(),
            )
        }
    }

    fn translate(&self, circuit: &[u32], limit: u32, program: &mut [u32]) -> u64 {
        unsafe {
            napspruce_translate(
                circuit.as_ptr(),
                circuit.len(),
                limit,
                program.as_mut_ptr(),
                program.len(),
            )
        }
    }

    fn listing(&self, [circuit, rules, sites]: [&[u8]; 3], listing: &mut [u8]) -> u64 {
        unsafe {
            napspruce_listing(
                circuit.as_ptr(),
                circuit.len(),
                rules.as_ptr(),
                rules.len(),
                sites.as_ptr(),
                sites.len(),
                listing.as_mut_ptr(),
                listing.len(),
            )
        }
    }
}

fn on_rules(function: OnRules, circuit: &[u32], rules: &[u32], numbers: [u32; 3]) -> u64 {
    let [first, second, third] = numbers;
    unsafe {
        function(
            circuit.as_ptr(),
            circuit.len(),
            rules.as_ptr(),
            rules.len(),
            first,
            second,
            third,
        )
    }
}
