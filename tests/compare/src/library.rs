//! The functions that include/napspruce.h declares.

extern "C" {
    pub fn napspruce_read(
        text: *const u8,
        text_len: usize,
        table: *mut u32,
        table_len: usize,
    ) -> u64;
    pub fn napspruce_write(
        table: *const u32,
        table_len: usize,
        text: *mut u8,
        text_len: usize,
    ) -> u64;
    pub fn napspruce_evaluate(
        circuit: *const u32,
        circuit_len: usize,
        inputs: *const u8,
        inputs_len: usize,
        outputs: *mut u8,
        outputs_len: usize,
    ) -> u64;
    pub fn napspruce_measure(circuit: *const u32, circuit_len: usize) -> u64;
    pub fn napspruce_judge(rules: *const u32, rules_len: usize, rule: u32) -> u64;
    pub fn napspruce_match(
        circuit: *const u32,
        circuit_len: usize,
        rules: *const u32,
        rules_len: usize,
        rule: u32,
        gate: u32,
        mask: u32,
    ) -> u64;
    pub fn napspruce_find(
        circuit: *const u32,
        circuit_len: usize,
        rules: *const u32,
        rules_len: usize,
        rule: u32,
        gate: u32,
        limit: u32,
    ) -> u64;
    pub fn napspruce_rewrite(
        circuit: *const u32,
        circuit_len: usize,
        rules: *const u32,
        rules_len: usize,
        sites: *const u32,
        sites_len: usize,
        result: *mut u32,
        result_len: usize,
        work: *mut u32,
        work_len: usize,
        verdicts: *mut u8,
        verdicts_len: usize,
    ) -> u64;
    pub fn napspruce_translate(
        circuit: *const u32,
        circuit_len: usize,
        limit: u32,
        program: *mut u32,
        program_len: usize,
    ) -> u64;
    pub fn napspruce_listing(
        circuit: *const u8,
        circuit_len: usize,
        rules: *const u8,
        rules_len: usize,
        sites: *const u8,
        sites_len: usize,
        listing: *mut u8,
        listing_len: usize,
    ) -> u64;
}
