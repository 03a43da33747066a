//! The jobs that are timed: one call on one workload each.

use crate::plain::listing::LISTING_BYTES;
use crate::plain::translation::{MOST_REGISTERS, PROGRAM_NUMBERS};
use crate::program::{Program, Rewriting};
use crate::workloads::Workload;

/// The lent buffers of a call, long enough for any of them.
pub struct Buffers {
    pub numbers: Vec<u32>,
    pub bytes: Vec<u8>,
    /// The rewriter's working table, of which nothing is asked afterwards.
    pub work: Vec<u32>,
}

impl Buffers {
    /// Buffers with old contents that no result has.
    pub fn fresh() -> Buffers {
        Buffers {
            numbers: vec![u32::MAX; PROGRAM_NUMBERS],
            bytes: vec![u8::MAX; LISTING_BYTES],
            work: vec![u32::MAX; PROGRAM_NUMBERS],
        }
    }
}

/// A call, by either program, and its packed result.
type Call<'a> = Box<dyn Fn(&dyn Program, &mut Buffers) -> u64 + 'a>;

pub struct Job<'a> {
    pub name: String,
    pub gates: usize,
    call: Call<'a>,
}

impl<'a> Job<'a> {
    fn new(
        name: &str,
        workload: &'a Workload,
        call: impl Fn(&dyn Program, &mut Buffers) -> u64 + 'a,
    ) -> Self {
        Job {
            name: format!("{name} {}", workload.name),
            gates: workload.gates,
            call: Box::new(call),
        }
    }

    pub fn run(&self, program: &dyn Program, buffers: &mut Buffers) -> u64 {
        (self.call)(program, buffers)
    }

    /// Whether both programs give the same result and leave the same in every
    /// buffer but the working table.
    pub fn agrees(&self, one: &dyn Program, other: &dyn Program) -> bool {
        let outcome = |program| {
            let mut buffers = Buffers::fresh();
            let result = self.run(program, &mut buffers);
            (result, buffers.numbers, buffers.bytes)
        };
        outcome(one) == outcome(other)
    }
}

/// The jobs on the workloads of one size: the last is searched, the other five
/// are rewritten; the first is for the other calls too, the one with starting
/// lines is also measured and translated, and the one with the largest rule
/// judged and matched.
pub fn of_workloads(workloads: &[Workload; 6]) -> Vec<Job<'_>> {
    let [random, levels, chain, mismatch, wide, doubled] = workloads;
    let mut jobs = Vec::from(line_jobs(random));
    jobs.extend([measuring_job(random), measuring_job(levels)]);
    jobs.push(evaluating_job(random));
    jobs.extend([translating_job(random), translating_job(levels)]);
    jobs.extend([random, wide].into_iter().flat_map(rule_jobs));
    jobs.extend([random, doubled].map(finding_job));
    jobs.extend([random, levels, chain, mismatch, wide].map(rewriting_job));
    jobs.extend([random, chain, mismatch].map(listing_job));
    jobs
}

fn line_jobs(workload: &Workload) -> [Job<'_>; 2] {
    let circuit = &workload.circuit;
    [
        Job::new("read", workload, |program, buffers| {
            program.read(&circuit.text, &mut buffers.numbers)
        }),
        Job::new("write", workload, |program, buffers| {
            program.write(&circuit.table, &mut buffers.bytes)
        }),
    ]
}

fn measuring_job(workload: &Workload) -> Job<'_> {
    let circuit = &workload.circuit.table;
    Job::new("measure", workload, |program, _| program.measure(circuit))
}

fn evaluating_job(workload: &Workload) -> Job<'_> {
    let circuit = &workload.circuit.table;
    Job::new("evaluate", workload, |program, buffers| {
        program.evaluate(circuit, &workload.inputs, &mut buffers.bytes)
    })
}

fn translating_job(workload: &Workload) -> Job<'_> {
    let circuit = &workload.circuit.table;
    Job::new("translate", workload, |program, buffers| {
        program.translate(circuit, MOST_REGISTERS as u32, &mut buffers.numbers)
    })
}

fn rule_jobs(workload: &Workload) -> [Job<'_>; 2] {
    let (circuit, rules) = (&workload.circuit.table, &workload.rules.table);
    let last = rules[0];
    let site = workload.matching_site();
    [
        Job::new("judge", workload, move |program, _| {
            program.judge(rules, last)
        }),
        Job::new("match", workload, move |program, _| {
            program.match_site(circuit, rules, site)
        }),
    ]
}

fn finding_job(workload: &Workload) -> Job<'_> {
    let (circuit, rules) = (&workload.circuit.table, &workload.rules.table);
    let wanted = workload.longest_search();
    Job::new("find", workload, move |program, _| {
        program.find_mask(circuit, rules, wanted)
    })
}

fn rewriting_job(workload: &Workload) -> Job<'_> {
    let tables = workload.forms().map(|form| form.table.as_slice());
    Job::new("rewrite", workload, move |program, buffers| {
        let lent = Rewriting {
            result: &mut buffers.numbers,
            work: &mut buffers.work,
            verdicts: &mut buffers.bytes,
        };
        program.rewrite(tables, lent)
    })
}

fn listing_job(workload: &Workload) -> Job<'_> {
    let texts = workload.forms().map(|form| form.text.as_slice());
    Job::new("listing", workload, move |program, buffers| {
        program.listing(texts, &mut buffers.bytes)
    })
}
