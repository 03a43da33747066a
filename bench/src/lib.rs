//! The library's calls timed beside a plain program that does the same jobs.

#![deny(unsafe_code)]

pub mod jobs;
pub mod plain;
#[cfg(product)]
#[allow(unsafe_code)]
pub mod product;
pub mod program;
pub mod report;
pub mod timing;
pub mod workloads;
