//! The published Rust and this library, timed in one process on the same inputs, in turn; the best of many rounds of each. Prints the
//! table of docs/BENCH.md; `bench/run` writes it there. An argument gives other milliseconds for each row.
//!
//! What is timed of this library is each call of the archive, as a host in C makes it. What the published Rust takes by value is made
//! before the clock starts, and what it hands out is dropped after the clock has stopped.

mod buffer;
mod headers;
mod inputs;
mod outstanding;
mod packing;
mod parsing;
mod rtt;
mod table;
mod window;

use std::time::Duration;
use std::{env, fs};
use table::Table;

const MILLISECONDS: u64 = 1_000;

/// The processor, and nothing else of the machine.
fn processor() -> String {
    let info = fs::read_to_string("/proc/cpuinfo").unwrap_or_default();
    let line = info.lines().find(|line| line.starts_with("model name"));
    let name = line.and_then(|line| line.split(": ").nth(1));
    name.unwrap_or("unknown").to_string()
}

fn main() {
    let asked = env::args().nth(1);
    let milliseconds = asked.map_or(MILLISECONDS, |arg| arg.parse().expect("milliseconds"));
    let mut table = Table::new(Duration::from_millis(milliseconds));
    headers::rows(&mut table);
    parsing::rows(&mut table);
    packing::rows(&mut table);
    outstanding::rows(&mut table);
    buffer::rows(&mut table);
    window::rows(&mut table);
    rtt::rows(&mut table);
    println!(
        "Processor: {}. The best of {milliseconds} ms of rounds of each row.\n",
        processor()
    );
    table.print();
}
