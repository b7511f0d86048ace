//! The published Rust and this library, asked the same at random: answers and memory are compared. `bench/compare` runs it.
//! The waiting time and the packets kept to be sent again, which the Rust does not have, are held against their paper.
//!
//! Arguments: how many commands in all, ten million if left out, and a seed.

mod acks;
mod buffer;
mod close;
mod datagrams;
mod header;
mod net;
mod outstanding;
mod packet;
mod received;
mod ring;
mod rtt;
mod tally;
mod window;
mod writer;

use std::{env, process};
use tally::{Plan, Tally};

const COMMANDS: u64 = 10_000_000;

fn main() {
    let mut args = env::args().skip(1).map(|arg| arg.replace(['_', ','], ""));
    let mut number = |default: u64| match args.next() {
        Some(arg) => arg.parse().expect("a number"),
        None => default,
    };
    let plan = Plan {
        commands: number(COMMANDS),
        seed: number(1),
    };
    tally::panics_end_it_but_of_the_published_files();
    // Parts of a thousand. A question on packing or on the receive buffer takes longer than one on a header.
    let tallies = [
        plan.compare::<header::Header>(100),
        plan.compare::<packet::Packet>(160),
        plan.compare::<window::Window>(180),
        plan.compare::<ring::Ring>(100),
        plan.compare::<buffer::Buffer>(200),
        plan.compare::<writer::Writer>(20),
        plan.compare::<acks::Acks>(20),
        plan.compare::<close::Close>(50),
        plan.compare::<net::Net>(20),
        received::data(&plan, 50),
        received::acks(&plan, 60),
        rtt::steps(&plan, 20),
        outstanding::runs(&plan, 20),
    ];
    let mut all = Tally::named("all");
    for tally in &tallies {
        all.add(tally);
    }
    all.print();
    if all.differences > 0 {
        process::exit(1);
    }
}
