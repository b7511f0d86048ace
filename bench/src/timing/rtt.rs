//! The waiting time. The published Rust has none.

use crate::table::{timed, Table};
use bluefin::sys;
use std::hint::black_box;

const SAMPLES: usize = 256;

pub fn rows(table: &mut Table) {
    table.group("waiting time");
    // SAFETY: here and below, the call takes and answers numbers and bools of Rust's.
    let mut estimator = unsafe { sys::bluefin_rtt_new() };
    let round = || {
        timed(|| {
            for turn in 0..SAMPLES as u64 {
                let micros = black_box(80_000 + turn);
                // SAFETY: as above.
                estimator = unsafe { sys::bluefin_rtt_sample(estimator, micros) }.estimator;
                // SAFETY: as above.
                black_box(unsafe { sys::bluefin_rtt_wait_time(estimator) });
            }
        })
    };
    table.alone("a sample, and the wait after it", SAMPLES, Box::new(round));
}
