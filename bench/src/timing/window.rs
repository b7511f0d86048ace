//! The window: numbers inserted, runs consumed.

use crate::inputs::{ack_datagram, START};
use crate::table::{timed, Row, Table};
use bluefin::sys;
use bytes::Bytes;
use oracle::core::packet::BluefinPacket;
use oracle::linked::SlidingWindow;
use std::hint::black_box;

const RANGE: u16 = 200;

/// Ranges entered and consumed in a round.
const RANGES: u64 = 8;

const CELLS: usize = 40_000;

/// This library's window, and the cells lent to it.
#[derive(Clone)]
struct Window {
    small: sys::Window,
    cells: Vec<u64>,
}

impl Window {
    fn new(smallest_expected: u64) -> Self {
        Window {
            // SAFETY: the call takes and answers numbers.
            small: unsafe { sys::bluefin_window_new(smallest_expected) },
            cells: vec![0; CELLS],
        }
    }

    #[inline]
    fn insert(&mut self, number: u64) -> u8 {
        let (cells, room) = (self.cells.as_mut_ptr(), self.cells.len());
        // SAFETY: here and below, each pointer stands beside the length of its vector, and no two overlap.
        let told =
            unsafe { sys::bluefin_window_insert_packet_number(self.small, cells, room, number) };
        self.small = told.window;
        told.refusal
    }

    #[inline]
    fn insert_range(&mut self, base: u64, count: u16) -> u8 {
        let (cells, room) = (self.cells.as_mut_ptr(), self.cells.len());
        // SAFETY: as in `insert`.
        let told =
            unsafe { sys::bluefin_window_insert_range(self.small, cells, room, base, count) };
        self.small = told.window;
        told.refusal
    }

    #[inline]
    fn consume(&mut self) -> sys::Run {
        let (cells, room) = (self.cells.as_mut_ptr(), self.cells.len());
        // SAFETY: as in `insert`.
        let run = unsafe { sys::bluefin_window_consume(self.small, cells, room) };
        self.small = run.window;
        run
    }

    #[inline]
    fn receive(&mut self, datagram: &[u8], index: &mut [u32], answers: &mut [u8]) -> u8 {
        // SAFETY: as in `insert`.
        let told = unsafe {
            sys::bluefin_receive_acks(
                self.small,
                self.cells.as_mut_ptr(),
                self.cells.len(),
                datagram.as_ptr(),
                datagram.len(),
                index.as_mut_ptr(),
                index.len(),
                answers.as_mut_ptr(),
                answers.len(),
            )
        };
        self.small = told.window;
        told.refusal
    }
}

fn in_order(table: &mut Table) {
    let count = u64::from(RANGE);
    let (mut theirs, mut ours) = (SlidingWindow::new(START), Window::new(START));
    let (mut their_next, mut our_next) = (START, START);
    table.row(Row {
        name: "`insert_range` of 200, and `consume`".into(),
        units: RANGES as usize,
        theirs: Box::new(|| {
            timed(|| {
                for _ in 0..RANGES {
                    let _ = black_box(theirs.insert_range(black_box(their_next), RANGE));
                    black_box(theirs.consume());
                    their_next += count;
                }
            })
        }),
        ours: Box::new(|| {
            timed(|| {
                for _ in 0..RANGES {
                    black_box(ours.insert_range(black_box(our_next), RANGE));
                    black_box(ours.consume());
                    our_next += count;
                }
            })
        }),
        goal: Some(1.0),
    });
    assert_eq!(theirs.expected(), ours.small.smallest_expected);
    table.row(Row {
        name: "200 single inserts, and `consume`".into(),
        units: 1,
        theirs: Box::new(|| {
            timed(|| {
                for number in their_next..their_next + count {
                    let _ = black_box(theirs.insert_packet_number(black_box(number)));
                }
                black_box(theirs.consume());
                their_next += count;
            })
        }),
        ours: Box::new(|| {
            timed(|| {
                for number in our_next..our_next + count {
                    black_box(ours.insert(black_box(number)));
                }
                black_box(ours.consume());
                our_next += count;
            })
        }),
        goal: None,
    });
    assert_eq!(theirs.expected(), ours.small.smallest_expected);
}

fn by_datagram(table: &mut Table) {
    let datagram = ack_datagram(START, 76, 10);
    let shared = Bytes::from(datagram.clone());
    let (theirs, ours) = (SlidingWindow::new(START), Window::new(START));
    let mut cells = ours.clone();
    let mut into = Vec::with_capacity(76);
    let (mut index, mut answers) = (vec![0; 152], vec![0; 76]);
    table.row(Row {
        name: "76 acks of 10 in a datagram, and `consume`; here by `receive_acks`".into(),
        units: 1,
        theirs: Box::new(|| {
            let mut theirs = theirs.clone();
            into.clear();
            timed(|| {
                let _ = black_box(BluefinPacket::from_bytes_into(shared.clone(), &mut into));
                for packet in &into {
                    let header = packet.header;
                    let (base, count) = (header.packet_number, header.type_specific_payload);
                    let _ = black_box(theirs.insert_range(base, count));
                }
                theirs.consume()
            })
        }),
        ours: Box::new(|| {
            cells.small = ours.small;
            timed(|| {
                black_box(cells.receive(&datagram, &mut index, &mut answers));
                cells.consume()
            })
        }),
        goal: None,
    });
}

/// Windows that are entered in a round, one after the other.
const WINDOWS: usize = 16;

/// One number or one range entered where so many are held behind a hole: behind all of them or before them.
fn as_held_grows(table: &mut Table, held: u64) {
    let first = START + 1_000;
    let (mut theirs, mut ours) = (SlidingWindow::new(START), Window::new(START));
    theirs.insert_range(first, held as u16).expect("room");
    assert_eq!(ours.insert_range(first, held as u16), 0);
    ours.cells.truncate(held as usize + usize::from(RANGE));
    let mut entered = |name: &str, base: u64, count: u16| {
        table.row(Row {
            name: format!("{name}, {held} held"),
            units: WINDOWS,
            theirs: Box::new(|| {
                let mut all = vec![theirs.clone(); WINDOWS];
                for window in &mut all {
                    window.reserve(RANGE.into());
                }
                timed(|| {
                    for window in &mut all {
                        let _ = black_box(match black_box(count) {
                            1 => window.insert_packet_number(base),
                            count => window.insert_range(base, count),
                        });
                    }
                })
            }),
            ours: Box::new(|| {
                let mut all = vec![ours.clone(); WINDOWS];
                timed(|| {
                    for window in &mut all {
                        black_box(match black_box(count) {
                            1 => window.insert(base),
                            count => window.insert_range(base, count),
                        });
                    }
                })
            }),
            goal: None,
        });
    };
    entered("insert behind", first + held, 1);
    entered("insert before", first - 1, 1);
    entered("`insert_range` of 200 behind", first + held, RANGE);
    entered(
        "`insert_range` of 200 before",
        first - u64::from(RANGE),
        RANGE,
    );
}

pub fn rows(table: &mut Table) {
    table.group("window");
    in_order(table);
    by_datagram(table);
    table.group("window, as numbers held grow");
    for held in [10, 100, 1_000, 2_000] {
        as_held_grows(table, held);
    }
}
