//! utils/window.rs: numbers and ranges inserted, runs consumed.

use crate::record::{ask, Component, Question, Xorshift};
use crate::utils::window::{probe, SlidingWindow, MAX_SLIDING_WINDOW_SIZE};
use bluefin_proto::{error::BluefinError, BluefinResult};

const NEW: u64 = 0;
const INSERT: u64 = 1;
const INSERT_RANGE: u64 = 2;
const CONSUME: u64 = 3;

const REACH: u64 = MAX_SLIDING_WINDOW_SIZE as u64;

pub struct Window(SlidingWindow);

impl Default for Window {
    fn default() -> Self {
        Window(SlidingWindow::new(0))
    }
}

/// 0, or the class of the refusal: the Rust's one error for 5 and 7 is 5.
pub fn class(told: BluefinResult<()>) -> u64 {
    match told {
        Ok(()) => 0,
        Err(BluefinError::UnexpectedPacketNumberError) => 5,
        Err(BluefinError::BufferFullError(_)) => 6,
        Err(other) => unreachable!("{other:?}"),
    }
}

/// The number expected, how many are held, and for each unbroken run its first number's distance from the expected one and
/// its place.
fn state(w: &SlidingWindow) -> Vec<u64> {
    let (expected, held) = (probe::expected(w), probe::held(w));
    let mut state = vec![expected, held.len() as u64];
    for (i, &n) in held.iter().enumerate() {
        if i == 0 || n != held[i - 1] + 1 {
            state.extend([n - expected, i as u64]);
        }
    }
    state
}

impl Component for Window {
    const NAME: &'static str = "window";
    const RANDOM: usize = 5000;

    fn cases() -> Vec<Question> {
        let mut cases = Vec::new();
        let mut list = |start: u64, commands: &[&[u64]]| {
            cases.push(ask(NEW, &[start]));
            for command in commands {
                cases.push(ask(command[0], &command[1..]));
            }
        };
        // The numbers' order, both ends of the window, and what is held already.
        list(
            10,
            &[
                &[CONSUME],
                &[INSERT, 9],
                &[INSERT, 0],
                &[INSERT, 40_010],
                &[INSERT, u64::MAX],
                &[INSERT, 40_009],
                &[INSERT, 40_009],
                &[INSERT, 12],
                &[INSERT, 11],
                &[INSERT, 12],
                &[CONSUME],
                &[INSERT, 10],
                &[INSERT, 10],
                &[CONSUME],
                &[INSERT, 12],
                &[INSERT, 13],
                &[INSERT, 40_012],
                &[INSERT, 40_013],
                &[CONSUME],
                &[CONSUME],
            ],
        );
        // Ranges: none, below, at the far end, and one that holds a number already at its first, middle and last place.
        list(
            10,
            &[
                &[INSERT_RANGE, 0, 0],
                &[INSERT_RANGE, u64::MAX, 0],
                &[INSERT_RANGE, 9, 1],
                &[INSERT_RANGE, 9, 5],
                &[INSERT_RANGE, 40_009, 2],
                &[INSERT_RANGE, 40_010, 1],
                &[INSERT_RANGE, 40_009, 1],
                &[INSERT_RANGE, 10, 40_001],
                &[INSERT, 12],
                &[INSERT_RANGE, 10, 5],
                &[INSERT_RANGE, 10, 1],
                &[INSERT_RANGE, 12, 3],
                &[INSERT_RANGE, 13, 3],
                &[INSERT_RANGE, 20, 3],
                &[INSERT_RANGE, 17, 4],
                &[INSERT_RANGE, 24, 2],
                &[INSERT_RANGE, 23, 3],
                &[INSERT_RANGE, 16, 1],
                &[CONSUME],
                &[CONSUME],
            ],
        );
        // A range that fills all, and the same in two orders.
        list(
            5,
            &[
                &[INSERT_RANGE, 5, 40_000],
                &[INSERT_RANGE, 5, 1],
                &[CONSUME],
            ],
        );
        list(
            5,
            &[
                &[INSERT_RANGE, 20_005, 20_000],
                &[INSERT_RANGE, 5, 20_000],
                &[INSERT, 40_004],
                &[CONSUME],
                &[INSERT, 80_004],
                &[INSERT, 80_005],
            ],
        );
        // The last numbers of 64 bits.
        let end = u64::MAX;
        list(
            end - 5,
            &[
                &[INSERT, end],
                &[INSERT, end - 1],
                &[INSERT_RANGE, end - 5, 6],
                &[INSERT_RANGE, end - 4, 3],
                &[CONSUME],
                &[INSERT_RANGE, end - 5, 5],
                &[CONSUME],
                &[CONSUME],
                &[INSERT, end - 1],
                &[INSERT, end],
            ],
        );
        list(
            end - 39_999,
            &[&[INSERT, end], &[INSERT, end - 1], &[INSERT, end - 2]],
        );
        list(
            end - 40_000,
            &[
                &[INSERT, end],
                &[INSERT, end - 1],
                &[INSERT_RANGE, end - 2, 2],
            ],
        );
        cases
    }

    fn start(rng: &mut Xorshift) -> Option<Question> {
        Some(ask(NEW, &[rng.start_number(41_000)]))
    }

    fn random(&self, rng: &mut Xorshift) -> Question {
        let expected = probe::expected(&self.0);
        let away = match rng.below(20) {
            0 => REACH - 12 + rng.below(24),
            1 => rng.below(400),
            _ => rng.below(24),
        };
        let n = if rng.one_in(12) {
            expected.saturating_sub(1 + rng.below(3))
        } else {
            expected.saturating_add(away)
        };
        match rng.below(10) {
            0 | 1 => ask(CONSUME, &[]),
            2..=5 => ask(INSERT, &[n]),
            _ => {
                let count = if rng.one_in(12) {
                    rng.below(300)
                } else {
                    rng.below(6)
                };
                ask(INSERT_RANGE, &[n, count])
            }
        }
    }

    fn answer(&mut self, question: &Question) -> Option<Vec<u64>> {
        let words = &question.words;
        let expected = probe::expected(&self.0);
        let mut answer = match question.op {
            NEW => {
                self.0 = SlidingWindow::new(words[0]);
                vec![0]
            }
            // Refusal 9: the Rust stores the number, and overflows where it is consumed.
            INSERT if words[0] == u64::MAX && words[0] - expected < REACH => return None,
            INSERT => vec![class(self.0.insert_packet_number(words[0]))],
            INSERT_RANGE => vec![class(self.0.insert_range(words[0], words[1] as u16))],
            CONSUME => match self.0.consume() {
                None => vec![0],
                Some(run) => vec![1, run.largest_packet_number, run.num_acks_consumed],
            },
            _ => unreachable!("no such command"),
        };
        answer.extend(state(&self.0));
        Some(answer)
    }
}
