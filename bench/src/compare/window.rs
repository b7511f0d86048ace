//! The window: numbers and ranges inserted, runs consumed.

use crate::tally::Ours;
use bluefin::sys;
use oracle::components::window;
use oracle::record::Question;

const NEW: u64 = 0;
const INSERT: u64 = 1;
const INSERT_RANGE: u64 = 2;

/// Cells for every number that a window reaches; more are not needed.
pub const CELLS: usize = 40_000;

pub struct Window {
    window: sys::Window,
    cells: Vec<u64>,
}

impl Default for Window {
    fn default() -> Self {
        Window {
            window: sys::Window::default(),
            cells: vec![0; CELLS],
        }
    }
}

/// The Rust's one error for 5 and 7 is 5.
pub fn class(refusal: u8) -> u64 {
    match refusal {
        7 => 5,
        other => other.into(),
    }
}

/// The number expected, how many are held, and for each unbroken run its first number's distance from the expected one and
/// its place.
fn state(w: sys::Window, cells: &[u64]) -> Vec<u64> {
    let held = &cells[..w.count];
    let mut state = vec![w.smallest_expected, held.len() as u64];
    for (i, &n) in held.iter().enumerate() {
        if i == 0 || n != held[i - 1] + 1 {
            state.extend([n - w.smallest_expected, i as u64]);
        }
    }
    state
}

impl Ours for Window {
    type Theirs = window::Window;

    fn answer(&mut self, question: &Question) -> Vec<u64> {
        let words = &question.words;
        let (w, cells, room) = (self.window, self.cells.as_mut_ptr(), self.cells.len());
        // SAFETY: the pointer and the length are those of one vector.
        let mut answer = unsafe {
            match question.op {
                NEW => {
                    self.window = sys::bluefin_window_new(words[0]);
                    vec![0]
                }
                INSERT => {
                    let told = sys::bluefin_window_insert_packet_number(w, cells, room, words[0]);
                    self.window = told.window;
                    vec![class(told.refusal)]
                }
                INSERT_RANGE => {
                    let count = words[1] as u16;
                    let told = sys::bluefin_window_insert_range(w, cells, room, words[0], count);
                    self.window = told.window;
                    vec![class(told.refusal)]
                }
                _ => {
                    let told = sys::bluefin_window_consume(w, cells, room);
                    self.window = told.window;
                    let freed = &self.cells[told.window.count..w.count];
                    if freed.iter().any(|&cell| cell != 0) {
                        return vec![u64::MAX];
                    }
                    match (told.refusal, told.length) {
                        (0, 0) => vec![0],
                        (0, length) => vec![1, told.last, length],
                        (refusal, _) => vec![refusal.into()],
                    }
                }
            }
        };
        answer.extend(state(self.window, &self.cells));
        answer
    }
}
