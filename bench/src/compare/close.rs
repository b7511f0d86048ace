//! The close record after each event.

use crate::tally::Ours;
use bluefin::sys;
use oracle::components::close_handler;
use oracle::record::Question;

const NEW: u64 = 0;
const FIN: u64 = 1;
const FIN_ACK: u64 = 2;
const LOCAL_FIN: u64 = 3;
const TAKE: u64 = 4;

#[derive(Default)]
pub struct Close(sys::CloseRecord);

impl Close {
    fn after(&mut self, told: sys::CloseAfter) -> [u64; 2] {
        self.0 = told.close;
        match told.refusal {
            0 => [0, 0],
            refusal => [u64::MAX, refusal.into()],
        }
    }
}

impl Ours for Close {
    type Theirs = close_handler::Close;

    fn answer(&mut self, question: &Question) -> Vec<u64> {
        let number = question.words.first().copied().unwrap_or(0);
        let close = self.0;
        // SAFETY: each call takes and answers numbers and bools of Rust's.
        let taken = unsafe {
            match question.op {
                NEW => {
                    self.0 = sys::bluefin_close_new(number != 0);
                    [0, 0]
                }
                FIN => self.after(sys::bluefin_close_buffer_in_fin(close, number)),
                FIN_ACK => self.after(sys::bluefin_close_buffer_in_fin_ack(close, number)),
                LOCAL_FIN => self.after(sys::bluefin_close_record_local_fin_sent(close, number)),
                TAKE => {
                    let told = sys::bluefin_close_take_pending_fin_ack_send(close);
                    self.0 = told.close;
                    [told.was_pending.into(), told.number]
                }
                _ => self.after(sys::bluefin_close_mark_closed(close)),
            }
        };
        let c = self.0;
        let state = [
            c.state.into(),
            c.state_fin,
            c.is_pending.into(),
            c.pending_fin_ack_send,
            c.is_received.into(),
            c.received_fin_ack_for,
            c.peer_fin_observed.into(),
        ];
        [&taken[..], &state].concat()
    }
}
