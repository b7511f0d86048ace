//! The tests of handshake packets, and the headers that close: the Rust sends those, and they are read from its socket.

use crate::header::header_of;
use crate::tally::Ours;
use bluefin::sys;
use oracle::components::net;
use oracle::record::Question;

const IS_HELLO: u64 = 1;
const IS_CLIENT_ACK: u64 = 2;
const FIN: u64 = 4;
const FIN_ACK: u64 = 5;

#[derive(Default)]
pub struct Net;

impl Ours for Net {
    type Theirs = net::Net;

    fn has(question: &Question) -> bool {
        [IS_HELLO, IS_CLIENT_ACK, FIN, FIN_ACK].contains(&question.op)
    }

    fn answer(&mut self, question: &Question) -> Vec<u64> {
        let w = &question.words;
        if [IS_HELLO, IS_CLIENT_ACK].contains(&question.op) {
            let header = header_of(&[0, w[1], 0, 0, 0, w[2], w[3], 0]);
            let test = match question.op {
                IS_HELLO => sys::bluefin_is_hello_packet,
                _ => sys::bluefin_is_client_ack_packet,
            };
            // SAFETY: the call takes numbers and answers yes or no.
            return vec![unsafe { test(w[0] as u8, header) }.into()];
        }
        let mut buf = [9; 20];
        let write = match question.op {
            FIN => sys::bluefin_write_fin,
            _ => sys::bluefin_write_fin_ack,
        };
        // SAFETY: the pointer and the length are those of one array.
        let told = unsafe { write(w[0] as u32, w[1] as u32, w[2], buf.as_mut_ptr(), buf.len()) };
        let mut answer = vec![told.bytes as u64];
        answer.extend(buf.iter().map(|&b| u64::from(b)));
        answer
    }
}
