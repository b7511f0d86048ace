//! net/close_handler.rs: the close record after each event.

use crate::core::header::PacketType;
use crate::core::packet::BluefinPacket;
use crate::net::build_empty_encrypted_packet;
use crate::net::close_handler::{CloseBuffer, CloseState};
use crate::record::{ask, Component, Question, Xorshift};
use std::sync::atomic::{AtomicBool, Ordering};
use std::sync::Arc;

const NEW: u64 = 0;
const FIN: u64 = 1;
const FIN_ACK: u64 = 2;
const LOCAL_FIN: u64 = 3;
const TAKE: u64 = 4;
const MARK_CLOSED: u64 = 5;

pub struct Close {
    record: CloseBuffer,
    observed: Arc<AtomicBool>,
}

impl Close {
    fn new(observed: bool) -> Self {
        let observed = Arc::new(AtomicBool::new(observed));
        Close {
            record: CloseBuffer::new(Arc::clone(&observed)),
            observed,
        }
    }

    /// The state and its number, the FIN-ACK owed, the one recorded, the flag.
    fn state(&self) -> Vec<u64> {
        let (kind, number) = match self.record.state() {
            CloseState::Active => (0, 0),
            CloseState::PeerFinReceived { fin_packet_num } => (1, fin_packet_num),
            CloseState::LocalFinSent { fin_packet_num } => (2, fin_packet_num),
            CloseState::Closed => (3, 0),
        };
        let mut state = vec![kind, number];
        state.extend(maybe(self.record.pending_fin_ack_send()));
        state.extend(maybe(self.record.received_fin_ack_for()));
        state.push(self.observed.load(Ordering::Acquire).into());
        state
    }
}

impl Default for Close {
    fn default() -> Self {
        Close::new(false)
    }
}

fn maybe(number: Option<u64>) -> [u64; 2] {
    [number.is_some().into(), number.unwrap_or(0)]
}

fn packet(packet_type: PacketType, number: u64) -> BluefinPacket {
    build_empty_encrypted_packet(1, 2, number, packet_type)
}

impl Component for Close {
    const NAME: &'static str = "close_handler";
    const RANDOM: usize = 3000;

    /// Every list of three events, from either flag.
    fn cases() -> Vec<Question> {
        let events = [
            ask(FIN, &[4]),
            ask(FIN, &[5]),
            ask(FIN_ACK, &[4]),
            ask(FIN_ACK, &[u64::MAX]),
            ask(LOCAL_FIN, &[4]),
            ask(LOCAL_FIN, &[6]),
            ask(TAKE, &[]),
            ask(MARK_CLOSED, &[]),
        ];
        let mut cases = Vec::new();
        for first in &events {
            for second in &events {
                for third in &events {
                    let flag = cases.len() as u64 / 4 % 2;
                    cases.push(ask(NEW, &[flag]));
                    cases.extend([first.clone(), second.clone(), third.clone()]);
                }
            }
        }
        cases
    }

    fn start(rng: &mut Xorshift) -> Option<Question> {
        Some(ask(NEW, &[rng.below(2)]))
    }

    fn random(&self, rng: &mut Xorshift) -> Question {
        let number = match rng.below(8) {
            0 => u64::MAX - rng.below(2),
            1 => rng.next(),
            _ => rng.below(3),
        };
        match rng.below(50) {
            0 => ask(MARK_CLOSED, &[]),
            1 | 2 => ask(NEW, &[rng.below(2)]),
            3..=14 => ask(TAKE, &[]),
            op => ask(FIN + op % 3, &[number]),
        }
    }

    fn answer(&mut self, question: &Question) -> Option<Vec<u64>> {
        let number = question.words.first().copied().unwrap_or(0);
        let mut taken = None;
        match question.op {
            NEW => *self = Close::new(number != 0),
            FIN => self.record.buffer_in_fin(&packet(PacketType::Fin, number)),
            FIN_ACK => self
                .record
                .buffer_in_fin_ack(&packet(PacketType::FinAck, number)),
            LOCAL_FIN => self.record.record_local_fin_sent(number),
            TAKE => taken = self.record.take_pending_fin_ack_send(),
            MARK_CLOSED => self.record.mark_closed(),
            _ => unreachable!("no such command"),
        }
        Some([&maybe(taken)[..], &self.state()].concat())
    }
}
