//! net/mod.rs: the tests of handshake packets and the empty packet; and the headers that worker/writer.rs sends to close.

use super::header::{fields_of, TYPES};
use crate::net::{build_empty_encrypted_packet, is_client_ack_packet, is_hello_packet};
use crate::record::{ask, Component, Question, Xorshift};
use crate::worker::writer::WriterHandler;
use bluefin_proto::context::BluefinHost;
use std::sync::Arc;
use tokio::net::UdpSocket;
use tokio::runtime::{Builder, Runtime};

const IS_HELLO: u64 = 1;
const IS_CLIENT_ACK: u64 = 2;
const BUILD_EMPTY: u64 = 3;
const FIN: u64 = 4;
const FIN_ACK: u64 = 5;

const HOSTS: [BluefinHost; 3] = [
    BluefinHost::PackLeader,
    BluefinHost::Client,
    BluefinHost::Other,
];

/// The Rust sends a FIN on its socket: here one end of a pair on this machine, so that the other end has the bytes.
pub struct Net {
    runtime: Runtime,
    ours: Arc<UdpSocket>,
    theirs: UdpSocket,
}

impl Default for Net {
    fn default() -> Self {
        let runtime = Builder::new_current_thread()
            .enable_io()
            .build()
            .expect("a runtime");
        let (ours, theirs) = runtime
            .block_on(async {
                let ours = UdpSocket::bind("127.0.0.1:0").await?;
                let theirs = UdpSocket::bind("127.0.0.1:0").await?;
                ours.connect(theirs.local_addr()?).await?;
                Ok::<_, std::io::Error>((Arc::new(ours), theirs))
            })
            .expect("two sockets");
        Net {
            runtime,
            ours,
            theirs,
        }
    }
}

impl Net {
    /// The datagram that `send_fin` or `send_fin_ack` sends.
    fn sent(&self, op: u64, src: u32, dst: u32, number: u64) -> Vec<u8> {
        let writer = WriterHandler::new(Arc::clone(&self.ours), 0, src, dst);
        self.runtime.block_on(async {
            let told = match op {
                FIN => writer.send_fin(number).await,
                _ => writer.send_fin_ack(number).await,
            };
            told.expect("the header is sent");
            let mut datagram = vec![0; 100];
            let length = self.theirs.recv(&mut datagram).await.expect("it arrives");
            datagram.truncate(length);
            datagram
        })
    }
}

impl Component for Net {
    const NAME: &'static str = "net";
    const RANDOM: usize = 1000;

    /// Every host, type and kind of id; and each control header at the ends of its numbers.
    fn cases() -> Vec<Question> {
        let ids = [0, 1, u32::MAX.into()];
        let mut cases = Vec::new();
        for op in [IS_HELLO, IS_CLIENT_ACK] {
            for host in 0..3 {
                for packet_type in 0..7 {
                    for source in ids {
                        for destination in ids {
                            cases.push(ask(op, &[host, packet_type, source, destination]));
                        }
                    }
                }
            }
        }
        for number in [0, 1, 0x0102030405060708, u64::MAX] {
            for packet_type in 0..7 {
                cases.push(ask(
                    BUILD_EMPTY,
                    &[0x01020304, 0x05060708, number, packet_type],
                ));
            }
            for op in [FIN, FIN_ACK] {
                cases.push(ask(op, &[0x01020304, 0x05060708, number]));
            }
        }
        cases
    }

    fn random(&self, rng: &mut Xorshift) -> Question {
        let source = if rng.one_in(3) { 0 } else { rng.next() >> 32 };
        let destination = if rng.one_in(3) { 0 } else { rng.next() >> 32 };
        match rng.below(5) {
            op @ 0..=1 => ask(
                IS_HELLO + op,
                &[rng.below(3), rng.below(7), source, destination],
            ),
            2 => ask(
                BUILD_EMPTY,
                &[source, destination, rng.next(), rng.below(7)],
            ),
            op => ask(FIN + op - 3, &[source, destination, rng.next()]),
        }
    }

    fn answer(&mut self, question: &Question) -> Option<Vec<u64>> {
        let w = &question.words;
        Some(match question.op {
            op @ (IS_HELLO | IS_CLIENT_ACK) => {
                let packet_type = TYPES[w[1] as usize];
                let packet = build_empty_encrypted_packet(w[2] as u32, w[3] as u32, 0, packet_type);
                let host = HOSTS[w[0] as usize];
                let yes = match op {
                    IS_HELLO => is_hello_packet(host, &packet),
                    _ => is_client_ack_packet(host, &packet),
                };
                vec![yes.into()]
            }
            BUILD_EMPTY => {
                let packet_type = TYPES[w[3] as usize];
                let packet =
                    build_empty_encrypted_packet(w[0] as u32, w[1] as u32, w[2], packet_type);
                [
                    &[packet.payload.len() as u64],
                    &fields_of(&packet.header)[..],
                ]
                .concat()
            }
            op @ (FIN | FIN_ACK) => {
                let datagram = self.sent(op, w[0] as u32, w[1] as u32, w[2]);
                let mut answer = vec![datagram.len() as u64];
                answer.extend(datagram.iter().map(|&b| u64::from(b)));
                answer
            }
            _ => unreachable!("no such command"),
        })
    }
}
