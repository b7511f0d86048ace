//! worker/: `writer.rs`, with a child that sees its private functions, and stubs of the neighbours that it and
//! `net/mod.rs` name.

pub mod writer {
    use crate::worker::RecvMany as _;

    include!(concat!(env!("BLUEFIN"), "/worker/writer.rs"));

    pub(crate) mod probe {
        use super::*;

        /// Queued acks as the Rust holds them.
        #[derive(Clone, Default)]
        pub struct AckQueue(VecDeque<AckData>);

        impl AckQueue {
            pub fn push_back(&mut self, base_packet_num: u64, num_packets_consumed: usize) {
                self.0.push_back(AckData {
                    base_packet_num,
                    num_packets_consumed,
                });
            }

            #[inline]
            pub fn consume_acks_into(&mut self, src: u32, dst: u32, bytes: &mut Vec<u8>) -> bool {
                WriterHandler::consume_acks_into(&mut self.0, src, dst, bytes)
            }

            pub fn left(&self) -> VecDeque<(u64, usize)> {
                let pair = |a: &AckData| (a.base_packet_num, a.num_packets_consumed);
                self.0.iter().map(pair).collect()
            }
        }

        #[inline]
        pub fn consume_data_into(
            queue: &mut VecDeque<Bytes>,
            next: &mut u64,
            src: u32,
            dst: u32,
            ans: &mut Vec<u8>,
        ) -> usize {
            WriterHandler::consume_data_into(queue, next, src, dst, ans)
        }

        /// The queue as (base, count), before and after.
        pub(crate) fn consume_acks_into(
            queue: &mut VecDeque<(u64, usize)>,
            src: u32,
            dst: u32,
            bytes: &mut Vec<u8>,
        ) -> bool {
            let mut records = AckQueue::default();
            for &(base, count) in queue.iter() {
                records.push_back(base, count);
            }
            let answer = records.consume_acks_into(src, dst, bytes);
            *queue = records.left();
            answer
        }

        pub(crate) fn payload_bytes_in_datagram(datagram: &[u8]) -> usize {
            WriterHandler::payload_bytes_in_datagram(datagram)
        }
    }
}

/// `UnboundedReceiver::recv_many` of tokio 1.34 and later. Debian's tokio is older; no comparison calls it.
trait RecvMany<T> {
    fn recv_many(&mut self, buffer: &mut Vec<T>, limit: usize) -> std::future::Ready<usize>;
}

impl<T> RecvMany<T> for tokio::sync::mpsc::UnboundedReceiver<T> {
    fn recv_many(&mut self, _: &mut Vec<T>, _: usize) -> std::future::Ready<usize> {
        unimplemented!("not compared")
    }
}

pub mod conn_reader {
    use crate::net::ConnectionManagedBuffers;
    use std::sync::Arc;
    use tokio::net::UdpSocket;

    pub struct ConnReaderHandler;

    impl ConnReaderHandler {
        pub(crate) fn new(_: Arc<UdpSocket>, _: Arc<ConnectionManagedBuffers>) -> Self {
            Self
        }

        pub fn start(&self) -> bluefin_proto::BluefinResult<()> {
            unimplemented!("not compared")
        }
    }
}

pub mod reader {
    use crate::net::{connection::ConnectionManager, HelloState};
    use bluefin_proto::context::BluefinHost;
    use std::sync::{Arc, Mutex};
    use tokio::net::UdpSocket;

    #[derive(Clone)]
    pub struct ReaderTxChannel {
        pub id: u16,
    }

    impl ReaderTxChannel {
        pub(crate) fn new(
            _: Arc<UdpSocket>,
            _: Arc<ConnectionManager>,
            _: Arc<Mutex<HelloState>>,
            _: BluefinHost,
        ) -> Self {
            Self { id: 0 }
        }

        pub async fn run(&mut self) -> bluefin_proto::BluefinResult<()> {
            unimplemented!("not compared")
        }
    }
}
