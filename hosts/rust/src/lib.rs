//! The Bluefin link for Rust: a safe wrapper over the proved library, linked as a static archive.
//!
//! The library keeps no memory and does no input or output. Here the types that have memory of their own own it ([`OrderedBytes`],
//! [`SlidingWindow`], [`AckRing`], [`Outstanding`], [`Index`]); datagrams, outputs and queues are slices that the caller lends for the
//! length of a call.
//! A call answers `Ok`, or a numbered [`Refusal`]. A refused call leaves everything as it was, unless it says otherwise.
//! No call looks at connection ids, version, encrypted bit or mask of what arrives: the program does, in the headers of [`Index::packets`].
//!
//! What is proved is the archive. This wrapper and [`sys`] are tested, not proved.

mod acks;
mod closing;
mod datagram;
mod header;
mod ordered_bytes;
mod outstanding;
mod packing;
mod refusal;
mod rtt;
pub mod sys;
mod window;

pub use acks::{AckRing, AcksPacked};
pub use closing::{is_client_ack_packet, is_hello_packet, CloseRecord, CloseState, Host};
pub use datagram::{packet_deserialise, packet_serialise_into, Index, Packet, LARGEST_DATAGRAM};
pub use header::{header_deserialise, header_serialise_into, Header, PacketType, HEADER_BYTES};
pub use ordered_bytes::{Consumed, OrderedBytes};
pub use outstanding::{Outstanding, PLACES, PLACES_BYTES};
pub use packing::{
    consume_data_into, payload_bytes_in_datagram, reserve_close_packet_num, write_fin,
    write_fin_ack, DataPacked, PACKED_DATAGRAM,
};
pub use refusal::{NotAccepted, Refusal, RefusedAt};
pub use rtt::RttEstimator;
pub use sys::Ack;
pub use window::{Run, SlidingWindow};
