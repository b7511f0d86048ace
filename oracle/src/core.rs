//! core/: the two published files, and the traits of `core/mod.rs`, which is not published.

use bluefin_proto::BluefinResult;

pub trait Serialisable {
    fn serialise(&self) -> Vec<u8>;
    fn deserialise(bytes: &[u8]) -> BluefinResult<Self>
    where
        Self: Sized;
}

pub trait Extract: Default {
    fn extract(&mut self) -> Self {
        std::mem::take(self)
    }
}

impl Extract for bytes::Bytes {}

pub mod header {
    include!(concat!(env!("BLUEFIN"), "/core/header.rs"));
}

pub mod packet {
    include!(concat!(env!("BLUEFIN"), "/core/packet.rs"));
}
