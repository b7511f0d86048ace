//! The close record, and the tests of handshake packets.

use crate::header::Header;
use crate::sys;

/// Where the closing of a connection stands, with the number of the FIN.
#[derive(Clone, Copy, Debug, PartialEq, Eq)]
pub enum CloseState {
    Active,
    PeerFinReceived(u64),
    LocalFinSent(u64),
    Closed,
}

/// What is known of a connection's closing. Small, and owned by whoever holds it; no call refuses.
#[derive(Clone, Copy, Debug, PartialEq, Eq)]
pub struct CloseRecord(sys::CloseRecord);

impl CloseRecord {
    /// Active, nothing owed and nothing recorded; the flag says whether a FIN of the peer has been observed.
    pub fn new(peer_fin_observed: bool) -> Self {
        // SAFETY: here and below, the call takes and answers numbers and bools of Rust's.
        CloseRecord(unsafe { sys::bluefin_close_new(peer_fin_observed) })
    }

    /// The state.
    pub fn state(&self) -> CloseState {
        match self.0.state {
            0 => CloseState::Active,
            1 => CloseState::PeerFinReceived(self.0.state_fin),
            2 => CloseState::LocalFinSent(self.0.state_fin),
            _ => CloseState::Closed,
        }
    }

    /// The FIN to which a FIN-ACK is owed.
    pub fn pending_fin_ack_send(&self) -> Option<u64> {
        self.0.is_pending.then_some(self.0.pending_fin_ack_send)
    }

    /// The FIN that the last FIN-ACK received is for.
    pub fn received_fin_ack_for(&self) -> Option<u64> {
        self.0.is_received.then_some(self.0.received_fin_ack_for)
    }

    /// Whether a FIN of the peer has been observed.
    pub fn peer_fin_observed(&self) -> bool {
        self.0.peer_fin_observed
    }

    /// A FIN of the peer arrived.
    pub fn buffer_in_fin(&mut self, number: u64) {
        // SAFETY: as in `new`.
        self.0 = unsafe { sys::bluefin_close_buffer_in_fin(self.0, number) }.close;
    }

    /// A FIN-ACK arrived; it is recorded over the last one.
    pub fn buffer_in_fin_ack(&mut self, number: u64) {
        // SAFETY: as in `new`.
        self.0 = unsafe { sys::bluefin_close_buffer_in_fin_ack(self.0, number) }.close;
    }

    /// Our FIN was sent.
    pub fn record_local_fin_sent(&mut self, number: u64) {
        // SAFETY: as in `new`.
        self.0 = unsafe { sys::bluefin_close_record_local_fin_sent(self.0, number) }.close;
    }

    /// Closed, from any state.
    pub fn mark_closed(&mut self) {
        // SAFETY: as in `new`.
        self.0 = unsafe { sys::bluefin_close_mark_closed(self.0) }.close;
    }

    /// Takes the FIN to which a FIN-ACK is owed.
    pub fn take_pending_fin_ack_send(&mut self) -> Option<u64> {
        // SAFETY: as in `new`.
        let taken = unsafe { sys::bluefin_close_take_pending_fin_ack_send(self.0) };
        self.0 = taken.close;
        taken.was_pending.then_some(taken.number)
    }
}

/// Which end of a connection a program is.
#[derive(Clone, Copy, Debug, PartialEq, Eq)]
#[repr(u8)]
pub enum Host {
    PackLeader = 0,
    Client = 1,
    Other = 2,
}

/// Whether a packet is the hello that this host waits for.
pub fn is_hello_packet(host: Host, header: Header) -> bool {
    // SAFETY: the call takes numbers and answers yes or no.
    unsafe { sys::bluefin_is_hello_packet(host as u8, header.to_c()) }
}

/// Whether a packet is the client's ack that this host waits for.
pub fn is_client_ack_packet(host: Host, header: Header) -> bool {
    // SAFETY: the call takes numbers and answers yes or no.
    unsafe { sys::bluefin_is_client_ack_packet(host as u8, header.to_c()) }
}

#[cfg(test)]
mod tests {
    use super::*;
    use crate::PacketType;

    #[test]
    fn a_fin_is_owed_once() {
        let mut record = CloseRecord::new(false);
        assert_eq!(record.state(), CloseState::Active);
        record.buffer_in_fin(4);
        assert_eq!(record.state(), CloseState::PeerFinReceived(4));
        assert!(record.peer_fin_observed());
        assert_eq!(record.pending_fin_ack_send(), Some(4));
        assert_eq!(record.take_pending_fin_ack_send(), Some(4));
        assert_eq!(record.take_pending_fin_ack_send(), None);
        record.record_local_fin_sent(9);
        assert_eq!(record.state(), CloseState::LocalFinSent(9));
        record.buffer_in_fin_ack(9);
        assert_eq!(record.received_fin_ack_for(), Some(9));
        record.mark_closed();
        assert_eq!(record.state(), CloseState::Closed);
    }

    #[test]
    fn hellos() {
        let hello = Header::new(1, 0, PacketType::ClientHello, 0, 0);
        assert!(is_hello_packet(Host::PackLeader, hello));
        assert!(!is_hello_packet(Host::Client, hello));
        assert!(is_hello_packet(Host::Other, hello));
        let ack = Header::new(1, 2, PacketType::ClientAck, 0, 0);
        assert!(is_client_ack_packet(Host::PackLeader, ack));
        assert!(!is_client_ack_packet(Host::Client, ack));
    }
}
