//! One call for a datagram: against the published Rust's many calls, and against this library's own, whose answers and memory it
//! has to equal on every input, those too that are not compared with the Rust.

use crate::datagrams::{by_many_calls, by_the_rust, push_packet, room_for, spoil, Told, ACK, DATA};
use crate::tally::{Plan, Tally};
use crate::window::{self, CELLS};
use bench::lent::{refusal_in, Lent, SLOTS};
use bluefin::sys;
use oracle::components;
use oracle::core::header::PacketType;
use oracle::linked::{OrderedBytes, SlidingWindow};
use oracle::record::Xorshift;

const WIDTH: usize = 1_500;

/// All memory is compared once in so many commands, and a new state comes.
const LONG: u64 = 250;
const WHOLE: u64 = 50;

struct Receivers {
    theirs: OrderedBytes,
    many: Lent,
    once: Lent,
}

impl Receivers {
    fn restart(&mut self, rng: &mut Xorshift) {
        let start = rng.start_number(2_100);
        self.theirs = OrderedBytes::new(start);
        self.many.restart(WIDTH, start);
        self.once.restart(WIDTH, start);
    }

    /// A number near the front, at times below it or at the far end; rarely one that is held, as the Rust prints all it holds then.
    fn number(&self, rng: &mut Xorshift) -> u64 {
        let front = self.once.state.front_number;
        if rng.one_in(20) {
            return front.saturating_sub(1 + rng.below(3));
        }
        let mut distance = 0;
        for _ in 0..4 {
            distance = match rng.below(24) {
                0 => SLOTS as u64 - 6 + rng.below(12),
                1 => rng.below(100),
                _ => rng.below(14),
            };
            if distance >= SLOTS as u64 || self.once.held(distance as usize).is_none() {
                break;
            }
        }
        front.saturating_add(distance)
    }

    fn datagram(&self, rng: &mut Xorshift) -> Vec<u8> {
        let mut datagram = Vec::new();
        for _ in 0..1 + rng.below(6) {
            let number = self.number(rng);
            if rng.one_in(5) {
                push_packet(&mut datagram, rng.below(7) as u8 % 3 + 4, 5, number, b"");
                continue;
            }
            let length = match rng.below(12) {
                0 => 0,
                1 => WIDTH as u64 - rng.below(2),
                2 if rng.one_in(20) => WIDTH as u64 + 1,
                2 => rng.below(WIDTH as u64),
                _ => 1 + rng.below(40),
            };
            let payload = rng.bytes(length);
            push_packet(&mut datagram, DATA, length as u16, number, &payload);
        }
        spoil(&mut datagram, rng);
        datagram
    }

    fn receive(&mut self, rng: &mut Xorshift, tally: &mut Tally) {
        let datagram = self.datagram(rng);
        let room = room_for(&datagram, rng);
        let mut once = Told {
            index: room.index.clone(),
            answers: room.answers.clone(),
            ..room
        };
        let accept =
            |number, _, payload: &[u8]| refusal_in(number, self.many.accept(number, payload));
        let many = by_many_calls(&datagram, room, DATA, accept);
        let parsed = self
            .once
            .receive(&datagram, &mut once.index, &mut once.answers);
        (once.refusal, once.cursor, once.packets) = (parsed.refusal, parsed.cursor, parsed.packets);
        if once != many {
            tally.differs(&format!(
                "by one call {once:?}, by many {many:?} on {datagram:?}"
            ));
        }
        if many.not_compared() {
            tally.left_out += 1;
            self.compare_memory(tally);
            self.restart(rng);
            return;
        }
        let theirs = by_the_rust(&datagram, |packet| {
            let data = packet.header.type_field == PacketType::UnencryptedData;
            let class = components::ordered_bytes::class;
            data.then(|| {
                self.theirs
                    .buffer_in_packet(packet)
                    .map_or_else(class, |()| 0)
            })
        });
        tally.compared += 1;
        let ours = once.in_its_words(u64::from);
        if ours != theirs {
            tally.differs(&format!(
                "the Rust {theirs:?}, here {ours:?} on {datagram:?}"
            ));
        }
    }

    fn consume(&mut self, rng: &mut Xorshift, tally: &mut Tally) {
        let len = match rng.below(4) {
            0 => rng.below(6_000),
            _ => rng.below(60),
        } as usize;
        let mut bufs = [vec![9; len], vec![9; len], vec![9; len]];
        let theirs = self.theirs.consume(len, &mut bufs[0]);
        let ours = self.once.consume(len, &mut bufs[1]);
        let many = self.many.consume(len, &mut bufs[2]);
        tally.compared += 1;
        let told = match theirs {
            Ok((packets, base, bytes)) => (0, packets, base, bytes),
            Err(error) => (components::ordered_bytes::class(error) as u8, 0, 0, 0),
        };
        let read = (
            ours.refusal,
            ours.num_packets_consumed,
            ours.base_packet_number,
            ours.bytes_consumed,
        );
        if read != told || ours != many || bufs[0] != bufs[1] || bufs[0] != bufs[2] {
            tally.differs(&format!("read of {len}: the Rust {told:?}, here {ours:?}"));
        }
    }

    fn consume_bytes(&mut self, rng: &mut Xorshift, tally: &mut Tally) {
        let limit = rng.below(8) as usize;
        let (mut buf, mut list, mut pieces) = (vec![0; 9 * WIDTH], [0; 9], Vec::new());
        let theirs = self.theirs.consume_bytes(&mut pieces, limit);
        let many = self.many.consume_bytes(limit, &mut buf, &mut list);
        let ours = self.once.consume_bytes(limit, &mut buf, &mut list);
        tally.compared += 1;
        let told = match theirs {
            Ok((packets, base, bytes)) => (0, packets, base, bytes),
            Err(error) => (components::ordered_bytes::class(error) as u8, 0, 0, 0),
        };
        let read = (
            ours.refusal,
            ours.num_packets_consumed,
            ours.base_packet_number,
            ours.bytes_consumed,
        );
        let lengths = pieces.iter().map(|piece| piece.len() as u32);
        let same = lengths.eq(list[..ours.pieces].iter().copied())
            && pieces.concat() == buf[..ours.bytes_consumed as usize];
        if read != told || ours != many || !same {
            tally.differs(&format!(
                "pieces to {limit}: the Rust {told:?}, here {ours:?}"
            ));
        }
    }

    /// All that is held, its place and its bytes, and the carry-over; and this library's memory to the byte.
    fn compare_memory(&self, tally: &mut Tally) {
        if self.once != self.many {
            tally.differs("the memory left by one call and by many differs");
        }
    }

    fn compare_held(&self, tally: &mut Tally) {
        let (front, held, carried) = self.theirs.parts();
        let same = front == self.once.state.front_number
            && self.theirs.front_slot() == self.once.state.front_slot
            && carried == self.once.carried()
            && (0..SLOTS).all(|distance| held[distance].as_deref() == self.once.held(distance));
        if !same {
            tally.differs("what the Rust holds and what is held here differ");
        }
    }
}

/// `receive`, and reads between.
pub fn data(plan: &Plan, thousandths: u64) -> Tally {
    let mut tally = Tally::named("receive");
    let mut rng = Xorshift::seeded(plan.seed);
    let mut both = Receivers {
        theirs: OrderedBytes::new(0),
        many: Lent::new(WIDTH, 0),
        once: Lent::new(WIDTH, 0),
    };
    let mut turn = 0;
    while tally.compared < plan.share(thousandths) {
        turn += 1;
        if turn % LONG == 0 {
            both.restart(&mut rng);
        }
        match rng.below(4) {
            0 => both.consume(&mut rng, &mut tally),
            1 if rng.one_in(2) => both.consume_bytes(&mut rng, &mut tally),
            _ => both.receive(&mut rng, &mut tally),
        }
        if turn % WHOLE == 0 {
            both.compare_memory(&mut tally);
            both.compare_held(&mut tally);
        }
    }
    tally.print();
    tally
}

#[derive(Clone, PartialEq)]
struct Window {
    small: sys::Window,
    cells: Vec<u64>,
}

impl Window {
    fn insert_range(&mut self, base: u64, count: u16) -> u8 {
        let (cells, room) = (self.cells.as_mut_ptr(), self.cells.len());
        // SAFETY: here and below, each pointer stands beside the length of its vector, and no two overlap.
        let told =
            unsafe { sys::bluefin_window_insert_range(self.small, cells, room, base, count) };
        self.small = told.window;
        told.refusal
    }

    fn consume(&mut self) -> sys::Run {
        let (cells, room) = (self.cells.as_mut_ptr(), self.cells.len());
        // SAFETY: as in `insert_range`.
        let run = unsafe { sys::bluefin_window_consume(self.small, cells, room) };
        self.small = run.window;
        run
    }

    fn receive(&mut self, datagram: &[u8], told: &mut Told) {
        // SAFETY: as in `insert_range`.
        let received = unsafe {
            sys::bluefin_receive_acks(
                self.small,
                self.cells.as_mut_ptr(),
                self.cells.len(),
                datagram.as_ptr(),
                datagram.len(),
                told.index.as_mut_ptr(),
                told.index.len(),
                told.answers.as_mut_ptr(),
                told.answers.len(),
            )
        };
        self.small = received.window;
        (told.refusal, told.cursor, told.packets) =
            (received.refusal, received.cursor, received.packets);
    }

    fn held(&self) -> &[u64] {
        &self.cells[..self.small.count]
    }
}

struct Windows {
    theirs: SlidingWindow,
    many: Window,
    once: Window,
}

impl Windows {
    fn restart(&mut self, rng: &mut Xorshift) {
        let start = rng.start_number(41_000);
        self.theirs = SlidingWindow::new(start);
        for window in [&mut self.many, &mut self.once] {
            // SAFETY: the call takes and answers numbers.
            window.small = unsafe { sys::bluefin_window_new(start) };
        }
    }

    fn datagram(&self, rng: &mut Xorshift) -> Vec<u8> {
        let mut datagram = Vec::new();
        let expected = self.once.small.smallest_expected;
        for _ in 0..1 + rng.below(8) {
            let away = match rng.below(40) {
                0 => CELLS as u64 - 12 + rng.below(24),
                1..=4 => rng.below(400),
                _ => rng.below(24),
            };
            let base = match rng.below(12) {
                0 => expected.saturating_sub(1 + rng.below(3)),
                _ => expected.saturating_add(away),
            };
            let count = match rng.below(12) {
                0 => rng.below(300),
                _ => rng.below(6),
            } as u16;
            match rng.below(8) {
                0 => {
                    let length = rng.below(40);
                    let payload = rng.bytes(length);
                    push_packet(&mut datagram, DATA, length as u16, base, &payload);
                }
                1 => push_packet(&mut datagram, 5, count, base, b""),
                _ => push_packet(&mut datagram, ACK, count, base, b""),
            }
        }
        spoil(&mut datagram, rng);
        datagram
    }

    fn receive(&mut self, rng: &mut Xorshift, tally: &mut Tally) {
        let datagram = self.datagram(rng);
        let room = room_for(&datagram, rng);
        let mut once = Told {
            index: room.index.clone(),
            answers: room.answers.clone(),
            ..room
        };
        let enter = |base, count, _: &[u8]| self.many.insert_range(base, count);
        let many = by_many_calls(&datagram, room, ACK, enter);
        self.once.receive(&datagram, &mut once);
        if once != many || self.once.small != self.many.small {
            tally.differs(&format!(
                "by one call {once:?}, by many {many:?} on {datagram:?}"
            ));
        }
        if many.not_compared() {
            tally.left_out += 1;
            self.compare_memory(tally);
            self.restart(rng);
            return;
        }
        let theirs = by_the_rust(&datagram, |packet| {
            let header = packet.header;
            let entered = (header.type_field == PacketType::Ack).then(|| {
                self.theirs
                    .insert_range(header.packet_number, header.type_specific_payload)
            });
            entered.map(components::window::class)
        });
        tally.compared += 1;
        let ours = once.in_its_words(window::class);
        if ours != theirs {
            tally.differs(&format!(
                "the Rust {theirs:?}, here {ours:?} on {datagram:?}"
            ));
        }
    }

    fn consume(&mut self, tally: &mut Tally) {
        let (ours, many) = (self.once.consume(), self.many.consume());
        let run = (ours.length > 0).then_some((ours.last, ours.length));
        let theirs = self.theirs.consume();
        tally.compared += 1;
        if run != theirs || ours != many || ours.refusal != 0 {
            tally.differs(&format!("the run: the Rust {theirs:?}, here {ours:?}"));
        }
    }

    fn compare_memory(&self, tally: &mut Tally) {
        if self.once != self.many {
            tally.differs("the memory left by one call and by many differs");
        }
    }

    fn compare_held(&self, tally: &mut Tally) {
        let same = self.theirs.expected() == self.once.small.smallest_expected
            && self.theirs.held() == self.once.held();
        if !same {
            tally.differs("what the Rust holds and what is held here differ");
        }
    }
}

/// `receive_acks`, and runs consumed between.
pub fn acks(plan: &Plan, thousandths: u64) -> Tally {
    let mut tally = Tally::named("receive_acks");
    let mut rng = Xorshift::seeded(plan.seed);
    let empty = Window {
        small: sys::Window::default(),
        cells: vec![0; CELLS],
    };
    let mut both = Windows {
        theirs: SlidingWindow::new(0),
        many: empty.clone(),
        once: empty,
    };
    let mut turn = 0;
    while tally.compared < plan.share(thousandths) {
        turn += 1;
        if turn % LONG == 0 {
            both.restart(&mut rng);
        }
        match rng.below(3) {
            0 => both.consume(&mut tally),
            _ => both.receive(&mut rng, &mut tally),
        }
        both.compare_held(&mut tally);
        if turn % WHOLE == 0 {
            both.compare_memory(&mut tally);
        }
    }
    tally.print();
    tally
}
