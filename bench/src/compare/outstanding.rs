//! Packing into a store of packets kept to be sent again, listing it and dropping from it. The published Rust has no store: answers,
//! outputs and lent lists are held against document 02, §3, written again here, on stores of every kind, malformed ones too.

use crate::tally::{Plan, Tally};
use bench::kept::{Kept, Queue, PLACES, PLACES_BYTES};
use bluefin::sys;
use oracle::record::Xorshift;

/// The payload bytes of a packet and of a datagram at most.
const PAYLOAD: usize = 1_500;
const LIMIT: usize = 15_000;

const IDS: [u32; 2] = [0x0102_0304, 0xfffe_fdfc];

/// A new store comes once in so many commands.
const LONG: u64 = 20;

// ---- document 02, §3

/// "More than 64, numbers not rising .. or a payload above 1,500"; and less lent than 64 packets may need.
fn malformed(kept: &Kept) -> bool {
    let count = kept.state.count;
    let cells = kept.numbers.len().min(kept.lengths.len());
    if count > PLACES || cells < PLACES || kept.packets.len() < PLACES_BYTES {
        return true;
    }
    let mut pairs = kept.numbers[..count].windows(2);
    let mut lengths = kept.lengths[..count].iter();
    pairs.any(|pair| pair[0] >= pair[1]) || lengths.any(|&length| length as usize > PAYLOAD)
}

/// The bytes of the first packets.
fn size(kept: &Kept, packets: usize) -> usize {
    let lengths = kept.lengths[..packets].iter();
    lengths.map(|&length| 20 + length as usize).sum()
}

/// The payload bytes that a packing takes at most: 15,000 "becomes 1,500 times that many where it is less".
fn limit(kept: &Kept) -> usize {
    LIMIT.min(PAYLOAD * PLACES.saturating_sub(kept.state.count))
}

/// The entries that go, and the bytes cut from the first one left: below the limit every entry goes, empty ones too.
fn removed(queue: Queue, limit: usize) -> (usize, usize) {
    if queue.bytes.len() < limit {
        return (queue.lengths.len(), 0);
    }
    let mut left = limit;
    for (entry, &length) in queue.lengths.iter().enumerate() {
        if left == 0 {
            return (entry, 0);
        }
        if length as usize > left {
            return (entry, left);
        }
        left -= length as usize;
    }
    (queue.lengths.len(), 0)
}

/// A data packet as document 01 lays it out.
fn packet(number: u64, payload: &[u8]) -> Vec<u8> {
    let [src, dst] = IDS.map(u32::to_be_bytes);
    let field = (payload.len() as u16).to_be_bytes();
    let number = number.to_be_bytes();
    [&[3], &field[..], &[0], &src, &dst, &number, payload].concat()
}

fn packed(kept: &mut Kept, queue: Queue, next: u64, out: &mut [u8]) -> sys::DataPacked {
    let outstanding = kept.state;
    let refused = |refusal| sys::DataPacked {
        outstanding,
        refusal,
        ..Default::default()
    };
    let count = outstanding.count;
    let total: u64 = queue.lengths.iter().map(|&length| u64::from(length)).sum();
    if malformed(kept) || total != queue.bytes.len() as u64 {
        return refused(12);
    }
    if kept.numbers[..count].iter().any(|&number| number >= next) {
        return refused(12);
    }
    let taken = &queue.bytes[..queue.bytes.len().min(limit(kept))];
    let payloads = taken.chunks(PAYLOAD);
    let packets = payloads.len();
    let Some(next_packet_num) = next.checked_add(packets as u64) else {
        return refused(9);
    };
    if out.len() < taken.len() + 20 * packets {
        return refused(10);
    }
    if count == PLACES {
        return refused(15);
    }
    let (entries_removed, bytes_cut) = removed(queue, limit(kept));
    let (mut at, mut end) = (0, size(kept, count));
    for ((payload, place), number) in payloads.zip(count..).zip(next..) {
        let packet = packet(number, payload);
        out[at..at + packet.len()].copy_from_slice(&packet);
        kept.packets[end..end + packet.len()].copy_from_slice(&packet);
        kept.numbers[place] = number;
        kept.lengths[place] = payload.len() as u32;
        at += packet.len();
        end += packet.len();
    }
    kept.state.count += packets;
    sys::DataPacked {
        bytes: taken.len(),
        packets,
        next_packet_num,
        entries_removed,
        bytes_cut,
        outstanding: kept.state,
        refusal: 0,
    }
}

/// "list those outstanding by rising number, whole and end to end, answering their count (10 if the buffer is short)"
fn listed(kept: &Kept, out: &mut [u8]) -> sys::Listed {
    let refused = |refusal| sys::Listed {
        packets: 0,
        refusal,
    };
    if malformed(kept) {
        return refused(12);
    }
    let all = size(kept, kept.state.count);
    if out.len() < all {
        return refused(10);
    }
    out[..all].copy_from_slice(&kept.packets[..all]);
    sys::Listed {
        packets: kept.state.count,
        refusal: 0,
    }
}

/// "until the window's `consume` answers it or a later number"
fn dropped(kept: &mut Kept, last: u64) -> sys::Dropped {
    let is_malformed = malformed(kept);
    if !is_malformed {
        let count = kept.state.count;
        let answered = |number: &&u64| **number <= last;
        let gone = kept.numbers[..count].iter().filter(answered).count();
        let (start, end) = (size(kept, gone), size(kept, count));
        kept.packets.copy_within(start..end, 0);
        kept.numbers.copy_within(gone..count, 0);
        kept.lengths.copy_within(gone..count, 0);
        kept.state.count -= gone;
    }
    sys::Dropped {
        outstanding: kept.state,
        refusal: if is_malformed { 12 } else { 0 },
    }
}

// ---- what is asked

/// Bytes that every store and queue is a part of.
struct Source(Vec<u8>);

impl Source {
    fn part(&self, rng: &mut Xorshift, length: usize) -> &[u8] {
        let start = rng.below((self.0.len() - length) as u64 + 1) as usize;
        &self.0[start..start + length]
    }
}

/// A store of any count, whose numbers rise, at times by more than one. What is behind the count holds anything.
fn well_formed(rng: &mut Xorshift, source: &Source) -> Kept {
    let count = match rng.below(4) {
        0 => 0,
        1 => PLACES - rng.below(11) as usize,
        _ => rng.below(PLACES as u64 + 1) as usize,
    };
    let spare = rng.pick(&[0, 0, 1, 7]);
    let mut numbers: Vec<u64> = (0..PLACES + spare).map(|_| rng.next()).collect();
    let (mut number, widest) = match rng.below(5) {
        0 => (u64::MAX - PLACES as u64 - rng.below(12), 1),
        1 => (rng.next() >> 1, 1_000),
        2 => (rng.next() >> 1, 1),
        _ => (rng.below(1_000), 1),
    };
    for cell in &mut numbers[..count] {
        *cell = number;
        number += 1 + rng.below(widest);
    }
    let longest = rng.pick(&[0, 1, 40, PAYLOAD as u64]);
    let length = |rng: &mut Xorshift| match rng.below(3) {
        0 => rng.below(longest + 1) as u32,
        _ => PAYLOAD as u32,
    };
    let mut lengths: Vec<u32> = (0..PLACES + spare).map(|_| length(rng)).collect();
    for cell in &mut lengths[count..] {
        *cell = rng.next() as u32;
    }
    Kept {
        state: sys::Outstanding { count },
        numbers,
        lengths,
        packets: source.part(rng, PLACES_BYTES + spare).to_vec(),
    }
}

/// One fault: in what is lent, in the count, or in a cell before it.
fn with_fault(rng: &mut Xorshift, mut kept: Kept) -> Kept {
    let count = kept.state.count;
    let cell = rng.below(count.max(1) as u64) as usize;
    let pair = cell.min(count.max(2) - 2);
    match rng.below(7) {
        0 => kept.numbers.truncate(rng.below(PLACES as u64) as usize),
        1 => kept.lengths.truncate(PLACES - 1),
        2 => kept.packets.truncate(PLACES_BYTES - 1),
        3 => kept.state.count = rng.pick(&[PLACES + 1, PLACES + 7, usize::MAX]),
        4 => kept.lengths[cell] = rng.pick(&[PAYLOAD as u32 + 1, 65_535, u32::MAX]),
        5 => kept.numbers[pair] = kept.numbers[pair + 1],
        _ => kept.numbers.swap(pair, pair + 1),
    }
    kept
}

/// Once in four times with a fault.
fn store(rng: &mut Xorshift, source: &Source) -> Kept {
    let kept = well_formed(rng, source);
    if rng.one_in(4) {
        return with_fault(rng, kept);
    }
    kept
}

/// The lengths of a queue about a multiple of a payload, cut at random places, at times with more behind it: the free places and the
/// limit are among the multiples, and empty entries among the lengths.
fn queued(rng: &mut Xorshift, free: usize) -> Vec<u32> {
    let free = free.min(11);
    let multiple = rng.pick(&[0, 1, 2, 9, 10, 11, free, free, free, free + 1]) as u32;
    let mut left = (multiple * PAYLOAD as u32 + rng.below(3) as u32).saturating_sub(1);
    let mut lengths = Vec::new();
    while left > 0 && lengths.len() < 20 {
        let length = match rng.below(4) {
            0 => PAYLOAD as u32 - 1 + rng.below(3) as u32,
            1 => rng.below(4_000) as u32,
            2 => rng.below(40) as u32,
            _ => left,
        };
        lengths.push(length.min(left));
        left -= length.min(left);
    }
    for _ in 0..rng.below(4) {
        lengths.push(rng.pick(&[0, 0, 1, PAYLOAD as u32]));
    }
    if rng.one_in(3) {
        lengths.insert(rng.below(lengths.len() as u64 + 1) as usize, 0);
    }
    lengths
}

/// A length about one that is just enough.
fn about(rng: &mut Xorshift, enough: usize) -> usize {
    match rng.below(8) {
        0 => enough.saturating_sub(1),
        1 => rng.below(enough as u64 + 1) as usize,
        2 => enough + 1 + rng.below(50) as usize,
        _ => enough,
    }
}

/// A number about those that are kept, or any at all.
fn number(rng: &mut Xorshift, kept: &Kept) -> u64 {
    let count = kept.state.count.min(kept.numbers.len());
    let Some(&last) = kept.numbers[..count].last() else {
        return rng.start_number(24);
    };
    match rng.below(16) {
        0 => last,
        1 => rng.next(),
        2 => u64::MAX - rng.below(12),
        3 => rng.pick(&kept.numbers[..count]),
        _ => last.saturating_add(1 + rng.pick(&[0, 0, 0, 5])),
    }
}

/// This library's side and the paper's.
struct Pair {
    ours: Kept,
    paper: Kept,
}

impl Pair {
    /// What differs after a call, if anything: outputs and lists are too long to be printed.
    fn fault<T: std::fmt::Debug + PartialEq>(
        &self,
        told: [T; 2],
        outputs: [&[u8]; 2],
    ) -> Option<String> {
        let [ours, paper] = &told;
        if ours != paper {
            return Some(format!("this library says {ours:?}, the paper {paper:?}"));
        }
        if outputs[0] != outputs[1] {
            return Some(format!("with {ours:?} the output differs"));
        }
        (self.ours != self.paper).then(|| format!("with {ours:?} the store differs"))
    }

    fn pack(&mut self, rng: &mut Xorshift, source: &Source) -> Option<String> {
        let kept = &self.paper;
        let lengths = queued(rng, PLACES.saturating_sub(kept.state.count));
        let mut total = lengths.iter().map(|&length| length as usize).sum();
        if rng.one_in(20) {
            total += 1;
        }
        let queue = Queue {
            bytes: source.part(rng, total),
            lengths: &lengths,
        };
        let taken = total.min(limit(kept));
        let room = about(rng, taken + 20 * taken.div_ceil(PAYLOAD));
        let next = number(rng, kept);
        let mut outputs = [vec![9; room], vec![9; room]];
        let [ours, paper] = &mut outputs;
        let told = [
            self.ours.pack(queue, next, IDS, ours),
            packed(&mut self.paper, queue, next, paper),
        ];
        let fault = self.fault(told, [&outputs[0], &outputs[1]])?;
        Some(format!(
            "packing {lengths:?} from {next} into {room} bytes: {fault}"
        ))
    }

    fn list(&mut self, rng: &mut Xorshift) -> Option<String> {
        let enough = if malformed(&self.paper) {
            40
        } else {
            size(&self.paper, self.paper.state.count)
        };
        let room = about(rng, enough);
        let mut outputs = [vec![9; room], vec![9; room]];
        let [ours, paper] = &mut outputs;
        let told = [self.ours.list(ours), listed(&self.paper, paper)];
        let fault = self.fault(told, [&outputs[0], &outputs[1]])?;
        Some(format!("listing into {room} bytes: {fault}"))
    }

    fn drop_answered(&mut self, rng: &mut Xorshift) -> Option<String> {
        let count = self.paper.state.count.min(self.paper.numbers.len());
        let last = match rng.below(3) {
            0 => number(rng, &self.paper),
            _ if count == 0 => rng.next(),
            _ => {
                let kept = rng.pick(&self.paper.numbers[..count]);
                kept.saturating_sub(rng.pick(&[0, 0, 1]))
            }
        };
        let told = [
            self.ours.drop_answered(last),
            dropped(&mut self.paper, last),
        ];
        let fault = self.fault(told, [&[], &[]])?;
        Some(format!("dropping up to {last}: {fault}"))
    }
}

/// Packs, lists and drops in runs, each from a store of its own.
pub fn runs(plan: &Plan, thousandths: u64) -> Tally {
    let mut rng = Xorshift::seeded(plan.seed);
    let source = Source(rng.bytes(2 * PLACES_BYTES as u64));
    let mut tally = Tally::named("outstanding");
    let mut pair = Pair {
        ours: Kept::new(),
        paper: Kept::new(),
    };
    while tally.compared < plan.share(thousandths) {
        if rng.one_in(LONG) || (malformed(&pair.paper) && rng.one_in(3)) {
            let kept = store(&mut rng, &source);
            pair = Pair {
                ours: kept.clone(),
                paper: kept,
            };
        }
        let (count, first) = (pair.paper.state.count, pair.paper.numbers.first().copied());
        let fault = match rng.below(8) {
            0..=4 => pair.pack(&mut rng, &source),
            5 | 6 => pair.list(&mut rng),
            _ => pair.drop_answered(&mut rng),
        };
        tally.compared += 1;
        if let Some(fault) = fault {
            tally.differs(&format!("with {count} kept from {first:?} on, {fault}"));
            pair.ours = pair.paper.clone();
        }
    }
    tally.print();
    tally
}
