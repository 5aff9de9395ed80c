// The work of moves between tables, by plain Rust with nothing proved: records are taken from one table by a filter, written as the bytes
// of chunks in the order of their units, removed, read and checked again, and put into another table.
//
// Use: moves MODE CAPTURE PERIOD COUNT half|any
//
// Of three tables the first gets all packets, but for those of flows that moves have taken elsewhere. COUNT moves take the flows of half
// of the hosts, or all, from table to table, after PERIOD packets each. MODE is
//
//   none   no moves at all
//   plain  as one writes it: std's `HashMap`, and a `Vec` of bytes for each chunk
//   tuned  a hash of one multiplication, and one buffer for each 64 chunks
//
// The lines of all packets and records go to the standard output, so that the rest of the work is that of the program's runs.
mod tracker;

use std::collections::HashMap;
use std::collections::hash_map::{Entry, RandomState};
use std::hash::{BuildHasher, BuildHasherDefault, Hash, Hasher};
use std::io::Write;
use tracker::{CLASS_OF, Class, Record, folded};

#[derive(Clone, Copy, PartialEq, Eq, Hash)]
struct Flow {
    proto: u8,
    local: u32,
    lport: u16,
    remote: u32,
    rport: u16,
}

impl Flow {
    /// The flow as one number, in the order of units.
    fn number(&self) -> u128 {
        (self.proto as u128) << 96
            | (self.local as u128) << 64
            | (self.lport as u128) << 48
            | (self.remote as u128) << 16
            | self.rport as u128
    }
}

/// A flow that is hashed as one number.
#[derive(Clone, Copy, PartialEq, Eq)]
struct Numbered(Flow);

impl Hash for Numbered {
    fn hash<H: Hasher>(&self, hasher: &mut H) {
        hasher.write_u128(self.0.number());
    }
}

#[derive(Default)]
struct OneProduct(u64);

impl Hasher for OneProduct {
    fn finish(&self) -> u64 {
        self.0
    }

    fn write(&mut self, _bytes: &[u8]) {
        unreachable!("only numbers of 16 bytes are hashed");
    }

    fn write_u128(&mut self, number: u128) {
        self.0 = folded((number >> 64) as u64 ^ 0x9E37_79B9_7F4A_7C15, number as u64 ^ 0xD6E8_FEB8_6659_FD93);
    }
}

trait Key: Copy + Eq + Hash {
    fn of(flow: Flow) -> Self;
    fn flow(&self) -> Flow;
}

impl Key for Flow {
    fn of(flow: Flow) -> Flow {
        flow
    }

    fn flow(&self) -> Flow {
        *self
    }
}

impl Key for Numbered {
    fn of(flow: Flow) -> Numbered {
        Numbered(flow)
    }

    fn flow(&self) -> Flow {
        self.0
    }
}

/// How many bytes the chunk of a flow's record has, and how many of them are the record's.
const CHUNK: usize = 44;
const BODY: u16 = 26;
/// The version of chunks, the number of the tracker, and the number of a flow's key.
const FRONT: [u8; 3] = [2, 1, 1];
/// How many chunks are in a piece.
const PIECE: usize = 64;

fn write_chunk(bytes: &mut Vec<u8>, flow: &Flow, record: &Record) {
    bytes.extend_from_slice(&FRONT);
    bytes.push(flow.proto);
    bytes.extend_from_slice(&flow.local.to_be_bytes());
    bytes.extend_from_slice(&flow.lport.to_be_bytes());
    bytes.extend_from_slice(&flow.remote.to_be_bytes());
    bytes.extend_from_slice(&flow.rport.to_be_bytes());
    bytes.extend_from_slice(&BODY.to_be_bytes());
    bytes.extend_from_slice(&[record.state, record.opener_out as u8]);
    for number in [record.packets, record.bytes, record.seen] {
        bytes.extend_from_slice(&number.to_be_bytes());
    }
}

/// Reads a chunk, if it is one.
fn read_chunk(bytes: &[u8]) -> Option<(Flow, Record)> {
    let bytes: &[u8; CHUNK] = bytes.try_into().ok()?;
    let two = |at: usize| u16::from_be_bytes([bytes[at], bytes[at + 1]]);
    let four = |at: usize| u32::from_be_bytes(bytes[at..at + 4].try_into().unwrap());
    let eight = |at: usize| u64::from_be_bytes(bytes[at..at + 8].try_into().unwrap());
    let flow = Flow { proto: bytes[3], local: four(4), lport: two(8), remote: four(10), rport: two(14) };
    let record = Record { state: bytes[18], opener_out: bytes[19] == 1, packets: eight(20), bytes: eight(28), seen: eight(36) };
    let is_front = bytes[..3] == FRONT && (flow.proto == 6 || flow.proto == 17) && two(16) == BODY;
    let is_record = record.state <= 9 && bytes[19] <= 1 && record.packets > 0 && (flow.proto == 17) == (record.state >= 8);
    (is_front && is_record).then_some((flow, record))
}

struct Packet {
    flow: Flow,
    out: bool,
    class: Class,
    length: u32,
    nanos: u64,
}

/// The packets of a generated capture, whose site is 10.0.0.0/24.
fn read_packets(path: &str) -> Vec<Packet> {
    let bytes = std::fs::read(path).unwrap();
    let little = |at: usize| u32::from_le_bytes(bytes[at..at + 4].try_into().unwrap());
    let (mut at, mut packets) = (24, Vec::new());
    while at + 16 <= bytes.len() {
        let nanos = little(at) as u64 * 1_000_000_000 + little(at + 4) as u64 * 1000;
        let captured = little(at + 8) as usize;
        packets.push(packet_of(&bytes[at + 16..at + 16 + captured], nanos));
        at += 16 + captured;
    }
    packets
}

fn packet_of(bytes: &[u8], nanos: u64) -> Packet {
    let four = |at: usize| u32::from_be_bytes(bytes[at..at + 4].try_into().unwrap());
    let two = |at: usize| u16::from_be_bytes(bytes[at..at + 2].try_into().unwrap());
    let (source, destination) = ((four(12), two(20)), (four(16), two(22)));
    let is_inside = |address: u32| address >> 8 == 10 << 16;
    let out = match (is_inside(source.0), is_inside(destination.0)) {
        (true, false) => true,
        (false, true) => false,
        _ => source <= destination,
    };
    let ((local, lport), (remote, rport)) = if out { (source, destination) } else { (destination, source) };
    let (class, headers) = match bytes[9] {
        6 => (CLASS_OF[(bytes[33] & 31) as usize], 20 + 4 * (bytes[32] >> 4) as u32),
        _ => (Class::Datagram, 28),
    };
    let flow = Flow { proto: bytes[9], local, lport, remote, rport };
    Packet { flow, out, class, length: two(2) as u32 - headers, nanos }
}

type Table<K, S> = HashMap<K, Record, S>;

/// Moves what the filter takes from one table to another, and gives how many records that were.
fn take_along<K: Key, S: BuildHasher>(
    tables: &mut [Table<K, S>],
    (source, destination): (usize, usize),
    takes: impl Fn(&Flow) -> bool,
    chunk_by_chunk: bool,
) -> usize {
    let taken = tables[source].iter().filter(|(key, _)| takes(&key.flow()));
    let mut found: Vec<(Flow, Record)> = taken.map(|(key, record)| (key.flow(), *record)).collect();
    found.sort_unstable_by_key(|(flow, _)| flow.number());
    if chunk_by_chunk {
        let chunk_of = |(flow, record): &(Flow, Record)| {
            let mut bytes = Vec::with_capacity(CHUNK);
            write_chunk(&mut bytes, flow, record);
            bytes
        };
        let chunks: Vec<Vec<u8>> = found.iter().map(chunk_of).collect();
        for (flow, _) in &found {
            tables[source].remove(&K::of(*flow));
        }
        for chunk in &chunks {
            let (flow, record) = read_chunk(chunk).unwrap();
            tables[destination].insert(K::of(flow), record);
        }
        return chunks.len();
    }
    let mut bytes = Vec::with_capacity(PIECE * CHUNK);
    for piece in found.chunks(PIECE) {
        bytes.clear();
        for (flow, record) in piece {
            write_chunk(&mut bytes, flow, record);
            tables[source].remove(&K::of(*flow));
        }
        for chunk in bytes.chunks(CHUNK) {
            let (flow, record) = read_chunk(chunk).unwrap();
            tables[destination].insert(K::of(flow), record);
        }
    }
    found.len()
}

const NAMES: [&str; 3] = ["a", "b", "c"];

fn run<K: Key, S: BuildHasher + Default>(path: &str, period: usize, count: usize, half: bool, chunk_by_chunk: bool) {
    let packets = read_packets(path);
    let mut tables: Vec<Table<K, S>> = NAMES.iter().map(|_| HashMap::default()).collect();
    let takes = |flow: &Flow| !half || flow.local & 0x80 == 0;
    let (mut owner, mut moves, mut units) = (0, 0, 0);
    let (mut outs, mut dones) = (Vec::new(), Vec::new());
    for (number, packet) in (1..).zip(&packets) {
        let place = if takes(&packet.flow) { owner } else { 0 };
        let Packet { class, out, length, nanos, .. } = *packet;
        let state = match tables[place].entry(K::of(packet.flow)) {
            Entry::Occupied(mut entry) => entry.get_mut().step(class, out, length, nanos),
            Entry::Vacant(entry) => entry.insert(Record::first(class, out, length, nanos)).state,
        };
        writeln!(outs, "out {number} {state}").unwrap();
        writeln!(dones, "done {number} {}", NAMES[place]).unwrap();
        if moves < count && number == period * (moves + 1) {
            let next = (owner + 1) % NAMES.len();
            units += take_along(&mut tables, (owner, next), takes, chunk_by_chunk);
            (owner, moves) = (next, moves + 1);
        }
    }
    for (table, name) in tables.iter().zip(NAMES) {
        let mut records: Vec<(Flow, &Record)> = table.iter().map(|(key, record)| (key.flow(), record)).collect();
        records.sort_unstable_by_key(|(flow, _)| flow.number());
        for (Flow { proto, local, lport, remote, rport }, record) in records {
            let Record { state, packets, bytes, seen, .. } = record;
            writeln!(dones, "state {proto} {local}:{lport} {remote}:{rport} {name} {state} {packets} {bytes} {seen}").unwrap();
        }
    }
    for part in [outs, dones] {
        std::io::stdout().write_all(&part).unwrap();
    }
    eprintln!("{moves} moves, {units} units");
}

fn main() {
    let words: Vec<String> = std::env::args().collect();
    let [_, mode, path, period, count, taken] = &words[..] else {
        eprintln!("use: moves none|plain|tuned CAPTURE PERIOD COUNT half|any");
        std::process::exit(1);
    };
    let (period, half) = (period.parse().unwrap(), taken == "half");
    let count = if mode == "none" { 0 } else { count.parse().unwrap() };
    if mode == "tuned" {
        run::<Numbered, BuildHasherDefault<OneProduct>>(path, period, count, half, false);
    } else {
        run::<Flow, RandomState>(path, period, count, half, true);
    }
}
