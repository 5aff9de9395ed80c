// The yardstick of the network's parts: what `speed_parts` does for its words, and `opennf gen NUMBER --packets N --hosts H TRACE`, by
// plain Rust with nothing proved.
//
// Build: rustc --edition 2021 -O parts.rs. Words: `step SIZE COUNT`, `select SIZE COUNT`, `import SIZE COUNT` as of speed_parts, and `sip SIZE COUNT`,
// which is `step` with the hash that a HashMap has by itself; and those of `gen`, in that order. A table is one HashMap, a chunk a
// vector of bytes.
use std::collections::HashMap;
use std::collections::hash_map::{Entry, RandomState};
use std::fs::File;
use std::hash::{BuildHasher, Hasher};
use std::io::{self, Write};
use std::process::ExitCode;
use tracker::{CLASS_OF, Class, Record, folded};

mod tracker;

/// A flow's protocol, local address and port, remote address and port, from the highest bits down.
type Key = u128;

/// Takes two multiplications for a key, with a seed of its own in each run.
#[derive(Clone)]
struct Folding([u64; 2]);

struct Folder {
    seeds: [u64; 2],
    state: u64,
}

impl Folding {
    fn new() -> Folding {
        let state = RandomState::new();
        Folding([1, 2].map(|number: u64| state.hash_one(number)))
    }
}

impl BuildHasher for Folding {
    type Hasher = Folder;

    fn build_hasher(&self) -> Folder {
        Folder { seeds: self.0, state: 0 }
    }
}

impl Hasher for Folder {
    fn write(&mut self, _bytes: &[u8]) {
        unreachable!()
    }

    #[inline(always)]
    fn write_u128(&mut self, key: u128) {
        let half = folded((key >> 64) as u64 ^ self.seeds[0], self.seeds[1] | 1);
        self.state = folded(half ^ key as u64, self.seeds[0] | 1);
    }

    #[inline(always)]
    fn finish(&self) -> u64 {
        self.state
    }
}

#[derive(Clone, Copy)]
struct Packet {
    nanos: u64,
    src: u32,
    dst: u32,
    length: u32,
    sport: u16,
    dport: u16,
    proto: u8,
    flags: u8,
    /// What the program's packets carry beside.
    #[allow(dead_code)]
    head: [u8; 64],
}

struct Chunk {
    key: Key,
    bytes: Vec<u8>,
}

/// The words of SplitMix64 from a number.
struct Words(u64);

impl Words {
    #[inline(always)]
    fn next(&mut self) -> u64 {
        self.0 = self.0.wrapping_add(0x9e37_79b9_7f4a_7c15);
        let word = (self.0 ^ self.0 >> 30).wrapping_mul(0xbf58_476d_1ce4_e5b9);
        let word = (word ^ word >> 27).wrapping_mul(0x94d0_49bb_1331_11eb);
        word ^ word >> 31
    }
}

fn packet_of(number: u32, word: u64) -> Packet {
    let flags = match word / 4 % 4 {
        0 => 2,
        3 => 17,
        _ => 16,
    };
    let out = Packet {
        nanos: 0,
        src: 0x0a00_0000 + number % 65_536,
        dst: 0xc000_0200 + number / 65_536,
        length: 20,
        sport: 1024 + (number % 10) as u16,
        dport: 443,
        proto: 6,
        flags,
        head: [0; 64],
    };
    if word % 4 != 0 {
        return out;
    }
    Packet { src: out.dst, dst: out.src, sport: out.dport, dport: out.sport, ..out }
}

/// The packet's flow seen from 10.0.0.0/8, and whether it goes out.
#[inline(always)]
fn flow_of(packet: &Packet) -> (Key, bool) {
    let (source, target) = (packet.src >> 24 == 10, packet.dst >> 24 == 10);
    let out = if source != target { source } else { (packet.src, packet.sport) <= (packet.dst, packet.dport) };
    let src = (packet.src as u64) << 16 | packet.sport as u64;
    let dst = (packet.dst as u64) << 16 | packet.dport as u64;
    let (local, remote) = if out { (src, dst) } else { (dst, src) };
    ((packet.proto as u128) << 96 | (local as u128) << 48 | remote as u128, out)
}

/// Steps the record of the packet's flow, and gives the state.
#[inline(always)]
fn step<S: BuildHasher>(table: &mut HashMap<Key, Record, S>, packet: &Packet) -> u8 {
    let (key, out) = flow_of(packet);
    let class = if packet.proto == 6 { CLASS_OF[(packet.flags & 31) as usize] } else { Class::Datagram };
    match table.entry(key) {
        Entry::Occupied(mut kept) => kept.get_mut().step(class, out, packet.length, packet.nanos),
        Entry::Vacant(place) => place.insert(Record::first(class, out, packet.length, packet.nanos)).state,
    }
}

fn filled<S: BuildHasher>(flows: u32, hash: S) -> HashMap<Key, Record, S> {
    let mut table = HashMap::with_hasher(hash);
    for number in 0..flows {
        step(&mut table, &packet_of(number, 1));
    }
    table
}

fn step_packets<S: BuildHasher>(flows: u32, packets: u64, hash: S) -> u64 {
    let mut table = filled(flows, hash);
    let mut words = Words(7);
    let mut sum = 0;
    for _ in 0..packets {
        let word = words.next();
        sum += step(&mut table, &packet_of((word % flows as u64) as u32, word >> 32)) as u64;
    }
    sum
}

/// The chunks of the flows with the local port 1024, in the order of the flows.
fn select(table: &HashMap<Key, Record, Folding>) -> Vec<Chunk> {
    let mut found: Vec<_> = table.iter().filter(|(key, _)| (**key >> 48) as u16 == 1024).collect();
    found.sort_unstable_by_key(|(key, _)| **key);
    found.iter().map(|(key, record)| Chunk { key: **key, bytes: encode(**key, record) }).collect()
}

fn encode(key: Key, record: &Record) -> Vec<u8> {
    let timed = record.seen != 0;
    let body: u16 = if timed { 26 } else { 18 };
    let mut bytes = Vec::with_capacity(18 + body as usize);
    bytes.extend_from_slice(&[1 + timed as u8, 1, 1]);
    bytes.extend_from_slice(&key.to_be_bytes()[3..]);
    bytes.extend_from_slice(&body.to_be_bytes());
    bytes.extend_from_slice(&[record.state, !record.opener_out as u8]);
    bytes.extend_from_slice(&record.packets.to_be_bytes());
    bytes.extend_from_slice(&record.bytes.to_be_bytes());
    if timed {
        bytes.extend_from_slice(&record.seen.to_be_bytes());
    }
    bytes
}

fn eight(bytes: &[u8]) -> u64 {
    u64::from_be_bytes(bytes.try_into().unwrap())
}

fn decode(bytes: &[u8]) -> Option<(Key, Record)> {
    let (head, body) = bytes.split_at_checked(18)?;
    let timed = head[0] == 2;
    let length = if timed { 26 } else { 18 };
    if !(1..=2).contains(&head[0]) || head[1..3] != [1, 1] || !(head[3] == 6 || head[3] == 17) {
        return None;
    }
    if u16::from_be_bytes([head[16], head[17]]) != length || body.len() != length as usize {
        return None;
    }
    let mut key = [0; 16];
    key[3..].copy_from_slice(&head[3..16]);
    let (state, opener) = (body[0], body[1]);
    let record = Record {
        packets: eight(&body[2..10]),
        bytes: eight(&body[10..18]),
        seen: if timed { eight(&body[18..]) } else { 0 },
        state,
        opener_out: opener == 0,
    };
    let fits = if head[3] == 6 { state < 8 } else { state == 8 || state == 9 };
    if !fits || opener > 1 || record.packets == 0 || (timed && record.seen == 0) {
        return None;
    }
    Some((u128::from_be_bytes(key), record))
}

fn age(record: &Record) -> (u64, u64, u64, u8, bool) {
    (record.packets, record.bytes, record.seen, record.state, record.opener_out)
}

/// Takes the chunks' records in, the newer one of two; nothing where a chunk is bad.
fn import(table: &mut HashMap<Key, Record, Folding>, chunks: Vec<Chunk>) -> Option<()> {
    let mut coming = Vec::with_capacity(chunks.len());
    for chunk in &chunks {
        let read = decode(&chunk.bytes)?;
        if read.0 != chunk.key {
            return None;
        }
        coming.push(read);
    }
    table.reserve(coming.len());
    for (key, record) in coming {
        let kept = table.entry(key).or_insert(record);
        if age(&record) > age(kept) {
            *kept = record;
        }
    }
    Some(())
}

fn select_chunks(flows: u32, times: u64) -> u64 {
    let table = filled(flows, Folding::new());
    (0..times).map(|_| select(&table).len() as u64).sum()
}

fn import_chunks(flows: u32, times: u64) -> Option<u64> {
    let table = filled(flows, Folding::new());
    let mut sum = 0;
    for _ in 0..times {
        let mut new = HashMap::with_hasher(Folding::new());
        import(&mut new, select(&table))?;
        sum += new.len() as u64;
    }
    Some(sum)
}

/// Writes the generated capture.
fn generate(number: u64, packets: u32, hosts: u32, file: &mut File) -> io::Result<()> {
    let mut words = Words(number);
    let mut piece = Vec::with_capacity(1 << 16);
    piece.extend_from_slice(&0xa1b2_c3d4u32.to_le_bytes());
    piece.extend_from_slice(&[2, 0, 4, 0, 0, 0, 0, 0, 0, 0, 0, 0, 0xff, 0xff, 0, 0, 101, 0, 0, 0]);
    for j in 1..=packets {
        if piece.len() + 56 > 1 << 16 {
            file.write_all(&piece)?;
            piece.clear();
        }
        push_record(&mut piece, j, words.next(), hosts);
    }
    file.write_all(&piece)
}

#[inline(always)]
fn push_record(piece: &mut Vec<u8>, j: u32, word: u64, hosts: u32) {
    let host = 10 << 24 | (word % hosts as u64) as u32;
    let (peer, udp, size) = ((word >> 16) as u8 % 64, word >> 40 & 1 == 0, (word >> 48) as u32 % 512);
    let (lport, rport) = if udp { (50_000 + peer as u16, 53) } else { (40_000 + peer as u16, 443) };
    let (local, remote) = ((host, lport), (192 << 24 | 2 << 8 | peer as u32, rport));
    let ((src, sport), (dst, dport)) = if (word >> 32) % 4 == 0 { (remote, local) } else { (local, remote) };
    let head: u32 = if udp { 28 } else { 40 };
    let mut record = [0; 56];
    record[0..4].copy_from_slice(&(j / 1000).to_le_bytes());
    record[4..8].copy_from_slice(&(j % 1000 * 1000).to_le_bytes());
    record[8..12].copy_from_slice(&head.to_le_bytes());
    record[12..16].copy_from_slice(&(head + size).to_le_bytes());
    record[16] = 0x45;
    record[18..20].copy_from_slice(&((head + size) as u16).to_be_bytes());
    record[24] = 64;
    record[25] = if udp { 17 } else { 6 };
    record[28..32].copy_from_slice(&src.to_be_bytes());
    record[32..36].copy_from_slice(&dst.to_be_bytes());
    record[36..38].copy_from_slice(&(sport as u16).to_be_bytes());
    record[38..40].copy_from_slice(&(dport as u16).to_be_bytes());
    if udp {
        record[40..42].copy_from_slice(&(8 + size as u16).to_be_bytes());
        piece.extend_from_slice(&record[..44]);
    } else {
        record[48] = 0x50;
        record[49] = [2, 16, 16, 17][(word >> 41) as usize % 4];
        piece.extend_from_slice(&record);
    }
}

fn run(words: &[&str]) -> Option<String> {
    if let ["gen", number, "--packets", packets, "--hosts", hosts, trace] = words {
        let mut file = File::create(trace).ok()?;
        generate(number.parse().ok()?, packets.parse().ok()?, hosts.parse().ok()?, &mut file).ok()?;
        return Some(format!("gen number {number} packets {packets} hosts {hosts}"));
    }
    let [part, size, count] = words else { return None };
    let (size, count) = (size.parse().ok()?, count.parse().ok()?);
    let sum = match *part {
        "step" => step_packets(size, count, Folding::new()),
        "sip" => step_packets(size, count, RandomState::new()),
        "select" => select_chunks(size, count),
        "import" => import_chunks(size, count)?,
        _ => return None,
    };
    Some(format!("sum {sum}"))
}

fn main() -> ExitCode {
    let words: Vec<String> = std::env::args().skip(1).collect();
    let words: Vec<&str> = words.iter().map(String::as_str).collect();
    match run(&words) {
        Some(line) => {
            println!("{line}");
            ExitCode::SUCCESS
        }
        None => ExitCode::FAILURE,
    }
}
