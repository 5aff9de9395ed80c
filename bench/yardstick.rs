// The yardstick for speed: what `opennf sim conntrack --instances NAME --inside PREFIX --schedule last TRACE`
// prints, by plain Rust with nothing proved, written to be fast. It takes the same words, in that order, and any
// capture that the program takes; it keeps the fold alone, without a network of instances.
//
// Build: rustc -O yardstick.rs. The capture goes by in pieces of a megabyte. For each packet one byte is kept, the
// state that it led to, since the line that counts the packets stands before their lines. Flows are found by a hash
// with a seed of its own in each run, so that no capture can be made to be slow.
use std::collections::hash_map::RandomState;
use std::fs::File;
use std::hash::{BuildHasher, Hasher};
use std::io::{self, Read, Write};
use std::process::ExitCode;
use tracker::{CLASS_OF, Class, Record, folded};

mod tracker;

/// The names of the states.
const STATES: [&str; 10] =
    ["opening", "answered", "established", "finfwd", "finrev", "closed", "reset", "loose", "single", "both"];

/// A flow's protocol, local address and port, remote address and port, from the highest bits down, so that the
/// order of these numbers is the order of the report.
type Key = u128;

struct Entry {
    key: Key,
    record: Record,
}

/// The flows' records in the order in which they came, and a hash table of their places: a number from 1 on, and the
/// high half of the key's hash beside it. The table has a power of two of slots, at most half of them taken.
struct Table {
    entries: Vec<Entry>,
    slots: Vec<(u32, u32)>,
    seeds: [u64; 3],
}

impl Table {
    fn open() -> Table {
        let state = RandomState::new();
        let seeds = [1, 2, 3].map(|number| {
            let mut hasher = state.build_hasher();
            hasher.write_u64(number);
            hasher.finish()
        });
        Table { entries: Vec::new(), slots: vec![(0, 0); 1 << 12], seeds }
    }

    #[inline(always)]
    fn hash_of(&self, key: Key) -> u64 {
        let [first, second, third] = self.seeds;
        folded(folded((key >> 64) as u64 ^ first, key as u64 ^ second), third | 1)
    }

    /// The slot of this key, or the free one that it would take.
    #[inline(always)]
    fn slot_of(&self, key: Key, hash: u64) -> usize {
        let (mask, high) = (self.slots.len() - 1, (hash >> 32) as u32);
        let mut slot = hash as usize & mask;
        loop {
            let (number, tag) = self.slots[slot];
            if number == 0 || (tag == high && self.entries[number as usize - 1].key == key) {
                return slot;
            }
            slot = (slot + 1) & mask;
        }
    }

    #[cold]
    fn grow(&mut self) {
        let mask = self.slots.len() * 2 - 1;
        let mut slots = vec![(0, 0); mask + 1];
        for (number, entry) in (1..).zip(&self.entries) {
            let hash = self.hash_of(entry.key);
            let mut slot = hash as usize & mask;
            while slots[slot].0 != 0 {
                slot = (slot + 1) & mask;
            }
            slots[slot] = (number, (hash >> 32) as u32);
        }
        self.slots = slots;
    }

    /// Counts a packet and gives the state that it leads to.
    #[inline(always)]
    fn step(&mut self, key: Key, out: bool, class: Class, length: u32, nanos: u64) -> u8 {
        let hash = self.hash_of(key);
        let slot = self.slot_of(key, hash);
        if self.slots[slot].0 == 0 {
            let record = Record::first(class, out, length, nanos);
            self.entries.push(Entry { key, record });
            self.slots[slot] = (self.entries.len() as u32, (hash >> 32) as u32);
            if self.entries.len() * 2 > self.slots.len() {
                self.grow();
            }
            return record.state;
        }
        let entry = &mut self.entries[self.slots[slot].0 as usize - 1];
        entry.record.step(class, out, length, nanos)
    }
}

struct Packet {
    proto: u8,
    src: u32,
    sport: u16,
    dst: u32,
    dport: u16,
    class: Class,
    length: u32,
}

fn two(bytes: &[u8]) -> u16 {
    u16::from_be_bytes([bytes[0], bytes[1]])
}

fn four(bytes: &[u8]) -> u32 {
    u32::from_be_bytes([bytes[0], bytes[1], bytes[2], bytes[3]])
}

/// The packet in a frame, where it is IPv4 with TCP or UDP and not a later fragment.
#[inline(always)]
fn packet_of(frame: &[u8], ethernet: bool) -> Option<Packet> {
    let ip = if !ethernet {
        frame
    } else if frame.len() >= 14 && two(&frame[12..]) == 0x0800 {
        &frame[14..]
    } else if frame.len() >= 18 && two(&frame[12..]) == 0x8100 && two(&frame[16..]) == 0x0800 {
        &frame[18..]
    } else {
        return None;
    };
    if ip.len() < 20 || ip[0] >> 4 != 4 || two(&ip[6..]) & 0x1fff != 0 {
        return None;
    }
    let header = 4 * (ip[0] & 15) as usize;
    if header < 20 || ip.len() < header {
        return None;
    }
    let total = match two(&ip[2..]) as usize {
        0 => ip.len(),
        total => total,
    };
    let segment = &ip[header..];
    let (own, class) = match ip[9] {
        6 if segment.len() >= 20 => (4 * (segment[12] >> 4) as usize, CLASS_OF[(segment[13] & 31) as usize]),
        17 if segment.len() >= 8 => (8, Class::Datagram),
        _ => return None,
    };
    if own < 8 || (ip[9] == 6 && own < 20) || total < header + own {
        return None;
    }
    Some(Packet {
        proto: ip[9],
        src: four(&ip[12..]),
        sport: two(segment),
        dst: four(&ip[16..]),
        dport: two(&segment[2..]),
        class,
        length: (total - header - own) as u32,
    })
}

/// A prefix of addresses: an address is in it where its bits under the mask are these.
struct Inside {
    bits: u32,
    mask: u32,
}

impl Inside {
    fn read(text: &str) -> Option<Inside> {
        let (address, len) = text.split_once('/')?;
        let bits = u32::from(address.parse::<std::net::Ipv4Addr>().ok()?);
        let mask = u32::MAX.checked_shl(32 - len.parse::<u32>().ok()?).unwrap_or(0);
        Some(Inside { bits, mask })
    }

    fn has(&self, address: u32) -> bool {
        address & self.mask == self.bits
    }

    /// The packet's flow, and whether it goes out.
    #[inline(always)]
    fn flow_of(&self, packet: &Packet) -> (Key, bool) {
        let (source, target) = (self.has(packet.src), self.has(packet.dst));
        let out = if source != target {
            source
        } else {
            (packet.src, packet.sport) <= (packet.dst, packet.dport)
        };
        let src = (packet.src as u64) << 16 | packet.sport as u64;
        let dst = (packet.dst as u64) << 16 | packet.dport as u64;
        let (local, remote) = if out { (src, dst) } else { (dst, src) };
        ((packet.proto as u128) << 96 | (local as u128) << 48 | remote as u128, out)
    }
}

/// The bytes of a file, of which at least a wanted number is at hand.
struct Input {
    file: File,
    buffer: Vec<u8>,
    from: usize,
    to: usize,
}

impl Input {
    fn open(name: &str) -> io::Result<Input> {
        Ok(Input { file: File::open(name)?, buffer: vec![0; 1 << 20], from: 0, to: 0 })
    }

    /// Whether `want` more bytes are there; they then stand in the buffer.
    #[inline(always)]
    fn has(&mut self, want: usize) -> io::Result<bool> {
        if self.to - self.from >= want {
            return Ok(true);
        }
        self.fill(want)
    }

    #[cold]
    fn fill(&mut self, want: usize) -> io::Result<bool> {
        self.buffer.copy_within(self.from..self.to, 0);
        self.to -= self.from;
        self.from = 0;
        while self.to < want {
            match self.file.read(&mut self.buffer[self.to..])? {
                0 => return Ok(false),
                taken => self.to += taken,
            }
        }
        Ok(true)
    }

    fn take(&mut self, count: usize) -> &[u8] {
        let from = self.from;
        self.from += count;
        &self.buffer[from..from + count]
    }
}

struct Run {
    table: Table,
    states: Vec<u8>,
    skipped: u32,
    cut: bool,
}

fn run(trace: &str, inside: &Inside) -> io::Result<Run> {
    let refused = |kind: &str| Err(io::Error::new(io::ErrorKind::InvalidData, kind));
    let mut input = Input::open(trace)?;
    if !input.has(24)? {
        return refused("no capture");
    }
    let header = input.take(24);
    let (big, unit) = match header[..4] {
        [0xa1, 0xb2, 0xc3, 0xd4] => (true, 1000),
        [0xa1, 0xb2, 0x3c, 0x4d] => (true, 1),
        [0xd4, 0xc3, 0xb2, 0xa1] => (false, 1000),
        [0x4d, 0x3c, 0xb2, 0xa1] => (false, 1),
        _ => return refused("no capture"),
    };
    let number = |bytes: &[u8]| if big { four(bytes) } else { four(bytes).swap_bytes() };
    let ethernet = match number(&header[20..]) & 0xffff {
        1 => true,
        101 => false,
        _ => return refused("link type"),
    };
    let mut run = Run { table: Table::open(), states: Vec::with_capacity(1 << 12), skipped: 0, cut: false };
    while input.has(16)? {
        let head = input.take(16);
        let nanos = number(head) as u64 * 1_000_000_000 + number(&head[4..]) as u64 * unit;
        let captured = number(&head[8..]) as usize;
        if captured > 262_144 {
            return refused("record length");
        }
        if !input.has(captured)? {
            run.cut = true;
            return Ok(run);
        }
        match packet_of(input.take(captured), ethernet) {
            Some(packet) => {
                let (key, out) = inside.flow_of(&packet);
                run.states.push(run.table.step(key, out, packet.class, packet.length, nanos));
            }
            None => run.skipped += 1,
        }
    }
    run.cut = input.from < input.to;
    Ok(run)
}

const ROOM: usize = 1 << 17;

/// Standard output behind a buffer, and a line's worth of room behind that.
struct Output {
    target: io::StdoutLock<'static>,
    buffer: Vec<u8>,
    used: usize,
}

impl Output {
    /// Writes out what is held, where less than a line's room is left.
    #[inline(always)]
    fn line(&mut self) -> io::Result<()> {
        if self.used > ROOM {
            self.flush()?;
        }
        Ok(())
    }

    #[cold]
    fn flush(&mut self) -> io::Result<()> {
        self.target.write_all(&self.buffer[..self.used])?;
        self.used = 0;
        Ok(())
    }

    #[inline(always)]
    fn text(&mut self, text: &[u8]) {
        self.buffer[self.used..self.used + text.len()].copy_from_slice(text);
        self.used += text.len();
    }

    /// A text that stands in front of its block: the whole block is copied, which takes no loop.
    #[inline(always)]
    fn block<const N: usize>(&mut self, block: &[u8; N], len: usize) {
        self.buffer[self.used..self.used + N].copy_from_slice(block);
        self.used += len;
    }

    fn number(&mut self, mut number: u64) {
        let mut digits = [0; 20];
        let mut from = 20;
        loop {
            from -= 1;
            digits[from] = b'0' + (number % 10) as u8;
            number /= 10;
            if number == 0 {
                break;
            }
        }
        self.text(&digits[from..]);
    }

    fn endpoint(&mut self, endpoint: u64) {
        for shift in [40, 32, 24, 16] {
            self.number(endpoint >> shift & 255);
            self.text(if shift == 16 { b":" } else { b"." });
        }
        self.number(endpoint & 0xffff);
    }
}

/// A word and a number that counts up from 1, as text: `out 1`, `out 2`, ..
struct Count {
    block: [u8; 16],
    first: usize,
    len: usize,
}

impl Count {
    fn open(word: &[u8]) -> Count {
        let mut block = [0; 16];
        block[..word.len()].copy_from_slice(word);
        block[word.len()] = b'0';
        Count { block, first: word.len(), len: word.len() + 1 }
    }

    #[inline(always)]
    fn next(&mut self) {
        let mut at = self.len - 1;
        while self.block[at] == b'9' {
            self.block[at] = b'0';
            if at == self.first {
                self.block[at] = b'1';
                self.block[self.len] = b'0';
                self.len += 1;
                return;
            }
            at -= 1;
        }
        self.block[at] += 1;
    }
}

fn print(run: &mut Run, name: &str, output: &mut Output) -> io::Result<()> {
    output.text(b"opennf report 1\nfunction conntrack instances 1 window 256\ntrace packets ");
    output.number(run.states.len() as u64);
    output.text(b" skipped ");
    output.number(run.skipped as u64);
    output.text(if run.cut { b" cut\n" } else { b" whole\n" });
    let ends = STATES.map(|state| {
        let mut block = [0; 16];
        block[0] = b' ';
        block[1..=state.len()].copy_from_slice(state.as_bytes());
        block[state.len() + 1] = b'\n';
        (block, state.len() + 2)
    });
    let mut count = Count::open(b"out ");
    for &state in &run.states {
        output.line()?;
        count.next();
        output.block(&count.block, count.len);
        let (block, len) = &ends[state as usize];
        output.block(block, *len);
    }
    let mut end = [0; 32];
    end[0] = b' ';
    end[1..=name.len()].copy_from_slice(name.as_bytes());
    end[name.len() + 1] = b'\n';
    let mut count = Count::open(b"done ");
    for _ in &run.states {
        output.line()?;
        count.next();
        output.block(&count.block, count.len);
        output.block(&end, name.len() + 2);
    }
    run.table.entries.sort_unstable_by_key(|entry| entry.key);
    for Entry { key, record } in &run.table.entries {
        output.line()?;
        output.text(if key >> 96 == 6 { b"state tcp " } else { b"state udp " });
        output.endpoint((key >> 48) as u64 & 0xffff_ffff_ffff);
        output.text(b" ");
        output.endpoint(*key as u64 & 0xffff_ffff_ffff);
        output.text(b" ");
        output.text(name.as_bytes());
        output.text(b" ");
        output.text(STATES[record.state as usize].as_bytes());
        output.text(if record.opener_out { b" out packets " } else { b" in packets " });
        output.number(record.packets);
        output.text(b" bytes ");
        output.number(record.bytes);
        if record.seen != 0 {
            output.text(b" seen ");
            output.number(record.seen);
        }
        output.text(b"\n");
    }
    output.text(b"tally ");
    output.text(name.as_bytes());
    output.text(b" ");
    output.number(run.states.len() as u64);
    output.text(b"\nend\n");
    output.flush()
}

fn main() -> ExitCode {
    let words: Vec<String> = std::env::args().skip(1).collect();
    let words: Vec<&str> = words.iter().map(String::as_str).collect();
    let ["sim", "conntrack", "--instances", name, "--inside", inside, "--schedule", "last", trace] = words[..] else {
        eprintln!("yardstick: sim conntrack --instances NAME --inside PREFIX --schedule last TRACE");
        return ExitCode::from(1);
    };
    let Some(inside) = Inside::read(inside).filter(|_| name.len() <= 16) else {
        eprintln!("yardstick: bad name or prefix");
        return ExitCode::from(1);
    };
    let result = run(trace, &inside).and_then(|mut run| {
        let mut output = Output { target: io::stdout().lock(), buffer: vec![0; ROOM + 512], used: 0 };
        print(&mut run, name, &mut output)
    });
    match result {
        Ok(()) => ExitCode::SUCCESS,
        Err(fault) => {
            eprintln!("yardstick: {fault}");
            ExitCode::from(2)
        }
    }
}
