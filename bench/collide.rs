// Makes a capture of PACKETS packets, no two of one flow, where BITS bits of each flow's hash are 0, from bit LOW on. With BITS 0 the
// flows are ordinary ones.
//
// Build: rustc --edition 2021 -O collide.rs. Words: PACKETS BITS LOW FILE. Each flow is found by trying some 2^BITS of them. The hash is the
// one by which the program finds flows: the product of two numbers of a flow, each mixed with a fixed one. The file is a pcap capture of version 2.4,
// little-endian with microseconds and link type 101 (raw IP); the packets are UDP without a payload, 28 bytes each, and all of one moment.
use std::fs::File;
use std::io::{self, BufWriter, Write};
use std::process::ExitCode;

/// What each of a flow's two numbers of 8 bytes is mixed with: its addresses, and its ports with the protocol.
const ADDRESSES: u64 = 0x9e37_79b9_7f4a_7c15;
const PORTS: u64 = 0x243f_6a88_85a3_08d3 + 16;

fn hash(addresses: u64, ports: u64) -> u64 {
    let product = (ports ^ PORTS) as u128 * (addresses ^ ADDRESSES) as u128;
    (product >> 64) as u64 ^ product as u64
}

fn write_packet(file: &mut impl Write, local: u32, remote: u32, lport: u16, rport: u16) -> io::Result<()> {
    let mut record = [0; 44];
    record[8] = 28;
    record[12] = 28;
    record[16..20].copy_from_slice(&[0x45, 0, 0, 28]);
    record[24] = 64;
    record[25] = 17;
    record[28..32].copy_from_slice(&local.to_be_bytes());
    record[32..36].copy_from_slice(&remote.to_be_bytes());
    record[36..38].copy_from_slice(&lport.to_be_bytes());
    record[38..40].copy_from_slice(&rport.to_be_bytes());
    record[41] = 8;
    file.write_all(&record)
}

/// The packets of a host and a peer after another, from a new port of the host each, until there are so many.
fn write_capture(packets: u32, mask: u64, file: &mut impl Write) -> io::Result<()> {
    file.write_all(&0xa1b2_c3d4u32.to_le_bytes())?;
    file.write_all(&[2, 0, 4, 0, 0, 0, 0, 0, 0, 0, 0, 0, 0xff, 0xff, 0, 0, 101, 0, 0, 0])?;
    let (mut made, mut pair) = (0, 0u64);
    while made < packets {
        // An odd factor: no pair of addresses comes twice, and their order is no order of addresses.
        let word = pair.wrapping_mul(0x5851_f42d_4c95_7f2d);
        pair += 1;
        let (local, remote, rport) = (10 << 24 | (word >> 56) as u32, 192 << 24 | (word >> 32) as u32 % 0x100_0000, word as u16);
        let addresses = (local as u64) << 32 | remote as u64;
        let most = if mask == 0 { 64 } else { 65_535 };
        for lport in 1..=most {
            if made < packets && hash(addresses, (lport as u64) << 24 | (rport as u64) << 8 | 17) & mask == 0 {
                write_packet(file, local, remote, lport, rport)?;
                made += 1;
            }
        }
    }
    Ok(())
}

fn main() -> ExitCode {
    let words: Vec<String> = std::env::args().skip(1).collect();
    let numbers: Vec<u32> = words.iter().take(3).map_while(|word| word.parse().ok()).collect();
    let ([packets, bits, low], Some(name), 4) = (&numbers[..], words.last(), words.len()) else {
        eprintln!("use: collide PACKETS BITS LOW FILE");
        return ExitCode::FAILURE;
    };
    let mask = ((1u64 << bits) - 1) << low;
    let done = File::create(name).and_then(|file| {
        let mut file = BufWriter::with_capacity(1 << 20, file);
        write_capture(*packets, mask, &mut file)?;
        file.flush()
    });
    if done.is_ok() { ExitCode::SUCCESS } else { ExitCode::FAILURE }
}
