//! The plain receiver's CRC of sections as a program, for bench/speed/speed.
//!
//!     crc (tables|folding) ROUNDS LENGTH    CRCs of LENGTH bytes of standard input, round k from
//!                                           byte k % 16 on, joined by exclusive or
//!     crc bits                              compares those of 0 to 1,000 bytes, and of some more,
//!                                           with what single bits give

#[path = "../models/receiver.rs"]
#[allow(dead_code)]
mod receiver;

use std::hint::black_box;
use std::io::Read;

const START: u32 = 0xFFFF_FFFF;

fn by_bits(state: u32, byte: u8) -> u32 {
    (0..8).rev().fold(state, |state, bit| {
        let differs = state >> 31 != u32::from(byte >> bit & 1);
        state << 1 ^ if differs { 0x04C1_1DB7 } else { 0 }
    })
}

/// The first length at which a CRC is wrong. Above 1,000 bytes only some are tried, near one and
/// two pieces that are folded together.
fn first_wrong() -> Option<usize> {
    let bytes: Vec<u8> = (0..9000u32).map(|it| (it.wrapping_mul(0x9E37_79B1) >> 24) as u8).collect();
    let mut right = START;
    (0..=bytes.len()).find(|&length| {
        let tried = &bytes[..length];
        right = tried.last().map_or(START, |&byte| by_bits(right, byte));
        let is_tried = length <= 1000 || (4000..4600).contains(&length) || length > 8100;
        is_tried && (receiver::crc(tried) != right || receiver::sliced(START, tried) != right)
    })
}

fn joined(crc: impl Fn(&[u8]) -> u32, bytes: &[u8], rounds: usize, length: usize) -> u32 {
    (0..rounds).fold(0, |sum, round| sum ^ crc(black_box(&bytes[round % 16..][..length])))
}

fn main() {
    let words: Vec<String> = std::env::args().skip(1).collect();
    if words == ["bits"] {
        let wrong = first_wrong();
        assert!(wrong.is_none(), "the CRC of {wrong:?} bytes is wrong");
        return;
    }
    let [kernel, rounds, length] = &words[..] else { panic!("wants KERNEL ROUNDS LENGTH") };
    let (rounds, length) = (rounds.parse().unwrap(), length.parse().unwrap());
    let mut bytes = Vec::new();
    std::io::stdin().read_to_end(&mut bytes).unwrap();
    let sum = match kernel.as_str() {
        "tables" => joined(|it| receiver::sliced(START, it), &bytes, rounds, length),
        _ => joined(receiver::crc, &bytes, rounds, length),
    };
    println!("{sum:08x}");
}
