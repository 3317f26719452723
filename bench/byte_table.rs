//! The CRC of descriptors by the plain table of 256 entries, a byte a step: what `bench/crc` measures
//! the proved one against. `byte_table [MEBIBYTES]`, with the bytes and the output of `bench_core crc`.

use std::hint::black_box;
use std::time::Instant;

const ROUNDS: usize = 5;

const fn table() -> [u16; 256] {
    let mut table = [0; 256];
    let mut byte = 0;
    while byte < 256 {
        let mut crc = (byte as u16) << 8;
        let mut bit = 0;
        while bit < 8 {
            crc = if crc & 0x8000 != 0 { (crc << 1) ^ 0x1021 } else { crc << 1 };
            bit += 1;
        }
        table[byte] = crc;
        byte += 1;
    }
    table
}

static TABLE: [u16; 256] = table();

fn crc(bytes: &[u8]) -> u16 {
    let mut crc = 0u16;
    for byte in bytes {
        crc = (crc << 8) ^ TABLE[usize::from((crc >> 8) as u8 ^ *byte)];
    }
    crc
}

fn main() {
    let mebibytes = std::env::args().nth(1).map_or(1, |word| word.parse().expect("a number"));
    let mut state = 1u32;
    let bytes: Vec<u8> = (0..mebibytes << 20)
        .map(|_| {
            state = state.wrapping_mul(1_664_525).wrapping_add(1_013_904_223);
            (state >> 24) as u8
        })
        .collect();
    for _ in 0..ROUNDS {
        let start = Instant::now();
        let sum = crc(black_box(&bytes));
        eprintln!("{} {sum}", start.elapsed().as_micros());
    }
    println!("{}", crc(&bytes));
}
