//! The outputs of an outside coder (GNU Radio 3.10, gr-dtv) for 40 packets, five
//! groups: after each stage, and the symbols at each QPSK rate.

// A test that takes some of them leaves others unused.
#![allow(dead_code)]

pub static PACKETS: &[u8] = include_bytes!("../data/packets.ts");
pub static RANDOMIZED: &[u8] = include_bytes!("../data/randomized.bin");
pub static CODED: &[u8] = include_bytes!("../data/coded.bin");
pub static INTERLEAVED: &[u8] = include_bytes!("../data/interleaved.bin");
pub static SYMBOLS: [&[u8]; 5] = [
    include_bytes!("../data/symbols_rate0.bin"),
    include_bytes!("../data/symbols_rate1.bin"),
    include_bytes!("../data/symbols_rate2.bin"),
    include_bytes!("../data/symbols_rate3.bin"),
    include_bytes!("../data/symbols_rate4.bin"),
];
