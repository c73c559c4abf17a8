//! A small repeatable generator for test inputs (xorshift64*).

use crate::{INVERTED_SYNC, SYNC};

pub struct Xorshift(u64);

impl Xorshift {
    pub fn new(seed: u64) -> Self {
        // Spread the seed (splitmix64), so that neighbouring seeds differ; 0 is no state.
        let mut z = seed.wrapping_add(0x9E37_79B9_7F4A_7C15);
        z = (z ^ (z >> 30)).wrapping_mul(0xBF58_476D_1CE4_E5B9);
        z = (z ^ (z >> 27)).wrapping_mul(0x94D0_49BB_1331_11EB);
        z ^= z >> 31;
        Xorshift(if z == 0 { 1 } else { z })
    }

    pub fn next(&mut self) -> u64 {
        self.0 ^= self.0 >> 12;
        self.0 ^= self.0 << 25;
        self.0 ^= self.0 >> 27;
        self.0.wrapping_mul(0x2545_F491_4F6C_DD1D)
    }

    pub fn byte(&mut self) -> u8 {
        (self.next() >> 56) as u8
    }

    /// A number from 0 to `bound` - 1.
    pub fn below(&mut self, bound: usize) -> usize {
        ((self.next() >> 32) * bound as u64 >> 32) as usize
    }

    /// A first byte of no packet: any but the sync byte, the likely ones often.
    pub fn not_sync(&mut self) -> u8 {
        let byte = [0x46, INVERTED_SYNC, 0x00, self.byte()][self.below(4)];
        if byte == SYNC {
            0x48
        } else {
            byte
        }
    }

    pub fn bytes(&mut self, count: usize) -> Vec<u8> {
        (0..count).map(|_| self.byte()).collect()
    }

    /// `count` different numbers below `bound`.
    pub fn places(&mut self, count: usize, bound: usize) -> Vec<usize> {
        let mut all: Vec<usize> = (0..bound).collect();
        for i in 0..count {
            let k = i + self.below(bound - i);
            all.swap(i, k);
        }
        all.truncate(count);
        all
    }
}
