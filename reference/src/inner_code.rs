//! Inner coding (clause 4.4.3): the rate 1/2 convolutional code, K = 7, bit by
//! bit, punctured by the rows P of table 2; and 16QAM 3/4 of EN 301 210, clause
//! 4.6.3, by the rows of its tables 3 and 4.

use crate::answer::Answer;

/// QPSK at five rates, all of which are read; 7/8 is no longer sent (document 02,
/// P12), and 16QAM 3/4 is sent.
pub const RATES: u8 = 5;
pub const SIXTEEN_QAM: u8 = 5;
pub const SENT: [u8; 5] = [0, 1, 2, 3, SIXTEEN_QAM];

/// G1 (X) and G2 (Y); the top one of the seven bits is the newest.
const G1: u8 = 0o171;
const G2: u8 = 0o133;

/// The rows P of table 2 (X, Y), 1: transmitted, for 1/2, 2/3, 3/4, 5/6, 7/8.
const PUNCTURING: [(&str, &str); RATES as usize] = [
    ("1", "1"),
    ("10", "11"),
    ("101", "110"),
    ("10101", "11010"),
    ("1000101", "1111010"),
];

/// EN 301 210, table 3, 16QAM 3/4: the bits of bytes A, B, D that go to NE2, NE1
/// and E1, the first one first. The table has them from right to left.
const NE2: &str = "B7 B5 B3 B1 D7 D5 D3 D1";
const NE1: &str = "B6 B4 B2 B0 D6 D4 D2 D0";
const E1: &str = "A7 A6 A5 A4 A3 A2 A1 A0";

/// A bit of a group of three bytes, by its name.
fn input_bit(group: &[u8], name: &str) -> u8 {
    let name = name.as_bytes();
    let byte = group["ABD".bytes().position(|letter| letter == name[0]).unwrap()];
    byte >> (name[1] - b'0') & 1
}

pub struct InnerCoder {
    pub rate: usize,
    /// The last six bits, newest counting 32.
    pub memory: u8,
    /// Bits since the fresh coder.
    pub taken: usize,
    /// An I whose Q has not come.
    pub held: Option<u8>,
}

/// Whether X, and whether Y, of bit k of a run is transmitted. The rows of 2/3
/// have two bits; document 01 counts its pattern as four, for whole symbols.
pub fn pattern(rate: u8, k: usize) -> (bool, bool) {
    let (keep_x, keep_y) = PUNCTURING[rate as usize];
    let kept = |row: &str| row.as_bytes()[k % row.len()] == b'1';
    (kept(keep_x), kept(keep_y))
}

impl InnerCoder {
    /// A fresh coder, for sending.
    pub fn fresh(rate: u8) -> Result<Self, Answer> {
        if !SENT.contains(&rate) {
            return Err(Answer::UnknownRate);
        }
        Ok(InnerCoder { rate: rate as usize, memory: 0, taken: 0, held: None })
    }

    /// A coder at the start of a pattern, after bits that left this memory.
    pub fn after(rate: u8, memory: u8) -> Self {
        InnerCoder { rate: rate as usize, memory, taken: 0, held: None }
    }

    /// The bits after which the pattern begins anew and no I is held.
    pub fn pattern_length(rate: u8) -> usize {
        let mut coder = InnerCoder::after(rate, 0);
        let row = PUNCTURING[rate as usize].0.len();
        loop {
            coder.step(0, &mut Vec::new());
            if coder.taken % row == 0 && coder.held.is_none() {
                return coder.taken;
            }
        }
    }

    pub fn memory(&self) -> u8 {
        self.memory
    }

    /// X and Y of one bit.
    pub fn mother(&mut self, bit: u8) -> (u8, u8) {
        let window = bit << 6 | self.memory;
        self.memory = window >> 1;
        let parity = |taps: u8| (window & taps).count_ones() as u8 & 1;
        (parity(G1), parity(G2))
    }

    /// The transmitted bits go alternately to I and Q, X of a bit before its Y.
    fn transmit(&mut self, bit: u8, symbols: &mut Vec<u8>) {
        match self.held.take() {
            None => self.held = Some(bit),
            Some(i) => symbols.push(2 * i + bit),
        }
    }

    fn step(&mut self, bit: u8, symbols: &mut Vec<u8>) {
        let (x, y) = self.mother(bit);
        let (keep_x, keep_y) = PUNCTURING[self.rate];
        let place = self.taken % keep_x.len();
        self.taken += 1;
        if keep_x.as_bytes()[place] == b'1' {
            self.transmit(x, symbols);
        }
        if keep_y.as_bytes()[place] == b'1' {
            self.transmit(y, symbols);
        }
    }

    /// Symbols 2 I + Q of bits, one to a byte.
    pub fn code_bits(&mut self, bits: &[u8]) -> Vec<u8> {
        let mut symbols = Vec::with_capacity(bits.len());
        bits.iter().for_each(|&bit| self.step(bit, &mut symbols));
        symbols
    }

    /// Table 4 of EN 301 210: U2 is NE2, U1 is NE1, C2 is Y1 and C1 is X1.
    fn code_sixteen_qam(&mut self, bytes: &[u8]) -> Vec<u8> {
        let mut symbols = Vec::with_capacity(8 * bytes.len() / 3);
        for group in bytes.chunks_exact(3) {
            for ((ne2, ne1), e1) in NE2.split(' ').zip(NE1.split(' ')).zip(E1.split(' ')) {
                let (c1, c2) = self.mother(input_bit(group, e1));
                let (u2, u1) = (input_bit(group, ne2), input_bit(group, ne1));
                symbols.push(8 * u2 + 4 * u1 + 2 * c2 + c1);
            }
        }
        symbols
    }

    /// Symbols of the bytes: at QPSK 2 I + Q, top bit first.
    pub fn code(&mut self, bytes: &[u8]) -> Vec<u8> {
        if self.rate == SIXTEEN_QAM as usize {
            return self.code_sixteen_qam(bytes);
        }
        let mut symbols = Vec::with_capacity(8 * bytes.len());
        for &byte in bytes {
            for k in (0..8).rev() {
                self.step(byte >> k & 1, &mut symbols);
            }
        }
        symbols
    }

    /// How many symbols the next `bits` bits of bytes give.
    pub fn symbols_due(&self, bits: usize) -> usize {
        if self.rate == SIXTEEN_QAM as usize {
            return bits / 3;
        }
        let (keep_x, keep_y) = PUNCTURING[self.rate];
        let kept = |place: usize| {
            (keep_x.as_bytes()[place] == b'1') as usize + (keep_y.as_bytes()[place] == b'1') as usize
        };
        let length = keep_x.len();
        let whole: usize = (0..length).map(kept).sum();
        let rest: usize = (0..bits % length).map(|i| kept((self.taken + i) % length)).sum();
        (self.held.is_some() as usize + bits / length * whole + rest) / 2
    }
}

#[cfg(test)]
mod tests {
    use super::*;
    use crate::xorshift::Xorshift;

    #[test]
    fn one_bit_into_fresh_memory() {
        let want: [&[u8]; 5] = [
            &[3, 2, 3, 3, 0, 1, 3, 0],
            &[3, 1, 3, 0, 3, 2],
            &[3, 1, 3, 0, 3],
            &[3, 1, 2, 1, 2],
            &[3, 1, 2, 3, 0],
        ];
        for rate in 0..5 {
            let mut coder = InnerCoder::after(rate, 0);
            assert_eq!(coder.code(&[0x80]), want[rate as usize]);
            if rate == 2 {
                assert_eq!(coder.held, Some(0));
            }
        }
    }

    #[test]
    fn what_is_sent() {
        for rate in [0, 1, 2, 3, 5] {
            assert!(InnerCoder::fresh(rate).is_ok());
        }
        for rate in [4, 6, 7, 255] {
            assert_eq!(InnerCoder::fresh(rate).err(), Some(Answer::UnknownRate));
        }
    }

    /// By hand from tables 3 and 4 of EN 301 210.
    #[test]
    fn sixteen_qam_by_hand() {
        let mut coder = InnerCoder::fresh(SIXTEEN_QAM).ok().unwrap();
        assert_eq!(coder.code(&[0x80, 0xC6, 0x39]), [15, 1, 7, 11, 0, 14, 11, 4]);
        let mut coder = InnerCoder::fresh(SIXTEEN_QAM).ok().unwrap();
        assert_eq!(coder.code(&[0x01, 0, 0]), [0, 0, 0, 0, 0, 0, 0, 3]);
        assert_eq!(coder.code(&[0, 0, 0]), [1, 3, 3, 0, 2, 3, 0, 0]);
    }

    /// X and Y of the symbols are what rate 1/2 sends for the bytes A alone; the
    /// bits beside them are those of B and D as they come.
    #[test]
    fn the_coded_bits_of_sixteen_qam_are_those_of_rate_half() {
        let mut r = Xorshift::new(7);
        let bytes = r.bytes(204 * 30);
        let symbols = InnerCoder::fresh(SIXTEEN_QAM).ok().unwrap().code(&bytes);
        let first: Vec<u8> = bytes.iter().step_by(3).copied().collect();
        let coded: Vec<u8> = symbols.iter().map(|s| 2 * (s & 1) + (s >> 1 & 1)).collect();
        assert_eq!(coded, InnerCoder::fresh(0).ok().unwrap().code(&first));
        let others: Vec<u8> = bytes.chunks(3).flat_map(|group| [group[1], group[2]]).collect();
        let pairs: Vec<u8> = others.iter().flat_map(|b| [b >> 6, b >> 4 & 3, b >> 2 & 3, b & 3]).collect();
        assert_eq!(symbols.iter().map(|s| s >> 2).collect::<Vec<u8>>(), pairs);
    }

    /// The rows I and Q of table 2, as (is Y, index of the bit).
    #[test]
    fn the_rows_i_and_q_of_the_table_follow_from_p() {
        let rows: [(usize, &str, &str); 5] = [
            (1, "X1", "Y1"),
            (4, "X1 Y2 Y3", "Y1 X3 Y4"),
            (3, "X1 Y2", "Y1 X3"),
            (5, "X1 Y2 Y4", "Y1 X3 X5"),
            (7, "X1 Y2 Y4 Y6", "Y1 Y3 X5 X7"),
        ];
        let mut r = Xorshift::new(5);
        for rate in 0..5u8 {
            let (length, i_row, q_row) = rows[rate as usize];
            let bytes = r.bytes(length * 40);
            let mut mother = InnerCoder::fresh(0).ok().unwrap();
            let pairs = mother.code(&bytes);
            let pick = |name: &str, base: usize| {
                let symbol = pairs[base + name[1..].parse::<usize>().unwrap() - 1];
                if name.starts_with('X') { symbol >> 1 } else { symbol & 1 }
            };
            let mut want = Vec::new();
            for base in (0..pairs.len()).step_by(length) {
                for (i, q) in i_row.split(' ').zip(q_row.split(' ')) {
                    want.push(2 * pick(i, base) + pick(q, base));
                }
            }
            assert_eq!(InnerCoder::after(rate, 0).code(&bytes), want);
        }
    }

    #[test]
    fn symbols_of_a_block() {
        let mut r = Xorshift::new(6);
        let allowed: [&[usize]; 6] = [&[1632], &[1224], &[1088], &[979, 980], &[932, 933], &[544]];
        for rate in 0..6 {
            let mut coder = InnerCoder::after(rate, 0);
            for _ in 0..40 {
                let due = coder.symbols_due(1632);
                assert_eq!(coder.code(&r.bytes(204)).len(), due);
                assert!(allowed[rate as usize].contains(&due));
            }
        }
    }
}
