//! Received symbols as the decisions on them, and the runs that overlap in which a stream of them is read (`docs/STATES.md`,
//! "The state of a reader"). A symbol is its pair, one number: 9 times the decision on its I, and the decision on its Q.

use crate::inner_code::InnerCoder;
use crate::inner_decoder::{by_choices, level, BitCosts, LONGEST};

/// The decision on a number of which nothing is known. The others are the levels 0 to 7.
pub const NOT_KNOWN: u8 = 8;

pub fn pair_of([i, q]: [u8; 2]) -> u8 {
    9 * i + q
}

pub fn decisions(pair: u8) -> [u8; 2] {
    [pair / 9, pair % 9]
}

/// The pair of a point.
pub fn soft_pair(point: (f32, f32)) -> u8 {
    pair_of([point.0, point.1].map(|x| if x.is_nan() { NOT_KNOWN } else { level(x) as u8 }))
}

/// The pair of a lost symbol.
pub fn lost_pair() -> u8 {
    pair_of([NOT_KNOWN; 2])
}

pub fn soft_pairs(i: &[f32], q: &[f32], lost: &[u8]) -> Vec<u8> {
    (0..i.len()).map(|k| if lost[k] == 1 { lost_pair() } else { soft_pair((i[k], q[k])) }).collect()
}

pub fn hard_pairs(symbols: &[u8]) -> Vec<u8> {
    let decision = |bit: u8| if bit == 0 { 4 } else { 3 };
    symbols.iter().map(|symbol| pair_of([decision(symbol / 2), decision(symbol % 2)])).collect()
}

/// What deciding I and Q of a symbol costs.
pub fn costs(pair: u8) -> [BitCosts; 2] {
    decisions(pair).map(|decision| if decision == NOT_KNOWN { [0, 0] } else { [7 - u32::from(decision), u32::from(decision)] })
}

/// The bits and the symbols of a rate's pattern.
pub fn pattern_size(rate: u8) -> (usize, usize) {
    let bits = InnerCoder::pattern_length(rate);
    (bits, InnerCoder::after(rate, 0).symbols_due(bits))
}

/// The symbols of a longest run.
pub fn full(rate: u8) -> usize {
    let (bits, symbols) = pattern_size(rate);
    LONGEST / bits * symbols
}

/// The symbols that are held, fewer than a longest run between two calls, and the coder's memory before them.
pub struct Runs {
    pub rate: u8,
    pub memory: u8,
    pub pairs: Vec<u8>,
}

impl Runs {
    /// How many symbols are missing from a longest run.
    pub fn missing(&self) -> usize {
        full(self.rate).saturating_sub(self.pairs.len())
    }

    /// The bits of so many patterns.
    fn read(&self, patterns: usize) -> Vec<u8> {
        let (bits, symbols) = pattern_size(self.rate);
        let received: Vec<BitCosts> = self.pairs[..patterns * symbols].iter().flat_map(|pair| costs(*pair)).collect();
        by_choices(self.rate, self.memory, &received, patterns * bits).bits
    }

    /// Reads a longest run, where there is one: the bits of all its patterns but those of a hundred bits and one more. The next run begins behind them.
    pub fn longest(&mut self) -> Option<Vec<u8>> {
        if self.missing() > 0 {
            return None;
        }
        let (bits, symbols) = pattern_size(self.rate);
        let patterns = LONGEST / bits;
        let kept = patterns - (100 / bits + 1);
        let mut run = self.read(patterns);
        run.truncate(kept * bits);
        let mut coder = InnerCoder::after(self.rate, self.memory);
        coder.code_bits(&run);
        self.memory = coder.memory();
        self.pairs.drain(..kept * symbols);
        Some(run)
    }

    /// The bits of the whole patterns that are held, where no more come, and how many symbols are behind them.
    pub fn last(&self) -> (Vec<u8>, usize) {
        let symbols = pattern_size(self.rate).1;
        (self.read(self.pairs.len() / symbols), self.pairs.len() % symbols)
    }
}

#[cfg(test)]
mod tests {
    use super::*;
    use crate::inner_code::RATES;

    #[test]
    fn longest_runs() {
        assert_eq!((0..RATES).map(full).collect::<Vec<_>>(), [1632, 1224, 1088, 978, 932]);
    }

    #[test]
    fn a_number_is_a_pair_and_a_pair_a_number() {
        assert!((0..81).all(|number| pair_of(decisions(number)) == number));
        assert_eq!((lost_pair(), soft_pair((f32::NAN, f32::NAN))), (80, 80));
        assert_eq!(soft_pair((0.1, -0.1)), hard_pairs(&[1])[0]);
    }
}
