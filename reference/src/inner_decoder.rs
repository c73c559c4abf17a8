//! Reading runs of received symbols (document 02, P1 and P8): the bits whose
//! coding costs the least; where several tie, the one with 0 at the last place
//! where they differ. By hard decisions an I or Q bit that differs costs 1. By
//! soft decisions the level of a received number, 0 to 7, says what its bit
//! costs. Three searches, over any costs: over every sequence; the Viterbi
//! algorithm with whole paths, which compares paths that tie from their last bit
//! back; and with choices in place of paths, for the many runs of acquisition.

use crate::answer::Answer;
use crate::inner_code::{pattern, InnerCoder, RATES};

/// The bits of the longest run.
pub const LONGEST: usize = 1632;
/// Up to so many bits every sequence is tried.
const SHORT: usize = 12;

/// What deciding a received I or Q bit as 0, and as 1, costs.
pub type BitCosts = [u32; 2];

/// A read run: its bits, the coder's memory after them, and what they cost.
#[derive(Debug, PartialEq, Eq)]
pub struct Run {
    pub bits: Vec<u8>,
    pub memory: u8,
    pub cost: u32,
}

/// I and Q of each symbol, by hard decisions.
fn hard(symbols: &[u8]) -> Vec<BitCosts> {
    symbols.iter().flat_map(|s| [s >> 1 & 1, s & 1]).map(|bit| [bit as u32, 1 - bit as u32]).collect()
}

/// The level: thresholds lie at every quarter from -3/4 to 3/4, so it is found
/// by dividing. Quarters of an f32 are exact in f64.
pub fn level(x: f32) -> u32 {
    ((x as f64 * 4.0).floor() + 4.0).clamp(0.0, 7.0) as u32
}

/// A number's bit, by its level.
fn soft(x: f32) -> BitCosts {
    if x.is_nan() {
        [0, 0]
    } else {
        [7 - level(x), level(x)]
    }
}

/// What the coding of some bits costs.
fn cost(received: &[BitCosts], sent: &[u8]) -> u32 {
    assert_eq!(received.len(), 2 * sent.len());
    sent.iter().flat_map(|s| [s >> 1, s & 1]).zip(received).map(|(bit, costs)| costs[bit as usize]).sum()
}

/// Every sequence of `count` bits, those with 0 last coming first.
fn by_all_sequences(rate: u8, memory: u8, received: &[BitCosts], count: usize) -> Run {
    let mut best: Option<Run> = None;
    for number in 0u32..1 << count {
        // The last bit counts most in the number.
        let bits: Vec<u8> = (0..count).map(|i| (number >> i & 1) as u8).collect();
        let mut coder = InnerCoder::after(rate, memory);
        let cost = cost(received, &coder.code_bits(&bits));
        if best.as_ref().map_or(true, |b| cost < b.cost) {
            best = Some(Run { bits, memory: coder.memory(), cost });
        }
    }
    best.expect("there is a sequence of every length")
}

/// One path into a memory: what it costs so far, and its bits, bit k counting
/// 2^k.
#[derive(Clone, PartialEq, Eq, PartialOrd, Ord)]
struct Path {
    cost: u32,
    /// The highest word first, so that the derived order compares the last bits
    /// first.
    bits: Vec<u64>,
}

/// The Viterbi algorithm: of the paths into one memory only the first in the
/// order of cost, and then of bits from the last one back, can be part of the
/// answer.
fn by_viterbi(rate: u8, memory: u8, received: &[BitCosts], count: usize) -> Run {
    let words = count / 64 + 1;
    let mut paths: Vec<Option<Path>> = vec![None; 64];
    paths[memory as usize] = Some(Path { cost: 0, bits: vec![0; words] });
    let mut received = received.iter();
    for k in 0..count {
        let (keep_x, keep_y) = pattern(rate, k);
        // A coded bit that was not sent costs nothing either way.
        let x = if keep_x { *received.next().expect("X was received") } else { [0, 0] };
        let y = if keep_y { *received.next().expect("Y was received") } else { [0, 0] };
        let mut next: Vec<Option<Path>> = vec![None; 64];
        for (from, path) in paths.iter().enumerate().filter_map(|(from, path)| Some((from, path.as_ref()?))) {
            for bit in 0..2u8 {
                let mut coder = InnerCoder::after(rate, from as u8);
                let (sent_x, sent_y) = coder.mother(bit);
                let mut longer = path.clone();
                longer.cost += x[sent_x as usize] + y[sent_y as usize];
                longer.bits[words - 1 - k / 64] |= (bit as u64) << (k % 64);
                let slot = &mut next[coder.memory() as usize];
                if slot.as_ref().map_or(true, |there| longer < *there) {
                    *slot = Some(longer);
                }
            }
        }
        paths = next;
    }
    let (memory, path) = paths
        .into_iter()
        .enumerate()
        .filter_map(|(memory, path)| path.map(|path| (memory, path)))
        .min_by(|a, b| a.1.cmp(&b.1))
        .expect("a path always goes on");
    let bits = (0..count).map(|k| (path.bits[words - 1 - k / 64] >> (k % 64) & 1) as u8).collect();
    Run { bits, memory: memory as u8, cost: path.cost }
}

/// The Viterbi algorithm by choices: two paths into one memory have their last six bits alike, and differ in the bit before
/// them, which the memory before has lost by the step. So where they tie, the one with 0 there goes on, and of memories that
/// tie at the end the least number, whose newest bits count most.
pub fn by_choices(rate: u8, memory: u8, received: &[BitCosts], count: usize) -> Run {
    const UNREACHED: u32 = 1 << 30;
    let rows: Vec<(bool, bool)> = (0..InnerCoder::pattern_length(rate)).map(|k| pattern(rate, k)).collect();
    let coded = |from: usize| [0, 1].map(|bit| InnerCoder::after(rate, from as u8).mother(bit)).map(|(x, y)| (2 * x + y) as usize);
    let coded: Vec<[usize; 2]> = (0..64).map(coded).collect();
    let mut costs = [UNREACHED; 64];
    costs[memory as usize] = 0;
    let mut choices = Vec::with_capacity(count);
    let mut received = received.iter();
    for k in 0..count {
        let (keep_x, keep_y) = rows[k % rows.len()];
        let x = if keep_x { *received.next().expect("X was received") } else { [0, 0] };
        let y = if keep_y { *received.next().expect("Y was received") } else { [0, 0] };
        let sums = [x[0] + y[0], x[0] + y[1], x[1] + y[0], x[1] + y[1]];
        let mut next = [0; 64];
        let mut ones = 0u64;
        for (to, cost) in next.iter_mut().enumerate() {
            let (bit, from) = (to >> 5, (to & 31) << 1);
            let zero = costs[from] + sums[coded[from][bit]];
            let one = costs[from + 1] + sums[coded[from + 1][bit]];
            *cost = zero.min(one);
            ones |= u64::from(one < zero) << to;
        }
        costs = next;
        choices.push(ones);
    }
    let last = (0..64).min_by_key(|&m| costs[m]).expect("there are memories");
    let mut bits = vec![0; count];
    let mut at = last;
    for k in (0..count).rev() {
        bits[k] = (at >> 5) as u8;
        at = (at & 31) << 1 | (choices[k] >> at & 1) as usize;
    }
    Run { bits, memory: last as u8, cost: costs[last] }
}

fn search(rate: u8, memory: u8, received: &[BitCosts], count: usize) -> Run {
    if count <= SHORT {
        by_all_sequences(rate, memory, received, count)
    } else {
        by_viterbi(rate, memory, received, count)
    }
}

/// The bits of so many symbols; 12 where they make no whole patterns, then 13.
fn length_of(rate: u8, symbols: usize) -> Result<usize, Answer> {
    let length = InnerCoder::pattern_length(rate);
    let per_pattern = InnerCoder::after(rate, 0).symbols_due(length);
    if symbols % per_pattern != 0 {
        return Err(Answer::BrokenPattern);
    }
    let count = symbols / per_pattern * length;
    if count > LONGEST {
        return Err(Answer::LongRun);
    }
    Ok(count)
}

/// 6, then 5.
fn coder_known(rate: u8, memory: u8) -> Result<(), Answer> {
    if rate >= RATES {
        return Err(Answer::UnknownRate);
    }
    if memory > 63 {
        return Err(Answer::StateRange);
    }
    Ok(())
}

/// Reads a run. Refusals in the order 6, 5, 12, 13, 14, 4.
pub fn read_run(rate: u8, memory: u8, symbols: &[u8], output: usize) -> Result<Run, Answer> {
    coder_known(rate, memory)?;
    let count = length_of(rate, symbols.len())?;
    if symbols.iter().any(|&s| s > 3) {
        return Err(Answer::NoSymbol);
    }
    if output < count {
        return Err(Answer::ShortOutput);
    }
    Ok(search(rate, memory, &hard(symbols), count))
}

/// Reads a run by soft decisions. Refusals in the order 6, 5, 24, 12, 13, 4.
pub fn read_soft_run(rate: u8, memory: u8, i: &[f32], q: &[f32], lost: &[u8], output: usize) -> Result<Run, Answer> {
    coder_known(rate, memory)?;
    if i.len() != q.len() || i.len() != lost.len() || lost.iter().any(|&mark| mark > 1) {
        return Err(Answer::SoftLists);
    }
    let count = length_of(rate, i.len())?;
    if output < count {
        return Err(Answer::ShortOutput);
    }
    let received: Vec<BitCosts> =
        (0..i.len()).flat_map(|k| if lost[k] == 1 { [[0, 0]; 2] } else { [soft(i[k]), soft(q[k])] }).collect();
    Ok(search(rate, memory, &received, count))
}

#[cfg(test)]
mod tests {
    use super::*;
    use crate::xorshift::Xorshift;

    #[test]
    fn all_searches_agree() {
        let mut r = Xorshift::new(7);
        for case in 0..600 {
            let rate = (case % 5) as u8;
            let length = InnerCoder::pattern_length(rate);
            let count = length * r.below(SHORT / length + 1);
            let memory = r.byte() % 64;
            let most = [2, 8][case as usize / 5 % 2];
            let received: Vec<BitCosts> = (0..2 * InnerCoder::after(rate, 0).symbols_due(count))
                .map(|_| [r.below(most) as u32, r.below(most) as u32])
                .collect();
            let run = by_all_sequences(rate, memory, &received, count);
            assert_eq!(run, by_viterbi(rate, memory, &received, count));
            assert_eq!(run, by_choices(rate, memory, &received, count));
        }
    }

    /// Costs of 0 and 1 alone make many ties.
    #[test]
    fn choices_agree_with_paths() {
        let mut r = Xorshift::new(9);
        for case in 0..60 {
            let rate = (case % 5) as u8;
            let count = InnerCoder::pattern_length(rate) * (1 + r.below(40));
            let memory = r.byte() % 64;
            let most = [2, 8][case as usize / 5 % 2];
            let received: Vec<BitCosts> = (0..2 * InnerCoder::after(rate, 0).symbols_due(count))
                .map(|_| [r.below(most) as u32, r.below(most) as u32])
                .collect();
            assert_eq!(by_viterbi(rate, memory, &received, count), by_choices(rate, memory, &received, count));
        }
    }

    #[test]
    fn sent_bits_come_back() {
        let mut r = Xorshift::new(8);
        for rate in 0..5 {
            let count = InnerCoder::pattern_length(rate) * 60;
            let bits: Vec<u8> = (0..count).map(|_| r.byte() & 1).collect();
            let mut coder = InnerCoder::after(rate, 45);
            let symbols = coder.code_bits(&bits);
            let run = read_run(rate, 45, &symbols, count).ok().unwrap();
            assert_eq!((run.bits, run.memory, run.cost), (bits, coder.memory(), 0));
        }
    }

    #[test]
    fn levels_count_the_thresholds() {
        let thresholds = [-0.75f32, -0.5, -0.25, 0.0, 0.25, 0.5, 0.75];
        let mut numbers: Vec<f32> = vec![0.0, -0.0, f32::INFINITY, f32::NEG_INFINITY, f32::MAX, f32::MIN, f32::from_bits(1), f32::from_bits(0x8000_0001)];
        for t in thresholds {
            numbers.extend([t, f32::from_bits(t.to_bits().wrapping_add(1)), f32::from_bits(t.to_bits().wrapping_sub(1))]);
        }
        for x in numbers.into_iter().filter(|x| !x.is_nan()) {
            assert_eq!(level(x), thresholds.iter().filter(|t| **t <= x).count() as u32, "{x:e}");
        }
    }
}
