//! Acquisition (`docs/ACQUISITION.md`): the packets of points that begin anywhere, turned any way, and of decoded bytes that
//! begin at any bit. Points are taken step by step (`docs/STATES.md`, "A step of a lock"): what a lock keeps between two steps is all
//! that it knows of those that came. Decoded bytes are taken as one list of bits.

use crate::answer::Answer;
use crate::channel::from_bytes;
use crate::inner_code::RATES;
use crate::inner_decoder::{by_choices, BitCosts, LONGEST};
use crate::interleaver::BRANCHES;
use crate::losses::{in_place, sure, Block, Line};
use crate::receiver::{Receiver, FILLING, MOST_BLOCKS};
use crate::report::{Bits, Report};
use crate::runs::{costs, decisions, lost_pair, pair_of, pattern_size, soft_pair, Runs, NOT_KNOWN};
use crate::states::advance;
use crate::{BLOCK_LENGTH, INVERTED_SYNC, SYNC};

/// The symbols of a search.
pub const WINDOW: usize = 1632;
/// The patterns of lost symbols in front of a reading, by the rate.
pub const LEAD: [usize; RATES as usize] = [6, 2, 2, 2, 1];
/// A candidate costs less beyond what it must than so many ten thousandths of what the decisions can cost.
pub const THRESHOLD: [u64; RATES as usize] = [760, 400, 255, 120, 72];
const FIVE_SIXTHS: u8 = 3;
/// The bits of a block, and those of a decision: five blocks and a byte.
const BLOCK_BITS: usize = 8 * BLOCK_LENGTH;
pub const DECISION_BITS: usize = 5 * BLOCK_BITS + 8;
/// The bits that a decision without a block skips.
pub const SKIPPED_BITS: usize = BLOCK_BITS + 1;

/// What is on standard output and on standard error, and the status.
#[derive(Debug, PartialEq, Eq)]
pub struct Told {
    pub packets: Vec<u8>,
    pub text: String,
    pub status: i32,
}

/// What was sent, of what was received turned by `turn`: pairs of decisions.
fn turned_back(turn: u8, received: u8) -> u8 {
    let negated = |decision: u8| if decision == NOT_KNOWN { NOT_KNOWN } else { 7 - decision };
    let [mut i, mut q] = decisions(received);
    for _ in 0..turn % 4 {
        (i, q) = (q, negated(i));
    }
    if turn >= 4 {
        q = negated(q);
    }
    pair_of([i, q])
}

// ---- the search

#[derive(Clone, Copy, Debug, PartialEq, Eq)]
struct Hypothesis {
    rate: u8,
    offset: usize,
    turn: u8,
}

fn hypotheses(rate: u8) -> Vec<Hypothesis> {
    let turns: &[u8] = if rate == FIVE_SIXTHS { &[0, 1] } else { &[0, 1, 4, 5] };
    (0..pattern_size(rate).1).flat_map(|offset| turns.iter().map(move |&turn| Hypothesis { rate, offset, turn })).collect()
}

/// The lost symbols in front of a reading.
fn lead(rate: u8) -> Vec<u8> {
    vec![lost_pair(); LEAD[rate as usize] * pattern_size(rate).1]
}

/// Whether the window costs little enough.
fn is_candidate(h: Hypothesis, window: &[u8]) -> bool {
    let (bits, symbols) = pattern_size(h.rate);
    let patterns = LONGEST / bits;
    let behind = window[h.offset..].iter().map(|&pair| turned_back(h.turn, pair));
    let read: Vec<BitCosts> = lead(h.rate).into_iter().chain(behind).take(patterns * symbols).flat_map(costs).collect();
    let least: u32 = read.iter().map(|c| c[0].min(c[1])).sum();
    let differences: u32 = read.iter().map(|c| c[0].abs_diff(c[1])).sum();
    let cost = by_choices(h.rate, 0, &read, patterns * bits).cost;
    10_000 * u64::from(cost - least) < THRESHOLD[h.rate as usize] * u64::from(differences)
}

/// The only candidate, at one rate or at any.
fn search(rate: Option<u8>, window: &[u8]) -> Option<Hypothesis> {
    let rates = rate.map_or(0..RATES, |rate| rate..rate + 1);
    let mut candidates = rates.flat_map(hypotheses).filter(|&h| is_candidate(h, window));
    let first = candidates.next()?;
    candidates.next().map_or(Some(first), |_| None)
}

// ---- blocks

/// Bits that are gathered, how many the decisions before used up, and of the last decision whether it gave a block and whether that was inverted.
pub struct Gathered {
    pub bits: Vec<u8>,
    pub used: u64,
    pub gave: bool,
    pub inverted: bool,
}

/// A block that a decision gives.
struct FoundBlock {
    begins: bool,
    /// The number of its first bit.
    at: u64,
    inverted: bool,
    bytes: Vec<u8>,
}

fn byte_of(bits: &[u8]) -> u8 {
    bits.iter().fold(0, |byte, bit| 2 * byte + bit)
}

impl Gathered {
    pub fn none() -> Self {
        Gathered { bits: Vec::new(), used: 0, gave: false, inverted: false }
    }

    /// The sync byte at a place, where it is one; nothing where the bits end before.
    fn sync(&self, at: usize) -> Option<Option<u8>> {
        let byte = byte_of(self.bits.get(at..at + 8)?);
        Some(Some(byte).filter(|byte| [SYNC, INVERTED_SYNC].contains(byte)))
    }

    /// How many of the sync bytes from a place on are B8, where all of them are there.
    fn inverted_of(&self, many: usize, at: usize) -> Option<usize> {
        let mut inverted = 0;
        for k in 0..many {
            inverted += usize::from(self.sync(at + k * BLOCK_BITS)?? == INVERTED_SYNC);
        }
        Some(inverted)
    }

    /// The block at the front follows the one before: one of four sync bytes is there, and a byte that is not whole counts as one.
    fn follows(&self) -> bool {
        let in_step = (0..4).any(|k| self.sync(k * BLOCK_BITS).map_or(true, |sync| sync.is_some()));
        self.gave && self.bits.len() >= BLOCK_BITS && in_step
    }

    fn begins(&self) -> Option<usize> {
        (0..=BLOCK_BITS).find(|&at| self.inverted_of(5, at).map_or(false, |inverted| inverted <= 1 || inverted >= 4))
    }

    fn skip(&mut self, bits: usize) {
        self.bits.drain(..bits);
        self.used += bits as u64;
    }

    /// The block that the decision gives. Where it gives none, the bits stay.
    fn decide(&mut self) -> Option<FoundBlock> {
        let follows = self.follows();
        let place = if follows { Some(0) } else { self.begins() };
        let before = follows && self.inverted;
        (self.gave, self.inverted) = (false, false);
        let at = place?;
        let inverted = self.inverted_of(3, at).map_or(before, |inverted| inverted >= 2);
        let bytes = self.bits[at..at + BLOCK_BITS].chunks(8).map(|bits| byte_of(bits) ^ if inverted { 0xFF } else { 0 }).collect();
        let block = FoundBlock { begins: !follows, at: self.used + at as u64, inverted, bytes };
        self.skip(at + BLOCK_BITS);
        (self.gave, self.inverted) = (true, inverted);
        Some(block)
    }
}

// ---- packets

/// The receiver of a lock's blocks, with the positions of its branches.
pub struct LockReceiver {
    pub receiver: Receiver,
    pub positions: Vec<usize>,
    /// A B8 fixed the place, and every block since gave a packet.
    pub sure: bool,
    /// The last blocks, whose packets wait for their B8.
    pub waiting: Vec<Block>,
}

fn line_text(line: Line) -> String {
    match line.answer {
        Answer::Done => format!("block={} doubt=1\n", line.block),
        answer => format!("block={} answer={}\n", line.block, answer.number()),
    }
}

impl LockReceiver {
    pub fn fresh() -> Self {
        LockReceiver { receiver: Receiver::fresh(), positions: vec![0; BRANCHES], sure: false, waiting: Vec::new() }
    }

    /// A block that began with B8: it stands for those before, where the places are sure.
    fn start() -> Block {
        Block { answer: Answer::Done, place: 0, packet: Vec::new() }
    }

    /// The number of the first block that waits, or of the next: those behind the eleven that fill the delays, from 0.
    fn first_waiting(&self) -> u64 {
        self.receiver.counts().taken.saturating_sub(FILLING) - self.waiting.len() as u64
    }

    /// What a block gives and tells. Of a block whose packet waits both come later.
    fn take(&mut self, bytes: &[u8]) -> (Vec<u8>, String) {
        let first = self.first_waiting();
        let received = Block::received(&mut self.receiver, bytes, &[0; BLOCK_LENGTH]);
        advance(&self.receiver.branches, &mut self.positions);
        let (mut packets, mut text) = (Vec::new(), String::new());
        if let Some(block) = received {
            let before: Vec<Block> = self.sure.then(Self::start).into_iter().collect();
            let settled = before.len();
            let blocks: Vec<Block> = before.into_iter().chain(self.waiting.drain(..)).chain([block]).collect();
            self.sure = sure(&blocks, blocks.len() - 1);
            let now: Vec<Option<bool>> = (0..blocks.len()).map(|at| if blocks[at].given() { in_place(&blocks, at) } else { Some(false) }).collect();
            for (number, (block, now)) in (first..).zip(blocks.into_iter().zip(now).skip(settled)) {
                match now {
                    Some(true) => packets.extend(&block.packet),
                    Some(false) => text += &line_text(Line { block: number, answer: block.answer }),
                    None => self.waiting.push(block),
                }
            }
        }
        (packets, text)
    }

    /// The lines of the packets that wait where the lock ends.
    fn waiting_text(&self) -> String {
        (self.first_waiting()..).zip(&self.waiting).map(|(block, _)| line_text(Line { block, answer: Answer::Done })).collect()
    }
}

// ---- what is told

/// What was given and told, and what is known of the last lock.
pub struct Teller {
    /// `symbol` or `bit`.
    unit: &'static str,
    pub packets: Vec<u8>,
    pub text: String,
    /// There was a lock, and one lasts.
    pub found: bool,
    pub lasts: bool,
    pub receiver: LockReceiver,
    /// Symbols, or bits, between the lock before and the last one.
    pub skipped: u64,
    /// Those before the bit behind the last block.
    pub end: u64,
}

impl Teller {
    fn new(unit: &'static str) -> Self {
        let (packets, text) = (Vec::new(), String::new());
        Teller { unit, packets, text, found: false, lasts: false, receiver: LockReceiver::fresh(), skipped: 0, end: 0 }
    }

    /// A block between two places. It begins a lock where it was found so, where none lasts, and where its receiver can count no more.
    fn block(&mut self, block: &FoundBlock, [start, end]: [u64; 2], words: &str) {
        if block.begins || !self.lasts || self.receiver.receiver.counts().taken == MOST_BLOCKS {
            self.lost();
            self.text += &format!("lock {}={start} {words}\n", self.unit);
            self.receiver = LockReceiver::fresh();
            self.skipped = start.saturating_sub(self.end);
            (self.found, self.lasts) = (true, true);
        }
        self.end = end;
        let (packets, text) = self.receiver.take(&block.bytes);
        self.packets.extend(packets);
        self.text += &text;
    }

    /// The lines of a lock that ends, with so many whole bytes behind it: `end` stands before its `lost` line.
    fn close(&mut self, end: &str, rest: u64) {
        let [counts @ .., bits] = self.receiver.receiver.counts().in_order();
        let report = Report { counts, bits: Bits::Number(bits), rest };
        self.text += &self.receiver.waiting_text();
        self.text += &format!("{end}lost {}={} skipped={}\n{}", self.unit, self.end, self.skipped, report.text());
    }

    /// No block follows: the lock ends, where one lasts.
    fn lost(&mut self) {
        if self.lasts {
            self.close("", 0);
        }
        self.lasts = false;
    }

    /// The input ended, behind so many symbols or bits. A lock that lasts to it has so many bits behind its last block.
    fn ended(&mut self, all: u64, left: usize, bytes: &str) {
        let word = if self.found { "end" } else { "nothing" };
        let end = format!("{word} {}={all} skipped={}{bytes}\n", self.unit, all.saturating_sub(self.end));
        if self.lasts {
            self.close(&end, left as u64 / 8);
        } else {
            self.text += &end;
        }
    }

    fn told(self) -> Told {
        Told { packets: self.packets, text: self.text, status: i32::from(!self.found) }
    }
}

/// The turn two quarter turns further.
fn half_turned(turn: u8) -> u8 {
    turn / 4 * 4 + (turn + 2) % 4
}

// ---- a lock

/// Symbols that are read at a rate, turned back, behind a lead.
pub struct Reading {
    pub turn: u8,
    pub runs: Runs,
    pub gathered: Gathered,
    /// The symbols before the first that it reads.
    pub first: u64,
}

impl Reading {
    fn new(rate: u8, turn: u8, first: u64) -> Self {
        Reading { turn, runs: Runs { rate, memory: 0, pairs: lead(rate) }, gathered: Gathered::none(), first }
    }

    /// Takes as many symbols as complete a longest run, or all: how many, and the bits that are kept of the run.
    fn take(&mut self, symbols: &[u8]) -> (usize, Vec<u8>) {
        let taken = symbols.len().min(self.runs.missing());
        let turn = self.turn;
        self.runs.pairs.extend(symbols[..taken].iter().map(|&pair| turned_back(turn, pair)));
        (taken, self.runs.longest().unwrap_or_default())
    }

    /// The bits of the whole patterns that are left at the end.
    fn last(&mut self) -> Vec<u8> {
        let bits = self.runs.last().0;
        self.runs = Runs { rate: self.runs.rate, memory: 0, pairs: Vec::new() };
        bits
    }

    /// How many symbols come before the pattern of a bit.
    fn symbols_before(&self, bit: u64) -> u64 {
        let (bits, symbols) = pattern_size(self.runs.rate);
        let pattern = (bit / bits as u64).saturating_sub(LEAD[self.runs.rate as usize] as u64);
        self.first + pattern * symbols as u64
    }

    fn tell(&self, block: &FoundBlock, teller: &mut Teller) {
        let (rate, turn) = (self.runs.rate, self.turn);
        let places = [block.at, block.at + BLOCK_BITS as u64].map(|bit| self.symbols_before(bit));
        let told = if block.inverted { half_turned(turn) } else { turn };
        let offset = places[0] % pattern_size(rate).1 as u64;
        teller.block(block, places, &format!("rate={rate} turn={told} offset={offset}"));
    }
}

/// What is known of the symbols that came: pairs of decisions.
pub struct Lock {
    /// The rate that is searched, or any.
    pub rate: Option<u8>,
    /// A reading at 5/6 takes the symbols for mirrored.
    pub mirrored: bool,
    /// The reading; it searches where there is none.
    pub reading: Option<Reading>,
    /// Those that are not read yet.
    pub pending: Vec<u8>,
    /// How many came.
    pub came: u64,
    pub teller: Teller,
}

impl Lock {
    pub fn fresh(rate: Option<u8>) -> Self {
        Lock { rate, mirrored: false, reading: None, pending: Vec::new(), came: 0, teller: Teller::new("symbol") }
    }

    /// A step: how many symbols it takes of those that there are. Without any it does nothing.
    pub fn feed(&mut self, symbols: &[u8]) -> usize {
        if symbols.is_empty() {
            return 0;
        }
        let taken = match &mut self.reading {
            None => self.search(symbols),
            Some(_) if !self.pending.is_empty() => {
                self.read_pending();
                0
            }
            Some(reading) => {
                let (taken, bits) = reading.take(symbols);
                self.gather(bits);
                taken
            }
        };
        self.came += taken as u64;
        taken
    }

    /// Symbols are gathered until they fill the window. Then it is searched.
    fn search(&mut self, symbols: &[u8]) -> usize {
        let taken = symbols.len().min(WINDOW - self.pending.len());
        self.pending.extend(&symbols[..taken]);
        if self.pending.len() == WINDOW {
            let window = std::mem::take(&mut self.pending);
            if let Some(found) = search(self.rate, &window) {
                let turn = found.turn + if found.rate == FIVE_SIXTHS && self.mirrored { 4 } else { 0 };
                self.pending = window[found.offset..].to_vec();
                let first = self.came + taken as u64 - self.pending.len() as u64;
                self.reading = Some(Reading::new(found.rate, turn, first));
            }
        }
        taken
    }

    /// Symbols that are not read yet are read, as many as complete a longest run, or all.
    fn read_pending(&mut self) {
        let reading = self.reading.as_mut().expect("it reads");
        let (taken, bits) = reading.take(&self.pending);
        self.pending.drain(..taken);
        self.gather(bits);
    }

    /// Bits of the reading are gathered. Where there are enough of them, a decision is made, and only one.
    fn gather(&mut self, bits: Vec<u8>) {
        let reading = self.reading.as_mut().expect("it reads");
        let gathered = &mut reading.gathered;
        gathered.bits.extend(bits);
        if gathered.bits.len() < DECISION_BITS {
            return;
        }
        let (gave, used) = (gathered.gave, gathered.used);
        if let Some(block) = gathered.decide() {
            reading.tell(&block, &mut self.teller);
        } else {
            gathered.skip(SKIPPED_BITS);
            self.teller.lost();
            // The decision before gave no block either, where there was one.
            if !gave && used > 0 {
                self.mirrored ^= used == SKIPPED_BITS as u64;
                self.reading = None;
            }
        }
    }

    /// A step of the end, with so many bytes behind the last whole point: whether it was the last.
    pub fn end(&mut self, bytes: u64) -> bool {
        let reading = match &mut self.reading {
            None => {
                self.teller.ended(self.came, 0, &format!(" bytes={bytes}"));
                return true;
            }
            Some(reading) => reading,
        };
        if !self.pending.is_empty() {
            self.read_pending();
        } else if !reading.runs.pairs.is_empty() {
            let bits = reading.last();
            self.gather(bits);
        } else if let Some(block) = reading.gathered.decide() {
            reading.tell(&block, &mut self.teller);
        } else {
            let left = reading.gathered.bits.len();
            self.reading = None;
            if left < BLOCK_BITS {
                self.teller.ended(self.came, left, &format!(" bytes={bytes}"));
                return true;
            }
            self.teller.lost();
        }
        false
    }
}

/// `dvbs_lock RATE`, or `any` without a rate, on the bytes of points.
pub fn lock(rate: Option<u8>, input: &[u8]) -> Told {
    let all: Vec<u8> = input.chunks_exact(8).map(|bytes| soft_pair(from_bytes(bytes))).collect();
    let mut lock = Lock::fresh(rate);
    let mut at = 0;
    while at < all.len() {
        at += lock.feed(&all[at..]);
    }
    while !lock.end(input.len() as u64 % 8) {}
    lock.teller.told()
}

/// `dvbs_lock bits` on decoded bytes.
pub fn lock_bits(input: &[u8]) -> Told {
    let bits: Vec<u8> = input.iter().flat_map(|byte| (0..8).rev().map(move |k| byte >> k & 1)).collect();
    let all = bits.len() as u64;
    let mut teller = Teller::new("bit");
    let mut gathered = Gathered { bits, ..Gathered::none() };
    loop {
        let left = gathered.bits.len();
        if let Some(block) = gathered.decide() {
            let places = [block.at, block.at + BLOCK_BITS as u64];
            teller.block(&block, places, &format!("inverted={}", u8::from(block.inverted)));
        } else if left < BLOCK_BITS {
            teller.ended(all, left, "");
            return teller.told();
        } else {
            teller.lost();
            gathered.skip(if left < DECISION_BITS { left } else { SKIPPED_BITS });
        }
    }
}

#[cfg(test)]
mod tests {
    use super::*;
    use crate::channel::{demodulated, sigma, to_bytes, turned, Channel, Demodulator, Slip};
    use crate::inner_code::InnerCoder;
    use crate::losses::{blocks, lines};
    use crate::numbered::{packets, symbols, Verdict};
    use crate::runs::hard_pairs;
    use crate::samples::stream;
    use crate::sender::interleaved_stream;
    use crate::xorshift::Xorshift;

    /// The points of a stream at an Eb/N0, cut, turned and slipped.
    fn received(rate: u8, sent: &[u8], eb_n0: f64, cut: usize, turn: u8, slips: Vec<(u64, Slip)>) -> Vec<u8> {
        let mut channel = Channel::new(cut as u64 + 7, sigma(rate, eb_n0), 0.0, None);
        let mut demodulator = Demodulator::new(cut as u64, turn, slips);
        demodulated(&symbols(rate, sent), &mut channel, &mut demodulator).into_iter().flat_map(to_bytes).collect()
    }

    /// The numbers in the lines that begin with a word, in their order.
    fn numbers(told: &Told, word: &str) -> Vec<Vec<usize>> {
        let value = |word: &str| word.split_once('=').map(|(_, value)| value.parse().unwrap());
        told.text.lines().filter(|line| line.split(' ').next() == Some(word)).map(|line| line.split(' ').filter_map(value).collect()).collect()
    }

    #[test]
    fn turned_back_is_what_was_sent() {
        // Away from the thresholds, where a number and its negative are not of mirrored levels.
        let mut r = Xorshift::new(1);
        for case in 0..800 {
            let mut number = || [-0.9, -0.6, -0.3, -0.1, 0.1, 0.3, 0.6, 0.9, f32::NAN][r.below(9)];
            let point = (number(), number());
            let turn = case as u8 % 8;
            assert_eq!(turned_back(turn, soft_pair(turned(turn, point))), soft_pair(point));
        }
    }

    #[test]
    fn how_many_hypotheses() {
        assert_eq!((0..RATES).map(|rate| hypotheses(rate).len()).collect::<Vec<usize>>(), [4, 12, 8, 6, 16]);
    }

    /// Reading goes on as one stream, whatever came before its first symbol.
    #[test]
    fn a_reading_behind_its_lead() {
        for rate in 0..RATES {
            let (bits, per_pattern) = pattern_size(rate);
            let mut r = Xorshift::new(rate as u64);
            let sent: Vec<u8> = (0..bits * (5000 / bits)).map(|_| r.byte() & 1).collect();
            let all = hard_pairs(&InnerCoder::after(rate, 0).code_bits(&sent));
            let cut = 37;
            let (mut reading, mut at) = (Reading::new(rate, 0, 0), cut * per_pattern);
            let mut got = Vec::new();
            while at < all.len() {
                let (taken, bits) = reading.take(&all[at..]);
                at += taken;
                got.extend(bits);
            }
            got.extend(reading.last());
            assert_eq!(got[LEAD[rate as usize] * bits..], sent[cut * bits..]);
            // The coder's memory, which the lead leaves open, is read too.
            assert_eq!(got[LEAD[rate as usize] * bits - 6..][..6], sent[cut * bits - 6..][..6]);
        }
    }

    /// Block by block a lock's receiver gives and tells what the list of losses of all its blocks says.
    #[test]
    fn lines_block_by_block_are_those_of_the_list() {
        let mut r = Xorshift::new(3);
        let mut doubts = 0;
        for _ in 0..200 {
            let recording = stream(&mut r, 50);
            let (mut receiver, mut given, mut told) = (LockReceiver::fresh(), Vec::new(), String::new());
            for block in recording.chunks_exact(BLOCK_LENGTH) {
                let (packets, text) = receiver.take(block);
                given.extend(packets);
                told += &text;
            }
            told += &receiver.waiting_text();
            let blocks = blocks(&recording, &[]);
            let list = lines(&blocks);
            doubts += list.iter().filter(|line| line.answer == Answer::Done).count();
            assert_eq!(told, list.iter().map(|line| line_text(*line)).collect::<String>());
            let unlisted = blocks.iter().enumerate().filter(|(k, _)| list.iter().all(|line| line.block != *k as u64));
            assert_eq!(given, unlisted.flat_map(|(_, block)| &block.packet).copied().collect::<Vec<u8>>());
        }
        assert!(doubts > 20);
    }

    /// Every packet from the first group start on, and none that was not sent.
    #[test]
    fn unharmed_streams_cut_anywhere_and_turned() {
        let mut r = Xorshift::new(2);
        for rate in 0..RATES {
            let (bits, per_pattern) = pattern_size(rate);
            let sent = packets(rate as u64, 56);
            let whole = symbols(rate, &sent).len() / per_pattern * bits / BLOCK_BITS;
            for turn in 0..8 {
                let cut = r.below(14 * BLOCK_BITS / bits * per_pattern);
                let known = if turn % 2 == 0 { Some(rate) } else { None };
                let told = lock(known, &received(rate, &sent, f64::INFINITY, cut, turn, vec![]));
                let locks = numbers(&told, "lock");
                assert_eq!(locks.len(), 1, "{}", told.text);
                let symbol = locks[0][0];
                assert_eq!(locks[0][1..], [rate as usize, turn as usize, symbol % per_pattern]);
                assert_eq!((cut + symbol) % per_pattern, 0);
                // The block whose first bit stands in this pattern, or before the first symbol that was read.
                let low = (cut + symbol) / per_pattern * bits;
                let block = (low + bits - 1) / BLOCK_BITS;
                assert!(block * BLOCK_BITS >= low || symbol < per_pattern, "{}", told.text);
                // A mirrored stream at 5/6 is read first as another, a window of zeros may be several; else the first block is not missed.
                if cut > 12 * BLOCK_BITS / bits * per_pattern && (rate != FIVE_SIXTHS || turn < 4) {
                    assert!(symbol <= per_pattern + BLOCK_BITS / bits * per_pattern, "{}", told.text);
                }
                let verdict = Verdict::of(&sent, &told.packets);
                let want: Vec<usize> = ((block + 7) / 8 * 8..whole - 11).collect();
                assert_eq!((verdict.came, verdict.never_sent), (want, 0), "rate {rate} turn {turn} cut {cut}: {}", told.text);
                assert_eq!(told.status, 0);
                // Every symbol is counted.
                let (lost, end) = (&numbers(&told, "lost")[0], &numbers(&told, "end")[0]);
                assert_eq!(lost[1] + (lost[0] - symbol) + end[1], end[0]);
                assert!(told.text.lines().last().unwrap().starts_with("rest="));
            }
        }
    }

    /// Slips and turns in mid-stream cost packets, and give none that was not sent.
    #[test]
    fn slips_and_turns_in_mid_stream() {
        let sent = packets(9, 120);
        for rate in 0..RATES {
            for (case, slip) in [Slip::LeftOut(1), Slip::LeftOut(500), Slip::LeftOut(3000), Slip::Doubled(1), Slip::Turned(1), Slip::Turned(2)].into_iter().enumerate() {
                let at = (symbols(rate, &sent).len() / 2 + 97 * case) as u64;
                let told = lock(Some(rate), &received(rate, &sent, 6.5, 5000 + case, case as u8, vec![(at, slip)]));
                let verdict = Verdict::of(&sent, &told.packets);
                assert!(verdict.never_sent == 0 && verdict.in_order(), "{}", told.text);
                assert!(verdict.came.contains(&30) && verdict.came.contains(&105), "rate {rate} case {case}: {}", told.text);
                // A half turn near the end of a block harms few bytes of it.
                assert!(verdict.missing() <= 35 && (verdict.missing() > 0 || case == 5), "{}", verdict.missing());
                let (locks, losts, end) = (numbers(&told, "lock"), numbers(&told, "lost"), &numbers(&told, "end")[0]);
                let counted: usize = locks.iter().zip(&losts).map(|(lock, lost)| lost[1] + lost[0] - lock[0]).sum();
                assert_eq!(counted + end[1], end[0]);
            }
        }
    }

    #[test]
    fn noise_gives_nothing() {
        let mut channel = Channel::new(5, 30.0, 0.0, None);
        let points: Vec<u8> = (0..40_000).flat_map(|_| to_bytes(channel.receive(0))).chain([1, 2, 3]).collect();
        for rate in [None, Some(4)] {
            let told = lock(rate, &points);
            assert_eq!((told.packets.len(), told.text.as_str(), told.status), (0, "nothing symbol=40000 skipped=40000 bytes=3\n", 1));
        }
        let told = lock(None, &[0xFF; 8 * 5000]);
        assert_eq!(told.text, "nothing symbol=5000 skipped=5000 bytes=0\n");
        assert_eq!(lock(Some(0), &[]).text, "nothing symbol=0 skipped=0 bytes=0\n");
        assert_eq!(lock_bits(&Xorshift::new(6).bytes(50_000)).text, "nothing bit=400000 skipped=400000\n");
        assert_eq!(lock_bits(&[]).text, "nothing bit=0 skipped=0\n");
    }

    /// So many bits before a stream, which may be inverted.
    fn shifted(stream: &[u8], before: usize, inverted: bool) -> Vec<u8> {
        let bits = stream.iter().flat_map(|byte| (0..8).rev().map(move |k| (byte >> k & 1) ^ u8::from(inverted)));
        let all: Vec<u8> = std::iter::repeat(0).take(before).chain(bits).collect();
        all.chunks_exact(8).map(byte_of).collect()
    }

    #[test]
    fn bits_that_begin_anywhere() {
        let sent = packets(11, 60);
        let stream = interleaved_stream(&sent);
        for (before, from, inverted) in [(0, 0, false), (1, 0, true), (13, 3, false), (1631, 8, true), (9000, 5, false)] {
            let told = lock_bits(&shifted(&stream[BLOCK_LENGTH * from..], before, inverted));
            let line = format!("lock bit={before} inverted={}\n", u8::from(inverted));
            assert!(told.text.starts_with(&line), "{}", told.text);
            let whole = if before % 8 == 0 { 60 } else { 59 };
            let want: Vec<usize> = ((from + 7) / 8 * 8..whole - 11).collect();
            assert_eq!(Verdict::of(&sent, &told.packets), Verdict { came: want, never_sent: 0 });
        }
    }

    /// The last block is given without a sync byte behind it, and a lock that ends before the end has no rest.
    #[test]
    fn the_end_of_the_bits() {
        let stream = interleaved_stream(&packets(12, 40));
        let told = lock_bits(&[&stream[..], &[0; 203]].concat());
        assert!(told.text.ends_with("taken=40\nfilling=11\ndelivered=29\nlost=0\nwaiting=0\noutofstep=0\nchanged=0\nbits=0\nrest=203\n"));
        assert!(told.text.contains("end bit=66904 skipped=1624\nlost bit=65280 skipped=0\nform=2\n"));
        // Three blocks without a sync byte go to the lock where the input ends behind them. A fourth byte that is none ends it.
        let told = lock_bits(&[&stream[..], &[0; 3 * BLOCK_LENGTH]].concat());
        assert!(told.text.contains("taken=43\n") && told.text.ends_with("rest=0\n"));
        let told = lock_bits(&[&stream[..], &[0; 3 * BLOCK_LENGTH + 1]].concat());
        assert!(told.text.contains("taken=40\n") && told.text.ends_with("rest=0\nend bit=70184 skipped=4904\n"), "{}", told.text);
        // Five blocks are too few, and a byte more is enough.
        assert_eq!(lock_bits(&stream[..4 * BLOCK_LENGTH]).status, 1);
        assert_eq!(lock_bits(&stream[..4 * BLOCK_LENGTH + 1]).status, 0);
    }

    /// A gap of whole blocks moves no grid: the packets behind it wait for their B8 and are not given.
    #[test]
    fn a_gap_of_whole_blocks() {
        let sent = packets(13, 90);
        let stream = interleaved_stream(&sent);
        let told = lock_bits(&[&stream[..57 * BLOCK_LENGTH], &stream[58 * BLOCK_LENGTH..]].concat());
        let want: String = (46..57).map(|k| format!("block={k} answer=8\n")).chain((57..63).map(|k| format!("block={k} doubt=1\n"))).collect();
        assert!(told.text.starts_with(&format!("lock bit=0 inverted=0\n{want}end ")), "{}", told.text);
        assert_eq!(Verdict::of(&sent, &told.packets), Verdict { came: (0..46).chain(64..79).collect(), never_sent: 0 });
    }
}
