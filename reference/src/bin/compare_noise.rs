//! What noise is promised to be survived (docs/TRUST.md), run against the library and the programs: within the limits of
//! the tables no bit is wrong that is promised, no packet is lost by harm or outages; one wrong bit beyond some are.
//!
//! `compare_noise PROGRAMS`, PROGRAMS being `target/bin`. With a second word, `outages`, it prints the shortest outage of
//! which a packet was lost instead, at each rate that is sent.

use reference::channel::{sent, to_bytes, Point, LOST};
use reference::exports::{library, RESULT_LENGTH};
use reference::inner_code::InnerCoder;
use reference::inner_decoder::{level, LONGEST};
use reference::sender::interleaved_stream;
use reference::xorshift::Xorshift;
use reference::{PACKET_LENGTH, SYNC};
use std::io::Write;
use std::process::{exit, Command, Stdio};

/// The limits of `crates/noise_tolerance/specs/Table.antt`: how much doubt in how many symbols, and how many bits at the end
/// are not promised.
struct Limits {
    tolerated: u32,
    window: usize,
    unsure: usize,
}

const fn limits(tolerated: u32, window: usize, unsure: usize) -> Limits {
    Limits { tolerated, window, unsure }
}

const HARD: [Limits; 5] = [limits(4, 48, 21), limits(2, 42, 23), limits(2, 56, 38), limits(1, 48, 28), limits(1, 68, 56)];
const SOFT: [Limits; 5] = [limits(63, 55, 25), limits(35, 54, 30), limits(28, 56, 38), limits(21, 75, 50), limits(14, 68, 56)];

/// Those of `specs/Harm.antt`, for the rates that are sent: symbols struck, hard, and symbols lost, each with what is tolerated elsewhere
/// in 900 symbols.
const STRUCK: [(usize, usize); 4] = [(31, 4), (12, 2), (7, 2), (3, 1)];
const OUTAGE: [(usize, usize); 4] = [(625, 4), (424, 2), (339, 2), (223, 1)];
const HARM_WINDOW: usize = 900;

/// Bits whose coding differs from that of zeros in the fewest coded bits, at the start of a pattern.
const NEAREST: [&[u8]; 5] = [&[1], &[0, 1, 1, 1], &[0, 1, 1], &[0, 0, 1, 1], &[0, 0, 0, 1, 1, 1]];

const RUNS: usize = 1500;
const PACKETS: usize = 48;

fn coded(rate: u8, memory: u8, bits: &[u8]) -> Vec<u8> {
    InnerCoder::after(rate, memory).code_bits(bits)
}

/// Doubts about symbols, of which no window may have more than so much.
struct Doubts<'a> {
    limits: &'a Limits,
    most: u32,
    of: Vec<u32>,
}

impl Doubts<'_> {
    /// Adds doubt about a symbol, unless a window would have too much.
    fn add(&mut self, symbol: usize, doubt: u32) -> bool {
        let first = (symbol + 1).saturating_sub(self.limits.window);
        let fits = (first..=symbol).all(|from| {
            let to = self.of.len().min(from + self.limits.window);
            self.of[from..to].iter().sum::<u32>() + doubt <= self.most
        });
        if fits {
            self.of[symbol] += doubt;
        }
        fits
    }
}

/// A run that is sent: its memory, its bits and its symbols.
fn run(r: &mut Xorshift, rate: u8) -> (u8, Vec<u8>, Vec<u8>) {
    let length = InnerCoder::pattern_length(rate);
    let patterns = if r.below(3) == 0 { LONGEST / length } else { 1 + r.below(600 / length) };
    let memory = r.byte() % 64;
    let bits: Vec<u8> = (0..patterns * length).map(|_| r.byte() & 1).collect();
    let symbols = coded(rate, memory, &bits);
    (memory, bits, symbols)
}

/// Places of coded bits to harm: scattered, dense, or where a near sequence differs.
fn places(r: &mut Xorshift, rate: u8, symbols: usize, events: bool) -> Vec<usize> {
    let count = 2 * symbols;
    if !events && r.below(2) == 0 {
        return (0..count).map(|_| r.below(count)).collect();
    }
    if !events && r.below(2) == 0 {
        return (0..count).filter(|_| r.below(4) == 0).collect();
    }
    let length = InnerCoder::pattern_length(rate);
    let per_pattern = InnerCoder::after(rate, 0).symbols_due(length);
    let mut bits = NEAREST[rate as usize].to_vec();
    bits.resize((bits.len() + 5 + length) / length * length + 8 * length, 0);
    let ones: Vec<usize> = coded(rate, 0, &bits).iter().flat_map(|s| [s >> 1, s & 1]).enumerate().filter(|(_, bit)| *bit == 1).map(|(at, _)| at).collect();
    let mut at = 2 * per_pattern * r.below(12);
    let mut found = Vec::new();
    while at + ones[ones.len() - 1] < count {
        found.extend(ones.iter().map(|one| at + one));
        at += 2 * per_pattern * (1 + r.below(80 / length + 1));
    }
    found
}

/// Whether a bit before the last ones is wrong.
fn wrong(bits: &[u8], got: &[u8], unsure: usize) -> bool {
    (0..bits.len().saturating_sub(unsure)).any(|i| bits[i] != got[i])
}

/// Hard decisions, with so many wrong bits in a window beyond the limit: in how many runs a promised bit is wrong.
fn hard_runs(rate: u8, beyond: u32) -> (usize, u64) {
    let mut r = Xorshift::new(100 + rate as u64);
    let limits = &HARD[rate as usize];
    let (mut spoilt, mut harmed) = (0, 0);
    for _ in 0..RUNS {
        let (memory, bits, mut symbols) = run(&mut r, rate);
        let mut doubts = Doubts { limits, most: limits.tolerated + beyond, of: vec![0; symbols.len()] };
        let mut hit = vec![false; 2 * symbols.len()];
        for at in places(&mut r, rate, symbols.len(), beyond > 0) {
            if !hit[at] && doubts.add(at / 2, 1) {
                hit[at] = true;
                symbols[at / 2] ^= 2 >> (at % 2);
                harmed += 1;
            }
        }
        let mut got = vec![0; bits.len()];
        let count = library::read_run(rate, memory, &symbols, &mut got, &mut [0; RESULT_LENGTH]);
        assert_eq!(count, bits.len() as u64);
        spoilt += usize::from(wrong(&bits, &got, limits.unsure));
    }
    (spoilt, harmed)
}

/// A number whose bit costs so much where 0 was sent; 7 and more is the wrong side.
fn doubted(bit: u8, cost: u32) -> f32 {
    let number = (3.5 - cost as f32) / 4.0;
    assert_eq!(level(number), 7 - cost);
    if bit == 0 {
        number
    } else {
        // The levels of 0 and 1 are not mirrored at the thresholds, and these numbers lie between them.
        -number
    }
}

/// Soft decisions, with doubts of every size, numbers that are NaN and symbols that are lost among them.
fn soft_runs(rate: u8) -> (usize, u64) {
    let mut r = Xorshift::new(200 + rate as u64);
    let limits = &SOFT[rate as usize];
    let (mut spoilt, mut harmed) = (0, 0);
    for _ in 0..RUNS {
        let (memory, bits, symbols) = run(&mut r, rate);
        let mut doubts = Doubts { limits, most: limits.tolerated, of: vec![0; symbols.len()] };
        let mut points: Vec<[f32; 2]> = symbols.iter().map(|s| [sent(*s).0, sent(*s).1]).collect();
        let mut lost = vec![0; symbols.len()];
        let mut hit = vec![false; 2 * symbols.len()];
        for at in places(&mut r, rate, symbols.len(), false) {
            let (symbol, part) = (at / 2, at % 2);
            if hit[2 * symbol] || hit[2 * symbol + 1] {
                continue;
            }
            let bit = symbols[symbol] >> (1 - part) & 1;
            match r.below(4) {
                0 if doubts.add(symbol, 7) => points[symbol][part] = f32::NAN,
                1 if doubts.add(symbol, 14) => lost[symbol] = 1,
                2 | 3 => {
                    let cost = 1 + r.below(7) as u32;
                    if !doubts.add(symbol, 2 * cost) {
                        continue;
                    }
                    points[symbol][part] = doubted(bit, cost);
                }
                _ => continue,
            }
            hit[at] = true;
            harmed += 1;
        }
        let (i, q): (Vec<f32>, Vec<f32>) = points.iter().map(|p| (p[0], p[1])).unzip();
        let mut got = vec![0; bits.len()];
        let count = library::read_soft_run(rate, memory, &i, &q, &lost, &mut got, &mut [0; RESULT_LENGTH]);
        assert_eq!(count, bits.len() as u64);
        spoilt += usize::from(wrong(&bits, &got, limits.unsure));
    }
    (spoilt, harmed)
}

/// What a program writes for an input.
fn through(program: &str, words: &[&str], input: Vec<u8>) -> Vec<u8> {
    let mut child = Command::new(program)
        .args(words)
        .stdin(Stdio::piped())
        .stdout(Stdio::piped())
        .stderr(Stdio::null())
        .spawn()
        .unwrap_or_else(|e| panic!("{program}: {e}"));
    let mut stdin = child.stdin.take().unwrap();
    let writer = std::thread::spawn(move || stdin.write_all(&input));
    let out = child.wait_with_output().unwrap().stdout;
    writer.join().unwrap().unwrap();
    out
}

/// Random packets, and the symbols that are sent for them.
fn transmitted(r: &mut Xorshift, rate: u8) -> (Vec<u8>, Vec<u8>) {
    let mut packets = r.bytes(PACKETS * PACKET_LENGTH);
    packets.iter_mut().step_by(PACKET_LENGTH).for_each(|first| *first = SYNC);
    let bytes = interleaved_stream(&packets);
    let bits: Vec<u8> = bytes.iter().flat_map(|b| (0..8).rev().map(move |k| b >> k & 1)).collect();
    let whole = bits.len() / InnerCoder::pattern_length(rate) * InnerCoder::pattern_length(rate);
    (packets, coded(rate, 0, &bits[..whole]))
}

/// So many wrong bits elsewhere, in each window of 900 symbols that does not touch the harm.
fn scatter(r: &mut Xorshift, symbols: &mut [u8], start: usize, many: usize, elsewhere: usize) {
    for from in (0..symbols.len()).step_by(2 * HARM_WINDOW) {
        for _ in 0..elsewhere {
            let at = from + r.below(HARM_WINDOW);
            if at < symbols.len() && !(start..start + many).contains(&at) {
                symbols[at] ^= 1 + r.below(2) as u8;
            }
        }
    }
}

/// Whether all packets come back that a link without harm gives, all but the last twelve.
fn all_back(programs: &str, reader: &str, rate: u8, packets: &[u8], input: Vec<u8>) -> bool {
    let blocks = through(&format!("{programs}/{reader}"), &[&rate.to_string()], input);
    let given = through(&format!("{programs}/dvbs_receive"), &[], blocks);
    let promised = (PACKETS - 12) * PACKET_LENGTH;
    given.len() >= promised && given[..promised] == packets[..promised]
}

/// Symbols struck: inverted, or anything.
fn struck(programs: &str, rate: u8, seed: u64) -> bool {
    let mut r = Xorshift::new(seed);
    let (packets, mut symbols) = transmitted(&mut r, rate);
    let (many, elsewhere) = STRUCK[rate as usize];
    let start = r.below(symbols.len() - many);
    scatter(&mut r, &mut symbols, start, many, elsewhere);
    let inverted = r.below(2) == 0;
    for symbol in &mut symbols[start..start + many] {
        *symbol = if inverted { *symbol ^ 3 } else { r.below(4) as u8 };
    }
    all_back(programs, "dvbs_read", rate, &packets, symbols)
}

/// An outage of so many symbols.
fn outage(programs: &str, rate: u8, seed: u64, many: usize, elsewhere: usize) -> bool {
    let mut r = Xorshift::new(seed);
    let (packets, mut symbols) = transmitted(&mut r, rate);
    let start = r.below(symbols.len() - many);
    scatter(&mut r, &mut symbols, start, many, elsewhere);
    let mut points: Vec<Point> = symbols.iter().map(|s| sent(*s)).collect();
    points[start..start + many].iter_mut().for_each(|point| *point = LOST);
    all_back(programs, "dvbs_read_soft", rate, &packets, points.into_iter().flat_map(to_bytes).collect())
}

/// The shortest outage, in steps of one symbol, of which a packet was lost at one of sixteen places.
fn shortest_loss(programs: &str, rate: u8) -> usize {
    let loses = |many| (0..16).any(|seed| !outage(programs, rate, 900 + seed, many, 0));
    let (mut none, mut some) = (OUTAGE[rate as usize].0, 1000);
    while none + 1 < some {
        let middle = (none + some) / 2;
        if loses(middle) {
            some = middle;
        } else {
            none = middle;
        }
    }
    some
}

fn main() {
    let words: Vec<String> = std::env::args().skip(1).collect();
    let programs = words.first().expect("compare_noise PROGRAMS [outages]");
    if words.get(1).map_or(false, |word| word == "outages") {
        for rate in 0..4u8 {
            println!("rate {rate}: {} lost symbols are proved to cost nothing, {} cost a packet", OUTAGE[rate as usize].0, shortest_loss(programs, rate));
        }
        return;
    }
    let mut failed = false;
    for rate in 0..5u8 {
        let (spoilt, harmed) = hard_runs(rate, 0);
        let (beyond, _) = hard_runs(rate, 1);
        let (soft, doubts) = soft_runs(rate);
        let (rained, lost) = if rate < 4 {
            let (many, elsewhere) = OUTAGE[rate as usize];
            (
                (0..12).filter(|seed| !struck(programs, rate, 300 + seed)).count(),
                (0..12).filter(|seed| !outage(programs, rate, 400 + seed, many, elsewhere)).count(),
            )
        } else {
            (0, 0)
        };
        println!("noise at rate {rate}: {harmed} wrong bits and {doubts} doubts within the limits, {beyond} of {RUNS} runs wrong with one beyond");
        if spoilt + soft + rained + lost > 0 || beyond == 0 {
            println!("FAILED: {spoilt} runs, {soft} soft runs, {rained} struck streams and {lost} outages wrong within the limits");
            failed = true;
        }
    }
    if failed {
        exit(1);
    }
    println!("noise: as promised");
}
