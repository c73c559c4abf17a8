//! Compares the library, function by function, with the reference: answers,
//! every byte of every lent buffer, on seeded, repeatable inputs.
//!
//! `compare` runs all; `compare KIND` one kind; `compare KIND CASE` one case.

use reference::answer::Answer;
use reference::exports::{expected, library, COUNTS_LENGTH, RESULT_LENGTH};
use reference::inner_code::{InnerCoder, SENT};
use reference::inner_decoder::LONGEST;
use reference::interleaver::Branches;
use reference::reed_solomon::{check_bytes, encode};
use reference::sender::{interleaved_stream, Sender};
use reference::xorshift::Xorshift;
use reference::{BLOCK_LENGTH, INVERTED_SYNC, PACKET_LENGTH, SYNC};

const BASE_SEED: u64 = 0x300_421;

/// Keeps the score, and says what differs.
struct Score {
    only_kind: Option<String>,
    only_case: Option<u64>,
    kind: &'static str,
    case: u64,
    seed: u64,
    passed: u64,
    failed: u64,
    passed_all: u64,
    failed_all: u64,
}

impl Score {
    /// Runs the cases of a kind and prints its line.
    fn kind(&mut self, kind: &'static str, cases: u64, mut run: impl FnMut(&mut Score, &mut Xorshift, u64)) {
        if self.only_kind.as_deref().map_or(false, |only| only != kind) {
            return;
        }
        self.kind = kind;
        self.passed = 0;
        self.failed = 0;
        for case in 0..cases {
            if self.only_case.map_or(false, |only| only != case) {
                continue;
            }
            self.case = case;
            // The name of the kind is part of the seed.
            let name = kind.bytes().fold(BASE_SEED, |sum, b| sum.wrapping_mul(257) ^ b as u64);
            self.seed = name.wrapping_mul(1 << 24).wrapping_add(case);
            let mut r = Xorshift::new(self.seed);
            run(self, &mut r, case);
        }
        println!("{kind}: {} compared, {} different", self.passed + self.failed, self.failed);
        self.passed_all += self.passed;
        self.failed_all += self.failed;
    }

    fn same(&mut self, inputs: &str, want: &[(&str, &[u8])], got: &[(&str, &[u8])]) {
        if want == got {
            self.passed += 1;
            return;
        }
        self.failed += 1;
        if self.failed > 5 {
            return;
        }
        println!("DIFFERENT {} case {} (seed {:#x}): {inputs}", self.kind, self.case, self.seed);
        for ((name, w), (_, g)) in want.iter().zip(got) {
            if w != g {
                let at = w.iter().zip(*g).position(|(a, b)| a != b).unwrap_or(0);
                let part = |b: &[u8]| hex(&b[at..b.len().min(at + 16)]);
                println!("  {name} from byte {at}: reference {}, library {}", part(w), part(g));
            } else if w.len() <= 8 {
                println!("  {name}: both {}", hex(w));
            }
        }
    }
}

fn hex(bytes: &[u8]) -> String {
    bytes.iter().map(|b| format!("{b:02x}")).collect::<Vec<_>>().join(" ")
}

// One comparison of each function. Outputs start with the same bytes on both
// sides and are compared whole, so a byte written beyond the answer shows.

type PacketStage = fn(u8, &[u8], &mut [u8]) -> u8;

fn packet_stage(s: &mut Score, sides: (PacketStage, PacketStage), place: u8, packet: &[u8], output: Vec<u8>) -> u8 {
    let (mut a, mut b) = (output.clone(), output);
    let want = sides.0(place, packet, &mut a);
    let got = sides.1(place, packet, &mut b);
    let inputs = format!("place {place}, packet of {}, output of {}", packet.len(), a.len());
    s.same(&inputs, &[("answer", &[want]), ("output", &a)], &[("answer", &[got]), ("output", &b)]);
    want
}

fn randomize(s: &mut Score, place: u8, packet: &[u8], output: Vec<u8>) -> u8 {
    packet_stage(s, (expected::randomize, library::randomize), place, packet, output)
}

fn derandomize(s: &mut Score, place: u8, packet: &[u8], output: Vec<u8>) -> u8 {
    packet_stage(s, (expected::derandomize, library::derandomize), place, packet, output)
}

fn rs_encode(s: &mut Score, data: &[u8], output: Vec<u8>) {
    let (mut a, mut b) = (output.clone(), output);
    let want = expected::rs_encode(data, &mut a);
    let got = library::rs_encode(data, &mut b);
    let inputs = format!("data of {}, output of {}", data.len(), a.len());
    s.same(&inputs, &[("answer", &[want]), ("output", &a)], &[("answer", &[got]), ("output", &b)]);
}

fn rs_decode(s: &mut Score, block: &[u8], count: Vec<u8>) -> (u8, Vec<u8>) {
    let (mut a, mut b) = (block.to_vec(), block.to_vec());
    let (mut m, mut n) = (count.clone(), count);
    let want = expected::rs_decode(&mut a, &mut m);
    let got = library::rs_decode(&mut b, &mut n);
    let inputs = if s.only_case.is_some() {
        format!("block {}, count of {}", hex(block), m.len())
    } else {
        format!("block of {}, count of {}", block.len(), m.len())
    };
    s.same(
        &inputs,
        &[("answer", &[want]), ("count", &m), ("block", &a)],
        &[("answer", &[got]), ("count", &n), ("block", &b)],
    );
    (want, m)
}

fn rs_decode_marked(s: &mut Score, block: &[u8], marks: &[u8], count: Vec<u8>) -> (u8, Vec<u8>, Vec<u8>) {
    let (mut a, mut b) = (block.to_vec(), block.to_vec());
    let (mut m, mut n) = (count.clone(), count);
    let want = expected::rs_decode_marked(&mut a, marks, &mut m);
    let got = library::rs_decode_marked(&mut b, marks, &mut n);
    let inputs = if s.only_case.is_some() {
        format!("block {}, marks {}, count of {}", hex(block), hex(marks), m.len())
    } else {
        format!("block of {}, marks of {}, count of {}", block.len(), marks.len(), m.len())
    };
    s.same(
        &inputs,
        &[("answer", &[want]), ("count", &m), ("block", &a)],
        &[("answer", &[got]), ("count", &n), ("block", &b)],
    );
    (want, m, a)
}

fn send_run(s: &mut Score, rate: u8, packets: &[u8], output: Vec<u8>, answer: Vec<u8>) -> (u8, u64) {
    let (mut a, mut b) = (output.clone(), output);
    let (mut m, mut n) = (answer.clone(), answer);
    let want = expected::send_run(rate, packets, &mut a, &mut m);
    let got = library::send_run(rate, packets, &mut b, &mut n);
    let inputs = format!("rate {rate}, packets of {}, output of {}, answer of {}", packets.len(), a.len(), m.len());
    s.same(
        &inputs,
        &[("symbols", &want.to_le_bytes()), ("answer", &m), ("output", &a)],
        &[("symbols", &got.to_le_bytes()), ("answer", &n), ("output", &b)],
    );
    (m.first().copied().unwrap_or(0), want)
}

fn receive_run(s: &mut Score, blocks: &[u8], output: Vec<u8>, counts: Vec<u8>) -> (Vec<u8>, [u64; 8]) {
    receive_run_told(s, blocks, output, counts, vec![0xA5])
}

fn receive_run_told(s: &mut Score, blocks: &[u8], output: Vec<u8>, counts: Vec<u8>, answer: Vec<u8>) -> (Vec<u8>, [u64; 8]) {
    let (mut a, mut b) = (output.clone(), output);
    let (mut m, mut n) = (counts.clone(), counts);
    let (mut t, mut u) = (answer.clone(), answer);
    let want = expected::receive_run(blocks, &mut a, &mut m, &mut t);
    let got = library::receive_run(blocks, &mut b, &mut n, &mut u);
    let inputs = format!("blocks of {}, output of {}, counts of {}, answer of {}", blocks.len(), a.len(), m.len(), t.len());
    s.same(
        &inputs,
        &[("bytes", &want.to_le_bytes()), ("counts", &m), ("answer", &t), ("output", &a)],
        &[("bytes", &got.to_le_bytes()), ("counts", &n), ("answer", &u), ("output", &b)],
    );
    let mut eight = [0; 8];
    if m.len() >= COUNTS_LENGTH {
        for (count, bytes) in eight.iter_mut().zip(m.chunks_exact(8)) {
            *count = u64::from_le_bytes(bytes.try_into().unwrap());
        }
    }
    a.truncate(want as usize);
    (a, eight)
}

/// With marks: the packets, the answer and the counts.
fn receive_run_marked(
    s: &mut Score,
    blocks: &[u8],
    marks: &[u8],
    output: Vec<u8>,
    counts: Vec<u8>,
    answer: Vec<u8>,
) -> (Vec<u8>, Vec<u8>, Vec<u8>) {
    let (mut a, mut b) = (output.clone(), output);
    let (mut m, mut n) = (counts.clone(), counts);
    let (mut t, mut u) = (answer.clone(), answer);
    let want = expected::receive_run_marked(blocks, marks, &mut a, &mut m, &mut t);
    let got = library::receive_run_marked(blocks, marks, &mut b, &mut n, &mut u);
    let inputs = format!(
        "blocks of {}, marks of {}, output of {}, counts of {}, answer of {}",
        blocks.len(),
        marks.len(),
        a.len(),
        m.len(),
        t.len()
    );
    s.same(
        &inputs,
        &[("bytes", &want.to_le_bytes()), ("counts", &m), ("answer", &t), ("output", &a)],
        &[("bytes", &got.to_le_bytes()), ("counts", &n), ("answer", &u), ("output", &b)],
    );
    a.truncate(want as usize);
    (a, t, m)
}

/// The answer, and the block where there is one.
fn recording_block(s: &mut Score, recording: &[u8], blocks: u64, p: u64, output: Vec<u8>, count: Vec<u8>) -> (u8, Vec<u8>) {
    let (mut a, mut b) = (output.clone(), output);
    let (mut m, mut n) = (count.clone(), count);
    let want = expected::recording_block(recording, blocks, p, &mut a, &mut m);
    let got = library::recording_block(recording, blocks, p, &mut b, &mut n);
    let inputs = format!(
        "recording of {}, {blocks} blocks, block {p}, output of {}, count of {}",
        recording.len(),
        a.len(),
        m.len()
    );
    s.same(
        &inputs,
        &[("answer", &[want]), ("count", &m), ("output", &a)],
        &[("answer", &[got]), ("count", &n), ("output", &b)],
    );
    a.truncate(if want == 0 { BLOCK_LENGTH } else { 0 });
    (want, a)
}

/// The bits that the reference read, the memory after them and the number.
fn read_run(s: &mut Score, rate: u8, memory: u8, symbols: &[u8], output: Vec<u8>, result: Vec<u8>) -> (u8, Vec<u8>, u8, u32) {
    let (mut a, mut b) = (output.clone(), output);
    let (mut m, mut n) = (result.clone(), result);
    let want = expected::read_run(rate, memory, symbols, &mut a, &mut m);
    let got = library::read_run(rate, memory, symbols, &mut b, &mut n);
    let inputs =
        format!("rate {rate}, memory {memory}, symbols of {}, output of {}, result of {}", symbols.len(), a.len(), m.len());
    s.same(
        &inputs,
        &[("bits", &want.to_le_bytes()), ("result", &m), ("output", &a)],
        &[("bits", &got.to_le_bytes()), ("result", &n), ("output", &b)],
    );
    a.truncate(want as usize);
    if m.len() < RESULT_LENGTH {
        return (0, a, memory, 0);
    }
    (m[0], a, m[1], u32::from_le_bytes(m[2..RESULT_LENGTH].try_into().unwrap()))
}

/// A run as the demodulator hands it over: I, Q, and 1 where it was lost.
#[derive(Default)]
struct Received {
    i: Vec<f32>,
    q: Vec<f32>,
    lost: Vec<u8>,
}

/// The answer, the bits that the reference read, the memory after them and what
/// they cost.
fn read_soft_run(s: &mut Score, rate: u8, memory: u8, run: &Received, output: Vec<u8>, result: Vec<u8>) -> (u8, Vec<u8>, u8, u32) {
    let (mut a, mut b) = (output.clone(), output);
    let (mut m, mut n) = (result.clone(), result);
    let want = expected::read_soft_run(rate, memory, &run.i, &run.q, &run.lost, &mut a, &mut m);
    let got = library::read_soft_run(rate, memory, &run.i, &run.q, &run.lost, &mut b, &mut n);
    let inputs = format!(
        "rate {rate}, memory {memory}, lists of {}, {} and {}, output of {}, result of {}",
        run.i.len(),
        run.q.len(),
        run.lost.len(),
        a.len(),
        m.len()
    );
    s.same(
        &inputs,
        &[("bits", &want.to_le_bytes()), ("result", &m), ("output", &a)],
        &[("bits", &got.to_le_bytes()), ("result", &n), ("output", &b)],
    );
    a.truncate(want as usize);
    if m.len() < RESULT_LENGTH {
        return (0, a, memory, 0);
    }
    (m[0], a, m[1], u32::from_le_bytes(m[2..RESULT_LENGTH].try_into().unwrap()))
}

// Inputs.

/// Numbers at which a level changes, each with its neighbours, and those that
/// are often forgotten: both zeros, subnormal ones, infinities, NaNs of both
/// signs with any digits.
fn edges() -> Vec<f32> {
    let mut bits: Vec<u32> = vec![0, 0x8000_0000, 0x007F_FFFF, 0x807F_FFFF, 0x0080_0000, 0x8080_0000];
    bits.extend([0x7F80_0000, 0xFF80_0000, 0x7F7F_FFFF, 0xFF7F_FFFF, 0x3F80_0000, 0xBF80_0000]);
    bits.extend([0x7F80_0001, 0x7FC0_0000, 0x7FFF_FFFF, 0xFF80_0001, 0xFFC0_0000, 0xFFFF_FFFF]);
    for threshold in [-0.75f32, -0.5, -0.25, 0.25, 0.5, 0.75] {
        bits.extend((0..5).map(|k| threshold.to_bits() - 2 + k));
    }
    // The neighbours of 0 are the smallest numbers.
    bits.extend([1, 2, 0x8000_0001, 0x8000_0002]);
    bits.into_iter().map(f32::from_bits).collect()
}

fn packets(r: &mut Xorshift, count: usize) -> Vec<u8> {
    let mut p = r.bytes(PACKET_LENGTH * count);
    p.iter_mut().step_by(PACKET_LENGTH).for_each(|byte| *byte = SYNC);
    p
}

fn codeword(r: &mut Xorshift) -> Vec<u8> {
    let data = match r.below(8) {
        0 => vec![0; PACKET_LENGTH],
        1 => vec![0xFF; PACKET_LENGTH],
        2 => {
            let mut sparse = vec![0; PACKET_LENGTH];
            sparse[r.below(PACKET_LENGTH)] = r.byte();
            sparse
        }
        _ => r.bytes(PACKET_LENGTH),
    };
    let mut block = vec![0; BLOCK_LENGTH];
    encode(&data, &mut block);
    block
}

/// Changes `count` different bytes among those from `low` to below `high`.
fn harm(r: &mut Xorshift, block: &mut [u8], count: usize, low: usize, high: usize) {
    for n in r.places(count, high - low) {
        block[low + n] ^= 1 + r.below(255) as u8;
    }
}

/// Coefficients, x^203 first, of x^exponent modulo g, in the sixteen check places.
fn remainder_of_power(exponent: usize) -> Vec<u8> {
    let mut data = vec![0; exponent - 15];
    data[0] = 1;
    let mut block = vec![0; BLOCK_LENGTH];
    block[PACKET_LENGTH..].copy_from_slice(&check_bytes(&data));
    block
}

fn times(a: u8, by: u8) -> u8 {
    reference::reed_solomon::multiply(a, by)
}

/// A count before the call that no answer gives.
fn count_before(r: &mut Xorshift) -> Vec<u8> {
    let length = if r.below(4) == 0 { 2 + r.below(20) } else { 2 };
    vec![0xA5; length]
}

fn output_of(r: &mut Xorshift, need: usize) -> Vec<u8> {
    let more = if r.below(2) == 0 { 0 } else { 1 + r.below(300) };
    r.bytes(need + more)
}

fn stage_kinds(s: &mut Score) {
    s.kind("randomize", 20_000, |s, r, case| {
        let packet = packets(r, 1);
        let output = output_of(r, 188);
        assert_eq!(randomize(s, case as u8 % 8, &packet, output), 0);
    });
    s.kind("derandomize", 20_000, |s, r, case| {
        let mut packet = packets(r, 1);
        packet[0] = [SYNC, INVERTED_SYNC, r.byte(), r.byte()][r.below(4)];
        let output = output_of(r, 188);
        assert_eq!(derandomize(s, case as u8 % 8, &packet, output), 0);
    });
    s.kind("randomize and derandomize: refusals", 256, |s, r, case| {
        // Every place, every first byte, and short room, alone and together.
        let place = case as u8;
        for length in [0, 1, 187, 188, 189, 204, 376] {
            for output in [0, 1, 187, 188, 189] {
                let mut packet = r.bytes(length);
                for first in [SYNC, INVERTED_SYNC, 0x46, case as u8] {
                    if length > 0 {
                        packet[0] = first;
                    }
                    for p in [place, case as u8 % 8] {
                        randomize(s, p, &packet, r.bytes(output));
                        derandomize(s, p, &packet, r.bytes(output));
                    }
                }
            }
        }
    });
    s.kind("rs_encode", 40_000, |s, r, case| {
        let mut data = if case % 4 == 0 { vec![0; 188] } else { r.bytes(188) };
        if case % 4 == 0 {
            // Each place with each of several values, alone.
            data[case as usize / 4 % 188] = r.byte();
        }
        let output = output_of(r, 204);
        rs_encode(s, &data, output);
    });
    s.kind("rs_encode: refusals", 410, |s, r, case| {
        for output in [0, 1, 187, 188, 203, 204, 205] {
            let data = r.bytes(case as usize);
            rs_encode(s, &data, r.bytes(output));
        }
        rs_encode(s, &[7; 188], r.bytes(case as usize));
    });
}

fn decode_kinds(s: &mut Score) {
    let mut seen = [0u64; 10];
    s.kind("rs_decode: 0 to 20 errors anywhere", 126_000, |s, r, case| {
        let sent = codeword(r);
        let mut block = sent.clone();
        harm(r, &mut block, case as usize % 21, 0, 204);
        let before = count_before(r);
        let (answer, count) = rs_decode(s, &block, before);
        if case % 21 <= 8 {
            let bits = sent.iter().zip(&block).map(|(a, b)| (a ^ b).count_ones()).sum::<u32>() as u8;
            assert_eq!((answer, &count[..2]), (0, &[(case % 21) as u8, bits][..]));
        }
        seen[if answer == 0 { count[0] as usize } else { 9 }] += 1;
    });
    if seen != [0; 10] {
        println!("  count 0 to 8, then no codeword: {seen:?}");
    }
    s.kind("rs_decode: errors crowded into the check bytes", 51_000, |s, r, case| {
        let mut block = codeword(r);
        harm(r, &mut block, case as usize % 17, 188, 204);
        if case % 3 == 0 {
            let more = r.below(4);
            harm(r, &mut block, more, 0, 188);
        }
        let before = count_before(r);
        rs_decode(s, &block, before);
    });
    s.kind("rs_decode: bursts", 40_000, |s, r, case| {
        let mut block = codeword(r);
        let length = 1 + case as usize % 20;
        let low = r.below(205 - length);
        for byte in &mut block[low..low + length] {
            *byte = match case % 3 {
                0 => 0,
                1 => !*byte,
                _ => r.byte(),
            };
        }
        let before = count_before(r);
        rs_decode(s, &block, before);
    });
    s.kind("rs_decode: random blocks", 20_000, |s, r, _| {
        let block = r.bytes(204);
        let before = count_before(r);
        rs_decode(s, &block, before);
    });
    let mut pulled = 0u64;
    s.kind("rs_decode: between two codewords", 30_000, |s, r, case| {
        // a + c g x^k is 17 bytes from a: part of the way, 8 from one of them,
        // 8 or more from the other, with a few bytes more harmed.
        let a = codeword(r);
        let mut other = a.clone();
        let mut word = vec![0; 188];
        let at = r.below(188);
        word[at] = 1 + r.below(255) as u8;
        let low_degree: Vec<u8> = reference::reed_solomon::generator().to_vec();
        for (k, g) in low_degree.iter().enumerate() {
            other[at + k] ^= times(*g, word[at]);
        }
        let differ: Vec<usize> = (0..204).filter(|&n| a[n] != other[n]).collect();
        assert_eq!(differ.len(), 17);
        let taken = case as usize % 18;
        let mut block = a.clone();
        for i in r.places(taken, 17) {
            block[differ[i]] = other[differ[i]];
        }
        if case % 4 == 3 {
            let more = r.below(3);
            harm(r, &mut block, more, 0, 204);
        }
        let before = count_before(r);
        let (answer, _) = rs_decode(s, &block, before);
        if answer == 0 && taken >= 9 {
            pulled += 1;
        }
    });
    if pulled > 0 {
        println!("  drawn to the other codeword: {pulled}");
    }
    s.kind("rs_decode: all ways to clear eight of the 17 bytes", 24_310, |s, _, case| {
        let mut block = vec![0; 204];
        block[187] = 1;
        block[188..].copy_from_slice(&reference::reed_solomon::generator()[1..]);
        let whole = block.clone();
        // The case-th set of eight of seventeen, in order.
        let (mut left, mut rank) = (8u64, case);
        for n in 0..17u64 {
            let without = choose(16 - n, left);
            if rank >= without {
                rank -= without;
                left -= 1;
                block[187 + n as usize] = 0;
            }
        }
        assert_eq!(left, 0);
        // The other nine cleared: eight from the zero block. Either way the bits
        // of the same eight bytes are changed.
        let rest: Vec<u8> = block.iter().zip(&whole).map(|(b, w)| b ^ w).collect();
        let bits = rest.iter().map(|b| b.count_ones()).sum::<u32>() as u8;
        assert_eq!(rs_decode(s, &block, vec![0xA5; 2]), (0, vec![8, bits]));
        assert_eq!(rs_decode(s, &rest, vec![0xA5; 2]), (0, vec![8, bits]));
    });
    let mut refused = 0u64;
    s.kind("rs_decode: errors among the 51 bytes never sent", 30_000, |s, r, case| {
        // A codeword of RS(255,239) whose first 51 bytes are not all zero, cut
        // to 204 bytes: 1 to 8 of its places are hidden, others are harmed.
        let hidden = 1 + case as usize / 51 % 8;
        let mut block = if case < 51 || r.below(4) == 0 { vec![0; 204] } else { codeword(r) };
        let mut first = true;
        for k in r.places(hidden, 51) {
            let k = if first && hidden == 1 { case as usize % 51 } else { k };
            first = false;
            let value = if case < 51 { 1 } else { 1 + r.below(255) as u8 };
            for (b, c) in block.iter_mut().zip(remainder_of_power(204 + k)) {
                *b ^= times(c, value);
            }
        }
        let seen = if case < 2_000 { 0 } else { r.below(10 - hidden) };
        harm(r, &mut block, seen, 0, 204);
        let before = count_before(r);
        refused += (rs_decode(s, &block, before).0 == 8) as u64;
    });
    if refused > 0 {
        println!("  no codeword: {refused}");
    }
    let mut accepted = 0u64;
    s.kind("rs_decode: every root of g but one", 24_000, |s, r, case| {
        // A codeword plus a multiple of g / (x + lambda^m): one syndrome alone is
        // not zero. With up to eight bytes harmed on top.
        let m = case as usize % 16;
        let root = (0..m).fold(1, |power, _| times(power, 2));
        let factor = 1 + r.below(255) as u8;
        let at = r.below(189);
        let mut block = codeword(r);
        let mut coefficient = 0;
        for (k, g) in reference::reed_solomon::generator()[..16].iter().enumerate() {
            coefficient = g ^ times(coefficient, root);
            block[at + k] ^= times(coefficient, factor);
        }
        harm(r, &mut block, case as usize / 16 % 9, 0, 204);
        let before = count_before(r);
        accepted += (rs_decode(s, &block, before).0 == 0) as u64;
    });
    if accepted > 0 {
        println!("  within eight of a codeword all the same: {accepted}");
    }
    s.kind("rs_decode: refusals", 410, |s, r, case| {
        for count in [0, 1, 2, 3] {
            let block = r.bytes(case as usize);
            rs_decode(s, &block, vec![0xA5; count]);
        }
        let block = codeword(r);
        rs_decode(s, &block, vec![0xA5; case as usize % 4]);
    });
}

/// Marks on so many bytes, of which one in four is right all the same, and errors
/// in other bytes.
fn doubt(r: &mut Xorshift, block: &mut [u8], marked: usize, errors: usize) -> Vec<u8> {
    let mut marks = vec![0; BLOCK_LENGTH];
    for (i, n) in r.places(marked + errors, BLOCK_LENGTH).into_iter().enumerate() {
        marks[n] = (i < marked) as u8;
        if i >= marked || r.below(4) > 0 {
            block[n] ^= 1 + r.below(255) as u8;
        }
    }
    marks
}

fn marked_kinds(s: &mut Score) {
    let mut seen = [0u64; 2];
    s.kind("rs_decode_marked: 0 to 18 marks, errors on either side of the line", 19 * 6_000, |s, r, case| {
        let marked = case as usize % 19;
        let errors = (16usize.saturating_sub(marked) / 2 + case as usize / 19 % 5).saturating_sub(2);
        let sent = codeword(r);
        let mut block = sent.clone();
        let marks = doubt(r, &mut block, marked, errors);
        let before = count_before(r);
        let (answer, count, left) = rs_decode_marked(s, &block, &marks, before);
        let within = 2 * errors + marked <= 16;
        if within {
            let bytes = sent.iter().zip(&block).filter(|(a, b)| a != b).count() as u8;
            let bits = sent.iter().zip(&block).map(|(a, b)| (a ^ b).count_ones()).sum::<u32>() as u8;
            assert_eq!((answer, &count[..2], &left), (0, &[bytes, bits][..], &sent));
        }
        if marked > 16 {
            assert_eq!((answer, &left), (8, &block));
        }
        seen[within as usize] += 1;
    });
    if seen != [0; 2] {
        println!("  beyond the line, within it: {seen:?}");
    }
    s.kind("rs_decode_marked: any marks and errors", 60_000, |s, r, case| {
        let mut block = if case % 10 == 9 { r.bytes(BLOCK_LENGTH) } else { codeword(r) };
        let (marked, errors) = (r.below(20), r.below(12));
        let mut marks = doubt(r, &mut block, marked, errors);
        if case % 5 == 0 {
            // Crowded into the check bytes, or all over.
            let (low, high) = [(188, 204), (0, 204), (100, 120)][r.below(3)];
            marks.fill(0);
            let count = r.below(high - low + 1).min(18);
            r.places(count, high - low).into_iter().for_each(|n| marks[low + n] = 1);
        }
        let before = count_before(r);
        rs_decode_marked(s, &block, &marks, before);
    });
    let mut drawn = 0u64;
    s.kind("rs_decode_marked: between two codewords", 40_000, |s, r, case| {
        // Two codewords 17 bytes apart: f of these bytes marked, of the others part of the way.
        let a = codeword(r);
        let at = r.below(188);
        let factor = 1 + r.below(255) as u8;
        let mut other = a.clone();
        for (k, g) in reference::reed_solomon::generator().iter().enumerate() {
            other[at + k] ^= times(*g, factor);
        }
        let (marked, taken) = (case as usize % 18, case as usize / 18 % 18);
        let mut block = a.clone();
        let mut marks = vec![0; BLOCK_LENGTH];
        for (i, k) in r.places(17, 17).into_iter().enumerate() {
            if i < marked {
                marks[at + k] = 1;
                block[at + k] = [a[at + k], other[at + k], r.byte()][r.below(3)];
            } else if i < marked + taken {
                block[at + k] = other[at + k];
            }
        }
        let before = count_before(r);
        let (answer, _, left) = rs_decode_marked(s, &block, &marks, before);
        drawn += (answer == 0 && left == other) as u64;
    });
    if drawn > 0 {
        println!("  drawn to the other codeword: {drawn}");
    }
    s.kind("rs_decode_marked: no marks, as rs_decode", 20_000, |s, r, case| {
        let mut block = codeword(r);
        harm(r, &mut block, case as usize % 12, 0, 204);
        let (answer, count, left) = rs_decode_marked(s, &block, &[0; 204], vec![0xA5; 2]);
        let (mut same, mut told) = (block, vec![0xA5; 2]);
        assert_eq!(library::rs_decode(&mut same, &mut told), answer);
        assert_eq!((same, told), (left, count));
    });
    s.kind("rs_decode_marked: refusals", 410, |s, r, case| {
        for length in [case as usize, 204] {
            for count in [0, 1, 2, 3] {
                let block = if length == 204 { codeword(r) } else { r.bytes(length) };
                // Too few marks, too many, as many as the block has bytes; and one that is no mark.
                for many in [0, 203, 204, 205, case as usize] {
                    let marks: Vec<u8> = (0..many).map(|_| (r.below(40) == 0) as u8).collect();
                    rs_decode_marked(s, &block, &marks, vec![0xA5; count]);
                }
                let mut marks = vec![0; 204];
                marks[r.below(204)] = [2, 3, 0x80, 0xFF][case as usize % 4];
                rs_decode_marked(s, &block, &marks, vec![0xA5; count]);
            }
        }
    });
    let mut total = [0u64; 8];
    s.kind("receive_run_marked: harmed bytes, most of them marked", 240, |s, r, case| {
        let count = 20 + r.below(120);
        let p = packets(r, count);
        let mut stream = interleaved_stream(&p);
        let rest = r.below(204);
        stream.extend(r.bytes(rest));
        // One byte in 8 to one in 200 wrong; of them and of the others some marked.
        let one_in = 8 + r.below(12) * (case as usize % 17);
        let missed = 1 + r.below(20);
        let false_marks = 30 + r.below(3000);
        let marks: Vec<u8> = stream
            .iter_mut()
            .map(|byte| {
                if r.below(one_in) == 0 {
                    *byte = r.byte();
                    (r.below(missed) > 0) as u8
                } else {
                    (r.below(false_marks) == 0) as u8
                }
            })
            .collect();
        let output = output_of(r, stream.len() / 204 * 188);
        let (_, answer, counts) = receive_run_marked(s, &stream, &marks, output, vec![0xA5; COUNTS_LENGTH], vec![0xA5]);
        assert_eq!(answer, [0]);
        for (sum, bytes) in total.iter_mut().zip(counts.chunks_exact(8)) {
            *sum += u64::from_le_bytes(bytes.try_into().unwrap());
        }
    });
    if total != [0; 8] {
        println!("  taken, filling, delivered, lost, waiting, outofstep, changed, bits: {total:?}");
    }
    s.kind("receive_run_marked: a burst of 192 bytes, marked", 2448, |s, r, case| {
        // At most sixteen bytes of a block, all marked: none is lost.
        let p = packets(r, 40);
        let mut stream = interleaved_stream(&p);
        let mut marks = vec![0; stream.len()];
        let start = 12 * 204 + case as usize;
        for n in start..start + 192 {
            stream[n] ^= 1 + r.below(255) as u8;
            marks[n] = 1;
        }
        let (got, answer, _) = receive_run_marked(s, &stream, &marks, vec![0xA5; 40 * 188], vec![0xA5; COUNTS_LENGTH], vec![0xA5]);
        assert_eq!(answer, [0]);
        assert_eq!(got, p[..29 * 188]);
    });
    s.kind("receive_run_marked: no marks, as receive_run", 60, |s, r, case| {
        let p = packets(r, 30);
        let mut stream = interleaved_stream(&p);
        stream.iter_mut().for_each(|byte| if r.below(40 + case as usize) == 0 { *byte = r.byte() });
        let none = vec![0; stream.len()];
        let (got, _, counts) = receive_run_marked(s, &stream, &none, vec![0xA5; 30 * 188], vec![0xA5; COUNTS_LENGTH], vec![0xA5]);
        let (mut output, mut told, mut answer) = (vec![0xA5; 30 * 188], vec![0xA5; COUNTS_LENGTH], vec![0xA5]);
        let written = library::receive_run(&stream, &mut output, &mut told, &mut answer);
        output.truncate(written as usize);
        assert_eq!((output, told), (got, counts));
    });
    s.kind("receive_run_marked: refusals", 60, |s, r, case| {
        let count = case as usize % 20;
        let p = packets(r, count);
        let mut stream = interleaved_stream(&p);
        let rest = [0, 1, 203][case as usize % 3];
        stream.extend(r.bytes(rest));
        let good = vec![0; stream.len()];
        let mut bad = good.clone();
        if let Some(last) = bad.last_mut() {
            *last = 2;
        }
        let mut longer = good.clone();
        longer.push(0);
        for marks in [&good[..], &bad, &longer, &good[..good.len().saturating_sub(1)], &[]] {
            for (counts, answer) in [0, 63, 64, 65].into_iter().flat_map(|c| [0, 1, 2].map(|a| (c, a))) {
                for output in [188 * count, (188 * count).saturating_sub(1), 0] {
                    let output = r.bytes(output);
                    receive_run_marked(s, &stream, marks, output, vec![0xA5; counts], vec![0xA5; answer]);
                }
            }
        }
    });
}

fn choose(n: u64, k: u64) -> u64 {
    (0..k).fold(1, |c, i| c * n.saturating_sub(i) / (i + 1))
}

fn symbols_of(rate: u8, count: usize) -> usize {
    Sender::fresh(rate).ok().map_or(0, |sender| sender.symbols_due(count))
}

fn send_kinds(s: &mut Score) {
    let kinds = ["send_run at 1/2", "send_run at 2/3", "send_run at 3/4", "send_run at 5/6", "send_run at 16QAM 3/4"];
    for (rate, kind) in SENT.into_iter().zip(kinds) {
        let mut sent = 0;
        s.kind(kind, 60, |s, r, case| {
            // 0 to 49 packets one by one, then longer lists.
            let count = if case < 50 { case as usize } else { 50 + r.below(150) };
            let p = packets(r, count);
            let need = symbols_of(rate, count);
            let output = output_of(r, need);
            let (answer, symbols) = send_run(s, rate, &p, output, vec![0xA5; 1 + case as usize % 3]);
            assert_eq!((answer, symbols as usize), (0, need));
            sent += count;
            if need > 0 {
                send_run(s, rate, &p, r.bytes(need - 1), vec![0xA5]);
            }
        });
        if sent > 0 {
            println!("  packets: {sent}");
        }
    }
    s.kind("send_run: null packets put in", 256 + 24, |s, r, case| {
        // Every mix of packets with and without the sync byte in a group, then longer lists.
        let count = if case < 256 { 8 } else { 9 + r.below(90) };
        let bad: Vec<bool> = (0..count).map(|n| if case < 256 { case >> n & 1 == 1 } else { r.below(3) == 0 }).collect();
        let mut list = packets(r, count);
        for n in (0..count).filter(|&n| bad[n]) {
            list[188 * n] = r.not_sync();
        }
        for rate in SENT {
            let need = symbols_of(rate, count);
            let output = output_of(r, need);
            let (answer, symbols) = send_run(s, rate, &list, output, vec![0xA5]);
            assert_eq!((answer, symbols as usize), (if bad.contains(&true) { 15 } else { 0 }, need));
            send_run(s, rate, &list, r.bytes(need - 1), vec![0xA5]);
        }
    });
    s.kind("send_run: refusals", 256, |s, r, case| {
        // Every mode with each of the other refusals, alone and together.
        let count = 1 + case as usize % 10;
        for rate in [case as u8, case as u8 % 6] {
            let need = symbols_of(if SENT.contains(&rate) { rate } else { 0 }, count);
            let good = packets(r, count);
            let mut wrong = good.clone();
            wrong[188 * r.below(count)] = r.not_sync();
            let short = &good[..188 * count - 1 - r.below(187)];
            let mut longer = good.clone();
            let more = 1 + r.below(187);
            longer.extend(r.bytes(more));
            let mut both = wrong.clone();
            both.push(SYNC);
            for list in [&good[..], &wrong, short, &longer, &both, &[]] {
                for output in [need + 5, need, need - 1, r.below(need), 0] {
                    for answer in [0, 1, 2] {
                        send_run(s, rate, list, r.bytes(output), vec![0xA5; answer]);
                    }
                }
            }
        }
    });
}

/// GNU Radio's symbols for forty packets at the five rates.
const OUTSIDE: [&[u8]; 5] = [
    include_bytes!("../../tests/data/symbols_rate0.bin"),
    include_bytes!("../../tests/data/symbols_rate1.bin"),
    include_bytes!("../../tests/data/symbols_rate2.bin"),
    include_bytes!("../../tests/data/symbols_rate3.bin"),
    include_bytes!("../../tests/data/symbols_rate4.bin"),
];

fn read_kinds(s: &mut Score) {
    let bits = |r: &mut Xorshift, count: usize| (0..count).map(|_| r.byte() & 1).collect::<Vec<u8>>();
    let random = |r: &mut Xorshift, count: usize| (0..count).map(|_| r.byte() & 3).collect::<Vec<u8>>();
    let symbols_in = |rate: u8, count: usize| InnerCoder::after(rate, 0).symbols_due(count);
    // Short runs, where the reference tries every sequence of bits.
    s.kind("read_run: short runs of random symbols", 8_000, |s, r, case| {
        let rate = case as u8 % 5;
        let length = InnerCoder::pattern_length(rate);
        let count = length * r.below(12 / length + 1);
        let symbols = random(r, symbols_in(rate, count));
        let output = output_of(r, count);
        read_run(s, rate, r.byte() % 64, &symbols, output, vec![0xA5; RESULT_LENGTH + case as usize % 3]);
    });
    s.kind("read_run: all runs of at most five bits at 1/2", 64, |s, _, case| {
        for count in 0..6usize {
            for number in 0..1usize << (2 * count) {
                let symbols: Vec<u8> = (0..count).map(|i| (number >> (2 * i) & 3) as u8).collect();
                read_run(s, 0, case as u8, &symbols, vec![0xA5; count], vec![0xA5; RESULT_LENGTH]);
            }
        }
    });
    let mut worst = 0;
    s.kind("read_run: random symbols, where nothing was sent", 400, |s, r, case| {
        let rate = case as u8 % 5;
        let length = InnerCoder::pattern_length(rate);
        let patterns = if case < 20 { LONGEST / length } else { r.below(LONGEST / length + 1) };
        let symbols = random(r, symbols_in(rate, length * patterns));
        let output = output_of(r, length * patterns);
        worst = worst.max(read_run(s, rate, r.byte() % 64, &symbols, output, vec![0xA5; RESULT_LENGTH]).3);
    });
    if worst > 0 {
        println!("  most differing bits: {worst}");
    }
    s.kind("read_run: constant symbols, full of ties", 320, |s, r, case| {
        let rate = case as u8 % 5;
        let length = InnerCoder::pattern_length(rate);
        let count = length * r.below(LONGEST / length + 1);
        let two = [case as u8 / 5 % 4, r.byte() % 4];
        let period = 1 + r.below(4);
        let symbols: Vec<u8> = (0..symbols_in(rate, count)).map(|i| two[(i % period == 0) as usize]).collect();
        let output = output_of(r, count);
        read_run(s, rate, r.byte() % 64, &symbols, output, vec![0xA5; RESULT_LENGTH]);
    });
    let (mut read, mut whole) = (0u64, 0u64);
    s.kind("read_run: sent and harmed", 1_000, |s, r, case| {
        // One I or Q bit in 2 to one in 60 wrong, or none; now and then a burst.
        let rate = case as u8 % 5;
        let length = InnerCoder::pattern_length(rate);
        let patterns = if case < 10 { LONGEST / length } else { r.below(LONGEST / length + 1) };
        let sent = bits(r, length * patterns);
        let memory = r.byte() % 64;
        let mut coder = InnerCoder::after(rate, memory);
        let mut symbols = coder.code_bits(&sent);
        let one_in = [0, 2, 5, 10, 20, 40, 60][r.below(7)];
        let unharmed = symbols.clone();
        for symbol in symbols.iter_mut() {
            for bit in [1, 2] {
                if one_in > 0 && r.below(one_in) == 0 {
                    *symbol ^= bit;
                }
            }
        }
        if case % 7 == 0 && !symbols.is_empty() {
            let low = r.below(symbols.len());
            let high = (low + r.below(40)).min(symbols.len());
            symbols[low..high].fill(0);
        }
        let harmed: u32 = symbols.iter().zip(&unharmed).map(|(a, b)| (a ^ b).count_ones()).sum();
        let output = output_of(r, sent.len());
        let (answer, got, after, differing) = read_run(s, rate, memory, &symbols, output, vec![0xA5; RESULT_LENGTH]);
        assert_eq!(answer, 0);
        assert!(differing <= harmed);
        if harmed == 0 {
            assert_eq!((&got, after, differing), (&sent, coder.memory(), 0));
        }
        read += 1;
        whole += (got == sent) as u64;
    });
    if read > 0 {
        println!("  runs: {read}, read as sent: {whole}");
    }
    s.kind("read_run: GNU Radio's symbols", 15, |s, r, case| {
        // Cut into runs of whole patterns at random, each with the memory of the run before.
        let rate = case as u8 % 5;
        let length = InnerCoder::pattern_length(rate);
        let per_pattern = symbols_in(rate, length);
        let stream = interleaved_stream(include_bytes!("../../tests/data/packets.ts"));
        let sent: Vec<u8> = stream.iter().flat_map(|byte| (0..8).rev().map(move |k| byte >> k & 1)).collect();
        let mut rest = &OUTSIDE[rate as usize][..];
        let (mut memory, mut got) = (0, Vec::new());
        while rest.len() >= per_pattern {
            let most = (LONGEST / length).min(rest.len() / per_pattern);
            let patterns = if case < 5 { most } else { 1 + r.below(most) };
            let (run, behind) = rest.split_at(per_pattern * patterns);
            let (answer, bits, after, differing) =
                read_run(s, rate, memory, run, vec![0xA5; length * patterns], vec![0xA5; RESULT_LENGTH]);
            assert_eq!((answer, differing), (0, 0));
            got.extend(bits);
            memory = after;
            rest = behind;
        }
        assert_eq!(got, sent[..sent.len() / length * length]);
    });
    s.kind("read_run: refusals", 256, |s, r, case| {
        // Every rate and every memory, with each of the other refusals, alone and together.
        for rate in [case as u8, case as u8 % 5] {
            let known = rate % 5;
            let length = InnerCoder::pattern_length(known);
            let per_pattern = symbols_in(known, length);
            let most = LONGEST / length;
            for memory in [case as u8, case as u8 % 64] {
                for patterns in [0, 1, most, most + 1] {
                    for more in [0, 1, per_pattern - 1] {
                        let mut symbols = random(r, per_pattern * patterns + more);
                        if r.below(2) == 0 && !symbols.is_empty() {
                            let at = r.below(symbols.len());
                            symbols[at] = [4, 255, 4 + r.byte() % 252][r.below(3)];
                        }
                        let count = length * patterns;
                        // The longest ones are read by the other kinds: the reference takes its time for them.
                        let mut outputs = vec![count.saturating_sub(1), 0];
                        if patterns < most {
                            outputs.extend([count, count + 3]);
                        }
                        for output in outputs {
                            for result in [0, 5, 6, 7] {
                                read_run(s, rate, memory, &symbols, r.bytes(output), vec![0xA5; result]);
                            }
                        }
                    }
                }
            }
        }
    });
}

fn read_soft_kinds(s: &mut Score) {
    let random = |r: &mut Xorshift, count: usize| (0..count).map(|_| r.byte() & 3).collect::<Vec<u8>>();
    let symbols_in = |rate: u8, count: usize| InnerCoder::after(rate, 0).symbols_due(count);
    let edges = edges();
    // 1.0 is sent for 0, and -1.0 for 1.
    let signal = |bit: u8| 1.0 - 2.0 * bit as f32;
    // One number alone says its level: the other is NaN, so that the cheaper bit and what it costs are told.
    s.kind("read_soft_run: every edge with every other", edges.len() as u64, |s, _, case| {
        let i = edges[case as usize];
        for &q in &edges {
            for lost in [0, 1] {
                for memory in [0, 1, 33, 63] {
                    let run = Received { i: vec![i], q: vec![q], lost: vec![lost] };
                    read_soft_run(s, 0, memory, &run, vec![0xA5; 2], vec![0xA5; RESULT_LENGTH]);
                }
            }
        }
    });
    s.kind("read_soft_run: numbers of any pattern", 200, |s, r, _| {
        for _ in 0..500 {
            let mut number = || f32::from_bits(r.next() as u32);
            let (i, q) = (number(), number());
            let near = 1.5 * (r.below(1 << 24) as f32 / (1 << 23) as f32 - 1.0);
            for (i, q) in [(i, f32::NAN), (f32::NAN, q), (near, f32::NAN), (i, near)] {
                let run = Received { i: vec![i], q: vec![q], lost: vec![0] };
                read_soft_run(s, 0, r.byte() % 64, &run, vec![0xA5; 1], vec![0xA5; RESULT_LENGTH]);
            }
        }
    });
    let anything = |r: &mut Xorshift, count: usize| {
        // One symbol in `one_in` lost; some at an edge.
        let one_in = [1, 2, 5, 100][r.below(4)];
        let number = |r: &mut Xorshift| match r.below(4) {
            0 => edges[r.below(edges.len())],
            _ => 1.25 * (r.below(1 << 24) as f32 / (1 << 23) as f32 - 1.0),
        };
        Received {
            i: (0..count).map(|_| number(r)).collect(),
            q: (0..count).map(|_| number(r)).collect(),
            lost: (0..count).map(|_| (r.below(one_in) == 0) as u8).collect(),
        }
    };
    s.kind("read_soft_run: short runs of anything", 8_000, |s, r, case| {
        let rate = case as u8 % 5;
        let length = InnerCoder::pattern_length(rate);
        let count = length * r.below(12 / length + 1);
        let run = anything(r, symbols_in(rate, count));
        let output = output_of(r, count);
        read_soft_run(s, rate, r.byte() % 64, &run, output, vec![0xA5; RESULT_LENGTH + case as usize % 3]);
    });
    s.kind("read_soft_run: anything, where nothing was sent", 200, |s, r, case| {
        let rate = case as u8 % 5;
        let length = InnerCoder::pattern_length(rate);
        let patterns = if case < 10 { LONGEST / length } else { r.below(LONGEST / length + 1) };
        let run = anything(r, symbols_in(rate, length * patterns));
        let output = output_of(r, length * patterns);
        read_soft_run(s, rate, r.byte() % 64, &run, output, vec![0xA5; RESULT_LENGTH]);
    });
    s.kind("read_soft_run: every symbol lost", 320, |s, r, case| {
        let rate = case as u8 % 5;
        let length = InnerCoder::pattern_length(rate);
        let count = length * if case < 60 { case as usize / 5 } else { r.below(LONGEST / length + 1) };
        let mut run = anything(r, symbols_in(rate, count));
        run.lost.fill(1);
        let memory = r.byte() % 64;
        let output = output_of(r, count);
        let told = read_soft_run(s, rate, memory, &run, output, vec![0xA5; RESULT_LENGTH]);
        assert_eq!(told, (0, vec![0; count], memory.checked_shr(count as u32).unwrap_or(0), 0));
    });
    s.kind("read_soft_run: points of 1.0 and -1.0, and read_run", 600, |s, r, case| {
        let rate = case as u8 % 5;
        let length = InnerCoder::pattern_length(rate);
        let patterns = if case < 5 { LONGEST / length } else { r.below(LONGEST / length / 4 + 1) };
        let symbols = random(r, symbols_in(rate, length * patterns));
        let run = Received {
            i: symbols.iter().map(|s| signal(s >> 1)).collect(),
            q: symbols.iter().map(|s| signal(s & 1)).collect(),
            lost: vec![0; symbols.len()],
        };
        let memory = r.byte() % 64;
        let output = output_of(r, length * patterns);
        // Of the library's two functions one against the other, and then each against the reference.
        let (mut a, mut b) = (output.clone(), output.clone());
        let (mut m, mut n) = ([0xA5; RESULT_LENGTH], [0xA5; RESULT_LENGTH]);
        let hard = library::read_run(rate, memory, &symbols, &mut a, &mut m);
        let soft = library::read_soft_run(rate, memory, &run.i, &run.q, &run.lost, &mut b, &mut n);
        let number = |result: &[u8]| u32::from_le_bytes(result[2..RESULT_LENGTH].try_into().unwrap());
        assert_eq!((hard, &a, &m[..2], 7 * number(&m)), (soft, &b, &n[..2], number(&n)));
        read_soft_run(s, rate, memory, &run, output, vec![0xA5; RESULT_LENGTH]);
    });
    let (mut read, mut whole, mut hard_whole) = (0u64, 0u64, 0u64);
    s.kind("read_soft_run: sent with noise", 600, |s, r, case| {
        let rate = case as u8 % 5;
        let length = InnerCoder::pattern_length(rate);
        let patterns = if case < 10 { LONGEST / length } else { r.below(LONGEST / length + 1) };
        let sent: Vec<u8> = (0..length * patterns).map(|_| r.byte() & 1).collect();
        let memory = r.byte() % 64;
        let mut coder = InnerCoder::after(rate, memory);
        let symbols = coder.code_bits(&sent);
        // A sum of twelve is near enough to a normal distribution.
        let strength = [0.0, 0.2, 0.4, 0.6, 0.8][r.below(5)];
        let noise = |r: &mut Xorshift| strength * ((0..12).map(|_| r.below(1 << 20) as f32).sum::<f32>() / (1 << 20) as f32 - 6.0);
        let one_in = [0, 0, 50, 10][r.below(4)];
        let run = Received {
            i: symbols.iter().map(|s| signal(s >> 1) + noise(r)).collect(),
            q: symbols.iter().map(|s| signal(s & 1) + noise(r)).collect(),
            lost: symbols.iter().map(|_| (one_in > 0 && r.below(one_in) == 0) as u8).collect(),
        };
        let output = output_of(r, sent.len());
        let (answer, got, after, cost) = read_soft_run(s, rate, memory, &run, output, vec![0xA5; RESULT_LENGTH]);
        assert_eq!(answer, 0);
        if strength == 0.0 && one_in == 0 {
            assert_eq!((&got, after, cost), (&sent, coder.memory(), 0));
        }
        // What hard decisions make of the same: with nothing known of a lost symbol, it is taken for 0.
        let decided: Vec<u8> = (0..symbols.len())
            .map(|k| if run.lost[k] == 1 { 0 } else { 2 * (run.i[k] < 0.0) as u8 + (run.q[k] < 0.0) as u8 })
            .collect();
        let (mut bits, mut result) = (vec![0; sent.len()], [0; RESULT_LENGTH]);
        library::read_run(rate, memory, &decided, &mut bits, &mut result);
        read += 1;
        whole += (got == sent) as u64;
        hard_whole += (bits == sent) as u64;
    });
    if read > 0 {
        println!("  runs: {read}, read as sent: {whole}, by hard decisions: {hard_whole}");
    }
    s.kind("read_soft_run: refusals", 256, |s, r, case| {
        for rate in [case as u8, case as u8 % 5] {
            let known = rate % 5;
            let length = InnerCoder::pattern_length(known);
            let per_pattern = symbols_in(known, length);
            let most = LONGEST / length;
            for memory in [case as u8, case as u8 % 64] {
                for patterns in [0, 1, most, most + 1] {
                    for more in [0, 1, per_pattern - 1] {
                        let mut run = anything(r, per_pattern * patterns + more);
                        match r.below(8) {
                            0 => run.i.push(0.0),
                            1 => run.q.push(0.0),
                            2 => run.lost.push(0),
                            3 => drop(run.lost.pop()),
                            4 if !run.lost.is_empty() => {
                                let at = r.below(run.lost.len());
                                run.lost[at] = [2, 255, 2 + r.byte() % 254][r.below(3)];
                            }
                            _ => {}
                        }
                        let count = length * patterns;
                        let mut outputs = vec![count.saturating_sub(1), 0];
                        if patterns < most {
                            outputs.extend([count, count + 3]);
                        }
                        for output in outputs {
                            for result in [0, 5, 6, 7] {
                                read_soft_run(s, rate, memory, &run, r.bytes(output), vec![0xA5; result]);
                            }
                        }
                    }
                }
            }
        }
    });
}

/// Codewords through the sender's delays; sync bytes as given.
fn stream_of(blocks: &[Vec<u8>]) -> Vec<u8> {
    let mut branches = Branches::interleaver();
    let mut stream = Vec::new();
    for block in blocks {
        let mut out = [0; BLOCK_LENGTH];
        branches.pass(block, &mut out);
        stream.extend(out);
    }
    stream
}

/// Receives a stream from any of its blocks on, with bursts of wrong bytes from these bytes on; all are in blocks that are corrected.
/// The packets that came, those that come where nothing is lost, and the counts.
fn burst_from(s: &mut Score, r: &mut Xorshift, length: usize, starts: &[usize]) -> (Vec<u8>, Vec<u8>, [u64; 8]) {
    let from = r.below(16);
    let blocks = (starts[starts.len() - 1] + length) / 204 + 13;
    let p = packets(r, from + blocks);
    let mut stream = interleaved_stream(&p).split_off(204 * from);
    for start in starts {
        harm(r, &mut stream, length, *start, start + length);
    }
    let output = output_of(r, stream.len() / 204 * 188);
    let (got, eight) = receive_run(s, &stream, output, vec![0xA5; COUNTS_LENGTH]);
    let first = (from + 7) / 8 * 8;
    (got, p[188 * first..188 * (from + blocks - 11)].to_vec(), eight)
}

fn receive_kinds(s: &mut Score) {
    let mut total = [0u64; 8];
    let mut add = |eight: [u64; 8]| total.iter_mut().zip(eight).for_each(|(t, c)| *t += c);
    let output_for = |r: &mut Xorshift, stream: &[u8]| output_of(r, stream.len() / 204 * 188);

    s.kind("receive_run: unharmed", 80, |s, r, case| {
        let count = if case < 60 { case as usize } else { 60 + r.below(200) };
        let p = packets(r, count);
        let mut stream = interleaved_stream(&p);
        let rest = r.below(204);
        stream.extend(r.bytes(rest));
        let output = output_for(r, &stream);
        let (got, eight) = receive_run(s, &stream, output, vec![0xA5; COUNTS_LENGTH + case as usize % 3]);
        assert_eq!(got, p[..188 * count.saturating_sub(11)]);
        add(eight);
    });
    s.kind("receive_run: rest of 0 to 203 bytes", 204, |s, r, case| {
        let p = packets(r, 14);
        let mut stream = interleaved_stream(&p);
        stream.truncate(13 * 204 + case as usize);
        let output = output_for(r, &stream);
        add(receive_run(s, &stream, output, vec![0xA5; COUNTS_LENGTH]).1);
        // And no whole block at all.
        let output = output_of(r, 0);
        add(receive_run(s, &stream[..case as usize], output, vec![0xA5; COUNTS_LENGTH]).1);
    });
    s.kind("receive_run: harmed bytes", 160, |s, r, case| {
        let count = 20 + r.below(120);
        let p = packets(r, count);
        let mut stream = interleaved_stream(&p);
        // One byte in 15 to one byte in 400, and bursts.
        let one_in = 15 + r.below(25) * (case as usize % 17);
        for byte in stream.iter_mut() {
            if r.below(one_in) == 0 {
                *byte = r.byte();
            }
        }
        for _ in 0..case % 5 {
            let length = 1 + r.below(1500);
            let low = r.below(stream.len());
            let high = (low + length).min(stream.len());
            stream[low..high].iter_mut().for_each(|byte| *byte = r.byte());
        }
        let output = output_for(r, &stream);
        add(receive_run(s, &stream, output, vec![0xA5; COUNTS_LENGTH]).1);
    });
    s.kind("receive_run: from inside a group", 120, |s, r, case| {
        let count = 24 + r.below(60);
        let p = packets(r, count);
        let stream = interleaved_stream(&p);
        let from = case as usize % 24;
        let output = output_for(r, &stream[204 * from..]);
        add(receive_run(s, &stream[204 * from..], output, vec![0xA5; COUNTS_LENGTH]).1);
    });
    // Bursts of 96 bytes, at every offset of twelve blocks and as near to each other as document 02, P9, allows: none in 2,448
    // bytes with another, so 2,448 bytes from the last wrong one to the next. Every packet is given.
    s.kind("receive_run: bursts of 96 bytes", 2448, |s, r, case| {
        let starts = [0, 95 + 2448].map(|at| 2448 + case as usize + at);
        let (got, sent, eight) = burst_from(s, r, 96, &starts);
        assert_eq!(got, sent);
        assert_eq!([eight[3], eight[5], eight[6]], [0, 0, 2 * 96], "{eight:?}");
        add(eight);
    });
    // One of 97. Bytes of one block that arrive together are twelve apart, and thirteen where they cross from one received block into
    // the next; so nine of them are wrong exactly where all 97 are in one received block.
    s.kind("receive_run: a burst of 97 bytes", 2448, |s, r, case| {
        // From the twenty-first block on, so that the place in the group is known when one is lost.
        let start = 20 * 204 + case as usize;
        let (got, sent, eight) = burst_from(s, r, 97, &[start]);
        if start % 204 + 97 <= 204 {
            assert_eq!([eight[3], eight[6]], [1, 88], "{eight:?}");
            assert_eq!(got.len() + 188, sent.len());
        } else {
            assert_eq!([eight[3], eight[6]], [0, 97], "{eight:?}");
            assert_eq!(got, sent);
        }
        add(eight);
    });
    s.kind("receive_run: blocks dropped, doubled or strange", 160, |s, r, case| {
        // Cut before the delays, so that the blocks stay codewords and the
        // place goes wrong; or after them, so that they are lost as well.
        let count = 40 + r.below(160);
        let p = packets(r, count);
        let mut place = 0;
        let mut blocks = Vec::new();
        for packet in p.chunks_exact(188) {
            let mut data = [0; 188];
            reference::randomizer::randomize(place, packet, &mut data);
            place = (place + 1) % 8;
            if r.below(25) == 0 {
                data[0] = [SYNC, INVERTED_SYNC, 0, r.byte()][r.below(4)];
            }
            let mut block = vec![0; 204];
            encode(&data, &mut block);
            let errors = [0, 0, 0, 1, 4, 8, 9, 12][r.below(8)];
            harm(r, &mut block, errors, 0, 204);
            match r.below(30) {
                0 => {}
                1 => blocks.extend([block.clone(), block]),
                2 => blocks.push(r.bytes(204)),
                _ => blocks.push(block),
            }
        }
        let mut stream = stream_of(&blocks);
        if case % 4 == 3 {
            let at = 204 * r.below(stream.len() / 204);
            stream.drain(at..at + 204);
        }
        let output = output_for(r, &stream);
        add(receive_run(s, &stream, output, vec![0xA5; COUNTS_LENGTH]).1);
    });
    s.kind("receive_run: sync bytes at random", 200, |s, r, _| {
        // Every packet begins B8 or 47 or neither, some blocks uncorrectable:
        // walks through all moves of the place.
        let count = 20 + r.below(120);
        let mut due = 0;
        let blocks: Vec<Vec<u8>> = (0..count)
            .map(|_| {
                let mut data = r.bytes(188);
                let right = if due == 0 { INVERTED_SYNC } else { SYNC };
                data[0] = [right, right, right, right, right, right, right, SYNC, INVERTED_SYNC, 0x48][r.below(10)];
                due = if data[0] == INVERTED_SYNC { 1 } else { (due + 1) % 8 };
                let mut block = vec![0; 204];
                encode(&data, &mut block);
                let errors = [0, 3, 8, 14][r.below(4)];
                harm(r, &mut block, errors, 0, 204);
                block
            })
            .collect();
        let stream = stream_of(&blocks);
        let output = output_for(r, &stream);
        add(receive_run(s, &stream, output, vec![0xA5; COUNTS_LENGTH]).1);
    });
    histories_from_every_state(s, &mut add);
    s.kind("receive_run: anything", 200, |s, r, case| {
        let length = r.below(8000);
        let stream = match case % 4 {
            0 => vec![0; length],
            1 => vec![INVERTED_SYNC; length],
            2 => vec![r.byte(); length],
            _ => r.bytes(length),
        };
        let output = output_for(r, &stream);
        add(receive_run(s, &stream, output, vec![0xA5; COUNTS_LENGTH]).1);
    });
    s.kind("receive_run: long recordings", 8, |s, r, case| {
        let p = packets(r, 1500);
        let mut stream = interleaved_stream(&p);
        if case > 0 {
            for _ in 0..stream.len() / 40 {
                let n = r.below(stream.len());
                stream[n] = r.byte();
            }
        }
        let rest = r.below(204);
        stream.extend(r.bytes(rest));
        let output = output_for(r, &stream);
        add(receive_run(s, &stream, output, vec![0xA5; COUNTS_LENGTH]).1);
    });
    s.kind("receive_run: refusals", 60, |s, r, case| {
        let count = case as usize % 30;
        let p = packets(r, count);
        let stream = interleaved_stream(&p);
        for (counts, answer) in [0, 1, 56, 63, 64, 65].into_iter().flat_map(|c| [0, 1, 2].map(|a| (c, a))) {
            let mut lent = |output: usize| {
                let output = r.bytes(output);
                receive_run_told(s, &stream, output, vec![0xA5; counts], vec![0xA5; answer]);
            };
            lent(188 * count);
            if count > 0 {
                lent(188 * count - 1);
            }
            lent(0);
        }
    });
    if total != [0; 8] {
        println!("  taken, filling, delivered, lost, waiting, outofstep, changed, bits: {total:?}");
        if s.only_kind.is_none() {
            // Every branch of the receiver was visited many times.
            assert!(total.iter().all(|&count| count >= 500), "{total:?}");
        }
    }
}

fn recording_kinds(s: &mut Score) {
    let mut lost = 0u64;
    s.kind("recording_block: every block", 60, |s, r, case| {
        // Clean, harmed here and there, in bursts, begun inside a group, and noise.
        let count = 12 + r.below(50);
        let p = packets(r, count + 3);
        let from = case as usize % 4;
        let mut recording = interleaved_stream(&p)[204 * from..].to_vec();
        if case % 3 > 0 {
            let one_in = 15 + r.below(60);
            recording.iter_mut().for_each(|byte| if r.below(one_in) == 0 { *byte = r.byte() });
        }
        if case % 5 == 4 {
            let at = r.below(recording.len() - 1000);
            recording[at..at + 1000].iter_mut().for_each(|byte| *byte = 0xFF);
        }
        if case % 20 == 19 {
            let length = recording.len();
            recording = r.bytes(length);
        }
        let rest = r.below(204);
        recording.extend(r.bytes(rest));
        let blocks = recording.len() as u64 / 204;
        for p in 0..blocks {
            let output = output_of(r, 204);
            let before = count_before(r);
            let (answer, block) = recording_block(s, &recording, blocks, p, output, before);
            lost += (answer == 8) as u64;
            // The twelve blocks from block p on are all that matters.
            let at = 204 * p as usize;
            if let Some(part) = recording.get(at..at + 2448) {
                assert_eq!(recording_block(s, part, 12, 0, vec![0xA5; 204], vec![0xA5; 2]), (answer, block));
            }
        }
    });
    if lost > 0 {
        println!("  uncorrectable: {lost}");
        assert!(lost >= 100, "{lost}");
    }
    s.kind("recording_block: only 204 bytes matter", 200, |s, r, case| {
        let p = packets(r, 20);
        let recording = interleaved_stream(&p);
        let block = case % 9;
        let mut other = r.bytes(recording.len());
        for n in 0..204 {
            let at = 204 * (block as usize + n % 12) + n;
            other[at] = recording[at];
        }
        let (answer, whole) = recording_block(s, &recording, 20, block, vec![0xA5; 204], vec![0xA5; 2]);
        assert_eq!(recording_block(s, &other, 20, block, vec![0xA5; 204], vec![0xA5; 2]), (answer, whole));
    });
    s.kind("recording_block: refusals", 60, |s, r, case| {
        let length = [0, 1, 203, 204, 2447, 2448, 2449, 2652, 4000][case as usize % 9];
        let recording = r.bytes(length);
        let whole = length as u64 / 204;
        for blocks in [whole, whole + 1, whole.wrapping_sub(1), 0, 12, u64::MAX] {
            for p in [0, 1, whole.wrapping_sub(12), whole.wrapping_sub(11), whole, 4_294_967_283, 4_294_967_284, u64::MAX - 11, u64::MAX] {
                for output in [0, 203, 204, 205] {
                    for count in [0, 1, 2, 3] {
                        recording_block(s, &recording, blocks, p, r.bytes(output), vec![0xA5; count]);
                    }
                }
            }
        }
    });
}

/// A block by what it is to group synchronization.
#[derive(Clone, Copy, PartialEq)]
enum Heard {
    Start,
    Packet,
    Odd,
    Lost,
}

/// A codeword with the first byte, or a block that no codeword is near.
fn heard(r: &mut Xorshift, what: Heard) -> Vec<u8> {
    let mut data = r.bytes(PACKET_LENGTH);
    data[0] = match what {
        Heard::Start => INVERTED_SYNC,
        Heard::Packet => SYNC,
        _ => [0x00, 0x46, 0x48, 0xB7, 0xB9, 0xFF][r.below(6)],
    };
    let mut block = vec![0; BLOCK_LENGTH];
    encode(&data, &mut block);
    while what == Heard::Lost && reference::reed_solomon::decode(&mut block.clone()).0 == Answer::Done {
        harm(r, &mut block, 20, 0, BLOCK_LENGTH);
    }
    block
}

/// Every history of one to five blocks from every state of group synchronization:
/// the place not known, or 0 to 7 with the mark clear or set. A fresh receiver is
/// brought there by blocks of its own, so the calls are the library's.
fn histories_from_every_state(s: &mut Score, add: &mut impl FnMut([u64; 8])) {
    const KINDS: [Heard; 4] = [Heard::Start, Heard::Packet, Heard::Odd, Heard::Lost];
    const HISTORIES: u64 = 4 + 16 + 64 + 256 + 1024;
    let mut pool = Vec::new();
    let mut r = Xorshift::new(BASE_SEED);
    for what in KINDS {
        pool.push((0..16).map(|_| heard(&mut r, what)).collect::<Vec<_>>());
    }
    s.kind("receive_run: histories of five blocks from every state", 17 * HISTORIES, |s, r, case| {
        let (state, mut history) = (case / HISTORIES, case % HISTORIES);
        let mut blocks = Vec::new();
        // State 0: not known. 1 to 8: place 0 to 7. 9 to 16: the same with the mark.
        if state > 0 {
            let (place, marked) = ((state - 1) % 8, state > 8);
            let good = (place + if marked { 7 } else { 8 } - 1) % 8 + 1;
            blocks.push(Heard::Start);
            blocks.extend((1..good).map(|_| Heard::Packet));
            blocks.extend(marked.then_some(Heard::Odd));
        }
        let mut length = 1;
        while history >= 4u64.pow(length) {
            history -= 4u64.pow(length);
            length += 1;
        }
        for _ in 0..length {
            blocks.push(KINDS[(history % 4) as usize]);
            history /= 4;
        }
        let mut whole: Vec<Vec<u8>> = blocks.iter().map(|&what| pool[what as usize][r.below(16)].clone()).collect();
        whole.extend((0..11).map(|_| vec![0; BLOCK_LENGTH]));
        let stream = stream_of(&whole);
        let output = output_of(r, stream.len() / 204 * 188);
        add(receive_run(s, &stream, output, vec![0xA5; 64]).1);
    });
}

fn main() {
    let own = cfg!(feature = "self");
    if !own && !library::LINKED {
        eprintln!("compare: no library linked; set EXPORTS_DIR to the folder of libdvbs.a and build again");
        eprintln!("(or build with --features self to try the harness on the reference itself)");
        std::process::exit(2);
    }
    let mut arguments = std::env::args().skip(1);
    let mut s = Score {
        only_kind: arguments.next(),
        only_case: arguments.next().map(|case| case.parse().expect("a case number")),
        kind: "",
        case: 0,
        seed: 0,
        passed: 0,
        failed: 0,
        passed_all: 0,
        failed_all: 0,
    };
    println!("the reference against {}", library::NAME);
    stage_kinds(&mut s);
    decode_kinds(&mut s);
    marked_kinds(&mut s);
    send_kinds(&mut s);
    read_kinds(&mut s);
    read_soft_kinds(&mut s);
    receive_kinds(&mut s);
    recording_kinds(&mut s);
    println!("comparisons: {} passed, {} failed", s.passed_all, s.failed_all);
    std::process::exit((s.failed_all > 0) as i32);
}
