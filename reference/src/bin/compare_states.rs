//! Compares the parts of the library whose state is bytes with the reference, and
//! with the library's own runs: answers and every byte of state and output, on seeded,
//! repeatable inputs. What the library is lent ends, or begins, where memory may not
//! be touched.
//!
//! `compare_states` runs all; `compare_states KIND` one kind; `compare_states KIND CASE` one case.

use reference::acquisition::{Lock, DECISION_BITS, SKIPPED_BITS, WINDOW};
use reference::answer::Answer;
use reference::bridge::expected::read as read_blocks;
use reference::channel::{demodulated, sigma, Bursts, Channel, Demodulator, Point, Slip};
use reference::exports;
use reference::guarded::Guarded;
use reference::inner_code::{InnerCoder, SENT};
use reference::lock_state::expected::{most_waiting, Rooms, MOST_CAME};
use reference::losses::Block;
use reference::numbered;
use reference::receiver::MOST_BLOCKS;
use reference::runs::{full, pattern_size, soft_pairs, Runs};
use reference::samples::{block_receiver, stream};
use reference::sender_state::expected::{holds, pattern_length, STATE_LENGTH};
use reference::sender_state::{expected, library};
use reference::xorshift::Xorshift;
use reference::{lock_state, reader_state, receiver_state, BLOCK_LENGTH, INVERTED_SYNC, PACKET_LENGTH, SYNC};

/// Where the parts of a sender's state begin that are not its cells.
const POSITIONS: usize = 1122;
const PLACE: usize = 1134;
/// The symbols that a packet gives at most.
const MOST_SYMBOLS: usize = 1632;

struct Score {
    only_kind: Option<String>,
    only_case: Option<u64>,
    kind: &'static str,
    case: u64,
    passed: u64,
    failed: u64,
    passed_all: u64,
    failed_all: u64,
    lent: [Guarded; 8],
    lock_told: LockTold,
}

impl Score {
    fn kind(&mut self, kind: &'static str, cases: u64, mut run: impl FnMut(&mut Score, &mut Xorshift, u64)) {
        if self.only_kind.as_deref().map_or(false, |only| only != kind) {
            return;
        }
        (self.kind, self.passed, self.failed) = (kind, 0, 0);
        let name = kind.bytes().fold(0x300_421_u64, |sum, b| sum.wrapping_mul(257) ^ b as u64);
        for case in 0..cases {
            if self.only_case.map_or(false, |only| only != case) {
                continue;
            }
            self.case = case;
            run(self, &mut Xorshift::new(name.wrapping_mul(1 << 24).wrapping_add(case)), case);
        }
        println!("states, {kind}: {} compared, {} different", self.passed + self.failed, self.failed);
        self.passed_all += self.passed;
        self.failed_all += self.failed;
    }

    /// A number and some bytes of both sides.
    fn same(&mut self, inputs: &str, want: (u64, &[&[u8]]), got: (u64, &[&[u8]])) {
        if want == got {
            self.passed += 1;
            return;
        }
        self.failed += 1;
        if self.failed <= 5 {
            println!("DIFFERENT {} {}: {inputs}", self.kind, self.case);
            println!("  number: reference {}, library {}", want.0, got.0);
            for (k, (a, b)) in want.1.iter().zip(got.1).enumerate() {
                println!("  bytes {k}: {} and {}, first that differs {:?}", a.len(), b.len(), a.iter().zip(b.iter()).position(|(x, y)| x != y));
            }
        }
    }

    fn fresh(&mut self, r: &mut Xorshift, length: usize, mode: u8) -> (u8, Vec<u8>) {
        let before = r.bytes(length);
        let mut a = before.clone();
        let want = expected::fresh(&mut a, mode);
        let lent = self.lent[0].lend(&before, r.below(2) == 0);
        let got = library::fresh(lent, mode);
        let lent = lent.to_vec();
        self.same(&format!("fresh, state of {length}, mode {mode}"), (want as u64, &[&a]), (got as u64, &[&lent]));
        (got, lent)
    }

    /// Sends a packet on both sides: the answer where a byte was lent for it, the state, and the output with how much of it was written.
    fn send(&mut self, r: &mut Xorshift, state: &[u8], packet: &[u8], output: &[u8], answer: &[u8]) -> (Option<u8>, Vec<u8>, Vec<u8>, usize) {
        let (mut a, mut b, mut c) = (state.to_vec(), output.to_vec(), answer.to_vec());
        let want = expected::send(&mut a, packet, &mut b, &mut c);
        let at_end = r.below(2) == 0;
        let [own, given, room, told, ..] = &mut self.lent;
        let (own, given, room, told) = (own.lend(state, at_end), given.lend(packet, at_end), room.lend(output, at_end), told.lend(answer, at_end));
        let got = library::send(own, given, room, told);
        let (own, room, told) = (own.to_vec(), room.to_vec(), told.to_vec());
        let inputs = format!("send, state of {}, packet of {}, output of {}, answer of {}", state.len(), packet.len(), output.len(), answer.len());
        self.same(&inputs, (want, &[&a, &b, &c]), (got, &[&own, &room, &told]));
        (told.first().copied(), own, room, got as usize)
    }
}

/// A packet, one without its sync byte, or no bytes.
fn some_packet(r: &mut Xorshift) -> Vec<u8> {
    let mut packet = r.bytes(PACKET_LENGTH);
    packet[0] = SYNC;
    match r.below(8) {
        0 => packet[0] = r.byte(),
        1 => packet.clear(),
        _ => (),
    }
    packet
}

/// A state in range, which a list of packets may reach or not.
fn in_range(r: &mut Xorshift) -> Vec<u8> {
    let mut state = r.bytes(STATE_LENGTH);
    for branch in 0..12 {
        state[POSITIONS + branch] = r.below((17 * branch).max(1)) as u8;
    }
    let mode = r.below(6) as u8;
    let pattern = r.below(pattern_length(mode));
    let held = r.below(1 + holds(mode, pattern) as usize);
    state[PLACE..].copy_from_slice(&[r.below(8) as u8, mode, r.below(64) as u8, pattern as u8, held as u8]);
    assert!(expected::read(&state).is_some());
    state
}

fn sender_kinds(s: &mut Score) {
    // Beside the reference after every packet, with the state moved to other memory between every two; at the end beside the library's own run.
    s.kind("a sender's packets", 300, |s, r, case| {
        let mode = SENT[case as usize % SENT.len()];
        let packets = if case < 60 { case as usize / 5 } else { 1 + r.below(40) };
        let (answer, mut state) = s.fresh(r, STATE_LENGTH, mode);
        assert_eq!(answer, 0);
        let (mut all, mut symbols) = (Vec::new(), Vec::new());
        for _ in 0..packets {
            let packet = some_packet(r);
            let output = r.bytes(MOST_SYMBOLS);
            let (answer, after, left, written) = s.send(r, &state, &packet, &output, &[0xA5]);
            assert!(answer == Some(0) || answer == Some(15));
            symbols.extend(&left[..written]);
            // Exactly as much room as is needed; and one less, which is refused as a packet of another length is, and changes nothing.
            s.send(r, &state, &packet, &output[..written], &[0xA5]);
            if r.below(4) == 0 {
                assert_eq!(s.send(r, &state, &packet, &output[..written - 1], &[0xA5]).0, Some(4));
                let length = 1 + r.below(187);
                let other = r.bytes(length);
                assert_eq!(s.send(r, &state, &other, &output, &[0xA5]).0, Some(1));
            }
            // For no bytes a run is given 188 that do not begin with the sync byte.
            all.extend(if packet.is_empty() { vec![0; PACKET_LENGTH] } else { packet });
            state = after;
        }
        let (mut output, mut told) = (vec![0; MOST_SYMBOLS * packets], [0xA5]);
        let written = exports::library::send_run(mode, &all, &mut output, &mut told) as usize;
        s.same("the library's run", (written as u64, &[&output[..written]]), (symbols.len() as u64, &[&symbols]));
    });
    let (mut accepted, mut refused) = (0u64, 0u64);
    let mut tell = |answer: Option<u8>| if answer == Some(5) { refused += 1 } else { accepted += 1 };
    s.kind("a sender's random states", 60_000, |s, r, case| {
        // All bytes at random; only the cells; all in range; all but one byte.
        let mut state = in_range(r);
        match case % 4 {
            0 => state = r.bytes(STATE_LENGTH),
            1 => {
                let few = r.bytes(STATE_LENGTH - POSITIONS);
                state[POSITIONS..].copy_from_slice(&few);
            }
            2 => (),
            _ => state[POSITIONS + r.below(STATE_LENGTH - POSITIONS)] = r.byte(),
        }
        let packet = some_packet(r);
        let length = [543, 544, 979, 1088, 1224, 1632, 1700][r.below(7)];
        let output = r.bytes(length);
        tell(s.send(r, &state, &packet, &output, &[0xA5]).0);
    });
    // Every bit that is no cell's, and some of those.
    const BITS: usize = 8 * (STATE_LENGTH - POSITIONS);
    s.kind("single bits of a sender's states", 400, |s, r, _| {
        let state = in_range(r);
        let packet = some_packet(r);
        let output = r.bytes(MOST_SYMBOLS);
        for bit in 0..BITS + 16 {
            let bit = if bit < BITS { 8 * POSITIONS + bit } else { r.below(8 * POSITIONS) };
            let mut other = state.clone();
            other[bit / 8] ^= 1 << (bit % 8);
            tell(s.send(r, &other, &packet, &output, &[0xA5]).0);
        }
    });
    // Each value of each number, with each mode, place of a pattern and held bit.
    s.kind("every number of a sender's state", 256, |s, r, value| {
        let packet = some_packet(r);
        let output = r.bytes(MOST_SYMBOLS);
        for mode in 0..8 {
            for pattern in 0..9 {
                for held in 0..3 {
                    let mut state = in_range(r);
                    state[PLACE + 1..].copy_from_slice(&[mode, r.below(64) as u8, pattern, held]);
                    s.send(r, &state, &packet, &output, &[0xA5]);
                }
            }
            for field in PLACE..STATE_LENGTH {
                let mut state = in_range(r);
                state[field] = value as u8;
                s.send(r, &state, &packet, &output, &[0xA5]);
            }
            s.fresh(r, STATE_LENGTH, value as u8);
        }
    });
    s.kind("a sender's refusals", 128, |s, r, case| {
        let mut not_sent = in_range(r);
        not_sent[PLACE + 1..].copy_from_slice(&[4, 0, 0, 0]);
        for state in [in_range(r), not_sent, r.bytes(STATE_LENGTH)] {
            let mut long = state.clone();
            long.extend(r.bytes(3));
            for length in [0, 1, case as usize, STATE_LENGTH - 1, STATE_LENGTH, STATE_LENGTH + 1, STATE_LENGTH + 3] {
                for packet in [0, 1, 187, 188, 189] {
                    for output in [0, 543, 1632] {
                        for answer in [0, 1, 2] {
                            let (packet, output, answer) = (r.bytes(packet), r.bytes(output), r.bytes(answer));
                            s.send(r, &long[..length], &packet, &output, &answer);
                        }
                    }
                }
                s.fresh(r, length, case as u8 % 8);
            }
        }
    });
    if s.only_kind.is_none() {
        println!("states of a sender: {accepted} stood for one, {refused} for none");
        assert!(accepted > 20_000 && refused > 20_000);
    }
}

/// The length of a reader's state, where its numbers begin, and those of its parts.
const READER: usize = reader_state::expected::STATE_LENGTH;
const COUNT: usize = 1632;
const RATE: usize = 1634;

/// What a reader is fed with: symbols, or points with marks of lost symbols.
#[derive(Clone)]
enum Came {
    Hard(Vec<u8>),
    Soft(Vec<f32>, Vec<f32>, Vec<u8>),
}

impl Came {
    fn len(&self) -> usize {
        match self {
            Came::Hard(symbols) => symbols.len(),
            Came::Soft(i, _, _) => i.len(),
        }
    }

    fn part(&self, from: usize, end: usize) -> Came {
        match self {
            Came::Hard(symbols) => Came::Hard(symbols[from..end].to_vec()),
            Came::Soft(i, q, lost) => Came::Soft(i[from..end].to_vec(), q[from..end].to_vec(), lost[from..end].to_vec()),
        }
    }
}

impl Score {
    fn reader_fresh(&mut self, r: &mut Xorshift, length: usize, rate: u8) -> (u8, Vec<u8>) {
        let before = r.bytes(length);
        let mut a = before.clone();
        let want = reader_state::expected::fresh(&mut a, rate);
        let lent = self.lent[0].lend(&before, r.below(2) == 0);
        let got = reader_state::library::fresh(lent, rate);
        let lent = lent.to_vec();
        self.same(&format!("fresh, state of {length}, rate {rate}"), (want as u64, &[&a]), (got as u64, &[&lent]));
        (got, lent)
    }

    /// Feeds symbols or points on both sides: the answer where a byte was lent for it, the state, and the bytes that were written.
    fn read(&mut self, r: &mut Xorshift, state: &[u8], came: &Came, output: &[u8], answer: &[u8]) -> (Option<u8>, Vec<u8>, Vec<u8>) {
        let (mut a, mut b, mut c) = (state.to_vec(), output.to_vec(), answer.to_vec());
        let want = match came {
            Came::Hard(symbols) => reader_state::expected::feed(&mut a, symbols, &mut b, &mut c),
            Came::Soft(i, q, lost) => reader_state::expected::feed_soft(&mut a, i, q, lost, &mut b, &mut c),
        };
        let at_end = r.below(2) == 0;
        let [own, first, room, told, marked, second, ..] = &mut self.lent;
        let (own, room, told) = (own.lend(state, at_end), room.lend(output, at_end), told.lend(answer, at_end));
        let got = match came {
            Came::Hard(symbols) => reader_state::library::feed(own, first.lend(symbols, at_end), room, told),
            Came::Soft(i, q, lost) => {
                let (i, q) = (first.lend_numbers(i, at_end), second.lend_numbers(q, at_end));
                reader_state::library::feed_soft(own, i, q, marked.lend(lost, at_end), room, told)
            }
        };
        let (own, room, told) = (own.to_vec(), room.to_vec(), told.to_vec());
        let inputs = format!("read, state of {}, {} symbols, output of {}, answer of {}", state.len(), came.len(), output.len(), answer.len());
        self.same(&inputs, (want, &[&a, &b, &c]), (got, &[&own, &room, &told]));
        (told.first().copied(), own, room[..got as usize].to_vec())
    }

    fn read_end(&mut self, r: &mut Xorshift, state: &[u8], output: &[u8], left: &[u8], answer: &[u8]) -> (Option<u8>, Vec<u8>, Vec<u8>) {
        let (mut a, mut b, mut c) = (output.to_vec(), left.to_vec(), answer.to_vec());
        let want = reader_state::expected::end(state, &mut a, &mut b, &mut c);
        let at_end = r.below(2) == 0;
        let [own, _, room, told, rest, ..] = &mut self.lent;
        let (own, room, told, rest) = (own.lend(state, at_end), room.lend(output, at_end), told.lend(answer, at_end), rest.lend(left, at_end));
        let got = reader_state::library::end(own, room, rest, told);
        let (own, room, told, rest) = (own.to_vec(), room.to_vec(), told.to_vec(), rest.to_vec());
        let inputs = format!("end, state of {}, output of {}, left of {}, answer of {}", state.len(), output.len(), left.len(), answer.len());
        self.same(&inputs, (want, &[state, &a, &b, &c]), (got, &[&own, &room, &rest, &told]));
        (told.first().copied(), room[..got as usize].to_vec(), rest)
    }
}

/// A reader's state in range, which symbols may reach or not.
fn reader_in_range(r: &mut Xorshift) -> Vec<u8> {
    let rate = r.below(5) as u8;
    let most = full(rate);
    let count = [0, 1, most - 1, r.below(most), r.below(40)][r.below(5)];
    let held = r.below(8);
    let reader = reader_state::expected::Reader {
        runs: Runs { rate, memory: r.below(64) as u8, pairs: (0..count).map(|_| r.below(81) as u8).collect() },
        bits: (0..held).map(|_| r.byte() & 1).collect(),
    };
    let mut state = vec![0; READER];
    reader_state::expected::write(&reader, &mut state);
    assert!(reader_state::expected::read(&state).is_some());
    state
}

/// A number as a demodulator may hand it over, or any other.
fn some_number(r: &mut Xorshift) -> f32 {
    match r.below(20) {
        0 => f32::NAN,
        1 => f32::from_bits(r.next() as u32),
        2 => [-0.75, -0.5, -0.25, 0.0, 0.25, 0.5, 0.75, -0.0, f32::INFINITY, f32::NEG_INFINITY][r.below(10)],
        _ => r.below(4001) as f32 / 1000.0 - 2.0,
    }
}

fn some_came(r: &mut Xorshift, count: usize) -> Came {
    if r.below(2) == 0 {
        return Came::Hard((0..count).map(|_| r.below(4) as u8).collect());
    }
    let numbers = |r: &mut Xorshift| (0..count).map(|_| some_number(r)).collect();
    Came::Soft(numbers(r), numbers(r), (0..count).map(|_| (r.below(30) == 0) as u8).collect())
}

/// What was sent, with some of it harmed: symbols, or points around them.
fn received(r: &mut Xorshift, symbols: &[u8], soft: bool) -> Came {
    let one_in = [0, 40][r.below(2)];
    if !soft {
        return Came::Hard(symbols.iter().map(|s| if one_in > 0 && r.below(one_in) == 0 { r.below(4) as u8 } else { *s }).collect());
    }
    let mut number = |bit: u8| if one_in > 0 && r.below(one_in) == 0 { some_number(r) } else { [1.0, -1.0][bit as usize] + r.below(801) as f32 / 1000.0 - 0.4 };
    let (i, q) = symbols.iter().map(|s| (number(s / 2), number(s % 2))).unzip();
    Came::Soft(i, q, symbols.iter().map(|_| (one_in > 0 && r.below(3 * one_in) == 0) as u8).collect())
}

/// All of it by the library's own runs, which overlap: the bytes, and how many symbols and bits are left.
fn by_runs(rate: u8, came: &Came) -> (Vec<u8>, usize, usize) {
    let (length, symbols) = pattern_size(rate);
    let full = 1632 / length;
    let (mut from, mut memory, mut bits) = (0, 0, Vec::new());
    loop {
        let whole = ((came.len() - from) / symbols).min(full);
        let kept = if whole == full { full - (100 / length + 1) } else { whole };
        let (mut room, mut result) = (vec![0; 1632], [0xA5; 6]);
        let count = match came.part(from, from + whole * symbols) {
            Came::Hard(run) => exports::library::read_run(rate, memory, &run, &mut room, &mut result),
            Came::Soft(i, q, lost) => exports::library::read_soft_run(rate, memory, &i, &q, &lost, &mut room, &mut result),
        };
        assert_eq!((result[0], count as usize), (0, whole * length));
        bits.extend(&room[..kept * length]);
        if whole < full {
            let bytes = bits.chunks_exact(8).map(|bits| bits.iter().fold(0, |byte, bit| byte << 1 | bit)).collect();
            return (bytes, came.len() - from - whole * symbols, bits.len() % 8);
        }
        // The memory is the last six bits, the newest counting 32.
        memory = bits[bits.len() - 6..].iter().fold(0, |memory, bit| memory >> 1 | bit << 5);
        from += kept * symbols;
    }
}

fn reader_kinds(s: &mut Score) {
    // Beside the reference after every call, with the state moved to other memory between every two; at the end beside the library's own runs.
    s.kind("a reader's symbols", 200, |s, r, case| {
        let rate = (case % 5) as u8;
        let soft = case / 5 % 2 == 1;
        let bits: Vec<u8> = (0..if case < 40 { r.below(60) } else { r.below(9_000) }).map(|_| r.byte() & 1).collect();
        let sent = InnerCoder::after(rate, 0).code_bits(&bits);
        let all = received(r, &sent, soft);
        let longest = [1, 30, 500, 1632, 5000][r.below(5)].max(all.len() / 40);
        let (answer, mut state) = s.reader_fresh(r, READER, rate);
        assert_eq!(answer, 0);
        let (mut at, mut given) = (0, Vec::new());
        while at < all.len() {
            let end = (at + r.below(longest + 1)).min(all.len());
            let part = all.part(at, end);
            let more = r.below(3);
            let room = part.len() / 4 + 409;
            let output = r.bytes(room + more);
            let (answer, after, bytes) = s.read(r, &state, &part, &output, &[0xA5]);
            assert_eq!(answer, Some(0));
            given.extend(bytes);
            // A call that is refused in between changes nothing.
            if r.below(4) == 0 {
                assert_eq!(s.read(r, &state, &part, &output[..room - 1], &[0xA5]).0, Some(4));
                if part.len() > 0 {
                    let place = r.below(part.len());
                    let (wrong, due) = match part {
                        Came::Hard(mut symbols) => {
                            symbols[place] = 4 + r.below(252) as u8;
                            (Came::Hard(symbols), 14)
                        }
                        Came::Soft(i, q, mut lost) => {
                            lost[place] = 2 + r.below(254) as u8;
                            (Came::Soft(i, q, lost), 24)
                        }
                    };
                    assert_eq!(s.read(r, &state, &wrong, &output, &[0xA5]).0, Some(due));
                }
            }
            state = after;
            at = end;
        }
        let output = r.bytes(204);
        let (answer, bytes, left) = s.read_end(r, &state, &output, &[0xA5; 3], &[0xA5]);
        assert_eq!(answer, Some(0));
        given.extend(bytes);
        let (want, symbols, behind) = by_runs(rate, &all);
        s.same("the library's runs", (0, &[&want, &[symbols as u8, behind as u8, 0xA5]]), (0, &[&given, &left]));
    });
    // One reader fed with both kinds.
    s.kind("a reader's symbols and points", 40, |s, r, case| {
        let mut state = s.reader_fresh(r, READER, (case % 5) as u8).1;
        for _ in 0..8 {
            let count = r.below(900);
            let came = some_came(r, count);
            let output = r.bytes(count / 4 + 409);
            state = s.read(r, &state, &came, &output, &[0xA5]).1;
        }
        s.read_end(r, &state, &[0; 204], &[0; 2], &[0xA5]);
    });
    let (mut accepted, mut refused) = (0u64, 0u64);
    let mut tell = |answer: Option<u8>| if answer == Some(5) { refused += 1 } else { accepted += 1 };
    s.kind("a reader's random states", 30_000, |s, r, case| {
        // All bytes at random; only the numbers; all in range; all but one byte.
        let mut state = reader_in_range(r);
        match case % 4 {
            0 => state = r.bytes(READER),
            1 => {
                let few = r.bytes(READER - COUNT);
                state[COUNT..].copy_from_slice(&few);
            }
            2 => (),
            _ => {
                let low = [0, COUNT][r.below(2)];
                state[low + r.below(READER - low)] = r.byte();
            }
        }
        let count = [0, 1, 7, r.below(100), 700][r.below(5)];
        let came = some_came(r, count);
        let room = [0, 408, 409, 434, 600][r.below(5)];
        let output = r.bytes(room);
        tell(s.read(r, &state, &came, &output, &[0xA5]).0);
        if case % 8 < 4 {
            s.read_end(r, &state, &output, &[0; 2], &[0xA5]);
        }
    });
    // Every bit that is no cell's, and some of those.
    const BITS: usize = 8 * (READER - COUNT);
    s.kind("single bits of a reader's states", 300, |s, r, _| {
        let state = reader_in_range(r);
        let came = some_came(r, 3);
        for bit in 0..BITS + 60 {
            let bit = if bit < BITS { 8 * COUNT + bit } else { r.below(8 * COUNT) };
            let mut other = state.clone();
            other[bit / 8] ^= 1 << (bit % 8);
            tell(s.read(r, &other, &came, &[0; 409], &[0xA5]).0);
        }
    });
    // Each value of each number; the bits that are held with each number of them; each number of symbols at its limit.
    s.kind("every number of a reader's state", 256, |s, r, value| {
        let came = some_came(r, 3);
        for field in COUNT..READER {
            let mut state = reader_in_range(r);
            state[field] = value as u8;
            s.read(r, &state, &came, &[0; 409], &[0xA5]);
        }
        for held in 0..9 {
            let mut state = reader_in_range(r);
            state[RATE + 2..].copy_from_slice(&[value as u8, held]);
            s.read(r, &state, &came, &[0; 409], &[0xA5]);
            s.read_end(r, &state, &[0; 204], &[0; 2], &[0xA5]);
        }
        for rate in 0..7 {
            let mut state = vec![0; READER];
            let count = 1640 - 3 * value as u16;
            state[COUNT..RATE].copy_from_slice(&count.to_le_bytes());
            state[RATE] = rate;
            s.read(r, &state, &came, &[0; 409], &[0xA5]);
            // A cell that holds something at the end of those that may, and one behind.
            for cell in [count as usize - 1, count as usize] {
                if cell < COUNT {
                    let mut other = state.clone();
                    other[cell] = 1 + value as u8 % 81;
                    s.read(r, &other, &came, &[0; 409], &[0xA5]);
                }
            }
            s.reader_fresh(r, READER, value as u8);
        }
    });
    s.kind("a reader's refusals", 24, |s, r, case| {
        for state in [reader_in_range(r), r.bytes(READER)] {
            let mut long = state.clone();
            long.extend(r.bytes(3));
            for length in [0, 1, 60 * case as usize, READER - 1, READER, READER + 1, READER + 3] {
                for count in [0, 1, 5] {
                    for came in [Came::Hard(vec![3; count]), Came::Hard(vec![4; count]), some_came(r, count), Came::Soft(vec![0.5; count], vec![0.5; count + 1], vec![0; count])] {
                        for output in [0, 203, 204, 408, 409, 410] {
                            for answer in [0, 1, 2] {
                                let (output, answer) = (r.bytes(output), r.bytes(answer));
                                s.read(r, &long[..length], &came, &output, &answer);
                                if count == 0 {
                                    let left = r.below(4);
                                    let left = r.bytes(left);
                                    s.read_end(r, &long[..length], &output, &left, &answer);
                                }
                            }
                        }
                    }
                }
                s.reader_fresh(r, length, case as u8 % 8);
            }
        }
    });
    if s.only_kind.is_none() {
        println!("states of a reader: {accepted} stood for one, {refused} for none");
        assert!(accepted > 10_000 && refused > 10_000);
    }
}

/// The length of a receiver's state, where its bytes begin that are held, and where its counts begin.
const RECEIVER: usize = receiver_state::expected::STATE_LENGTH;
const PENDING: usize = 2322;
const HELD: usize = 2730;
const COUNTS: usize = 1136;
/// A report has at most this many bytes.
const REPORT: usize = 310;

impl Score {
    fn receiver_fresh(&mut self, r: &mut Xorshift, length: usize) -> (u8, Vec<u8>) {
        let before = r.bytes(length);
        let mut a = before.clone();
        let want = receiver_state::expected::fresh(&mut a);
        let lent = self.lent[0].lend(&before, r.below(2) == 0);
        let got = receiver_state::library::fresh(lent);
        let lent = lent.to_vec();
        self.same(&format!("fresh, state of {length}"), (want as u64, &[&a]), (got as u64, &[&lent]));
        (got, lent)
    }

    /// Feeds a piece on both sides: the answer where a byte was lent for it, the state, and the packets that were written.
    fn feed(&mut self, r: &mut Xorshift, state: &[u8], piece: &[u8], marks: &[u8], output: &[u8], answer: &[u8]) -> (Option<u8>, Vec<u8>, Vec<u8>) {
        let (mut a, mut b, mut c) = (state.to_vec(), output.to_vec(), answer.to_vec());
        let want = receiver_state::expected::feed(&mut a, piece, marks, &mut b, &mut c);
        let at_end = r.below(2) == 0;
        let [own, given, room, told, marked, ..] = &mut self.lent;
        let (own, given, room, told) = (own.lend(state, at_end), given.lend(piece, at_end), room.lend(output, at_end), told.lend(answer, at_end));
        let got = receiver_state::library::feed(own, given, marked.lend(marks, at_end), room, told);
        let (own, room, told) = (own.to_vec(), room.to_vec(), told.to_vec());
        let inputs = format!(
            "feed, state of {}, piece of {}, marks of {}, output of {}, answer of {}",
            state.len(),
            piece.len(),
            marks.len(),
            output.len(),
            answer.len()
        );
        self.same(&inputs, (want, &[&a, &b, &c]), (got, &[&own, &room, &told]));
        (told.first().copied(), own, room[..got as usize].to_vec())
    }

    fn report(&mut self, r: &mut Xorshift, state: &[u8], output: &[u8], answer: &[u8]) -> (Option<u8>, Vec<u8>) {
        let (mut b, mut c) = (output.to_vec(), answer.to_vec());
        let want = receiver_state::expected::report(state, &mut b, &mut c);
        let at_end = r.below(2) == 0;
        let [own, _, room, told, ..] = &mut self.lent;
        let (own, room, told) = (own.lend(state, at_end), room.lend(output, at_end), told.lend(answer, at_end));
        let got = receiver_state::library::report(own, room, told);
        let (own, room, told) = (own.to_vec(), room.to_vec(), told.to_vec());
        let inputs = format!("report, state of {}, output of {}, answer of {}", state.len(), output.len(), answer.len());
        self.same(&inputs, (want, &[state, &b, &c]), (got, &[&own, &room, &told]));
        (told.first().copied(), room[..got as usize].to_vec())
    }
}

/// A receiver's state in range, which a pass may reach or not.
fn receiver_in_range(r: &mut Xorshift) -> Vec<u8> {
    let mut state = block_receiver(r);
    let held = [0, 1, 203, r.below(204)][r.below(4)];
    let one_in = 1 + r.below(40);
    let mut pending = r.bytes(held);
    pending.resize(204, 0);
    let mut marks: Vec<u8> = (0..held).map(|_| (r.below(one_in) == 0) as u8).collect();
    marks.resize(204, 0);
    state.extend(pending);
    state.extend(marks);
    state.push(held as u8);
    assert!(receiver_state::expected::stands(&state));
    state
}

/// Marks for so many bytes: none, or some.
fn some_marks(r: &mut Xorshift, length: usize) -> Vec<u8> {
    let one_in = [0, 60][r.below(2)];
    (0..length).map(|_| (one_in > 0 && r.below(one_in) == 0) as u8).collect()
}

fn receiver_kinds(s: &mut Score) {
    // Beside the reference after every piece, with the state moved to other memory between every two; at the end beside the library's own run.
    s.kind("a receiver's pieces", 300, |s, r, case| {
        let blocks = if case < 30 { case as usize } else { 12 + r.below(50) };
        let mut all = if blocks == 0 { Vec::new() } else { stream(r, blocks) };
        let rest = r.below(204);
        all.extend(r.bytes(rest));
        let marks = some_marks(r, all.len());
        let longest = [1, 20, 204, 500, 1500][r.below(5)].max(all.len() / 60);
        let (answer, mut state) = s.receiver_fresh(r, RECEIVER);
        assert_eq!(answer, 0);
        let (mut at, mut given) = (0, Vec::new());
        while at < all.len() {
            let end = (at + r.below(longest + 1)).min(all.len());
            let (piece, own) = (&all[at..end], &marks[at..end]);
            let room = PACKET_LENGTH * ((state[HELD] as usize + piece.len()) / BLOCK_LENGTH);
            let more = r.below(3);
            let output = r.bytes(room + more);
            let (answer, after, packets) = s.feed(r, &state, piece, own, &output, &[0xA5]);
            assert_eq!(answer, Some(0));
            given.extend(packets);
            // A call that is refused in between changes nothing.
            if room > 0 {
                assert_eq!(s.feed(r, &state, piece, own, &output[..room - 1], &[0xA5]).0, Some(4));
            }
            if r.below(8) == 0 && !piece.is_empty() {
                assert_eq!(s.feed(r, &state, piece, &own[1..], &output, &[0xA5]).0, Some(20));
                let mut wrong = own.to_vec();
                wrong[r.below(piece.len())] = 2;
                assert_eq!(s.feed(r, &state, piece, &wrong, &output, &[0xA5]).0, Some(20));
            }
            state = after;
            at = end;
        }
        let (answer, text) = s.report(r, &state, &[0; REPORT], &[0xA5]);
        assert_eq!(answer, Some(0));
        s.report(r, &state, &vec![0; text.len()], &[0xA5]);
        assert_eq!(s.report(r, &state, &vec![0; text.len() - 1], &[0xA5]).0, Some(4));
        assert!(text.ends_with(format!("rest={}\n", all.len() % BLOCK_LENGTH).as_bytes()));
        let (mut output, mut counts, mut told) = (vec![0; PACKET_LENGTH * (all.len() / BLOCK_LENGTH)], vec![0; 64], [0xA5]);
        let written = exports::library::receive_run_marked(&all, &marks, &mut output, &mut counts, &mut told) as usize;
        s.same("the library's run", (told[0] as u64, &[&output[..written], &counts]), (0, &[&given, &state[COUNTS..COUNTS + 64]]));
    });
    let (mut accepted, mut refused) = (0u64, 0u64);
    let mut tell = |answer: Option<u8>| if answer == Some(5) { refused += 1 } else { accepted += 1 };
    s.kind("a receiver's random states", 60_000, |s, r, case| {
        // All bytes at random; only those that are held, with their marks; all in range; all but one byte.
        let mut state = receiver_in_range(r);
        match case % 4 {
            0 => state = r.bytes(RECEIVER),
            1 => {
                let few = r.bytes(RECEIVER - PENDING);
                state[PENDING..].copy_from_slice(&few);
            }
            2 => (),
            _ => {
                let low = [0, PENDING, HELD][r.below(3)];
                state[low + r.below(RECEIVER - low)] = r.byte();
            }
        }
        let length = r.below(500);
        let (piece, marks) = (r.bytes(length), some_marks(r, length));
        let room = r.below(600);
        let output = r.bytes(room);
        tell(s.feed(r, &state, &piece, &marks, &output, &[0xA5]).0);
        s.report(r, &state, &output, &[0xA5]);
    });
    // Every bit behind those of the receiver of blocks, and some of those.
    const BITS: usize = 8 * (RECEIVER - PENDING);
    s.kind("single bits of a receiver's states", 30, |s, r, _| {
        let state = receiver_in_range(r);
        let length = r.below(300);
        let (piece, marks) = (r.bytes(length), some_marks(r, length));
        for bit in 0..BITS + 300 {
            let bit = if bit < BITS { 8 * PENDING + bit } else { r.below(8 * PENDING) };
            let mut other = state.clone();
            other[bit / 8] ^= 1 << (bit % 8);
            tell(s.feed(r, &other, &piece, &marks, &[0; 2 * PACKET_LENGTH], &[0xA5]).0);
            s.report(r, &other, &[0; REPORT], &[0xA5]);
        }
    });
    // Each number of bytes that are held, and more than there can be.
    s.kind("every number of bytes held", 256, |s, r, held| {
        let mut state = receiver_in_range(r);
        state[HELD] = held as u8;
        for clear in [false, true] {
            if clear {
                state[PENDING..HELD].fill(0);
            }
            for length in [0, 1, 203, 204, 205, 500] {
                let (piece, marks) = (r.bytes(length), some_marks(r, length));
                s.feed(r, &state, &piece, &marks, &[0; 4 * PACKET_LENGTH], &[0xA5]);
            }
            s.report(r, &state, &[0; REPORT], &[0xA5]);
        }
    });
    // The last blocks that can be counted, and bytes after them.
    s.kind("a receiver's full counts", 200, |s, r, case| {
        let mut state = receiver_in_range(r);
        let taken = MOST_BLOCKS - case % 3;
        for (k, count) in [taken, 11, 0, taken - 11, 0, 0, 0, 0].iter().enumerate() {
            state[COUNTS + 8 * k..COUNTS + 8 * k + 8].copy_from_slice(&count.to_le_bytes());
        }
        let room = 204 * (case % 3) as usize;
        let left = room.saturating_sub(state[HELD] as usize);
        for length in [0, 1, left, left + 1, left + 204] {
            let (piece, marks) = (r.bytes(length), some_marks(r, length));
            let answer = s.feed(r, &state, &piece, &marks, &[0; 4 * PACKET_LENGTH], &[0xA5]).0;
            assert_eq!(answer, Some(if length > left { 7 } else { 0 }));
        }
    });
    s.kind("a receiver's refusals", 64, |s, r, case| {
        for state in [receiver_in_range(r), r.bytes(RECEIVER)] {
            let mut long = state.clone();
            long.extend(r.bytes(3));
            for length in [0, 1, case as usize, PENDING, RECEIVER - 1, RECEIVER, RECEIVER + 1, RECEIVER + 3] {
                for piece in [0, 1, 204, 409] {
                    for marks in [piece, piece + 1] {
                        for output in [0, 187, 600] {
                            for answer in [0, 1, 2] {
                                let (piece, output, answer) = (r.bytes(piece), r.bytes(output), r.bytes(answer));
                                let mut marks = some_marks(r, marks);
                                if r.below(4) == 0 {
                                    marks.iter_mut().for_each(|mark| *mark *= 2);
                                }
                                s.feed(r, &long[..length], &piece, &marks, &output, &answer);
                                s.report(r, &long[..length], &output, &answer);
                            }
                        }
                    }
                }
                s.receiver_fresh(r, length);
            }
        }
    });
    if s.only_kind.is_none() {
        println!("states of a receiver: {accepted} stood for one, {refused} for none");
        assert!(accepted > 20_000 && refused > 20_000);
    }
}

/// The length of a lock's state, and where its numbers begin.
const LOCK: usize = lock_state::expected::STATE_LENGTH;
const LOCK_NUMBERS: usize = 13_754;
const LOCK_PACKETS: usize = 13_805;

/// What a call for a lock is lent beside its state and its points.
#[derive(Clone)]
struct LockRooms {
    packets: Vec<u8>,
    text: Vec<u8>,
    counts: Vec<u64>,
    answer: Vec<u8>,
}

impl LockRooms {
    fn new(r: &mut Xorshift, packets: usize, text: usize, counts: usize, answer: usize) -> Self {
        LockRooms { packets: r.bytes(packets), text: r.bytes(text), counts: (0..counts).map(|_| r.next()).collect(), answer: r.bytes(answer) }
    }

    fn enough(r: &mut Xorshift) -> Self {
        LockRooms::new(r, lock_state::expected::PACKETS, lock_state::expected::TEXT, 2, 1)
    }

    fn lent(&mut self) -> Rooms<'_> {
        Rooms { packets: &mut self.packets, text: &mut self.text, counts: &mut self.counts, answer: &mut self.answer }
    }

    fn count_bytes(&self) -> Vec<u8> {
        self.counts.iter().flat_map(|count| count.to_le_bytes()).collect()
    }
}

/// How many calls for a lock gave packets, ended an acquisition, and told a line that begins with each word: so it is seen that what is compared comes to all of it.
#[derive(Debug, Default)]
struct LockTold {
    gave: u64,
    gave_several: u64,
    over: u64,
    lines: [u64; 5],
    doubt: u64,
}

impl LockTold {
    const WORDS: [&'static str; 5] = ["lock ", "lost ", "block=", "end ", "nothing "];

    fn count(&mut self, over: bool, packets: u64, text: &[u8]) {
        let text = String::from_utf8_lossy(text);
        self.gave += u64::from(packets > 0);
        self.gave_several += u64::from(packets as usize > PACKET_LENGTH);
        self.over += u64::from(over);
        for (told, word) in self.lines.iter_mut().zip(Self::WORDS) {
            *told += u64::from(text.lines().any(|line| line.starts_with(word)));
        }
        self.doubt += u64::from(text.contains(" doubt=1\n"));
    }

    fn each_at_least(&self, least: u64) -> bool {
        [self.gave, self.gave_several, self.over, self.doubt].iter().chain(&self.lines).all(|told| *told >= least)
    }
}

/// Points with marks of lost symbols.
#[derive(Clone, Default)]
struct Points {
    i: Vec<f32>,
    q: Vec<f32>,
    lost: Vec<u8>,
}

impl Points {
    /// Lost symbols are marked, or are points of which nothing is known. What stands in a marked one may be anything.
    fn of(r: &mut Xorshift, points: &[Point]) -> Self {
        let mut all = Points::default();
        for &(i, q) in points {
            let marked = i.is_nan() && q.is_nan() && r.below(2) == 0;
            all.push(if marked { some_number(r) } else { i }, if marked { some_number(r) } else { q }, marked as u8);
        }
        all
    }

    fn push(&mut self, i: f32, q: f32, lost: u8) {
        self.i.push(i);
        self.q.push(q);
        self.lost.push(lost);
    }

    /// Any points.
    fn some(r: &mut Xorshift, count: usize) -> Self {
        let mut all = Points::default();
        for _ in 0..count {
            all.push(some_number(r), some_number(r), (r.below(30) == 0) as u8);
        }
        all
    }

    fn part(&self, from: usize, end: usize) -> Self {
        Points { i: self.i[from..end].to_vec(), q: self.q[from..end].to_vec(), lost: self.lost[from..end].to_vec() }
    }
}

/// What comes to a lock: points, or the end with so many bytes behind the last whole point.
enum ToLock {
    Points(Points),
    End(u64),
}

impl Score {
    /// Calls both sides: the number that the library returned, the state after it, and the answer where a byte was lent for it.
    fn lock(&mut self, r: &mut Xorshift, state: &[u8], to: &ToLock, rooms: &LockRooms) -> (u64, Vec<u8>, Option<u8>) {
        let (mut a, mut want) = (state.to_vec(), rooms.clone());
        let due = match to {
            ToLock::Points(Points { i, q, lost }) => lock_state::expected::feed(&mut a, i, q, lost, want.lent()),
            ToLock::End(rest) => lock_state::expected::end(&mut a, *rest, want.lent()),
        };
        let at_end = r.below(2) == 0;
        let [own, first, packets, answer, marked, second, text, counts] = &mut self.lent;
        let own = own.lend(state, at_end);
        let (packets, text) = (packets.lend(&rooms.packets, at_end), text.lend(&rooms.text, at_end));
        let (counts, answer) = (counts.lend_counts(&rooms.counts, at_end), answer.lend(&rooms.answer, at_end));
        let lent = Rooms { packets: &mut *packets, text: &mut *text, counts: &mut *counts, answer: &mut *answer };
        let (got, points) = match to {
            ToLock::Points(Points { i, q, lost }) => {
                let (is, qs) = (first.lend_numbers(i, at_end), second.lend_numbers(q, at_end));
                (lock_state::library::feed(own, is, qs, marked.lend(lost, at_end), lent), Some(i.len()))
            }
            ToLock::End(rest) => (lock_state::library::end(own, *rest, lent), None),
        };
        let after = LockRooms { packets: packets.to_vec(), text: text.to_vec(), counts: counts.to_vec(), answer: answer.to_vec() };
        let own = own.to_vec();
        if after.answer.first() == Some(&0) {
            let text = &after.text[..(after.counts[1] as usize).min(after.text.len())];
            self.lock_told.count(points.is_none() && got == 1, after.counts[0], text);
        }
        let lengths = (rooms.packets.len(), rooms.text.len(), rooms.counts.len(), rooms.answer.len());
        self.same(
            &format!("lock, state of {}, {points:?} points, rooms of {lengths:?}", state.len()),
            (due, &[&a, &want.packets, &want.text, &want.count_bytes(), &want.answer]),
            (got, &[&own, &after.packets, &after.text, &after.count_bytes(), &after.answer]),
        );
        (got, own, after.answer.first().copied())
    }

    fn lock_fresh(&mut self, r: &mut Xorshift, length: usize, rate: u8) -> Vec<u8> {
        let before = r.bytes(length);
        let mut a = before.clone();
        let want = lock_state::expected::fresh(&mut a, rate);
        let lent = self.lent[0].lend(&before, r.below(2) == 0);
        let got = lock_state::library::fresh(lent, rate);
        let lent = lent.to_vec();
        self.same(&format!("fresh, state of {length}, rate {rate}"), (want as u64, &[&a]), (got as u64, &[&lent]));
        lent
    }

    /// The end, step by step, and once more behind its last step.
    fn lock_end(&mut self, r: &mut Xorshift, mut state: Vec<u8>) {
        let rest = [0, 7, r.next()][r.below(3)];
        for _ in 0..60 {
            let rooms = LockRooms::enough(r);
            let (over, after, answer) = self.lock(r, &state, &ToLock::End(rest), &rooms);
            assert_eq!(answer, Some(0));
            state = after;
            if over == 1 {
                self.lock(r, &state, &ToLock::End(rest), &rooms);
                return;
            }
        }
        panic!("the end of {} {} is not over after sixty steps", self.kind, self.case);
    }
}

/// Points that a lock is fed with, and the rate that it searches: a stream that is cut anywhere and turned. By the case it is unharmed; noisy, with slips; with
/// whole blocks left out; or with noise, and with lost symbols, before, in and behind it.
fn lock_stream(r: &mut Xorshift, case: usize) -> (u8, Points) {
    let rate = (case % 5) as u8;
    let (bits, per_pattern) = pattern_size(rate);
    let symbols_of = |blocks: usize| 8 * BLOCK_LENGTH * blocks / bits * per_pattern;
    let sent = numbered::symbols(rate, &numbered::packets(r.next(), 52));
    let (cut, turn) = (r.below(symbols_of(13)), r.below(8) as u8);
    let at = symbols_of(22) + r.below(symbols_of(10));
    let mut noise = |many: usize| {
        let mut silence = Channel::new(r.next(), 1.0, 0.0, Some(Bursts { period: 1, length: 1, lost: false }));
        (0..many).map(|_| silence.receive(0)).collect::<Vec<Point>>()
    };
    let [before, within, behind] = if case / 5 % 4 == 3 { [2_500, 5_200, 16_000].map(&mut noise) } else { [(); 3].map(|_| Vec::new()) };
    let (eb_n0, lost, slips) = match case / 5 % 4 {
        0 => (f64::INFINITY, 0.0, vec![]),
        1 => (6.5, 0.0, vec![(at as u64, [Slip::LeftOut(1), Slip::Doubled(500), Slip::Turned(1), Slip::Turned(2)][r.below(4)])]),
        2 => (8.0, 0.0, vec![(at as u64, Slip::LeftOut(symbols_of([1, 2, 3, 7][r.below(4)]) as u64))]),
        _ => (8.0, 0.01, vec![]),
    };
    let mut channel = Channel::new(r.next(), sigma(rate, eb_n0), lost, None);
    let mut points = demodulated(&sent, &mut channel, &mut Demodulator::new(cut as u64, turn, slips));
    points.splice(symbols_of(28)..symbols_of(28), within);
    points.splice(0..0, before);
    points.extend(behind);
    (if r.below(3) == 0 { 5 } else { rate }, Points::of(r, &points))
}

/// A state that points come to, and the points behind them.
struct Reached {
    state: Vec<u8>,
    stream: usize,
    at: usize,
}

/// Streams, and states that they come to: before, in and behind a lock, at each rate and at any.
fn reached(r: &mut Xorshift) -> (Vec<Points>, Vec<Reached>) {
    let (mut streams, mut states) = (Vec::new(), Vec::new());
    for stream in 0..20 {
        let (rate, points) = lock_stream(r, stream);
        let pairs = soft_pairs(&points.i, &points.q, &points.lost);
        let mut lock = Lock::fresh(Some(rate).filter(|rate| *rate < 5));
        let (mut at, mut steps, mut over) = (0, 0, false);
        while !over {
            if at < pairs.len() {
                let end = (at + 1 + r.below(2 * WINDOW)).min(pairs.len());
                at += lock.feed(&pairs[at..end]);
            } else {
                over = lock.end(0);
            }
            (lock.teller.packets, lock.teller.text) = (Vec::new(), String::new());
            steps += 1;
            if steps % 5 == 0 || !lock.teller.receiver.waiting.is_empty() || at == pairs.len() {
                let mut state = vec![0; LOCK];
                lock_state::expected::write(&lock, &mut state);
                states.push(Reached { state, stream, at });
            }
        }
        streams.push(points);
    }
    let locks: Vec<Lock> = states.iter().map(|reached| lock_state::expected::read(&reached.state).expect("points come to it")).collect();
    let some = |is: &dyn Fn(&Lock) -> bool| locks.iter().any(is);
    assert!(some(&|lock| lock.reading.is_none() && !lock.teller.found) && some(&|lock| lock.reading.is_none() && lock.teller.found && !lock.pending.is_empty()));
    assert!(some(&|lock| lock.mirrored) && some(&|lock| lock.rate.is_none()) && some(&|lock| lock.teller.receiver.waiting.len() > 3));
    assert!((0..5).all(|rate| some(&|lock| lock.teller.lasts && lock.reading.as_ref().map_or(false, |reading| reading.runs.rate == rate && reading.gathered.inverted))));
    (streams, states)
}

/// So many bits, and from a place on, a block apart, sync bytes that may be harmed.
fn some_bits(r: &mut Xorshift, count: usize) -> Vec<u8> {
    let mut bits: Vec<u8> = (0..count).map(|_| r.byte() & 1).collect();
    let mut at = [0, 1, 1631, 1632, 1633, r.below(1700)][r.below(6)];
    let (harmed, one_in) = (r.below(8), 1 + r.below(6));
    while at + 8 <= count {
        let byte = if r.below(8) < harmed { r.byte() } else if r.below(one_in) == 0 { INVERTED_SYNC } else { SYNC };
        (0..8).for_each(|k| bits[at + k] = byte >> (7 - k) & 1);
        at += 8 * BLOCK_LENGTH;
    }
    bits
}

/// A lock with some fields changed to others in range, which points may come to or not.
fn changed(r: &mut Xorshift, lock: &mut Lock) {
    let some_pairs = |r: &mut Xorshift, count: usize| (0..count).map(|_| r.below(81) as u8).collect::<Vec<u8>>();
    let some_count = |r: &mut Xorshift| [0, 1, r.below(5_000) as u64, r.next() >> 6, SKIPPED_BITS as u64, SKIPPED_BITS as u64 - 1, 2 * SKIPPED_BITS as u64][r.below(7)];
    for _ in 0..1 + r.below(3) {
        match (r.below(13), &mut lock.reading) {
            (0, _) => (lock.rate, lock.mirrored) = ([None, Some(r.below(5) as u8)][r.below(2)], r.below(2) == 0),
            (1, _) => {
                let count = [0, 1, r.below(1632), 1632][r.below(4)];
                lock.pending = some_pairs(r, count);
            }
            (2, _) => (lock.teller.found, lock.teller.lasts) = (r.below(2) == 0, r.below(2) == 0),
            (3, _) => (lock.teller.skipped, lock.teller.end) = (some_count(r), [some_count(r), r.next(), u64::MAX, lock.came][r.below(4)]),
            (4, _) => {
                let receiver = &mut lock.teller.receiver;
                (receiver.receiver, receiver.positions) = read_blocks(&block_receiver(r)).expect("it is in range");
            }
            (5, _) => {
                let receiver = &mut lock.teller.receiver.receiver;
                (receiver.place, receiver.odd) = if r.below(5) == 0 { (None, false) } else { (Some(r.below(8)), r.below(3) == 0) };
            }
            (6, _) => lock.teller.receiver.sure = r.below(4) == 0,
            (7, Some(reading)) => {
                let count = [0, 1, DECISION_BITS - 1, DECISION_BITS - 8, DECISION_BITS - r.below(1600) - 1, r.below(DECISION_BITS)][r.below(6)];
                reading.gathered.bits = some_bits(r, count);
            }
            (8, Some(reading)) => (reading.gathered.gave, reading.gathered.inverted) = (r.below(2) == 0, r.below(2) == 0),
            (9, Some(reading)) => (reading.first, reading.gathered.used) = (some_count(r), some_count(r)),
            (10, Some(reading)) => (reading.turn, reading.runs.memory) = (r.below(8) as u8, r.below(64) as u8),
            (11, Some(reading)) => {
                let rate = r.below(5) as u8;
                let count = [0, 1, full(rate) - 1, full(rate) - 1 - r.below(200), r.below(full(rate))][r.below(5)];
                reading.runs = Runs { rate, memory: reading.runs.memory, pairs: some_pairs(r, count) };
            }
            // In the midst of a lock the packets wait that can, and the next B8 gives them.
            _ => lock.teller.receiver.sure = false,
        }
    }
    // No more packets wait than can.
    let receiver = &mut lock.teller.receiver;
    let most = if receiver.sure { 0 } else { most_waiting(receiver) };
    let count = [most, receiver.waiting.len().min(most), r.below(most + 1)][r.below(3)];
    let place = receiver.receiver.place.unwrap_or(0) + 8 - count;
    let packets: Vec<Vec<u8>> = (0..count).map(|k| receiver.waiting.get(k).map_or_else(|| r.bytes(PACKET_LENGTH), |block| block.packet.clone())).collect();
    receiver.waiting = packets.into_iter().enumerate().map(|(k, packet)| Block { answer: Answer::Done, place: (place + k) % 8, packet }).collect();
    // As many points came as are held and gave bits: no more than that, more, or as many as can be counted.
    let held = lock.pending.len() as u64;
    let least = match &lock.reading {
        None => {
            lock.pending.truncate(WINDOW - 1);
            held
        }
        Some(reading) => {
            let counted = reading.gathered.used + reading.gathered.bits.len() as u64 + 2 * (held + reading.runs.pairs.len() as u64);
            held.max(reading.first + counted.saturating_sub(16) / 2 + counted % 2)
        }
    };
    lock.came = match r.below(8) {
        0 => least,
        1 => least + r.below(5_000) as u64,
        2 => MOST_CAME - 1 - r.below(2 * WINDOW) as u64,
        3 => MOST_CAME - 1 - WINDOW as u64,
        _ => lock.came.max(least),
    };
}

fn lock_kinds(s: &mut Score) {
    // Call by call beside the reference, from a fresh state to behind the end.
    s.kind("a lock's steps", 40, |s, r, case| {
        let (rate, points) = lock_stream(r, case as usize);
        let longest = [200, 1_632, 5_000][r.below(3)];
        let mut state = s.lock_fresh(r, LOCK, rate);
        let mut at = 0;
        while at < points.i.len() {
            let end = (at + r.below(longest + 1)).min(points.i.len());
            let rooms = LockRooms::enough(r);
            let (taken, after, answer) = s.lock(r, &state, &ToLock::Points(points.part(at, end)), &rooms);
            assert_eq!(answer, Some(0));
            state = after;
            at += taken as usize;
        }
        s.lock_end(r, state);
    });
    let (streams, states) = reached(&mut Xorshift::new(0x300_421));
    let (mut accepted, mut refused) = (0u64, 0u64);
    let mut tell = |answer: Option<u8>| if answer == Some(5) { refused += 1 } else { accepted += 1 };
    // A few calls from states with other numbers, bits, pairs and packets: on the points behind them, whole or harmed, or on any; and their end.
    s.kind("a lock's other states", 12_000, |s, r, case| {
        let from = &states[r.below(states.len())];
        let mut lock = lock_state::expected::read(&from.state).expect("points come to it");
        changed(r, &mut lock);
        let mut state = vec![0; LOCK];
        lock_state::expected::write(&lock, &mut state);
        assert!(lock_state::expected::read(&state).is_some(), "case {case}");
        let (mut at, points) = (from.at, &streams[from.stream]);
        for _ in 0..1 + r.below(8) {
            let count = [1, 5, 300, 1_632, 1_632, 3_000][r.below(6)];
            let mut came = if r.below(4) == 0 { Points::some(r, count) } else { points.part(at, (at + count).min(points.i.len())) };
            if r.below(6) == 0 {
                came.i.iter_mut().step_by(1 + r.below(40)).for_each(|x| *x = some_number(r));
                came.lost.iter_mut().skip(r.below(40)).step_by(1 + r.below(40)).for_each(|mark| *mark = 1);
            }
            let rooms = LockRooms::enough(r);
            let (taken, after, answer) = s.lock(r, &state, &ToLock::Points(came), &rooms);
            tell(answer);
            state = after;
            at = (at + taken as usize).min(points.i.len());
        }
        if case % 3 == 0 {
            s.lock_end(r, state);
        }
    });
    s.kind("a lock's random states", 30_000, |s, r, case| {
        // All bytes at random; only the numbers; a byte or two of them; a cell.
        let mut state = states[r.below(states.len())].state.clone();
        match case % 6 {
            0 => state = r.bytes(LOCK),
            1 => {
                let few = r.bytes(LOCK_PACKETS - LOCK_NUMBERS);
                state[LOCK_NUMBERS..LOCK_PACKETS].copy_from_slice(&few);
            }
            2 => (),
            3 => state[r.below(LOCK)] = r.byte(),
            4 => state[LOCK_NUMBERS + r.below(LOCK_PACKETS - LOCK_NUMBERS)] = r.byte(),
            _ => {
                for _ in 0..2 {
                    state[LOCK_NUMBERS + r.below(LOCK_PACKETS - LOCK_NUMBERS)] = r.byte();
                }
            }
        }
        let count = [0, 1, 200, 1_632][r.below(4)];
        let (points, end) = (Points::some(r, count), r.next());
        let rooms = LockRooms::enough(r);
        tell(s.lock(r, &state, &ToLock::Points(points), &rooms).2);
        tell(s.lock(r, &state, &ToLock::End(end), &rooms).2);
    });
    // Every bit of the numbers, and some of the cells.
    const BITS: usize = 8 * (LOCK_PACKETS - LOCK_NUMBERS);
    s.kind("single bits of a lock's states", 60, |s, r, case| {
        let state = states[r.below(states.len())].state.clone();
        let points = ToLock::Points(Points::some(r, if case % 6 == 0 { 1_632 } else { 3 }));
        let rooms = LockRooms::enough(r);
        for bit in 0..BITS + 200 {
            let bit = if bit < BITS { 8 * LOCK_NUMBERS + bit } else { r.below(8 * LOCK) };
            let mut other = state.clone();
            other[bit / 8] ^= 1 << (bit % 8);
            tell(s.lock(r, &other, &points, &rooms).2);
        }
    });
    s.kind("a lock's refusals", 8, |s, r, case| {
        let mut full = states[r.below(states.len())].state.clone();
        // So many points came that no more can.
        full[13_760..13_768].copy_from_slice(&(MOST_CAME - 1_632 + case % 2 * 1_000).to_le_bytes());
        for state in [states[r.below(states.len())].state.clone(), full, r.bytes(LOCK)] {
            let mut long = state.clone();
            long.extend(r.bytes(3));
            for length in [0, case as usize, LOCK - 1, LOCK, LOCK + 1, LOCK + 3] {
                for (i, q, lost, mark) in [(0, 0, 0, 0), (5, 5, 5, 0), (5, 5, 5, 2), (5, 4, 5, 0), (4, 5, 5, 1), (5, 5, 6, 0)] {
                    for (packets, text, counts) in [(1504, 2048, 2), (1503, 2048, 2), (1504, 2047, 2), (1504, 2048, 1), (0, 0, 0), (1600, 2100, 3)] {
                        for answer in [0, 1, 2] {
                            let rooms = LockRooms::new(r, packets, text, counts, answer);
                            let mut points = Points { i: Points::some(r, i).i, q: Points::some(r, q).q, lost: vec![0; lost] };
                            points.lost.iter_mut().skip(2).take(1).for_each(|first| *first = mark);
                            s.lock(r, &long[..length], &ToLock::Points(points), &rooms);
                            let end = r.next();
                            s.lock(r, &long[..length], &ToLock::End(end), &rooms);
                        }
                    }
                }
                for rate in 0..8 {
                    s.lock_fresh(r, length, rate);
                }
            }
        }
    });
    if s.only_kind.is_none() {
        println!("states of a lock: {accepted} stood for one, {refused} for none; calls: {:?}", s.lock_told);
        assert!(accepted > 20_000 && refused > 20_000 && s.lock_told.each_at_least(100));
    }
}

fn main() {
    let mut arguments = std::env::args().skip(1);
    let only_kind = arguments.next();
    let only_case = arguments.next().map(|case| case.parse().expect("a case"));
    let lent = [15_124, 24_000, 6_000, 2, 6_000, 24_000, 2_100, 24].map(Guarded::new);
    let mut s = Score { only_kind, only_case, kind: "", case: 0, passed: 0, failed: 0, passed_all: 0, failed_all: 0, lent, lock_told: LockTold::default() };
    sender_kinds(&mut s);
    reader_kinds(&mut s);
    receiver_kinds(&mut s);
    lock_kinds(&mut s);
    println!("comparisons of states: {} passed, {} failed", s.passed_all, s.failed_all);
    if s.failed_all > 0 {
        std::process::exit(1);
    }
}
