//! Compares the part for the bridge with the reference, and with the library's own
//! receiver: answers and every byte of state and output, on seeded, repeatable inputs.
//! What the library is lent ends, or begins, where memory may not be touched.
//!
//! `compare_bridge` runs all; `compare_bridge KIND` one kind; `compare_bridge KIND CASE` one case.

use reference::bridge::expected::STATE_LENGTH;
use reference::bridge::{expected, library};
use reference::guarded::Guarded;
use reference::receiver::{FILLING, MOST_BLOCKS};
use reference::samples::{block_receiver, packets, stream};
use reference::sender::interleaved_stream;
use reference::xorshift::Xorshift;
use reference::{exports, BLOCK_LENGTH, INVERTED_SYNC, PACKET_LENGTH, SYNC};

/// Where the parts of a state begin that are not its cells, and its counts.
const POSITIONS: usize = 1122;
const PLACE: usize = 1134;
const COUNTS: usize = 1136;
const MARKS: usize = 1200;

struct Score {
    only_kind: Option<String>,
    only_case: Option<u64>,
    kind: &'static str,
    case: u64,
    passed: u64,
    failed: u64,
    passed_all: u64,
    failed_all: u64,
    state: Guarded,
    block: Guarded,
    output: Guarded,
}

impl Score {
    fn kind(&mut self, kind: &'static str, cases: u64, mut run: impl FnMut(&mut Score, &mut Xorshift, u64)) {
        if self.only_kind.as_deref().map_or(false, |only| only != kind) {
            return;
        }
        (self.kind, self.passed, self.failed) = (kind, 0, 0);
        let name = kind.bytes().fold(0x300_421_u64, |sum, b| sum.wrapping_mul(257) ^ b as u64);
        for case in 0..cases {
            if self.only_case.map_or(false, |only| only != case) {
                continue;
            }
            self.case = case;
            run(self, &mut Xorshift::new(name.wrapping_mul(1 << 24).wrapping_add(case)), case);
        }
        println!("bridge, {kind}: {} compared, {} different", self.passed + self.failed, self.failed);
        self.passed_all += self.passed;
        self.failed_all += self.failed;
    }

    fn same(&mut self, inputs: &str, want: (u8, &[u8], &[u8]), got: (u8, &[u8], &[u8])) {
        if want == got {
            self.passed += 1;
            return;
        }
        self.failed += 1;
        if self.failed <= 5 {
            println!("DIFFERENT {} {}: {inputs}", self.kind, self.case);
            println!("  answer: reference {}, library {}", want.0, got.0);
            let differs = |a: &[u8], b: &[u8]| a.iter().zip(b).position(|(x, y)| x != y);
            println!("  first byte that differs: state {:?}, output {:?}", differs(want.1, got.1), differs(want.2, got.2));
        }
    }

    /// Takes a block on both sides: the answer, the state and the output after it.
    fn take(&mut self, r: &mut Xorshift, state: &[u8], block: &[u8], output: &[u8]) -> (u8, Vec<u8>, Vec<u8>) {
        let (mut a, mut b) = (state.to_vec(), output.to_vec());
        let want = expected::take(&mut a, block, &mut b);
        let at_end = r.below(2) == 0;
        let lent = self.state.lend(state, at_end);
        let lent_output = self.output.lend(output, at_end);
        let got = library::take(lent, self.block.lend(block, at_end), lent_output);
        let (lent, lent_output) = (lent.to_vec(), lent_output.to_vec());
        let inputs = format!("take, state of {}, block of {}, output of {}", state.len(), block.len(), output.len());
        self.same(&inputs, (want, &a, &b), (got, &lent, &lent_output));
        (got, lent, lent_output)
    }

    fn count(&mut self, r: &mut Xorshift, state: &[u8], number: u8, output: &[u8]) -> (u8, Vec<u8>) {
        let mut b = output.to_vec();
        let want = expected::count(state, number, &mut b);
        let at_end = r.below(2) == 0;
        let lent = self.state.lend(state, at_end);
        let lent_output = self.output.lend(output, at_end);
        let got = library::count(lent, number, lent_output);
        let (lent, lent_output) = (lent.to_vec(), lent_output.to_vec());
        let inputs = format!("count {number}, state of {}, output of {}", state.len(), output.len());
        self.same(&inputs, (want, state, &b), (got, &lent, &lent_output));
        (got, lent_output)
    }

    fn fresh(&mut self, r: &mut Xorshift, length: usize) -> (u8, Vec<u8>) {
        let before = r.bytes(length);
        let mut a = before.clone();
        let want = expected::fresh(&mut a);
        let lent = self.state.lend(&before, r.below(2) == 0);
        let got = library::fresh(lent);
        let lent = lent.to_vec();
        self.same(&format!("fresh, state of {length}"), (want, &a, &[]), (got, &lent, &[]));
        (got, lent)
    }
}

/// A block that makes a codeword come out of these cells cannot be known; any bytes, and zeros, which make one of zeros.
fn some_block(r: &mut Xorshift) -> Vec<u8> {
    if r.below(2) == 0 {
        vec![0; BLOCK_LENGTH]
    } else {
        r.bytes(BLOCK_LENGTH)
    }
}

fn pass_kinds(s: &mut Score) {
    // Beside the reference after every block, with the state moved to other memory between every two; at the end beside the library's own receiver.
    s.kind("passes", 300, |s, r, case| {
        let blocks = if case < 30 { case as usize } else { 12 + r.below(80) };
        let all = if blocks == 0 { Vec::new() } else { stream(r, blocks) };
        let (answer, mut state) = s.fresh(r, STATE_LENGTH);
        assert_eq!(answer, 0);
        let mut given = Vec::new();
        for block in all.chunks_exact(BLOCK_LENGTH) {
            let more = r.below(3);
            let output = r.bytes(PACKET_LENGTH + more);
            let (answer, after, left) = s.take(r, &state, block, &output);
            if answer == 0 {
                given.extend(&left[..PACKET_LENGTH]);
            }
            // A call that is refused in between changes nothing.
            if r.below(8) == 0 {
                s.take(r, &after, &block[1..], &output);
                s.take(r, &after, block, &output[..PACKET_LENGTH - 1]);
            }
            state = after;
        }
        let mut counts = Vec::new();
        for number in 0..8 {
            let (answer, count) = s.count(r, &state, number, &[0xA5; 8]);
            assert_eq!(answer, 0);
            counts.extend(count);
        }
        let (mut output, mut own, mut told) = (vec![0; PACKET_LENGTH * (all.len() / BLOCK_LENGTH)], vec![0; 64], [0xA5]);
        let written = exports::library::receive_run(&all, &mut output, &mut own, &mut told) as usize;
        s.same("the library's receiver", (told[0], &own, &output[..written]), (0, &counts, &given));
    });
}

fn state_kinds(s: &mut Score) {
    let (mut accepted, mut refused) = (0u64, 0u64);
    let mut tell = |answer: u8| if answer == 5 { refused += 1 } else { accepted += 1 };
    s.kind("random states", 500_000, |s, r, case| {
        // All bytes at random; only cells and marks in range; all in range; all but one byte.
        let mut state = block_receiver(r);
        match case % 4 {
            0 => state = r.bytes(STATE_LENGTH),
            1 => {
                let few = r.bytes(MARKS - POSITIONS);
                state[POSITIONS..MARKS].copy_from_slice(&few);
            }
            2 => (),
            _ => {
                let (low, high) = [(POSITIONS, MARKS), (MARKS, STATE_LENGTH)][r.below(2)];
                state[low + r.below(high - low)] = r.byte();
            }
        }
        let length = [0, 187, 188, 189][r.below(4)];
        let output = r.bytes(length);
        let block = some_block(r);
        tell(s.take(r, &state, &block, &output).0);
        let number = r.byte() % 10;
        let length = r.below(10);
        let lent = r.bytes(length);
        s.count(r, &state, number, &lent);
    });
    // Every bit that is no cell's and no mark's, and some of those.
    const BITS: usize = 8 * (MARKS - POSITIONS);
    s.kind("single bits of states in range", 800, |s, r, case| {
        let mut state = block_receiver(r);
        if case % 2 == 0 {
            let reached = 13 + r.below(20);
            expected::fresh(&mut state);
            let output = &mut [0; PACKET_LENGTH];
            for block in stream(r, reached).chunks_exact(BLOCK_LENGTH) {
                expected::take(&mut state, block, output);
            }
        }
        let block = some_block(r);
        let output = r.bytes(PACKET_LENGTH);
        for bit in 0..BITS + 80 {
            let bit = match bit.checked_sub(BITS) {
                None => 8 * POSITIONS + bit,
                Some(0..=15) => r.below(8 * POSITIONS),
                Some(_) => 8 * MARKS + r.below(8 * (STATE_LENGTH - MARKS)),
            };
            let mut other = state.clone();
            other[bit / 8] ^= 1 << (bit % 8);
            tell(s.take(r, &other, &block, &output).0);
            s.count(r, &other, (bit % 8) as u8, &output[..8]);
        }
    });
    if s.only_kind.is_none() {
        println!("bridge, states: {accepted} stood for a receiver, {refused} for none");
        assert!(accepted > 100_000 && refused > 100_000);
    }
}

fn refusal_kinds(s: &mut Score) {
    s.kind("refusals", 256, |s, r, case| {
        let states = [block_receiver(r), r.bytes(STATE_LENGTH)];
        for state in states {
            let mut long = state.clone();
            long.extend(r.bytes(3));
            for length in [0, 1, case as usize, STATE_LENGTH - 1, STATE_LENGTH, STATE_LENGTH + 1, STATE_LENGTH + 3] {
                for block in [0, 203, 204, 205] {
                    for output in [0, 187, 188] {
                        let (block, output) = (r.bytes(block), r.bytes(output));
                        s.take(r, &long[..length], &block, &output);
                    }
                }
                for output in 0..10 {
                    let output = r.bytes(output);
                    s.count(r, &long[..length], case as u8, &output);
                }
                s.fresh(r, length);
            }
        }
    });
    // The last block that can be counted, and the one after it.
    s.kind("full counts", 200, |s, r, _| {
        let mut state = block_receiver(r);
        let mut numbers = [MOST_BLOCKS - 1, FILLING, 0, MOST_BLOCKS - 1 - FILLING, 0, 0, 0, 0];
        if r.below(2) == 0 {
            numbers.swap(2, 3);
            numbers[6] = 16 * numbers[2];
            numbers[7] = 8 * numbers[6];
        }
        for (k, count) in numbers.iter().enumerate() {
            state[COUNTS + 8 * k..COUNTS + 8 * k + 8].copy_from_slice(&count.to_le_bytes());
        }
        let (block, output) = (some_block(r), r.bytes(PACKET_LENGTH));
        let (answer, after, _) = s.take(r, &state, &block, &output);
        assert_ne!(answer, 7);
        assert_eq!(s.take(r, &after, &block, &output).0, 7);
        for number in 0..8 {
            s.count(r, &after, number, &output);
        }
    });
    // Marks that came before the bridge takes over act when their bytes leave the delays. The wrong bytes of each block are among the seventeen
    // of its first branch, which come eleven blocks before it leaves: so those of the blocks that came before are marked, all of them, and sixteen are
    // corrected; those of the blocks after are not, and eight are.
    s.kind("marks in the delays", 180, |s, r, case| {
        let wrong = case as usize % 18;
        let sent = packets(r, 40);
        let mut all = interleaved_stream(&sent);
        let mut marks = vec![0; all.len()];
        for p in 0..40 {
            for i in r.places(wrong, 17) {
                let at = BLOCK_LENGTH * p + 12 * i;
                all[at] ^= 1 + r.byte() % 255;
                marks[at] = 1;
            }
        }
        let mut state = vec![0; STATE_LENGTH];
        expected::fresh(&mut state);
        let turn = 11 + r.below(12);
        let mut lost = Vec::new();
        for (k, (block, marked)) in all.chunks_exact(BLOCK_LENGTH).zip(marks.chunks_exact(BLOCK_LENGTH)).enumerate() {
            let mut output = r.bytes(PACKET_LENGTH);
            if k < turn {
                expected::take_marked(&mut state, block, marked, &mut output);
            } else {
                let (answer, after, _) = s.take(r, &state, block, &output);
                lost.push(answer == 8);
                state = after;
            }
        }
        assert!(lost[..11].iter().all(|one| *one == (wrong > 16)), "{wrong}: {lost:?}");
        assert!(lost[11..].iter().all(|one| *one == (wrong > 8)), "{wrong}: {lost:?}");
    });
    // Sync bytes of all kinds at every place, with the mark and without.
    s.kind("every place", 9 * 2 * 4, |s, r, case| {
        let first = [INVERTED_SYNC, SYNC, 0x12, 0][case as usize % 4];
        let (place, missed) = ((case / 8) as u8, (case / 4 % 2) as u8);
        // A codeword with this first byte comes out of branches whose other bytes are those of it.
        let mut message = [0; PACKET_LENGTH];
        message[0] = first;
        let mut codeword = [0; BLOCK_LENGTH];
        reference::reed_solomon::encode(&message, &mut codeword);
        let mut state = vec![0; STATE_LENGTH];
        expected::fresh(&mut state);
        let mut sent = Vec::new();
        let mut branches = reference::interleaver::Branches::interleaver();
        for _ in 0..24 {
            let mut block = [0; BLOCK_LENGTH];
            branches.pass(&codeword, &mut block);
            sent.push(block);
        }
        for block in &sent[..23] {
            state = s.take(r, &state, block, &[0; PACKET_LENGTH]).1;
        }
        state[PLACE] = place;
        state[PLACE + 1] = missed;
        s.take(r, &state, &sent[23], &[0; PACKET_LENGTH]);
    });
}

fn main() {
    let mut arguments = std::env::args().skip(1);
    let only_kind = arguments.next();
    let only_case = arguments.next().map(|case| case.parse().expect("a case"));
    let page = || Guarded::new(STATE_LENGTH + 3);
    let mut s = Score {
        only_kind,
        only_case,
        kind: "",
        case: 0,
        passed: 0,
        failed: 0,
        passed_all: 0,
        failed_all: 0,
        state: page(),
        block: page(),
        output: page(),
    };
    pass_kinds(&mut s);
    state_kinds(&mut s);
    refusal_kinds(&mut s);
    println!("comparisons of the bridge: {} passed, {} failed", s.passed_all, s.failed_all);
    if s.failed_all > 0 {
        std::process::exit(1);
    }
}
