//! Inputs and states for the comparisons: seeded, and so the same in every run.

use crate::bridge::expected::{self, STATE_LENGTH};
use crate::receiver::{FILLING, MOST_BLOCKS};
use crate::sender::interleaved_stream;
use crate::xorshift::Xorshift;
use crate::{BLOCK_LENGTH, PACKET_LENGTH, SYNC};

/// Where the parts of a state begin that are not its cells.
const POSITIONS: usize = 1122;
const PLACE: usize = 1134;
const COUNTS: usize = 1136;
const MARKS: usize = 1200;

/// Packets that begin with the sync byte.
pub fn packets(r: &mut Xorshift, count: usize) -> Vec<u8> {
    let mut all = r.bytes(PACKET_LENGTH * count);
    all.iter_mut().step_by(PACKET_LENGTH).for_each(|byte| *byte = SYNC);
    all
}

/// The blocks of a sender, begun at any of them, harmed or not, some of them left out or doubled.
pub fn stream(r: &mut Xorshift, blocks: usize) -> Vec<u8> {
    let from = r.below(9);
    let sent = packets(r, from + blocks);
    let mut all = interleaved_stream(&sent).split_off(BLOCK_LENGTH * from);
    match r.below(4) {
        0 => (),
        1 => {
            let one_in = 15 + r.below(200);
            for byte in all.iter_mut() {
                if r.below(one_in) == 0 {
                    *byte = r.byte();
                }
            }
        }
        2 => {
            let (low, length) = (r.below(all.len()), r.below(1500));
            let high = (low + length).min(all.len());
            all[low..high].iter_mut().for_each(|byte| *byte = r.byte());
        }
        _ => {
            let at = BLOCK_LENGTH * r.below(blocks);
            if r.below(2) == 0 {
                all.drain(at..at + BLOCK_LENGTH);
            } else {
                let again = all[at..at + BLOCK_LENGTH].to_vec();
                all.splice(at..at, again);
            }
        }
    }
    all
}

/// The state of a receiver of blocks in range, which a pass may reach or not.
pub fn block_receiver(r: &mut Xorshift) -> Vec<u8> {
    let mut state = r.bytes(STATE_LENGTH);
    if r.below(2) == 0 {
        state[..POSITIONS].fill(0);
    }
    for branch in 0..12 {
        state[POSITIONS + branch] = r.below((187 - 17 * branch).max(1)) as u8;
    }
    state[PLACE] = r.below(9) as u8;
    state[PLACE + 1] = if state[PLACE] == 8 { 0 } else { r.below(2) as u8 };
    let most = [5, 11, 12, 300, MOST_BLOCKS - 1, MOST_BLOCKS][r.below(6)];
    let filling = most.min(FILLING);
    let mut left = most - filling;
    let mut share = |r: &mut Xorshift| {
        let some = if left == 0 { 0 } else { r.next() % (left + 1) };
        left -= some;
        some
    };
    let (delivered, lost, waiting) = (share(r), share(r), share(r));
    let outofstep = most - filling - delivered - lost - waiting;
    let accepted = delivered + waiting + outofstep;
    let changed = [0, 16 * accepted, r.next() % (16 * accepted + 1)][r.below(3)];
    let bits = [changed, 8 * changed, changed + r.next() % (7 * changed + 1)][r.below(3)];
    let counts = [most, filling, delivered, lost, waiting, outofstep, changed, bits];
    for (k, count) in counts.iter().enumerate() {
        state[COUNTS + 8 * k..COUNTS + 8 * k + 8].copy_from_slice(&count.to_le_bytes());
    }
    // No marks, some, or as many as not.
    let one_in = [0, 40, 2][r.below(3)];
    state[MARKS..].iter_mut().for_each(|mark| *mark = (one_in > 0 && r.below(one_in.max(1)) == 0) as u8);
    assert!(expected::read(&state).is_some());
    state
}
