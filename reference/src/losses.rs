//! What to ask for again: a line for each block of which no packet was given, and
//! for each packet in doubt. From the whole list of blocks, looking back and ahead.

use crate::answer::Answer;
use crate::receiver::Receiver;
use crate::{BLOCK_LENGTH, PACKET_LENGTH};

/// A line: the block, document 02's P5 number, and its answer; Done for a packet
/// that was given and is in doubt.
#[derive(Clone, Copy, Debug, PartialEq, Eq)]
pub struct Line {
    pub block: u64,
    pub answer: Answer,
}

impl Line {
    pub fn number(self) -> u64 {
        16 * self.block + self.answer.number() as u64
    }
}

/// What a fresh receiver made of a block: its answer and the place of its group
/// that it had; the packet, where one was given.
pub struct Block {
    pub answer: Answer,
    pub place: usize,
    pub packet: Vec<u8>,
}

impl Block {
    /// What a receiver makes of a block with its marks; nothing while the delays fill.
    pub fn received(receiver: &mut Receiver, bytes: &[u8], marks: &[u8]) -> Option<Block> {
        let mut packet = vec![0; PACKET_LENGTH];
        let answer = receiver.receive_marked(bytes, marks, &mut packet);
        // Behind a packet the receiver expects the place after the packet's.
        let place = receiver.place.map_or(0, |next| (next + 7) % 8);
        (answer != Answer::Filling).then_some(Block { answer, place, packet })
    }

    pub fn given(&self) -> bool {
        self.answer == Answer::Done
    }

    /// It began with B8.
    fn starts(&self) -> bool {
        self.given() && self.place == 0
    }
}

/// The blocks of a recording, those that came whole: after the eleven that fill
/// the delays. Marks that are missing are 0.
pub fn blocks(recording: &[u8], marks: &[u8]) -> Vec<Block> {
    let mut receiver = Receiver::fresh();
    let mut all = Vec::new();
    for (i, block) in recording.chunks_exact(BLOCK_LENGTH).enumerate() {
        let from = i * BLOCK_LENGTH;
        let own: Vec<u8> = (from..from + BLOCK_LENGTH).map(|at| marks.get(at).copied().unwrap_or(0)).collect();
        all.extend(Block::received(&mut receiver, block, &own));
    }
    all
}

/// A B8 fixes the place, and packets that follow it without a break are sure.
pub fn sure(blocks: &[Block], at: usize) -> bool {
    let unbroken = blocks[..=at].iter().rev().take_while(|block| block.given());
    for block in unbroken {
        if block.starts() {
            return true;
        }
    }
    false
}

/// The next sync byte that can tell: a B8 where it is due, with a packet from every
/// block on the way. Behind another break it could not: that break may be a gap too.
/// Nothing where neither has come yet.
fn confirmed(blocks: &[Block], at: usize) -> Option<bool> {
    let until = 8 - blocks[at].place;
    let ahead = &blocks[at + 1..];
    let mut way = ahead.iter().take(until - 1);
    if way.any(|block| !block.given() || block.starts()) {
        return Some(false);
    }
    ahead.get(until - 1).map(Block::starts)
}

/// Whether a packet that was given is at its place: it is in doubt where not, and where the blocks end before they tell.
pub fn in_place(blocks: &[Block], at: usize) -> Option<bool> {
    if sure(blocks, at) {
        Some(true)
    } else {
        confirmed(blocks, at)
    }
}

pub fn losses(recording: &[u8], marks: &[u8]) -> Vec<Line> {
    lines(&blocks(recording, marks))
}

/// The lines of these blocks.
pub fn lines(blocks: &[Block]) -> Vec<Line> {
    let mut lines = Vec::new();
    for (at, block) in blocks.iter().enumerate() {
        if !block.given() || in_place(blocks, at) != Some(true) {
            lines.push(Line { block: at as u64, answer: block.answer });
        }
    }
    lines
}

#[cfg(test)]
mod tests {
    use super::*;
    use crate::sender::interleaved_stream;
    use crate::xorshift::Xorshift;
    use crate::SYNC;

    fn sent(count: usize) -> Vec<Vec<u8>> {
        let mut packets = Xorshift::new(40).bytes(PACKET_LENGTH * count);
        packets.iter_mut().step_by(PACKET_LENGTH).for_each(|byte| *byte = SYNC);
        interleaved_stream(&packets).chunks(BLOCK_LENGTH).map(<[u8]>::to_vec).collect()
    }

    fn listed(blocks: &[Vec<u8>]) -> Vec<(u64, u8)> {
        losses(&blocks.concat(), &[]).iter().map(|line| (line.block, line.answer.number())).collect()
    }

    /// Block 57 left out: the eleven that it harmed, and the six packets behind them
    /// that are given at the place before theirs.
    #[test]
    fn block_57_left_out() {
        let mut blocks = sent(120);
        blocks.remove(57);
        let want: Vec<(u64, u8)> = (46..57).map(|k| (k, 8)).chain((57..63).map(|k| (k, 0))).collect();
        assert_eq!(listed(&blocks), want);
    }

    /// Three blocks left out, and further on three doubled: the B8 after both is
    /// where it is due, and the packets between them are wrong all the same.
    #[test]
    fn a_second_gap_that_makes_up_for_the_first() {
        let sent = sent(160);
        let blocks = [&sent[..57], &sent[60..73], &sent[70..]].concat();
        let all = self::blocks(&blocks.concat(), &[]);
        let wrong: Vec<usize> = (57..64).filter(|&at| all[at].given() && all[at].place != (at + 3) % 8).collect();
        let lines = listed(&blocks);
        assert!(!wrong.is_empty());
        for at in wrong {
            let next = (at + 1..all.len()).find(|&k| all[k].starts()).unwrap();
            assert_eq!(all[next - 1].place, 7, "the next B8 is where it is due");
            assert!(all[at..next].iter().any(|block| !block.given()), "behind another break");
            assert!(lines.contains(&(at as u64, 0)));
        }
    }

    #[test]
    fn begun_anywhere_without_gap() {
        for from in 0..9 {
            let blocks = sent(60).split_off(from);
            let want: Vec<(u64, u8)> = (0..(8 - from as u64 % 8) % 8).map(|k| (k, 10)).collect();
            assert_eq!(listed(&blocks), want);
        }
    }

    /// A packet that waits at the end of the input is in doubt.
    #[test]
    fn the_end_of_the_input() {
        let mut blocks = sent(120);
        blocks.remove(57);
        blocks.truncate(57 + 3 + 11);
        assert_eq!(listed(&blocks)[11..], [(57, 0), (58, 0), (59, 0)]);
    }
}
