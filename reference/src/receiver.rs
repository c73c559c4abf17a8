//! The block receiver of document 01: delays, outer decoding (with marks, document 02,
//! P11), group place (as document 02 amends it under P4), derandomizing, and the
//! counts of a pass.

use crate::answer::Answer;
use crate::interleaver::Branches;
use crate::{randomizer, reed_solomon, BLOCK_LENGTH, GROUP_LENGTH, INVERTED_SYNC, PACKET_LENGTH, SYNC};

/// Blocks until every byte of the first one has left the delays.
pub const FILLING: u64 = 11;
pub const MOST_BLOCKS: u64 = 4_294_967_295;

#[derive(Clone, Copy, Debug, Default, PartialEq, Eq)]
pub struct Counts {
    pub taken: u64,
    pub filling: u64,
    pub delivered: u64,
    pub lost: u64,
    pub waiting: u64,
    pub outofstep: u64,
    pub changed: u64,
    pub bits: u64,
}

impl Counts {
    pub fn in_order(&self) -> [u64; 8] {
        [self.taken, self.filling, self.delivered, self.lost, self.waiting, self.outofstep, self.changed, self.bits]
    }
}

pub struct Receiver {
    pub branches: Branches,
    /// The marks, delayed as their bytes are.
    pub marks: Branches,
    pub place: Option<usize>,
    /// The mark: the last block that was not lost began with neither sync byte.
    pub odd: bool,
    pub counts: Counts,
}

impl Receiver {
    pub fn fresh() -> Self {
        Receiver { branches: Branches::deinterleaver(), marks: Branches::deinterleaver(), place: None, odd: false, counts: Counts::default() }
    }

    pub fn counts(&self) -> Counts {
        self.counts
    }

    /// One block without marks: they are 0 where none come.
    pub fn receive(&mut self, block: &[u8], output: &mut [u8]) -> Answer {
        self.receive_marked(block, &[0; BLOCK_LENGTH], output)
    }

    /// One block and its marks; a packet is in the output where the answer is Done.
    pub fn receive_marked(&mut self, block: &[u8], marks: &[u8], output: &mut [u8]) -> Answer {
        if block.len() != BLOCK_LENGTH {
            return Answer::BlockLength;
        }
        if !reed_solomon::are_marks(marks, BLOCK_LENGTH) {
            return Answer::MarkValue;
        }
        if output.len() < PACKET_LENGTH {
            return Answer::ShortOutput;
        }
        if self.counts.taken == MOST_BLOCKS {
            return Answer::Full;
        }
        let answer = self.take(block, marks, output);
        self.counts.taken += 1;
        match answer {
            Answer::Done => self.counts.delivered += 1,
            Answer::NoCodeword => self.counts.lost += 1,
            Answer::Filling => self.counts.filling += 1,
            Answer::Waiting => self.counts.waiting += 1,
            Answer::OutOfStep => self.counts.outofstep += 1,
            other => unreachable!("{other:?}"),
        }
        answer
    }

    fn take(&mut self, block: &[u8], marks: &[u8], output: &mut [u8]) -> Answer {
        let mut ordered = [0; BLOCK_LENGTH];
        self.branches.pass(block, &mut ordered);
        let mut erased = [0; BLOCK_LENGTH];
        self.marks.pass(marks, &mut erased);
        if self.counts.taken < FILLING {
            return Answer::Filling;
        }
        let (answer, changed) = reed_solomon::decode_marked(&mut ordered, &erased);
        if answer == Answer::NoCodeword {
            // Lost blocks don't count either way: the mark stays.
            self.place = self.place.map(|place| (place + 1) % GROUP_LENGTH);
            return Answer::NoCodeword;
        }
        // Accepted, whatever becomes of it: its changes count.
        self.counts.changed += changed.bytes as u64;
        self.counts.bits += changed.bits as u64;
        match (ordered[0], self.place) {
            // B8 is place 0, due or not.
            (INVERTED_SYNC, _) => self.give(0, &ordered, output),
            (_, None) => Answer::Waiting,
            (SYNC, Some(place)) if place > 0 => self.give(place, &ordered, output),
            (SYNC, Some(_)) => self.lose_place(),
            (_, Some(_)) if self.odd => self.lose_place(),
            (_, Some(place)) => {
                self.place = Some((place + 1) % GROUP_LENGTH);
                self.odd = true;
                Answer::OutOfStep
            }
        }
    }

    fn give(&mut self, place: usize, ordered: &[u8], output: &mut [u8]) -> Answer {
        self.place = Some((place + 1) % GROUP_LENGTH);
        self.odd = false;
        randomizer::derandomize(place as u8, &ordered[..PACKET_LENGTH], output)
    }

    fn lose_place(&mut self) -> Answer {
        self.place = None;
        self.odd = false;
        Answer::OutOfStep
    }
}

#[cfg(test)]
mod tests {
    use super::*;
    use crate::sender::interleaved_stream;
    use crate::xorshift::Xorshift;

    fn run(stream: &[u8]) -> (Vec<Answer>, Vec<u8>, Counts) {
        let mut receiver = Receiver::fresh();
        let (mut answers, mut packets) = (Vec::new(), Vec::new());
        for block in stream.chunks_exact(204) {
            let mut output = [0; 188];
            let answer = receiver.receive(block, &mut output);
            if answer == Answer::Done {
                packets.extend(output);
            }
            answers.push(answer);
        }
        (answers, packets, receiver.counts())
    }

    fn packets(r: &mut Xorshift, count: usize) -> Vec<u8> {
        let mut p = r.bytes(188 * count);
        p.iter_mut().step_by(188).for_each(|byte| *byte = SYNC);
        p
    }

    #[test]
    fn zeros_are_filling_and_then_waiting() {
        let (answers, _, counts) = run(&[0; 2752]);
        assert_eq!(answers.len(), 13);
        assert_eq!(counts.in_order(), [13, 11, 0, 0, 2, 0, 0, 0]);
    }

    #[test]
    fn an_unharmed_stream_gives_all_but_eleven() {
        let mut r = Xorshift::new(7);
        let sent = packets(&mut r, 50);
        let (answers, got, counts) = run(&interleaved_stream(&sent));
        assert_eq!(answers[..11], [Answer::Filling; 11]);
        assert_eq!(got, sent[..39 * 188]);
        assert_eq!(counts.in_order(), [50, 11, 39, 0, 0, 0, 0, 0]);
    }

    #[test]
    fn a_start_inside_a_group_waits_for_b8() {
        let mut r = Xorshift::new(8);
        let sent = packets(&mut r, 60);
        let stream = interleaved_stream(&sent);
        // From block 3 on: the first whole packet is 3, the next group starts at 8.
        let (answers, got, _) = run(&stream[3 * 204..]);
        assert_eq!(answers[11..16], [Answer::Waiting; 5]);
        assert_eq!(got, sent[8 * 188..49 * 188]);
    }

    /// What a fresh receiver answers for codewords with these first bytes, after
    /// filling. None stands for a block uncorrectable.
    fn answers_for(first_bytes: &[Option<u8>]) -> Vec<u8> {
        let mut stream = Vec::new();
        let mut branches = Branches::interleaver();
        for n in 0..first_bytes.len() + 11 {
            let (mut data, mut coded, mut block) = ([0; 188], [0; 204], [0; 204]);
            data[0] = first_bytes.get(n).copied().flatten().unwrap_or(0);
            reed_solomon::encode(&data, &mut coded);
            if first_bytes.get(n) == Some(&None) {
                (1..=20).for_each(|k| coded[k] = k as u8);
            }
            branches.pass(&coded, &mut block);
            stream.extend(block);
        }
        run(&stream).0[11..].iter().map(|answer| answer.number()).collect()
    }

    const B8: Option<u8> = Some(INVERTED_SYNC);
    const S: Option<u8> = Some(SYNC);
    const ODD: Option<u8> = Some(0x12);
    const LOST: Option<u8> = None;

    #[test]
    fn a_group_start_before_its_time_restarts_the_group() {
        assert_eq!(answers_for(&[B8, S, B8, S, S, S, S, S, S, S, B8, S]), [0; 12]);
        // From the restart on, place 0 is eight blocks later.
        assert_eq!(answers_for(&[B8, S, B8, S, S, S, S, S, S, S, S, S]), [0, 0, 0, 0, 0, 0, 0, 0, 0, 0, 11, 10]);
    }

    #[test]
    fn one_odd_block_costs_itself() {
        assert_eq!(answers_for(&[B8, S, ODD, S, S, S, S, S, B8, S]), [0, 0, 11, 0, 0, 0, 0, 0, 0, 0]);
        assert_eq!(answers_for(&[B8, S, S, S, S, S, S, S, ODD, S]), [0, 0, 0, 0, 0, 0, 0, 0, 11, 0]);
        assert_eq!(answers_for(&[B8, ODD, S, ODD, S, ODD, B8, ODD]), [0, 11, 0, 11, 0, 11, 0, 11]);
    }

    #[test]
    fn a_second_odd_block_loses_the_place() {
        assert_eq!(answers_for(&[B8, ODD, ODD, S, S, B8, S]), [0, 11, 11, 10, 10, 0, 0]);
        assert_eq!(answers_for(&[B8, ODD, LOST, LOST, ODD, S]), [0, 11, 8, 8, 11, 10]);
        // The mark is gone with the place.
        assert_eq!(answers_for(&[B8, ODD, ODD, B8, ODD, S]), [0, 11, 11, 0, 11, 0]);
    }

    #[test]
    fn a_plain_sync_byte_at_place_0_loses_the_place() {
        assert_eq!(answers_for(&[B8, S, S, S, S, S, S, S, S, S]), [0, 0, 0, 0, 0, 0, 0, 0, 11, 10]);
        assert_eq!(answers_for(&[B8, S, S, S, S, S, S, ODD, S, S]), [0, 0, 0, 0, 0, 0, 0, 11, 11, 10]);
    }

    #[test]
    fn marks_are_delayed_as_their_bytes_are() {
        let mut r = Xorshift::new(10);
        let sent = packets(&mut r, 40);
        let mut stream = interleaved_stream(&sent);
        // Sixteen wrong bytes, all marked, in each block that the delays give: byte n of block p came as byte 204 (p + n mod 12) + n.
        let mut marks = vec![0; stream.len()];
        for p in 0..29 {
            for n in r.places(16, 204) {
                let at = 204 * (p + n % 12) + n;
                stream[at] ^= 1 + r.below(255) as u8;
                marks[at] = 1;
            }
        }
        let (mut receiver, mut got) = (Receiver::fresh(), Vec::new());
        for (block, marked) in stream.chunks_exact(204).zip(marks.chunks_exact(204)) {
            let mut output = [0; 188];
            if receiver.receive_marked(block, marked, &mut output) == Answer::Done {
                got.extend(output);
            }
        }
        assert_eq!(got, sent[..29 * 188]);
        assert_eq!(receiver.counts().in_order()[..7], [40, 11, 29, 0, 0, 0, 29 * 16]);
    }

    #[test]
    fn refusals_count_nowhere() {
        let mut receiver = Receiver::fresh();
        assert_eq!(receiver.receive_marked(&[0; 203], &[2; 204], &mut [0; 0]), Answer::BlockLength);
        assert_eq!(receiver.receive_marked(&[0; 204], &[2; 204], &mut [0; 0]), Answer::MarkValue);
        assert_eq!(receiver.receive_marked(&[0; 204], &[0; 203], &mut [0; 0]), Answer::MarkValue);
        assert_eq!(receiver.receive(&[0; 203], &mut [0; 0]), Answer::BlockLength);
        assert_eq!(receiver.receive(&[0; 204], &mut [0; 187]), Answer::ShortOutput);
        assert_eq!(receiver.counts(), Counts::default());
        receiver.counts.taken = MOST_BLOCKS;
        assert_eq!(receiver.receive(&[0; 204], &mut [0; 188]), Answer::Full);
        assert_eq!(receiver.counts.taken, MOST_BLOCKS);
    }
}
