//! Convolutional interleaving, Forney approach, I = 12, M = 17 (clause 4.4.2,
//! figure 4), as twelve first-in first-out queues.

use crate::answer::Answer;
use crate::BLOCK_LENGTH;
use std::collections::VecDeque;

pub const BRANCHES: usize = 12;
pub const DEPTH: usize = 17;

pub struct Branches {
    /// The oldest byte of each in front.
    pub queues: Vec<VecDeque<u8>>,
}

impl Branches {
    fn with_cells(cells: impl Fn(usize) -> usize) -> Self {
        let queues = (0..BRANCHES).map(|j| VecDeque::from(vec![0; cells(j)])).collect();
        Branches { queues }
    }

    /// Sending side: 17 j cells in branch j.
    pub fn interleaver() -> Self {
        Self::with_cells(|j| DEPTH * j)
    }

    /// Receiving side: branch indexes reversed (note 1).
    pub fn deinterleaver() -> Self {
        Self::with_cells(|j| DEPTH * (BRANCHES - 1 - j))
    }

    /// A block begins at branch 0; 204 is 17 times 12.
    pub fn pass(&mut self, block: &[u8], output: &mut [u8]) -> Answer {
        if block.len() != BLOCK_LENGTH {
            return Answer::BlockLength;
        }
        if output.len() < BLOCK_LENGTH {
            return Answer::ShortOutput;
        }
        for n in 0..BLOCK_LENGTH {
            let queue = &mut self.queues[n % BRANCHES];
            queue.push_back(block[n]);
            output[n] = queue.pop_front().expect("just pushed");
        }
        Answer::Done
    }
}

#[cfg(test)]
mod tests {
    use super::*;
    use crate::xorshift::Xorshift;

    #[test]
    fn the_first_block_keeps_seventeen_bytes() {
        let mut output = [7; 204];
        assert_eq!(Branches::interleaver().pass(&[0xFF; 204], &mut output), Answer::Done);
        for n in 0..204 {
            assert_eq!(output[n], if n % 12 == 0 { 0xFF } else { 0 });
        }
    }

    #[test]
    fn delays_of_each_side_and_of_both() {
        let mut r = Xorshift::new(4);
        let (mut there, mut back) = (Branches::interleaver(), Branches::deinterleaver());
        assert_eq!(there.queues.iter().map(VecDeque::len).sum::<usize>(), 1122);
        assert_eq!(back.queues.iter().map(VecDeque::len).sum::<usize>(), 1122);
        let (mut sent, mut line) = (Vec::new(), Vec::new());
        for b in 0..60 {
            let block = r.bytes(204);
            let (mut a, mut c) = ([0; 204], [0; 204]);
            there.pass(&block, &mut a);
            back.pass(&a, &mut c);
            sent.push(block);
            line.push(a);
            for n in 0..204 {
                let late = n % 12;
                assert_eq!(a[n], if b >= late { sent[b - late][n] } else { 0 });
                assert_eq!(c[n], if b >= 11 { sent[b - 11][n] } else { 0 });
            }
        }
    }

    #[test]
    fn lengths() {
        let mut b = Branches::interleaver();
        assert_eq!(b.pass(&[0; 203], &mut [0; 204]), Answer::BlockLength);
        assert_eq!(b.pass(&[0; 205], &mut [0; 0]), Answer::BlockLength);
        assert_eq!(b.pass(&[0; 204], &mut [0; 203]), Answer::ShortOutput);
    }
}
