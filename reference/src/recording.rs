//! One block of a recording, corrected (document 02, P5), by its definition: what a
//! fresh receiver's outer decoder has at its call p + 12.

use crate::answer::Answer;
use crate::interleaver::Branches;
use crate::receiver::MOST_BLOCKS;
use crate::reed_solomon::{self, Changed};
use crate::BLOCK_LENGTH;

/// The block of a recording that is said to have so many whole blocks: the answer,
/// and how many bytes and bits were changed.
pub fn decoded_block(recording: &[u8], blocks: u64, p: u64, output: &mut [u8]) -> (Answer, Changed) {
    if blocks != (recording.len() / BLOCK_LENGTH) as u64 {
        return (Answer::StateRange, Changed::default());
    }
    // In 128 bits p + 12 does not wrap.
    if p as u128 + 12 > blocks.min(MOST_BLOCKS) as u128 {
        return (Answer::NoSuchBlock, Changed::default());
    }
    if output.len() < BLOCK_LENGTH {
        return (Answer::ShortOutput, Changed::default());
    }
    let mut branches = Branches::deinterleaver();
    let mut ordered = [0; BLOCK_LENGTH];
    for block in recording.chunks_exact(BLOCK_LENGTH).take(p as usize + 12) {
        branches.pass(block, &mut ordered);
    }
    let (answer, changed) = reed_solomon::decode(&mut ordered);
    if answer == Answer::Done {
        output[..BLOCK_LENGTH].copy_from_slice(&ordered);
    }
    (answer, changed)
}

#[cfg(test)]
mod tests {
    use super::*;
    use crate::sender::interleaved_stream;
    use crate::xorshift::Xorshift;
    use crate::{INVERTED_SYNC, SYNC};

    #[test]
    fn the_blocks_of_an_unharmed_recording() {
        let mut r = Xorshift::new(9);
        let mut packets = r.bytes(188 * 30);
        packets.iter_mut().step_by(188).for_each(|byte| *byte = SYNC);
        let recording = interleaved_stream(&packets);
        for p in 0..19 {
            let mut output = [0; 204];
            assert_eq!(decoded_block(&recording, 30, p, &mut output), (Answer::Done, Changed::default()));
            assert_eq!(output[0], if p % 8 == 0 { INVERTED_SYNC } else { SYNC });
        }
        assert_eq!(decoded_block(&recording, 30, 19, &mut [0; 204]).0, Answer::NoSuchBlock);
        assert_eq!(decoded_block(&recording, 30, u64::MAX, &mut [0; 204]).0, Answer::NoSuchBlock);
        assert_eq!(decoded_block(&recording, 31, 19, &mut [0; 203]).0, Answer::StateRange);
        assert_eq!(decoded_block(&recording, 30, 18, &mut [0; 203]).0, Answer::ShortOutput);
    }
}
