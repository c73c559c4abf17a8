//! Transport multiplex adaptation and randomization for energy dispersal
//! (clause 4.4.1), as the shift register of figure 2, bit by bit.

use crate::answer::Answer;
use crate::{GROUP_LENGTH, INVERTED_SYNC, PACKET_LENGTH, SYNC};

/// Stages 1 to 15 of the PRBS generator, 1 + x^14 + x^15.
pub struct Prbs {
    stages: [u8; 15],
}

impl Prbs {
    /// "100101010000000", loaded at the start of every eight packets.
    pub fn loaded() -> Self {
        Prbs { stages: [1, 0, 0, 1, 0, 1, 0, 1, 0, 0, 0, 0, 0, 0, 0] }
    }

    pub fn bit(&mut self) -> u8 {
        let out = self.stages[13] ^ self.stages[14];
        for i in (1..15).rev() {
            self.stages[i] = self.stages[i - 1];
        }
        self.stages[0] = out;
        out
    }

    /// Eight bits; the first one meets the top bit.
    pub fn byte(&mut self) -> u8 {
        (0..8).fold(0, |byte, _| byte << 1 | self.bit())
    }
}

/// The generator as it stands when the packet at `place` of its group begins.
/// It begins with the first byte after the inverted sync byte and runs on
/// during the other seven sync bytes.
fn generator_at(place: usize) -> Prbs {
    let mut prbs = Prbs::loaded();
    if place > 0 {
        for _ in 0..place * PACKET_LENGTH - 1 {
            prbs.byte();
        }
    }
    prbs
}

/// The packet with the sync byte `first` and its other bytes xored.
fn apply(place: usize, packet: &[u8], first: u8, output: &mut [u8]) {
    let mut prbs = generator_at(place);
    if place > 0 {
        prbs.byte(); // runs on, output disabled
    }
    output[0] = first;
    for n in 1..PACKET_LENGTH {
        output[n] = packet[n] ^ prbs.byte();
    }
}

pub fn randomize(place: u8, packet: &[u8], output: &mut [u8]) -> Answer {
    if place as usize >= GROUP_LENGTH {
        return Answer::StateRange;
    }
    if packet.len() != PACKET_LENGTH {
        return Answer::PacketLength;
    }
    if packet[0] != SYNC {
        return Answer::SyncByte;
    }
    if output.len() < PACKET_LENGTH {
        return Answer::ShortOutput;
    }
    let first = if place == 0 { INVERTED_SYNC } else { SYNC };
    apply(place as usize, packet, first, output);
    Answer::Done
}

/// The same, and writes 47 hex first, whatever came there.
pub fn derandomize(place: u8, packet: &[u8], output: &mut [u8]) -> Answer {
    if place as usize >= GROUP_LENGTH {
        return Answer::StateRange;
    }
    if packet.len() != PACKET_LENGTH {
        return Answer::PacketLength;
    }
    if output.len() < PACKET_LENGTH {
        return Answer::ShortOutput;
    }
    apply(place as usize, packet, SYNC, output);
    Answer::Done
}

#[cfg(test)]
mod tests {
    use super::*;

    #[test]
    fn the_generator_begins_as_published() {
        let mut prbs = Prbs::loaded();
        let first: Vec<u8> = (0..4).map(|_| prbs.byte()).collect();
        assert_eq!(first, [0x03, 0xF6, 0x08, 0x34]);
    }

    #[test]
    fn first_and_second_packet_of_a_group() {
        let mut packet = [0; 188];
        packet[0] = SYNC;
        let mut output = [0; 188];
        assert_eq!(randomize(0, &packet, &mut output), Answer::Done);
        assert_eq!(output[..5], [0xB8, 0x03, 0xF6, 0x08, 0x34]);
        assert_eq!(randomize(1, &packet, &mut output), Answer::Done);
        assert_eq!(output[0], SYNC);
    }

    #[test]
    fn a_group_uses_1503_bytes() {
        // One generator run through a whole group gives the same eight packets.
        let mut prbs = Prbs::loaded();
        let mut used = 0;
        let mut packet = [0; 188];
        packet[0] = SYNC;
        for place in 0..8 {
            let mut output = [0; 188];
            randomize(place, &packet, &mut output);
            for n in 0..188 {
                if place == 0 && n == 0 {
                    assert_eq!(output[0], INVERTED_SYNC);
                    continue;
                }
                let byte = prbs.byte();
                used += 1;
                assert_eq!(output[n], if n == 0 { SYNC } else { byte });
            }
        }
        assert_eq!(used, 1503);
    }

    #[test]
    fn refusals_in_order() {
        let packet = [SYNC; 188];
        let mut output = [9; 188];
        assert_eq!(randomize(8, &packet[..1], &mut output[..0]), Answer::StateRange);
        assert_eq!(randomize(7, &[0; 187], &mut output[..0]), Answer::PacketLength);
        assert_eq!(randomize(7, &[0; 188], &mut output[..0]), Answer::SyncByte);
        assert_eq!(randomize(7, &packet, &mut output[..187]), Answer::ShortOutput);
        assert_eq!(derandomize(7, &[0; 188], &mut output[..187]), Answer::ShortOutput);
        assert_eq!(output, [9; 188]);
    }
}
