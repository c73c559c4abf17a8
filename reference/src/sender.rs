//! The sending chain (clause 4.1, figure 1, from the packets to the symbols).

use crate::answer::Answer;
use crate::inner_code::InnerCoder;
use crate::interleaver::Branches;
use crate::{randomizer, reed_solomon, BLOCK_LENGTH, GROUP_LENGTH, NULL_PACKET, PACKET_LENGTH, SYNC};

pub struct Sender {
    pub place: usize,
    pub branches: Branches,
    pub inner: InnerCoder,
}

impl Sender {
    pub fn fresh(rate: u8) -> Result<Self, Answer> {
        let inner = InnerCoder::fresh(rate)?;
        Ok(Sender { place: 0, branches: Branches::interleaver(), inner })
    }

    /// The interleaved block of a packet that begins with the sync byte.
    pub fn interleaved(&mut self, packet: &[u8]) -> [u8; BLOCK_LENGTH] {
        let mut randomized = [0; PACKET_LENGTH];
        let mut coded = [0; BLOCK_LENGTH];
        let mut block = [0; BLOCK_LENGTH];
        let a = randomizer::randomize(self.place as u8, packet, &mut randomized);
        let b = reed_solomon::encode(&randomized, &mut coded);
        let c = self.branches.pass(&coded, &mut block);
        assert_eq!([a, b, c], [Answer::Done; 3]);
        self.place = (self.place + 1) % GROUP_LENGTH;
        block
    }

    /// One packet, or no bytes; the answer and how many symbols were written.
    /// A null packet stands in for no bytes and for a packet without the sync byte.
    pub fn send(&mut self, input: &[u8], output: &mut [u8]) -> (Answer, usize) {
        if input.len() != 0 && input.len() != PACKET_LENGTH {
            return (Answer::PacketLength, 0);
        }
        let due = self.inner.symbols_due(8 * BLOCK_LENGTH);
        if output.len() < due {
            return (Answer::ShortOutput, 0);
        }
        let (packet, answer) = match input.first() {
            Some(&SYNC) => (input, Answer::Done),
            _ => (&NULL_PACKET[..], Answer::NullPacket),
        };
        let block = self.interleaved(packet);
        let symbols = self.inner.code(&block);
        assert_eq!(symbols.len(), due);
        output[..due].copy_from_slice(&symbols);
        (answer, due)
    }

    /// How many symbols the next `packets` packets give.
    pub fn symbols_due(&self, packets: usize) -> usize {
        self.inner.symbols_due(8 * BLOCK_LENGTH * packets)
    }
}

/// What a fresh sender puts on the line for the packets, before inner coding.
pub fn interleaved_stream(packets: &[u8]) -> Vec<u8> {
    let mut sender = Sender::fresh(0).ok().expect("rate 0 exists");
    packets.chunks_exact(PACKET_LENGTH).flat_map(|p| sender.interleaved(p)).collect()
}
