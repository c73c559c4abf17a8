//! Packets with their number in them, so that of every packet that comes back it is seen whether it was sent, and which are missing.

use crate::inner_code::InnerCoder;
use crate::sender::interleaved_stream;
use crate::xorshift::Xorshift;
use crate::{PACKET_LENGTH, SYNC};

/// The sync byte, four bytes with the number, the highest first, and random ones.
pub fn packets(seed: u64, count: usize) -> Vec<u8> {
    let mut random = Xorshift::new(seed);
    let mut packets = Vec::with_capacity(PACKET_LENGTH * count);
    for k in 0..count {
        packets.push(SYNC);
        packets.extend((k as u32).to_be_bytes());
        packets.extend(random.bytes(PACKET_LENGTH - 5));
    }
    packets
}

/// The symbols of packets, at 7/8 too, which is no longer sent.
pub fn symbols(rate: u8, packets: &[u8]) -> Vec<u8> {
    InnerCoder::after(rate, 0).code(&interleaved_stream(packets))
}

/// What came back.
#[derive(Debug, Default, PartialEq, Eq)]
pub struct Verdict {
    /// The numbers of the packets that were sent, in the order in which they came.
    pub came: Vec<usize>,
    pub never_sent: usize,
}

impl Verdict {
    pub fn of(sent: &[u8], given: &[u8]) -> Self {
        let mut verdict = Verdict::default();
        for packet in given.chunks(PACKET_LENGTH) {
            let number = packet.get(1..5).map_or(usize::MAX, |n| n.iter().fold(0, |sum, &byte| 256 * sum + byte as usize));
            if number < sent.len() / PACKET_LENGTH && sent[PACKET_LENGTH * number..][..PACKET_LENGTH] == *packet {
                verdict.came.push(number);
            } else {
                verdict.never_sent += 1;
            }
        }
        verdict
    }

    /// Each once, in order.
    pub fn in_order(&self) -> bool {
        self.came.windows(2).all(|pair| pair[0] < pair[1])
    }

    /// How many are missing between the first and the last that came.
    pub fn missing(&self) -> usize {
        match (self.came.first(), self.came.last()) {
            (Some(first), Some(last)) => (last + 1 - first).saturating_sub(self.came.len()),
            _ => 0,
        }
    }
}

#[cfg(test)]
mod tests {
    use super::*;

    #[test]
    fn what_is_judged() {
        let sent = packets(1, 20);
        let packet = |k: usize| sent[188 * k..188 * k + 188].to_vec();
        let mut wrong = packet(7);
        wrong[100] ^= 1;
        let verdict = Verdict::of(&sent, &[packet(3), packet(4), wrong, packet(9), vec![0x47; 188]].concat());
        assert_eq!(verdict, Verdict { came: vec![3, 4, 9], never_sent: 2 });
        assert!(verdict.in_order() && verdict.missing() == 4);
        assert!(!Verdict::of(&sent, &[packet(4), packet(4)].concat()).in_order());
        assert_eq!(Verdict::of(&sent, &sent[..190]).never_sent, 1);
    }
}
