//! The reference's own stages against the outputs of an outside coder.

mod outside;

use outside::{CODED, INTERLEAVED, PACKETS, RANDOMIZED, SYMBOLS};
use reference::answer::Answer;
use reference::inner_code::InnerCoder;
use reference::interleaver::Branches;
use reference::receiver::Receiver;
use reference::sender::{interleaved_stream, Sender};
use reference::{randomizer, reed_solomon};

#[test]
fn randomizer_both_ways() {
    for (n, packet) in PACKETS.chunks_exact(188).enumerate() {
        let want = &RANDOMIZED[188 * n..188 * (n + 1)];
        let mut output = [0; 188];
        assert_eq!(randomizer::randomize(n as u8 % 8, packet, &mut output), Answer::Done);
        assert_eq!(output, want);
        assert_eq!(randomizer::derandomize(n as u8 % 8, want, &mut output), Answer::Done);
        assert_eq!(output, packet);
    }
}

#[test]
fn outer_code() {
    for (n, data) in RANDOMIZED.chunks_exact(188).enumerate() {
        let mut output = [0; 204];
        assert_eq!(reed_solomon::encode(data, &mut output), Answer::Done);
        assert_eq!(output, CODED[204 * n..204 * (n + 1)]);
        assert_eq!(reed_solomon::decode(&mut output), (Answer::Done, reed_solomon::Changed::default()));
    }
}

#[test]
fn interleaver() {
    let mut branches = Branches::interleaver();
    for (n, block) in CODED.chunks_exact(204).enumerate() {
        let mut output = [0; 204];
        assert_eq!(branches.pass(block, &mut output), Answer::Done);
        assert_eq!(output, INTERLEAVED[204 * n..204 * (n + 1)]);
    }
    assert_eq!(interleaved_stream(PACKETS), INTERLEAVED);
}

#[test]
fn sender_at_every_rate_that_is_sent() {
    for rate in 0..4 {
        let mut sender = Sender::fresh(rate).ok().unwrap();
        assert_eq!(sender.symbols_due(40), SYMBOLS[rate as usize].len());
        let mut symbols: Vec<u8> = Vec::new();
        for packet in PACKETS.chunks_exact(188) {
            let mut output = [9; 2000];
            let (answer, written) = sender.send(packet, &mut output);
            assert_eq!(answer, Answer::Done);
            assert!(output[written..].iter().all(|&byte| byte == 9));
            symbols.extend(&output[..written]);
        }
        assert_eq!(symbols, SYMBOLS[rate as usize]);
    }
}

/// The coding that runs of symbols are read by, 7/8 with the others.
#[test]
fn coding_at_every_rate_that_is_read() {
    for rate in 0..5 {
        assert_eq!(InnerCoder::after(rate, 0).code(INTERLEAVED), SYMBOLS[rate as usize]);
    }
}

#[test]
fn receiver() {
    let mut receiver = Receiver::fresh();
    let mut packets: Vec<u8> = Vec::new();
    for block in INTERLEAVED.chunks_exact(204) {
        let mut output = [0; 188];
        if receiver.receive(block, &mut output) == Answer::Done {
            packets.extend(output);
        }
    }
    assert_eq!(packets, PACKETS[..29 * 188]);
    assert_eq!(receiver.counts().in_order(), [40, 11, 29, 0, 0, 0, 0, 0]);
}
