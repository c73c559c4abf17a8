//! The library, linked from EXPORTS_DIR, on the outputs of an outside coder, stage
//! by stage and through the sender, the reader and the receiver; and its outer
//! decoder on errors at every place. Without a library the reference is tested in
//! its place.

mod outside;

use outside::{CODED, INTERLEAVED, PACKETS, RANDOMIZED, SYMBOLS};
use reference::exports::{library, COUNTS_LENGTH, RESULT_LENGTH};
use reference::inner_code::InnerCoder;
use reference::inner_decoder::LONGEST;
use reference::kernels;

/// With the library the functions for single stages are there too, so that no test
/// here tries the reference beside it.
#[test]
fn linked_whole() {
    assert_eq!(library::LINKED, kernels::library::LINKED);
}

#[test]
fn randomizer_both_ways() {
    for (n, (packet, sent)) in PACKETS.chunks_exact(188).zip(RANDOMIZED.chunks_exact(188)).enumerate() {
        let mut output = [0; 188];
        assert_eq!(library::randomize(n as u8 % 8, packet, &mut output), 0);
        assert_eq!(output, sent);
        assert_eq!(library::derandomize(n as u8 % 8, sent, &mut output), 0);
        assert_eq!(output, packet);
    }
}

#[test]
fn outer_coder() {
    for (data, sent) in RANDOMIZED.chunks_exact(188).zip(CODED.chunks_exact(204)) {
        let mut output = [0; 204];
        assert_eq!(library::rs_encode(data, &mut output), 0);
        assert_eq!(output, sent);
        let mut count = [9; 2];
        assert_eq!(library::rs_decode(&mut output, &mut count), 0);
        assert_eq!((&output[..], count), (sent, [0, 0]));
    }
}

#[test]
fn interleaver() {
    let mut output = vec![0; CODED.len()];
    kernels::library::interleave(CODED, &mut output);
    assert_eq!(output, INTERLEAVED);
}

#[test]
fn inner_coder_at_every_rate_that_is_sent() {
    for (rate, symbols) in SYMBOLS.iter().enumerate().take(4) {
        let mut output = vec![9; 8 * INTERLEAVED.len()];
        let written = kernels::library::inner_code(rate as u8, INTERLEAVED, &mut output) as usize;
        assert_eq!(&output[..written], *symbols);
        assert!(output[written..].iter().all(|&byte| byte == 9));
    }
    let mut output = vec![9; 8 * INTERLEAVED.len()];
    assert_eq!(kernels::library::inner_code(4, INTERLEAVED, &mut output), 0);
    assert!(output.iter().all(|&byte| byte == 9));
}

#[test]
fn sender_at_every_rate_that_is_sent() {
    for (rate, symbols) in SYMBOLS.iter().enumerate().take(4) {
        let mut output = vec![9; symbols.len() + 100];
        let mut answer = [9];
        assert_eq!(library::send_run(rate as u8, PACKETS, &mut output, &mut answer), symbols.len() as u64);
        assert_eq!((&output[..symbols.len()], answer), (*symbols, [0]));
        assert!(output[symbols.len()..].iter().all(|&byte| byte == 9));
    }
}

/// Run after run, each with the memory after the one before.
#[test]
fn reader_at_every_rate() {
    let sent: Vec<u8> = INTERLEAVED.iter().flat_map(|byte| (0..8).rev().map(move |k| byte >> k & 1)).collect();
    for (rate, symbols) in SYMBOLS.iter().enumerate() {
        let rate = rate as u8;
        let length = InnerCoder::pattern_length(rate);
        let per_pattern = InnerCoder::after(rate, 0).symbols_due(length);
        let (mut memory, mut read) = (0, Vec::new());
        for run in symbols.chunks(LONGEST / length * per_pattern) {
            let bits = run.len() / per_pattern * length;
            let mut output = vec![9; bits];
            let mut result = [9; RESULT_LENGTH];
            let whole = &run[..run.len() / per_pattern * per_pattern];
            assert_eq!(library::read_run(rate, memory, whole, &mut output, &mut result), bits as u64);
            assert_eq!((result[0], &result[2..]), (0, &[0; 4][..]));
            memory = result[1];
            read.extend(output);
        }
        assert_eq!(read, sent[..sent.len() / length * length]);
    }
}

#[test]
fn receiver() {
    let mut output = vec![0; 188 * 40];
    let (mut counts, mut answer) = ([9; COUNTS_LENGTH], [9]);
    let written = library::receive_run(INTERLEAVED, &mut output, &mut counts, &mut answer) as usize;
    assert_eq!((&output[..written], answer), (&PACKETS[..29 * 188], [0]));
    let told: Vec<u8> = [40u64, 11, 29, 0, 0, 0, 0, 0].iter().flat_map(|count| count.to_le_bytes()).collect();
    assert_eq!(counts[..], told[..]);
}

/// 0 to 12 errors, 23 places apart, from every start: 23 and 204 have no common
/// factor, so no byte is changed twice.
#[test]
fn errors_from_every_start() {
    let message: Vec<u8> = (0..188usize).map(|i| (i * 7 + i / 5) as u8).collect();
    let mut sent = [0; 204];
    assert_eq!(library::rs_encode(&message, &mut sent), 0);
    for errors in 0..=12 {
        for start in 0..204 {
            let mut came = sent;
            let mut bits = 0;
            for i in 0..errors {
                let change = ((start * 3 + i * 5) % 255 + 1) as u8;
                came[(start + i * 23) % 204] ^= change;
                bits += change.count_ones() as u8;
            }
            let (mut left, mut count) = (came, [9; 2]);
            let answer = library::rs_decode(&mut left, &mut count);
            if errors <= 8 {
                assert_eq!((answer, left, count), (0, sent, [errors as u8, bits]), "{errors} errors from {start}");
            } else {
                assert_eq!((answer, left, count), (8, came, [9; 2]), "{errors} errors from {start}");
            }
        }
    }
}

/// 187 zeros and 01 get the other coefficients of the generator polynomial: a
/// codeword of weight seventeen. With eight of its bytes cleared it is nearer to
/// itself than to the zero block, by one.
#[test]
fn lightest_codeword() {
    let mut message = [0; 188];
    message[187] = 1;
    let mut sent = [0; 204];
    assert_eq!(library::rs_encode(&message, &mut sent), 0);
    assert_eq!(sent[187..], reference::reed_solomon::generator());
    for start in 0..17 {
        for step in 1..17 {
            let mut left = sent;
            let mut bits = 0;
            for i in 0..8 {
                let place = 187 + (start + i * step) % 17;
                bits += sent[place].count_ones() as u8;
                left[place] = 0;
            }
            let mut count = [9; 2];
            assert_eq!(library::rs_decode(&mut left, &mut count), 0);
            assert_eq!((left, count), (sent, [8, bits]));
        }
    }
}

/// 188 zeros and the remainder of x^204 by the generator polynomial: one error, at
/// a place that is never sent.
#[test]
fn error_that_is_never_sent() {
    let mut came = [0; 204];
    came[188..].copy_from_slice(&[
        0x9E, 0x87, 0x03, 0xF6, 0xFC, 0xC4, 0x65, 0x4F, 0xC7, 0x2A, 0x2D, 0xFA, 0xBB, 0x03, 0x33, 0x4E,
    ]);
    let (mut left, mut count) = (came, [9; 2]);
    assert_eq!(library::rs_decode(&mut left, &mut count), 8);
    assert_eq!((left, count), (came, [9; 2]));
}
