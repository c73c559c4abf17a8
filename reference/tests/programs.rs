//! The programs of the reference: the pass report on the inputs of document 01,
//! and the interleaved blocks of a transport stream.

mod outside;

use outside::{INTERLEAVED, PACKETS};
use std::io::Write;
use std::process::{Command, Stdio};

fn output(program: &str, input: &[u8]) -> Vec<u8> {
    let mut child = Command::new(program).stdin(Stdio::piped()).stdout(Stdio::piped()).spawn().unwrap();
    child.stdin.take().unwrap().write_all(input).unwrap();
    child.wait_with_output().unwrap().stdout
}

fn report(input: &[u8]) -> String {
    String::from_utf8(output(env!("CARGO_BIN_EXE_pass_report"), input)).unwrap()
}

fn interleaved(input: &[u8]) -> Vec<u8> {
    output(env!("CARGO_BIN_EXE_interleaved"), input)
}

#[test]
fn zeros() {
    let want = "form=2\ntaken=13\nfilling=11\ndelivered=0\nlost=0\nwaiting=2\noutofstep=0\nchanged=0\nbits=0\nrest=100\n";
    assert_eq!(report(&[0; 2752]), want);
}

#[test]
fn nothing_and_the_ends_of_rest() {
    for (length, taken, rest) in [(0, 0, 0), (203, 0, 203), (204, 1, 0), (407, 1, 203)] {
        let want = format!("form=2\ntaken={taken}\nfilling={taken}\ndelivered=0\nlost=0\nwaiting=0\noutofstep=0\nchanged=0\nbits=0\nrest={rest}\n");
        assert_eq!(report(&vec![0; length]), want);
    }
}

#[test]
fn zeros_and_a_rest() {
    for rest in [0, 1, 203] {
        let want = format!("form=2\ntaken=12\nfilling=11\ndelivered=0\nlost=0\nwaiting=1\noutofstep=0\nchanged=0\nbits=0\nrest={rest}\n");
        assert_eq!(report(&vec![0; 12 * 204 + rest]), want);
    }
}

/// Harmed, and cut off inside a block.
#[test]
fn a_recording() {
    let want = "form=2\ntaken=39\nfilling=11\ndelivered=16\nlost=12\nwaiting=0\noutofstep=0\nchanged=3\nbits=12\nrest=57\n";
    assert_eq!(report(include_bytes!("data/recording")), want);
}

#[test]
fn the_outside_stream() {
    let want = "form=2\ntaken=40\nfilling=11\ndelivered=29\nlost=0\nwaiting=0\noutofstep=0\nchanged=0\nbits=0\nrest=0\n";
    assert_eq!(report(INTERLEAVED), want);
}

#[test]
fn the_blocks_of_a_stream() {
    assert_eq!(interleaved(PACKETS), INTERLEAVED);
    assert_eq!(interleaved(&[]), []);
}

#[test]
fn null_packets_are_put_in() {
    let mut null = vec![0xFF; 188];
    null[..4].copy_from_slice(&[0x47, 0x1F, 0xFF, 0x10]);
    let odd = [&[0; 188], PACKETS, &[0; 188], &[0x47; 187]].concat();
    let whole = [&null[..], PACKETS, &null].concat();
    assert_eq!(interleaved(&odd), interleaved(&whole));
    assert_eq!(interleaved(&odd).len(), 204 * 42);
}

/// What the channel writes for the symbols, as pairs of numbers.
fn points(words: &[&str], symbols: &[u8]) -> Vec<(f32, f32)> {
    let mut child = Command::new(env!("CARGO_BIN_EXE_channel")).args(words).stdin(Stdio::piped()).stdout(Stdio::piped()).spawn().unwrap();
    // One that refuses its words may be gone before it reads.
    let _ = child.stdin.take().unwrap().write_all(symbols);
    let bytes = child.wait_with_output().unwrap().stdout;
    let number = |b: &[u8]| f32::from_le_bytes([b[0], b[1], b[2], b[3]]);
    bytes.chunks_exact(8).map(|p| (number(&p[..4]), number(&p[4..]))).collect()
}

#[test]
fn the_channel() {
    let symbols: Vec<u8> = (0..4000).map(|k| (k % 4) as u8).collect();
    let clean = points(&["2", "60", "1"], &symbols);
    assert_eq!(clean.len(), symbols.len());
    for (point, symbol) in clean.iter().zip(&symbols) {
        let (i, q) = reference::channel::sent(*symbol);
        assert!((point.0 - i).abs() < 0.01 && (point.1 - q).abs() < 0.01);
    }
    let noisy = points(&["2", "3", "1", "lost=0.1", "burst=50/500"], &symbols);
    assert!(noisy.iter().filter(|p| p.0.is_nan() && p.1.is_nan()).count() > 300);
    let still = points(&["4", "inf", "1"], &symbols);
    assert!(still.iter().zip(&symbols).all(|(point, symbol)| *point == reference::channel::sent(*symbol)));
    assert!(points(&["5", "3", "1"], &symbols).is_empty());
    assert!(points(&["2", "3"], &symbols).is_empty());
    assert!(points(&["2", "3", "1", "burst=5/0"], &symbols).is_empty());
    // Cut, turned and slipped.
    let moved = points(&["2", "inf", "1", "cut=7", "turn=5", "skip=2@10", "double=1@20", "turn=2@30"], &symbols);
    let turned = |turn: u8, k: usize| reference::channel::turned(turn, still[k]);
    let want: Vec<usize> = (7..10).chain(12..21).chain(20..4000).collect();
    assert_eq!(moved, want.iter().map(|&k| turned(if k < 30 { 5 } else { 7 }, k)).collect::<Vec<_>>());
    for wrong in ["turn=8", "cut=", "skip=1", "double=x@3", "elsewhere"] {
        assert!(points(&["2", "3", "1", wrong], &symbols).is_empty(), "{wrong}");
    }
}

/// Symbols that begin anywhere, turned and noisy, give the packets back.
#[test]
fn a_link_that_begins_anywhere() {
    let packets = [PACKETS, PACKETS].concat();
    let symbols = reference::numbered::symbols(2, &packets);
    for seed in ["1", "2", "3"] {
        let received: Vec<u8> = points(&["2", "5", seed, "anywhere"], &symbols).into_iter().flat_map(reference::channel::to_bytes).collect();
        let mut child = Command::new(env!("CARGO_BIN_EXE_lock")).arg("any").stdin(Stdio::piped()).stdout(Stdio::piped()).stderr(Stdio::null()).spawn().unwrap();
        child.stdin.take().unwrap().write_all(&received).unwrap();
        let got = child.wait_with_output().unwrap().stdout;
        // From the first whole group on.
        assert!(got.len() >= 188 * 60 && packets[188 * 8..].starts_with(&got), "{} bytes", got.len());
    }
}
