//! Compares the sender, call after call, with the reference: the program `send_calls`
//! gets one input after another, good packets, packets without the sync byte, no
//! bytes and wrong lengths, and must answer each and send for each what the
//! reference does, all symbols compared.
//!
//! `compare_calls PROGRAM`, PROGRAM being `target/bin/send_calls`.

use reference::inner_code::SENT;
use reference::sender::Sender;
use reference::xorshift::Xorshift;
use reference::{PACKET_LENGTH, SYNC};
use std::io::Write;
use std::process::{exit, Command, Stdio};

/// Answer, number of symbols and symbols of each input, by the reference.
fn expected(rate: u8, inputs: &[Vec<u8>]) -> Vec<u8> {
    let mut sender = Sender::fresh(rate).ok().expect("a mode that is sent");
    let mut out = Vec::new();
    for input in inputs {
        let mut output = [0; 1632];
        let (answer, count) = sender.send(input, &mut output);
        out.push(answer.number());
        out.extend((count as u16).to_le_bytes());
        out.extend(&output[..count]);
    }
    out
}

/// The same by the program.
fn got(program: &str, rate: u8, inputs: &[Vec<u8>]) -> Vec<u8> {
    let mut child = Command::new(program)
        .arg(rate.to_string())
        .stdin(Stdio::piped())
        .stdout(Stdio::piped())
        .spawn()
        .unwrap_or_else(|e| panic!("{program}: {e}"));
    let framed: Vec<u8> = inputs.iter().flat_map(|i| [&[i.len() as u8], &i[..]].concat()).collect();
    let mut stdin = child.stdin.take().unwrap();
    let writer = std::thread::spawn(move || stdin.write_all(&framed));
    let out = child.wait_with_output().unwrap().stdout;
    writer.join().unwrap().unwrap();
    out
}

/// An input: 0 a good packet, 1 one without the sync byte, 2 no bytes, 3 a wrong length.
fn input(r: &mut Xorshift, kind: usize) -> Vec<u8> {
    let length = match kind {
        2 => 0,
        3 => [1, 187, 189, 204, 1 + r.below(187)][r.below(5)],
        _ => PACKET_LENGTH,
    };
    let mut bytes = r.bytes(length);
    if let Some(first) = bytes.first_mut() {
        *first = if kind == 1 { r.not_sync() } else { SYNC };
    }
    bytes
}

fn main() {
    let program = std::env::args().nth(1).expect("compare_calls PROGRAM");
    let mut r = Xorshift::new(0x300_421);
    let (mut lists, mut inputs, mut different) = (0, [0; 4], 0);
    let mut compare = |r: &mut Xorshift, kinds: &[usize]| {
        let list: Vec<Vec<u8>> = kinds.iter().map(|&kind| input(r, kind)).collect();
        kinds.iter().for_each(|&kind| inputs[kind] += 1);
        for rate in SENT {
            lists += 1;
            if got(&program, rate, &list) != expected(rate, &list) {
                different += 1;
                println!("DIFFERENT in mode {rate}: kinds {kinds:?}");
            }
        }
    };
    // Every mix of good, bad and empty in lists of up to four, then lists longer than a
    // group, wrong lengths among them.
    for length in 0..=4 {
        for mix in 0..3usize.pow(length) {
            let kinds: Vec<usize> = (0..length).map(|n| mix / 3usize.pow(n) % 3).collect();
            compare(&mut r, &kinds);
        }
    }
    for _ in 0..40 {
        let length = 9 + r.below(40);
        let kinds: Vec<usize> = (0..length).map(|_| r.below(4)).collect();
        compare(&mut r, &kinds);
    }
    println!("send, call after call: {lists} lists compared, {different} different");
    println!("  good, bad, empty inputs and wrong lengths, in each of five modes: {inputs:?}");
    exit((different > 0) as i32);
}
