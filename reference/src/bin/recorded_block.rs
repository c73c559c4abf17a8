//! One block of a recording by the reference, as the program `recording_block` gives it:
//! `recorded_block FILE P > block`, the answer and the counts on standard error.

use reference::answer::Answer;
use reference::recording::decoded_block;
use reference::BLOCK_LENGTH;
use std::io::Write;

fn main() {
    let mut arguments = std::env::args().skip(1);
    let recording = std::fs::read(arguments.next().expect("FILE")).expect("the recording");
    let p = arguments.next().expect("P").parse().expect("a number");
    let mut block = [0; BLOCK_LENGTH];
    let blocks = (recording.len() / BLOCK_LENGTH) as u64;
    let (answer, changed) = decoded_block(&recording, blocks, p, &mut block);
    if answer == Answer::Done {
        // Whole before the line on standard error.
        let mut output = std::io::stdout();
        output.write_all(&block).and_then(|()| output.flush()).expect("standard output");
    }
    eprintln!("answer={} changed={} bits={}", answer.number(), changed.bytes, changed.bits);
}
