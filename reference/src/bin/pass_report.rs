//! The pass report, by the reference, in form 2: received bytes on standard
//! input, key=value lines on standard output. A word is the file of their marks,
//! a byte for each; bytes past its end are not marked. To be compared with the
//! project's own programs.

use reference::receiver::Receiver;
use reference::report::{Bits, Report};
use reference::{BLOCK_LENGTH, PACKET_LENGTH};
use std::io::Read;

fn main() -> std::io::Result<()> {
    let mut input = std::io::stdin().lock();
    let marks = std::env::args_os().nth(1).map_or(Ok(Vec::new()), std::fs::read)?;
    let mut blocks_of_marks = marks.chunks(BLOCK_LENGTH);
    let mut receiver = Receiver::fresh();
    let mut output = [0; PACKET_LENGTH];
    let mut block = [0; BLOCK_LENGTH];
    let mut rest = 0;
    loop {
        let read = input.read(&mut block[rest..])?;
        rest += read;
        if rest == BLOCK_LENGTH {
            rest = 0;
            let mut marked = [0; BLOCK_LENGTH];
            let given = blocks_of_marks.next().unwrap_or(&[]);
            marked[..given.len()].copy_from_slice(given);
            receiver.receive_marked(&block, &marked, &mut output);
            if receiver.counts().taken == reference::receiver::MOST_BLOCKS {
                break;
            }
        } else if read == 0 {
            break;
        }
    }
    let [counts @ .., bits] = receiver.counts().in_order();
    let report = Report { counts, bits: Bits::Number(bits), rest: rest as u64 };
    print!("{}", report.text());
    Ok(())
}
