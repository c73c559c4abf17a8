//! The interleaved blocks of a transport stream, from a fresh state: packets of
//! 188 bytes on standard input, blocks of 204 on standard output, as an inner
//! decoder would hand them to the receiver. For packets without the sync byte the
//! sender puts null packets in; bytes after the last whole one are left out.

use reference::sender::Sender;
use reference::{NULL_PACKET, PACKET_LENGTH, SYNC};
use std::io::{BufReader, BufWriter, ErrorKind, Read, Write};

fn main() -> std::io::Result<()> {
    let mut input = BufReader::new(std::io::stdin());
    let mut output = BufWriter::new(std::io::stdout());
    // The rate is the inner coder's, and does not matter before it.
    let mut sender = Sender::fresh(0).ok().expect("rate 0 exists");
    let mut packet = [0; PACKET_LENGTH];
    loop {
        match input.read_exact(&mut packet) {
            Ok(()) if packet[0] == SYNC => output.write_all(&sender.interleaved(&packet))?,
            Ok(()) => output.write_all(&sender.interleaved(&NULL_PACKET))?,
            Err(e) if e.kind() == ErrorKind::UnexpectedEof => return output.flush(),
            Err(e) => return Err(e),
        }
    }
}
