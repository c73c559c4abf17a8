//! The library's C functions: declarations, safe wrappers, and in `expected`
//! what the reference says each of them does. Everything that is a matter of
//! the C functions' edges rather than of the standard is in this file.

/// Eight counts of eight bytes.
pub const COUNTS_LENGTH: usize = 64;
/// The result of reading a run: answer, memory, and a number in four bytes.
pub const RESULT_LENGTH: usize = 6;

/// What the reference gives for the same calls.
pub mod expected {
    use super::*;
    use crate::answer::Answer;
    use crate::inner_decoder;
    use crate::losses;
    use crate::receiver::Receiver;
    use crate::sender::Sender;
    use crate::{randomizer, recording, reed_solomon, BLOCK_LENGTH, PACKET_LENGTH};

    pub fn randomize(place: u8, packet: &[u8], output: &mut [u8]) -> u8 {
        randomizer::randomize(place, packet, output).number()
    }

    pub fn derandomize(place: u8, packet: &[u8], output: &mut [u8]) -> u8 {
        randomizer::derandomize(place, packet, output).number()
    }

    pub fn rs_encode(data: &[u8], output: &mut [u8]) -> u8 {
        reed_solomon::encode(data, output).number()
    }

    /// A block that is not 204 bytes is 3, then a count shorter than 2 is 4.
    /// The count, changed bytes and changed bits, is written only where the
    /// answer is 0.
    pub fn rs_decode(block: &mut [u8], count: &mut [u8]) -> u8 {
        if block.len() != BLOCK_LENGTH {
            return Answer::BlockLength.number();
        }
        if count.len() < 2 {
            return Answer::ShortOutput.number();
        }
        let (answer, changed) = reed_solomon::decode(block);
        if answer == Answer::Done {
            count[0] = changed.bytes as u8;
            count[1] = changed.bits as u8;
        }
        answer.number()
    }

    /// With marks: 20 after 3 and before 4.
    pub fn rs_decode_marked(block: &mut [u8], marks: &[u8], count: &mut [u8]) -> u8 {
        if block.len() != BLOCK_LENGTH {
            return Answer::BlockLength.number();
        }
        if !reed_solomon::are_marks(marks, BLOCK_LENGTH) {
            return Answer::MarkValue.number();
        }
        if count.len() < 2 {
            return Answer::ShortOutput.number();
        }
        let (answer, changed) = reed_solomon::decode_marked(block, marks);
        if answer == Answer::Done {
            count[0] = changed.bytes as u8;
            count[1] = changed.bits as u8;
        }
        answer.number()
    }

    /// The whole run is tested first; a refused run writes nothing. The answer is 15
    /// where a null packet was put in.
    pub fn send_run(rate: u8, packets: &[u8], output: &mut [u8], answer: &mut [u8]) -> u64 {
        if answer.is_empty() {
            return 0;
        }
        let mut sender = match Sender::fresh(rate) {
            Ok(sender) => sender,
            Err(refusal) => {
                answer[0] = refusal.number();
                return 0;
            }
        };
        let whole = packets.len() / PACKET_LENGTH;
        let refusal = if packets.len() % PACKET_LENGTH != 0 {
            Some(Answer::PacketLength)
        } else if output.len() < sender.symbols_due(whole) {
            Some(Answer::ShortOutput)
        } else {
            None
        };
        if let Some(refusal) = refusal {
            answer[0] = refusal.number();
            return 0;
        }
        let mut written = 0;
        answer[0] = Answer::Done.number();
        for packet in packets.chunks(PACKET_LENGTH) {
            let (said, symbols) = sender.send(packet, &mut output[written..]);
            written += symbols;
            if said == Answer::NullPacket {
                answer[0] = said.number();
            }
        }
        written as u64
    }

    /// The answer, the memory after the run and the number of differing bits go
    /// to the first six bytes of the result. Where they are too few, nothing is
    /// done; a refused run leaves the memory as it was, and the number is 0.
    pub fn read_run(rate: u8, memory: u8, symbols: &[u8], output: &mut [u8], result: &mut [u8]) -> u64 {
        if result.len() < RESULT_LENGTH {
            return 0;
        }
        put_run(inner_decoder::read_run(rate, memory, symbols, output.len()), memory, output, result)
    }

    /// The same by soft decisions.
    pub fn read_soft_run(
        rate: u8,
        memory: u8,
        i: &[f32],
        q: &[f32],
        lost: &[u8],
        output: &mut [u8],
        result: &mut [u8],
    ) -> u64 {
        if result.len() < RESULT_LENGTH {
            return 0;
        }
        put_run(inner_decoder::read_soft_run(rate, memory, i, q, lost, output.len()), memory, output, result)
    }

    fn put_run(read: Result<inner_decoder::Run, Answer>, memory: u8, output: &mut [u8], result: &mut [u8]) -> u64 {
        match read {
            Ok(run) => {
                output[..run.bits.len()].copy_from_slice(&run.bits);
                result[0] = Answer::Done.number();
                result[1] = run.memory;
                result[2..RESULT_LENGTH].copy_from_slice(&run.cost.to_le_bytes());
                run.bits.len() as u64
            }
            Err(refusal) => {
                result[0] = refusal.number();
                result[1] = memory;
                result[2..RESULT_LENGTH].fill(0);
                0
            }
        }
    }

    /// A rest of the recording shorter than a block is left alone. Where no
    /// byte is lent for the answer, nothing is done. Short room for the counts
    /// or for 188 bytes for each whole block is 4, and only that is written.
    pub fn receive_run(blocks: &[u8], output: &mut [u8], counts: &mut [u8], answer: &mut [u8]) -> u64 {
        receive_run_marked(blocks, &vec![0; blocks.len()], output, counts, answer)
    }

    /// The same with a mark for each byte; marks that are not such are 20, before 4.
    pub fn receive_run_marked(blocks: &[u8], marks: &[u8], output: &mut [u8], counts: &mut [u8], answer: &mut [u8]) -> u64 {
        if answer.is_empty() {
            return 0;
        }
        if !reed_solomon::are_marks(marks, blocks.len()) {
            answer[0] = Answer::MarkValue.number();
            return 0;
        }
        let whole = blocks.len() / BLOCK_LENGTH;
        if counts.len() < COUNTS_LENGTH || output.len() < PACKET_LENGTH * whole {
            answer[0] = Answer::ShortOutput.number();
            return 0;
        }
        let mut receiver = Receiver::fresh();
        let mut written = 0;
        for (block, marked) in blocks.chunks_exact(BLOCK_LENGTH).zip(marks.chunks(BLOCK_LENGTH)) {
            if receiver.receive_marked(block, marked, &mut output[written..]) == Answer::Done {
                written += PACKET_LENGTH;
            }
        }
        for (bytes, count) in counts.chunks_exact_mut(8).zip(receiver.counts().in_order()) {
            bytes.copy_from_slice(&count.to_le_bytes());
        }
        answer[0] = Answer::Done.number();
        written as u64
    }

    /// A number for each whole block is lent, or 4; no mark, or one for each byte, or
    /// 20. Where no byte is lent for the answer, nothing is done.
    pub fn losses_run(blocks: &[u8], marks: &[u8], lines: &mut [u64], answer: &mut [u8]) -> u64 {
        if answer.is_empty() {
            return 0;
        }
        if !marks.is_empty() && !reed_solomon::are_marks(marks, blocks.len()) {
            answer[0] = Answer::MarkValue.number();
            return 0;
        }
        if lines.len() < blocks.len() / BLOCK_LENGTH {
            answer[0] = Answer::ShortOutput.number();
            return 0;
        }
        let listed = losses::losses(blocks, marks);
        for (number, line) in lines.iter_mut().zip(&listed) {
            *number = line.number();
        }
        answer[0] = Answer::Done.number();
        listed.len() as u64
    }

    /// Fewer than two bytes for the count are room too short: 4, after 5 and 16.
    /// The count, changed bytes and changed bits, is written only where the answer
    /// is 0.
    pub fn recording_block(recorded: &[u8], blocks: u64, p: u64, output: &mut [u8], count: &mut [u8]) -> u8 {
        let none: &mut [u8] = &mut [];
        let output = if count.len() < 2 { none } else { output };
        let (answer, changed) = recording::decoded_block(recorded, blocks, p, output);
        if answer == Answer::Done {
            count[0] = changed.bytes as u8;
            count[1] = changed.bits as u8;
        }
        answer.number()
    }
}

/// The linked library.
#[cfg(exports_linked)]
pub mod library {
    mod c {
        extern "C" {
            pub fn dvbs_randomize(
                place: u8,
                packet: *const u8,
                packet_len: usize,
                output: *mut u8,
                output_len: usize,
            ) -> u8;
            pub fn dvbs_derandomize(
                place: u8,
                packet: *const u8,
                packet_len: usize,
                output: *mut u8,
                output_len: usize,
            ) -> u8;
            pub fn dvbs_rs_encode(data: *const u8, data_len: usize, output: *mut u8, output_len: usize) -> u8;
            pub fn dvbs_rs_decode(block: *mut u8, block_len: usize, count: *mut u8, count_len: usize) -> u8;
            pub fn dvbs_rs_decode_marked(
                block: *mut u8,
                block_len: usize,
                marks: *const u8,
                marks_len: usize,
                count: *mut u8,
                count_len: usize,
            ) -> u8;
            pub fn dvbs_send_run(
                rate: u8,
                packets: *const u8,
                packets_len: usize,
                output: *mut u8,
                output_len: usize,
                answer: *mut u8,
                answer_len: usize,
            ) -> u64;
            pub fn dvbs_read_run(
                rate: u8,
                memory: u8,
                symbols: *const u8,
                symbols_len: usize,
                output: *mut u8,
                output_len: usize,
                result: *mut u8,
                result_len: usize,
            ) -> u64;
            pub fn dvbs_read_soft_run(
                rate: u8,
                memory: u8,
                i: *const f32,
                i_len: usize,
                q: *const f32,
                q_len: usize,
                lost: *const u8,
                lost_len: usize,
                output: *mut u8,
                output_len: usize,
                result: *mut u8,
                result_len: usize,
            ) -> u64;
            pub fn dvbs_receive_run(
                blocks: *const u8,
                blocks_len: usize,
                output: *mut u8,
                output_len: usize,
                counts: *mut u8,
                counts_len: usize,
                answer: *mut u8,
                answer_len: usize,
            ) -> u64;
            pub fn dvbs_receive_run_marked(
                blocks: *const u8,
                blocks_len: usize,
                marks: *const u8,
                marks_len: usize,
                output: *mut u8,
                output_len: usize,
                counts: *mut u8,
                counts_len: usize,
                answer: *mut u8,
                answer_len: usize,
            ) -> u64;
            pub fn dvbs_recording_block(
                recording: *const u8,
                recording_len: usize,
                blocks: u64,
                p: u64,
                output: *mut u8,
                output_len: usize,
                count: *mut u8,
                count_len: usize,
            ) -> u8;
            pub fn dvbs_losses_run(
                blocks: *const u8,
                blocks_len: usize,
                marks: *const u8,
                marks_len: usize,
                lines: *mut u64,
                lines_len: usize,
                answer: *mut u8,
                answer_len: usize,
            ) -> u64;
        }
    }

    pub const NAME: &str = "the library";
    pub const LINKED: bool = true;

    // Each pointer comes from a slice and is passed with that slice's length.

    pub fn randomize(place: u8, packet: &[u8], output: &mut [u8]) -> u8 {
        unsafe { c::dvbs_randomize(place, packet.as_ptr(), packet.len(), output.as_mut_ptr(), output.len()) }
    }

    pub fn derandomize(place: u8, packet: &[u8], output: &mut [u8]) -> u8 {
        unsafe { c::dvbs_derandomize(place, packet.as_ptr(), packet.len(), output.as_mut_ptr(), output.len()) }
    }

    pub fn rs_encode(data: &[u8], output: &mut [u8]) -> u8 {
        unsafe { c::dvbs_rs_encode(data.as_ptr(), data.len(), output.as_mut_ptr(), output.len()) }
    }

    pub fn rs_decode(block: &mut [u8], count: &mut [u8]) -> u8 {
        unsafe { c::dvbs_rs_decode(block.as_mut_ptr(), block.len(), count.as_mut_ptr(), count.len()) }
    }

    pub fn rs_decode_marked(block: &mut [u8], marks: &[u8], count: &mut [u8]) -> u8 {
        unsafe {
            c::dvbs_rs_decode_marked(
                block.as_mut_ptr(),
                block.len(),
                marks.as_ptr(),
                marks.len(),
                count.as_mut_ptr(),
                count.len(),
            )
        }
    }

    pub fn send_run(rate: u8, packets: &[u8], output: &mut [u8], answer: &mut [u8]) -> u64 {
        unsafe {
            c::dvbs_send_run(
                rate,
                packets.as_ptr(),
                packets.len(),
                output.as_mut_ptr(),
                output.len(),
                answer.as_mut_ptr(),
                answer.len(),
            )
        }
    }

    pub fn read_run(rate: u8, memory: u8, symbols: &[u8], output: &mut [u8], result: &mut [u8]) -> u64 {
        unsafe {
            c::dvbs_read_run(
                rate,
                memory,
                symbols.as_ptr(),
                symbols.len(),
                output.as_mut_ptr(),
                output.len(),
                result.as_mut_ptr(),
                result.len(),
            )
        }
    }

    pub fn read_soft_run(
        rate: u8,
        memory: u8,
        i: &[f32],
        q: &[f32],
        lost: &[u8],
        output: &mut [u8],
        result: &mut [u8],
    ) -> u64 {
        unsafe {
            c::dvbs_read_soft_run(
                rate,
                memory,
                i.as_ptr(),
                i.len(),
                q.as_ptr(),
                q.len(),
                lost.as_ptr(),
                lost.len(),
                output.as_mut_ptr(),
                output.len(),
                result.as_mut_ptr(),
                result.len(),
            )
        }
    }

    pub fn receive_run(blocks: &[u8], output: &mut [u8], counts: &mut [u8], answer: &mut [u8]) -> u64 {
        unsafe {
            c::dvbs_receive_run(
                blocks.as_ptr(),
                blocks.len(),
                output.as_mut_ptr(),
                output.len(),
                counts.as_mut_ptr(),
                counts.len(),
                answer.as_mut_ptr(),
                answer.len(),
            )
        }
    }

    pub fn receive_run_marked(blocks: &[u8], marks: &[u8], output: &mut [u8], counts: &mut [u8], answer: &mut [u8]) -> u64 {
        unsafe {
            c::dvbs_receive_run_marked(
                blocks.as_ptr(),
                blocks.len(),
                marks.as_ptr(),
                marks.len(),
                output.as_mut_ptr(),
                output.len(),
                counts.as_mut_ptr(),
                counts.len(),
                answer.as_mut_ptr(),
                answer.len(),
            )
        }
    }

    pub fn recording_block(recorded: &[u8], blocks: u64, p: u64, output: &mut [u8], count: &mut [u8]) -> u8 {
        unsafe {
            c::dvbs_recording_block(
                recorded.as_ptr(),
                recorded.len(),
                blocks,
                p,
                output.as_mut_ptr(),
                output.len(),
                count.as_mut_ptr(),
                count.len(),
            )
        }
    }

    pub fn losses_run(blocks: &[u8], marks: &[u8], lines: &mut [u64], answer: &mut [u8]) -> u64 {
        unsafe {
            c::dvbs_losses_run(
                blocks.as_ptr(),
                blocks.len(),
                marks.as_ptr(),
                marks.len(),
                lines.as_mut_ptr(),
                lines.len(),
                answer.as_mut_ptr(),
                answer.len(),
            )
        }
    }
}

/// Without the library, the reference in its place.
#[cfg(not(exports_linked))]
pub mod library {
    pub const NAME: &str = "the reference itself";
    pub const LINKED: bool = false;
    pub use super::expected::*;
}
