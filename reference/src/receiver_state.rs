//! A receiver of pieces whose state is bytes, by the table of docs/STATES.md, and the
//! library's C functions for it.

/// What the reference gives.
pub mod expected {
    use crate::answer::Answer;
    use crate::bridge::expected as blocks;
    use crate::receiver::MOST_BLOCKS;
    use crate::reed_solomon::are_marks;
    use crate::report::{Bits, Report};
    use crate::states::{advance, place_of, Row};
    use crate::{BLOCK_LENGTH, PACKET_LENGTH};

    pub const STATE_LENGTH: usize = 2731;

    /// The fields: name, offset, bytes.
    pub const LAYOUT: [Row; 4] = [("receiver", 0, 2322), ("pending", 2322, 204), ("doubtful", 2526, 204), ("held", 2730, 1)];

    fn field<'a>(state: &'a [u8], name: &str) -> &'a [u8] {
        &state[place_of(&LAYOUT, name)]
    }

    /// The bytes that are held, and their marks.
    fn pending(state: &[u8]) -> Option<(Vec<u8>, Vec<u8>)> {
        let held = field(state, "held")[0] as usize;
        if held >= BLOCK_LENGTH {
            return None;
        }
        let (bytes, behind) = field(state, "pending").split_at(held);
        let (marks, unmarked) = field(state, "doubtful").split_at(held);
        let zero = behind.iter().chain(unmarked).all(|byte| *byte == 0);
        (zero && marks.iter().all(|mark| *mark < 2)).then_some((bytes.to_vec(), marks.to_vec()))
    }

    /// Whether the bytes stand for a receiver.
    pub fn stands(state: &[u8]) -> bool {
        pending(state).is_some() && blocks::read(field(state, "receiver")).is_some()
    }

    pub fn fresh(state: &mut [u8]) -> u8 {
        if state.len() != STATE_LENGTH {
            return Answer::StateLength.number();
        }
        state.fill(0);
        blocks::fresh(&mut state[place_of(&LAYOUT, "receiver")])
    }

    /// Where no byte is lent for the answer, nothing is done.
    pub fn feed(state: &mut [u8], piece: &[u8], marks: &[u8], output: &mut [u8], answer: &mut [u8]) -> u64 {
        if answer.is_empty() {
            return 0;
        }
        let (said, written) = match fed(state, piece, marks, output) {
            Ok(written) => (Answer::Done, written),
            Err(refusal) => (refusal, 0),
        };
        answer[0] = said.number();
        written as u64
    }

    fn fed(state: &mut [u8], piece: &[u8], marks: &[u8], output: &mut [u8]) -> Result<usize, Answer> {
        if state.len() != STATE_LENGTH {
            return Err(Answer::StateLength);
        }
        let (mut bytes, mut own) = pending(state).ok_or(Answer::StateRange)?;
        let (mut receiver, mut positions) = blocks::read(field(state, "receiver")).ok_or(Answer::StateRange)?;
        if !are_marks(marks, piece.len()) {
            return Err(Answer::MarkValue);
        }
        bytes.extend(piece);
        own.extend(marks);
        let whole = bytes.len() / BLOCK_LENGTH;
        if output.len() < PACKET_LENGTH * whole {
            return Err(Answer::ShortOutput);
        }
        // A receiver that can count no block more takes no byte more.
        let room = BLOCK_LENGTH as u64 * (MOST_BLOCKS - receiver.counts.taken);
        if !piece.is_empty() && bytes.len() as u64 > room {
            return Err(Answer::Full);
        }
        let mut written = 0;
        for (block, marked) in bytes.chunks_exact(BLOCK_LENGTH).zip(own.chunks(BLOCK_LENGTH)) {
            if receiver.receive_marked(block, marked, &mut output[written..]) == Answer::Done {
                written += PACKET_LENGTH;
            }
            advance(&receiver.branches, &mut positions);
        }
        let rest = BLOCK_LENGTH * whole;
        let mut put = |name: &str, bytes: &[u8]| {
            let field = &mut state[place_of(&LAYOUT, name)];
            field.fill(0);
            field[..bytes.len()].copy_from_slice(bytes);
        };
        put("pending", &bytes[rest..]);
        put("doubtful", &own[rest..]);
        put("held", &[(bytes.len() - rest) as u8]);
        blocks::write(&receiver, &positions, &mut state[place_of(&LAYOUT, "receiver")]);
        Ok(written)
    }

    /// The report in form 2.
    pub fn report(state: &[u8], output: &mut [u8], answer: &mut [u8]) -> u64 {
        if answer.is_empty() {
            return 0;
        }
        let (said, written) = match reported(state, output) {
            Ok(written) => (Answer::Done, written),
            Err(refusal) => (refusal, 0),
        };
        answer[0] = said.number();
        written as u64
    }

    fn reported(state: &[u8], output: &mut [u8]) -> Result<usize, Answer> {
        if state.len() != STATE_LENGTH {
            return Err(Answer::StateLength);
        }
        let (bytes, _) = pending(state).ok_or(Answer::StateRange)?;
        let (receiver, _) = blocks::read(field(state, "receiver")).ok_or(Answer::StateRange)?;
        let [counts @ .., bits] = receiver.counts.in_order();
        let text = Report { counts, bits: Bits::Number(bits), rest: bytes.len() as u64 }.text();
        let room = output.get_mut(..text.len()).ok_or(Answer::ShortOutput)?;
        room.copy_from_slice(text.as_bytes());
        Ok(text.len())
    }
}

/// The linked library.
#[cfg(exports_linked)]
pub mod library {
    mod c {
        extern "C" {
            pub fn dvbs_receiver_fresh(state: *mut u8, state_len: usize) -> u8;
            pub fn dvbs_receiver_feed(
                state: *mut u8,
                state_len: usize,
                piece: *const u8,
                piece_len: usize,
                marks: *const u8,
                marks_len: usize,
                output: *mut u8,
                output_len: usize,
                answer: *mut u8,
                answer_len: usize,
            ) -> u64;
            pub fn dvbs_receiver_report(
                state: *const u8,
                state_len: usize,
                output: *mut u8,
                output_len: usize,
                answer: *mut u8,
                answer_len: usize,
            ) -> u64;
        }
    }

    // Each pointer comes from a slice and is passed with that slice's length.

    pub fn fresh(state: &mut [u8]) -> u8 {
        unsafe { c::dvbs_receiver_fresh(state.as_mut_ptr(), state.len()) }
    }

    pub fn feed(state: &mut [u8], piece: &[u8], marks: &[u8], output: &mut [u8], answer: &mut [u8]) -> u64 {
        unsafe {
            c::dvbs_receiver_feed(
                state.as_mut_ptr(),
                state.len(),
                piece.as_ptr(),
                piece.len(),
                marks.as_ptr(),
                marks.len(),
                output.as_mut_ptr(),
                output.len(),
                answer.as_mut_ptr(),
                answer.len(),
            )
        }
    }

    pub fn report(state: &[u8], output: &mut [u8], answer: &mut [u8]) -> u64 {
        unsafe {
            c::dvbs_receiver_report(
                state.as_ptr(),
                state.len(),
                output.as_mut_ptr(),
                output.len(),
                answer.as_mut_ptr(),
                answer.len(),
            )
        }
    }
}

/// Without the library, the reference in its place.
#[cfg(not(exports_linked))]
pub mod library {
    pub use super::expected::{feed, fresh, report};
}

#[cfg(test)]
mod tests {
    use super::expected::{LAYOUT, STATE_LENGTH};
    use crate::states::tables::{fills, owned, rows_after, specified};

    /// The specification has the fields of the receiver of blocks one by one, by its own table.
    #[test]
    fn document_header_and_specification_have_the_same_table() {
        assert!(fills(&LAYOUT, STATE_LENGTH));
        assert_eq!(rows_after("## The state of a receiver", include_str!("../../docs/STATES.md")), owned(&LAYOUT));
        assert_eq!(rows_after("The state of a receiver", include_str!("../../include/dvbs.h")), owned(&LAYOUT));
        assert_eq!(specified(include_str!("../../crates/dvbs_receiver/specs/State.antt")), owned(&LAYOUT[1..]));
    }
}
