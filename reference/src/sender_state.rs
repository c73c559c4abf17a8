//! A sender whose state is bytes, by the table of docs/STATES.md, and the library's
//! C functions for it.

/// What the reference gives.
pub mod expected {
    use crate::answer::Answer;
    use crate::inner_code::{InnerCoder, RATES, SENT, SIXTEEN_QAM};
    use crate::interleaver::{Branches, BRANCHES};
    use crate::sender::Sender;
    use crate::states::{advance, cells_of, fill, place_of, positions_in, Row};
    use crate::GROUP_LENGTH;

    pub const STATE_LENGTH: usize = 1139;

    /// The fields: name, offset, bytes.
    pub const LAYOUT: [Row; 7] = [
        ("cells", 0, 1122),
        ("positions", 1122, 12),
        ("place", 1134, 1),
        ("mode", 1135, 1),
        ("memory", 1136, 1),
        ("pattern", 1137, 1),
        ("held", 1138, 1),
    ];

    fn field<'a>(state: &'a [u8], name: &str) -> &'a [u8] {
        &state[place_of(&LAYOUT, name)]
    }

    /// The bits of a mode's pattern; each bit of 16QAM 3/4 stands for itself.
    pub fn pattern_length(mode: u8) -> usize {
        if mode == SIXTEEN_QAM {
            1
        } else {
            InnerCoder::pattern_length(mode)
        }
    }

    /// Whether an I is held at a place of the pattern: it is where an odd number of bits was transmitted.
    pub fn holds(mode: u8, place: usize) -> bool {
        let kept = |k| {
            let (x, y) = crate::inner_code::pattern(mode, k);
            x as usize + y as usize
        };
        mode != SIXTEEN_QAM && (0..place).map(kept).sum::<usize>() % 2 == 1
    }

    /// The sender that the bytes stand for, and the positions of its branches.
    pub fn read(state: &[u8]) -> Option<(Sender, Vec<usize>)> {
        let byte = |name| field(state, name)[0];
        let mut branches = Branches::interleaver();
        let positions = positions_in(&branches, field(state, "positions"))?;
        fill(&mut branches, field(state, "cells"), &positions);
        let (place, mode, memory, pattern, held) = (byte("place"), byte("mode"), byte("memory"), byte("pattern") as usize, byte("held"));
        if place as usize >= GROUP_LENGTH || mode > RATES || memory > 63 || pattern >= pattern_length(mode) {
            return None;
        }
        let some = holds(mode, pattern);
        if held > some as u8 {
            return None;
        }
        let inner = InnerCoder { rate: mode as usize, memory, taken: pattern, held: some.then_some(held) };
        Some((Sender { place: place as usize, branches, inner }, positions))
    }

    pub fn write(sender: &Sender, positions: &[usize], state: &mut [u8]) {
        let mut put = |name: &str, bytes: &[u8]| state[place_of(&LAYOUT, name)].copy_from_slice(bytes);
        let inner = &sender.inner;
        put("cells", &cells_of(&sender.branches, positions));
        put("positions", &positions.iter().map(|p| *p as u8).collect::<Vec<_>>());
        put("place", &[sender.place as u8]);
        put("mode", &[inner.rate as u8]);
        put("memory", &[inner.memory]);
        put("pattern", &[(inner.taken % pattern_length(inner.rate as u8)) as u8]);
        put("held", &[inner.held.unwrap_or(0)]);
    }

    pub fn fresh(state: &mut [u8], mode: u8) -> u8 {
        if state.len() != STATE_LENGTH {
            return Answer::StateLength.number();
        }
        match Sender::fresh(mode) {
            Ok(sender) => {
                write(&sender, &[0; BRANCHES], state);
                Answer::Done.number()
            }
            Err(refusal) => refusal.number(),
        }
    }

    /// Where no byte is lent for the answer, nothing is done.
    pub fn send(state: &mut [u8], packet: &[u8], output: &mut [u8], answer: &mut [u8]) -> u64 {
        if answer.is_empty() {
            return 0;
        }
        let (said, written) = sent(state, packet, output);
        answer[0] = said.number();
        written as u64
    }

    fn sent(state: &mut [u8], packet: &[u8], output: &mut [u8]) -> (Answer, usize) {
        if state.len() != STATE_LENGTH {
            return (Answer::StateLength, 0);
        }
        let (mut sender, mut positions) = match read(state) {
            Some(stands_for) => stands_for,
            None => return (Answer::StateRange, 0),
        };
        if !SENT.contains(&(sender.inner.rate as u8)) {
            return (Answer::UnknownRate, 0);
        }
        let (said, written) = sender.send(packet, output);
        if written > 0 {
            advance(&sender.branches, &mut positions);
            write(&sender, &positions, state);
        }
        (said, written)
    }
}

/// The linked library.
#[cfg(exports_linked)]
pub mod library {
    mod c {
        extern "C" {
            pub fn dvbs_sender_fresh(state: *mut u8, state_len: usize, mode: u8) -> u8;
            pub fn dvbs_sender_send(
                state: *mut u8,
                state_len: usize,
                packet: *const u8,
                packet_len: usize,
                output: *mut u8,
                output_len: usize,
                answer: *mut u8,
                answer_len: usize,
            ) -> u64;
        }
    }

    // Each pointer comes from a slice and is passed with that slice's length.

    pub fn fresh(state: &mut [u8], mode: u8) -> u8 {
        unsafe { c::dvbs_sender_fresh(state.as_mut_ptr(), state.len(), mode) }
    }

    pub fn send(state: &mut [u8], packet: &[u8], output: &mut [u8], answer: &mut [u8]) -> u64 {
        unsafe {
            c::dvbs_sender_send(
                state.as_mut_ptr(),
                state.len(),
                packet.as_ptr(),
                packet.len(),
                output.as_mut_ptr(),
                output.len(),
                answer.as_mut_ptr(),
                answer.len(),
            )
        }
    }
}

/// Without the library, the reference in its place.
#[cfg(not(exports_linked))]
pub mod library {
    pub use super::expected::{fresh, send};
}

#[cfg(test)]
mod tests {
    use super::expected::{holds, pattern_length, LAYOUT, STATE_LENGTH};
    use crate::inner_code::InnerCoder;
    use crate::states::tables::{fills, owned, rows_after, specified};

    #[test]
    fn document_header_and_specification_have_the_same_table() {
        assert!(fills(&LAYOUT, STATE_LENGTH));
        assert_eq!(rows_after("## The state of a sender", include_str!("../../docs/STATES.md")), owned(&LAYOUT));
        assert_eq!(rows_after("The state of a sender", include_str!("../../include/dvbs.h")), owned(&LAYOUT));
        assert_eq!(specified(include_str!("../../crates/dvbs_sender/specs/State.antt")), owned(&LAYOUT));
    }

    /// Where an I is held is where the coder holds one.
    #[test]
    fn held_where_the_coder_holds() {
        for mode in 0..5 {
            for place in 0..pattern_length(mode) {
                let mut coder = InnerCoder::after(mode, 0);
                coder.code_bits(&vec![1; place]);
                assert_eq!(coder.held.is_some(), holds(mode, place), "{mode} {place}");
            }
        }
        assert_eq!([0, 1, 2, 3, 4, 5].map(pattern_length), [1, 4, 3, 5, 7, 1]);
    }
}
