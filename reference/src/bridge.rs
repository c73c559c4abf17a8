//! The part for the bridge (document 02, P14): a receiver whose state is bytes, by
//! the table of docs/BRIDGE.md, and the library's C functions for it.

/// What the reference gives.
pub mod expected {
    use crate::answer::Answer;
    use crate::interleaver::BRANCHES;
    use crate::receiver::{Counts, Receiver, FILLING, MOST_BLOCKS};
    use crate::states::{advance, cells_of, fill, place_of, positions_in, Row};
    use crate::{BLOCK_LENGTH, GROUP_LENGTH, PACKET_LENGTH};

    pub const STATE_LENGTH: usize = 2322;

    /// The fields: name, offset, bytes.
    pub const LAYOUT: [Row; 13] = [
        ("cells", 0, 1122),
        ("positions", 1122, 12),
        ("place", 1134, 1),
        ("missed", 1135, 1),
        ("taken", 1136, 8),
        ("filling", 1144, 8),
        ("delivered", 1152, 8),
        ("lost", 1160, 8),
        ("waiting", 1168, 8),
        ("outofstep", 1176, 8),
        ("changed", 1184, 8),
        ("bits", 1192, 8),
        ("marks", 1200, 1122),
    ];

    /// The byte of the place that is not known.
    const NOT_KNOWN: u8 = GROUP_LENGTH as u8;

    fn field<'a>(state: &'a [u8], name: &str) -> &'a [u8] {
        &state[place_of(&LAYOUT, name)]
    }

    fn number(state: &[u8], name: &str) -> u64 {
        u64::from_le_bytes(field(state, name).try_into().unwrap())
    }

    fn in_range(c: &Counts) -> bool {
        let five = [c.filling, c.delivered, c.lost, c.waiting, c.outofstep];
        let accepted: u128 = [c.delivered, c.waiting, c.outofstep].iter().map(|n| *n as u128).sum();
        c.taken <= MOST_BLOCKS
            && five.iter().map(|n| *n as u128).sum::<u128>() == c.taken as u128
            && c.filling == c.taken.min(FILLING)
            && c.changed as u128 <= 16 * accepted
            && c.bits >= c.changed
            && c.bits as u128 <= 8 * c.changed as u128
    }

    /// The receiver that the bytes stand for, and the positions of its branches.
    pub fn read(state: &[u8]) -> Option<(Receiver, Vec<usize>)> {
        let mut receiver = Receiver::fresh();
        let positions = positions_in(&receiver.branches, field(state, "positions"))?;
        let marks = field(state, "marks");
        if marks.iter().any(|mark| *mark > 1) {
            return None;
        }
        fill(&mut receiver.branches, field(state, "cells"), &positions);
        fill(&mut receiver.marks, marks, &positions);
        let missed = field(state, "missed")[0];
        receiver.place = match field(state, "place")[0] {
            NOT_KNOWN if missed == 0 => None,
            place if place < NOT_KNOWN && missed <= 1 => Some(place as usize),
            _ => return None,
        };
        receiver.odd = missed == 1;
        receiver.counts = Counts {
            taken: number(state, "taken"),
            filling: number(state, "filling"),
            delivered: number(state, "delivered"),
            lost: number(state, "lost"),
            waiting: number(state, "waiting"),
            outofstep: number(state, "outofstep"),
            changed: number(state, "changed"),
            bits: number(state, "bits"),
        };
        in_range(&receiver.counts).then_some((receiver, positions))
    }

    pub fn write(receiver: &Receiver, positions: &[usize], state: &mut [u8]) {
        let mut put = |name: &str, bytes: &[u8]| state[place_of(&LAYOUT, name)].copy_from_slice(bytes);
        put("cells", &cells_of(&receiver.branches, positions));
        put("marks", &cells_of(&receiver.marks, positions));
        put("positions", &positions.iter().map(|p| *p as u8).collect::<Vec<_>>());
        put("place", &[receiver.place.map_or(NOT_KNOWN, |place| place as u8)]);
        put("missed", &[receiver.odd as u8]);
        let names = ["taken", "filling", "delivered", "lost", "waiting", "outofstep", "changed", "bits"];
        for (name, count) in names.iter().zip(receiver.counts.in_order()) {
            put(name, &count.to_le_bytes());
        }
    }

    pub fn fresh(state: &mut [u8]) -> u8 {
        if state.len() != STATE_LENGTH {
            return Answer::StateLength.number();
        }
        write(&Receiver::fresh(), &[0; BRANCHES], state);
        Answer::Done.number()
    }

    pub fn take(state: &mut [u8], block: &[u8], output: &mut [u8]) -> u8 {
        take_marked(state, block, &[0; BLOCK_LENGTH], output)
    }

    /// A block with marks, which the bridge does not take: a state with marks in its delays comes from elsewhere.
    pub fn take_marked(state: &mut [u8], block: &[u8], marks: &[u8], output: &mut [u8]) -> u8 {
        if state.len() != STATE_LENGTH {
            return Answer::StateLength.number();
        }
        let (mut receiver, mut positions) = match read(state) {
            Some(stands_for) => stands_for,
            None => return Answer::StateRange.number(),
        };
        let before = receiver.counts.taken;
        let answer = receiver.receive_marked(block, marks, output);
        if receiver.counts.taken > before {
            assert!(block.len() == BLOCK_LENGTH && output.len() >= PACKET_LENGTH);
            advance(&receiver.branches, &mut positions);
            write(&receiver, &positions, state);
        }
        answer.number()
    }

    pub fn count(state: &[u8], number: u8, output: &mut [u8]) -> u8 {
        if state.len() != STATE_LENGTH {
            return Answer::StateLength.number();
        }
        if number > 7 {
            return Answer::NoSuchCount.number();
        }
        let receiver = match read(state) {
            Some((receiver, _)) => receiver,
            None => return Answer::StateRange.number(),
        };
        if output.len() < 8 {
            return Answer::ShortOutput.number();
        }
        output[..8].copy_from_slice(&receiver.counts.in_order()[number as usize].to_le_bytes());
        Answer::Done.number()
    }
}

/// The linked library.
#[cfg(bridge_linked)]
pub mod library {
    mod c {
        extern "C" {
            pub fn dvbs_bridge_fresh(state: *mut u8, state_len: usize) -> u8;
            pub fn dvbs_bridge_take(
                state: *mut u8,
                state_len: usize,
                block: *const u8,
                block_len: usize,
                output: *mut u8,
                output_len: usize,
            ) -> u8;
            pub fn dvbs_bridge_count(
                state: *const u8,
                state_len: usize,
                number: u8,
                output: *mut u8,
                output_len: usize,
            ) -> u8;
        }
    }

    // Each pointer comes from a slice and is passed with that slice's length.

    pub fn fresh(state: &mut [u8]) -> u8 {
        unsafe { c::dvbs_bridge_fresh(state.as_mut_ptr(), state.len()) }
    }

    pub fn take(state: &mut [u8], block: &[u8], output: &mut [u8]) -> u8 {
        unsafe {
            c::dvbs_bridge_take(
                state.as_mut_ptr(),
                state.len(),
                block.as_ptr(),
                block.len(),
                output.as_mut_ptr(),
                output.len(),
            )
        }
    }

    pub fn count(state: &[u8], number: u8, output: &mut [u8]) -> u8 {
        unsafe { c::dvbs_bridge_count(state.as_ptr(), state.len(), number, output.as_mut_ptr(), output.len()) }
    }
}

/// Without the library, the reference in its place.
#[cfg(not(bridge_linked))]
pub mod library {
    pub use super::expected::{count, fresh, take};
}

#[cfg(test)]
mod tests {
    use super::expected::{LAYOUT, STATE_LENGTH};
    use crate::states::tables::{fills, owned, rows_after, specified};

    #[test]
    fn the_fields_fill_the_state() {
        assert!(fills(&LAYOUT, STATE_LENGTH));
    }

    /// The specification has the eight counts as one field.
    #[test]
    fn document_header_and_specification_have_the_same_table() {
        assert_eq!(rows_after("## The state", include_str!("../../docs/BRIDGE.md")), owned(&LAYOUT));
        assert_eq!(rows_after("The layout of the state", include_str!("../../include/dvbs_bridge.h")), owned(&LAYOUT));
        let mut joined = owned(&LAYOUT);
        joined.splice(4..12, [("counts".to_string(), 1136, 64)]);
        assert_eq!(specified(include_str!("../../crates/receiver_state/specs/State.antt")), joined);
    }
}
