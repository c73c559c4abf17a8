//! A reader of received symbols whose state is bytes, by the table of docs/STATES.md,
//! and the library's C functions for it.

/// What the reference gives.
pub mod expected {
    use crate::answer::Answer;
    use crate::inner_code::RATES;
    use crate::runs::{full, hard_pairs, soft_pairs, Runs};
    use crate::states::{place_of, Row};

    pub const STATE_LENGTH: usize = 1638;

    /// The fields: name, offset, bytes.
    pub const LAYOUT: [Row; 6] =
        [("pairs", 0, 1632), ("count", 1632, 2), ("rate", 1634, 1), ("memory", 1635, 1), ("carry", 1636, 1), ("held", 1637, 1)];

    fn field<'a>(state: &'a [u8], name: &str) -> &'a [u8] {
        &state[place_of(&LAYOUT, name)]
    }

    /// A reader: its runs, and the bits that fill no byte yet.
    pub struct Reader {
        pub runs: Runs,
        pub bits: Vec<u8>,
    }

    impl Reader {
        /// Decides what makes longest runs, and packs it: the bytes that are filled.
        fn take(&mut self, pairs: &[u8]) -> Vec<u8> {
            self.runs.pairs.extend(pairs);
            while let Some(bits) = self.runs.longest() {
                self.bits.extend(bits);
            }
            self.packed()
        }

        fn packed(&mut self) -> Vec<u8> {
            let whole = self.bits.len() / 8 * 8;
            self.bits.drain(..whole).collect::<Vec<u8>>().chunks(8).map(|bits| bits.iter().fold(0, |byte, bit| byte << 1 | bit)).collect()
        }

        /// The bytes of the whole patterns that are held, and how many symbols and bits are left.
        fn end(&mut self) -> (Vec<u8>, u8, u8) {
            let (bits, behind) = self.runs.last();
            self.bits.extend(bits);
            let bytes = self.packed();
            (bytes, behind as u8, self.bits.len() as u8)
        }
    }

    /// The reader that bytes stand for.
    pub fn read(state: &[u8]) -> Option<Reader> {
        let (rate, memory, carry, held) = (field(state, "rate")[0], field(state, "memory")[0], field(state, "carry")[0], field(state, "held")[0]);
        let count = field(state, "count");
        let count = count[0] as usize + 256 * count[1] as usize;
        if rate >= RATES || memory > 63 || held > 7 || carry as u32 >= 1 << held || count >= full(rate) {
            return None;
        }
        let (pairs, behind) = field(state, "pairs").split_at(count);
        let clear = behind.iter().all(|byte| *byte == 0) && pairs.iter().all(|pair| *pair < 81);
        let bits = (0..held).rev().map(|place| carry >> place & 1).collect();
        clear.then_some(Reader { runs: Runs { rate, memory, pairs: pairs.to_vec() }, bits })
    }

    pub fn write(reader: &Reader, state: &mut [u8]) {
        state.fill(0);
        let runs = &reader.runs;
        state[..runs.pairs.len()].copy_from_slice(&runs.pairs);
        let carry = reader.bits.iter().fold(0, |byte, bit| byte << 1 | bit);
        let count = (runs.pairs.len() as u16).to_le_bytes();
        state[place_of(&LAYOUT, "count")].copy_from_slice(&count);
        for (name, byte) in [("rate", runs.rate), ("memory", runs.memory), ("carry", carry), ("held", reader.bits.len() as u8)] {
            state[place_of(&LAYOUT, name)][0] = byte;
        }
    }

    pub fn fresh(state: &mut [u8], rate: u8) -> u8 {
        if state.len() != STATE_LENGTH {
            return Answer::StateLength.number();
        }
        if rate >= RATES {
            return Answer::UnknownRate.number();
        }
        write(&Reader { runs: Runs { rate, memory: 0, pairs: Vec::new() }, bits: Vec::new() }, state);
        Answer::Done.number()
    }

    /// Where no byte is lent for the answer, nothing is done.
    fn answered(answer: &mut [u8], done: impl FnOnce() -> Result<usize, Answer>) -> u64 {
        if answer.is_empty() {
            return 0;
        }
        let (said, written) = match done() {
            Ok(written) => (Answer::Done, written),
            Err(refusal) => (refusal, 0),
        };
        answer[0] = said.number();
        written as u64
    }

    fn reader_of(state: &[u8]) -> Result<Reader, Answer> {
        if state.len() != STATE_LENGTH {
            return Err(Answer::StateLength);
        }
        read(state).ok_or(Answer::StateRange)
    }

    fn take(mut reader: Reader, pairs: &[u8], state: &mut [u8], output: &mut [u8]) -> Result<usize, Answer> {
        if output.len() < pairs.len() / 4 + 409 {
            return Err(Answer::ShortOutput);
        }
        let bytes = reader.take(pairs);
        output[..bytes.len()].copy_from_slice(&bytes);
        write(&reader, state);
        Ok(bytes.len())
    }

    pub fn feed(state: &mut [u8], symbols: &[u8], output: &mut [u8], answer: &mut [u8]) -> u64 {
        answered(answer, || {
            let reader = reader_of(state)?;
            if symbols.iter().any(|symbol| *symbol > 3) {
                return Err(Answer::NoSymbol);
            }
            take(reader, &hard_pairs(symbols), state, output)
        })
    }

    pub fn feed_soft(state: &mut [u8], i: &[f32], q: &[f32], lost: &[u8], output: &mut [u8], answer: &mut [u8]) -> u64 {
        answered(answer, || {
            let reader = reader_of(state)?;
            if i.len() != q.len() || i.len() != lost.len() || lost.iter().any(|mark| *mark > 1) {
                return Err(Answer::SoftLists);
            }
            take(reader, &soft_pairs(i, q, lost), state, output)
        })
    }

    pub fn end(state: &[u8], output: &mut [u8], left: &mut [u8], answer: &mut [u8]) -> u64 {
        answered(answer, || {
            let mut reader = reader_of(state)?;
            if output.len() < 204 || left.len() < 2 {
                return Err(Answer::ShortOutput);
            }
            let (bytes, symbols, bits) = reader.end();
            output[..bytes.len()].copy_from_slice(&bytes);
            (left[0], left[1]) = (symbols, bits);
            Ok(bytes.len())
        })
    }
}

/// The linked library.
#[cfg(exports_linked)]
pub mod library {
    mod c {
        extern "C" {
            pub fn dvbs_reader_fresh(state: *mut u8, state_len: usize, rate: u8) -> u8;
            pub fn dvbs_reader_feed(
                state: *mut u8,
                state_len: usize,
                symbols: *const u8,
                symbols_len: usize,
                output: *mut u8,
                output_len: usize,
                answer: *mut u8,
                answer_len: usize,
            ) -> u64;
            pub fn dvbs_reader_feed_soft(
                state: *mut u8,
                state_len: usize,
                i: *const f32,
                i_len: usize,
                q: *const f32,
                q_len: usize,
                lost: *const u8,
                lost_len: usize,
                output: *mut u8,
                output_len: usize,
                answer: *mut u8,
                answer_len: usize,
            ) -> u64;
            pub fn dvbs_reader_end(
                state: *const u8,
                state_len: usize,
                output: *mut u8,
                output_len: usize,
                left: *mut u8,
                left_len: usize,
                answer: *mut u8,
                answer_len: usize,
            ) -> u64;
        }
    }

    // Each pointer comes from a slice and is passed with that slice's length.

    pub fn fresh(state: &mut [u8], rate: u8) -> u8 {
        unsafe { c::dvbs_reader_fresh(state.as_mut_ptr(), state.len(), rate) }
    }

    pub fn feed(state: &mut [u8], symbols: &[u8], output: &mut [u8], answer: &mut [u8]) -> u64 {
        unsafe {
            c::dvbs_reader_feed(
                state.as_mut_ptr(),
                state.len(),
                symbols.as_ptr(),
                symbols.len(),
                output.as_mut_ptr(),
                output.len(),
                answer.as_mut_ptr(),
                answer.len(),
            )
        }
    }

    pub fn feed_soft(state: &mut [u8], i: &[f32], q: &[f32], lost: &[u8], output: &mut [u8], answer: &mut [u8]) -> u64 {
        unsafe {
            c::dvbs_reader_feed_soft(
                state.as_mut_ptr(),
                state.len(),
                i.as_ptr(),
                i.len(),
                q.as_ptr(),
                q.len(),
                lost.as_ptr(),
                lost.len(),
                output.as_mut_ptr(),
                output.len(),
                answer.as_mut_ptr(),
                answer.len(),
            )
        }
    }

    pub fn end(state: &[u8], output: &mut [u8], left: &mut [u8], answer: &mut [u8]) -> u64 {
        unsafe {
            c::dvbs_reader_end(
                state.as_ptr(),
                state.len(),
                output.as_mut_ptr(),
                output.len(),
                left.as_mut_ptr(),
                left.len(),
                answer.as_mut_ptr(),
                answer.len(),
            )
        }
    }
}

/// Without the library, the reference in its place.
#[cfg(not(exports_linked))]
pub mod library {
    pub use super::expected::{end, feed, feed_soft, fresh};
}

#[cfg(test)]
mod tests {
    use super::expected::{LAYOUT, STATE_LENGTH};
    use crate::states::tables::{fills, owned, rows_after, specified};

    #[test]
    fn document_header_and_specification_have_the_same_table() {
        assert!(fills(&LAYOUT, STATE_LENGTH));
        assert_eq!(rows_after("## The state of a reader", include_str!("../../docs/STATES.md")), owned(&LAYOUT));
        assert_eq!(rows_after("The state of a reader", include_str!("../../include/dvbs.h")), owned(&LAYOUT));
        assert_eq!(specified(include_str!("../../crates/dvbs_reader_stream/specs/State.antt")), owned(&LAYOUT));
    }
}
