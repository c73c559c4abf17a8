//! Stages that the library's C functions do not reach by themselves: the
//! functions of `libkernels.a`, which the benchmark calls too, and in `expected`
//! what the reference says they do.

/// What the reference gives for the same calls.
pub mod expected {
    use crate::inner_code::InnerCoder;
    use crate::interleaver::Branches;
    use crate::BLOCK_LENGTH;

    /// The whole blocks through a fresh interleaver; an output shorter than the
    /// blocks is left as it is.
    pub fn interleave(blocks: &[u8], output: &mut [u8]) {
        if output.len() < blocks.len() {
            return;
        }
        let mut branches = Branches::interleaver();
        for (block, interleaved) in blocks.chunks_exact(BLOCK_LENGTH).zip(output.chunks_exact_mut(BLOCK_LENGTH)) {
            branches.pass(block, interleaved);
        }
    }

    /// The whole blocks through a fresh inner coder: how many symbols it wrote.
    /// A mode that is not sent, or room for fewer symbols than bits, is 0.
    pub fn inner_code(rate: u8, blocks: &[u8], output: &mut [u8]) -> u64 {
        let mut coder = match InnerCoder::fresh(rate) {
            Ok(coder) if output.len() / 8 >= blocks.len() => coder,
            _ => return 0,
        };
        let symbols = coder.code(&blocks[..blocks.len() / BLOCK_LENGTH * BLOCK_LENGTH]);
        output[..symbols.len()].copy_from_slice(&symbols);
        symbols.len() as u64
    }
}

/// The linked functions.
#[cfg(kernels_linked)]
pub mod library {
    mod c {
        extern "C" {
            pub fn kernel_interleave(blocks: *const u8, blocks_len: usize, output: *mut u8, output_len: usize);
            pub fn kernel_inner_code(
                rate: u8,
                blocks: *const u8,
                blocks_len: usize,
                output: *mut u8,
                output_len: usize,
            ) -> u64;
        }
    }

    pub const LINKED: bool = true;

    // Each pointer comes from a slice and is passed with that slice's length.

    pub fn interleave(blocks: &[u8], output: &mut [u8]) {
        unsafe { c::kernel_interleave(blocks.as_ptr(), blocks.len(), output.as_mut_ptr(), output.len()) }
    }

    pub fn inner_code(rate: u8, blocks: &[u8], output: &mut [u8]) -> u64 {
        unsafe { c::kernel_inner_code(rate, blocks.as_ptr(), blocks.len(), output.as_mut_ptr(), output.len()) }
    }
}

/// Without them, the reference in their place.
#[cfg(not(kernels_linked))]
pub mod library {
    pub const LINKED: bool = false;
    pub use super::expected::*;
}
