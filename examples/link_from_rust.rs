//! The outer code from Rust: codes a message, harms eight bytes of the codeword and corrects them, then harms nine.

/// Two of the functions that `include/dvbs.h` declares. A slice is a pointer and its length.
mod c {
    extern "C" {
        pub fn dvbs_rs_encode(message: *const u8, message_len: usize, output: *mut u8, output_len: usize) -> u8;
        pub fn dvbs_rs_decode(block: *mut u8, block_len: usize, count: *mut u8, count_len: usize) -> u8;
    }
}

// The functions test what they are lent. What a safe wrapper owes them: true lengths, and slices that do not overlap.
// Every Rust slice has the first, and no two that are lent as `&mut` lack the second.

fn rs_encode(message: &[u8], output: &mut [u8]) -> u8 {
    unsafe { c::dvbs_rs_encode(message.as_ptr(), message.len(), output.as_mut_ptr(), output.len()) }
}

fn rs_decode(block: &mut [u8], count: &mut [u8]) -> u8 {
    unsafe { c::dvbs_rs_decode(block.as_mut_ptr(), block.len(), count.as_mut_ptr(), count.len()) }
}

/// The block with an error added to the first n of these bytes.
fn harmed(block: [u8; 204], n: usize) -> [u8; 204] {
    let mut harmed = block;
    for (i, &place) in [0, 1, 50, 99, 140, 187, 190, 202, 203].iter().take(n).enumerate() {
        harmed[place] ^= 0x11 + i as u8;
    }
    harmed
}

fn main() {
    let mut message = [0; 188];
    for (n, byte) in message.iter_mut().enumerate() {
        *byte = n as u8;
    }
    let mut codeword = [0; 204];
    let answer = rs_encode(&message, &mut codeword);
    println!("coded: answer {answer}");

    let mut count = [0; 2];
    let mut block = harmed(codeword, 8);
    let answer = rs_decode(&mut block, &mut count);
    let which = if block == codeword { "the same" } else { "another" };
    println!("eight bytes harmed: answer {answer}, {} bytes and {} bits repaired, {which} codeword", count[0], count[1]);

    let came = harmed(codeword, 9);
    let mut block = came;
    let answer = rs_decode(&mut block, &mut count);
    let how = if block == came { "as it came" } else { "changed" };
    println!("nine bytes harmed: answer {answer}, the block is {how}");
}
