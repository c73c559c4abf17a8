//! Outer coding, RS(204,188,T=8) (clause 4.4.2). Field arithmetic by
//! logarithms; decoding by Berlekamp-Massey, Chien search over the 204 places
//! that are sent, and Forney's formula, with the result verified; with marks
//! (document 02, P11) Berlekamp-Massey begins with the locator of the erasures.

use crate::answer::Answer;
use crate::{BLOCK_LENGTH, PACKET_LENGTH};

pub const CHECK_LENGTH: usize = 16;
pub const CORRECTABLE: usize = 8;

/// Field generator polynomial x^8 + x^4 + x^3 + x^2 + 1.
const FIELD_POLYNOMIAL: u16 = 0x11D;

/// Powers and logarithms of lambda = 02 hex.
struct Field {
    exp: [u8; 510],
    log: [u8; 256],
}

const fn field() -> Field {
    let mut f = Field { exp: [0; 510], log: [0; 256] };
    let mut value: u16 = 1;
    let mut power = 0;
    while power < 255 {
        f.exp[power] = value as u8;
        f.exp[power + 255] = value as u8;
        f.log[value as usize] = power as u8;
        value <<= 1;
        if value & 0x100 != 0 {
            value ^= FIELD_POLYNOMIAL;
        }
        power += 1;
    }
    f
}

static FIELD: Field = field();

pub fn multiply(a: u8, b: u8) -> u8 {
    if a == 0 || b == 0 {
        return 0;
    }
    FIELD.exp[FIELD.log[a as usize] as usize + FIELD.log[b as usize] as usize]
}

fn divide(a: u8, b: u8) -> u8 {
    assert!(b != 0);
    if a == 0 {
        return 0;
    }
    FIELD.exp[FIELD.log[a as usize] as usize + 255 - FIELD.log[b as usize] as usize]
}

/// lambda to the power `n`.
fn power(n: usize) -> u8 {
    FIELD.exp[n % 255]
}

/// Code generator polynomial (x + lambda^0) .. (x + lambda^15), x^16 first.
pub fn generator() -> [u8; CHECK_LENGTH + 1] {
    let mut g = [0; CHECK_LENGTH + 1];
    g[0] = 1;
    for i in 0..CHECK_LENGTH {
        let root = power(i);
        for k in (1..=i + 1).rev() {
            g[k] ^= multiply(g[k - 1], root);
        }
    }
    g
}

/// The remainder of a polynomial (highest coefficient first) times x^16 by g.
pub fn check_bytes(data: &[u8]) -> [u8; CHECK_LENGTH] {
    let g = generator();
    let mut rest = [0; CHECK_LENGTH];
    for &byte in data {
        let feedback = byte ^ rest[0];
        for k in 0..CHECK_LENGTH {
            let next = if k + 1 < CHECK_LENGTH { rest[k + 1] } else { 0 };
            rest[k] = next ^ multiply(feedback, g[k + 1]);
        }
    }
    rest
}

/// The data bytes, then the sixteen that make the block a codeword.
pub fn encode(data: &[u8], output: &mut [u8]) -> Answer {
    if data.len() != PACKET_LENGTH {
        return Answer::PacketLength;
    }
    if output.len() < BLOCK_LENGTH {
        return Answer::ShortOutput;
    }
    output[..PACKET_LENGTH].copy_from_slice(data);
    output[PACKET_LENGTH..BLOCK_LENGTH].copy_from_slice(&check_bytes(data));
    Answer::Done
}

/// The block's values at lambda^0 .. lambda^15.
fn syndromes(block: &[u8]) -> [u8; CHECK_LENGTH] {
    let mut s = [0; CHECK_LENGTH];
    for (i, value) in s.iter_mut().enumerate() {
        *value = block.iter().fold(0, |sum, &byte| multiply(sum, power(i)) ^ byte);
    }
    s
}

/// g divides the block exactly when every root of g is a root of it.
pub fn is_codeword(block: &[u8]) -> bool {
    syndromes(block) == [0; CHECK_LENGTH]
}

/// Shortest linear feedback register of the syndromes, lowest coefficient
/// first, and its length.
fn berlekamp_massey(s: &[u8; CHECK_LENGTH]) -> ([u8; CHECK_LENGTH + 1], usize) {
    let mut locator = [0; CHECK_LENGTH + 1];
    let mut before = [0; CHECK_LENGTH + 1];
    locator[0] = 1;
    before[0] = 1;
    let mut length = 0;
    let mut gap = 1;
    let mut before_discrepancy = 1;
    for n in 0..CHECK_LENGTH {
        let mut discrepancy = s[n];
        for i in 1..=length {
            discrepancy ^= multiply(locator[i], s[n - i]);
        }
        if discrepancy == 0 {
            gap += 1;
            continue;
        }
        let kept = locator;
        let factor = divide(discrepancy, before_discrepancy);
        for i in gap..=CHECK_LENGTH {
            locator[i] ^= multiply(factor, before[i - gap]);
        }
        if 2 * length <= n {
            length = n + 1 - length;
            before = kept;
            before_discrepancy = discrepancy;
            gap = 1;
        } else {
            gap += 1;
        }
    }
    (locator, length)
}

/// The same with places that are known beforehand: the product of 1 + x lambda^k
/// over their exponents k, and from it the locator of these and of the errors,
/// and how many both are (Blahut).
fn berlekamp_massey_from(s: &[u8; CHECK_LENGTH], erasures: &[usize]) -> ([u8; CHECK_LENGTH + 1], usize) {
    let known = erasures.len();
    let mut locator = [0; CHECK_LENGTH + 1];
    locator[0] = 1;
    for &exponent in erasures {
        for i in (1..=CHECK_LENGTH).rev() {
            locator[i] ^= multiply(locator[i - 1], power(exponent));
        }
    }
    let mut before = locator;
    let mut length = known;
    for n in known..CHECK_LENGTH {
        let mut discrepancy = 0;
        for i in 0..=n {
            discrepancy ^= multiply(locator[i], s[n - i]);
        }
        before.rotate_right(1);
        before[0] = 0;
        if discrepancy == 0 {
            continue;
        }
        let kept = locator;
        for i in 0..=CHECK_LENGTH {
            locator[i] ^= multiply(discrepancy, before[i]);
        }
        if 2 * length <= n + known {
            length = n + 1 + known - length;
            before = kept.map(|c| divide(c, discrepancy));
        }
    }
    (locator, length)
}

/// Value of a polynomial, lowest coefficient first.
fn evaluate(polynomial: &[u8], at: u8) -> u8 {
    polynomial.iter().rev().fold(0, |sum, &c| multiply(sum, at) ^ c)
}

/// In how many bytes, and in how many bits, two blocks differ.
#[derive(Clone, Copy, Debug, Default, PartialEq, Eq)]
pub struct Changed {
    pub bytes: usize,
    pub bits: usize,
}

pub fn changed(came: &[u8], left: &[u8]) -> Changed {
    let mut changed = Changed::default();
    for (a, b) in came.iter().zip(left) {
        changed.bytes += (a != b) as usize;
        for i in 0..8 {
            changed.bits += (a >> i & 1 != b >> i & 1) as usize;
        }
    }
    changed
}

/// The codeword within eight bytes of the block and what differs between them,
/// or none.
pub fn nearest_codeword(block: &[u8]) -> Option<([u8; BLOCK_LENGTH], Changed)> {
    let s = syndromes(block);
    let (locator, length) = berlekamp_massey(&s);
    if length > CORRECTABLE {
        return None;
    }
    let corrected = corrected(block, &s, &locator)?;
    // Nothing above is trusted: the result must be a codeword within eight bytes.
    let changed = changed(block, &corrected);
    if changed.bytes <= CORRECTABLE && is_codeword(&corrected) {
        Some((corrected, changed))
    } else {
        None
    }
}

/// Twice the unmarked bytes in which two blocks differ, and the marks: 2 e + f.
pub fn cost(marks: &[u8], came: &[u8], codeword: &[u8]) -> usize {
    let marked = marks.iter().filter(|&&m| m == 1).count();
    let errors = (0..BLOCK_LENGTH).filter(|&n| marks[n] == 0 && came[n] != codeword[n]).count();
    2 * errors + marked
}

/// The codeword with 2 e + f at most 16 and what differs, or none. Marks are 0 or 1.
pub fn codeword_with_marks(block: &[u8], marks: &[u8]) -> Option<([u8; BLOCK_LENGTH], Changed)> {
    let erasures: Vec<usize> = (0..BLOCK_LENGTH).filter(|&n| marks[n] == 1).map(|n| BLOCK_LENGTH - 1 - n).collect();
    if erasures.len() > CHECK_LENGTH {
        return None;
    }
    let s = syndromes(block);
    let (locator, length) = berlekamp_massey_from(&s, &erasures);
    if 2 * (length - erasures.len()) + erasures.len() > CHECK_LENGTH {
        return None;
    }
    let corrected = corrected(block, &s, &locator)?;
    // Nothing above is trusted: the result must be a codeword with 2 e + f at most 16.
    if cost(marks, block, &corrected) <= CHECK_LENGTH && is_codeword(&corrected) {
        Some((corrected, changed(block, &corrected)))
    } else {
        None
    }
}

/// The block with the errors at the roots of the locator taken away.
fn corrected(block: &[u8], s: &[u8; CHECK_LENGTH], locator: &[u8; CHECK_LENGTH + 1]) -> Option<[u8; BLOCK_LENGTH]> {
    let mut corrected = [0; BLOCK_LENGTH];
    corrected.copy_from_slice(block);
    // Evaluator: syndromes times locator, modulo x^16.
    let mut evaluator = [0; CHECK_LENGTH];
    for i in 0..CHECK_LENGTH {
        for k in 0..=i {
            evaluator[i] ^= multiply(locator[k], s[i - k]);
        }
    }
    // Formal derivative of the locator: odd coefficients, moved down by one.
    let mut derivative = [0; CHECK_LENGTH];
    for i in (1..=CHECK_LENGTH).step_by(2) {
        derivative[i - 1] = locator[i];
    }
    // Only the 204 places that are sent; byte n is the coefficient of x^(203-n).
    for n in 0..BLOCK_LENGTH {
        let exponent = BLOCK_LENGTH - 1 - n;
        let inverse = power(255 - exponent);
        if evaluate(locator, inverse) != 0 {
            continue;
        }
        let slope = evaluate(&derivative, inverse);
        if slope == 0 {
            return None;
        }
        let quotient = divide(evaluate(&evaluator, inverse), slope);
        corrected[n] ^= multiply(power(exponent), quotient);
    }
    Some(corrected)
}

/// Corrects a block in place. What changed is given where the answer is Done.
pub fn decode(block: &mut [u8]) -> (Answer, Changed) {
    if block.len() != BLOCK_LENGTH {
        return (Answer::BlockLength, Changed::default());
    }
    match nearest_codeword(block) {
        Some((codeword, changed)) => {
            block.copy_from_slice(&codeword);
            (Answer::Done, changed)
        }
        None => (Answer::NoCodeword, Changed::default()),
    }
}

/// Whether there is a mark, 0 or 1, for each of so many bytes.
pub fn are_marks(marks: &[u8], bytes: usize) -> bool {
    marks.len() == bytes && marks.iter().all(|&m| m <= 1)
}

/// Corrects a block in place with a mark for each byte. What changed is given where
/// the answer is Done.
pub fn decode_marked(block: &mut [u8], marks: &[u8]) -> (Answer, Changed) {
    if block.len() != BLOCK_LENGTH {
        return (Answer::BlockLength, Changed::default());
    }
    if !are_marks(marks, BLOCK_LENGTH) {
        return (Answer::MarkValue, Changed::default());
    }
    match codeword_with_marks(block, marks) {
        Some((codeword, changed)) => {
            block.copy_from_slice(&codeword);
            (Answer::Done, changed)
        }
        None => (Answer::NoCodeword, Changed::default()),
    }
}

#[cfg(test)]
mod tests {
    use super::*;
    use crate::xorshift::Xorshift;

    /// Field product without tables, to check them.
    fn slow_multiply(a: u8, b: u8) -> u8 {
        let mut product: u16 = 0;
        for i in 0..8 {
            if b >> i & 1 == 1 {
                product ^= (a as u16) << i;
            }
        }
        for i in (8..16).rev() {
            if product >> i & 1 == 1 {
                product ^= FIELD_POLYNOMIAL << (i - 8);
            }
        }
        product as u8
    }

    #[test]
    fn the_tables_hold_the_field() {
        assert_eq!(multiply(0x80, 0x02), 0x1D);
        for a in 0..=255 {
            for b in 0..=255 {
                assert_eq!(multiply(a, b), slow_multiply(a, b));
                if b != 0 {
                    assert_eq!(divide(slow_multiply(a, b), b), a);
                }
            }
        }
    }

    const COEFFICIENTS: [u8; 16] = [
        0x3B, 0x0D, 0x68, 0xBD, 0x44, 0xD1, 0x1E, 0x08, 0xA3, 0x41, 0x29, 0xE5, 0x62, 0x32, 0x24, 0x3B,
    ];

    #[test]
    fn the_generator_polynomial_is_the_published_one() {
        assert_eq!(generator()[0], 1);
        assert_eq!(generator()[1..], COEFFICIENTS);
        let mut data = [0; 188];
        assert_eq!(check_bytes(&data), [0; 16]);
        data[187] = 1;
        assert_eq!(check_bytes(&data), COEFFICIENTS);
    }

    #[test]
    fn division_and_roots_agree() {
        let mut r = Xorshift::new(1);
        for _ in 0..2000 {
            let mut block = [0; 204];
            encode(&r.bytes(188), &mut block);
            assert!(is_codeword(&block));
            assert_eq!(check_bytes(&block), [0; 16]);
            let n = r.below(204);
            block[n] ^= 1 + r.below(255) as u8;
            assert!(!is_codeword(&block));
        }
        let mut last = [0; 204];
        last[187] = 1;
        last[188..].copy_from_slice(&COEFFICIENTS);
        assert!(is_codeword(&last));
        last[203] = 0;
        assert!(!is_codeword(&last));
    }

    #[test]
    fn up_to_eight_errors_come_back() {
        let mut r = Xorshift::new(2);
        for case in 0..9000 {
            let errors = case % 9;
            let mut sent = [0; 204];
            encode(&r.bytes(188), &mut sent);
            let mut block = sent;
            let mut bits = 0;
            for n in r.places(errors, 204) {
                let error = 1 + r.below(255) as u8;
                block[n] ^= error;
                bits += error.count_ones() as usize;
            }
            assert_eq!(decode(&mut block), (Answer::Done, Changed { bytes: errors, bits }));
            assert_eq!(block, sent);
        }
    }

    #[test]
    fn eight_bytes_of_the_shortest_codeword_cleared() {
        let mut word = [0; 204];
        word[187] = 1;
        word[188..].copy_from_slice(&COEFFICIENTS);
        let mut r = Xorshift::new(3);
        for _ in 0..2000 {
            let mut block = word;
            for n in r.places(8, 17) {
                block[187 + n] = 0;
            }
            // What was cleared comes back: its bits are those of the bytes cleared.
            let bits = word.iter().zip(&block).map(|(w, b)| (w - b).count_ones() as usize).sum();
            assert_eq!(decode(&mut block), (Answer::Done, Changed { bytes: 8, bits }));
            assert_eq!(block, word);
            // One more cleared is eight from zero.
            let mut block = word;
            for n in r.places(9, 17) {
                block[187 + n] = 0;
            }
            let bits = block.iter().map(|b| b.count_ones() as usize).sum();
            assert_eq!(decode(&mut block), (Answer::Done, Changed { bytes: 8, bits }));
            assert_eq!(block, [0; 204]);
        }
    }

    #[test]
    fn one_byte_changed_has_one_to_eight_bits() {
        let mut sent = [0; 204];
        encode(&Xorshift::new(4).bytes(188), &mut sent);
        for (error, bits) in [(0x01, 1), (0x80, 1), (0x0F, 4), (0xF0, 4), (0xFF, 8)] {
            let mut block = sent;
            block[100] ^= error;
            assert_eq!(decode(&mut block), (Answer::Done, Changed { bytes: 1, bits }));
        }
    }

    #[test]
    fn an_error_among_the_51_bytes_never_sent_is_refused() {
        for k in 0..51 {
            // x^(204+k) modulo g: 1 followed by 188 + k zeros, times x^16.
            let mut data = vec![0; 189 + k];
            data[0] = 1;
            let mut block = [0; 204];
            block[188..].copy_from_slice(&check_bytes(&data));
            let before = block;
            assert_eq!(decode(&mut block).0, Answer::NoCodeword);
            assert_eq!(block, before);
        }
    }

    #[test]
    fn marks_and_errors_on_either_side_of_the_line() {
        let mut r = Xorshift::new(5);
        for case in 0..19 * 300 {
            let marked = case % 19;
            let errors = (16usize.saturating_sub(marked) / 2 + case / 19 % 3).saturating_sub(1);
            let mut sent = [0; 204];
            encode(&r.bytes(188), &mut sent);
            let (mut block, mut marks) = (sent, [0; 204]);
            let places = r.places(marked + errors, 204);
            for (i, &n) in places.iter().enumerate() {
                // A marked byte may be right.
                if i >= marked || r.below(3) > 0 {
                    block[n] ^= 1 + r.below(255) as u8;
                }
                marks[n] = (i < marked) as u8;
            }
            let came = block;
            let (answer, told) = decode_marked(&mut block, &marks);
            if 2 * errors + marked <= 16 {
                assert_eq!((answer, told), (Answer::Done, changed(&came, &sent)));
                assert_eq!(block, sent);
            } else if answer == Answer::Done {
                assert!(block != sent && cost(&marks, &came, &block) <= 16 && is_codeword(&block));
            } else {
                assert_eq!((answer, told, block), (Answer::NoCodeword, Changed::default(), came));
            }
        }
    }

    #[test]
    fn no_marks_is_the_decoder_without_them() {
        let mut r = Xorshift::new(6);
        for case in 0..3000 {
            let mut block = [0; 204];
            encode(&r.bytes(188), &mut block);
            for n in r.places(case % 12, 204) {
                block[n] ^= 1 + r.below(255) as u8;
            }
            let mut same = block;
            assert_eq!(decode_marked(&mut same, &[0; 204]), decode(&mut block));
            assert_eq!(same, block);
        }
    }

    #[test]
    fn seventeen_marks_are_too_many_for_a_clean_block() {
        let mut sent = [0; 204];
        encode(&Xorshift::new(7).bytes(188), &mut sent);
        for (count, answer) in [(16, Answer::Done), (17, Answer::NoCodeword), (204, Answer::NoCodeword)] {
            let mut marks = [0; 204];
            marks[..count].fill(1);
            let mut block = sent;
            assert_eq!(decode_marked(&mut block, &marks), (answer, Changed::default()));
            assert_eq!(block, sent);
        }
    }

    #[test]
    fn lengths() {
        assert_eq!(decode_marked(&mut [0; 203], &[2; 3]).0, Answer::BlockLength);
        assert_eq!(decode_marked(&mut [0; 204], &[0; 203]).0, Answer::MarkValue);
        assert_eq!(decode_marked(&mut [0; 204], &[0; 205]).0, Answer::MarkValue);
        assert_eq!(decode_marked(&mut [0; 204], &[2; 204]).0, Answer::MarkValue);
        assert_eq!(decode(&mut [0; 203]).0, Answer::BlockLength);
        assert_eq!(decode(&mut [0; 205]).0, Answer::BlockLength);
        assert_eq!(encode(&[0; 187], &mut [0; 204]), Answer::PacketLength);
        assert_eq!(encode(&[0; 189], &mut [0; 204]), Answer::PacketLength);
        assert_eq!(encode(&[0; 188], &mut [0; 203]), Answer::ShortOutput);
    }
}
