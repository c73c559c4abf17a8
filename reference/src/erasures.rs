//! Which decoded bytes are doubtful, by the lost symbols alone, as
//! `docs/DECISIONS.md` puts it: a bit is in the coder for seven steps, its own and
//! six more; a byte is marked where for one of its bits every coded bit of these
//! steps came as lost. The steps are laid out one by one, and looked at seven at a
//! time.

use crate::channel::Point;
use crate::inner_code::{pattern, InnerCoder};

/// The steps of the inner coder for which all coded bits came: whether each of
/// these was lost. A number that is NaN is a lost coded bit; both are in a lost
/// symbol.
fn lost_steps(rate: u8, points: &[Point]) -> Vec<bool> {
    let mut numbers = points.iter().flat_map(|p| [p.0, p.1]);
    let mut steps = Vec::new();
    loop {
        let (x, y) = pattern(rate, steps.len());
        let mut lost = true;
        for _ in 0..u8::from(x) + u8::from(y) {
            match numbers.next() {
                Some(number) => lost &= number.is_nan(),
                None => return steps,
            }
        }
        steps.push(lost);
    }
}

/// A mark for each byte that is decoded of the points: 1 for a doubtful one, else 0.
pub fn marks(rate: u8, points: &[Point]) -> Vec<u8> {
    let steps = lost_steps(rate, points);
    let untold: Vec<bool> = steps.windows(7).map(|seven| seven.iter().all(|lost| *lost)).collect();
    let length = InnerCoder::pattern_length(rate);
    let patterns = points.len() / InnerCoder::after(rate, 0).symbols_due(length);
    (0..patterns * length / 8).map(|m| u8::from(untold.iter().skip(8 * m).take(8).any(|bit| *bit))).collect()
}

#[cfg(test)]
mod tests {
    use super::*;
    use crate::channel::LOST;

    const HERE: Point = (1.0, -1.0);

    #[test]
    fn at_rate_half_a_symbol_is_a_step() {
        // Seven lost symbols in a row leave nothing of one bit, six leave something of each.
        let mut points = vec![HERE; 80];
        points[20..26].fill(LOST);
        assert_eq!(marks(0, &points), [0; 10]);
        points[26] = LOST;
        assert_eq!(marks(0, &points), [0, 0, 1, 0, 0, 0, 0, 0, 0, 0]);
        // Half of a symbol is enough to tell.
        points[23] = (f32::NAN, 0.0);
        assert_eq!(marks(0, &points), [0; 10]);
    }

    #[test]
    fn all_lost() {
        for rate in 0..5 {
            let points = vec![LOST; 840];
            let marked = marks(rate, &points);
            let steps = lost_steps(rate, &points).len();
            // The last six bits have fewer than seven steps.
            assert_eq!(marked.iter().filter(|m| **m == 1).count(), ((steps - 6) + 7) / 8);
            assert!(marked[..marked.len() - 1].iter().all(|m| *m == 1));
        }
    }

    #[test]
    fn the_pattern_of_three_quarters() {
        // Steps 0, 1, 2 send X and Y, Y, X: two symbols. A step with one coded bit left is told.
        let mut points = vec![LOST; 8];
        assert_eq!(lost_steps(2, &points), [true; 12]);
        points[1] = (f32::NAN, 1.0);
        assert_eq!(lost_steps(2, &points)[..4], [true, true, false, true]);
        points[0] = (f32::NAN, 1.0);
        assert_eq!(lost_steps(2, &points)[..4], [false, true, false, true]);
    }
}
