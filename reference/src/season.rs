//! A season of pass reports: document 02, P13. Sums and cross products are numbers of
//! 128 bits.

use crate::answer::Answer;
use crate::report::{read, Report};

pub const MOST_REPORTS: usize = 4096;

/// The bytes of the report at the front: nine lines in form 1, ten in form 2, as far as
/// there are so many. Any other first line is no report's.
fn front(text: &[u8]) -> &[u8] {
    let lines = if text.starts_with(b"form=1\n") { 9 } else { 10 };
    let end = text.iter().enumerate().filter(|(_, &b)| b == b'\n').nth(lines - 1).map_or(text.len(), |(at, _)| at + 1);
    &text[..end]
}

/// The reports of a text, or the first refusal.
pub fn reports(mut text: &[u8]) -> Result<Vec<Report>, Answer> {
    let mut reports = Vec::new();
    while !text.is_empty() {
        if reports.len() == MOST_REPORTS {
            return Err(Answer::TooManyReports);
        }
        let bytes = front(text);
        reports.push(read(bytes)?);
        text = &text[bytes.len()..];
    }
    Ok(reports)
}

/// Changed and accepted.
fn fraction(report: &Report) -> (u128, u128) {
    let [_, _, delivered, _, waiting, outofstep, changed] = report.counts.map(u128::from);
    (changed, delivered + waiting + outofstep)
}

/// The number, from 1, of the report with the largest changed divided by accepted.
pub fn worst(reports: &[Report]) -> usize {
    let larger = |a: &Report, b: &Report| {
        let ((c, n), (d, m)) = (fraction(a), fraction(b));
        c * m > d * n
    };
    let competing: Vec<usize> = (0..reports.len()).filter(|&k| fraction(&reports[k]).1 > 0).collect();
    let best = competing.iter().find(|&&k| !competing.iter().any(|&j| larger(&reports[j], &reports[k])));
    best.map_or(0, |k| k + 1)
}

/// What the program prints.
pub fn season(text: &[u8]) -> String {
    match reports(text) {
        Err(answer) => format!("{}\n", answer.number()),
        Ok(reports) => {
            let sum = |n: usize| reports.iter().map(|r| u128::from(r.counts[n])).sum::<u128>();
            format!("passes={}\ntaken={}\nlost={}\nchanged={}\nworst={}\n", reports.len(), sum(0), sum(3), sum(6), worst(&reports))
        }
    }
}

#[cfg(test)]
mod tests {
    use super::*;
    use crate::report::Bits;

    fn report(delivered: u64, lost: u64, changed: u64, bits: Bits) -> Report {
        Report { counts: [11 + delivered + lost, 11, delivered, lost, 0, 0, changed], bits, rest: 0 }
    }

    fn text(reports: &[Report]) -> Vec<u8> {
        reports.iter().flat_map(|r| r.text().into_bytes()).collect()
    }

    #[test]
    fn none() {
        assert_eq!(season(b""), "passes=0\ntaken=0\nlost=0\nchanged=0\nworst=0\n");
    }

    #[test]
    fn the_earliest_of_the_largest() {
        let list = [report(4, 1, 2, Bits::Absent), report(3, 0, 2, Bits::Dash), report(0, 5, 0, Bits::Absent), report(6, 0, 4, Bits::Number(9))];
        assert_eq!(season(&text(&list)), "passes=4\ntaken=63\nlost=6\nchanged=8\nworst=2\n");
        assert_eq!(season(&text(&list[2..3])), "passes=1\ntaken=16\nlost=5\nchanged=0\nworst=0\n");
    }

    #[test]
    fn the_first_refusal() {
        let good = text(&[report(4, 1, 2, Bits::Absent)]);
        let wrong = String::from_utf8(good.clone()).unwrap().replace("lost=1", "lost=2").into_bytes();
        let cut = &good[..good.len() - 1];
        assert_eq!(season(&[&good[..], &wrong, cut].concat()), "18\n");
        assert_eq!(season(&[&good[..], cut, &wrong].concat()), "17\n");
        assert_eq!(season(&[&good[..], cut].concat()), "17\n");
        assert_eq!(season(&good.repeat(4096)), "passes=4096\ntaken=65536\nlost=4096\nchanged=8192\nworst=1\n");
        assert_eq!(season(&[&good.repeat(4096)[..], b"x"].concat()), "21\n");
        assert_eq!(season(&[&good.repeat(4095)[..], b"x"].concat()), "17\n");
    }
}
