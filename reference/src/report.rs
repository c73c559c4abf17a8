//! Pass reports in both forms: document 01, "Receiver", and document 02, P7.
//!
//! Reading is lenient first: the lines are split and each number is taken as Rust's
//! own parser takes it. Then the report is written again, and must be the text, byte
//! for byte. So there is one description of the text, the writer's.

use crate::answer::Answer;

pub const NAMES: [&str; 7] = ["taken", "filling", "delivered", "lost", "waiting", "outofstep", "changed"];

/// The most of any count, of changed, of bits and of rest.
pub const MOST: u64 = 4_294_967_295;
pub const MOST_CHANGED: u64 = 68_719_476_720;
pub const MOST_BITS: u64 = 549_755_813_760;
pub const MOST_REST: u64 = 203;

/// Form 1 has no bits. Form 2 has a number, or `-`.
#[derive(Clone, Copy, Debug, PartialEq, Eq)]
pub enum Bits {
    Absent,
    Dash,
    Number(u64),
}

#[derive(Clone, Copy, Debug, PartialEq, Eq)]
pub struct Report {
    /// In the order of `NAMES`.
    pub counts: [u64; 7],
    pub bits: Bits,
    pub rest: u64,
}

impl Report {
    /// The text, whatever the numbers are.
    pub fn text(&self) -> String {
        let mut text = format!("form={}\n", if self.bits == Bits::Absent { 1 } else { 2 });
        for (name, count) in NAMES.iter().zip(self.counts) {
            text += &format!("{name}={count}\n");
        }
        match self.bits {
            Bits::Absent => {}
            Bits::Dash => text += "bits=-\n",
            Bits::Number(n) => text += &format!("bits={n}\n"),
        }
        text + &format!("rest={}\n", self.rest)
    }

    /// 17 for a number past its limit, then 18 for wrong sums.
    pub fn refusal(&self) -> Option<Answer> {
        let limits = [MOST, MOST, MOST, MOST, MOST, MOST, MOST_CHANGED];
        let bits = if let Bits::Number(n) = self.bits { n } else { 0 };
        if self.counts.iter().zip(limits).any(|(&n, most)| n > most) || bits > MOST_BITS || self.rest > MOST_REST {
            return Some(Answer::NotReport);
        }
        let [taken, filling, delivered, lost, waiting, outofstep, _] = self.counts;
        if filling + delivered + lost + waiting + outofstep != taken || filling != taken.min(11) {
            return Some(Answer::WrongSums);
        }
        None
    }
}

/// The report that a text is, whatever its sums and limits are.
fn parse(text: &[u8]) -> Option<Report> {
    let text = std::str::from_utf8(text).ok()?;
    let mut lines = text.split('\n').map(|line| line.split_once('=').unwrap_or((line, "")));
    let mut value = |name: &str| lines.next().filter(|(key, _)| *key == name).map(|(_, value)| value);
    let form = value("form")?;
    let mut counts = [0; 7];
    for (name, count) in NAMES.iter().zip(&mut counts) {
        *count = value(name)?.parse().ok()?;
    }
    let bits = match form {
        "1" => Bits::Absent,
        "2" => match value("bits")? {
            "-" => Bits::Dash,
            number => Bits::Number(number.parse().ok()?),
        },
        _ => return None,
    };
    let rest = value("rest")?.parse().ok()?;
    Some(Report { counts, bits, rest })
}

/// 17 for a text that is not what the writer gives for the report in it, or has a
/// number past its limit; then 18.
pub fn read(text: &[u8]) -> Result<Report, Answer> {
    let report = parse(text).filter(|report| report.text().as_bytes() == text).ok_or(Answer::NotReport)?;
    report.refusal().map_or(Ok(report), Err)
}

/// The text in so much room: 17, 18, 4.
pub fn write(report: &Report, output: usize) -> Result<String, Answer> {
    if let Some(answer) = report.refusal() {
        return Err(answer);
    }
    let text = report.text();
    if output < text.len() { Err(Answer::ShortOutput) } else { Ok(text) }
}

/// The report of a text in the form wanted, 1 or 2: 17, 18, 19, 4.
pub fn moved(text: &[u8], form: u8, output: usize) -> Result<String, Answer> {
    let report = read(text)?;
    let bits = match (report.bits, form) {
        (Bits::Absent, 2) => Bits::Dash,
        (Bits::Dash, 1) => Bits::Absent,
        _ => return Err(Answer::FormKept),
    };
    write(&Report { bits, ..report }, output)
}

#[cfg(test)]
mod tests {
    use super::*;

    const ZEROS: &str = "form=2\ntaken=13\nfilling=11\ndelivered=0\nlost=0\nwaiting=2\noutofstep=0\nchanged=0\nbits=0\nrest=100\n";

    #[test]
    fn the_listing() {
        let report = read(ZEROS.as_bytes()).unwrap();
        assert_eq!(report.counts, [13, 11, 0, 0, 2, 0, 0]);
        assert_eq!((report.bits, report.rest), (Bits::Number(0), 100));
        assert_eq!(moved(ZEROS.as_bytes(), 1, 320), Err(Answer::FormKept));
        assert_eq!(moved(ZEROS.as_bytes(), 2, 320), Err(Answer::FormKept));
    }

    #[test]
    fn there_and_back() {
        let first = ZEROS.replace("form=2", "form=1").replace("bits=0\n", "");
        let second = moved(first.as_bytes(), 2, 320).unwrap();
        assert_eq!(second, ZEROS.replace("bits=0", "bits=-"));
        assert_eq!(moved(second.as_bytes(), 1, first.len()).unwrap(), first);
        assert_eq!(moved(second.as_bytes(), 1, first.len() - 1), Err(Answer::ShortOutput));
    }

    #[test]
    fn what_is_no_report() {
        for (from, to) in [
            ("bits=0", "bits=00"), ("bits=0", "bits=+0"), ("bits=0", "bits="), ("bits=0", "bits= 0"), ("bits=0\n", ""),
            ("rest=100\n", "rest=100"), ("rest=100\n", "rest=100\n\n"), ("rest=100", "rest=204"), ("form=2", "form=1"), ("form=2", "form=3"),
            ("taken=13\nfilling=11\n", "filling=11\ntaken=13\n"), ("taken=13\n", "taken=13\r\n"),
        ] {
            assert_eq!(read(ZEROS.replace(from, to).as_bytes()), Err(Answer::NotReport), "{to}");
        }
        assert_eq!(read(ZEROS.replace("taken=13", "taken=14").as_bytes()), Err(Answer::WrongSums));
        assert_eq!(read(ZEROS.replace("filling=11", "filling=12").replace("waiting=2", "waiting=1").as_bytes()), Err(Answer::WrongSums));
        // 17 comes before 18.
        assert_eq!(read(ZEROS.replace("taken=13", "taken=14").replace("rest=100\n", "rest=100").as_bytes()), Err(Answer::NotReport));
    }
}
