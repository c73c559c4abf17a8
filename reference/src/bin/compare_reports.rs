//! Compares the reader, the mover and the writer of pass reports with the reference,
//! through the program `report_calls`: texts of both forms, each with every change,
//! deletion and insertion of one byte and cut at every place, numbers at their limits
//! and beyond, reports as numbers, outputs of every length. What is moved is moved back,
//! and must be the text that it was.
//!
//! `compare_reports PROGRAM`, PROGRAM being `target/bin/report_calls`.

use reference::answer::Answer;
use reference::report::{moved, read, write, Bits, Report, MOST, MOST_BITS, MOST_CHANGED, MOST_REST, NAMES};
use reference::xorshift::Xorshift;
use std::io::Write;
use std::process::{exit, Command, Stdio};

const OUTPUT: u16 = 320;

/// What is done with the bytes, as `report_calls` wants it told.
const AGAIN: u8 = 0;
const NUMBERS: u8 = 3;

struct Case {
    kind: u8,
    output: u16,
    bytes: Vec<u8>,
}

fn case(kind: u8, text: impl Into<Vec<u8>>) -> Case {
    Case { kind, output: OUTPUT, bytes: text.into() }
}

/// A report as numbers.
fn numbers(report: &Report, output: u16) -> Case {
    let (kind, bits) = match report.bits {
        Bits::Absent => (0, 0),
        Bits::Dash => (1, 0),
        Bits::Number(n) => (2, n),
    };
    let mut bytes = vec![kind];
    for number in report.counts.into_iter().chain([bits, report.rest]) {
        bytes.extend(number.to_le_bytes());
    }
    Case { kind: NUMBERS, output, bytes }
}

/// The report in the bytes of such a case.
fn report_in(bytes: &[u8]) -> Report {
    let all: Vec<u64> = bytes[1..].chunks(8).map(|b| u64::from_le_bytes(b.try_into().unwrap())).collect();
    let bits = [Bits::Absent, Bits::Dash, Bits::Number(all[7])][bytes[0] as usize];
    Report { counts: all[..7].try_into().unwrap(), bits, rest: all[8] }
}

type Given = Result<String, Answer>;

fn expected(case: &Case) -> Given {
    let output = case.output as usize;
    match case.kind {
        AGAIN => write(&read(&case.bytes)?, output),
        NUMBERS => write(&report_in(&case.bytes), output),
        form => moved(&case.bytes, form, output),
    }
}

/// The answers of the program, one for each case.
fn got(program: &str, cases: &[Case]) -> Vec<(u8, Vec<u8>)> {
    let mut child = Command::new(program)
        .stdin(Stdio::piped())
        .stdout(Stdio::piped())
        .spawn()
        .unwrap_or_else(|e| panic!("{program}: {e}"));
    let mut framed = Vec::new();
    for case in cases {
        framed.push(case.kind);
        framed.extend(case.output.to_le_bytes());
        framed.extend((case.bytes.len() as u16).to_le_bytes());
        framed.extend(&case.bytes);
    }
    let mut stdin = child.stdin.take().unwrap();
    let writer = std::thread::spawn(move || stdin.write_all(&framed));
    let out = child.wait_with_output().unwrap().stdout;
    writer.join().unwrap().unwrap();
    let mut rest = &out[..];
    let mut answers = Vec::new();
    while let [number, low, high, more @ ..] = rest {
        let length = u16::from_le_bytes([*low, *high]) as usize;
        answers.push((*number, more[..length].to_vec()));
        rest = &more[length..];
    }
    answers
}

struct Comparison {
    program: String,
    compared: usize,
    different: usize,
    /// How often each of 0, 4, 17, 18, 19 was answered.
    answered: [usize; 5],
}

impl Comparison {
    /// Compares, and then moves back what was moved.
    fn run(&mut self, kind: &str, cases: Vec<Case>) {
        let answers = got(&self.program, &cases);
        let before = self.different;
        if answers.len() != cases.len() {
            self.different += 1;
            println!("DIFFERENT {kind}: {} cases, {} answers", cases.len(), answers.len());
        }
        let mut back = Vec::new();
        for (n, (case, (number, bytes))) in cases.iter().zip(&answers).enumerate() {
            let (want, text) = match expected(case) {
                Ok(text) => (0, text.into_bytes()),
                Err(answer) => (answer.number(), Vec::new()),
            };
            if (*number, bytes) != (want, &text) {
                self.different += 1;
                if self.different - before <= 3 {
                    let given = String::from_utf8_lossy(&case.bytes);
                    println!("DIFFERENT {kind}, case {n}, kind {}, output {}: {number}, not {want}\n{given}", case.kind, case.output);
                }
            }
            self.answered[[0, 4, 17, 18, 19].iter().position(|&a| a == want).unwrap()] += 1;
            if want == 0 && (case.kind == 1 || case.kind == 2) {
                back.push((Case { kind: 3 - case.kind, output: case.bytes.len() as u16, bytes: text }, &case.bytes));
            }
        }
        self.compared += cases.len();
        let (back, wanted): (Vec<Case>, Vec<&Vec<u8>>) = back.into_iter().unzip();
        let came = got(&self.program, &back);
        if came.len() != back.len() || came.iter().zip(&wanted).any(|((number, text), want)| *number != 0 || text != *want) {
            self.different += 1;
            println!("DIFFERENT {kind}: there and back");
        }
        self.compared += back.len();
        println!("{:>8} {kind}, {} there and back", cases.len(), back.len());
    }
}

fn report(counts: [u64; 7], bits: Bits, rest: u64) -> Report {
    Report { counts, bits, rest }
}

/// Short and long numbers, both forms, sums right and wrong.
fn base() -> Vec<Report> {
    vec![
        report([0; 7], Bits::Absent, 0),
        report([13, 11, 0, 0, 2, 0, 0], Bits::Number(0), 100),
        report([40, 11, 28, 1, 0, 0, 88], Bits::Dash, 203),
        report([MOST, 11, MOST - 111, 10, 40, 50, MOST_CHANGED], Bits::Number(MOST_BITS), 9),
        report([1_000_000, 11, 999_000, 900, 80, 9, 20], Bits::Absent, 57),
        report([14, 11, 0, 0, 2, 0, 0], Bits::Number(1), 0),
    ]
}

/// A number of any size.
fn wide(r: &mut Xorshift) -> u64 {
    let size = r.below(64);
    r.next() >> size
}

/// Right sums and numbers of all sizes.
fn random(r: &mut Xorshift) -> Report {
    let mut part = |most: u64| {
        let size = 1 + r.below(39);
        r.next() % (1 << size) % (most + 1)
    };
    let [delivered, lost, waiting, outofstep] = [(); 4].map(|_| part(1 << 29));
    let some = delivered + lost + waiting + outofstep;
    let filling = if some == 0 { part(11) } else { 11 };
    let changed = part(MOST_CHANGED);
    let bits = [Bits::Absent, Bits::Dash, Bits::Number(part(MOST_BITS))][part(2) as usize];
    report([filling + some, filling, delivered, lost, waiting, outofstep, changed], bits, part(MOST_REST))
}

fn main() {
    let program = std::env::args().nth(1).expect("compare_reports PROGRAM");
    let mut all = Comparison { program, compared: 0, different: 0, answered: [0; 5] };
    let mut r = Xorshift::new(0x2_007);

    let mut cases = Vec::new();
    for report in base() {
        let text = report.text().into_bytes();
        for at in 0..=text.len() {
            // Cut off, as by a full disk; a byte deleted.
            for kind in 0..3 {
                cases.push(case(kind, &text[..at]));
                cases.push(case(kind, [&text[..at], &text[(at + 1).min(text.len())..]].concat()));
            }
            for byte in 0..=255 {
                cases.push(case(AGAIN, [&text[..at], &[byte], &text[(at + 1).min(text.len())..]].concat()));
                cases.push(case(r.below(3) as u8, [&text[..at], &[byte], &text[at..]].concat()));
            }
        }
    }
    all.run("prefixes, deletions, changes and insertions of one byte", cases);

    // Each number at its limit, one below and one beyond, where the others are 0 and where
    // the sums are right; one that is right modulo a power of two; many digits.
    let mut cases = Vec::new();
    let limits = [MOST, MOST, MOST, MOST, MOST, MOST, MOST_CHANGED, MOST_BITS, MOST_REST];
    let names: Vec<&str> = NAMES.into_iter().chain(["bits", "rest"]).collect();
    for report in base() {
        let text = report.text();
        for (name, limit) in names.iter().zip(limits) {
            let line = |value: &str| {
                let mut lines: Vec<String> = text.lines().map(String::from).collect();
                lines.iter_mut().filter(|l| l.starts_with(&format!("{name}="))).for_each(|l| *l = format!("{name}={value}"));
                lines.join("\n") + "\n"
            };
            let was: u128 = text.lines().find_map(|l| l.strip_prefix(&format!("{name}="))).and_then(|v| v.parse().ok()).unwrap_or(0);
            let mut values: Vec<String> = [limit - 1, limit, limit + 1, 10 * limit, u64::MAX - 1, u64::MAX].iter().map(u64::to_string).collect();
            values.extend([8, 16, 32, 64].iter().map(|n| (was + (1u128 << n)).to_string()));
            values.extend([1, 2, 17, 20, 21, 1000].iter().map(|&n| "0".repeat(n) + &was.to_string()));
            values.extend([19, 20, 21, 39, 1000, 3000].iter().map(|&n| "9".repeat(n)));
            values.extend(["", "-", "--", "-1", "+1", " 1", "1 ", "1\r", "0x1", "1e3", "1.0", "\u{661}"].map(String::from));
            for kind in 0..3 {
                cases.extend(values.iter().map(|value| case(kind, line(value))));
            }
        }
    }
    for held in 2..6 {
        for (taken, filling) in [(MOST, 11), (MOST + 1, 11), (MOST, 12), (MOST, 10), (11, 11), (12, 12), (10, 10), (10, 11)] {
            let mut counts = [taken, filling, 0, 0, 0, 0, MOST_CHANGED];
            counts[held] = taken.saturating_sub(filling);
            for bits in [Bits::Absent, Bits::Dash, Bits::Number(MOST_BITS), Bits::Number(MOST_BITS + 1)] {
                for rest in [MOST_REST, MOST_REST + 1] {
                    let report = report(counts, bits, rest);
                    cases.extend((0..3).map(|kind| case(kind, report.text())));
                    cases.push(numbers(&report, OUTPUT));
                }
            }
        }
    }
    all.run("numbers at their limits, beyond, and spelt in other ways", cases);

    // Reports as numbers, of which some sums are right only modulo a power of two.
    let mut cases = Vec::new();
    for _ in 0..30_000 {
        let mut report = random(&mut r);
        match r.below(4) {
            0 => report.counts[r.below(7)] = wide(&mut r),
            1 => report.counts[1 + r.below(5)] += 1 << (32 + r.below(31)),
            2 => report.bits = Bits::Number(wide(&mut r)),
            _ => {}
        }
        if r.below(8) == 0 {
            report.rest = wide(&mut r);
        }
        cases.push(numbers(&report, OUTPUT));
    }
    all.run("reports as numbers", cases);

    // Good reports of all sizes; lines reordered, doubled or left out; two reports as one text; outputs of every length.
    let mut cases = Vec::new();
    for _ in 0..10_000 {
        let text = random(&mut r).text();
        let mut lines: Vec<&str> = text.split_inclusive('\n').collect();
        let (a, b) = (r.below(lines.len()), r.below(lines.len()));
        match r.below(4) {
            0 => lines.swap(a, b),
            1 => lines.insert(a, lines[b]),
            2 => drop(lines.remove(a)),
            _ => {}
        }
        cases.push(case(r.below(3) as u8, lines.concat()));
    }
    for report in base() {
        let text = report.text();
        for other in base() {
            cases.extend((0..3).map(|kind| case(kind, text.clone() + &other.text())));
        }
        for output in 0..=OUTPUT {
            cases.extend((0..3).map(|kind| Case { kind, output, bytes: text.clone().into_bytes() }));
            cases.push(numbers(&report, output));
        }
    }
    all.run("good reports, other orders of their lines, two of them, outputs of every length", cases);

    println!("pass reports: {} cases compared, {} different; answered 0, 4, 17, 18, 19: {:?}", all.compared, all.different, all.answered);
    exit((all.different > 0) as i32);
}
