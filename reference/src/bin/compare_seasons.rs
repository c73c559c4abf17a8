//! Compares the season of pass reports with the reference: lists of reports of both
//! forms, good and bad, through the program `season`, and where they are short as one
//! text through the program `report_calls`, which has the two-limb products too.
//!
//! `compare_seasons SEASON REPORT_CALLS`, the programs in `target/bin`.

use reference::report::{Bits, Report, MOST, MOST_BITS, MOST_CHANGED};
use reference::season::season;
use reference::xorshift::Xorshift;
use std::io::Write;
use std::process::{exit, Command, Stdio};

fn output(program: &str, input: Vec<u8>) -> Vec<u8> {
    let mut child = Command::new(program)
        .stdin(Stdio::piped())
        .stdout(Stdio::piped())
        .spawn()
        .unwrap_or_else(|e| panic!("{program}: {e}"));
    let mut stdin = child.stdin.take().unwrap();
    // A season that is refused is not read to its end.
    let writer = std::thread::spawn(move || drop(stdin.write_all(&input)));
    let out = child.wait_with_output().unwrap().stdout;
    writer.join().unwrap();
    out
}

/// A report with so many accepted, in one of the three counts of them, and changed.
fn report(r: &mut Xorshift, accepted: u64, changed: u64) -> Report {
    let lost = r.below(5) as u64;
    let lost = lost.min(MOST - 11 - accepted);
    let filling = if accepted + lost == 0 { r.below(12) as u64 } else { 11 };
    let mut counts = [filling + accepted + lost, filling, 0, lost, 0, 0, changed];
    counts[[2, 4, 5][r.below(3)]] = accepted;
    let bits = [Bits::Absent, Bits::Dash, Bits::Number(r.next() % (MOST_BITS + 1))][r.below(3)];
    Report { counts, bits, rest: r.below(204) as u64 }
}

fn any(r: &mut Xorshift) -> Report {
    let (a, c) = (r.below(33), r.below(36));
    let accepted = (r.next() % (1 << a)).min(MOST - 11);
    let changed = r.next() % (1 << c);
    report(r, accepted, changed)
}

fn text(reports: &[Report]) -> Vec<u8> {
    reports.iter().flat_map(|r| r.text().into_bytes()).collect()
}

/// One report of the list spoilt: its sums, a limit, its spelling, or all of it.
fn spoilt(r: &mut Xorshift, reports: &[Report], at: usize) -> Vec<u8> {
    let mut bad = reports[at].text();
    match r.below(4) {
        0 => bad = bad.replace("lost=", "lost=1"),
        1 => bad = bad.replace("rest=", "rest=9"),
        2 => bad = bad.replace("taken=", "taken =").replace("form=2", "form=3"),
        _ => bad.clear(),
    }
    [&text(&reports[..at]), bad.as_bytes(), &text(&reports[at + 1..])].concat()
}

fn main() {
    let mut words = std::env::args().skip(1);
    let program = words.next().expect("compare_seasons SEASON REPORT_CALLS");
    let calls = words.next().expect("compare_seasons SEASON REPORT_CALLS");
    let mut r = Xorshift::new(0x2_013);
    let (mut compared, mut different) = (0, 0);
    let mut answered = std::collections::BTreeMap::new();
    // Cases for report_calls, and what it should answer.
    let (mut framed, mut wanted) = (Vec::new(), Vec::new());
    let mut compare = |kind: &str, input: Vec<u8>| {
        let want = season(&input);
        if input.len() <= 4096 {
            framed.extend([5, 0, 0, input.len() as u8, (input.len() >> 8) as u8]);
            framed.extend(&input);
            let number = if want.starts_with("passes") { 0 } else { want.trim_end().parse().unwrap() };
            wanted.extend([number, want.len() as u8, 0]);
            wanted.extend(want.as_bytes());
        }
        let answer = if want.starts_with("passes") { "totals" } else { want.trim_end() };
        *answered.entry(answer.to_string()).or_insert(0) += 1;
        let got = output(&program, input);
        compared += 1;
        if got != want.as_bytes() {
            different += 1;
            println!("DIFFERENT {kind}: {:?}, not {want:?}", String::from_utf8_lossy(&got));
        }
    };

    compare("none", Vec::new());
    for n in 0..300 {
        let length = 1 + r.below(1 + n / 4);
        let mut list: Vec<Report> = (0..length).map(|_| any(&mut r)).collect();
        // Ties, in and out of lowest terms, and reports with none accepted.
        for _ in 0..r.below(4) {
            let (at, factor) = (r.below(list.len()), 1 + r.below(3) as u64);
            let (accepted, changed) = (1 + r.below(1000) as u64, r.below(1000) as u64);
            list[at] = report(&mut r, accepted * factor, changed * factor);
            let (none, changed) = (r.below(list.len()), r.next() % 1000);
            list[none] = report(&mut r, 0, changed);
        }
        compare("lists", text(&list));
        let at = r.below(list.len());
        compare("a bad report", spoilt(&mut r, &list, at));
        let whole = text(&list);
        compare("cut off", whole[..r.below(whole.len())].to_vec());
        let last = list.last().unwrap().text().len();
        compare("the last report cut off", whole[..whole.len() - 1 - r.below(last)].to_vec());
    }
    // Two fractions whose cross products differ by 1, or are equal, in either order: c/a, with d/b the nearest one to it.
    let mut longest = 0;
    for n in 0..200 {
        let a = MOST - 11 - r.next() % (1 << (1 + n % 31));
        let c = MOST_CHANGED - r.next() % (1 << (1 + n % 34));
        // b c - a d = 1, by Euclid's steps backwards, where a and c have no common factor.
        let (mut x, mut y, mut s, mut t) = (a as i128, c as i128, (1i128, 0i128), (0i128, 1i128));
        while y != 0 {
            let q = x / y;
            (x, y, s, t) = (y, x - q * y, t, (s.0 - q * t.0, s.1 - q * t.1));
        }
        if x != 1 {
            continue;
        }
        let (d, b) = (((-s.0).rem_euclid(c as i128)) as u64, (s.1.rem_euclid(a as i128)) as u64);
        assert_eq!(u128::from(c) * u128::from(b), u128::from(a) * u128::from(d) + 1);
        longest = longest.max(128 - (u128::from(c) * u128::from(b)).leading_zeros());
        let (one, other) = (report(&mut r, a, c), report(&mut r, b, d));
        compare("neighbours", text(&[one, other]));
        compare("neighbours", text(&[other, one]));
        let again = report(&mut r, a, c);
        compare("neighbours and a tie", text(&[other, one, again]));
    }
    // Cross products of 65 to 67 bits: by their low limbs alone, half of these would come out otherwise.
    for _ in 0..200 {
        let list: Vec<Report> = (0..2 + r.below(3))
            .map(|_| {
                let (a, c) = ((1 << 31) + r.next() % (1 << 30), (1 << 34) + r.next() % (1 << 33));
                report(&mut r, a, c)
            })
            .collect();
        compare("large numbers", text(&list));
    }
    // The most reports, and more.
    let list: Vec<Report> = (0..4097).map(|_| any(&mut r)).collect();
    for n in [4095, 4096, 4097] {
        compare("the most reports", text(&list[..n]));
        for more in ["\n", "x", "form=1\n", "\0"] {
            compare("bytes after the last", [&text(&list[..n]), more.as_bytes()].concat());
        }
        for at in [0, 1, 2000, 4093, 4094, 4095, 4096] {
            if at < n {
                compare("a bad report among the most", spoilt(&mut r, &list[..n], at));
            }
        }
    }
    println!("season: {compared} lists compared, {different} different; cross products of up to {longest} bits; answered {answered:?}");

    let unlike = output(&calls, framed) != wanted;
    println!("the short ones as one text: {}", if unlike { "DIFFERENT" } else { "the same" });

    // Products of two limbs: any numbers, those at the ends of a limb and its halves, and pairs of products of 70 bits that differ in the last.
    let mut cases: Vec<[u64; 4]> = Vec::new();
    let edges = [0, 1, 2, (1 << 32) - 1, 1 << 32, (1 << 32) + 1, u64::MAX - 1, u64::MAX];
    for a in edges {
        for b in edges {
            for c in edges {
                cases.extend(edges.map(|d| [a, b, c, d]));
            }
        }
    }
    for _ in 0..20_000 {
        cases.push([(); 4].map(|_| {
            let size = r.below(64);
            r.next() >> size
        }));
        let x = (1 << 35) + r.next() % (1 << 34);
        cases.push([x - 1, x + 1, x, x]);
        cases.push([x, x, x - 1, x + 1]);
        cases.push([x, 2 * x, 2 * x, x]);
    }
    let mut framed = Vec::new();
    for case in &cases {
        framed.extend([4, 0, 0, 32, 0]);
        case.iter().for_each(|n| framed.extend(n.to_le_bytes()));
    }
    let out = output(&calls, framed);
    let mut wrong = (out.len() != 19 * cases.len()) as usize;
    for ([a, b, c, d], got) in cases.iter().zip(out.chunks(19)) {
        let (first, second) = (u128::from(*a) * u128::from(*b), u128::from(*c) * u128::from(*d));
        let want = [&[(first < second) as u8, 16, 0][..], &first.to_le_bytes()].concat();
        if got != want {
            wrong += 1;
            println!("DIFFERENT: {a} * {b} and {c} * {d}: {got:?}");
        }
    }
    println!("two-limb products: {} pairs compared, {wrong} different", cases.len());
    exit((unlike || different + wrong > 0) as i32);
}
