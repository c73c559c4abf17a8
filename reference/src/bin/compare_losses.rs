//! Compares the list of what to ask for again with the reference's, on seeded,
//! repeatable streams: unbroken, with blocks left out, doubled, exchanged, lost and
//! harmed, with marks; the refusals too. And tries the promise about gaps by the
//! packets that were sent.
//!
//! `compare_losses` runs all; `compare_losses KIND` one kind; `compare_losses KIND CASE` one case.

use reference::answer::Answer;
use reference::exports::{expected, library};
use reference::losses::blocks;
use reference::sender::interleaved_stream;
use reference::xorshift::Xorshift;
use reference::{BLOCK_LENGTH, PACKET_LENGTH, SYNC};

/// A received stream: which block of the sender each of its blocks is, and its bytes.
struct Stream {
    packets: Vec<Vec<u8>>,
    at: Vec<usize>,
    bytes: Vec<u8>,
}

fn sent(r: &mut Xorshift, count: usize) -> (Vec<Vec<u8>>, Vec<Vec<u8>>) {
    let mut packets = r.bytes(PACKET_LENGTH * count);
    packets.iter_mut().step_by(PACKET_LENGTH).for_each(|byte| *byte = SYNC);
    let stream = interleaved_stream(&packets);
    (packets.chunks(PACKET_LENGTH).map(<[u8]>::to_vec).collect(), stream.chunks(BLOCK_LENGTH).map(<[u8]>::to_vec).collect())
}

/// The blocks of a sender from any of them on, with `edits` of this kind.
fn stream(r: &mut Xorshift, kind: &str, edits: usize) -> Stream {
    let from = r.below(9);
    let length = from + 40 + r.below(120);
    let (packets, sent) = sent(r, length);
    let mut at: Vec<usize> = (from..sent.len()).collect();
    for _ in 0..edits {
        let i = r.below(at.len() - 12);
        match kind {
            "left out" => drop(at.drain(i..i + 1 + r.below(11))),
            "doubled" => at.splice(i..i, at[i..i + 1 + r.below(11)].to_vec()).for_each(drop),
            "exchanged" => at.swap(i, i + 1 + r.below(10)),
            "mixed" if r.below(2) == 0 => drop(at.drain(i..i + 1 + r.below(11))),
            "mixed" => at.splice(i..i, at[i..i + 1 + r.below(11)].to_vec()).for_each(drop),
            _ => (),
        }
    }
    let bytes = at.iter().flat_map(|&i| sent[i].clone()).collect();
    Stream { packets, at, bytes }
}

struct Score {
    only_kind: Option<String>,
    only_case: Option<u64>,
    passed_all: u64,
    failed_all: u64,
}

impl Score {
    fn kind(&mut self, kind: &'static str, cases: u64, mut run: impl FnMut(&mut Xorshift, &mut dyn FnMut(bool, &str))) {
        if self.only_kind.as_deref().map_or(false, |only| only != kind) {
            return;
        }
        let (mut passed, mut failed) = (0, 0);
        let name = kind.bytes().fold(0x300_421_u64, |sum, b| sum.wrapping_mul(257) ^ b as u64);
        for case in 0..cases {
            if self.only_case.map_or(false, |only| only != case) {
                continue;
            }
            run(&mut Xorshift::new(name.wrapping_mul(1 << 24).wrapping_add(case)), &mut |good, what| {
                if good {
                    passed += 1;
                } else {
                    failed += 1;
                    if failed <= 5 {
                        println!("DIFFERENT {kind} {case}: {what}");
                    }
                }
            });
        }
        println!("losses, {kind}: {} compared, {failed} different", passed + failed);
        self.passed_all += passed;
        self.failed_all += failed;
    }
}

/// The list by both, into numbers that are not 0 before.
fn compared(r: &mut Xorshift, bytes: &[u8], marks: &[u8], room: usize, told: usize, same: &mut dyn FnMut(bool, &str)) -> Vec<u64> {
    let before: Vec<u64> = (0..room).map(|_| r.next()).collect();
    let (mut a, mut b) = (before.clone(), before);
    let (mut x, mut y) = (vec![0xAA; told], vec![0xAA; told]);
    let want = expected::losses_run(bytes, marks, &mut a, &mut x);
    let got = library::losses_run(bytes, marks, &mut b, &mut y);
    same((want, &a, &x) == (got, &b, &y), &format!("{} bytes: {want} and {got} lines, answers {x:?} and {y:?}", bytes.len()));
    b.truncate(got as usize);
    b
}

/// Every packet given that is not the one sent there has a line, where each given
/// block comes from twelve consecutive ones.
fn gaps_told(s: &Stream, lines: &[u64], same: &mut dyn FnMut(bool, &str)) {
    let all = blocks(&s.bytes, &[]);
    let given = |k: usize| all[k].answer == Answer::Done;
    let consecutive = |k: usize| (0..11).all(|i| s.at[k + i + 1] == s.at[k + i] + 1);
    if !(0..all.len()).all(|k| !given(k) || consecutive(k)) {
        return;
    }
    for (k, block) in all.iter().enumerate() {
        if given(k) && block.packet != s.packets[s.at[k]] {
            same(lines.contains(&(16 * k as u64)), &format!("the packet of block {k} is wrong and has no line"));
        }
    }
}

fn main() {
    let mut arguments = std::env::args().skip(1);
    let only_kind = arguments.next();
    let only_case = arguments.next().and_then(|word| word.parse().ok());
    let mut score = Score { only_kind, only_case, passed_all: 0, failed_all: 0 };
    for kind in ["unbroken", "left out", "doubled", "exchanged", "mixed"] {
        score.kind(kind, if kind == "unbroken" { 60 } else { 400 }, |r, same| {
            let edits = 1 + r.below(4);
            let s = stream(r, kind, edits);
            let lines = compared(r, &s.bytes, &[], s.at.len() + 3, 1, same);
            gaps_told(&s, &lines, same);
        });
    }
    score.kind("harmed", 300, |r, same| {
        let edits = r.below(3);
        let mut s = stream(r, "mixed", edits);
        let one_in = 12 + r.below(300);
        for _ in 0..r.below(4) {
            // A few blocks of noise, and whole blocks lost.
            let low = r.below(s.bytes.len());
            let high = (low + r.below(3000)).min(s.bytes.len());
            s.bytes[low..high].iter_mut().for_each(|byte| *byte = r.byte());
        }
        if r.below(2) == 0 {
            for byte in s.bytes.iter_mut() {
                if r.below(one_in) == 0 {
                    *byte = r.byte();
                }
            }
        }
        s.bytes.truncate(s.bytes.len() - r.below(204));
        compared(r, &s.bytes, &[], s.at.len(), 1, same);
    });
    score.kind("marked", 150, |r, same| {
        let edits = r.below(3);
        let s = stream(r, "mixed", edits);
        let one_in = 10 + r.below(60);
        let marks: Vec<u8> = s.bytes.iter().map(|_| (r.below(one_in) == 0) as u8).collect();
        compared(r, &s.bytes, &marks, s.at.len(), 1, same);
    });
    score.kind("refused", 200, |r, same| {
        let s = stream(r, "left out", 1);
        let mut marks = vec![0; s.bytes.len()];
        match r.below(4) {
            0 => marks[r.below(s.bytes.len())] = 2 + r.byte() % 254,
            1 => marks.truncate(s.bytes.len() - 1 - r.below(300)),
            2 => marks.push(0),
            _ => marks.clear(),
        }
        let room = (s.at.len() + 2).saturating_sub(r.below(5));
        let told = r.below(3);
        compared(r, &s.bytes, &marks, room, told, same);
    });
    println!("compared {} with {}: {} different", score.passed_all + score.failed_all, library::NAME, score.failed_all);
    if score.failed_all > 0 || score.passed_all == 0 {
        std::process::exit(1);
    }
}
