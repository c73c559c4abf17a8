//! Compares `dvbs_lock` with the reference's acquisition on seeded, repeatable streams: standard output, standard error and the
//! status, byte for byte. Where the library is linked, the same points go through the bytes of a lock's state too, a few at a
//! time, with the state moved to other memory between calls. And of all it sees that no packet is given that was not sent, and that the streams of a kind come to
//! what the kind is for: locks, several locks, packets in doubt, or nothing.
//!
//! `compare_lock PROGRAMS` runs all, PROGRAMS being `target/bin`; `compare_lock PROGRAMS KIND` one kind; `compare_lock PROGRAMS KIND CASE` one case.

// build.rs sets the cfg `exports_linked`.
#![allow(unknown_lints, unexpected_cfgs)]

use reference::acquisition::{lock, lock_bits, Told, LEAD, THRESHOLD, WINDOW};
use reference::channel::{demodulated, sigma, to_bytes, turned, Bursts, Channel, Demodulator, Slip};
use reference::inner_code::InnerCoder;
use reference::inner_decoder::LONGEST;
use reference::numbered::{packets, symbols, Verdict};
use reference::runs::pattern_size;
use reference::sender::interleaved_stream;
use reference::xorshift::Xorshift;
use reference::BLOCK_LENGTH;
use std::io::Write;
use std::process::{exit, Command, Stdio};

/// One input: the word of the command line, the bytes, and the packets that were sent.
struct Case {
    word: String,
    input: Vec<u8>,
    sent: Vec<u8>,
}

/// What a kind must come to, so that it compares what it is for.
enum Purpose {
    /// Every case locks and gives packets.
    Locks,
    /// Some cases lock again.
    LocksAgain,
    /// Some packets are in doubt.
    Doubts,
    /// No case locks.
    Nothing,
    /// Some cases lock, and some do not.
    Both,
}

fn by_program(program: &str, case: &Case) -> Told {
    let mut child = Command::new(program)
        .arg(&case.word)
        .stdin(Stdio::piped())
        .stdout(Stdio::piped())
        .stderr(Stdio::piped())
        .spawn()
        .unwrap_or_else(|e| panic!("{program}: {e}"));
    let mut stdin = child.stdin.take().unwrap();
    let input = case.input.clone();
    // A program that ends before it has read everything shows it by its output.
    let writer = std::thread::spawn(move || drop(stdin.write_all(&input)));
    let output = child.wait_with_output().unwrap();
    writer.join().unwrap();
    let text = String::from_utf8_lossy(&output.stderr).into_owned();
    Told { packets: output.stdout, text, status: output.status.code().unwrap_or(-1) }
}

/// The points of a case through the state of a lock, in pieces of up to so many. What is lent ends, or begins, where memory may not be touched.
#[cfg(exports_linked)]
fn by_states(case: &Case, r: &mut Xorshift, longest: usize) -> Told {
    use reference::channel::from_bytes;
    use reference::guarded::Guarded;
    use reference::lock_state::expected::{Rooms, PACKETS, STATE_LENGTH, TEXT};
    use reference::lock_state::library;

    let (i, q): (Vec<f32>, Vec<f32>) = case.input.chunks_exact(8).map(from_bytes).unzip();
    let lost: Vec<u8> = i.iter().zip(&q).map(|(i, q)| (i.is_nan() && q.is_nan()) as u8).collect();
    let mut lent = [STATE_LENGTH, 4 * longest, 4 * longest, longest, PACKETS, TEXT].map(Guarded::new);
    let mut state = vec![0; STATE_LENGTH];
    assert_eq!(library::fresh(&mut state, case.word.parse().unwrap_or(5)), 0);
    let (mut given, mut text) = (Vec::new(), Vec::new());
    let (mut at, mut over) = (0, false);
    while !over {
        let end = (at + 1 + r.below(longest)).min(i.len());
        let at_end = r.below(2) == 0;
        let [own, is, qs, marks, packets, lines] = &mut lent;
        let own = own.lend(&state, at_end);
        let (packets, lines) = (packets.lend(&[0; PACKETS], at_end), lines.lend(&[0; TEXT], at_end));
        let (mut counts, mut answer) = ([0; 2], [0xA5]);
        let rooms = Rooms { packets, text: lines, counts: &mut counts, answer: &mut answer };
        if at < i.len() {
            let (is, qs, marks) = (is.lend_numbers(&i[at..end], at_end), qs.lend_numbers(&q[at..end], at_end), marks.lend(&lost[at..end], at_end));
            at += library::feed(own, is, qs, marks, rooms) as usize;
        } else {
            over = library::end(own, (case.input.len() % 8) as u64, rooms) == 1;
        }
        assert_eq!(answer, [0]);
        given.extend(&packets[..counts[0] as usize]);
        text.extend(&lines[..counts[1] as usize]);
        state = own.to_vec();
    }
    let text = String::from_utf8(text).unwrap();
    let status = text.starts_with("nothing ") as i32;
    Told { packets: given, text, status }
}

fn by_reference(case: &Case) -> Told {
    match case.word.as_str() {
        "bits" => lock_bits(&case.input),
        word => lock(word.parse().ok(), &case.input),
    }
}

/// Where two texts begin to differ.
fn difference(want: &Told, got: &Told) -> String {
    if want.status != got.status {
        return format!("status {} and not {}", got.status, want.status);
    }
    let line = want.text.lines().zip(got.text.lines()).position(|(a, b)| a != b);
    let line = line.unwrap_or_else(|| want.text.lines().count().min(got.text.lines().count()));
    let at = |told: &Told| told.text.lines().nth(line).unwrap_or("nothing more").to_string();
    let same = want.packets.iter().zip(&got.packets).take_while(|(a, b)| a == b).count();
    format!("line {line} is `{}` and not `{}`; {} bytes and not {}, alike up to {same}", at(got), at(want), got.packets.len(), want.packets.len())
}

/// The symbols of a rate's blocks.
fn symbols_of(rate: u8, blocks: usize) -> usize {
    let (bits, per_pattern) = pattern_size(rate);
    8 * BLOCK_LENGTH * blocks / bits * per_pattern
}

/// A stream at a rate through a channel and a demodulator.
fn points(rate: u8, sent: &[u8], mut channel: Channel, mut demodulator: Demodulator) -> Vec<u8> {
    demodulated(&symbols(rate, sent), &mut channel, &mut demodulator).into_iter().flat_map(to_bytes).collect()
}

/// The rate's number, or that any is tried.
fn word(r: &mut Xorshift, rate: u8) -> String {
    if r.below(3) == 0 { "any".to_string() } else { rate.to_string() }
}

fn stream(r: &mut Xorshift, rate: u8, count: usize, eb_n0: f64, slips: Vec<(u64, Slip)>) -> Case {
    let sent = packets(r.next(), count);
    let (cut, turn) = (r.below(symbols_of(rate, 13)), r.below(8) as u8);
    let channel = Channel::new(r.next(), sigma(rate, eb_n0), 0.0, None);
    let input = points(rate, &sent, channel, Demodulator::new(cut as u64, turn, slips));
    Case { word: word(r, rate), input, sent }
}

/// Slips at up to three places behind the first 25 blocks.
fn slips(r: &mut Xorshift, rate: u8, count: usize) -> Vec<(u64, Slip)> {
    (0..1 + r.below(3))
        .map(|_| {
            let many = [1, 1, 2, 5, 500, 3000][r.below(6)];
            let slip = match r.below(4) {
                0 => Slip::LeftOut(many),
                1 => Slip::Doubled(many),
                // A number of whole blocks moves no grid.
                2 if rate < 3 => Slip::LeftOut(symbols_of(rate, 1 + r.below(4)) as u64),
                _ => Slip::Turned(1 + r.below(3) as u8),
            };
            ((symbols_of(rate, 25) + r.below(symbols_of(rate, count - 40))) as u64, slip)
        })
        .collect()
}

/// So many numbers at either end of a window are sure.
const END: usize = 150;

/// How surely a number of a window is told: the difference of what its two bits cost, and whether the wrong one is the cheaper.
#[derive(Clone, Copy)]
struct Doubt {
    difference: usize,
    wrong: bool,
}

/// Doubts for so many numbers with which a window costs exactly the threshold: `10,000 (c - m) = h d`. The wrong ones are spread evenly and away from
/// the ends, so that no other bits cost less than those that were sent. The first of them is wrong by 1.
fn doubts(numbers: usize, threshold: usize) -> Vec<Doubt> {
    let divisor = (1..=threshold).rev().find(|k| threshold % k == 0 && 10_000 % k == 0).unwrap();
    // What is wrong, made of 1 and 7, and with all others, which are made of 7, 5 and 3, the differences.
    let made = |times: usize| {
        let cost = times * threshold / divisor;
        let ones = 7 + cost % 7;
        let others = times * 10_000 / divisor - cost;
        let (fives, threes) = [(0, 0), (3, 0), (0, 3), (0, 1), (1, 2), (1, 0), (0, 2)][others % 7];
        (ones, (cost - ones) / 7, fives, threes, (others - 5 * fives - 3 * threes) / 7)
    };
    let fits = |(ones, wrong, fives, threes, sevens): &(usize, usize, usize, usize, usize)| ones + wrong + fives + threes + sevens <= numbers;
    let (ones, sure, fives, threes, sevens) = (1..).filter(|times| times * threshold / divisor >= 14).map(made).take_while(fits).last().expect("one fits");
    let wrong = ones + sure;
    let unknown = numbers - wrong - fives - threes - sevens;
    // Whether one of so many is due at a place, evenly.
    let due = |place: usize, many: usize, all: usize| place < all && (place + 1) * many / all > place * many / all;
    let middle = numbers - 2 * END;
    let (mut wrongs, mut rights, mut told) = (0, 0, 0);
    (0..numbers)
        .map(|place| {
            if place >= END && due(place - END, wrong, middle) {
                wrongs += 1;
                return Doubt { difference: if wrongs <= ones { 1 } else { 7 }, wrong: true };
            }
            if place >= END {
                rights += 1;
            }
            if rights > 0 && due(rights - 1, unknown, middle - wrong) {
                return Doubt { difference: 0, wrong: false };
            }
            told += 1;
            let difference = if told <= fives { 5 } else if told <= fives + threes { 3 } else { 7 };
            Doubt { difference, wrong: false }
        })
        .collect()
}

/// A stream that begins sixty symbols before a block, with a first window that costs exactly the threshold, or one less: it is not found, or it is.
fn at_the_threshold(r: &mut Xorshift, rate: u8) -> Case {
    let sent = packets(r.next(), 40);
    let less = r.below(2) == 0;
    let (bits, per_pattern) = pattern_size(rate);
    let mut doubts = doubts(2 * per_pattern * (LONGEST / bits - LEAD[rate as usize]), THRESHOLD[rate as usize] as usize);
    if less {
        doubts.iter_mut().find(|doubt| doubt.wrong).unwrap().wrong = false;
    }
    let number = |sent: f32, doubt: Option<&Doubt>| match doubt {
        None => sent,
        Some(Doubt { difference: 0, .. }) => f32::NAN,
        Some(doubt) => sent * [0.1, 0.3, 0.6, 1.0][doubt.difference / 2] * if doubt.wrong { -1.0 } else { 1.0 },
    };
    // At 5/6 a mirrored stream is read in vain at first.
    let turn = r.below(if rate == 3 { 4 } else { 8 }) as u8;
    let coded = symbols(rate, &sent);
    let received = coded[symbols_of(rate, 13) - 60..].iter().enumerate().map(|(k, &symbol)| {
        let (i, q) = reference::channel::sent(symbol);
        turned(turn, (number(i, doubts.get(2 * k)), number(q, doubts.get(2 * k + 1))))
    });
    let input: Vec<u8> = received.flat_map(to_bytes).collect();
    let found = lock(Some(rate), &input).text.contains("skipped=60\n");
    assert!(found == less, "rate {rate}: found is {found} and one less is {less}");
    Case { word: rate.to_string(), input, sent }
}

/// Windows of lost symbols, and then a stream that begins beside the first symbol of a block, which may be one of the lead.
fn beside_a_block(r: &mut Xorshift, rate: u8) -> Case {
    let sent = packets(r.next(), 44);
    let cut = symbols_of(rate, 13) + r.below(12) - 3;
    let channel = Channel::new(r.next(), sigma(rate, 9.0), 0.0, None);
    let lost = vec![0xFF; 8 * WINDOW * r.below(4)];
    let stream = points(rate, &sent, channel, Demodulator::new(cut as u64, r.below(8) as u8, vec![]));
    Case { word: word(r, rate), input: [lost, stream].concat(), sent }
}

fn bytes_of(bits: &[u8]) -> Vec<u8> {
    bits.chunks_exact(8).map(|eight| eight.iter().fold(0, |byte, bit| 2 * byte + bit)).collect()
}

/// A stream's bits behind so many others that its first block is at an edge of what a decision searches, with some of the first and
/// the last sync bytes harmed.
fn edges(r: &mut Xorshift) -> Case {
    let sent = packets(r.next(), 30);
    let mut blocks = interleaved_stream(&sent)[BLOCK_LENGTH * r.below(8)..].to_vec();
    let count = blocks.len() / BLOCK_LENGTH;
    for k in (0..6).chain(count - 6..count) {
        if r.below(3) == 0 {
            blocks[BLOCK_LENGTH * k] ^= [0x01, 0xFF, 0x80][r.below(3)];
        }
    }
    let before = [0, 1, 7, 8, 1624, 1631, 1632, 1633, 1640, 3264, 3265, 3266][r.below(12)];
    let junk = (0..before).map(|_| r.byte() & 1).collect::<Vec<u8>>();
    let flip = r.below(2) as u8;
    let mut bits = [junk, blocks.iter().flat_map(|byte| (0..8).rev().map(move |k| (byte >> k & 1) ^ flip)).collect()].concat();
    bits.truncate(bits.len() - [0, 1, 7, 8, 1623, 1624, 1625, 1632][r.below(8)]);
    Case { word: "bits".to_string(), input: bytes_of(&bits), sent }
}

/// A stream's bits behind some others, straight or inverted, with bits left out and put in.
fn bits(r: &mut Xorshift, edits: usize) -> Case {
    let sent = packets(r.next(), 45 + r.below(40));
    let blocks = interleaved_stream(&sent);
    let from = r.below(BLOCK_LENGTH * 12);
    let flip = r.below(2) as u8;
    let mut bits: Vec<u8> = (0..r.below(9000)).map(|_| r.byte() & 1).collect();
    bits.extend(blocks[from..].iter().flat_map(|byte| (0..8).rev().map(move |k| (byte >> k & 1) ^ flip)));
    bits.drain(..r.below(9));
    for _ in 0..edits {
        let at = bits.len() / 3 + r.below(bits.len() / 3);
        match r.below(4) {
            0 => drop(bits.drain(at..at + 1 + r.below(3000))),
            1 => bits[at..].iter_mut().for_each(|bit| *bit ^= 1),
            2 => drop(bits.drain(at..at + 8 * BLOCK_LENGTH * (1 + r.below(3)))),
            _ => {
                let junk: Vec<u8> = (0..1 + r.below(9000)).map(|_| r.byte() & 1).collect();
                drop(bits.splice(at..at, junk));
            }
        }
    }
    let harm = r.below(40);
    for _ in 0..harm {
        let at = r.below(bits.len());
        bits[at] ^= 1;
    }
    Case { word: "bits".to_string(), input: bytes_of(&bits), sent }
}

struct Score {
    program: String,
    only_kind: Option<String>,
    only_case: Option<u64>,
    compared_all: u64,
    failed_all: u64,
    /// How many of them went through the bytes of a state too.
    through_states: u64,
}

impl Score {
    fn kind(&mut self, kind: &str, cases: u64, purpose: Purpose, make: impl Fn(&mut Xorshift, u8) -> Case) {
        if self.only_kind.as_deref().map_or(false, |only| only != kind) {
            return;
        }
        let name = kind.bytes().fold(0x300_421_u64, |sum, b| sum.wrapping_mul(257) ^ b as u64);
        let (mut compared, mut failed, mut locked, mut again, mut doubts, mut given) = (0, 0, 0, 0, 0, 0);
        for case in (0..cases).filter(|case| self.only_case.map_or(true, |only| only == *case)) {
            let made = make(&mut Xorshift::new(name.wrapping_mul(1 << 24).wrapping_add(case)), case as u8 % 5);
            let want = by_reference(&made);
            let got = by_program(&self.program, &made);
            let verdict = Verdict::of(&made.sent, &got.packets);
            let wrong = if want != got {
                Some(difference(&want, &got))
            } else if verdict.never_sent > 0 || !verdict.in_order() {
                Some(format!("{} packets never sent, in order: {}", verdict.never_sent, verdict.in_order()))
            } else {
                None
            };
            #[cfg(exports_linked)]
            let wrong = wrong.or_else(|| {
                if made.word == "bits" {
                    return None;
                }
                let mut r = Xorshift::new(case);
                let longest = [100, 1632, 5000][r.below(3)];
                let through = by_states(&made, &mut r, longest);
                self.through_states += 1;
                (want != through).then(|| format!("through the state, {}", difference(&want, &through)))
            });
            if let Some(what) = wrong {
                failed += 1;
                if failed <= 5 {
                    println!("DIFFERENT {kind} {case} (dvbs_lock {}): {what}", made.word);
                }
            }
            let locks = want.text.lines().filter(|line| line.starts_with("lock ")).count();
            compared += 1;
            locked += u64::from(locks > 0);
            again += u64::from(locks > 1);
            doubts += want.text.lines().filter(|line| line.ends_with(" doubt=1")).count();
            given += verdict.came.len();
        }
        println!("lock, {kind}: {compared} compared, {failed} different; {locked} lock, {again} again, {given} packets, {doubts} in doubt");
        let served = match purpose {
            Purpose::Locks => locked == compared && given > 0,
            Purpose::LocksAgain => again > 0 && given > 0,
            Purpose::Doubts => doubts > 0 && given > 0,
            Purpose::Nothing => locked == 0 && given == 0,
            Purpose::Both => 0 < locked && locked < compared,
        };
        if !served && self.only_case.is_none() {
            println!("FAILED lock, {kind}: these streams do not come to what they are for");
            failed += 1;
        }
        self.compared_all += compared;
        self.failed_all += failed;
    }
}

fn main() {
    let mut arguments = std::env::args().skip(1);
    let programs = arguments.next().expect("compare_lock PROGRAMS [KIND [CASE]]");
    let only_kind = arguments.next();
    let only_case = arguments.next().and_then(|word| word.parse().ok());
    let mut score = Score { program: format!("{programs}/dvbs_lock"), only_kind, only_case, compared_all: 0, failed_all: 0, through_states: 0 };
    score.kind("unharmed", 40, Purpose::Locks, |r, rate| {
        let count = 40 + r.below(20);
        stream(r, rate, count, f64::INFINITY, vec![])
    });
    score.kind("noisy", 50, Purpose::Locks, |r, rate| {
        let (count, eb_n0) = (44 + r.below(20), 4.5 + 0.5 * r.below(6) as f64);
        stream(r, rate, count, eb_n0, vec![])
    });
    score.kind("slipped", 60, Purpose::LocksAgain, |r, rate| {
        let count = 80 + r.below(30);
        let slips = slips(r, rate, count);
        let eb_n0 = [6.0, 7.0, f64::INFINITY][r.below(3)];
        stream(r, rate, count, eb_n0, slips)
    });
    // At rates of whole symbols a block: the grid stays, and the packets behind the gap wait.
    score.kind("whole blocks left out", 20, Purpose::Doubts, |r, rate| {
        let (rate, at) = (rate % 3, 30 + r.below(12));
        let slip = (symbols_of(rate, at) as u64, Slip::LeftOut(symbols_of(rate, 1 + r.below(3)) as u64));
        stream(r, rate, 90, 7.0, vec![slip])
    });
    score.kind("weak", 30, Purpose::Both, |r, rate| {
        let eb_n0 = 0.5 + 0.5 * r.below(6) as f64;
        stream(r, rate, 44, eb_n0, vec![])
    });
    score.kind("lost symbols, bursts and outages", 30, Purpose::Locks, |r, rate| {
        let sent = packets(r.next(), 70);
        let bursts = Bursts { period: 9000 + r.below(9000) as u64, length: r.below(1500) as u64, lost: r.below(2) == 0 };
        let channel = Channel::new(r.next(), sigma(rate, 7.0), 0.01, Some(bursts));
        let demodulator = Demodulator::new(r.below(symbols_of(rate, 13)) as u64, r.below(8) as u8, vec![]);
        Case { word: word(r, rate), input: points(rate, &sent, channel, demodulator), sent }
    });
    // Noise before the stream, behind it and in its midst: readings that give no block, and locks that end.
    score.kind("noise around a stream", 30, Purpose::LocksAgain, |r, rate| {
        let sent = packets(r.next(), 80);
        let mut silence = Channel::new(r.next(), 1.0, 0.0, Some(Bursts { period: 1, length: 1, lost: false }));
        let mut noise = |many: usize| (0..many).flat_map(|_| to_bytes(silence.receive(0))).collect::<Vec<u8>>();
        let channel = Channel::new(r.next(), sigma(rate, 7.0), 0.0, None);
        let mut stream = points(rate, &sent, channel, Demodulator::new(r.below(symbols_of(rate, 13)) as u64, r.below(8) as u8, vec![]));
        let behind = stream.split_off(8 * symbols_of(rate, 34));
        let input = [noise(r.below(9000)), stream, noise(r.below(20_000)), behind, noise(r.below(12_000))].concat();
        Case { word: word(r, rate), input, sent }
    });
    // Symbols of bits that have no blocks are found and read in vain, which changes the mirror at 5/6.
    score.kind("bits without blocks before a stream", 30, Purpose::Locks, |r, rate| {
        let (before, many) = (r.below(5) as u8, 600 + r.below(1400));
        let coded = InnerCoder::after(before, 0).code(&r.bytes(many));
        let mut channel = Channel::new(r.next(), sigma(before, 9.0), 0.0, None);
        let mut demodulator = Demodulator::new(0, r.below(8) as u8, vec![]);
        let mut input: Vec<u8> = demodulated(&coded, &mut channel, &mut demodulator).into_iter().flat_map(to_bytes).collect();
        let case = stream(r, if rate < 3 { 3 } else { rate }, 44, 8.0, vec![]);
        input.extend(case.input);
        Case { word: "any".to_string(), input, ..case }
    });
    score.kind("at the threshold", 20, Purpose::Locks, at_the_threshold);
    score.kind("beside a block", 75, Purpose::Locks, beside_a_block);
    // About the four blocks and a byte that a lock needs, and bytes behind the last whole point.
    score.kind("short", 60, Purpose::Both, |r, rate| {
        let mut case = stream(r, rate, 24, 9.0, vec![]);
        case.input.truncate(r.below(8 * symbols_of(rate, 9)));
        case
    });
    score.kind("ends anywhere", 30, Purpose::Locks, |r, rate| {
        let mut case = stream(r, rate, 50, 8.0, vec![]);
        let less = r.below(8 * symbols_of(rate, 3));
        case.input.truncate(case.input.len() - less);
        case
    });
    score.kind("noise alone", 12, Purpose::Nothing, |r, rate| {
        let mut noise = Channel::new(r.next(), 1.0, 0.0, Some(Bursts { period: 1, length: 1, lost: false }));
        let mut input: Vec<u8> = (0..20_000 + r.below(9000)).flat_map(|_| to_bytes(noise.receive(0))).collect();
        input.extend(r.bytes(7));
        Case { word: word(r, rate), input, sent: Vec::new() }
    });
    // Any bit patterns, infinities and NaNs of every kind among them; and nothing but one number.
    score.kind("any bytes", 20, Purpose::Nothing, |r, rate| {
        let many = [0, 1, 7, 8, 9, 13_055, 13_056, 13_057, 90_000][r.below(9)];
        let input = match r.below(3) {
            0 => r.bytes(many),
            1 => vec![[0x00, 0xFF, 0x7F][r.below(3)]; many],
            _ => r.bytes(8).into_iter().cycle().take(many).collect(),
        };
        Case { word: word(r, rate), input, sent: Vec::new() }
    });
    score.kind("wrong rate", 20, Purpose::Nothing, |r, rate| {
        let mut case = stream(r, rate, 30, 7.0, vec![]);
        case.word = ((rate + 1 + r.below(4) as u8) % 5).to_string();
        case
    });
    score.kind("bits", 60, Purpose::Locks, |r, _| bits(r, 0));
    score.kind("bits, slipped", 80, Purpose::LocksAgain, |r, _| {
        let edits = 1 + r.below(4);
        bits(r, edits)
    });
    score.kind("bits, edges", 150, Purpose::Locks, |r, _| edges(r));
    score.kind("bits, short", 60, Purpose::Both, |r, _| {
        let mut case = bits(r, 0);
        case.input.truncate(r.below(4000));
        case
    });
    score.kind("bits, any bytes", 20, Purpose::Nothing, |r, _| {
        let many = [0, 1, 816, 817, 1021, 30_000][r.below(6)];
        Case { word: "bits".to_string(), input: r.bytes(many), sent: Vec::new() }
    });
    println!("lock: {} compared, {} of them through the state too, {} different", score.compared_all, score.through_states, score.failed_all);
    if score.failed_all > 0 || score.compared_all == 0 {
        exit(1);
    }
}
