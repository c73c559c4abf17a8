//! Measures acquisition: how soon and how surely a program locks on streams that are cut anywhere, turned and noisy, what a slip costs,
//! and what it makes of noise alone. `peers/acquisition.sh` runs it.
//!
//!   acquisition measure PROGRAM [RUNS]       the tables; RUNS for each turn, rate and Eb/N0
//!   acquisition symbols RATE COUNT SEED      the symbols of numbered packets
//!   acquisition judge COUNT SEED < packets   how many of these packets came back

use reference::channel::{demodulated, sigma, to_bytes, Channel, Demodulator, Point, Slip};
use reference::numbered::{packets, symbols, Verdict};
use reference::runs::pattern_size;
use reference::xorshift::Xorshift;
use reference::BLOCK_LENGTH;
use std::io::{Read, Write};
use std::process::{exit, Command, Stdio};

const RATES: [&str; 5] = ["1/2", "2/3", "3/4", "5/6", "7/8"];
const EB_N0: [f64; 7] = [3.0, 3.5, 4.0, 4.5, 5.0, 6.0, 7.0];
const SLIPS_EB_N0: f64 = 6.0;
/// Packets of a stream, of which the demodulator misses the first ones.
const PACKETS: usize = 64;
const SLIPPED_PACKETS: usize = 110;
const NOISE_SYMBOLS: usize = 32_640;

/// The first two numbers of a `lock` line, symbol and rate, and its turn.
struct LockLine {
    symbol: usize,
    rate: usize,
    turn: u8,
}

struct Outcome {
    packets: Vec<u8>,
    locks: Vec<LockLine>,
    /// Symbols before the first lock.
    skipped: usize,
}

fn value(line: &str, key: &str) -> usize {
    let word = line.split(' ').find_map(|word| word.strip_prefix(key)?.strip_prefix('='));
    word.and_then(|word| word.parse().ok()).unwrap_or_else(|| panic!("no {key}= in {line}"))
}

/// What the program gives for points. A status other than 0, or 1 where it found nothing, is no measurement.
fn run(program: &str, word: &str, points: &[Point]) -> Outcome {
    let mut child = Command::new(program)
        .arg(word)
        .stdin(Stdio::piped())
        .stdout(Stdio::piped())
        .stderr(Stdio::piped())
        .spawn()
        .unwrap_or_else(|e| panic!("{program}: {e}"));
    let mut stdin = child.stdin.take().unwrap();
    let input: Vec<u8> = points.iter().flat_map(|&point| to_bytes(point)).collect();
    let writer = std::thread::spawn(move || stdin.write_all(&input));
    let output = child.wait_with_output().unwrap();
    writer.join().unwrap().unwrap();
    let text = String::from_utf8(output.stderr).unwrap();
    let lines = |word: &'static str| text.lines().filter(move |line| line.split(' ').next() == Some(word));
    let locks: Vec<LockLine> = lines("lock")
        .map(|line| LockLine { symbol: value(line, "symbol"), rate: value(line, "rate"), turn: value(line, "turn") as u8 })
        .collect();
    let found = output.status.code() == Some(0) && lines("end").count() == 1 && lines("lost").count() == locks.len() && !locks.is_empty();
    let nothing = output.status.code() == Some(1) && lines("nothing").count() == 1 && locks.is_empty() && output.stdout.is_empty();
    assert!(found || nothing, "{program} {word}: status {:?}\n{text}", output.status.code());
    let skipped = lines("lost").next().map_or(points.len(), |line| value(line, "skipped"));
    Outcome { packets: output.stdout, locks, skipped }
}

/// Where a stream begins: how many symbols are missed, the turn, and from a symbol of the input on how many more or fewer and the turn then.
struct Truth {
    rate: u8,
    cut: usize,
    turn: u8,
    slip: usize,
    moved: i64,
    turn_after: u8,
}

impl Truth {
    fn is_right(&self, lock: &LockLine) -> bool {
        let (moved, turn) = if lock.symbol < self.slip { (0, self.turn) } else { (self.moved, self.turn_after) };
        let sent = (self.cut + lock.symbol) as i64 + moved;
        lock.rate == self.rate as usize && lock.turn == turn && sent % pattern_size(self.rate).1 as i64 == 0
    }
}

/// The symbols of a rate before a block, those that are whole.
fn symbols_of(rate: u8, blocks: usize) -> usize {
    let (bits, per_pattern) = pattern_size(rate);
    8 * BLOCK_LENGTH * blocks / bits * per_pattern
}

fn cut_anywhere(program: &str, runs: usize) {
    println!("Streams that begin anywhere, in all eight turns, the rate not told; {PACKETS} packets each.");
    println!("skipped: symbols before the lock; first: runs that gave every packet from the first whole group on\n");
    println!("      rate Eb/N0 runs locked right false  skipped: mean   most  first never-sent disordered");
    for rate in 0..5u8 {
        let sent = packets(100 + rate as u64, PACKETS);
        let coded = symbols(rate, &sent);
        let (bits, per_pattern) = pattern_size(rate);
        for eb_n0 in EB_N0 {
            let mut random = Xorshift::new(1000 + rate as u64);
            let (mut locked, mut right, mut wrong, mut skipped, mut most, mut first, mut never_sent, mut disordered) = (0, 0, 0, 0, 0, 0, 0, 0);
            for case in 0..8 * runs {
                let turn = case as u8 % 8;
                // Behind the zeros of a fresh interleaver.
                let cut = symbols_of(rate, 12) + random.below(symbols_of(rate, 8));
                let mut channel = Channel::new(random.next(), sigma(rate, eb_n0), 0.0, None);
                let points = demodulated(&coded, &mut channel, &mut Demodulator::new(cut as u64, turn, vec![]));
                let outcome = run(program, "any", &points);
                let truth = Truth { rate, cut, turn, slip: usize::MAX, moved: 0, turn_after: turn };
                let wrongly = outcome.locks.iter().filter(|lock| !truth.is_right(lock)).count();
                wrong += wrongly;
                locked += usize::from(!outcome.locks.is_empty());
                right += usize::from(!outcome.locks.is_empty() && wrongly == 0);
                skipped += outcome.skipped;
                most = most.max(outcome.skipped);
                let verdict = Verdict::of(&sent, &outcome.packets);
                never_sent += verdict.never_sent;
                disordered += usize::from(!verdict.in_order());
                // The first group whose first block begins behind the first whole pattern.
                let block = ((cut + per_pattern - 1) / per_pattern * bits + 8 * BLOCK_LENGTH - 1) / (8 * BLOCK_LENGTH);
                let group = (block + 7) / 8 * 8;
                let whole = verdict.came.first().map_or(false, |&came| came <= group) && verdict.missing() == 0;
                first += usize::from(whole);
            }
            let count = 8 * runs;
            println!(
                "lock   {} {eb_n0:5.1} {count:4} {locked:6} {right:5} {wrong:5} {:14} {most:6} {first:6} {never_sent:10} {disordered:10}",
                RATES[rate as usize], skipped / count
            );
        }
    }
}

fn slips(program: &str, runs: usize) {
    let kinds = [
        ("1-left-out", Slip::LeftOut(1)),
        ("1-doubled", Slip::Doubled(1)),
        ("500-left-out", Slip::LeftOut(500)),
        ("3,000-left-out", Slip::LeftOut(3000)),
        ("quarter-turn", Slip::Turned(1)),
        ("half-turn", Slip::Turned(2)),
    ];
    println!("\nA slip in mid-stream, at {SLIPS_EB_N0:.1} dB, the rate told: packets lost by it\n");
    println!("     rate           slip runs lost: mean least most locks false never-sent disordered");
    for rate in 0..5u8 {
        let sent = packets(200 + rate as u64, SLIPPED_PACKETS);
        let coded = symbols(rate, &sent);
        for (name, slip) in kinds {
            let mut random = Xorshift::new(2000 + rate as u64);
            let (mut lost, mut locks, mut wrong, mut never_sent, mut disordered) = (Vec::new(), 0, 0, 0, 0);
            for case in 0..8 * runs {
                let turn = case as u8 % 8;
                let cut = symbols_of(rate, 12) + random.below(symbols_of(rate, 8));
                let at = symbols_of(rate, 54) + random.below(symbols_of(rate, 8));
                let mut channel = Channel::new(random.next(), sigma(rate, SLIPS_EB_N0), 0.0, None);
                let points = demodulated(&coded, &mut channel, &mut Demodulator::new(cut as u64, turn, vec![(at as u64, slip)]));
                let outcome = run(program, &rate.to_string(), &points);
                let (moved, turn_after) = match slip {
                    Slip::LeftOut(many) => (many as i64, turn),
                    Slip::Doubled(many) => (-(many as i64), turn),
                    Slip::Turned(quarters) => (0, turn / 4 * 4 + (turn + quarters) % 4),
                };
                let truth = Truth { rate, cut, turn, slip: at - cut, moved, turn_after };
                let verdict = Verdict::of(&sent, &outcome.packets);
                locks += outcome.locks.len();
                wrong += outcome.locks.iter().filter(|lock| !truth.is_right(lock)).count();
                never_sent += verdict.never_sent;
                disordered += usize::from(!verdict.in_order());
                lost.push(verdict.missing());
            }
            let mean = lost.iter().sum::<usize>() as f64 / lost.len() as f64;
            let (least, most) = (lost.iter().min().unwrap(), lost.iter().max().unwrap());
            println!(
                "slip  {} {name:>14} {:4} {mean:10.1} {least:5} {most:4} {locks:5} {wrong:5} {never_sent:10} {disordered:10}",
                RATES[rate as usize], lost.len()
            );
        }
    }
}

/// Noise alone, at the power of signal and noise, with every rate tried, and with each; and noise before a stream.
fn noise(program: &str, runs: usize) {
    println!("\nNoise alone, {NOISE_SYMBOLS} symbols a run\n");
    println!("      word runs locks packets");
    for word in ["any", "0", "1", "2", "3", "4"] {
        let (mut locks, mut given) = (0, 0);
        for case in 0..runs {
            let mut channel = Channel::new(3000 + case as u64, 1.0, 0.0, Some(reference::channel::Bursts { period: 1, length: 1, lost: false }));
            let points: Vec<Point> = (0..NOISE_SYMBOLS).map(|_| channel.receive(0)).collect();
            let outcome = run(program, word, &points);
            locks += outcome.locks.len();
            given += outcome.packets.len() / 188;
        }
        println!("noise {word:>4} {runs:4} {locks:5} {given:7}");
    }
    println!("\n10,000 symbols of noise before the stream, at {SLIPS_EB_N0:.1} dB, the rate not told\n");
    println!("       rate runs locked right skipped-of-the-stream: mean most never-sent disordered");
    for rate in 0..5u8 {
        let sent = packets(400 + rate as u64, PACKETS);
        let coded = symbols(rate, &sent);
        let mut random = Xorshift::new(4000 + rate as u64);
        let (mut locked, mut right, mut skipped, mut most, mut never_sent, mut disordered) = (0, 0, 0, 0, 0, 0);
        for case in 0..runs {
            let turn = case as u8 % 8;
            let cut = symbols_of(rate, 12) + random.below(symbols_of(rate, 8));
            let mut silence = Channel::new(random.next(), 1.0, 0.0, Some(reference::channel::Bursts { period: 1, length: 1, lost: false }));
            let mut points: Vec<Point> = (0..10_000).map(|_| silence.receive(0)).collect();
            let mut channel = Channel::new(random.next(), sigma(rate, SLIPS_EB_N0), 0.0, None);
            points.extend(demodulated(&coded, &mut channel, &mut Demodulator::new(cut as u64, turn, vec![])));
            let outcome = run(program, "any", &points);
            // The noise stands before the symbol that was cut to: counted from it, the first sent symbol is `cut` - 10,000.
            let truth = Truth { rate, cut, turn, slip: 0, moved: -10_000, turn_after: turn };
            locked += usize::from(!outcome.locks.is_empty());
            right += usize::from(!outcome.locks.is_empty() && outcome.locks.iter().all(|lock| truth.is_right(lock)));
            let behind = outcome.skipped.saturating_sub(10_000);
            skipped += behind;
            most = most.max(behind);
            let verdict = Verdict::of(&sent, &outcome.packets);
            never_sent += verdict.never_sent;
            disordered += usize::from(!verdict.in_order());
        }
        println!("before {} {runs:5} {locked:6} {right:5} {:27} {most:4} {never_sent:10} {disordered:10}", RATES[rate as usize], skipped / runs);
    }
}

fn main() {
    let words: Vec<String> = std::env::args().skip(1).collect();
    let words: Vec<&str> = words.iter().map(String::as_str).collect();
    let number = |word: &str| word.parse().unwrap_or_else(|_| panic!("{word} is no number"));
    match words[..] {
        ["measure", program] | ["measure", program, _] => {
            let runs = words.get(2).map_or(4, |word| number(word)) as usize;
            cut_anywhere(program, runs);
            slips(program, (runs + 1) / 2);
            noise(program, 4 * runs);
        }
        ["symbols", rate, count, seed] => {
            std::io::stdout().lock().write_all(&symbols(number(rate) as u8, &packets(number(seed), number(count) as usize))).unwrap();
        }
        ["judge", count, seed] => {
            let mut given = Vec::new();
            std::io::stdin().lock().read_to_end(&mut given).unwrap();
            let verdict = Verdict::of(&packets(number(seed), number(count) as usize), &given);
            let first = verdict.came.first().map_or(-1, |&first| first as i64);
            println!("came={} first={first} missing={} never-sent={} in-order={}", verdict.came.len(), verdict.missing(), verdict.never_sent, verdict.in_order());
        }
        _ => {
            eprintln!("usage: acquisition measure PROGRAM [RUNS] | symbols RATE COUNT SEED | judge COUNT SEED");
            exit(2);
        }
    }
}
