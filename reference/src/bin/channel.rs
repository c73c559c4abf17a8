//! The channel: symbols on standard input, one byte each, and the points that are
//! received for them on standard output, complex floats as GNU Radio's files have
//! them. `src/channel.rs` says what Eb/N0 means here.
//!
//!   channel RATE EBN0 SEED [lost=P] [burst=LENGTH/PERIOD | outage=LENGTH/PERIOD] [anywhere | cut=N turn=T] [skip=K@N | double=K@N | turn=Q@N].. < symbols > points
//!
//! EBN0 is in dB, and inf is no noise. P is the probability that a symbol is lost: both of its numbers are
//! NaN. Of every PERIOD symbols the last LENGTH are noise alone, or lost in an outage.
//!
//! The demodulator misses the first N symbols (`cut`) and turns all points, T being 0 to 7 as in `docs/ACQUISITION.md`;
//! `anywhere` takes both from the seed. From symbol N on, counted as they were sent, K symbols are left out, or come
//! twice each, or all that follow are turned by Q quarter turns more.

use reference::channel::{sigma, to_bytes, Bursts, Channel, Demodulator, Slip};
use std::io::{BufReader, BufWriter, Read, Write};

fn usage() -> ! {
    eprintln!("usage: channel RATE EBN0 SEED [lost=P] [burst=LENGTH/PERIOD | outage=LENGTH/PERIOD] [anywhere | cut=N turn=T] [skip=K@N | double=K@N | turn=Q@N].. < symbols > points, RATE 0 to 4, EBN0 in dB or inf");
    std::process::exit(2)
}

fn number<T: std::str::FromStr>(word: Option<&str>) -> T {
    word.and_then(|w| w.parse().ok()).unwrap_or_else(|| usage())
}

fn main() -> std::io::Result<()> {
    let words: Vec<String> = std::env::args().skip(1).collect();
    let mut words = words.iter().map(String::as_str);
    let rate: u8 = number(words.next());
    let eb_n0: f64 = number(words.next());
    let seed: u64 = number(words.next());
    let (mut lost, mut bursts) = (0.0, None);
    let (mut cut, mut turn, mut slips) = (0, 0, Vec::new());
    for word in words {
        if word == "anywhere" {
            (cut, turn) = Demodulator::anywhere(seed);
            continue;
        }
        match word.split_once('=') {
            Some(("lost", p)) => lost = number(Some(p)),
            Some((kind @ ("burst" | "outage"), b)) if bursts.is_none() => {
                let (length, period) = b.split_once('/').unwrap_or_else(|| usage());
                bursts = Some(Bursts { length: number(Some(length)), period: number(Some(period)), lost: kind == "outage" });
            }
            Some(("cut", n)) => cut = number(Some(n)),
            Some((kind @ ("skip" | "double" | "turn"), slip)) if slip.contains('@') => {
                let (many, at) = slip.split_once('@').unwrap_or_else(|| usage());
                let slip = match kind {
                    "skip" => Slip::LeftOut(number(Some(many))),
                    "double" => Slip::Doubled(number(Some(many))),
                    _ => Slip::Turned(number::<u8>(Some(many)) % 4),
                };
                slips.push((number(Some(at)), slip));
            }
            Some(("turn", t)) => turn = number(Some(t)),
            _ => usage(),
        }
    }
    let whole = bursts.map_or(true, |b: Bursts| 0 < b.period && b.length <= b.period);
    if rate > 4 || turn > 7 || !(eb_n0 > f64::NEG_INFINITY) || !(0.0..=1.0).contains(&lost) || !whole {
        usage();
    }
    let mut channel = Channel::new(seed, sigma(rate, eb_n0), lost, bursts);
    let mut demodulator = Demodulator::new(cut, turn, slips);
    let mut output = BufWriter::with_capacity(1 << 16, std::io::stdout().lock());
    for (at, byte) in BufReader::with_capacity(1 << 16, std::io::stdin().lock()).bytes().enumerate() {
        let symbol = byte?;
        if symbol > 3 {
            eprintln!("channel: byte {at} is {symbol}, and no symbol");
            std::process::exit(1);
        }
        for _ in 0..demodulator.copies() {
            output.write_all(&to_bytes(demodulator.turned(channel.receive(symbol))))?;
        }
    }
    output.flush()
}
