//! What comes through a channel with white Gaussian noise: bit errors after the inner
//! decoder, by hard and by soft decisions, and packets lost after the outer code, for
//! the five rates; and packets lost where symbols are lost, in outages or at random,
//! with the marks that these make and without. Sending, reading and receiving are the
//! library's, but at 7/8, which it no longer sends, the symbols are the reference's;
//! so are the marks, and the bits that were sent are known from it.
//!
//!   ber PICTURE > table
//!
//! All random numbers are seeded: the table is the same in every run.

use reference::channel::{decided, sigma, Bursts, Channel, Point};
use reference::erasures::marks;
use reference::exports::{library, COUNTS_LENGTH, RESULT_LENGTH};
use reference::inner_code::{InnerCoder, SENT};
use reference::sender::interleaved_stream;
use reference::xorshift::Xorshift;
use reference::{BLOCK_LENGTH, PACKET_LENGTH, SYNC};
use std::fmt::Write;

const RATES: [&str; 5] = ["1/2", "2/3", "3/4", "5/6", "7/8"];
/// EN 300 421, table 3: the Eb/N0 in dB for 2e-4 after the inner decoder, which is quasi error free after the outer one.
/// It has a modem implementation margin of 0.8 dB in it.
const REQUIRED: [f64; 5] = [4.5, 5.0, 5.5, 6.0, 6.4];
const MARGIN: f64 = 0.8;
const WANTED: f64 = 2e-4;

/// Symbols and bits of a puncturing pattern, and the patterns of a longest run and those of it that are kept.
const PATTERN_SYMBOLS: [usize; 5] = [1, 3, 2, 3, 4];
const PATTERN_BITS: [usize; 5] = [1, 4, 3, 5, 7];
const LONGEST: usize = 1632;
const OVERLAP: usize = 100;

/// Packets sent at once, and bits, or wrong bits and packets lost, after which a point is known well enough.
const PACKETS: usize = 512;
const BITS: u64 = 8_000_000;
const ERRORS: u64 = 2000;
const LOST: u64 = 100;

/// Outages: one in so many blocks, further from the next than the interleaver reaches; how many packets are sent at
/// each length, and which lengths, in hundredths of 96 decoded bytes.
const OUTAGE_BLOCKS: u64 = 32;
const OUTAGE_PACKETS: u64 = 5000;
const OUTAGES: [u64; 20] = [50, 60, 70, 80, 90, 95, 100, 102, 105, 110, 120, 140, 160, 180, 190, 195, 200, 205, 210, 220];
/// The probability that a symbol is lost at which the outer code begins to lose packets.
const LOSSES: [f64; 5] = [0.2, 0.14, 0.1, 0.07, 0.05];

#[derive(Clone, Copy, PartialEq)]
enum Decisions {
    Hard,
    Soft,
}

/// One read of whole patterns.
fn read_run(decisions: Decisions, rate: u8, memory: u8, points: &[Point], bits: &mut [u8]) {
    let mut result = [0; RESULT_LENGTH];
    let count = match decisions {
        Decisions::Hard => {
            let symbols: Vec<u8> = points.iter().map(|p| decided(*p)).collect();
            library::read_run(rate, memory, &symbols, bits, &mut result)
        }
        Decisions::Soft => {
            let i: Vec<f32> = points.iter().map(|p| p.0).collect();
            let q: Vec<f32> = points.iter().map(|p| p.1).collect();
            let lost: Vec<u8> = points.iter().map(|p| u8::from(p.0.is_nan() && p.1.is_nan())).collect();
            library::read_soft_run(rate, memory, &i, &q, &lost, bits, &mut result)
        }
    };
    assert!(result[0] == 0 && count == bits.len() as u64, "the library refused a run: {}", result[0]);
}

/// The bits of a stream of points, by runs that overlap by a hundred bits: as `dvbs_read` and `dvbs_read_soft` read it, which keep up to seven fewer of a run.
fn read(decisions: Decisions, rate: u8, points: &[Point]) -> Vec<u8> {
    let (symbols, bits) = (PATTERN_SYMBOLS[rate as usize], PATTERN_BITS[rate as usize]);
    let (full, kept) = (LONGEST / bits, (LONGEST - OVERLAP) / bits);
    let whole = points.len() / symbols;
    let (mut at, mut memory, mut out) = (0, 0, Vec::with_capacity(whole * bits));
    while at < whole {
        let patterns = full.min(whole - at);
        let mut output = vec![0; patterns * bits];
        read_run(decisions, rate, memory, &points[at * symbols..(at + patterns) * symbols], &mut output);
        let keep = if patterns < full { patterns } else { kept };
        out.extend_from_slice(&output[..keep * bits]);
        // The coder's memory: its last six bits, the newest counting 32.
        memory = out.iter().rev().take(6).enumerate().map(|(age, bit)| bit << (5 - age)).sum();
        at += keep;
    }
    out
}

fn bits_of(bytes: &[u8]) -> Vec<u8> {
    bytes.iter().flat_map(|b| (0..8).rev().map(move |k| b >> k & 1)).collect()
}

fn bytes_of(bits: &[u8]) -> Vec<u8> {
    bits.chunks_exact(8).map(|eight| eight.iter().fold(0, |byte, bit| 2 * byte + bit)).collect()
}

#[derive(Clone, Copy, Default)]
struct Tally {
    bits: u64,
    wrong: u64,
    packets: u64,
    lost: u64,
    never_sent: u64,
}

impl Tally {
    fn ber(&self) -> f64 {
        self.wrong as f64 / self.bits as f64
    }

    fn loss(&self) -> f64 {
        self.lost as f64 / self.packets as f64
    }

    fn wrong_packets(&self) -> f64 {
        self.never_sent as f64 / self.packets as f64
    }
}

/// How many of the packets came out, in order, and how many came out that were not sent: a block far from what was sent
/// can lie near another codeword, three or four times in a million.
fn delivered(sent: &[u8], given: &[u8]) -> (u64, u64) {
    let (mut right, mut wrong) = (0, 0);
    let mut rest = sent.chunks_exact(PACKET_LENGTH);
    for packet in given.chunks_exact(PACKET_LENGTH) {
        let mut ahead = rest.clone();
        if ahead.any(|p| p == packet) {
            rest = ahead;
            right += 1;
        } else {
            wrong += 1;
        }
    }
    (right, wrong)
}

/// Random packets and the symbols that are sent for them.
fn transmit(rate: u8, seed: u64) -> (Vec<u8>, Vec<u8>) {
    let mut packets = Xorshift::new(seed).bytes(PACKETS * PACKET_LENGTH);
    packets.chunks_exact_mut(PACKET_LENGTH).for_each(|p| p[0] = SYNC);
    if !SENT.contains(&rate) {
        let symbols = InnerCoder::after(rate, 0).code(&interleaved_stream(&packets));
        return (packets, symbols);
    }
    let mut symbols = vec![0; PACKETS * LONGEST];
    let count = library::send_run(rate, &packets, &mut symbols, &mut [0]);
    symbols.truncate(count as usize);
    (packets, symbols)
}

/// Receives decoded bytes with their marks, and adds what became of the packets.
fn receive(packets: &[u8], bytes: &[u8], marked: &[u8], tally: &mut Tally) {
    let whole = bytes.len() / BLOCK_LENGTH;
    let mut output = vec![0; whole * PACKET_LENGTH];
    let mut answer = [0];
    let written = library::receive_run_marked(bytes, marked, &mut output, &mut [0; COUNTS_LENGTH], &mut answer);
    assert!(answer[0] == 0, "the library refused to receive: {}", answer[0]);
    let due = (whole - 11) as u64;
    let (right, wrong) = delivered(packets, &output[..written as usize]);
    tally.packets += due;
    tally.lost += due - right;
    tally.never_sent += wrong;
}

/// Sends packets over the channel once, and adds what came of it by both kinds of decisions.
fn over_the_channel(rate: u8, eb_n0: f64, seed: u64, tallies: &mut [Tally; 2]) {
    let (packets, symbols) = transmit(rate, seed);
    let mut channel = Channel::new(seed, sigma(rate, eb_n0), 0.0, None);
    let points: Vec<Point> = symbols.iter().map(|s| channel.receive(*s)).collect();
    let sent = bits_of(&interleaved_stream(&packets));
    for (decisions, tally) in [Decisions::Hard, Decisions::Soft].into_iter().zip(tallies) {
        let got = read(decisions, rate, &points);
        // The last decisions of a stream have nothing behind them: they are not counted.
        let counted = got.len() - OVERLAP;
        tally.bits += counted as u64;
        tally.wrong += got[..counted].iter().zip(&sent).filter(|(a, b)| a != b).count() as u64;
        let bytes = bytes_of(&got);
        receive(&packets, &bytes, &vec![0; bytes.len()], tally);
    }
}

/// Sends packets over a channel that loses symbols, and adds what came of it without marks and with them.
fn over_losses(rate: u8, lost: f64, outages: Option<Bursts>, seed: u64, tallies: &mut [Tally; 2]) {
    let (packets, symbols) = transmit(rate, seed);
    let mut channel = Channel::new(seed, sigma(rate, REQUIRED[rate as usize]), lost, outages);
    let points: Vec<Point> = symbols.iter().map(|s| channel.receive(*s)).collect();
    let bytes = bytes_of(&read(Decisions::Soft, rate, &points));
    let [without, with] = tallies;
    receive(&packets, &bytes, &vec![0; bytes.len()], without);
    receive(&packets, &bytes, &marks(rate, &points), with);
}

fn measure_losses(rate: u8, lost: f64, outages: Option<Bursts>) -> [Tally; 2] {
    let mut tallies = [Tally::default(); 2];
    let mut seed = 7000 + u64::from(rate);
    while tallies[0].packets < OUTAGE_PACKETS {
        over_losses(rate, lost, outages, seed, &mut tallies);
        seed += 1_000_000;
    }
    tallies
}

/// The whole symbols of so many hundredths of a bit.
fn symbols_of(rate: u8, hundredths: u64) -> u64 {
    hundredths * PATTERN_SYMBOLS[rate as usize] as u64 / PATTERN_BITS[rate as usize] as u64 / 100
}

fn measure(rate: u8, eb_n0: f64) -> [Tally; 2] {
    let mut tallies = [Tally::default(); 2];
    let mut seed = 1000 * u64::from(rate) + (100.0 * eb_n0) as u64;
    while tallies[0].bits < BITS && tallies.iter().any(|t| t.wrong < ERRORS || t.lost < LOST) {
        over_the_channel(rate, eb_n0, seed, &mut tallies);
        seed += 1_000_000;
    }
    tallies
}

/// The bit error ratio of QPSK without a code: Q(sqrt(2 Eb/N0)), the integral by steps.
fn uncoded(eb_n0: f64) -> f64 {
    let from = (2.0 * 10f64.powf(eb_n0 / 10.0)).sqrt();
    let step = 0.001;
    let density = |x: f64| (-x * x / 2.0).exp() / (2.0 * std::f64::consts::PI).sqrt();
    (0..10_000).map(|k| step * density(from + (k as f64 + 0.5) * step)).sum()
}

/// Where a curve crosses a value, between two measured points and straight in the logarithm.
fn crossing(curve: &[(f64, f64)], value: f64) -> Option<f64> {
    curve.windows(2).find(|w| w[0].1 >= value && value >= w[1].1 && w[1].1 > 0.0).map(|w| {
        let (a, b, v) = (w[0].1.ln(), w[1].1.ln(), value.ln());
        w[0].0 + (w[1].0 - w[0].0) * (a - v) / (a - b)
    })
}

// ---- the picture

const COLOURS: [&str; 5] = ["#1f5fa8", "#2a9d8f", "#7a8b00", "#d98324", "#b5305a"];
const LEFT: f64 = 74.0;
const WIDTH: f64 = 640.0;
/// The scale of Eb/N0 in dB, and that of outages in symbols.
const DECIBELS: Scale = Scale { from: 1, to: 9, step: 1 };
const SYMBOLS: Scale = Scale { from: 0, to: 1800, step: 200 };

#[derive(Clone, Copy)]
struct Scale {
    from: i32,
    to: i32,
    step: usize,
}

/// A panel with a logarithmic scale from 10^top down to 10^bottom.
struct Panel {
    y: f64,
    height: f64,
    top: f64,
    bottom: f64,
    scale: Scale,
}

impl Panel {
    fn x_of(&self, value: f64) -> f64 {
        LEFT + WIDTH * (value - f64::from(self.scale.from)) / f64::from(self.scale.to - self.scale.from)
    }

    fn y_of(&self, value: f64) -> f64 {
        self.y + self.height * (self.top - value.log10()) / (self.top - self.bottom)
    }

    fn frame(&self, svg: &mut String, title: &str) {
        let (right, low) = (LEFT + WIDTH, self.y + self.height);
        for decade in self.bottom as i32..=self.top as i32 {
            let y = self.y_of(10f64.powi(decade));
            let _ = writeln!(svg, r##"<line x1="{LEFT}" y1="{y:.1}" x2="{right}" y2="{y:.1}" stroke="#e3e3e3"/>"##);
            let exponent = if decade == 0 { "1".to_string() } else { format!(r#"10<tspan dy="-5" font-size="9">{decade}</tspan>"#) };
            let _ = writeln!(svg, r#"<text x="{}" y="{:.1}" text-anchor="end">{exponent}</text>"#, LEFT - 8.0, y + 4.0);
        }
        for tick in (self.scale.from..=self.scale.to).step_by(self.scale.step) {
            let x = self.x_of(f64::from(tick));
            let _ = writeln!(svg, r##"<line x1="{x:.1}" y1="{}" x2="{x:.1}" y2="{low}" stroke="#e3e3e3"/>"##, self.y);
            let _ = writeln!(svg, r#"<text x="{x:.1}" y="{}" text-anchor="middle">{tick}</text>"#, low + 16.0);
        }
        let _ = writeln!(svg, r##"<rect x="{LEFT}" y="{}" width="{WIDTH}" height="{}" fill="none" stroke="#555"/>"##, self.y, self.height);
        let _ = writeln!(svg, r#"<text x="{LEFT}" y="{}" font-size="14" font-weight="bold">{title}</text>"#, self.y - 10.0);
    }

    /// The part of a curve that the panel shows. Where nothing was wrong any more, it ends on the panel's floor.
    fn shown(&self, points: &[(f64, f64)]) -> Curve {
        let (floor, ceiling) = (10f64.powf(self.bottom), 10f64.powf(self.top));
        let mut shown = Curve::new();
        for (x, v) in points {
            if *v <= ceiling {
                shown.push((*x, v.max(floor)));
            }
            if *v <= floor {
                break;
            }
        }
        shown
    }

    fn curve(&self, svg: &mut String, points: &[(f64, f64)], colour: &str, style: &str) {
        let path: Vec<String> = self.shown(points).iter().map(|(x, v)| format!("{:.1},{:.1}", self.x_of(*x), self.y_of(*v))).collect();
        let _ = writeln!(svg, r#"<polyline points="{}" fill="none" stroke="{colour}" stroke-width="2" {style}/>"#, path.join(" "));
    }

    fn dots(&self, svg: &mut String, points: &[(f64, f64)], colour: &str, filled: bool) {
        let fill = if filled { colour } else { "white" };
        for (x, v) in self.shown(points) {
            let _ = writeln!(
                svg,
                r#"<circle cx="{:.1}" cy="{:.1}" r="3" fill="{fill}" stroke="{colour}" stroke-width="1.5"/>"#,
                self.x_of(x),
                self.y_of(v)
            );
        }
    }
}

fn cross(svg: &mut String, x: f64, y: f64, colour: &str) {
    let _ = writeln!(svg, r#"<path d="M{:.1} {:.1}l8 8m0 -8l-8 8" fill="none" stroke="{colour}" stroke-width="2"/>"#, x - 4.0, y - 4.0);
}

fn diamond(svg: &mut String, x: f64, y: f64, colour: &str, fill: &str) {
    let _ = writeln!(
        svg,
        r#"<path d="M{x:.1} {:.1}l6 7l-6 7l-6 -7z" fill="{fill}" stroke="{colour}" stroke-width="1.5"/>"#,
        y - 7.0
    );
}

type Curve = Vec<(f64, f64)>;

/// For each rate, hard and soft: the curve of bit errors, and that of packets lost; without marks and with them, that of packets lost in outages; and
/// the points of those that were given wrong, with marks.
fn picture(errors: &[[Curve; 2]], losses: &[[Curve; 2]], outages: &[[Curve; 2]], wrong: &[Curve]) -> String {
    let upper = Panel { y: 118.0, height: 420.0, top: -1.0, bottom: -6.0, scale: DECIBELS };
    let lower = Panel { y: 640.0, height: 200.0, top: 0.0, bottom: -4.0, scale: DECIBELS };
    let third = Panel { y: 944.0, height: 200.0, top: 0.0, bottom: -4.0, scale: SYMBOLS };
    let mut svg = String::from(
        "<svg xmlns=\"http://www.w3.org/2000/svg\" width=\"880\" height=\"1204\" viewBox=\"0 0 880 1204\" font-family=\"sans-serif\" font-size=\"12\" fill=\"#222\">\n<rect width=\"880\" height=\"1204\" fill=\"white\"/>\n",
    );
    let mut text = |x: f64, y: f64, style: &str, words: &str| {
        let _ = writeln!(svg, r#"<text x="{x}" y="{y}" {style}>{words}</text>"#);
    };
    text(12.0, 26.0, r#"font-size="18""#, "What the link loses in noise and in outages");
    text(12.0, 46.0, "", "QPSK over white Gaussian noise, through the library (7/8 sent by the reference), seeded. Eb is the energy of a useful bit, before both codes.");
    text(12.0, 64.0, "", "Further left is better: as few errors with less power. A curve ends where it goes below its panel, or where nothing was wrong any more.");
    text(LEFT + WIDTH / 2.0, 578.0, r#"text-anchor="middle""#, "Eb/N0 in dB");
    text(LEFT + WIDTH / 2.0, 880.0, r#"text-anchor="middle""#, "Eb/N0 in dB");
    text(LEFT + WIDTH / 2.0, 1184.0, r#"text-anchor="middle""#, "Symbols lost in a row, one such outage in 32 blocks, soft decisions at the Eb/N0 that EN 300 421 asks for");
    upper.frame(&mut svg, "Bit errors after the inner decoder");
    lower.frame(&mut svg, "Packets lost after the outer decoder");
    third.frame(&mut svg, "Packets lost in outages: further right is better");

    let plain: Curve = (0..=80).map(|k| 1.0 + f64::from(k) / 10.0).map(|x| (x, uncoded(x))).collect();
    upper.curve(&mut svg, &plain, "#888", r#"stroke-dasharray="2 3""#);
    let y = upper.y_of(WANTED);
    let _ = writeln!(
        svg,
        r##"<line x1="{LEFT}" y1="{y:.1}" x2="{:.1}" y2="{y:.1}" stroke="#222" stroke-dasharray="7 4"/>"##,
        LEFT + WIDTH
    );
    for (panel, curves) in [(&upper, errors), (&lower, losses), (&third, outages)] {
        for (rate, [worse, better]) in curves.iter().enumerate() {
            panel.curve(&mut svg, worse, COLOURS[rate], r#"stroke-dasharray="5 3" stroke-opacity="0.8""#);
            panel.dots(&mut svg, worse, COLOURS[rate], false);
            panel.curve(&mut svg, better, COLOURS[rate], "");
            panel.dots(&mut svg, better, COLOURS[rate], true);
        }
    }
    for (rate, points) in wrong.iter().enumerate() {
        for (x, v) in points.iter().filter(|(_, v)| *v > 0.0) {
            cross(&mut svg, third.x_of(*x), third.y_of(*v), COLOURS[rate]);
        }
    }
    for (rate, required) in REQUIRED.iter().enumerate() {
        diamond(&mut svg, lower.x_of(*required), lower.y + lower.height, COLOURS[rate], COLOURS[rate]);
        diamond(&mut svg, upper.x_of(*required), y, COLOURS[rate], COLOURS[rate]);
        diamond(&mut svg, upper.x_of(required - MARGIN), y, COLOURS[rate], "white");
    }

    // The legend, beside the panels.
    let x = LEFT + WIDTH + 18.0;
    let mut line = 126.0;
    let mut entry = |svg: &mut String, mark: &str, words: &str| {
        let _ = writeln!(svg, r#"<g transform="translate({x} {line})">{mark}</g><text x="{}" y="{line}">{words}</text>"#, x + 34.0);
        line += 20.0;
    };
    let solid = r##"<line x1="0" y1="-4" x2="28" y2="-4" stroke="#222" stroke-width="2"/><circle cx="14" cy="-4" r="3" fill="#222"/>"##;
    let dashed = r##"<line x1="0" y1="-4" x2="28" y2="-4" stroke="#222" stroke-width="2" stroke-dasharray="5 3"/><circle cx="14" cy="-4" r="3" fill="white" stroke="#222"/>"##;
    for (rate, name) in RATES.iter().enumerate() {
        let mark = format!(r#"<rect x="4" y="-9" width="20" height="9" fill="{}"/>"#, COLOURS[rate]);
        entry(&mut svg, &mark, &format!("rate {name}"));
    }
    entry(&mut svg, solid, "soft decisions");
    entry(&mut svg, dashed, "hard decisions");
    entry(&mut svg, r##"<line x1="0" y1="-4" x2="28" y2="-4" stroke="#888" stroke-width="2" stroke-dasharray="2 3"/>"##, "without a code");
    entry(&mut svg, r##"<line x1="0" y1="-4" x2="28" y2="-4" stroke="#222" stroke-dasharray="7 4"/>"##, "2 in 10,000");
    entry(&mut svg, r##"<path d="M14 -11l6 7l-6 7l-6 -7z" fill="#222"/>"##, "EN 300 421 asks");
    entry(&mut svg, "", "for 2 in 10,000,");
    entry(&mut svg, "", "quasi error free");
    entry(&mut svg, "", "packets, here");
    entry(&mut svg, r##"<path d="M14 -11l6 7l-6 7l-6 -7z" fill="white" stroke="#222"/>"##, "the same less");
    entry(&mut svg, "", "its 0.8 dB of");
    entry(&mut svg, "", "modem margin");
    let crossed = r##"<path d="M10 -8l8 8m0 -8l-8 8" fill="none" stroke="#222" stroke-width="2"/>"##;
    for (line, mark, words) in [
        (952.0, solid, "with marks"),
        (972.0, dashed, "without marks"),
        (992.0, crossed, "of those lost with"),
        (1012.0, "", "marks, the ones"),
        (1032.0, "", "given wrong"),
    ] {
        let _ = writeln!(svg, r#"<g transform="translate({x} {line})">{mark}</g><text x="{}" y="{line}">{words}</text>"#, x + 34.0);
    }
    svg.push_str("</svg>\n");
    svg
}

fn main() -> std::io::Result<()> {
    let path = std::env::args().nth(1).unwrap_or_else(|| {
        eprintln!("usage: ber PICTURE > table");
        std::process::exit(2)
    });
    let (mut errors, mut losses, mut never_sent) = (Vec::new(), Vec::new(), 0);
    println!("rate  Eb/N0  |      bits    hard BER    soft BER | packets  lost, hard  lost, soft");
    for rate in 0..5u8 {
        let (mut bers, mut lost) = ([Curve::new(), Curve::new()], [Curve::new(), Curve::new()]);
        // From where soft decisions lose most packets to where hard ones have few errors, in quarters of a dB.
        let first = (4.0 * (REQUIRED[rate as usize] - 2.5)).round() as i32;
        for eb_n0 in (first..first + 21).map(|k| f64::from(k) / 4.0) {
            let tallies = measure(rate, eb_n0);
            println!(
                "{:<4} {eb_n0:6.2}  | {:9}  {:10.3e}  {:10.3e} | {:7} {:11} {:11}",
                RATES[rate as usize], tallies[0].bits, tallies[0].ber(), tallies[1].ber(), tallies[0].packets, tallies[0].lost, tallies[1].lost
            );
            for kind in 0..2 {
                never_sent += tallies[kind].never_sent;
                bers[kind].push((eb_n0, tallies[kind].ber()));
                lost[kind].push((eb_n0, tallies[kind].loss()));
            }
        }
        errors.push(bers);
        losses.push(lost);
    }
    println!();
    println!("packets given that were not sent: {never_sent}");
    println!();
    println!("rate  required  less {MARGIN} dB | 2e-4 is reached at, soft  hard | none lost from, soft  hard");
    for rate in 0..5 {
        let at = |curve: &Curve| crossing(curve, WANTED).map_or("-".into(), |x| format!("{x:.2}"));
        let clear = |curve: &Curve| curve.iter().rev().take_while(|(_, v)| *v == 0.0).last().map_or("-".into(), |(x, _)| format!("{x:.2}"));
        let ([hard, soft], [hard_lost, soft_lost]) = (&errors[rate], &losses[rate]);
        println!(
            "{:<4} {:9.1} {:12.1} | {:>25} {:>5} | {:>20} {:>5}",
            RATES[rate],
            REQUIRED[rate],
            REQUIRED[rate] - MARGIN,
            at(soft),
            at(hard),
            clear(soft_lost),
            clear(hard_lost)
        );
    }

    println!();
    println!("rate  symbols lost in a row | packets  lost, without marks  with | of these given wrong, without  with");
    let (mut outages, mut wrong) = (Vec::new(), Vec::new());
    for rate in 0..5u8 {
        let (mut curves, mut crosses) = ([Curve::new(), Curve::new()], Curve::new());
        // A little more than whole blocks, so that each outage begins elsewhere in a block.
        let period = symbols_of(rate, 100 * OUTAGE_BLOCKS * 8 * BLOCK_LENGTH as u64) + 101;
        for hundredths in OUTAGES {
            let length = symbols_of(rate, hundredths * 8 * 96);
            let tallies = measure_losses(rate, 0.0, Some(Bursts { period, length, lost: true }));
            println!(
                "{:<4} {length:21} | {:7} {:20} {:5} | {:29} {:5}",
                RATES[rate as usize], tallies[0].packets, tallies[0].lost, tallies[1].lost, tallies[0].never_sent, tallies[1].never_sent
            );
            for kind in 0..2 {
                curves[kind].push((length as f64, tallies[kind].loss()));
            }
            crosses.push((length as f64, tallies[1].wrong_packets()));
        }
        outages.push(curves);
        wrong.push(crosses);
    }
    println!();
    println!("rate  longest of these without a loss, without marks  with");
    for rate in 0..5 {
        let longest = |curve: &Curve| curve.iter().take_while(|(_, v)| *v == 0.0).last().map_or("-".into(), |(x, _)| format!("{x}"));
        println!("{:<4} {:>46} {:>5}", RATES[rate], longest(&outages[rate][0]), longest(&outages[rate][1]));
    }
    // A curve is drawn to where nothing was lost any more.
    outages.iter_mut().flatten().for_each(|curve: &mut Curve| curve.reverse());
    println!();
    println!("rate  lost at random | packets  lost, without marks  with | of these given wrong, without  with");
    for rate in 0..5u8 {
        let lost = LOSSES[rate as usize];
        let tallies = measure_losses(rate, lost, None);
        println!(
            "{:<4} {lost:15} | {:7} {:20} {:5} | {:29} {:5}",
            RATES[rate as usize], tallies[0].packets, tallies[0].lost, tallies[1].lost, tallies[0].never_sent, tallies[1].never_sent
        );
    }
    std::fs::write(path, picture(&errors, &losses, &outages, &wrong))
}
