//! The channel between a sender and a reader: QPSK points with white Gaussian
//! noise of a given Eb/N0, symbols that are lost, and bursts. All of it comes
//! from a seeded generator. And what a demodulator makes of them: the first
//! symbols are missed, the constellation is turned, some symbols are left out or
//! come twice, and the carrier slips by quarter turns.
//!
//! A bit 0 is sent as +1.0 and a bit 1 as -1.0, I and Q alike, which is what
//! document 02, P8, calls a point that is sure. So a symbol has the energy
//! Es = 1 + 1 = 2. It carries two coded bits, of which the inner code of rate r
//! makes 2 r bits and the outer code 2 r 188/204 useful ones (EN 300 421, table 3:
//! "Eb/N0 refer to the useful bit-rate before RS coding"):
//!
//! | Rate | r | useful bits of a symbol | Es/N0 less Eb/N0 |
//! |---|---|---|---|
//! | 0 | 1/2 | 0.9216 | -0.35 dB |
//! | 1 | 2/3 | 1.2288 | 0.89 dB |
//! | 2 | 3/4 | 1.3824 | 1.41 dB |
//! | 3 | 5/6 | 1.5359 | 1.86 dB |
//! | 4 | 7/8 | 1.6127 | 2.08 dB |
//!
//! Noise of the density N0 has the variance N0/2 in each of I and Q, so
//!
//! sigma^2 = N0/2 = Es / (2 u 10^(EbN0/10)) = 1 / (u 10^(EbN0/10))
//!
//! where u are the useful bits of a symbol. 16QAM 3/4 of EN 301 210 has u = 3 188/204
//! = 2.7647; its constellation belongs to the modulator, and nothing here reads it.
//!
//! Why 1.0: the seven thresholds of P8 stand at multiples of 0.25 up to 0.75. A
//! decoder of eight levels does best where they are about 0.6 of a sigma apart. At
//! the Eb/N0 where 2e-4 is reached, sigma is 0.67 at rate 1/2 and 0.41 at 7/8, so
//! that 0.25 is 0.37 and 0.61 of it. Amplitudes from 0.5 to 2 were tried: the best is
//! 0.6 at 1/2, 0.8 at 3/4 and 1.0 at 7/8, and 1.0 costs a tenth of a dB at 1/2. A
//! demodulator with a gain of its own may have that too.

use crate::xorshift::Xorshift;
use std::f64::consts::TAU;

/// A received point, I and Q. Both are NaN where the symbol was lost.
pub type Point = (f32, f32);

pub const LOST: Point = (f32::NAN, f32::NAN);

/// The code rate of the inner code.
pub fn code_rate(rate: u8) -> f64 {
    [1.0 / 2.0, 2.0 / 3.0, 3.0 / 4.0, 5.0 / 6.0, 7.0 / 8.0][rate as usize]
}

/// How many useful bits, before the outer code, a QPSK symbol carries.
pub fn useful_bits(rate: u8) -> f64 {
    2.0 * code_rate(rate) * 188.0 / 204.0
}

/// The standard deviation of the noise in I, and in Q, at an Eb/N0 in dB.
pub fn sigma(rate: u8, eb_n0: f64) -> f64 {
    (1.0 / (useful_bits(rate) * 10f64.powf(eb_n0 / 10.0))).sqrt()
}

/// The point that is sent for a symbol 2 I + Q.
pub fn sent(symbol: u8) -> Point {
    let amplitude = |bit: u8| if bit == 0 { 1.0 } else { -1.0 };
    (amplitude(symbol / 2), amplitude(symbol % 2))
}

/// The symbol that a point is by hard decisions: a bit is 1 where its number is
/// below 0. A lost symbol is decided too, as 0: hard decisions cannot leave one open.
pub fn decided(point: Point) -> u8 {
    2 * u8::from(point.0 < 0.0) + u8::from(point.1 < 0.0)
}

/// Of every `period` symbols the last `length` are a burst: noise alone, or an outage, where they are lost.
#[derive(Clone, Copy)]
pub struct Bursts {
    pub period: u64,
    pub length: u64,
    pub lost: bool,
}

pub struct Channel {
    random: Xorshift,
    sigma: f64,
    lost: f64,
    bursts: Option<Bursts>,
    symbols: u64,
}

impl Channel {
    /// `lost` is the probability that a symbol is lost.
    pub fn new(seed: u64, sigma: f64, lost: f64, bursts: Option<Bursts>) -> Self {
        Channel { random: Xorshift::new(seed), sigma, lost, bursts, symbols: 0 }
    }

    /// A number from 0 up to 1, never 1.
    fn uniform(&mut self) -> f64 {
        (self.random.next() >> 11) as f64 / (1u64 << 53) as f64
    }

    /// Two independent normal numbers (Box and Muller).
    fn normal(&mut self) -> (f64, f64) {
        let radius = (-2.0 * (1.0 - self.uniform()).ln()).sqrt();
        let (sin, cos) = (TAU * self.uniform()).sin_cos();
        (radius * cos, radius * sin)
    }

    /// The point that is received for a symbol. A burst is noise of the power of
    /// signal and noise together.
    pub fn receive(&mut self, symbol: u8) -> Point {
        let at = self.symbols;
        self.symbols += 1;
        let (a, b) = self.normal();
        if self.lost > 0.0 && self.uniform() < self.lost {
            return LOST;
        }
        if let Some(burst) = self.bursts.filter(|b| at % b.period >= b.period - b.length) {
            if burst.lost {
                return LOST;
            }
            let power = (1.0 + self.sigma * self.sigma).sqrt();
            return ((power * a) as f32, (power * b) as f32);
        }
        let (i, q) = sent(symbol);
        ((f64::from(i) + self.sigma * a) as f32, (f64::from(q) + self.sigma * b) as f32)
    }
}

/// A point turned: there are eight turns, of which 4 to 7 are mirrored, -Q for Q, before the quarter turns.
pub fn turned(turn: u8, (i, q): Point) -> Point {
    let (mut i, mut q) = (i, if turn >= 4 { -q } else { q });
    for _ in 0..turn % 4 {
        (i, q) = (-q, i);
    }
    (i, q)
}

/// What happens from a symbol on.
#[derive(Clone, Copy)]
pub enum Slip {
    /// So many symbols do not come.
    LeftOut(u64),
    /// So many symbols come twice each.
    Doubled(u64),
    /// All symbols are turned by so many quarter turns more.
    Turned(u8),
}

/// A demodulator that begins anywhere and slips. Symbols are counted as they were sent.
pub struct Demodulator {
    turn: u8,
    slips: Vec<(u64, Slip)>,
    symbols: u64,
    left_out: u64,
    doubled: u64,
}

impl Demodulator {
    /// It misses the first symbols, `cut` of them.
    pub fn new(cut: u64, turn: u8, slips: Vec<(u64, Slip)>) -> Self {
        Demodulator { turn, slips, symbols: 0, left_out: cut, doubled: 0 }
    }

    /// Up to 4,095 symbols missed, and one of the eight turns, by the seed.
    pub fn anywhere(seed: u64) -> (u64, u8) {
        let mut random = Xorshift::new(!seed);
        (random.below(4096) as u64, random.below(8) as u8)
    }

    /// How often the next symbol comes: not, once or twice.
    pub fn copies(&mut self) -> usize {
        for (_, slip) in self.slips.iter().filter(|(at, _)| *at == self.symbols) {
            match *slip {
                Slip::LeftOut(many) => self.left_out += many,
                Slip::Doubled(many) => self.doubled += many,
                Slip::Turned(quarters) => self.turn = self.turn / 4 * 4 + (self.turn + quarters) % 4,
            }
        }
        self.symbols += 1;
        let copies = if self.left_out > 0 { 0 } else if self.doubled > 0 { 2 } else { 1 };
        self.left_out = self.left_out.saturating_sub(1);
        self.doubled = self.doubled.saturating_sub(u64::from(copies == 2));
        copies
    }

    /// A point of the symbol that came last.
    pub fn turned(&self, point: Point) -> Point {
        turned(self.turn, point)
    }
}

/// The points that a demodulator gives for symbols that went through a channel. Symbols that do not come have no noise.
pub fn demodulated(symbols: &[u8], channel: &mut Channel, demodulator: &mut Demodulator) -> Vec<Point> {
    let mut points = Vec::with_capacity(symbols.len());
    for &symbol in symbols {
        for _ in 0..demodulator.copies() {
            points.push(demodulator.turned(channel.receive(symbol)));
        }
    }
    points
}

/// A point as GNU Radio's files of complex floats have it: I, then Q, little endian.
pub fn to_bytes(point: Point) -> [u8; 8] {
    let mut bytes = [0; 8];
    bytes[..4].copy_from_slice(&point.0.to_le_bytes());
    bytes[4..].copy_from_slice(&point.1.to_le_bytes());
    bytes
}

/// The point of eight such bytes.
pub fn from_bytes(bytes: &[u8]) -> Point {
    let number = |at: usize| f32::from_le_bytes([bytes[at], bytes[at + 1], bytes[at + 2], bytes[at + 3]]);
    (number(0), number(4))
}

#[cfg(test)]
mod tests {
    use super::*;

    #[test]
    fn noise_has_its_variance() {
        let wanted = sigma(0, 4.5);
        let mut channel = Channel::new(1, wanted, 0.0, None);
        let count = 200_000;
        let squares: f64 = (0..count)
            .map(|_| {
                let (i, q) = channel.receive(1);
                f64::from(i - 1.0).powi(2) + f64::from(q + 1.0).powi(2)
            })
            .sum();
        let got = (squares / (2 * count) as f64).sqrt();
        assert!((got / wanted - 1.0).abs() < 0.01, "{got} for {wanted}");
    }

    #[test]
    fn uncoded_errors_are_those_of_theory() {
        // Q(1 / sigma) of the hard decisions on I and Q are wrong: 0.0228 at sigma 0.5.
        let mut channel = Channel::new(2, 0.5, 0.0, None);
        let wrong = (0..200_000).filter(|_| channel.receive(0).0 < 0.0).count();
        assert!((wrong as f64 / 200_000.0 - 0.02275).abs() < 0.0015, "{wrong}");
    }

    #[test]
    fn losses_and_bursts() {
        let mut channel = Channel::new(3, 0.0, 0.25, Some(Bursts { period: 10, length: 2, lost: false }));
        let points: Vec<Point> = (0..100_000).map(|_| channel.receive(3)).collect();
        let lost = points.iter().filter(|p| p.0.is_nan() && p.1.is_nan()).count();
        assert!((lost as f64 / 100_000.0 - 0.25).abs() < 0.01, "{lost}");
        for (at, point) in points.iter().enumerate() {
            assert!(at % 10 >= 8 || point.0.is_nan() || *point == (-1.0, -1.0));
        }
        assert!((0..100_000).any(|at| at % 10 >= 8 && points[at].0 > 0.0));
    }

    #[test]
    fn outages() {
        let mut channel = Channel::new(5, 0.2, 0.0, Some(Bursts { period: 10, length: 3, lost: true }));
        for at in 0..1000 {
            let (i, q) = channel.receive(2);
            assert!(i.is_nan() == (at % 10 >= 7) && q.is_nan() == i.is_nan());
        }
    }

    #[test]
    fn turns() {
        assert_eq!((0..8).map(|t| turned(t, (2.0, 1.0))).collect::<Vec<Point>>(), [
            (2.0, 1.0), (-1.0, 2.0), (-2.0, -1.0), (1.0, -2.0), (2.0, -1.0), (1.0, 2.0), (-2.0, 1.0), (-1.0, -2.0),
        ]);
    }

    #[test]
    fn slips() {
        // Symbols 0 and 1 are missed, 4 to 6 are left out, 8 comes twice, from 10 on all is turned by a half.
        let slips = vec![(4, Slip::LeftOut(3)), (8, Slip::Doubled(1)), (10, Slip::Turned(2))];
        let mut demodulator = Demodulator::new(2, 5, slips);
        let mut came = Vec::new();
        for at in 0..12 {
            let copies = demodulator.copies();
            came.extend((0..copies).map(|_| (at, demodulator.turned((2.0, 1.0)))));
        }
        let (before, after) = (turned(5, (2.0, 1.0)), turned(7, (2.0, 1.0)));
        let want = [(2, before), (3, before), (7, before), (8, before), (8, before), (9, before), (10, after), (11, after)];
        assert_eq!(came, want);
    }

    #[test]
    fn same_seed_same_noise() {
        let mut one = Channel::new(4, 0.3, 0.1, None);
        let mut other = Channel::new(4, 0.3, 0.1, None);
        for symbol in [0, 1, 2, 3].iter().cycle().take(1000) {
            assert_eq!(to_bytes(one.receive(*symbol)), to_bytes(other.receive(*symbol)));
        }
    }
}
