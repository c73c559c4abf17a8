//! Acquisition by the reference: what `dvbs_lock` gives, lines and status too.
//!
//!   lock RATE | any | bits < points-or-bytes > packets

use reference::acquisition::{lock, lock_bits};
use std::io::{Read, Write};

fn main() -> std::io::Result<()> {
    let word = std::env::args().nth(1).unwrap_or_default();
    let rate: Option<u8> = word.parse().ok().filter(|rate| *rate < 5);
    if rate.is_none() && word != "any" && word != "bits" {
        eprintln!("usage: lock RATE | any | bits, RATE 0 to 4");
        std::process::exit(2);
    }
    let mut input = Vec::new();
    std::io::stdin().lock().read_to_end(&mut input)?;
    let told = if word == "bits" { lock_bits(&input) } else { lock(rate, &input) };
    std::io::stdout().lock().write_all(&told.packets)?;
    eprint!("{}", told.text);
    std::process::exit(told.status)
}
