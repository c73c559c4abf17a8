//! The season of the pass reports on standard input, by the reference.

use std::io::Read;

fn main() -> std::io::Result<()> {
    let mut text = Vec::new();
    std::io::stdin().read_to_end(&mut text)?;
    print!("{}", reference::season::season(&text));
    Ok(())
}
