//! Reads one job from standard input and writes its answers to standard output.

use std::io::{Read, Write};

fn main() -> std::io::Result<()> {
    let mut text = Vec::new();
    std::io::stdin().read_to_end(&mut text)?;
    std::io::stdout().write_all(zetesis_domain::Oracle::answer(&text).as_bytes())
}
