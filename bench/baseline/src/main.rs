//! Plays the trace on standard input and writes its listing to standard output.

use std::io::{self, Read, Write};

use baseline::trace::MAX_BYTES;

fn main() -> io::Result<()> {
    let mut input = Vec::new();
    io::stdin().take(MAX_BYTES as u64 + 1).read_to_end(&mut input)?;
    io::stdout().write_all(&baseline::play(&input))
}
