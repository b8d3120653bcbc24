//! Writes one random trace to standard output: `tracegen [valid|damaged] KEY`.

use std::io::{self, Write};
use std::process::ExitCode;

fn main() -> ExitCode {
    let args: Vec<String> = std::env::args().skip(1).collect();
    let words: Vec<&str> = args.iter().map(String::as_str).collect();
    let (make, key): (fn(u64) -> Vec<u8>, &str) = match words[..] {
        ["valid", key] => (tracegen::valid, key),
        ["damaged", key] => (tracegen::damaged, key),
        [key] => (tracegen::trace, key),
        _ => return usage(),
    };
    match key.parse() {
        Ok(key) if io::stdout().write_all(&make(key)).is_ok() => ExitCode::SUCCESS,
        Ok(_) => ExitCode::FAILURE,
        Err(_) => usage(),
    }
}

fn usage() -> ExitCode {
    eprintln!("usage: tracegen [valid|damaged] KEY");
    ExitCode::from(2)
}
