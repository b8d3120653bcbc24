use std::io::{Read, Write};
use std::path::PathBuf;
use std::process::{Child, Command, Stdio};
use std::sync::mpsc;
use std::thread;
use std::time::Duration;

/// A trace of the greatest length is played in far less.
const PATIENCE: Duration = Duration::from_secs(20);

#[derive(Debug, PartialEq, Eq)]
pub enum Answer {
    Listing(Vec<u8>),
    Failed(String),
}

/// Something that plays traces, to be held against the baseline.
pub trait Player {
    fn play(&mut self, trace: &[u8]) -> Answer;
}

/// A program that reads a trace from standard input and writes a listing to standard output.
pub struct Program(pub PathBuf);

impl Player for Program {
    fn play(&mut self, trace: &[u8]) -> Answer {
        let child = Command::new(&self.0).stdin(Stdio::piped()).stdout(Stdio::piped()).spawn();
        match child {
            Ok(child) => converse(child, trace),
            Err(error) => Answer::Failed(format!("{} does not start: {error}", self.0.display())),
        }
    }
}

/// Writes and reads at the same time, since either pipe may be full.
fn converse(mut child: Child, trace: &[u8]) -> Answer {
    let mut stdin = child.stdin.take().expect("piped");
    let mut stdout = child.stdout.take().expect("piped");
    let (done, listing) = mpsc::channel();
    thread::scope(|scope| {
        scope.spawn(move || {
            // A program may stop reading once a trace is too long.
            let _ = stdin.write_all(trace);
        });
        scope.spawn(move || {
            let mut bytes = Vec::new();
            let _ = stdout.read_to_end(&mut bytes);
            let _ = done.send(bytes);
        });
        let listing = listing.recv_timeout(PATIENCE);
        if listing.is_err() {
            let _ = child.kill();
        }
        let status = child.wait();
        match (listing, status) {
            (Ok(bytes), Ok(status)) if status.success() => Answer::Listing(bytes),
            (Ok(_), Ok(status)) => Answer::Failed(format!("the program ended with {status}")),
            (Ok(_), Err(error)) => Answer::Failed(format!("the program was lost: {error}")),
            (Err(_), _) => Answer::Failed(format!("no listing in {} seconds", PATIENCE.as_secs())),
        }
    })
}

/// The library in this process.
#[cfg(feature = "linked")]
pub struct Linked(Vec<u8>);

#[cfg(feature = "linked")]
impl Linked {
    pub fn new() -> Self {
        Linked(vec![0; ours::ROOM])
    }
}

#[cfg(feature = "linked")]
impl Player for Linked {
    fn play(&mut self, trace: &[u8]) -> Answer {
        match ours::play(trace, &mut self.0) {
            Some(len) if len <= self.0.len() => Answer::Listing(self.0[..len].to_vec()),
            Some(len) => Answer::Failed(format!("{len} bytes were written into {}", self.0.len())),
            None => Answer::Failed("the library did not answer".into()),
        }
    }
}

#[cfg(test)]
mod tests {
    use super::*;

    fn run(program: &str, trace: &[u8]) -> Answer {
        Program(program.into()).play(trace)
    }

    #[test]
    fn programs_that_answer_and_programs_that_fail() {
        assert_eq!(run("/bin/cat", b"d\np\n"), Answer::Listing(b"d\np\n".to_vec()));
        let long = vec![b'x'; 1 << 20]; // more than both pipes hold
        assert_eq!(run("/bin/cat", &long), Answer::Listing(long.clone()));
        assert_eq!(run("/bin/true", &long), Answer::Listing(Vec::new()));
        assert!(matches!(run("/bin/false", b""), Answer::Failed(_)));
        assert!(matches!(run("/no/such/program", b""), Answer::Failed(_)));
    }
}
