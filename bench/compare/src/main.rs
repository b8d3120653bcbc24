//! Plays random traces by the baseline and by another player, and tells the first difference.

mod minimise;
mod player;
mod tally;

use std::path::PathBuf;
use std::process::ExitCode;

use minimise::minimise;
use player::{Answer, Player, Program};
use tally::Tally;

const USAGE: &str = "usage: compare [--count N] [--first KEY] [--valid | --damaged] [--tally] [--keep FILE] PROGRAM
   or, built with the feature `linked`, --linked in place of PROGRAM";

struct Options {
    count: u64,
    first: u64,
    make: fn(u64) -> Vec<u8>,
    tally: bool,
    keep: PathBuf,
    player: Box<dyn Player>,
}

fn main() -> ExitCode {
    let Some(mut options) = options() else {
        eprintln!("{USAGE}");
        return ExitCode::from(2);
    };
    let mut tally = Tally::default();
    for key in options.first..options.first.saturating_add(options.count) {
        let trace = (options.make)(key);
        let expected = baseline::play(&trace);
        tally.count(&expected);
        if options.player.play(&trace) != Answer::Listing(expected) {
            tell(key, &trace, &mut options);
            return ExitCode::FAILURE;
        }
    }
    if options.tally {
        print!("{tally}");
    }
    println!("{} traces, 0 differences", options.count);
    ExitCode::SUCCESS
}

fn options() -> Option<Options> {
    let mut count = 1_000;
    let mut first = 0;
    let mut make: fn(u64) -> Vec<u8> = tracegen::trace;
    let mut tally = false;
    let mut keep = std::env::temp_dir().join("difference.trace");
    let mut player: Option<Box<dyn Player>> = None;
    let mut args = std::env::args().skip(1);
    while let Some(arg) = args.next() {
        match arg.as_str() {
            "--count" => count = args.next()?.parse().ok()?,
            "--first" => first = args.next()?.parse().ok()?,
            "--valid" => make = tracegen::valid,
            "--damaged" => make = tracegen::damaged,
            "--tally" => tally = true,
            "--keep" => keep = args.next()?.into(),
            #[cfg(feature = "linked")]
            "--linked" => player = Some(Box::new(player::Linked::new())),
            path if !path.starts_with("--") => player = Some(Box::new(Program(path.into()))),
            _ => return None,
        }
    }
    Some(Options { count, first, make, tally, keep, player: player? })
}

/// Makes the trace shorter as long as the answers differ, then shows and keeps it.
fn tell(key: u64, trace: &[u8], options: &mut Options) {
    let player = &mut options.player;
    let least = minimise(trace, |trace| player.play(trace) != Answer::Listing(baseline::play(trace)));
    println!("key {key}: the answers differ, also for this trace:");
    for line in least.split_inclusive(|b| *b == b'\n') {
        println!("    {}", line.escape_ascii());
    }
    let expected = baseline::play(&least);
    match player.play(&least) {
        Answer::Listing(listing) => {
            let (line, ours, theirs) = first_difference(&expected, &listing);
            println!("line {line} of the baseline's listing: {ours}");
            println!("line {line} of the other's:            {theirs}");
        }
        Answer::Failed(why) => println!("{why}"),
    }
    match std::fs::write(&options.keep, &least) {
        Ok(()) => println!("kept in {}", options.keep.display()),
        Err(error) => println!("not kept in {}: {error}", options.keep.display()),
    }
}

/// The number of the first line in which two listings differ, and both lines.
fn first_difference(a: &[u8], b: &[u8]) -> (usize, String, String) {
    let line = |text: &[u8], i: usize| match text.split_inclusive(|b| *b == b'\n').nth(i) {
        Some(line) => line.escape_ascii().to_string(),
        None => "none".into(),
    };
    let lines = a.split_inclusive(|b| *b == b'\n').zip(b.split_inclusive(|b| *b == b'\n'));
    let i = lines.take_while(|(x, y)| x == y).count();
    (i + 1, line(a, i), line(b, i))
}

#[cfg(test)]
mod tests {
    use super::*;
    use baseline::{HeapSet, Ready, play_into};
    use std::cmp::Reverse;
    use std::collections::BTreeSet;

    fn play_with<R: Ready>(trace: &[u8]) -> Vec<u8> {
        let mut out = Vec::new();
        play_into::<R>(trace, &mut out);
        out
    }

    #[test]
    fn both_sets_of_the_baseline_answer_alike() {
        for key in 0..1_500 {
            let trace = tracegen::trace(key);
            assert!(baseline::play(&trace) == play_with::<HeapSet>(&trace), "key {key}");
        }
    }

    #[test]
    fn valid_traces_have_no_fault() {
        for key in 0..600 {
            assert_ne!(baseline::play(&tracegen::valid(key))[0], b'!', "key {key}");
        }
    }

    /// Every answer that a trace can bring about comes up.
    #[test]
    fn random_traces_meet_every_refusal_and_fault() {
        let mut tally = Tally::default();
        for key in 0..3_000 {
            tally.count(&baseline::play(&tracegen::trace(key)));
        }
        let answers =
            ["a 0", "a 1", "a 2", "a 3", "a 5", "d 0", "d 6", "d 7", "p 0", "p 9", "e 0", "e 9", "e 10", "g 0", "g 9"];
        let faults = [
            "! text 0 19",
            "! text 0 20",
            "! text 0 21",
            "! text 0 22",
            "! tree 0 11",
            "! tree 3 12",
            "! tree 4 13",
            "! tree 2 14",
            "! tree 2 15",
            "! tree 3 16",
            "! link 0 17",
            "! link 2 18",
        ];
        for answer in answers.iter().chain(&faults) {
            assert!(tally.of(answer) >= 3, "{answer}: {}", tally.of(answer));
        }
        assert_eq!(tally.kinds(), answers.len() + faults.len());
    }

    /// A set that has the tie the wrong way.
    #[derive(Default)]
    struct HighestNumber(BTreeSet<(u64, Reverse<u8>)>);

    impl Ready for HighestNumber {
        fn put(&mut self, (tag, class): (u64, u8)) {
            self.0.insert((tag, Reverse(class)));
        }

        fn least(&self) -> Option<(u64, u8)> {
            self.0.first().map(|(tag, class)| (*tag, class.0))
        }

        fn take(&mut self, (tag, class): (u64, u8)) {
            self.0.remove(&(tag, Reverse(class)));
        }

        fn retag(&mut self, child: (u64, u8), tag: u64) {
            self.take(child);
            self.put((tag, child.1));
        }
    }

    /// Two submissions and a dispatch show it; of the other lines those stay that these need.
    #[test]
    fn a_wrong_tie_is_found_and_shown_by_three_events() {
        let differs = |trace: &[u8]| baseline::play(trace) != play_with::<HighestNumber>(trace);
        let trace = (0..100).map(tracegen::trace).find(|trace| differs(trace)).expect("a difference");
        let least = minimise(&trace, differs);
        let letters = least.split(|b| *b == b'\n').filter_map(|line| line.first().copied());
        let events: Vec<u8> = letters.filter(|letter| b"adpeg".contains(letter)).collect();
        assert_eq!(events, b"aad", "{}", least.escape_ascii());
    }

    #[test]
    fn the_first_differing_line_is_told() {
        assert_eq!(first_difference(b"a 0\nd 7\n", b"a 0\nd 6\n"), (2, "d 7\\n".into(), "d 6\\n".into()));
        assert_eq!(first_difference(b"a 0\n", b"a 0\nd 6\n"), (2, "none".into(), "d 6\\n".into()));
        assert_eq!(first_difference(b"a 0\n", b"a 0"), (1, "a 0\\n".into(), "a 0".into()));
    }
}
