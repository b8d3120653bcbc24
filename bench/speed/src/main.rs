//! Times whole turns and whole traces, for each contender on the same inputs, and compares what they answer.

mod case;
mod traces;

use std::hint::black_box;
use std::process::ExitCode;
use std::time::Instant;

use baseline::{HeapSet, Ready, TreeSet};
use case::{Case, cases, costs, turns};
use traces::{Sample, samples};

const TURNS: u32 = 20_000;
const RUNS: usize = 31;

/// One implementation under one choice of store.
struct Contender {
    name: &'static str,
    turns: fn(&Case, &[u8], u32) -> u64,
    /// Plays a trace into the beginning of a buffer and answers the bytes written.
    play: fn(&[u8], &mut Vec<u8>) -> usize,
}

fn contenders() -> Vec<Contender> {
    vec![
        Contender { name: "BTreeSet", turns: turns::<TreeSet>, play: play::<TreeSet> },
        Contender { name: "BinaryHeap", turns: turns::<HeapSet>, play: play::<HeapSet> },
        #[cfg(feature = "linked")]
        Contender { name: "ours, heap", turns: linked::heap, play: linked::play },
        #[cfg(feature = "linked")]
        Contender { name: "ours, list", turns: linked::sorted, play: linked::play },
    ]
}

fn play<R: Ready>(trace: &[u8], out: &mut Vec<u8>) -> usize {
    out.clear();
    baseline::play_into::<R>(trace, out);
    out.len()
}

#[cfg(feature = "linked")]
mod linked {
    use super::Case;
    use ours::Store;

    pub fn heap(case: &Case, costs: &[u8], turns: u32) -> u64 {
        ours::turns(Store::Heap, &case.tree, &case.order, costs, case.refill, turns)
    }

    pub fn sorted(case: &Case, costs: &[u8], turns: u32) -> u64 {
        ours::turns(Store::Sorted, &case.tree, &case.order, costs, case.refill, turns)
    }

    pub fn play(trace: &[u8], out: &mut Vec<u8>) -> usize {
        out.resize(ours::ROOM, 0);
        ours::play(trace, out).unwrap_or(0)
    }
}

/// What several runs of one contender took, in nanoseconds.
#[derive(Clone, Default)]
struct Times {
    /// Without the part that is measured.
    setup: Vec<f64>,
    whole: Vec<f64>,
}

impl Times {
    /// The shortest and the middle run, each less the shortest setup, in a given unit.
    fn cell(mut self, unit: f64) -> String {
        let setup = self.setup.into_iter().min_by(f64::total_cmp).unwrap_or(0.0);
        self.whole.sort_by(f64::total_cmp);
        let shortest = (self.whole[0] - setup) / unit;
        let middle = (self.whole[self.whole.len() / 2] - setup) / unit;
        format!("{shortest:.1} ({middle:.1})")
    }
}

fn main() -> ExitCode {
    let contenders = contenders();
    println!("Shortest (middle) of {RUNS} runs.\n");
    let all_agree = time_turns(&contenders) & time_traces(&contenders);
    if all_agree {
        println!("\nAll contenders gave the same answers.");
        ExitCode::SUCCESS
    } else {
        println!("\nTHE ANSWERS DIFFER where a row says so.");
        ExitCode::FAILURE
    }
}

/// Nanoseconds for submission, dispatch, pulse and ending together.
fn time_turns(contenders: &[Contender]) -> bool {
    heading("nanoseconds a turn", contenders);
    let costs = costs();
    let mut all_agree = true;
    for case in cases() {
        let sums: Vec<u64> = contenders.iter().map(|contender| (contender.turns)(&case, &costs, TURNS)).collect();
        let agree = sums.iter().all(|sum| *sum != 0 && *sum == sums[0]);
        let mut times = vec![Times::default(); contenders.len()];
        for _ in 0..RUNS {
            for (contender, times) in contenders.iter().zip(&mut times) {
                times.setup.push(nanoseconds(|| (contender.turns)(&case, &costs, 0)));
                times.whole.push(nanoseconds(|| (contender.turns)(&case, &costs, TURNS)));
            }
        }
        let load = if case.refill { "all backlogged" } else { "one at a time" };
        row(&format!("{}, {load}", case.name), times, f64::from(TURNS), agree);
        all_agree &= agree;
    }
    all_agree
}

/// Microseconds from the bytes of a trace to the bytes of its listing.
fn time_traces(contenders: &[Contender]) -> bool {
    println!();
    heading("microseconds a trace of 32 KB", contenders);
    let mut all_agree = true;
    for Sample { name, bytes } in samples() {
        let expected = baseline::play(&bytes);
        let mut outs = vec![Vec::new(); contenders.len()];
        let agree = contenders.iter().zip(&mut outs).all(|(contender, out)| {
            let len = (contender.play)(&bytes, out);
            out[..len] == expected
        });
        let mut times = vec![Times::default(); contenders.len()];
        for _ in 0..RUNS {
            for ((contender, times), out) in contenders.iter().zip(&mut times).zip(&mut outs) {
                times.whole.push(nanoseconds(|| (contender.play)(black_box(&bytes), out)));
            }
        }
        row(name, times, 1_000.0, agree);
        all_agree &= agree;
    }
    all_agree
}

fn nanoseconds<T>(run: impl FnOnce() -> T) -> f64 {
    let start = Instant::now();
    black_box(run());
    start.elapsed().as_nanos() as f64
}

fn heading(what: &str, contenders: &[Contender]) {
    print!("| {what:<30} |");
    contenders.iter().for_each(|contender| print!(" {:>15} |", contender.name));
    println!();
    print!("|:{}-|", "-".repeat(30));
    contenders.iter().for_each(|_| print!("-{}:|", "-".repeat(15)));
    println!();
}

fn row(name: &str, times: Vec<Times>, unit: f64, agree: bool) {
    print!("| {name:<30} |");
    times.into_iter().for_each(|times| print!(" {:>15} |", times.cell(unit)));
    println!("{}", if agree { "" } else { " DIFFERENT" });
}
