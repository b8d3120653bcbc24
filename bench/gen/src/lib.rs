//! Random traces, valid and damaged. A key always gives the same trace.

mod damage;
mod events;
mod plan;
mod rng;

pub use rng::Rng;

/// The longest trace that is not refused for its length.
pub const MAX_BYTES: usize = 32_768;

/// Valid or damaged, as the key has it.
pub fn trace(key: u64) -> Vec<u8> {
    if Rng::new(key ^ 0x7472_6163_6573).chance(60) { valid(key) } else { damaged(key) }
}

/// A trace of right form with acceptable classes and links. Its events may be refused, and many are.
pub fn valid(key: u64) -> Vec<u8> {
    let mut rng = Rng::new(key);
    let size = match rng.below(20) {
        0 => MAX_BYTES - rng.below(4) as usize,
        1..=3 => rng.between(4_000, 32_000) as usize,
        4..=8 => rng.between(700, 4_000) as usize,
        _ => rng.between(100, 700) as usize,
    };
    join(&lines(&mut rng, size))
}

/// A valid trace that was damaged in one to three ways, or bytes that never were a trace.
/// Some damage leaves a trace valid.
pub fn damaged(key: u64) -> Vec<u8> {
    let mut rng = Rng::new(key);
    if rng.chance(2) {
        return damage::noise(&mut rng);
    }
    let size = if rng.chance(10) { 8_000 } else { rng.between(60, 500) as usize };
    let mut lines = lines(&mut rng, size);
    let (in_lines, in_bytes) = rng.pick(&[(1, 0), (1, 0), (2, 0), (0, 1), (1, 1), (2, 1)]);
    for _ in 0..in_lines {
        damage::lines(&mut rng, &mut lines);
    }
    let mut bytes = join(&lines);
    for _ in 0..in_bytes {
        damage::bytes(&mut rng, &mut bytes);
    }
    bytes
}

/// The lines of a valid trace of about `size` bytes, more where classes take up most of it,
/// and exactly `size` where that is close to the limit.
fn lines(rng: &mut Rng, size: usize) -> Vec<Vec<u8>> {
    let plan = plan::Plan::new(rng);
    let mut lines = plan.lines();
    let used = length(&lines);
    let room = size.saturating_sub(used).max(size.min(800) / 2);
    lines.extend(events::events(rng, &plan, room));
    if size + 4 > MAX_BYTES {
        fill(&mut lines, size);
    }
    lines
}

/// Adds calls up to exactly `size` bytes, at least 9 more than there are.
fn fill(lines: &mut Vec<Vec<u8>>, size: usize) {
    let mut left = size - length(lines);
    if left % 2 == 1 {
        lines.push(b"a none 1".to_vec());
        left -= 9;
    }
    for i in 0..left / 2 {
        lines.push(vec![b"dpeg"[i % 4]]);
    }
}

/// Bytes of these lines with their ends.
fn length(lines: &[Vec<u8>]) -> usize {
    lines.iter().map(|line| line.len() + 1).sum()
}

fn join(lines: &[Vec<u8>]) -> Vec<u8> {
    let mut bytes = lines.join(&b'\n');
    bytes.push(b'\n');
    bytes
}

#[cfg(test)]
mod tests {
    use super::*;

    #[test]
    fn a_key_gives_one_trace() {
        for key in 0..50 {
            assert_eq!(trace(key), trace(key));
        }
        assert_ne!(valid(1), valid(2));
    }

    #[test]
    fn valid_traces_keep_within_the_limit_and_reach_it() {
        let sizes: Vec<usize> = (0..400).map(|key| valid(key).len()).collect();
        assert!(sizes.iter().all(|size| *size <= MAX_BYTES));
        assert!(sizes.contains(&MAX_BYTES));
        assert!(sizes.contains(&(MAX_BYTES - 1)));
    }
}
