use crate::rng::Rng;

pub const MAX_CLASSES: u64 = 64;
const MAX_DEPTH: u32 = 7;

/// What stands before the events: the kind of items, the class tree and the link.
#[derive(Debug)]
pub struct Plan {
    kind: &'static str,
    /// By number; the root first.
    pub classes: Vec<Class>,
    pub rate: u32,
    outages: Vec<(u32, u32)>,
    pub costs: Costs,
}

#[derive(Debug)]
pub struct Class {
    pub name: String,
    parent: usize,
    depth: u32,
    weight: u32,
    pub leaf: bool,
}

/// What items cost.
#[derive(Clone, Copy, Debug)]
pub enum Costs {
    /// All the same, so that tags tie.
    Equal(u32),
    UpTo(u32),
}

impl Costs {
    pub fn most(self) -> u32 {
        match self {
            Costs::Equal(cost) | Costs::UpTo(cost) => cost,
        }
    }

    pub fn one(self, rng: &mut Rng) -> u32 {
        match self {
            Costs::Equal(cost) => cost,
            Costs::UpTo(cost) => rng.between(1, cost.into()) as u32,
        }
    }
}

/// How the next class finds its parent.
#[derive(Clone, Copy)]
enum Shape {
    Flat,
    Chain,
    Random,
    /// Under one of the first few classes.
    Bushy,
    /// A chain down to depth 6, then all leaves at depth 7.
    Deep,
}

impl Plan {
    pub fn new(rng: &mut Rng) -> Self {
        let most = match rng.below(6) {
            0 => 1,
            1 => 65_535,
            2 => rng.between(1, 65_535) as u32,
            3 => rng.between(1, 1_000) as u32,
            _ => rng.between(1, 12) as u32,
        };
        let costs = if rng.chance(35) { Costs::Equal(most) } else { Costs::UpTo(most) };
        let rate = match rng.below(6) {
            0 => rng.between(1, 65_535) as u32,
            1 => 1,
            2 => 65_535,
            _ => most.div_ceil(rng.between(1, 4) as u32),
        };
        Plan { kind: rng.pick(&["quantum", "block"]), classes: classes(rng), rate, outages: outages(rng), costs }
    }

    pub fn lines(&self) -> Vec<Vec<u8>> {
        let mut lines = vec![format!("sfq1 {}", self.kind)];
        for class in &self.classes[1..] {
            lines.push(format!("c {} {} {}", class.name, self.classes[class.parent].name, class.weight));
        }
        lines.push(format!("l {}", self.rate));
        for (offset, length) in &self.outages {
            lines.push(format!("o {offset} {length}"));
        }
        lines.into_iter().map(String::into_bytes).collect()
    }
}

fn classes(rng: &mut Rng) -> Vec<Class> {
    let count = match rng.below(20) {
        0 => 1,
        1..=5 => rng.between(2, 4),
        6..=13 => rng.between(5, 16),
        14..=17 => rng.between(17, MAX_CLASSES - 1),
        _ => MAX_CLASSES,
    } as usize;
    let shape = rng.pick(&[Shape::Flat, Shape::Chain, Shape::Random, Shape::Random, Shape::Bushy, Shape::Deep]);
    let weights: &[u32] = rng.pick(&[&[1][..], &[16], &[1, 16], &[1, 2, 3], &ALL_WEIGHTS]);
    let root = Class { name: "root".into(), parent: 0, depth: 0, weight: 1, leaf: true };
    let mut classes = vec![root];
    while classes.len() < count {
        let parent = parent(rng, shape, &classes);
        classes[parent].leaf = false;
        let depth = classes[parent].depth + 1;
        let name = name(rng, &classes);
        classes.push(Class { name, parent, depth, weight: rng.pick(weights), leaf: true });
    }
    classes
}

const ALL_WEIGHTS: [u32; 16] = [1, 2, 3, 4, 5, 6, 7, 8, 9, 10, 11, 12, 13, 14, 15, 16];

/// A class that may have a child, its depth being below the greatest.
fn parent(rng: &mut Rng, shape: Shape, classes: &[Class]) -> usize {
    let last = classes.len() - 1;
    let wanted = match shape {
        Shape::Flat => 0,
        Shape::Chain if rng.chance(85) => last,
        Shape::Chain | Shape::Random => rng.index(classes.len()),
        Shape::Bushy => rng.index(classes.len().min(6)),
        Shape::Deep => last.min(6),
    };
    if classes[wanted].depth < MAX_DEPTH { wanted } else { rng.index(classes.len().min(MAX_DEPTH as usize)) }
}

/// A name that is not taken; some look like other words of a trace.
fn name(rng: &mut Rng, classes: &[Class]) -> String {
    const WORDS: [&str; 15] =
        ["a", "c", "d", "e", "g", "l", "o", "p", "s", "0", "1", "sfq1", "quantum", "block", "rooted"];
    loop {
        let name = match rng.below(4) {
            0 => rng.pick(&WORDS).to_string(),
            1 => format!("c{}", classes.len()),
            2 => word(rng, 8),
            _ => {
                let len = rng.between(1, 8) as usize;
                word(rng, len)
            }
        };
        if classes.iter().all(|class| class.name != name) {
            return name;
        }
    }
}

/// A random word of that length.
pub fn word(rng: &mut Rng, len: usize) -> String {
    const BYTES: &[u8; 36] = b"abcdefghijklmnopqrstuvwxyz0123456789";
    (0..len).map(|_| char::from(rng.pick(BYTES))).collect()
}

fn outages(rng: &mut Rng) -> Vec<(u32, u32)> {
    let count = match rng.below(6) {
        0 | 1 => 0,
        2 | 3 => rng.between(1, 3),
        4 => rng.between(4, 15),
        _ => 16,
    };
    let spread = rng.pick(&[1, 4, 40]);
    let mut end = 0;
    let mut outages: Vec<(u32, u32)> = Vec::new();
    for _ in 0..count {
        let offset = end + rng.below(spread) as u32;
        let length = rng.between(1, spread) as u32;
        outages.push((offset, length));
        end = offset + length;
    }
    if let Some(last) = outages.last_mut()
        && rng.chance(10)
    {
        *last = if rng.chance(50) { (u32::MAX - 1, 1) } else { (last.0, u32::MAX - last.0) };
    }
    outages
}
