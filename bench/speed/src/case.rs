use baseline::{Draft, FixedLink, Interrupted, Quantum, Ready, Refusal, Shelf, Tree};
use tracegen::Rng;

/// A tree and who submits to it. Both sides get it as bytes.
pub struct Case {
    pub name: &'static str,
    /// Parent and weight of each class from 1 on.
    pub tree: Vec<u8>,
    /// Leaves in the order in which they get items.
    pub order: Vec<u8>,
    /// All leaves stay backlogged; else one item at a time comes and goes.
    pub refill: bool,
}

/// One less than what each submission costs, in turn.
pub fn costs() -> Vec<u8> {
    let mut rng = Rng::new(7);
    (0..1_021).map(|_| rng.random() as u8).collect()
}

/// Every tree under both loads.
pub fn cases() -> Vec<Case> {
    let trees = [
        ("2 flat", flat(2)),
        ("8 flat", flat(8)),
        ("63 flat", flat(63)),
        ("8 at depth 7", forks()),
        ("57 at depth 7", fan()),
    ];
    let mut cases = Vec::new();
    for refill in [true, false] {
        for (name, parents) in &trees {
            cases.push(Case::new(name, parents, refill));
        }
    }
    cases
}

impl Case {
    fn new(name: &'static str, parents: &[u8], refill: bool) -> Self {
        let classes = 1..=parents.len() as u8;
        let leaves: Vec<u8> = classes.filter(|class| !parents.contains(class)).collect();
        let weights = (0..parents.len()).map(|i| 1 + (i * 7 % 16) as u8);
        let tree = parents.iter().zip(weights).flat_map(|(parent, weight)| [*parent, weight]).collect();
        let order = if refill { leaves.repeat(4) } else { scattered(&leaves) };
        Case { name, tree, order, refill }
    }
}

/// All classes under the root.
fn flat(count: usize) -> Vec<u8> {
    vec![0; count]
}

/// Three forks, then chains: 8 leaves, each at depth 7.
fn forks() -> Vec<u8> {
    let forks = (1..15).map(|class| (class - 1) / 2);
    let chains = (15..15 + 4 * 8).map(|class| class - 8);
    forks.chain(chains).collect()
}

/// A chain of six classes with 57 leaves under the last.
fn fan() -> Vec<u8> {
    (1..=63).map(|class: u8| class.min(7) - 1).collect()
}

/// Leaves at random, many times over.
fn scattered(leaves: &[u8]) -> Vec<u8> {
    let mut rng = Rng::new(11);
    (0..1_009).map(|_| rng.pick(leaves)).collect()
}

/// The baseline's side of the function `bench_turns`, said in crate `ours`.
pub fn turns<R: Ready>(case: &Case, costs: &[u8], turns: u32) -> u64 {
    Bench::<R>::new(case, costs).and_then(|bench| bench.run(turns)).unwrap_or(0)
}

struct Bench<'a, R> {
    case: &'a Case,
    costs: &'a [u8],
    next_cost: usize,
    tree: Tree<R>,
    shelf: Shelf<Quantum>,
    link: Interrupted<FixedLink>,
}

impl<'a, R: Ready> Bench<'a, R> {
    fn new(case: &'a Case, costs: &'a [u8]) -> Result<Self, Refusal> {
        let mut draft = Draft::new(1);
        for (i, class) in case.tree.chunks_exact(2).enumerate() {
            let number = 1 + i as u8;
            draft.add(class[0], class[1].into(), &[b'0' + number / 10, b'0' + number % 10])?;
        }
        let link = Interrupted::new(FixedLink::new(65_535)?);
        Ok(Bench { case, costs, next_cost: 0, tree: draft.open(), shelf: Shelf::new(256), link })
    }

    fn run(mut self, turns: u32) -> Result<u64, Refusal> {
        let order = &self.case.order;
        let mut sum = 1;
        if self.case.refill {
            for class in order {
                self.submit(*class)?;
            }
            let mut class = order[0];
            for _ in 0..turns {
                (class, sum) = self.turn(class, sum)?;
            }
        } else {
            for class in order.iter().cycle().take(turns as usize) {
                (_, sum) = self.turn(*class, sum)?;
            }
        }
        Ok(sum)
    }

    /// A whole turn; answers the class served and the sum with its answers.
    fn turn(&mut self, class: u8, sum: u64) -> Result<(u8, u64), Refusal> {
        self.submit(class)?;
        let turn = self.tree.dispatch(&self.shelf)?;
        let work = self.tree.pulse(&turn.grant, &mut self.link)?;
        let charge = self.tree.end(turn.grant, &mut self.shelf).map_err(|(refusal, _)| refusal)?;
        let answers = u64::from(turn.class) * 1_024 + u64::from(turn.cost) + u64::from(work) + u64::from(charge);
        Ok((turn.class, (sum * 31 + answers) % 1_000_000_007))
    }

    fn submit(&mut self, class: u8) -> Result<(), Refusal> {
        let time = 1 + u32::from(self.costs[self.next_cost]);
        self.next_cost = (self.next_cost + 1) % self.costs.len();
        self.tree.submit(&mut self.shelf, class, Quantum { task: 0, time })
    }
}

#[cfg(test)]
mod tests {
    use super::*;
    use baseline::{HeapSet, TreeSet};

    fn depths(parents: &[u8]) -> Vec<u8> {
        let mut depths = vec![0u8];
        for parent in parents {
            depths.push(depths[usize::from(*parent)] + 1);
        }
        depths
    }

    #[test]
    fn the_trees_are_as_named() {
        for (parents, leaves, depth) in [(flat(63), 63, 1), (forks(), 8, 7), (fan(), 57, 7)] {
            let case = Case::new("", &parents, true);
            let depths = depths(&parents);
            assert!(case.order.iter().all(|leaf| depths[usize::from(*leaf)] == depth));
            assert_eq!(case.order.len(), 4 * leaves);
        }
    }

    #[test]
    fn no_call_is_refused_and_both_sets_agree() {
        let costs = costs();
        for case in cases() {
            let sum = turns::<TreeSet>(&case, &costs, 3_000);
            assert_ne!(sum, 0, "{}", case.name);
            assert_eq!(sum, turns::<HeapSet>(&case, &costs, 3_000), "{}", case.name);
        }
    }

    /// One leaf and costs of 1: class 1, then 1 unit three times: 1 × 31 + 1,024 + 3, and again.
    #[test]
    fn the_sum_is_as_said() {
        let case = Case::new("", &flat(1), false);
        assert_eq!(turns::<TreeSet>(&case, &[0], 0), 1);
        assert_eq!(turns::<TreeSet>(&case, &[0], 1), 1_058);
        assert_eq!(turns::<TreeSet>(&case, &[0], 2), 1_058 * 31 + 1_027);
    }
}
