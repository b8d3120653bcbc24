use crate::item::Item;
use crate::link::Server;
use crate::ready::Ready;
use crate::refusal::Refusal;
use crate::shelf::{Shelf, check_cost};

pub const ROOT: u8 = 0;
pub const MAX_CLASSES: usize = 64;
pub const MAX_DEPTH: u8 = 7;
pub const MAX_WEIGHT: u32 = 16;

/// Parts in a unit of work at weight 1: the least number that each of 1 to 16 divides.
pub const PARTS: u64 = 720_720;

/// Neither the meter nor the number of turns passes this.
pub const METER_END: u64 = 1_000_000_000_000;

/// 1 to 8 bytes of a to z and 0 to 9, padded with zeros.
#[derive(Clone, Copy, Debug, PartialEq, Eq)]
pub struct Name([u8; 8]);

impl Name {
    const ROOT: Name = Name(*b"root\0\0\0\0");

    pub fn new(text: &[u8]) -> Option<Self> {
        let right = text.iter().all(|b| matches!(b, b'a'..=b'z' | b'0'..=b'9'));
        if !right || text.is_empty() || text.len() > 8 {
            return None;
        }
        let mut bytes = [0; 8];
        bytes[..text.len()].copy_from_slice(text);
        Some(Name(bytes))
    }

    pub fn as_bytes(&self) -> &[u8] {
        let len = self.0.iter().position(|b| *b == 0).unwrap_or(8);
        &self.0[..len]
    }
}

#[derive(Clone, Debug)]
struct Planned {
    name: Name,
    parent: u8,
    depth: u8,
    weight: u32,
    children: Vec<u8>,
}

/// A tree to which classes may still be added.
#[derive(Clone, Debug)]
pub struct Draft {
    house: u32,
    classes: Vec<Planned>,
}

impl Draft {
    pub fn new(house: u32) -> Self {
        let root = Planned { name: Name::ROOT, parent: ROOT, depth: 0, weight: 1, children: Vec::new() };
        Draft { house, classes: vec![root] }
    }

    /// Adds a class under `parent` and answers its number.
    pub fn add(&mut self, parent: u8, weight: u32, name: &[u8]) -> Result<u8, Refusal> {
        if self.classes.len() == MAX_CLASSES {
            return Err(Refusal::TooManyClasses);
        }
        let taken = self.find(name).is_some();
        let name = Name::new(name).ok_or(Refusal::BadName)?;
        if taken {
            return Err(Refusal::NameTaken);
        }
        let number = self.classes.len() as u8;
        let above = self.classes.get_mut(usize::from(parent)).ok_or(Refusal::UnknownParent)?;
        if above.depth == MAX_DEPTH {
            return Err(Refusal::TooDeep);
        }
        if !(1..=MAX_WEIGHT).contains(&weight) {
            return Err(Refusal::WeightOutOfRange);
        }
        above.children.push(number);
        let depth = above.depth + 1;
        self.classes.push(Planned { name, parent, depth, weight, children: Vec::new() });
        Ok(number)
    }

    /// The class of that name.
    pub fn find(&self, name: &[u8]) -> Option<u8> {
        let name = Name::new(name)?;
        self.classes.iter().position(|class| class.name == name).map(|number| number as u8)
    }

    pub fn open<R: Ready>(self) -> Tree<R> {
        Tree {
            house: self.house,
            classes: self.classes.into_iter().map(Class::opened).collect(),
            phase: Phase::Free,
            meter: 0,
            turns: 0,
        }
    }
}

#[derive(Debug)]
struct Class<R> {
    name: Name,
    parent: u8,
    /// What one unit of work comes to in parts.
    parts: u64,
    children: Vec<u8>,
    start: u64,
    finish: u64,
    virtual_time: u64,
    /// Items that wait in the lane; 0 for a class with children.
    queued: usize,
    /// The backlogged children.
    ready: R,
}

impl<R: Ready> Class<R> {
    fn opened(plan: Planned) -> Self {
        Class {
            name: plan.name,
            parent: plan.parent,
            parts: PARTS / u64::from(plan.weight),
            children: plan.children,
            start: 0,
            finish: 0,
            virtual_time: 0,
            queued: 0,
            ready: R::default(),
        }
    }

    fn is_backlogged(&self) -> bool {
        self.queued > 0 || !self.ready.is_empty()
    }
}

#[derive(Clone, Copy, Debug, PartialEq, Eq)]
enum Phase {
    Free,
    Open { leaf: u8, cost: u32, done: u32 },
}

/// The right to work on one turn and to close it.
#[must_use = "a turn stays open until its grant is ended or given up"]
#[derive(Debug, PartialEq, Eq)]
pub struct Grant {
    house: u32,
    turn: u64,
}

/// What a dispatch answers.
#[derive(Debug, PartialEq, Eq)]
pub struct Dispatch {
    pub grant: Grant,
    pub class: u8,
    pub cost: u32,
}

/// One server's time, shared among the leaves of a tree of classes by start-time fair queueing.
#[derive(Debug)]
pub struct Tree<R> {
    house: u32,
    classes: Vec<Class<R>>,
    phase: Phase,
    meter: u64,
    turns: u64,
}

impl<R: Ready> Tree<R> {
    /// Puts an item at the end of a leaf's lane.
    pub fn submit<I: Item>(&mut self, shelf: &mut Shelf<I>, class: u8, item: I) -> Result<(), Refusal> {
        let leaf = self.classes.get_mut(usize::from(class)).ok_or(Refusal::UnknownClass)?;
        if !leaf.children.is_empty() {
            return Err(Refusal::NotALeaf);
        }
        check_cost(&item)?;
        if shelf.len(class) != leaf.queued {
            return Err(Refusal::OutOfStep);
        }
        shelf.put(class, item)?;
        leaf.queued += 1;
        if leaf.queued == 1 {
            self.wake(class);
        }
        Ok(())
    }

    /// Opens a turn for the head of the lane that is due.
    pub fn dispatch<I: Item>(&mut self, shelf: &Shelf<I>) -> Result<Dispatch, Refusal> {
        if self.phase != Phase::Free {
            return Err(Refusal::TurnOpen);
        }
        if !self.class(ROOT).is_backlogged() {
            return Err(Refusal::NothingBacklogged);
        }
        let leaf = self.due();
        if shelf.len(leaf) != self.class(leaf).queued {
            return Err(Refusal::OutOfStep);
        }
        let cost = shelf.head(leaf).ok_or(Refusal::OutOfStep)?.cost();
        if self.meter + u64::from(cost) > METER_END || self.turns == METER_END {
            return Err(Refusal::Exhausted);
        }
        self.advance(leaf);
        self.phase = Phase::Open { leaf, cost, done: 0 };
        self.turns += 1;
        let grant = Grant { house: self.house, turn: self.turns };
        Ok(Dispatch { grant, class: leaf, cost })
    }

    /// Draws what is still to do in the open turn and answers what was done.
    pub fn pulse<S: Server>(&mut self, grant: &Grant, server: &mut S) -> Result<u32, Refusal> {
        let (leaf, cost, done) = self.open_turn(grant)?;
        if done == cost {
            return Ok(0);
        }
        let drawn = server.draw(cost - done);
        self.phase = Phase::Open { leaf, cost, done: done + drawn };
        Ok(drawn)
    }

    /// Closes the turn where its item may stop, and answers the charge.
    pub fn end<I: Item>(&mut self, grant: Grant, shelf: &mut Shelf<I>) -> Result<u32, (Refusal, Grant)> {
        match self.try_end(&grant, shelf) {
            Ok(charge) => Ok(charge),
            Err(refusal) => Err((refusal, grant)),
        }
    }

    /// Closes the turn at any point, leaves its item as it was, and answers the charge.
    pub fn give_up<I: Item>(&mut self, grant: Grant, shelf: &Shelf<I>) -> Result<u32, (Refusal, Grant)> {
        match self.try_give_up(&grant, shelf) {
            Ok(charge) => Ok(charge),
            Err(refusal) => Err((refusal, grant)),
        }
    }

    pub fn class_count(&self) -> u8 {
        self.classes.len() as u8 // at most 64
    }

    pub fn name(&self, class: u8) -> &[u8] {
        self.class(class).name.as_bytes()
    }

    pub fn parent(&self, class: u8) -> u8 {
        self.class(class).parent
    }

    /// The start tag; 0 for the root, which has none.
    pub fn start_tag(&self, class: u8) -> u64 {
        self.class(class).start
    }

    fn try_end<I: Item>(&mut self, grant: &Grant, shelf: &mut Shelf<I>) -> Result<u32, Refusal> {
        let (leaf, cost, done) = self.open_turn(grant)?;
        if shelf.len(leaf) != self.class(leaf).queued {
            return Err(Refusal::OutOfStep);
        }
        let head = shelf.head_mut(leaf).ok_or(Refusal::OutOfStep)?;
        if head.cost() != cost {
            return Err(Refusal::OutOfStep);
        }
        if !head.may_stop(done) {
            return Err(Refusal::NoStoppingPoint);
        }
        if done == cost {
            shelf.remove(leaf);
            self.class_mut(leaf).queued -= 1;
        } else {
            *head = head.rest(done);
        }
        self.close(leaf, done);
        Ok(done)
    }

    fn try_give_up<I: Item>(&mut self, grant: &Grant, shelf: &Shelf<I>) -> Result<u32, Refusal> {
        let (leaf, _, done) = self.open_turn(grant)?;
        if shelf.len(leaf) != self.class(leaf).queued {
            return Err(Refusal::OutOfStep);
        }
        self.close(leaf, done);
        Ok(done)
    }

    /// Leaf, cost and work done of the open turn, if the grant is that turn's.
    fn open_turn(&self, grant: &Grant) -> Result<(u8, u32, u32), Refusal> {
        match self.phase {
            Phase::Open { leaf, cost, done } if grant.house == self.house && grant.turn == self.turns => {
                Ok((leaf, cost, done))
            }
            _ => Err(Refusal::NotTheOpenTurn),
        }
    }

    /// Enters a leaf that has just become backlogged, and each class above it that was not, into its parent's set.
    fn wake(&mut self, leaf: u8) {
        let mut number = leaf;
        while number != ROOT {
            let parent = self.class(number).parent;
            let virtual_time = self.class(parent).virtual_time;
            let class = self.class_mut(number);
            class.start = virtual_time.max(class.finish);
            let child = (class.start, number);
            let above = self.class_mut(parent);
            let was_backlogged = !above.ready.is_empty();
            above.ready.put(child);
            if was_backlogged {
                return;
            }
            number = parent;
        }
    }

    /// The leaf that is due: from the root down to the child with the least start tag.
    fn due(&self) -> u8 {
        let mut number = ROOT;
        while let Some((_, child)) = self.class(number).ready.least() {
            number = child;
        }
        number
    }

    /// Moves the virtual time of each node above the leaf to the start tag of the child on the way.
    fn advance(&mut self, leaf: u8) {
        let mut number = leaf;
        while number != ROOT {
            let class = self.class(number);
            let (parent, start) = (class.parent, class.start);
            self.class_mut(parent).virtual_time = start;
            number = parent;
        }
    }

    /// Charges the turn's work from the leaf up. The leaf's count has been set before.
    fn close(&mut self, leaf: u8, done: u32) {
        let mut number = leaf;
        loop {
            let backlogged = self.class(number).is_backlogged();
            if !backlogged {
                self.rest(number);
            }
            if number == ROOT {
                break;
            }
            let parent = self.class(number).parent;
            let virtual_time = self.class(parent).virtual_time;
            let class = self.class_mut(number);
            let child = (class.start, number);
            class.finish = class.start + u64::from(done) * class.parts;
            if backlogged {
                class.start = virtual_time.max(class.finish);
                let start = class.start;
                self.class_mut(parent).ready.retag(child, start);
            } else {
                self.class_mut(parent).ready.take(child);
            }
            number = parent;
        }
        self.meter += u64::from(done);
        self.phase = Phase::Free;
    }

    /// A node that is no longer backlogged forgets its virtual time and its children's finish tags.
    fn rest(&mut self, number: u8) {
        let node = self.class_mut(number);
        node.virtual_time = 0;
        let children = std::mem::take(&mut node.children);
        for child in &children {
            self.class_mut(*child).finish = 0;
        }
        self.class_mut(number).children = children;
    }

    fn class(&self, number: u8) -> &Class<R> {
        &self.classes[usize::from(number)]
    }

    fn class_mut(&mut self, number: u8) -> &mut Class<R> {
        &mut self.classes[usize::from(number)]
    }
}

#[cfg(test)]
mod tests {
    use super::*;
    use crate::item::Quantum;
    use crate::link::FixedLink;
    use crate::ready::TreeSet;

    fn quantum(time: u32) -> Quantum {
        Quantum { task: 0, time }
    }

    #[test]
    fn the_meter_and_the_turns_have_an_end() {
        let mut tree: Tree<TreeSet> = Draft::new(0).open();
        let mut shelf = Shelf::new(9);
        tree.submit(&mut shelf, ROOT, quantum(6)).unwrap();
        tree.meter = METER_END - 5;
        assert_eq!(tree.dispatch(&shelf), Err(Refusal::Exhausted));
        shelf.put(ROOT, quantum(6)).unwrap();
        assert_eq!(tree.dispatch(&shelf), Err(Refusal::OutOfStep)); // told before the end
        shelf.remove(ROOT);
        tree.meter = METER_END - 6;
        tree.turns = METER_END;
        assert_eq!(tree.dispatch(&shelf), Err(Refusal::Exhausted));
        tree.turns = METER_END - 1;
        let grant = tree.dispatch(&shelf).unwrap().grant;
        assert_eq!(grant, Grant { house: 0, turn: METER_END });
        assert_eq!(tree.give_up(grant, &shelf), Ok(0));
    }

    /// Two items of 1 unit at weight 1: the class goes on at 720,720, and with the second the root rests.
    #[test]
    fn a_resting_node_forgets_finish_tags_and_keeps_start_tags() {
        let mut draft = Draft::new(0);
        draft.add(ROOT, 1, b"x").unwrap();
        let mut tree: Tree<TreeSet> = draft.open();
        let mut shelf = Shelf::new(9);
        let mut link = FixedLink::new(1).unwrap();
        for _ in 0..2 {
            tree.submit(&mut shelf, 1, quantum(1)).unwrap();
        }
        for (at_dispatch, start, finish) in [(0, 720_720, 720_720), (720_720, 720_720, 0)] {
            let grant = tree.dispatch(&shelf).unwrap().grant;
            assert_eq!(tree.class(ROOT).virtual_time, at_dispatch);
            assert_eq!(tree.pulse(&grant, &mut link), Ok(1));
            assert_eq!(tree.end(grant, &mut shelf), Ok(1));
            assert_eq!((tree.class(1).start, tree.class(1).finish), (start, finish));
        }
        assert_eq!((tree.class(ROOT).virtual_time, tree.meter), (0, 2));
    }
}
