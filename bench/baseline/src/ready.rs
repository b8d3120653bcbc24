use std::cmp::Reverse;
use std::collections::{BTreeSet, BinaryHeap};

/// A start tag and the class that has it. They compare as dispatch picks: by tag, then by class number.
pub type Tagged = (u64, u8);

/// The backlogged children of one node with their start tags.
pub trait Ready: Default {
    fn put(&mut self, child: Tagged);
    fn least(&self) -> Option<Tagged>;
    fn take(&mut self, child: Tagged);
    /// Gives a child that is present another tag.
    fn retag(&mut self, child: Tagged, tag: u64);

    fn is_empty(&self) -> bool {
        self.least().is_none()
    }
}

pub type TreeSet = BTreeSet<Tagged>;

impl Ready for TreeSet {
    fn put(&mut self, child: Tagged) {
        self.insert(child);
    }

    fn least(&self) -> Option<Tagged> {
        self.first().copied()
    }

    fn take(&mut self, child: Tagged) {
        self.remove(&child);
    }

    fn retag(&mut self, child: Tagged, tag: u64) {
        if child.0 != tag {
            self.remove(&child);
            self.insert((tag, child.1));
        }
    }

    fn is_empty(&self) -> bool {
        BTreeSet::is_empty(self)
    }
}

pub type HeapSet = BinaryHeap<Reverse<Tagged>>;

/// The child that is taken or gets another tag is the one being served. It is the top of the heap,
/// unless during its turn a child of lower number woke with the same tag.
impl Ready for HeapSet {
    fn put(&mut self, child: Tagged) {
        self.push(Reverse(child));
    }

    fn least(&self) -> Option<Tagged> {
        self.peek().map(|top| top.0)
    }

    fn take(&mut self, child: Tagged) {
        if self.least() == Some(child) {
            self.pop();
        } else {
            self.retain(|other| other.0 != child);
        }
    }

    fn retag(&mut self, child: Tagged, tag: u64) {
        if let Some(mut top) = self.peek_mut()
            && top.0 == child
        {
            top.0.0 = tag;
            return;
        }
        self.take(child);
        self.put((tag, child.1));
    }

    fn is_empty(&self) -> bool {
        BinaryHeap::is_empty(self)
    }
}

#[cfg(test)]
mod tests {
    use super::*;

    fn least_tag_then_lowest_number<R: Ready>() {
        let mut ready = R::default();
        assert_eq!(ready.least(), None);
        for child in [(7, 3), (5, 9), (5, 4), (6, 1)] {
            ready.put(child);
        }
        assert_eq!(ready.least(), Some((5, 4)));
        ready.retag((5, 9), 4); // not the least
        assert_eq!(ready.least(), Some((4, 9)));
        ready.retag((4, 9), 8); // the least
        assert_eq!(ready.least(), Some((5, 4)));
        ready.take((6, 1)); // not the least
        ready.take((5, 4)); // the least
        assert_eq!(ready.least(), Some((7, 3)));
        ready.take((7, 3));
        ready.take((8, 9));
        assert!(ready.is_empty());
    }

    #[test]
    fn both_sets_answer_alike() {
        least_tag_then_lowest_number::<TreeSet>();
        least_tag_then_lowest_number::<HeapSet>();
    }
}
