use std::collections::VecDeque;

use crate::item::Item;
use crate::refusal::Refusal;

pub const MAX_PLACES: usize = 256;
pub const MAX_COST: u32 = 65_535;
pub const LANES: usize = 64;

/// Items of one kind in lanes, one lane for each class number, first in first out.
/// All lanes together have at most [`MAX_PLACES`] places.
#[derive(Clone, Debug)]
pub struct Shelf<I> {
    lanes: Vec<VecDeque<I>>,
    places: usize,
    used: usize,
}

impl<I: Item> Shelf<I> {
    pub fn new(places: usize) -> Self {
        Shelf { lanes: (0..LANES).map(|_| VecDeque::new()).collect(), places: places.min(MAX_PLACES), used: 0 }
    }

    /// Puts an item at the end of a lane.
    pub fn put(&mut self, lane: u8, item: I) -> Result<(), Refusal> {
        let queue = self.lanes.get_mut(usize::from(lane)).ok_or(Refusal::UnknownClass)?;
        check_cost(&item)?;
        if self.used == self.places {
            return Err(Refusal::ShelfFull);
        }
        queue.push_back(item);
        self.used += 1;
        Ok(())
    }

    pub fn head(&self, lane: u8) -> Option<&I> {
        self.lanes.get(usize::from(lane))?.front()
    }

    /// Takes the head of a lane.
    pub fn remove(&mut self, lane: u8) -> Option<I> {
        let item = self.lanes.get_mut(usize::from(lane))?.pop_front()?;
        self.used -= 1;
        Some(item)
    }

    /// Items in a lane; none in an unknown one.
    pub fn len(&self, lane: u8) -> usize {
        self.lanes.get(usize::from(lane)).map_or(0, VecDeque::len)
    }

    pub(crate) fn head_mut(&mut self, lane: u8) -> Option<&mut I> {
        self.lanes.get_mut(usize::from(lane))?.front_mut()
    }
}

/// No item costs nothing, or more than [`MAX_COST`].
pub(crate) fn check_cost<I: Item>(item: &I) -> Result<(), Refusal> {
    if (1..=MAX_COST).contains(&item.cost()) { Ok(()) } else { Err(Refusal::CostOutOfRange) }
}

#[cfg(test)]
mod tests {
    use super::*;
    use crate::item::Block;

    fn block(length: u32) -> Block {
        Block { sector: 0, length }
    }

    #[test]
    fn lanes_are_first_in_first_out() {
        let mut shelf = Shelf::new(3);
        shelf.put(63, block(1)).unwrap();
        shelf.put(63, block(2)).unwrap();
        shelf.put(0, block(3)).unwrap();
        assert_eq!(shelf.put(0, block(4)), Err(Refusal::ShelfFull));
        assert_eq!((shelf.len(63), shelf.len(0), shelf.len(64)), (2, 1, 0));
        assert_eq!(shelf.head(63), Some(&block(1)));
        assert_eq!(shelf.remove(63), Some(block(1)));
        assert_eq!(shelf.remove(63), Some(block(2)));
        assert_eq!(shelf.remove(63), None);
        assert_eq!(shelf.remove(64), None);
        assert_eq!(shelf.head(64), None);
        shelf.put(0, block(4)).unwrap();
        assert_eq!(shelf.remove(0), Some(block(3)));
    }

    #[test]
    fn putting_refuses_in_order() {
        let mut shelf = Shelf::new(0);
        assert_eq!(shelf.put(64, block(0)), Err(Refusal::UnknownClass));
        assert_eq!(shelf.put(63, block(0)), Err(Refusal::CostOutOfRange));
        assert_eq!(shelf.put(63, block(65_536)), Err(Refusal::CostOutOfRange));
        assert_eq!(shelf.put(63, block(65_535)), Err(Refusal::ShelfFull));
    }

    #[test]
    fn no_more_than_256_places() {
        let mut shelf = Shelf::new(1_000);
        for i in 0..256u32 {
            assert_eq!(shelf.put((i % 64) as u8, block(1)), Ok(()));
        }
        assert_eq!(shelf.put(0, block(1)), Err(Refusal::ShelfFull));
    }
}
