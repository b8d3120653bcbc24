use crate::refusal::Refusal;

/// No server's number passes this.
pub const SERVER_END: u64 = 1_000_000_000_000_000;

pub const MAX_RATE: u32 = 65_535;
pub const MAX_OUTAGES: usize = 16;

/// Something that works: known by one number, the work it has done.
pub trait Server {
    /// Asks for `n` units and answers how many were done.
    fn draw(&mut self, n: u32) -> u32;

    /// The work done so far.
    fn work(&self) -> u64;
}

/// Does at most `rate` units at each draw.
#[derive(Clone, Debug)]
pub struct FixedLink {
    rate: u32,
    work: u64,
}

impl FixedLink {
    pub fn new(rate: u32) -> Result<Self, Refusal> {
        if (1..=MAX_RATE).contains(&rate) { Ok(FixedLink { rate, work: 0 }) } else { Err(Refusal::RateOutOfRange) }
    }
}

impl Server for FixedLink {
    fn draw(&mut self, n: u32) -> u32 {
        let room = SERVER_END - self.work;
        let done = u64::from(n.min(self.rate)).min(room);
        self.work += done;
        done as u32 // at most n
    }

    fn work(&self) -> u64 {
        self.work
    }
}

#[derive(Clone, Copy, Debug)]
struct Outage {
    start: u32,
    /// The first count after the outage.
    end: u32,
}

/// Spans of draw counts at which nothing is done, in rising order and apart.
#[derive(Clone, Debug, Default)]
pub struct Outages(Vec<Outage>);

impl Outages {
    pub fn add(&mut self, offset: u32, length: u32) -> Result<(), Refusal> {
        let last_end = self.0.last().map_or(0, |outage| outage.end);
        let end = offset.checked_add(length).ok_or(Refusal::BadOutage)?;
        if length == 0 || offset < last_end || self.0.len() == MAX_OUTAGES {
            return Err(Refusal::BadOutage);
        }
        self.0.push(Outage { start: offset, end });
        Ok(())
    }
}

/// Counts the draws on the server below and lets none through during an outage.
#[derive(Clone, Debug)]
pub struct Interrupted<S> {
    below: S,
    outages: Outages,
    /// Outages that lie wholly before `count`.
    past: usize,
    /// Draws of 1 or more so far; stands still at the largest number.
    count: u32,
}

impl<S: Server> Interrupted<S> {
    pub fn new(below: S) -> Self {
        Interrupted::with_outages(below, Outages::default())
    }

    pub fn with_outages(below: S, outages: Outages) -> Self {
        Interrupted { below, outages, past: 0, count: 0 }
    }

    pub fn add_outage(&mut self, offset: u32, length: u32) -> Result<(), Refusal> {
        self.outages.add(offset, length)
    }

    fn interrupted_now(&mut self) -> bool {
        while let Some(outage) = self.outages.0.get(self.past) {
            if self.count < outage.end {
                return outage.start <= self.count;
            }
            self.past += 1;
        }
        false
    }
}

impl<S: Server> Server for Interrupted<S> {
    fn draw(&mut self, n: u32) -> u32 {
        if n == 0 {
            return 0;
        }
        let interrupted = self.interrupted_now();
        self.count = self.count.saturating_add(1);
        if interrupted { 0 } else { self.below.draw(n) }
    }

    fn work(&self) -> u64 {
        self.below.work()
    }
}

#[cfg(test)]
mod tests {
    use super::*;

    fn link(rate: u32) -> Interrupted<FixedLink> {
        Interrupted::new(FixedLink::new(rate).unwrap())
    }

    #[test]
    fn rates() {
        assert_eq!(FixedLink::new(0).err(), Some(Refusal::RateOutOfRange));
        assert!(FixedLink::new(1).is_ok());
        assert!(FixedLink::new(65_535).is_ok());
        assert_eq!(FixedLink::new(65_536).err(), Some(Refusal::RateOutOfRange));
    }

    #[test]
    fn a_fixed_link_stops_at_its_end() {
        let mut link = FixedLink { rate: 8, work: SERVER_END - 11 };
        assert_eq!(link.draw(5), 5);
        assert_eq!(link.draw(0), 0);
        assert_eq!(link.draw(u32::MAX), 6);
        assert_eq!(link.draw(1), 0);
        assert_eq!(link.work(), SERVER_END);
    }

    #[test]
    fn draws_of_nothing_are_not_counted() {
        let mut link = link(8);
        link.add_outage(1, 2).unwrap();
        let asked = [3, 0, 3, 0, 3, 9];
        assert_eq!(asked.map(|n| link.draw(n)), [3, 0, 0, 0, 0, 8]);
        assert_eq!(link.work(), 11);
    }

    #[test]
    fn an_outage_may_be_added_behind_the_count() {
        let mut link = link(1);
        assert_eq!([1, 1, 1].map(|n| link.draw(n)), [1, 1, 1]);
        link.add_outage(0, 2).unwrap(); // past already
        link.add_outage(4, 1).unwrap();
        assert_eq!([1, 1, 1].map(|n| link.draw(n)), [1, 0, 1]);
    }

    #[test]
    fn the_count_stands_still_at_its_end() {
        let mut link = link(1);
        link.add_outage(u32::MAX - 1, 1).unwrap();
        link.count = u32::MAX - 1;
        assert_eq!([1, 1, 1].map(|n| link.draw(n)), [0, 1, 1]);
        assert_eq!(link.count, u32::MAX);
    }

    #[test]
    fn outages_refused() {
        let mut outages = Outages::default();
        assert_eq!(outages.add(0, 0), Err(Refusal::BadOutage));
        assert_eq!(outages.add(u32::MAX, 1), Err(Refusal::BadOutage));
        assert_eq!(outages.add(5, 3), Ok(()));
        assert_eq!(outages.add(7, 3), Err(Refusal::BadOutage));
        assert_eq!(outages.add(8, 1), Ok(())); // touching is right
        for i in 0..14 {
            assert_eq!(outages.add(100 + 2 * i, 1), Ok(()));
        }
        assert_eq!(outages.add(1_000, 1), Err(Refusal::BadOutage)); // the 17th
        assert_eq!(Outages::default().add(u32::MAX - 1, 1), Ok(()));
        assert_eq!(Outages::default().add(u32::MAX - 1, 2), Err(Refusal::BadOutage));
    }
}
