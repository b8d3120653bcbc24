//! The five calls as a program uses them: what a trace cannot bring about.

use baseline::{
    Block, Dispatch, Draft, FixedLink, Grant, HeapSet, Interrupted, Quantum, Ready, Refusal, Server, Shelf, Tree,
    TreeSet,
};

fn quantum(time: u32) -> Quantum {
    Quantum { task: 0, time }
}

/// Two leaves, 1 of weight 1 and 2 of weight 2.
fn two_leaves<R: Ready>(house: u32) -> Tree<R> {
    let mut draft = Draft::new(house);
    assert_eq!(draft.add(0, 1, b"x"), Ok(1));
    assert_eq!(draft.add(0, 2, b"y"), Ok(2));
    draft.open()
}

fn link(rate: u32) -> Interrupted<FixedLink> {
    Interrupted::new(FixedLink::new(rate).unwrap())
}

fn back(answer: Result<u32, (Refusal, Grant)>) -> (Refusal, Grant) {
    answer.unwrap_err()
}

#[test]
fn adding_refuses_in_order() {
    let mut draft = Draft::new(0);
    assert_eq!(draft.add(9, 0, b""), Err(Refusal::BadName));
    assert_eq!(draft.add(9, 0, b"ninebytes"), Err(Refusal::BadName));
    assert_eq!(draft.add(9, 0, b"X"), Err(Refusal::BadName));
    assert_eq!(draft.add(9, 0, b"x\0"), Err(Refusal::BadName));
    assert_eq!(draft.add(9, 0, b"root"), Err(Refusal::NameTaken));
    assert_eq!(draft.add(1, 0, b"x"), Err(Refusal::UnknownParent));
    assert_eq!(draft.add(0, 0, b"x"), Err(Refusal::WeightOutOfRange));
    assert_eq!(draft.add(0, 17, b"x"), Err(Refusal::WeightOutOfRange));
    for depth in 0..7 {
        assert_eq!(draft.add(depth, 16, &[b'a' + depth]), Ok(depth + 1));
    }
    assert_eq!(draft.add(7, 0, b"x"), Err(Refusal::TooDeep));
    for number in 8..64 {
        assert_eq!(draft.add(6, 1, &[b'x', b'0' + number / 10, b'0' + number % 10]), Ok(number));
    }
    assert_eq!(draft.add(9, 0, b""), Err(Refusal::TooManyClasses));
}

#[test]
fn submission_refuses_in_order() {
    let mut draft = Draft::new(0);
    draft.add(0, 1, b"x").unwrap();
    let mut tree: Tree<TreeSet> = draft.open();
    let mut shelf = Shelf::new(1);
    shelf.put(1, quantum(1)).unwrap(); // the tree does not count it
    assert_eq!(tree.submit(&mut shelf, 2, quantum(0)), Err(Refusal::UnknownClass));
    assert_eq!(tree.submit(&mut shelf, 0, quantum(0)), Err(Refusal::NotALeaf));
    assert_eq!(tree.submit(&mut shelf, 1, quantum(0)), Err(Refusal::CostOutOfRange));
    assert_eq!(tree.submit(&mut shelf, 1, quantum(1)), Err(Refusal::OutOfStep));
    shelf.remove(1);
    shelf.put(0, quantum(1)).unwrap();
    assert_eq!(tree.submit(&mut shelf, 1, quantum(1)), Err(Refusal::ShelfFull));
    assert_eq!(tree.dispatch(&shelf).unwrap_err(), Refusal::NothingBacklogged);
}

#[test]
fn dispatch_refuses_a_shelf_out_of_step() {
    let mut tree = two_leaves::<HeapSet>(0);
    let mut shelf = Shelf::new(9);
    tree.submit(&mut shelf, 2, quantum(5)).unwrap();
    shelf.put(2, quantum(5)).unwrap();
    assert_eq!(tree.dispatch(&shelf).unwrap_err(), Refusal::OutOfStep);
    shelf.remove(2);
    shelf.put(1, quantum(5)).unwrap(); // another lane: not looked at
    let Dispatch { grant, class, cost } = tree.dispatch(&shelf).unwrap();
    assert_eq!((class, cost), (2, 5));
    assert_eq!(tree.dispatch(&Shelf::<Quantum>::new(0)).unwrap_err(), Refusal::TurnOpen);
    assert_eq!(tree.give_up(grant, &shelf), Ok(0));
}

#[test]
fn closing_refuses_a_shelf_out_of_step() {
    let mut tree = two_leaves::<TreeSet>(0);
    let mut shelf = Shelf::new(9);
    let mut link = link(3);
    tree.submit(&mut shelf, 1, quantum(5)).unwrap();
    let grant = tree.dispatch(&shelf).unwrap().grant;
    assert_eq!(tree.pulse(&grant, &mut link), Ok(3));
    shelf.remove(1);
    let (refusal, grant) = back(tree.end(grant, &mut shelf));
    assert_eq!(refusal, Refusal::OutOfStep);
    let (refusal, grant) = back(tree.give_up(grant, &shelf));
    assert_eq!(refusal, Refusal::OutOfStep);
    shelf.put(1, quantum(4)).unwrap(); // right in number, another cost
    let (refusal, grant) = back(tree.end(grant, &mut shelf));
    assert_eq!(refusal, Refusal::OutOfStep);
    assert_eq!(tree.give_up(grant, &shelf), Ok(3));
    assert_eq!((tree.start_tag(1), link.work()), (3 * 720_720, 3));
}

#[test]
fn only_the_open_turns_grant_is_taken() {
    let mut tree = two_leaves::<TreeSet>(7);
    let mut same_house = two_leaves::<TreeSet>(7);
    let mut other_house = two_leaves::<TreeSet>(8);
    let mut shelf = Shelf::new(9);
    let (mut same_shelf, mut other_shelf) = (Shelf::new(9), Shelf::new(9));
    let mut link = link(3);
    tree.submit(&mut shelf, 1, quantum(5)).unwrap();
    same_house.submit(&mut same_shelf, 1, quantum(5)).unwrap();
    other_house.submit(&mut other_shelf, 1, quantum(5)).unwrap();

    let grant = tree.dispatch(&shelf).unwrap().grant;
    assert_eq!(same_house.pulse(&grant, &mut link), Err(Refusal::NotTheOpenTurn)); // no turn open
    let foreign = other_house.dispatch(&other_shelf).unwrap().grant;
    assert_eq!(tree.pulse(&foreign, &mut link), Err(Refusal::NotTheOpenTurn));
    let (refusal, foreign) = back(tree.end(foreign, &mut shelf));
    assert_eq!(refusal, Refusal::NotTheOpenTurn);
    assert_eq!(other_house.give_up(foreign, &other_shelf), Ok(0));

    // Trees of one house number take each other's grants.
    let twin = same_house.dispatch(&same_shelf).unwrap().grant;
    assert_eq!(tree.pulse(&twin, &mut link), Ok(3));
    assert_eq!(tree.end(twin, &mut shelf), Ok(3));
    let (refusal, grant) = back(tree.give_up(grant, &shelf)); // its turn is closed
    assert_eq!(refusal, Refusal::NotTheOpenTurn);
    let second = tree.dispatch(&shelf).unwrap();
    assert_eq!((second.class, second.cost), (1, 2));
    let (refusal, grant) = back(tree.give_up(grant, &shelf)); // an earlier turn's
    assert_eq!(refusal, Refusal::NotTheOpenTurn);
    assert_eq!(same_house.give_up(grant, &same_shelf), Ok(0)); // turn 1 there, too
    assert_eq!(tree.give_up(second.grant, &shelf), Ok(0));
}

#[test]
fn a_block_ends_only_at_its_cost() {
    let mut tree = two_leaves::<HeapSet>(0);
    let mut shelf = Shelf::new(9);
    let mut link = link(8);
    tree.submit(&mut shelf, 1, Block { sector: 100, length: 10 }).unwrap();
    let grant = tree.dispatch(&shelf).unwrap().grant;
    assert_eq!(tree.pulse(&grant, &mut link), Ok(8));
    let (refusal, grant) = back(tree.end(grant, &mut shelf));
    assert_eq!(refusal, Refusal::NoStoppingPoint);
    assert_eq!(tree.pulse(&grant, &mut link), Ok(2));
    assert_eq!(tree.pulse(&grant, &mut link), Ok(0));
    assert_eq!(tree.end(grant, &mut shelf), Ok(10));
    assert_eq!(shelf.len(1), 0);
}

#[test]
fn a_quantum_goes_on_with_what_is_left() {
    let mut tree = two_leaves::<TreeSet>(0);
    let mut shelf = Shelf::new(9);
    tree.submit(&mut shelf, 2, Quantum { task: 4, time: 10 }).unwrap();
    let grant = tree.dispatch(&shelf).unwrap().grant;
    assert_eq!(tree.pulse(&grant, &mut link(8)), Ok(8));
    assert_eq!(tree.end(grant, &mut shelf), Ok(8));
    assert_eq!(shelf.head(2), Some(&Quantum { task: 4, time: 2 }));
    assert_eq!(tree.start_tag(2), 2_882_880);
}

/// A server that does the smaller half of what it is asked for.
struct Half(u64);

impl Server for Half {
    fn draw(&mut self, n: u32) -> u32 {
        self.0 += u64::from(n / 2);
        n / 2
    }

    fn work(&self) -> u64 {
        self.0
    }
}

#[test]
fn a_pulse_draws_what_is_still_to_do() {
    let mut tree = two_leaves::<TreeSet>(0);
    let mut shelf = Shelf::new(9);
    let mut half = Half(0);
    tree.submit(&mut shelf, 1, quantum(65_535)).unwrap();
    let grant = tree.dispatch(&shelf).unwrap().grant;
    assert_eq!(tree.pulse(&grant, &mut half), Ok(32_767));
    assert_eq!(tree.pulse(&grant, &mut half), Ok(16_384)); // of 32,768
    assert_eq!(tree.pulse(&grant, &mut link(65_535)), Ok(16_384));
    assert_eq!(tree.end(grant, &mut shelf), Ok(65_535));
}

/// 65,535 units at weight 1 come to 47,232,385,200 parts.
#[test]
fn the_largest_charge() {
    let mut tree = two_leaves::<TreeSet>(0);
    let mut shelf = Shelf::new(9);
    for _ in 0..2 {
        tree.submit(&mut shelf, 1, quantum(65_535)).unwrap();
    }
    let grant = tree.dispatch(&shelf).unwrap().grant;
    assert_eq!(tree.pulse(&grant, &mut link(65_535)), Ok(65_535));
    assert_eq!(tree.end(grant, &mut shelf), Ok(65_535));
    assert_eq!(tree.start_tag(1), 47_232_385_200);
}
