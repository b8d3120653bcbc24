use crate::item::{Block, Item, Quantum};
use crate::link::{FixedLink, Interrupted};
use crate::ready::{Ready, TreeSet};
use crate::refusal::Refusal;
use crate::shelf::{MAX_PLACES, Shelf};
use crate::trace::{Event, Kind, Trace, read};
use crate::tree::{Dispatch, Grant, ROOT, Tree};

/// Plays a trace and answers its listing, or the line of its first fault.
pub fn play(input: &[u8]) -> Vec<u8> {
    let mut out = Vec::new();
    play_into::<TreeSet>(input, &mut out);
    out
}

/// The same over a chosen set of backlogged children, written to the end of `out`.
pub fn play_into<R: Ready>(input: &[u8], out: &mut Vec<u8>) {
    match read(input) {
        Err(fault) => out.extend_from_slice(format!("{fault}\n").as_bytes()),
        Ok(trace) => match trace.kind {
            Kind::Quantum => run::<R, _>(trace, |time| Quantum { task: 0, time }, out),
            Kind::Block => run::<R, _>(trace, |length| Block { sector: 0, length }, out),
        },
    }
}

fn run<R: Ready, I: Item>(trace: Trace, item: impl Fn(u32) -> I, out: &mut Vec<u8>) {
    let tree = trace.draft.open::<R>();
    let charges = vec![0; usize::from(tree.class_count())];
    let shelf = Shelf::new(MAX_PLACES);
    let mut player = Player { tree, shelf, link: trace.link, item, turn: None, charges, out };
    for event in &trace.events {
        player.play(*event);
    }
    if player.turn.is_some() {
        player.give_up();
    }
    player.sums();
}

/// The open turn's grant and leaf.
struct Turn {
    grant: Grant,
    leaf: u8,
}

struct Player<'a, R, I, F> {
    tree: Tree<R>,
    shelf: Shelf<I>,
    link: Interrupted<FixedLink>,
    item: F,
    turn: Option<Turn>,
    /// Charges by the leaf that was served.
    charges: Vec<u64>,
    out: &'a mut Vec<u8>,
}

impl<R: Ready, I: Item, F: Fn(u32) -> I> Player<'_, R, I, F> {
    fn play(&mut self, event: Event) {
        match event {
            Event::Submit { class, cost } => self.submit(class, cost),
            Event::Dispatch => self.dispatch(),
            Event::Pulse => self.pulse(),
            Event::End => self.close(b'e', |tree, shelf, grant| tree.end(grant, shelf)),
            Event::GiveUp => self.give_up(),
        }
    }

    fn submit(&mut self, class: Option<u8>, cost: u32) {
        let answer = match class {
            Some(class) => self.tree.submit(&mut self.shelf, class, (self.item)(cost)),
            None => Err(Refusal::UnknownClass),
        };
        match answer {
            Ok(()) => self.accepted(b'a', &[]),
            Err(refusal) => self.refused(b'a', refusal),
        }
    }

    fn dispatch(&mut self) {
        match self.tree.dispatch(&self.shelf) {
            Ok(Dispatch { grant, class, cost }) => {
                self.turn = Some(Turn { grant, leaf: class });
                self.out.extend_from_slice(b"d 0 ");
                self.out.extend_from_slice(self.tree.name(class));
                push_number(self.out, cost.into());
                push_number(self.out, self.tree.start_tag(class));
                self.out.push(b'\n');
            }
            Err(refusal) => self.refused(b'd', refusal),
        }
    }

    fn pulse(&mut self) {
        let answer = match &self.turn {
            Some(turn) => self.tree.pulse(&turn.grant, &mut self.link),
            None => Err(Refusal::NotTheOpenTurn),
        };
        match answer {
            Ok(work) => self.accepted(b'p', &[work]),
            Err(refusal) => self.refused(b'p', refusal),
        }
    }

    fn give_up(&mut self) {
        self.close(b'g', |tree, shelf, grant| tree.give_up(grant, shelf));
    }

    fn close<C>(&mut self, letter: u8, call: C)
    where
        C: FnOnce(&mut Tree<R>, &mut Shelf<I>, Grant) -> Result<u32, (Refusal, Grant)>,
    {
        let Some(Turn { grant, leaf }) = self.turn.take() else {
            return self.refused(letter, Refusal::NotTheOpenTurn);
        };
        match call(&mut self.tree, &mut self.shelf, grant) {
            Ok(charge) => {
                self.charges[usize::from(leaf)] += u64::from(charge);
                self.accepted(letter, &[charge]);
            }
            Err((refusal, grant)) => {
                self.turn = Some(Turn { grant, leaf });
                self.refused(letter, refusal);
            }
        }
    }

    /// The charges of each class: its own turns and those of the classes below it.
    fn sums(&mut self) {
        for class in (ROOT + 1..self.tree.class_count()).rev() {
            let parent = self.tree.parent(class);
            self.charges[usize::from(parent)] += self.charges[usize::from(class)];
        }
        for class in ROOT..self.tree.class_count() {
            self.out.extend_from_slice(b"s ");
            self.out.extend_from_slice(self.tree.name(class));
            push_number(self.out, self.charges[usize::from(class)]);
            self.out.push(b'\n');
        }
    }

    fn accepted(&mut self, letter: u8, values: &[u32]) {
        self.out.extend_from_slice(&[letter, b' ', b'0']);
        for value in values {
            push_number(self.out, u64::from(*value));
        }
        self.out.push(b'\n');
    }

    fn refused(&mut self, letter: u8, refusal: Refusal) {
        self.out.push(letter);
        push_number(self.out, refusal.number().into());
        self.out.push(b'\n');
    }
}

/// Writes a space and a decimal number.
fn push_number(out: &mut Vec<u8>, mut value: u64) {
    let mut digits = [b' '; 21];
    let mut at = digits.len();
    loop {
        at -= 1;
        digits[at] = b'0' + (value % 10) as u8;
        value /= 10;
        if value == 0 {
            break;
        }
    }
    out.extend_from_slice(&digits[at - 1..]);
}
