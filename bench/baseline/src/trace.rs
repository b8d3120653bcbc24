use std::fmt;

use crate::link::{FixedLink, Interrupted, Outages};
use crate::refusal::Refusal;
use crate::tree::Draft;

pub const MAX_BYTES: usize = 32_768;
pub const MAX_WORD: usize = 10;

/// The house number of a trace's tree.
const HOUSE: u32 = 1;

/// No class has this number.
const NO_CLASS: u8 = u8::MAX;

/// A trace of right form whose classes and links were accepted.
#[derive(Debug)]
pub struct Trace {
    pub kind: Kind,
    pub draft: Draft,
    pub link: Interrupted<FixedLink>,
    pub events: Vec<Event>,
}

#[derive(Clone, Copy, Debug, PartialEq, Eq)]
pub enum Kind {
    Quantum,
    Block,
}

#[derive(Clone, Copy, Debug, PartialEq, Eq)]
pub enum Event {
    Submit { class: Option<u8>, cost: u32 },
    Dispatch,
    Pulse,
    End,
    GiveUp,
}

#[derive(Clone, Copy, Debug, PartialEq, Eq)]
pub enum Layer {
    Text,
    Tree,
    Link,
}

/// The first thing wrong with a trace, and where it stands.
#[derive(Clone, Copy, Debug, PartialEq, Eq)]
pub struct Fault {
    pub layer: Layer,
    pub line: usize,
    pub word: u8,
    pub refusal: Refusal,
}

impl Fault {
    fn new(line: usize, refusal: Refusal) -> Self {
        use Refusal::*;
        let layer = match refusal {
            TraceTooLong | BadFirstLine | BadLine | OutOfItsPart => Layer::Text,
            BadOutage | RateOutOfRange => Layer::Link,
            _ => Layer::Tree,
        };
        let word = match refusal {
            BadName | NameTaken | RateOutOfRange => 2,
            UnknownParent | TooDeep => 3,
            WeightOutOfRange => 4,
            _ => 0,
        };
        Fault { layer, line, word, refusal }
    }
}

impl fmt::Display for Fault {
    fn fmt(&self, f: &mut fmt::Formatter<'_>) -> fmt::Result {
        let layer = match self.layer {
            Layer::Text => "text",
            Layer::Tree => "tree",
            Layer::Link => "link",
        };
        write!(f, "! {layer} {} {} {}", self.line, self.word, self.refusal.number())
    }
}

/// The parts of a trace after its first line, in their order.
#[derive(Clone, Copy, Debug, PartialEq, Eq, PartialOrd, Ord)]
enum Part {
    Classes,
    Rate,
    Outages,
    Events,
}

/// A line of right form.
enum Line<'a> {
    Class { name: &'a [u8], parent: &'a [u8], weight: u32 },
    Rate(u32),
    Outage { offset: u32, length: u32 },
    Submit { name: &'a [u8], cost: u32 },
    Call(Event),
}

impl Line<'_> {
    fn part(&self) -> Part {
        match self {
            Line::Class { .. } => Part::Classes,
            Line::Rate(_) => Part::Rate,
            Line::Outage { .. } => Part::Outages,
            Line::Submit { .. } | Line::Call(_) => Part::Events,
        }
    }
}

/// Reads a whole trace, or answers the fault of its first faulty line.
pub fn read(input: &[u8]) -> Result<Trace, Fault> {
    if input.len() > MAX_BYTES {
        return Err(Fault::new(0, Refusal::TraceTooLong));
    }
    let mut lines = input.split_inclusive(|b| *b == b'\n');
    let kind = match lines.next() {
        Some(b"sfq1 quantum\n") => Kind::Quantum,
        Some(b"sfq1 block\n") => Kind::Block,
        _ => return Err(Fault::new(1, Refusal::BadFirstLine)),
    };
    let mut reader = Reader::new();
    let mut last = 1;
    for line in lines {
        last += 1;
        reader.take(line).map_err(|refusal| Fault::new(last, refusal))?;
    }
    let fixed = reader.fixed.ok_or(Fault::new(last, Refusal::OutOfItsPart))?;
    let link = Interrupted::with_outages(fixed, reader.outages);
    Ok(Trace { kind, draft: reader.draft, link, events: reader.events })
}

/// What the lines so far have said.
struct Reader {
    part: Part,
    draft: Draft,
    fixed: Option<FixedLink>,
    outages: Outages,
    events: Vec<Event>,
}

impl Reader {
    fn new() -> Self {
        Reader {
            part: Part::Classes,
            draft: Draft::new(HOUSE),
            fixed: None,
            outages: Outages::default(),
            events: Vec::new(),
        }
    }

    fn take(&mut self, line: &[u8]) -> Result<(), Refusal> {
        let line = line.strip_suffix(b"\n").and_then(parse).ok_or(Refusal::BadLine)?;
        let part = line.part();
        if part < self.part || (part == Part::Rate && self.fixed.is_some()) {
            return Err(Refusal::OutOfItsPart);
        }
        self.part = part;
        match line {
            Line::Class { name, parent, weight } => {
                let parent = self.draft.find(parent).unwrap_or(NO_CLASS);
                self.draft.add(parent, weight, name)?;
            }
            Line::Rate(rate) => self.fixed = Some(FixedLink::new(rate)?),
            Line::Outage { offset, length } => self.outages.add(offset, length)?,
            Line::Submit { name, cost } => {
                let class = self.draft.find(name);
                self.events.push(Event::Submit { class, cost });
            }
            Line::Call(event) => self.events.push(event),
        }
        Ok(())
    }
}

/// Takes a line without its end apart; none if its form is wrong.
fn parse(line: &[u8]) -> Option<Line<'_>> {
    let mut words = line.split(|b| *b == b' ');
    let parsed = match words.next()? {
        b"c" => {
            Line::Class { name: word(words.next()?)?, parent: word(words.next()?)?, weight: number(words.next()?)? }
        }
        b"l" => Line::Rate(number(words.next()?)?),
        b"o" => Line::Outage { offset: number(words.next()?)?, length: number(words.next()?)? },
        b"a" => Line::Submit { name: word(words.next()?)?, cost: number(words.next()?)? },
        b"d" => Line::Call(Event::Dispatch),
        b"p" => Line::Call(Event::Pulse),
        b"e" => Line::Call(Event::End),
        b"g" => Line::Call(Event::GiveUp),
        _ => return None,
    };
    words.next().is_none().then_some(parsed)
}

/// 1 to 10 bytes of a to z and 0 to 9.
fn word(word: &[u8]) -> Option<&[u8]> {
    let right = word.iter().all(|b| matches!(b, b'a'..=b'z' | b'0'..=b'9'));
    (right && (1..=MAX_WORD).contains(&word.len())).then_some(word)
}

/// A decimal number of 32 bits without needless leading zeros.
fn number(word: &[u8]) -> Option<u32> {
    match word {
        b"0" => Some(0),
        [b'1'..=b'9', rest @ ..] if rest.len() < MAX_WORD => word.iter().try_fold(0u32, |value, b| {
            let digit = b.is_ascii_digit().then(|| u32::from(b - b'0'))?;
            value.checked_mul(10)?.checked_add(digit)
        }),
        _ => None,
    }
}
