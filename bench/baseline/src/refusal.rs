/// Why a call was refused, or what is wrong with a trace; its number is what the user sees.
#[derive(Clone, Copy, Debug, PartialEq, Eq)]
#[repr(u8)]
pub enum Refusal {
    UnknownClass = 1,
    NotALeaf = 2,
    CostOutOfRange = 3,
    /// Tree and shelf do not agree about a lane.
    OutOfStep = 4,
    ShelfFull = 5,
    TurnOpen = 6,
    NothingBacklogged = 7,
    /// The meter or the turns have come to their end.
    Exhausted = 8,
    NotTheOpenTurn = 9,
    NoStoppingPoint = 10,
    TooManyClasses = 11,
    UnknownParent = 12,
    WeightOutOfRange = 13,
    BadName = 14,
    NameTaken = 15,
    TooDeep = 16,
    BadOutage = 17,
    RateOutOfRange = 18,
    TraceTooLong = 19,
    BadFirstLine = 20,
    BadLine = 21,
    OutOfItsPart = 22,
}

impl Refusal {
    pub fn number(self) -> u8 {
        self as u8
    }
}
