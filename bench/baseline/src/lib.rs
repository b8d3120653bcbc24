//! The scheduler once more, in plain Rust, as one would write it for speed and clarity.
//!
//! It was written from the rules alone and shares no code with the proved crates,
//! so it can stand as the other side of a comparison: of answers and of time.
//!
//! - [`item`]: what is served: quanta and blocks.
//! - [`link`]: what serves: a fixed link and an interrupted one.
//! - [`shelf`]: the lanes in which items wait.
//! - [`ready`]: the backlogged children of one node, by start tag.
//! - [`tree`]: the class tree and its five calls.
//! - [`trace`]: from bytes to a trace, or to its first fault.
//! - [`play`]: from bytes to the listing.

pub mod item;
pub mod link;
pub mod play;
pub mod ready;
pub mod refusal;
pub mod shelf;
pub mod trace;
pub mod tree;

pub use item::{Block, Item, Quantum};
pub use link::{FixedLink, Interrupted, Outages, Server};
pub use play::{play, play_into};
pub use ready::{HeapSet, Ready, TreeSet};
pub use refusal::Refusal;
pub use shelf::Shelf;
pub use tree::{Dispatch, Draft, Grant, Tree};
