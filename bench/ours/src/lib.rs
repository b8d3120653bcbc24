//! The proved library, called in-process through two C functions that an archive of it exports.
//!
//! They are there with the feature `linked`; without it this crate has nothing to call, so that all else
//! builds without the archive.
//!
//! # `turns_play`
//!
//! `isize turns_play(const u8 *input, usize len, u8 *output, usize room)`
//!
//! Plays the trace `input` and writes to `output` what the program `turns` writes for it.
//! Answers the bytes written, or -1 if `room` does not suffice or memory is not to be had.
//!
//! # `bench_turns`
//!
//! `u64 bench_turns(u32 store, const u8 *tree, usize tree_len, const u8 *order, usize order_len,
//! const u8 *costs, usize costs_len, u32 refill, u32 turns)`
//!
//! Opens a tree, plays whole turns on it and answers a sum over all answers. No clock is read in it:
//! the caller times it with and without turns.
//!
//! - `store`: 0 for the heap, 1 for the sorted list.
//! - `tree`: two bytes for each class from 1 on, its parent's number and its weight.
//!   The name of class n is its number in two digits, as `07`.
//! - The shelf has 256 places for quanta of task 0. The server is an interrupted link without outages
//!   over a fixed link of rate 65,535, so that a single pulse does all of an item.
//! - `costs`: the n-th submission, counted from 0, costs 1 + the byte at n mod `costs_len`.
//! - `refill` 1: first each class number of `order` gets an item, in that order. Then each turn submits
//!   to the class served last (before the first turn: the first of `order`), dispatches, pulses and ends.
//!   With `order` naming each leaf several times, all leaves stay backlogged.
//! - `refill` 0: turn n, counted from 0, submits to the class at n mod `order_len` of `order`, dispatches,
//!   pulses and ends. Nothing else waits, so that each turn wakes its whole path and lays it to rest.
//! - The answer: a number that begins at 1 and after each turn becomes
//!   (number × 31 + class × 1,024 + cost + work of the pulse + charge) mod 1,000,000,007;
//!   0 if any call is refused.

/// Enough for every listing: two bytes of a trace make at most a line of 64 bytes.
pub const ROOM: usize = 32 * 32_768 + 4_096;

#[cfg(feature = "linked")]
mod linked {
    unsafe extern "C" {
        fn turns_play(input: *const u8, len: usize, output: *mut u8, room: usize) -> isize;

        fn bench_turns(
            store: u32,
            tree: *const u8,
            tree_len: usize,
            order: *const u8,
            order_len: usize,
            costs: *const u8,
            costs_len: usize,
            refill: u32,
            turns: u32,
        ) -> u64;
    }

    /// The tag stores of the library.
    #[derive(Clone, Copy, Debug)]
    pub enum Store {
        Heap = 0,
        Sorted = 1,
    }

    /// Plays a trace into `output` and answers the bytes written; none if they do not fit.
    pub fn play(input: &[u8], output: &mut [u8]) -> Option<usize> {
        // Both slices are whole and apart, and the function keeps neither.
        let written = unsafe { turns_play(input.as_ptr(), input.len(), output.as_mut_ptr(), output.len()) };
        usize::try_from(written).ok()
    }

    /// Plays whole turns; what they are is said above.
    pub fn turns(store: Store, tree: &[u8], order: &[u8], costs: &[u8], refill: bool, turns: u32) -> u64 {
        // The slices are whole, and the function keeps none.
        unsafe {
            bench_turns(
                store as u32,
                tree.as_ptr(),
                tree.len(),
                order.as_ptr(),
                order.len(),
                costs.as_ptr(),
                costs.len(),
                refill.into(),
                turns,
            )
        }
    }
}

#[cfg(feature = "linked")]
pub use linked::{Store, play, turns};
