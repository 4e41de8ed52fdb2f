//! Buffers that end where a page begins that faults when touched, or begin where one ends.

use crate::system::{between_pages, PAGE};
use compare::lent::Fillings;
use second::generate::prng::Prng;
use std::fmt::LowerHex;

/// Cells on the open side of a buffer that are filled, and looked at after a call.
const SLACK: usize = 32;

pub struct Paged<T> {
    memory: *mut T,
    capacity: usize,
    /// The buffer's first cell, and how many it has.
    first: usize,
    room: usize,
    /// The cells from `left` on, before the call: slack and buffer.
    left: usize,
    before: Vec<T>,
}

impl<T: Copy + PartialEq + LowerHex> Paged<T> {
    /// Memory for buffers of at most so many cells.
    pub fn new(most: usize) -> Paged<T> {
        let size = ((most + SLACK) * size_of::<T>()).next_multiple_of(PAGE);
        Paged {
            memory: between_pages(size).cast(),
            capacity: size / size_of::<T>(),
            first: 0,
            room: 0,
            left: 0,
            before: Vec::new(),
        }
    }

    /// A buffer of so many cells at one of both ends.
    pub fn lend(&mut self, rng: &mut Prng, fillings: &Fillings<T>, room: usize) {
        let slack = SLACK.min(self.capacity - room);
        let at_end = !rng.one_in(4);
        self.room = room;
        self.first = if at_end { self.capacity - room } else { 0 };
        self.left = if at_end { self.first - slack } else { 0 };
        self.before = fillings.cells(rng, room + slack).to_vec();
        self.store();
    }

    /// A buffer that holds an input.
    pub fn hold(&mut self, rng: &mut Prng, fillings: &Fillings<T>, input: &[T]) {
        self.lend(rng, fillings, input.len());
        let inside = self.first - self.left;
        self.before[inside..inside + input.len()].copy_from_slice(input);
        self.store();
    }

    fn store(&mut self) {
        unsafe {
            let from = self.memory.add(self.left);
            from.copy_from_nonoverlapping(self.before.as_ptr(), self.before.len());
        }
    }

    pub fn pointer(&self) -> *mut T {
        unsafe { self.memory.add(self.first) }
    }

    pub fn room(&self) -> usize {
        self.room
    }

    /// The first cell that is not as due, in words: `written` from the front of the buffer on, all others as before.
    pub fn misfit(&self, written: &[T]) -> Option<String> {
        let cells =
            unsafe { std::slice::from_raw_parts(self.memory.add(self.left), self.before.len()) };
        let front = self.first - self.left;
        let due = |at: usize| match at.checked_sub(front) {
            Some(inside) if inside < written.len() => written[inside],
            _ => self.before[at],
        };
        let end = front + written.len();
        let fits = cells[..front] == self.before[..front]
            && cells[front..end] == *written
            && cells[end..] == self.before[end..];
        if fits {
            return None;
        }
        let at = (0..cells.len()).find(|at| cells[*at] != due(*at))?;
        let cell = at as isize - front as isize;
        let room = self.room;
        let (left, due) = (cells[at], due(at));
        Some(format!(
            "cell {cell} of {room}: library {left:#x}, due {due:#x}"
        ))
    }
}
