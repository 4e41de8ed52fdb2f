//! Lent buffers: a room between two guards, everything filled beforehand, so that each cell that a call may not change is seen to stay.

use second::generate::prng::Prng;
use std::fmt::LowerHex;
use std::sync::OnceLock;

/// Cells before and after a room that no call may touch. The number is odd, so that a room of bytes begins at an odd address.
pub const GUARD: usize = 61;

/// More than the rows of the largest table over the longest recording (8,192 rows of 256 bytes), with its guards.
const POOL: usize = 3 << 20;

/// What buffers are filled with: zeros, ones, or cells drawn once.
pub struct Fillings<T> {
    zeros: Vec<T>,
    ones: Vec<T>,
    drawn: Vec<T>,
}

impl<T: Copy + PartialEq + LowerHex> Fillings<T> {
    fn new(zero: T, one: T, mut draw: impl FnMut() -> T) -> Fillings<T> {
        Fillings {
            zeros: vec![zero; POOL],
            ones: vec![one; POOL],
            drawn: (0..POOL).map(|_| draw()).collect(),
        }
    }

    /// So many cells of one of the three kinds.
    pub fn cells(&self, rng: &mut Prng, size: usize) -> &[T] {
        let start = rng.below(POOL - size);
        let pool = match rng.below(4) {
            0 => &self.zeros,
            1 => &self.ones,
            _ => &self.drawn,
        };
        &pool[start..start + size]
    }

    /// A room with its guards.
    pub fn lend(&self, rng: &mut Prng, room: usize) -> Lent<'_, T> {
        let before = self.cells(rng, room + 2 * GUARD);
        Lent::new(before, GUARD)
    }

    /// A room full of ones that begins so many cells later than others do.
    pub fn lend_ones(&self, room: usize, later: usize) -> Lent<'_, T> {
        let guard = GUARD + later;
        Lent::new(&self.ones[..room + 2 * guard], guard)
    }
}

pub fn bytes() -> &'static Fillings<u8> {
    static BYTES: OnceLock<Fillings<u8>> = OnceLock::new();
    BYTES.get_or_init(|| {
        let mut rng = Prng::new(1);
        Fillings::new(0, u8::MAX, || rng.draw() as u8)
    })
}

pub fn words() -> &'static Fillings<u32> {
    static WORDS: OnceLock<Fillings<u32>> = OnceLock::new();
    WORDS.get_or_init(|| {
        let mut rng = Prng::new(2);
        Fillings::new(0, u32::MAX, || rng.draw() as u32)
    })
}

pub struct Lent<'f, T> {
    before: &'f [T],
    cells: Vec<T>,
    /// Cells before and after the room.
    guard: usize,
}

impl<T: Copy + PartialEq + LowerHex> Lent<'_, T> {
    fn new(before: &[T], guard: usize) -> Lent<'_, T> {
        Lent {
            before,
            cells: before.to_vec(),
            guard,
        }
    }

    pub fn room(&self) -> usize {
        self.cells.len() - 2 * self.guard
    }

    pub fn pointer(&mut self) -> *mut T {
        self.cells[self.guard..].as_mut_ptr()
    }

    /// The first cells of the room, as they stand.
    pub fn front(&self, size: usize) -> &[T] {
        &self.cells[self.guard..self.guard + size]
    }

    /// The first cell that is not as due, in words: `written` from the front of the room on, all others as before.
    pub fn misfit(&self, written: &[T]) -> Option<String> {
        let (front, end) = (self.guard, self.guard + written.len());
        let fits = self.cells[..front] == self.before[..front]
            && self.cells[front..end] == *written
            && self.cells[end..] == self.before[end..];
        if fits {
            return None;
        }
        let due = |at: usize| match at {
            at if at >= front && at < end => written[at - front],
            _ => self.before[at],
        };
        let at = (0..self.cells.len()).find(|at| self.cells[*at] != due(*at))?;
        let cell = at as isize - self.guard as isize;
        let (left, due) = (self.cells[at], due(at));
        Some(format!(
            "cell {cell} of a room of {}: library {left:#x}, due {due:#x}",
            self.room()
        ))
    }
}
