//! Memories: flat, banked, and a full scan or a line on top of any of them.

use crate::most::HELD;
use crate::refusal::{Reason, Refusal};

/// How many cells of a flat memory count.
pub const MOST_FLAT: usize = 65_536;
/// The longest list of marks.
pub const MOST_MARKS: usize = 1_000_000;
pub const BANKED: usize = 1_024;
const BANKS: usize = 4;
const MOST_EXPONENT: u32 = 6;

#[derive(Clone, Copy, Debug, PartialEq, Eq)]
pub enum Access {
    Read,
    Write,
}

/// A table as a memory sees it: its first cell and its length.
#[derive(Clone, Copy, Debug, PartialEq, Eq)]
pub struct Window {
    pub first: usize,
    pub len: usize,
}

/// `get` and `set` are the accesses without the tests: they ask for an offset below the length of
/// a table within the cells, and for room for the marks. `read` and `write` test.
pub trait Memory {
    fn cells(&self) -> &[u32];
    fn hides(&self) -> bool;
    /// How many marks one access shows, held at 1,000,001.
    fn cost(&self, access: Access, len: usize) -> usize;
    fn free(&self) -> usize;
    fn marks(&self) -> usize;
    fn mark(&self, number: usize) -> Option<u32>;
    fn clear(&mut self);
    fn get(&mut self, table: Window, off: usize) -> u32;
    fn set(&mut self, table: Window, off: usize, word: u32);

    fn size(&self) -> usize {
        self.cells().len()
    }

    /// Reads every cell of the table in turn, and answers the one at the offset.
    fn scan_get(&mut self, table: Window, off: usize) -> u32 {
        let mut found = 0;
        for i in 0..table.len {
            let word = self.get(table, i);
            found = if i == off { word } else { found };
        }
        found
    }

    /// Reads and writes every cell of the table in turn; only the one at the offset changes.
    fn scan_set(&mut self, table: Window, off: usize, word: u32) {
        for i in 0..table.len {
            let old = self.get(table, i);
            self.set(table, i, if i == off { word } else { old });
        }
    }

    fn denial(&self, access: Access, table: Window, off: usize) -> Result<(), Refusal> {
        let end = table.first.checked_add(table.len);
        let inside = off < table.len && end.is_some_and(|end| end <= self.size());
        Reason::OutsideTable.unless(inside)?;
        Reason::NoRoomForMarks.unless(self.cost(access, table.len) <= self.free())
    }

    fn read(&mut self, table: Window, off: usize) -> Result<u32, Refusal> {
        self.denial(Access::Read, table, off)?;
        Ok(self.get(table, off))
    }

    fn write(&mut self, table: Window, off: usize, word: u32) -> Result<(), Refusal> {
        self.denial(Access::Write, table, off)?;
        self.set(table, off, word);
        Ok(())
    }
}

/// A memory with cells of its own. An access to cell c shows c div `ROW`. The list for the marks
/// has its full length from the start, and its first `count` entries are the marks seen.
pub struct Leaf<const ROW: usize> {
    cells: Vec<u32>,
    list: Vec<u32>,
    count: usize,
}

pub type Flat = Leaf<1>;
/// Cell c is at row c div 4 of bank c mod 4, so that the cells of a row lie side by side.
pub type Banked = Leaf<BANKS>;

impl Flat {
    /// Cells from 65,536 on do not count, and are dropped.
    pub fn new(mut cells: Vec<u32>, limit: usize) -> Self {
        cells.truncate(MOST_FLAT);
        Leaf::over(cells, limit)
    }
}

impl Banked {
    pub fn new(limit: usize) -> Self {
        Leaf::over(vec![0; BANKED], limit)
    }

    /// Cells that are missing are 0, and those that are too many are dropped.
    pub fn with_cells(mut cells: Vec<u32>, limit: usize) -> Self {
        cells.resize(BANKED, 0);
        Leaf::over(cells, limit)
    }
}

impl<const ROW: usize> Leaf<ROW> {
    fn over(cells: Vec<u32>, limit: usize) -> Self {
        let list = vec![0; limit.min(MOST_MARKS)];
        Leaf {
            cells,
            list,
            count: 0,
        }
    }

    /// The cells, and the marks seen.
    pub fn into_parts(mut self) -> (Vec<u32>, Vec<u32>) {
        self.list.truncate(self.count);
        (self.cells, self.list)
    }

    #[inline]
    fn note(&mut self, cell: usize) {
        self.list[self.count] = (cell / ROW) as u32;
        self.count += 1;
    }

    /// The next entries of the list, which are to be filled.
    fn fresh(&mut self, marks: usize) -> &mut [u32] {
        let before = self.count;
        self.count += marks;
        &mut self.list[before..self.count]
    }
}

impl<const ROW: usize> Memory for Leaf<ROW> {
    fn cells(&self) -> &[u32] {
        &self.cells
    }

    fn hides(&self) -> bool {
        false
    }

    fn cost(&self, _: Access, _: usize) -> usize {
        1
    }

    fn free(&self) -> usize {
        self.list.len() - self.count
    }

    fn marks(&self) -> usize {
        self.count
    }

    fn mark(&self, number: usize) -> Option<u32> {
        self.list[..self.count].get(number).copied()
    }

    fn clear(&mut self) {
        self.count = 0;
    }

    #[inline]
    fn get(&mut self, table: Window, off: usize) -> u32 {
        let cell = table.first + off;
        self.note(cell);
        self.cells[cell]
    }

    #[inline]
    fn set(&mut self, table: Window, off: usize, word: u32) {
        let cell = table.first + off;
        self.note(cell);
        self.cells[cell] = word;
    }

    // The same as a loop of accesses, with the marks apart from the cells so that each is quick.
    fn scan_get(&mut self, table: Window, off: usize) -> u32 {
        let cells = table.first..table.first + table.len;
        for (mark, cell) in self.fresh(table.len).iter_mut().zip(cells.clone()) {
            *mark = (cell / ROW) as u32;
        }
        // At most one word is kept, so they may be joined in any order, several at a time.
        let off = off as u32;
        let kept = (0u32..).zip(&self.cells[cells]);
        kept.fold(0, |found, (i, &word)| {
            found | if i == off { word } else { 0 }
        })
    }

    fn scan_set(&mut self, table: Window, off: usize, word: u32) {
        let cells = table.first..table.first + table.len;
        let pairs = self.fresh(2 * table.len).as_chunks_mut().0;
        for (pair, cell) in pairs.iter_mut().zip(cells.clone()) {
            *pair = [(cell / ROW) as u32; 2];
        }
        let off = off as u32;
        for (i, cell) in (0u32..).zip(&mut self.cells[cells]) {
            *cell = if i == off { word } else { *cell };
        }
    }
}

/// Hands the methods that a layer does not change to the memory below.
macro_rules! as_below {
    () => {
        fn cells(&self) -> &[u32] {
            self.below.cells()
        }

        fn free(&self) -> usize {
            self.below.free()
        }

        fn marks(&self) -> usize {
            self.below.marks()
        }

        fn clear(&mut self) {
            self.below.clear();
        }
    };
}

/// Every access goes through the whole table, so that the offset does not show.
pub struct FullScan<M> {
    below: M,
}

impl<M: Memory> FullScan<M> {
    pub fn new(below: M) -> Self {
        FullScan { below }
    }

    pub fn into_below(self) -> M {
        self.below
    }
}

impl<M: Memory> Memory for FullScan<M> {
    as_below!();

    fn hides(&self) -> bool {
        true
    }

    fn cost(&self, access: Access, len: usize) -> usize {
        let read = self.below.cost(Access::Read, len);
        let each = match access {
            Access::Read => read,
            Access::Write => read + self.below.cost(Access::Write, len),
        };
        len.saturating_mul(each).min(HELD)
    }

    fn mark(&self, number: usize) -> Option<u32> {
        self.below.mark(number)
    }

    fn get(&mut self, table: Window, off: usize) -> u32 {
        self.below.scan_get(table, off)
    }

    fn set(&mut self, table: Window, off: usize, word: u32) {
        self.below.scan_set(table, off, word);
    }
}

/// An observer sees only which line a mark is in. The marks below stay as they are.
pub struct Line<M> {
    below: M,
    shift: u32,
}

impl<M: Memory> Line<M> {
    /// An exponent above 6 counts as 6.
    pub fn new(below: M, exponent: u32) -> Self {
        Line {
            below,
            shift: exponent.min(MOST_EXPONENT),
        }
    }

    /// Several lines on top of each other: their exponents, each held, add up.
    pub fn several(below: M, exponents: impl IntoIterator<Item = u32>) -> Self {
        let shift = exponents
            .into_iter()
            .map(|e| e.min(MOST_EXPONENT))
            .sum::<u32>()
            .min(31);
        Line { below, shift }
    }

    pub fn into_below(self) -> M {
        self.below
    }
}

impl<M: Memory> Memory for Line<M> {
    as_below!();

    fn hides(&self) -> bool {
        self.below.hides()
    }

    fn cost(&self, access: Access, len: usize) -> usize {
        self.below.cost(access, len)
    }

    fn mark(&self, number: usize) -> Option<u32> {
        self.below.mark(number).map(|mark| mark >> self.shift)
    }

    #[inline]
    fn get(&mut self, table: Window, off: usize) -> u32 {
        self.below.get(table, off)
    }

    #[inline]
    fn set(&mut self, table: Window, off: usize, word: u32) {
        self.below.set(table, off, word);
    }

    fn scan_get(&mut self, table: Window, off: usize) -> u32 {
        self.below.scan_get(table, off)
    }

    fn scan_set(&mut self, table: Window, off: usize, word: u32) {
        self.below.scan_set(table, off, word);
    }
}

impl<M: Memory + ?Sized> Memory for Box<M> {
    fn cells(&self) -> &[u32] {
        (**self).cells()
    }

    fn hides(&self) -> bool {
        (**self).hides()
    }

    fn cost(&self, access: Access, len: usize) -> usize {
        (**self).cost(access, len)
    }

    fn free(&self) -> usize {
        (**self).free()
    }

    fn marks(&self) -> usize {
        (**self).marks()
    }

    fn mark(&self, number: usize) -> Option<u32> {
        (**self).mark(number)
    }

    fn clear(&mut self) {
        (**self).clear();
    }

    fn get(&mut self, table: Window, off: usize) -> u32 {
        (**self).get(table, off)
    }

    fn set(&mut self, table: Window, off: usize, word: u32) {
        (**self).set(table, off, word);
    }

    fn scan_get(&mut self, table: Window, off: usize) -> u32 {
        (**self).scan_get(table, off)
    }

    fn scan_set(&mut self, table: Window, off: usize, word: u32) {
        (**self).scan_set(table, off, word);
    }
}
