//! What goes into a call.

/// The largest width and height of a map.
pub const LARGEST_SIDE: u32 = 1_024;

/// The most blockers of a field call.
pub const MOST_BLOCKERS: usize = 4_096;

/// The most resources that are listed or joined in one call.
pub const MOST_RESOURCES: usize = 512;

/// A map of walk cells: one byte a cell, row by row, 1 walkable and 0 not.
#[derive(Debug, Copy, Clone, Eq, PartialEq)]
pub struct Grid<'a> {
    pub width: u32,
    pub height: u32,
    pub cells: &'a [u8],
}

impl Grid<'_> {
    /// The column and row of a cell that is given by its index, or `None` where there is none.
    pub fn position(&self, index: u32) -> Option<(u32, u32)> {
        let row = index.checked_div(self.width)?;
        (row < self.height).then_some((index % self.width, row))
    }
}

/// A rectangle in pixels, right and bottom exclusive. A walk cell is 8 by 8 pixels.
#[derive(Debug, Copy, Clone, Eq, PartialEq)]
pub struct PixelRect {
    pub left: i32,
    pub top: i32,
    pub right: i32,
    pub bottom: i32,
}

impl From<[i32; 4]> for PixelRect {
    fn from([left, top, right, bottom]: [i32; 4]) -> Self {
        Self {
            left,
            top,
            right,
            bottom,
        }
    }
}

/// A box of walk cells, all four edges inclusive.
#[derive(Debug, Copy, Clone, Eq, PartialEq)]
pub struct CellBox {
    pub x0: i32,
    pub y0: i32,
    pub x1: i32,
    pub y1: i32,
}

impl From<[i32; 4]> for CellBox {
    fn from([x0, y0, x1, y1]: [i32; 4]) -> Self {
        Self { x0, y0, x1, y1 }
    }
}

/// Replaces a buffer's content by the rectangles' numbers, in fours.
pub(crate) fn set_numbers(numbers: &mut Vec<i32>, rectangles: &[PixelRect]) {
    numbers.clear();
    numbers.extend(
        rectangles
            .iter()
            .flat_map(|r| [r.left, r.top, r.right, r.bottom]),
    );
}

/// Makes a buffer long enough. It never becomes shorter, and what it holds stays.
pub(crate) fn lengthen<T: Clone + Default>(buffer: &mut Vec<T>, length: usize) {
    if buffer.len() < length {
        buffer.resize(length, T::default());
    }
}
