//! Document 01's calls as plain data: what goes in, what comes out, and the trait of an engine that
//! answers and can be timed. A second implementation stands behind the same trait.

use std::fmt;
use std::ops::Range;

/// Left, top, right, bottom in pixels, right and bottom exclusive.
pub type Rectangle = [i32; 4];

/// Left, top, right, bottom in cells, all inclusive.
pub type CellBox = [i32; 4];

/// One byte a cell, row by row, 1 walkable and 0 not.
#[derive(Debug, Clone, Eq, PartialEq)]
pub struct Map {
    pub width: u32,
    pub height: u32,
    pub cells: Vec<u8>,
}

#[derive(Debug, Clone, Eq, PartialEq)]
pub struct FieldCall {
    pub map: Map,
    /// 8 or 16.
    pub lanes: usize,
    pub blockers: Vec<Rectangle>,
    pub resources: Vec<Rectangle>,
    pub targets: CellBox,
}

#[derive(Debug, Copy, Clone, Eq, PartialEq)]
pub struct Window {
    pub left: u32,
    pub top: u32,
    pub width: u32,
    pub height: u32,
}

/// The used parts of a field call's buffers. With a window of W by H, `lanes` holds (W+2)(H+2) times
/// the call's lanes, `walk` and `flags` (W+2)(H+2) bytes, and `row_intervals` 2H numbers. With no
/// resources the window is 0 by 0 and nothing is used.
#[derive(Debug, Clone, Eq, PartialEq)]
pub struct Field {
    pub window: Window,
    pub sweeps: u32,
    pub lane_count: usize,
    pub lanes: Vec<i16>,
    pub walk: Vec<u8>,
    pub flags: Vec<u8>,
    pub row_intervals: Vec<u16>,
}

impl Field {
    /// The part of `lanes` that belongs to a cell, or `None` for a cell that is not in the window.
    pub fn part(&self, x: u32, y: u32) -> Option<Range<usize>> {
        let column = x.checked_sub(self.window.left)?;
        let row = y.checked_sub(self.window.top)?;
        if column >= self.window.width || row >= self.window.height {
            return None;
        }
        let stride = self.window.width as usize + 2;
        let index = (row as usize + 1) * stride + column as usize + 1;
        Some(index * self.lane_count..(index + 1) * self.lane_count)
    }

    /// The lanes of a cell, or `None` for a cell that is not in the window.
    pub fn reading(&self, x: u32, y: u32) -> Option<&[i16]> {
        self.part(x, y).map(|part| &self.lanes[part])
    }
}

/// Access cells of several resources: indices of cells, and for each resource the end of its part.
#[derive(Debug, Clone, Default, Eq, PartialEq)]
pub struct AccessLists {
    pub cells: Vec<u32>,
    pub ends: Vec<u32>,
}

impl AccessLists {
    pub fn push(&mut self, access_cells: &[u32]) {
        self.cells.extend_from_slice(access_cells);
        self.ends.push(self.cells.len() as u32);
    }

    /// Each resource's part, in order.
    pub fn parts(&self) -> impl Iterator<Item = &[u32]> {
        let mut start = 0;
        self.ends.iter().map(move |&end| {
            let part = &self.cells[start..end as usize];
            start = end as usize;
            part
        })
    }
}

/// One call whose inputs are laid out as the engine wants them, to be run again and again.
pub type Run<'a> = Box<dyn FnMut() + 'a>;

/// Answers accepted calls. What document 01 refuses is not asked. Laying out the inputs is not part of
/// a run.
pub trait Engine {
    fn name(&self) -> &str;

    fn field(&self, call: &FieldCall) -> Field;

    /// The walkable ring cells of a rectangle, as indices by row, then column.
    fn access_cells(&self, map: &Map, rectangle: Rectangle) -> Vec<u32>;

    /// The access cells of each of several resources.
    fn access_lists(&self, map: &Map, resources: &[Rectangle]) -> AccessLists;

    /// One field number per resource.
    fn fields(&self, map: &Map, access: &AccessLists) -> Vec<u16>;

    /// The field call, to be timed.
    fn field_run<'a>(&'a self, call: &'a FieldCall) -> Run<'a>;

    /// The access cells of all resources, to be timed.
    fn access_run<'a>(&'a self, map: &'a Map, resources: &'a [Rectangle]) -> Run<'a>;

    /// The fields of resources, to be timed.
    fn fields_run<'a>(&'a self, map: &'a Map, access: &'a AccessLists) -> Run<'a>;
}

/// A refusal's number and place, from document 01's table.
#[derive(Debug, Copy, Clone, Eq, PartialEq)]
pub struct Refusal {
    pub number: u32,
    pub place: usize,
}

impl fmt::Display for Refusal {
    fn fmt(&self, formatter: &mut fmt::Formatter<'_>) -> fmt::Result {
        write!(formatter, "refused {} {}", self.number, self.place)
    }
}

/// The largest width and height of a map.
pub const LARGEST_SIDE: u32 = 1_024;

pub const MOST_BLOCKERS: usize = 4_096;

/// The most resources whose access cells are listed or which are joined in one call.
pub const MOST_RESOURCES: usize = 512;

impl FieldCall {
    /// Judges refusals 1 to 6 in the field call's order.
    pub fn judge(&self) -> Result<(), Refusal> {
        let refused = |number, place| Err(Refusal { number, place });
        let (width, height) = (self.map.width, self.map.height);
        if !(1..=LARGEST_SIDE).contains(&width)
            || !(1..=LARGEST_SIDE).contains(&height)
            || self.map.cells.len() != width as usize * height as usize
            || self.map.cells.iter().any(|&byte| byte > 1)
        {
            return refused(1, 0);
        }
        if self.lanes != 8 && self.lanes != 16 {
            return refused(2, 0);
        }
        if self.resources.len() > self.lanes {
            return refused(3, 0);
        }
        let (width, height) = (width as i32, height as i32);
        let bad_resource = |&[left, top, right, bottom]: &Rectangle| {
            let across = 0 <= left && left < right && right <= 8 * width;
            let down = 0 <= top && top < bottom && bottom <= 8 * height;
            !(across && down)
        };
        if let Some(place) = self.resources.iter().position(bad_resource) {
            return refused(4, place);
        }
        if self.blockers.len() > MOST_BLOCKERS {
            return refused(5, 0);
        }
        let [left, top, right, bottom] = self.targets;
        let across = 0 <= left && left <= right && right < width;
        let down = 0 <= top && top <= bottom && bottom < height;
        if !(across && down) {
            return refused(6, 0);
        }
        Ok(())
    }
}
