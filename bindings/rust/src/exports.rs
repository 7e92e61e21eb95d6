//! The static library's exports, `crates/cerandool/src/lib.rt`, as safe calls on slices.
//!
//! They require nothing, so nothing is tested here: what the table of refusals names is refused by
//! the library, and a refused call writes nothing. The other modules of this crate own the buffers
//! that are lent here. All unsafe code is in this module.

#![allow(unsafe_code)]

use crate::{CellBox, Grid, PixelRect, Window};

/// The answer to a field call. Accepted: `number` and `place` are 0, then the window with its lanes,
/// and the sweep count. Refused: the table's number and place, and the rest is 0.
#[repr(C)]
#[derive(Debug, Copy, Clone, Default, Eq, PartialEq)]
pub struct FieldAnswer {
    pub number: u32,
    pub place: u32,
    pub left: u32,
    pub top: u32,
    pub width: u32,
    pub height: u32,
    pub lanes: u32,
    pub sweeps: u32,
}

impl FieldAnswer {
    pub fn window(&self) -> Window {
        Window {
            left: self.left,
            top: self.top,
            width: self.width,
            height: self.height,
        }
    }
}

/// The answer to the other calls. Accepted: `number` and `place` are 0, and how many access cells or
/// fields there are. Refused: the table's number and place, and `count` is 0.
#[repr(C)]
#[derive(Debug, Copy, Clone, Default, Eq, PartialEq)]
pub struct CountAnswer {
    pub number: u32,
    pub place: u32,
    pub count: u32,
}

/// The part of the lent lanes that belongs to a cell. Both are 0 for a cell outside.
#[repr(C)]
#[derive(Debug, Copy, Clone, Default, Eq, PartialEq)]
pub struct Part {
    pub start: usize,
    pub length: usize,
}

// A slice of the library's source is a pointer and a length here.
unsafe extern "C" {
    fn cerandool_field(
        width: u32,
        height: u32,
        cells: *const u8,
        cells_length: usize,
        lanes: u32,
        blockers: *const i32,
        blockers_length: usize,
        resources: *const i32,
        resources_length: usize,
        left: i32,
        top: i32,
        right: i32,
        bottom: i32,
        lane_values: *mut i16,
        lane_values_length: usize,
        walk: *mut u8,
        walk_length: usize,
        flags: *mut u8,
        flags_length: usize,
        rows: *mut u16,
        rows_length: usize,
        versions: *mut u32,
        versions_length: usize,
        pulled_down: *mut u32,
        pulled_down_length: usize,
        pulled_up: *mut u32,
        pulled_up_length: usize,
    ) -> FieldAnswer;

    fn cerandool_at(
        left: u32,
        top: u32,
        width: u32,
        height: u32,
        lanes: u32,
        lane_values: *const i16,
        lane_values_length: usize,
        x: u32,
        y: u32,
    ) -> Part;

    fn cerandool_access(
        width: u32,
        height: u32,
        cells: *const u8,
        cells_length: usize,
        left: i32,
        top: i32,
        right: i32,
        bottom: i32,
        out: *mut u32,
        out_length: usize,
    ) -> CountAnswer;

    fn cerandool_access_lists(
        width: u32,
        height: u32,
        cells: *const u8,
        cells_length: usize,
        rectangles: *const i32,
        rectangles_length: usize,
        indices: *mut u32,
        indices_length: usize,
        ends: *mut u32,
        ends_length: usize,
    ) -> CountAnswer;

    fn cerandool_fields(
        width: u32,
        height: u32,
        cells: *const u8,
        cells_length: usize,
        indices: *const u32,
        indices_length: usize,
        ends: *const u32,
        ends_length: usize,
        states: *mut u16,
        states_length: usize,
        queue: *mut u32,
        queue_length: usize,
        parents: *mut u16,
        parents_length: usize,
        ranks: *mut u8,
        ranks_length: usize,
        answers: *mut u16,
        answers_length: usize,
    ) -> CountAnswer;

    fn cerandool_sheet(
        text: *const u8,
        text_length: usize,
        out: *mut u8,
        out_length: usize,
    ) -> usize;
}

/// The buffers that a field call is lent. With a window of W by H and P = (W+2)(H+2) it needs P
/// times the lanes, P, P, 2H, and three times H+2 entries; with no resources, none.
#[derive(Debug)]
pub struct FieldBuffers<'a> {
    pub lanes: &'a mut [i16],
    pub walk: &'a mut [u8],
    pub flags: &'a mut [u8],
    pub rows: &'a mut [u16],
    pub versions: &'a mut [u32],
    pub pulled_down: &'a mut [u32],
    pub pulled_up: &'a mut [u32],
}

/// The buffers that a fields call is lent. With C cells and n resources it needs C, C, n, n and n
/// entries.
#[derive(Debug)]
pub struct FieldsBuffers<'a> {
    pub states: &'a mut [u16],
    pub queue: &'a mut [u32],
    pub parents: &'a mut [u16],
    pub ranks: &'a mut [u8],
    pub answers: &'a mut [u16],
}

/// The field call. Blockers and resources are numbers in fours: left, top, right, bottom.
pub fn field(
    grid: &Grid,
    lanes: u32,
    blockers: &[i32],
    resources: &[i32],
    targets: CellBox,
    buffers: FieldBuffers,
) -> FieldAnswer {
    // Safety: each pointer comes with the length of its own slice, and a slice that is written
    // overlaps no other.
    unsafe {
        cerandool_field(
            grid.width,
            grid.height,
            grid.cells.as_ptr(),
            grid.cells.len(),
            lanes,
            blockers.as_ptr(),
            blockers.len(),
            resources.as_ptr(),
            resources.len(),
            targets.x0,
            targets.y0,
            targets.x1,
            targets.y1,
            buffers.lanes.as_mut_ptr(),
            buffers.lanes.len(),
            buffers.walk.as_mut_ptr(),
            buffers.walk.len(),
            buffers.flags.as_mut_ptr(),
            buffers.flags.len(),
            buffers.rows.as_mut_ptr(),
            buffers.rows.len(),
            buffers.versions.as_mut_ptr(),
            buffers.versions.len(),
            buffers.pulled_down.as_mut_ptr(),
            buffers.pulled_down.len(),
            buffers.pulled_up.as_mut_ptr(),
            buffers.pulled_up.len(),
        )
    }
}

/// Reading a cell: the part of `lane_values` that belongs to it, by a window record.
pub fn at(window: Window, lanes: u32, lane_values: &[i16], x: u32, y: u32) -> Part {
    // Safety: the pointer comes with the length of its slice, which is only read.
    unsafe {
        cerandool_at(
            window.left,
            window.top,
            window.width,
            window.height,
            lanes,
            lane_values.as_ptr(),
            lane_values.len(),
            x,
            y,
        )
    }
}

/// The access cells of a rectangle, as indices by row, then column.
pub fn access(grid: &Grid, rectangle: PixelRect, out: &mut [u32]) -> CountAnswer {
    // Safety: each pointer comes with the length of its own slice, and the one that is written
    // overlaps no other.
    unsafe {
        cerandool_access(
            grid.width,
            grid.height,
            grid.cells.as_ptr(),
            grid.cells.len(),
            rectangle.left,
            rectangle.top,
            rectangle.right,
            rectangle.bottom,
            out.as_mut_ptr(),
            out.len(),
        )
    }
}

/// The access cells of many rectangles, numbers in fours, one rectangle's after another's, and for
/// each rectangle where its own end.
pub fn access_lists(
    grid: &Grid,
    rectangles: &[i32],
    indices: &mut [u32],
    ends: &mut [u32],
) -> CountAnswer {
    // Safety: each pointer comes with the length of its own slice, and a slice that is written
    // overlaps no other.
    unsafe {
        cerandool_access_lists(
            grid.width,
            grid.height,
            grid.cells.as_ptr(),
            grid.cells.len(),
            rectangles.as_ptr(),
            rectangles.len(),
            indices.as_mut_ptr(),
            indices.len(),
            ends.as_mut_ptr(),
            ends.len(),
        )
    }
}

/// The fields of resources, each given by its access cells, in the form that [`access_lists`] writes.
pub fn fields(grid: &Grid, indices: &[u32], ends: &[u32], buffers: FieldsBuffers) -> CountAnswer {
    // Safety: each pointer comes with the length of its own slice, and a slice that is written
    // overlaps no other.
    unsafe {
        cerandool_fields(
            grid.width,
            grid.height,
            grid.cells.as_ptr(),
            grid.cells.len(),
            indices.as_ptr(),
            indices.len(),
            ends.as_ptr(),
            ends.len(),
            buffers.states.as_mut_ptr(),
            buffers.states.len(),
            buffers.queue.as_mut_ptr(),
            buffers.queue.len(),
            buffers.parents.as_mut_ptr(),
            buffers.parents.len(),
            buffers.ranks.as_mut_ptr(),
            buffers.ranks.len(),
            buffers.answers.as_mut_ptr(),
            buffers.answers.len(),
        )
    }
}

/// The sheet of a room text, or the line of its refusal, at the start of `out`: how many bytes. 0 where
/// `out` is too short for it, and then nothing is written.
pub fn sheet(text: &[u8], out: &mut [u8]) -> usize {
    // Safety: each pointer comes with the length of its own slice, and the two do not overlap.
    unsafe { cerandool_sheet(text.as_ptr(), text.len(), out.as_mut_ptr(), out.len()) }
}
