//! The walk costs of several resources around a target box.

use crate::exports::{self, FieldBuffers};
use crate::map::{lengthen, set_numbers};
use crate::{CellBox, Grid, LARGEST_SIDE, PixelRect, Refusal};

/// How far a field reaches, in straight steps.
const REACH: i64 = 96;

/// The largest half cost of a lane.
pub const HALF_CAP: u16 = 48_000;

/// A lane holds the half cost minus this.
const BIAS: i32 = 15_234;

/// The half cost that a lane holds, or `None` where it is unreachable. A lane below half cost 0,
/// which no field has, is unreachable too.
#[inline]
pub fn half_cost(lane: i16) -> Option<u16> {
    let cost = u16::try_from(i32::from(lane) + BIAS).ok()?;
    (cost <= HALF_CAP).then_some(cost)
}

/// The part of a map that a field was computed for, in cells. It is 0 by 0 with no resources.
#[derive(Debug, Copy, Clone, Default, Eq, PartialEq)]
pub struct Window {
    pub left: u32,
    pub top: u32,
    pub width: u32,
    pub height: u32,
}

/// The walk costs of at most `L` resources around a target box, and the buffers to compute them in,
/// which are reused from one computation to the next. `L` is 8 or 16; any other is an error when
/// the program is compiled:
///
/// ```compile_fail
/// let field = cerandool::ProximityField::<9>::new();
/// ```
#[derive(Debug, Clone)]
pub struct ProximityField<const L: usize> {
    window: Window,
    sweeps: u32,
    lanes: Vec<i16>,
    walk: Vec<u8>,
    flags: Vec<u8>,
    rows: Vec<u16>,
    versions: Vec<u32>,
    pulled_down: Vec<u32>,
    pulled_up: Vec<u32>,
    blockers: Vec<i32>,
    resources: Vec<i32>,
}

impl<const L: usize> Default for ProximityField<L> {
    fn default() -> Self {
        Self::new()
    }
}

impl<const L: usize> ProximityField<L> {
    /// A field that has nothing computed: its window is 0 by 0.
    pub fn new() -> Self {
        const { assert!(L == 8 || L == 16, "a field has 8 or 16 lanes") };
        Self {
            window: Window::default(),
            sweeps: 0,
            lanes: Vec::new(),
            walk: Vec::new(),
            flags: Vec::new(),
            rows: Vec::new(),
            versions: Vec::new(),
            pulled_down: Vec::new(),
            pulled_up: Vec::new(),
            blockers: Vec::new(),
            resources: Vec::new(),
        }
    }

    /// Computes lane `i`'s costs from the walkable cells that border `resources[i]`, on `grid` with
    /// the cells that `blockers` touch unwalkable. At each cell of `targets` a lane is the least cost
    /// of a walk, or unreachable where none costs at most [`HALF_CAP`]; other cells may read as
    /// unreachable. Lanes beyond the resources are unreachable everywhere.
    ///
    /// # Errors
    ///
    /// Refusals 1, 3, 4, 5 and 6. The field is then as it was before.
    pub fn compute(
        &mut self,
        grid: &Grid,
        blockers: &[PixelRect],
        resources: &[PixelRect],
        targets: CellBox,
    ) -> Result<(), Refusal> {
        set_numbers(&mut self.blockers, blockers);
        set_numbers(&mut self.resources, resources);
        self.make_room(grid, resources, targets);
        let answer = exports::field(
            grid,
            L as u32,
            &self.blockers,
            &self.resources,
            targets,
            FieldBuffers {
                lanes: &mut self.lanes,
                walk: &mut self.walk,
                flags: &mut self.flags,
                rows: &mut self.rows,
                versions: &mut self.versions,
                pulled_down: &mut self.pulled_down,
                pulled_up: &mut self.pulled_up,
            },
        );
        Refusal::judge(answer.number, answer.place)?;
        self.window = answer.window();
        self.sweeps = answer.sweeps;
        Ok(())
    }

    /// The lanes of a cell, or `None` for a cell that is not in the window.
    #[inline]
    pub fn at(&self, x: u32, y: u32) -> Option<&[i16; L]> {
        let part = exports::at(self.window, L as u32, &self.lanes, x, y);
        // An empty part is a cell outside.
        self.lanes[part.start..part.start + part.length]
            .try_into()
            .ok()
    }

    /// The window of the last computation.
    pub fn window(&self) -> Window {
        self.window
    }

    /// How many sweeps the last computation counts, the quiet one included.
    pub fn sweeps(&self) -> u32 {
        self.sweeps
    }

    /// Makes the buffers long enough for the window of a call. Any length does for a call that is
    /// refused.
    fn make_room(&mut self, grid: &Grid, resources: &[PixelRect], targets: CellBox) {
        let first = |low: fn(&PixelRect) -> i32| resources.iter().map(low).min();
        let last = |high: fn(&PixelRect) -> i32| resources.iter().map(high).max();
        let across = first(|r| r.left).zip(last(|r| r.right));
        let down = first(|r| r.top).zip(last(|r| r.bottom));
        let (Some(across), Some(down)) = (across, down) else {
            return;
        };
        let width = window_side(grid.width, across, (targets.x0, targets.x1));
        let height = window_side(grid.height, down, (targets.y0, targets.y1));
        let cells = (width + 2) * (height + 2);
        lengthen(&mut self.lanes, cells * L);
        lengthen(&mut self.walk, cells);
        lengthen(&mut self.flags, cells);
        lengthen(&mut self.rows, 2 * height);
        lengthen(&mut self.versions, height + 2);
        lengthen(&mut self.pulled_down, height + 2);
        lengthen(&mut self.pulled_up, height + 2);
    }
}

/// How many cells the window has along an axis of `side` cells: from the first and last pixels of
/// all resources, the last exclusive, and the first and last cells of the target box.
fn window_side(side: u32, pixels: (i32, i32), targets: (i32, i32)) -> usize {
    let last_cell = i64::from(side) - 1;
    let ring_start = (i64::from(pixels.0).div_euclid(8) - 1).max(0);
    let ring_end = ((i64::from(pixels.1) - 1).div_euclid(8) + 1).min(last_cell);
    let start = (ring_start + i64::from(targets.0) - REACH)
        .div_euclid(2)
        .max(0);
    let end = (ring_end + i64::from(targets.1) + REACH)
        .div_euclid(2)
        .min(last_cell);
    (end - start + 1).clamp(0, i64::from(LARGEST_SIDE)) as usize
}
