//! What the unchanged files lean on from broodmap's `lib.rs` and `obstacles.rs`.
//!
//! `WalkPosition`, `TerrainCell` and `TerrainGrid` with `width`, `height`, `cells`, `cell`, `index`
//! and `position` are taken from `broodmap-analysis/src/lib.rs`. A cell keeps all four of its
//! members, so that it takes the same room in memory. `PixelRect` is not in the published text: its
//! four members are those that the unchanged files read, with document 01's meaning.

/// An 8-pixel walk-cell coordinate.
#[derive(Debug, Copy, Clone, Eq, PartialEq)]
pub struct WalkPosition {
    pub x: u32,
    pub y: u32,
}

/// Terrain attributes for one 8x8-pixel walk cell.
#[derive(Debug, Copy, Clone, Eq, PartialEq)]
pub struct TerrainCell {
    pub walkable: bool,
    pub terrain_buildable: bool,
    pub elevation: u8,
    pub ramp: bool,
}

/// A rectangle in pixels, right and bottom exclusive.
#[derive(Debug, Copy, Clone, Eq, PartialEq)]
pub struct PixelRect {
    pub left: i32,
    pub top: i32,
    pub right: i32,
    pub bottom: i32,
}

#[derive(Debug, Clone, Eq, PartialEq)]
pub struct TerrainGrid {
    width: u32,
    height: u32,
    cells: Vec<TerrainCell>,
}

impl TerrainGrid {
    /// Stands for `from_cells`: the sizes are judged before a call is made.
    pub(crate) fn from_walkable(width: u32, height: u32, cells: &[u8]) -> Self {
        let cells = cells
            .iter()
            .map(|&byte| TerrainCell {
                walkable: byte == 1,
                terrain_buildable: false,
                elevation: 0,
                ramp: false,
            })
            .collect();
        Self {
            width,
            height,
            cells,
        }
    }

    pub fn width(&self) -> u32 {
        self.width
    }

    pub fn height(&self) -> u32 {
        self.height
    }

    pub fn cells(&self) -> &[TerrainCell] {
        &self.cells
    }

    pub fn cell(&self, position: WalkPosition) -> Option<&TerrainCell> {
        self.index(position).and_then(|index| self.cells.get(index))
    }

    pub(crate) fn index(&self, position: WalkPosition) -> Option<usize> {
        if position.x >= self.width || position.y >= self.height {
            return None;
        }
        let index = (position.y as usize)
            .checked_mul(self.width as usize)?
            .checked_add(position.x as usize)?;
        (index < self.cells.len()).then_some(index)
    }

    pub(crate) fn position(&self, index: usize) -> WalkPosition {
        let width = self.width as usize;
        WalkPosition {
            x: (index % width) as u32,
            y: (index / width) as u32,
        }
    }
}
