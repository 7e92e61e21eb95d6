//! Maps and resources that depend only on their sizes and a seed.

use crate::interface::{Map, Rectangle};

/// The 64-bit xorshift generator.
pub struct Random {
    state: u64,
}

impl Random {
    pub fn new(seed: u64) -> Self {
        // The state must not be 0, and close seeds should not give close maps.
        let mut random = Self {
            state: seed.wrapping_mul(0x9E37_79B9_7F4A_7C15) | 1,
        };
        for _ in 0..16 {
            random.bits();
        }
        random
    }

    /// Any number of 64 bits but 0.
    pub fn bits(&mut self) -> u64 {
        self.state ^= self.state << 13;
        self.state ^= self.state >> 7;
        self.state ^= self.state << 17;
        self.state
    }

    /// A number from 0 up to but not including `end`.
    pub fn below(&mut self, end: u32) -> u32 {
        (((self.bits() >> 32) * u64::from(end)) >> 32) as u32
    }

    /// A number from `low` to `high`, both included.
    pub fn between(&mut self, low: i32, high: i32) -> i32 {
        low + self.below((high - low + 1) as u32) as i32
    }

    /// True with a chance of so many percent.
    pub fn chance(&mut self, percent: u32) -> bool {
        self.below(100) < percent
    }

    /// One of several, which are not none.
    pub fn pick<T: Copy>(&mut self, several: &[T]) -> T {
        several[self.below(several.len() as u32) as usize]
    }
}

fn map_of(width: u32, height: u32, mut walkable: impl FnMut(u32, u32) -> bool) -> Map {
    let mut cells = Vec::with_capacity(width as usize * height as usize);
    for y in 0..height {
        for x in 0..width {
            cells.push(u8::from(walkable(x, y)));
        }
    }
    Map {
        width,
        height,
        cells,
    }
}

pub fn open(width: u32, height: u32) -> Map {
    map_of(width, height, |_, _| true)
}

/// Each cell is a wall with the same chance.
pub fn random_walls(width: u32, height: u32, percent: u32, seed: u64) -> Map {
    let mut random = Random::new(seed);
    map_of(width, height, |_, _| random.below(100) >= percent)
}

/// Bands seven rows high, crossed by upright walls with three open columns between them. A wall is
/// open at the top of its band and the next one at the bottom, so a walk along a band winds up and
/// down; the wall between two bands has an opening every 64 columns.
pub fn winding_walls(width: u32, height: u32) -> Map {
    map_of(width, height, |x, y| match (x % 4, y % 8) {
        (_, 7) => x % 64 == 0,
        (3, row) => row == if x / 4 % 2 == 0 { 0 } else { 6 },
        _ => true,
    })
}

/// Corridors one cell wide. Each runs along a band of two rows and changes row at every second step,
/// around teeth that reach in from both sides; a wall parts one band from the next, with one open
/// cell at alternating ends.
pub fn zigzag_comb(width: u32, height: u32) -> Map {
    map_of(width, height, |x, y| match y % 3 {
        0 => x % 4 != 1,
        1 => x % 4 != 3,
        _ => x == if y / 3 % 2 == 0 { width - 1 } else { 0 },
    })
}

/// Corridors one cell wide. The cells of even columns and rows are open; the walls between them are
/// open where a random walk went that turned back at each dead end, and each other one with the
/// chance of loops.
pub fn maze(width: u32, height: u32, loops_percent: u32, seed: u64) -> Map {
    let mut random = Random::new(seed);
    let mut map = map_of(width, height, |x, y| {
        let walls = x % 2 + y % 2;
        walls == 0 || walls == 1 && random.chance(loops_percent)
    });
    let index = |x: u32, y: u32| (y * width + x) as usize;
    let mut visited = vec![false; map.cells.len()];
    let mut path: Vec<(u32, u32)> = vec![(0, 0)];
    visited[0] = true;
    while let Some(&(x, y)) = path.last() {
        let steps = [
            (x.checked_sub(2), Some(y)),
            (x.checked_add(2).filter(|&x| x < width), Some(y)),
            (Some(x), y.checked_sub(2)),
            (Some(x), y.checked_add(2).filter(|&y| y < height)),
        ];
        let unvisited: Vec<(u32, u32)> = steps
            .into_iter()
            .filter_map(|(x, y)| x.zip(y))
            .filter(|&(x, y)| !visited[index(x, y)])
            .collect();
        if unvisited.is_empty() {
            path.pop();
            continue;
        }
        let next = random.pick(&unvisited);
        visited[index(next.0, next.1)] = true;
        map.cells[index(u32::midpoint(x, next.0), u32::midpoint(y, next.1))] = 1;
        path.push(next);
    }
    map
}

/// Open, but for walls along the map's border, each cell of which is open with the same chance.
pub fn bordered(width: u32, height: u32, open_percent: u32, seed: u64) -> Map {
    let mut random = Random::new(seed);
    map_of(width, height, |x, y| {
        let border = x == 0 || y == 0 || x == width - 1 || y == height - 1;
        !border || random.chance(open_percent)
    })
}

/// Open, but for rectangles of wall at random places, at most a quarter of a side long, or four
/// cells.
pub fn wall_blocks(width: u32, height: u32, count: u32, seed: u64) -> Map {
    let mut random = Random::new(seed);
    let mut map = open(width, height);
    for _ in 0..count {
        let (left, top) = (random.below(width), random.below(height));
        let right = (left + 1 + random.below(width.div_ceil(4).max(4))).min(width);
        let bottom = (top + 1 + random.below(height.div_ceil(4).max(4))).min(height);
        for y in top..bottom {
            map.cells[(y * width + left) as usize..(y * width + right) as usize].fill(0);
        }
    }
    map
}

/// The map with its columns in the opposite order.
pub fn mirrored(map: &Map) -> Map {
    map_of(map.width, map.height, |x, y| {
        map.cells[(y * map.width + map.width - 1 - x) as usize] == 1
    })
}

/// The map with its columns as rows.
pub fn transposed(map: &Map) -> Map {
    map_of(map.height, map.width, |x, y| {
        map.cells[(x * map.width + y) as usize] == 1
    })
}

/// The size of a mineral in cells.
const MINERAL: (u32, u32) = (8, 4);

/// A mineral with its top left corner at a cell.
pub fn mineral(x: u32, y: u32) -> Rectangle {
    let (width, height) = MINERAL;
    [x, y, x + width, y + height].map(|cell| cell as i32 * 8)
}

/// Minerals in rows of four, two cells apart, from the cell at the top left.
pub fn mineral_block(left: u32, top: u32, count: u32) -> Vec<Rectangle> {
    let (width, height) = MINERAL;
    (0..count)
        .map(|index| {
            mineral(
                left + index % 4 * (width + 2),
                top + index / 4 * (height + 2),
            )
        })
        .collect()
}

/// Minerals at random places.
pub fn spread_minerals(width: u32, height: u32, count: u32, seed: u64) -> Vec<Rectangle> {
    let mut random = Random::new(seed);
    (0..count)
        .map(|_| {
            mineral(
                random.below(width - MINERAL.0),
                random.below(height - MINERAL.1),
            )
        })
        .collect()
}

/// Minerals in blocks of eight at random places; `count` is a multiple of eight.
pub fn clustered_minerals(width: u32, height: u32, count: u32, seed: u64) -> Vec<Rectangle> {
    let (block_width, block_height) = (4 * (MINERAL.0 + 2), 2 * (MINERAL.1 + 2));
    let mut random = Random::new(seed);
    (0..count / 8)
        .flat_map(|_| {
            mineral_block(
                random.below(width - block_width),
                random.below(height - block_height),
                8,
            )
        })
        .collect()
}
