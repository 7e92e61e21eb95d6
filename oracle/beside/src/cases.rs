//! Random calls that document 01 accepts: maps of many kinds, with resources, blockers and a target
//! box, and resources to join. A call depends on the numbers of its generator alone.

use oracle::interface::{
    AccessLists, CellBox, FieldCall, LARGEST_SIDE, MOST_BLOCKERS, MOST_RESOURCES, Map, Rectangle,
};
use oracle::maps::{self, Random};

/// A kind of maps: its name, and how one is made.
struct Kind {
    name: &'static str,
    make: fn(&mut Random) -> Map,
}

const KINDS: [Kind; 10] = [
    Kind {
        name: "open",
        make: |random| {
            let (width, height) = sides(random);
            maps::open(width, height)
        },
    },
    Kind {
        name: "few walls",
        make: |random| random_walls(random, 1, 15),
    },
    Kind {
        name: "many walls",
        make: |random| random_walls(random, 16, 60),
    },
    Kind {
        name: "blocks of wall",
        make: |random| {
            let (width, height) = sides(random);
            let count = random.below(30);
            maps::wall_blocks(width, height, count, random.bits())
        },
    },
    Kind {
        name: "walls along the border",
        make: |random| {
            let (width, height) = sides(random);
            let open_percent = random.pick(&[0, 10, 50]);
            maps::bordered(width, height, open_percent, random.bits())
        },
    },
    Kind {
        name: "winding walls",
        make: |random| {
            let (width, height) = sides(random);
            maps::winding_walls(width, height)
        },
    },
    Kind {
        name: "zigzag comb",
        make: |random| {
            let (width, height) = sides(random);
            maps::zigzag_comb(width, height)
        },
    },
    Kind {
        name: "maze",
        make: |random| {
            let (width, height) = sides(random);
            let loops_percent = random.pick(&[0, 5, 30]);
            maps::maze(width, height, loops_percent, random.bits())
        },
    },
    Kind {
        name: "one cell high or wide",
        make: |random| {
            let longest = random.pick(&[200, 200, LARGEST_SIDE]);
            let length = random_length(random, longest);
            let percent = random.pick(&[0, 1, 10]);
            maps::random_walls(length, 1, percent, random.bits())
        },
    },
    Kind {
        name: "two cells high or wide",
        make: |random| {
            let length = random_length(random, 250);
            let percent = random.pick(&[0, 5, 20]);
            maps::random_walls(length, 2, percent, random.bits())
        },
    },
];

/// The largest maps, once in so many.
const LARGEST_ONE_IN: u32 = 500;
const LARGEST: Kind = Kind {
    name: "1,024 by 1,024",
    make: |random| {
        let seed = random.bits();
        match random.below(4) {
            0 => maps::random_walls(LARGEST_SIDE, LARGEST_SIDE, 30, seed),
            1 => maps::winding_walls(LARGEST_SIDE, LARGEST_SIDE),
            2 => maps::maze(LARGEST_SIDE, LARGEST_SIDE, 5, seed),
            _ => maps::wall_blocks(LARGEST_SIDE, LARGEST_SIDE, 200, seed),
        }
    },
};

/// The names of all kinds.
pub fn kinds() -> impl Iterator<Item = &'static str> {
    KINDS.iter().chain([&LARGEST]).map(|kind| kind.name)
}

/// A call, with the name of its map's kind.
pub fn random_call(random: &mut Random) -> (&'static str, FieldCall) {
    let kind = if random.below(LARGEST_ONE_IN) == 0 {
        &LARGEST
    } else {
        &KINDS[random.below(KINDS.len() as u32) as usize]
    };
    let mut map = (kind.make)(random);
    if random.chance(50) {
        map = maps::mirrored(&map);
    }
    if random.chance(50) {
        map = maps::transposed(&map);
    }
    if random.chance(50) {
        map = maps::mirrored(&map);
    }
    let lanes = random.pick(&[8, 16]);
    let resources = resources(random, &map, lanes);
    let blockers = blockers(random, &map, &resources);
    let targets = targets(random, &map, &resources);
    let call = FieldCall {
        map,
        lanes,
        blockers,
        resources,
        targets,
    };
    (kind.name, call)
}

/// The width and the height of a map.
fn sides(random: &mut Random) -> (u32, u32) {
    let (most_width, most_height) = match random.below(10) {
        0 => (4, 4),
        1..=6 => (40, 40),
        7 | 8 => (110, 110),
        _ => (260, 60),
    };
    (1 + random.below(most_width), 1 + random.below(most_height))
}

/// At most so long, but now and then the largest side.
fn random_length(random: &mut Random, longest: u32) -> u32 {
    if random.chance(5) {
        LARGEST_SIDE
    } else {
        1 + random.below(longest)
    }
}

fn random_walls(random: &mut Random, least_percent: i32, most_percent: i32) -> Map {
    let (width, height) = sides(random);
    let percent = random.between(least_percent, most_percent) as u32;
    maps::random_walls(width, height, percent, random.bits())
}

/// As many as lanes at most.
fn resources(random: &mut Random, map: &Map, lanes: usize) -> Vec<Rectangle> {
    let lanes = lanes as u32;
    let count = match random.below(20) {
        0 => 0,
        1..=5 => 1,
        6..=9 => lanes,
        _ => 1 + random.below(lanes),
    };
    rectangles(random, map, count, false)
}

/// Resources to list and join: from none to as many as there may be, and more of them on larger maps.
/// Most of the time they are small, so that they are several fields.
pub fn resources_to_join(random: &mut Random, map: &Map) -> Vec<Rectangle> {
    let count = count_to_join(random, map);
    let small = random.chance(75);
    rectangles(random, map, count, small)
}

fn count_to_join(random: &mut Random, map: &Map) -> u32 {
    let most = MOST_RESOURCES as u32;
    let usual = if map.cells.len() > 5_000 { most } else { 24 };
    match random.below(50) {
        0 => 0,
        1 => most,
        2 => 1 + random.below(most),
        3..=9 => 1,
        10..=19 => 2,
        20..=29 => 1 + random.below(8),
        _ => 1 + random.below(usual),
    }
}

/// Access cells as no rectangle has them: any cells in any order, some twice, some of them not
/// walkable, some resources without any.
pub fn access_to_join(random: &mut Random, map: &Map) -> AccessLists {
    let (width, height) = (map.width as i32, map.height as i32);
    let mut access = AccessLists::default();
    for _ in 0..count_to_join(random, map) {
        let home = [random.between(0, width - 1), random.between(0, height - 1)];
        let around = random.pick(&[0, 1, 4, 4, LARGEST_SIDE as i32]);
        let length = match random.below(10) {
            0 => 0,
            1..=4 => 1,
            5..=8 => 1 + random.below(6),
            _ => 1 + random.below(40),
        };
        let mut part: Vec<u32> = Vec::new();
        for _ in 0..length {
            if !part.is_empty() && random.chance(15) {
                part.push(random.pick(&part));
                continue;
            }
            let [x, y] = home.map(|cell| cell + random.between(-around, around));
            part.push((y.clamp(0, height - 1) * width + x.clamp(0, width - 1)) as u32);
        }
        access.push(&part);
    }
    access
}

/// Half of the time they stand near each other.
fn rectangles(random: &mut Random, map: &Map, count: u32, small: bool) -> Vec<Rectangle> {
    let (width, height) = (8 * map.width as i32, 8 * map.height as i32);
    let near = random.chance(50);
    let home = [random.between(0, width - 1), random.between(0, height - 1)];
    let mut resources: Vec<Rectangle> = Vec::new();
    for _ in 0..count {
        let resource = if !resources.is_empty() && random.chance(20) {
            let other = random.pick(&resources);
            overlapping(random, other, width, height)
        } else {
            let [x, y] = home.map(|pixel| near.then_some(pixel));
            let (left, right) = span(random, width, x, small);
            let (top, bottom) = span(random, height, y, small);
            [left, top, right, bottom]
        };
        resources.push(resource);
    }
    resources
}

/// Where a resource starts and ends along one axis of so many pixels, near a pixel if there is one.
fn span(random: &mut Random, pixels: i32, near: Option<i32>, small: bool) -> (i32, i32) {
    let start = match near {
        Some(pixel) => (pixel + random.between(-200, 200)).clamp(0, pixels - 1),
        None => random.between(0, pixels - 1),
    };
    match random.below(if small { 4 } else { 6 }) {
        // whole cells
        0 | 1 => {
            let start = start / 8 * 8;
            (start, (start + 8 * random.between(1, 8)).min(pixels))
        }
        // up to some cells
        2 | 3 => (start, (start + random.between(1, 70)).min(pixels)),
        // at the map's border
        4 => {
            let length = random.between(1, pixels.min(40));
            if random.chance(50) {
                (0, length)
            } else {
                (pixels - length, pixels)
            }
        }
        // any length
        _ => (start, random.between(start + 1, pixels)),
    }
}

/// A rectangle that is equal to another or shares cells with it, on a map of so many pixels.
fn overlapping(
    random: &mut Random,
    [left, top, right, bottom]: Rectangle,
    width: i32,
    height: i32,
) -> Rectangle {
    if random.chance(30) {
        return [left, top, right, bottom];
    }
    [
        random.between((left - 20).max(0), left),
        random.between((top - 20).max(0), top),
        random.between(left + 1, (right + 20).min(width)),
        random.between(top + 1, (bottom + 20).min(height)),
    ]
}

/// Rectangles over resources and their rings, elsewhere on the map, past its border, with no extent,
/// and with the largest numbers.
fn blockers(random: &mut Random, map: &Map, resources: &[Rectangle]) -> Vec<Rectangle> {
    let (width, height) = (8 * map.width as i32, 8 * map.height as i32);
    if random.below(200) == 0 {
        return (0..MOST_BLOCKERS)
            .map(|_| {
                let (x, y) = (random.between(-9, width), random.between(-9, height));
                [x, y, x + random.between(0, 9), y + random.between(0, 9)]
            })
            .collect();
    }
    let mut blockers = if random.chance(50) {
        resources.to_vec()
    } else {
        Vec::new()
    };
    let more = if random.chance(30) {
        0
    } else {
        random.below(12)
    };
    for _ in 0..more {
        blockers.push(match random.below(8) {
            0..=2 if !resources.is_empty() => over_ring(random, resources),
            3 => any_numbers(random),
            _ => {
                let (x, y) = (
                    random.between(-40, width + 40),
                    random.between(-40, height + 40),
                );
                [x, y, x + random.between(-8, 60), y + random.between(-8, 60)]
            }
        });
    }
    blockers
}

/// Some pixels of a resource's ring and body.
fn over_ring(random: &mut Random, resources: &[Rectangle]) -> Rectangle {
    let [left, top, right, bottom] = random.pick(resources);
    let (x, y) = (
        random.between(left - 8, right + 7),
        random.between(top - 8, bottom + 7),
    );
    [x, y, x + random.between(1, 30), y + random.between(1, 30)]
}

/// Four numbers, some of them the least or the largest that there are, or close to 0.
fn any_numbers(random: &mut Random) -> Rectangle {
    [0; 4].map(|_| match random.below(4) {
        0 => i32::MIN + random.between(0, 1),
        1 => i32::MAX - random.between(0, 1),
        2 => random.between(-9, 9),
        _ => random.bits() as i32,
    })
}

/// The whole map, one cell, any box, or a box around a resource.
fn targets(random: &mut Random, map: &Map, resources: &[Rectangle]) -> CellBox {
    let (width, height) = (map.width as i32, map.height as i32);
    let (x, y) = (random.between(0, width - 1), random.between(0, height - 1));
    match random.below(5) {
        0 => [0, 0, width - 1, height - 1],
        1 => [x, y, x, y],
        2 | 3 if !resources.is_empty() => {
            let [left, top, right, bottom] = random.pick(resources);
            let around = random.between(0, 12);
            [
                (left / 8 - around).max(0),
                (top / 8 - around).max(0),
                (right / 8 + around).min(width - 1),
                (bottom / 8 + around).min(height - 1),
            ]
        }
        _ => [
            x,
            y,
            random.between(x, width - 1),
            random.between(y, height - 1),
        ],
    }
}
