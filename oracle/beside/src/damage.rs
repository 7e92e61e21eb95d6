//! Damaged inputs: accepted ones changed so that one of the refusals about the input must be given.
//! No damage undoes another: an input may be damaged in several ways.

use oracle::interface::{AccessLists, CellBox, LARGEST_SIDE, MOST_BLOCKERS, MOST_RESOURCES, Map};
use oracle::maps::Random;

const TOO_LARGE: u32 = LARGEST_SIDE + 1;

/// Refusal 1.
pub fn map(accepted: &Map, damaged: &mut Map, random: &mut Random) {
    let cells = &mut damaged.cells;
    let some_cell = random.below(cells.len() as u32) as usize;
    match random.below(9) {
        0 => damaged.width = 0,
        1 => damaged.height = 0,
        2 => {
            damaged.width = TOO_LARGE;
            cells.resize((TOO_LARGE * accepted.height) as usize, 1);
        }
        3 => {
            damaged.height = TOO_LARGE;
            cells.resize((TOO_LARGE * accepted.width) as usize, 1);
        }
        // their product is 0 in 32 bits
        4 => {
            damaged.width = 1 << 16;
            damaged.height = 1 << 16;
            cells.clear();
        }
        5 => {
            cells.pop();
        }
        6 => cells.push(1),
        7 => {
            damaged.width = 0;
            cells.clear();
        }
        _ => cells[some_cell] = random.pick(&[2, 3, 128, 255]),
    }
}

/// Refusal 2.
pub fn lanes(random: &mut Random) -> u32 {
    random.pick(&[0, 1, 4, 7, 9, 12, 15, 17, 24, 32, 264, u32::MAX])
}

/// Refusal 3 of rectangles: numbers not in fours, or more rectangles than `most`.
pub fn count(numbers: &mut Vec<i32>, most: usize, random: &mut Random) {
    if random.chance(50) {
        let more = 1 + random.below(3) as usize;
        numbers.extend(&[0, 0, 8][..more]);
    } else {
        let count = most + 1 + random.below(3) as usize;
        while numbers.len() < 4 * count {
            numbers.extend([0, 0, 8, 8]);
        }
    }
}

/// Refusal 3 of access lists: one or some resources more than there may be.
pub fn ends(access: &mut AccessLists, random: &mut Random) {
    let count = MOST_RESOURCES + 1 + random.pick(&[0, 0, 1, 511, 65_535]);
    access.ends.resize(count, access.cells.len() as u32);
}

/// Refusal 4: one of the first `count` rectangles, which are those of the accepted call. It gives
/// back its place.
pub fn rectangles(
    map: &Map,
    count: usize,
    numbers: &mut [i32],
    random: &mut Random,
) -> Option<usize> {
    if count == 0 {
        return None;
    }
    let place = random.below(count as u32) as usize;
    // Later ones may be bad too: the first counts.
    break_rectangle(map, &mut numbers[4 * place..4 * place + 4], random);
    if random.chance(30) {
        for later in place + 1..count {
            break_rectangle(map, &mut numbers[4 * later..4 * later + 4], random);
        }
    }
    Some(place)
}

fn break_rectangle(map: &Map, numbers: &mut [i32], random: &mut Random) {
    let sides = [map.width, map.height];
    let axis = random.below(2) as usize;
    let limit = 8 * sides[axis] as i32;
    let (low, high) = (axis, axis + 2);
    match random.below(7) {
        0 => numbers[low] = -1,
        1 => numbers[low] = i32::MIN,
        2 => numbers[low] = numbers[high],
        3 => numbers.swap(low, high),
        4 => numbers[high] = limit + 1,
        5 => numbers[high] = i32::MAX,
        _ => numbers[high] = i32::MIN,
    }
}

/// Refusal 5.
pub fn blockers(numbers: &mut Vec<i32>, random: &mut Random) {
    if random.chance(80) {
        let more = 1 + random.below(3) as usize;
        numbers.extend(&[0, 0, 8][..more]);
    } else {
        numbers.resize(4 * (MOST_BLOCKERS + 1), 0);
    }
}

/// Refusal 6.
pub fn targets(map: &Map, targets: &mut CellBox, random: &mut Random) {
    let sides = [map.width, map.height];
    let axis = random.below(2) as usize;
    let size = sides[axis] as i32;
    match random.below(6) {
        0 => targets[axis] = -1,
        1 => targets[axis] = i32::MIN,
        2 => targets[axis] = targets[axis + 2] + 1,
        3 => targets[axis + 2] = size,
        4 => targets[axis + 2] = i32::MAX,
        _ => targets[axis + 2] = -1,
    }
}

/// Refusal 8, on a map of so many cells: one end falls, the last end is not the list's length, or an
/// index is not that of a cell.
pub fn access(cells: usize, access: &mut AccessLists, random: &mut Random) {
    let AccessLists {
        cells: indices,
        ends,
    } = access;
    let cells = cells as u32;
    let some_index = random.below(indices.len().max(1) as u32) as usize;
    let some_end = random.below(ends.len().max(1) as u32) as usize;
    match random.below(6) {
        0 | 1 if !indices.is_empty() => {
            indices[some_index] = random.pick(&[cells, cells, cells + 1, 1 << 31, u32::MAX]);
        }
        2 if !indices.is_empty() => {
            indices.pop();
        }
        // The next end, or the list's length, is smaller.
        3 | 4 if !ends.is_empty() => {
            let next = ends.get(some_end + 1).copied();
            let next = next.unwrap_or(indices.len() as u32);
            ends[some_end] = random.pick(&[next + 1, next + 1, u32::MAX]);
        }
        _ => indices.push(random.below(cells)),
    }
}
