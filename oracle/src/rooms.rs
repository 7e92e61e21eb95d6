//! Random rooms within the limits of program `sheet`, damaged room texts, and refusals that were
//! checked by hand.

use crate::interface::{CellBox, FieldCall, Map, Rectangle};
use crate::maps::{self, Random};
use crate::room::{
    MOST_BLOCKERS, MOST_BYTES, MOST_COLUMNS, MOST_RESOURCES, MOST_ROWS, PROGRAM_LANES, room_text,
};

/// A room that the program accepts. Its sheet has at most `cells` target cells.
pub fn random_room(random: &mut Random, cells: u32) -> FieldCall {
    let map = random_map(random);
    let (width, height) = (8 * map.width as i32, 8 * map.height as i32);
    let count = match random.below(10) {
        0 => 0,
        1 => MOST_RESOURCES as u32,
        _ => 1 + random.below(4),
    };
    let mut resources: Vec<Rectangle> = Vec::new();
    for _ in 0..count {
        let resource = if !resources.is_empty() && random.chance(15) {
            random.pick(&resources)
        } else {
            let (left, right) = span(random, width);
            let (top, bottom) = span(random, height);
            [left, top, right, bottom]
        };
        resources.push(resource);
    }
    let count = match random.below(10) {
        0..=3 => 0,
        4 => MOST_BLOCKERS as u32,
        _ => random.below(6),
    };
    let mut blockers: Vec<Rectangle> = if random.chance(30) {
        resources.clone()
    } else {
        Vec::new()
    };
    blockers.truncate(count as usize);
    while blockers.len() < count as usize {
        blockers.push(blocker(random, &resources, width, height));
    }
    let call = FieldCall {
        targets: targets(random, &map, cells),
        map,
        lanes: PROGRAM_LANES,
        blockers,
        resources,
    };
    assert!(room_text(&call).len() <= MOST_BYTES);
    call
}

fn random_map(random: &mut Random) -> Map {
    let (most_width, most_height) = match random.below(8) {
        0 => (4, 4),
        1 => (MOST_COLUMNS, MOST_ROWS),
        2 => (MOST_COLUMNS, 3),
        3 => (3, MOST_ROWS),
        _ => (24, 24),
    };
    let (width, height) = (1 + random.below(most_width), 1 + random.below(most_height));
    let seed = random.bits();
    let map = match random.below(8) {
        0 => maps::open(width, height),
        1 => maps::random_walls(width, height, 10, seed),
        2 => maps::random_walls(width, height, 35, seed),
        3 => maps::winding_walls(width, height),
        4 => maps::zigzag_comb(width, height),
        5 => maps::maze(width, height, 5, seed),
        6 => maps::wall_blocks(width, height, 6, seed),
        _ => maps::bordered(width, height, 10, seed),
    };
    if random.chance(50) {
        maps::mirrored(&map)
    } else {
        map
    }
}

/// Where a resource starts and ends along one axis of so many pixels: at a border, on whole cells,
/// or anywhere.
fn span(random: &mut Random, pixels: i32) -> (i32, i32) {
    let start = random.between(0, pixels - 1);
    match random.below(4) {
        0 => (0, random.between(1, pixels.min(20))),
        1 => (pixels - random.between(1, pixels.min(20)), pixels),
        2 => {
            let start = start / 8 * 8;
            (start, (start + 8 * random.between(1, 4)).min(pixels))
        }
        _ => (start, (start + random.between(1, 40)).min(pixels)),
    }
}

/// Over a resource's ring, anywhere near the map, with no extent, or with the largest numbers.
fn blocker(random: &mut Random, resources: &[Rectangle], width: i32, height: i32) -> Rectangle {
    match random.below(6) {
        0 => [i32::MIN, i32::MIN, random.between(-9, 9), i32::MAX],
        1 if !resources.is_empty() => {
            let [left, top, right, bottom] = random.pick(resources);
            [left - 8, top - 8, right + 8, bottom - 1]
        }
        _ => {
            let (x, y) = (random.between(-20, width), random.between(-20, height));
            [x, y, x + random.between(-4, 30), y + random.between(-4, 30)]
        }
    }
}

/// A box of at most so many cells.
fn targets(random: &mut Random, map: &Map, cells: u32) -> CellBox {
    let width = 1 + random.below(map.width.min(cells));
    let height = 1 + random.below(map.height.min((cells / width).max(1)));
    let left = random.below(map.width - width + 1) as i32;
    let top = random.below(map.height - height + 1) as i32;
    [left, top, left + width as i32 - 1, top + height as i32 - 1]
}

/// A text with one to three damages: bytes changed, left out or put in, lines twice or missing,
/// the end cut off, or more after it.
pub fn damaged(random: &mut Random, text: &str) -> Vec<u8> {
    const BYTES: &[u8] = b".#0123456789- +\n\r\t\0x\xff";
    let mut text = text.as_bytes().to_vec();
    for _ in 0..1 + random.below(3) {
        let length = text.len();
        let place = random.below(length as u32 + 1) as usize;
        match random.below(7) {
            0 if place < length => text[place] = random.pick(BYTES),
            1 if place < length => {
                text.remove(place);
            }
            2 => text.insert(place, random.pick(BYTES)),
            3 => text.truncate(place),
            4 => text.extend((0..random.below(9_000)).map(|_| b'.')),
            5 => text.push(random.pick(BYTES)),
            _ => {
                let mut lines: Vec<&[u8]> = text.split_inclusive(|&byte| byte == b'\n').collect();
                if lines.is_empty() {
                    continue;
                }
                let line = random.below(lines.len() as u32) as usize;
                if random.chance(50) {
                    lines.remove(line);
                } else {
                    lines.insert(line, lines[line]);
                }
                text = lines.concat();
            }
        }
    }
    text
}

/// A room of nine lines: a row count, two rows, a blocker, a resource, and the target box.
const ROOM: &str = "2\n...\n.#.\n1\n-5 0 1 8\n1\n8 8 16 16\n1\n0 0 2 1\n";

/// Document 01's and the readings' refusals: a text, and what the program prints for it.
pub fn refusals() -> Vec<(String, &'static str)> {
    // Each edit of the room, the line that it breaks, and why.
    let edits = [
        // the row count: none, leading zeros, signs, no number, past an i32, and one too many rows
        ("2\n...", "0\n...", "refused 9 1"),
        ("2\n...", "02\n...", "refused 9 1"),
        ("2\n...", "-0\n...", "refused 9 1"),
        ("2\n...", "-2\n...", "refused 9 1"),
        ("2\n...", "+2\n...", "refused 9 1"),
        ("2\n...", " 2\n...", "refused 9 1"),
        ("2\n...", "2 \n...", "refused 9 1"),
        ("2\n...", "2\r\n...", "refused 9 1"),
        ("2\n...", "\n...", "refused 9 1"),
        ("2\n...", "two\n...", "refused 9 1"),
        ("2\n...", "2147483648\n...", "refused 9 1"),
        ("2\n...", "99999999999999999999\n...", "refused 9 1"),
        ("2\n...", "2147483647\n...", "refused 9 4"),
        ("2\n...", "3\n...", "refused 9 4"),
        ("2\n...", "1\n...", "refused 9 3"),
        // rows: empty, of another length, of another byte
        ("...\n", "\n", "refused 9 2"),
        ("...\n", "..\n", "refused 9 3"),
        ("...\n", ".x.\n", "refused 9 2"),
        (".#.", ".#", "refused 9 3"),
        (".#.", ".#..", "refused 9 3"),
        (".#.", ". .", "refused 9 3"),
        (".#.", "", "refused 9 3"),
        // the blockers' count
        (".#.\n1\n", ".#.\n-1\n", "refused 9 4"),
        (".#.\n1\n", ".#.\n01\n", "refused 9 4"),
        (".#.\n1\n", ".#.\n\n", "refused 9 4"),
        (".#.\n1\n", ".#.\n2147483648\n", "refused 9 4"),
        (".#.\n1\n", ".#.\n2147483647\n", "refused 9 6"),
        (".#.\n1\n", ".#.\n2\n", "refused 9 6"),
        (".#.\n1\n", ".#.\n0\n", "refused 9 5"),
        // a blocker's numbers
        ("-5 0 1 8", "-5 0  1 8", "refused 9 5"),
        ("-5 0 1 8", " -5 0 1 8", "refused 9 5"),
        ("-5 0 1 8", "-5 0 1", "refused 9 5"),
        ("-5 0 1 8", "-5 0 1 8 9", "refused 9 5"),
        ("-5 0 1 8", "-5 0 1 8 ", "refused 9 5"),
        ("-5 0 1 8", "-5\t0 1 8", "refused 9 5"),
        ("-5 0 1 8", "-05 0 1 8", "refused 9 5"),
        ("-5 0 1 8", "-5 -0 1 8", "refused 9 5"),
        ("-5 0 1 8", "-5 0 +1 8", "refused 9 5"),
        ("-5 0 1 8", "- 0 1 8", "refused 9 5"),
        ("-5 0 1 8", "-2147483649 0 1 8", "refused 9 5"),
        ("-5 0 1 8", "-5 0 1 2147483648", "refused 9 5"),
        // the resources' count, and a resource's numbers
        ("8\n1\n8 8", "8\n-1\n8 8", "refused 9 6"),
        ("8\n1\n8 8", "8\n2\n8 8", "refused 9 8"),
        ("8\n1\n8 8", "8\n0\n8 8", "refused 9 7"),
        ("8 8 16 16", "8 8 16 0x10", "refused 9 7"),
        ("8 8 16 16", "", "refused 9 7"),
        // "targets (count 1)"
        ("16\n1\n", "16\n0\n", "refused 9 8"),
        ("16\n1\n", "16\n2\n", "refused 9 8"),
        ("16\n1\n", "16\n01\n", "refused 9 8"),
        // the target box: broken, its LF missing, missing, and more after it
        ("0 0 2 1\n", "0 0 2\n", "refused 9 9"),
        ("0 0 2 1\n", "0 0 2 1", "refused 9 9"),
        ("0 0 2 1\n", "", "refused 9 9"),
        ("0 0 2 1\n", "0 0 2 1\n\n", "refused 9 10"),
        ("0 0 2 1\n", "0 0 2 1\n ", "refused 9 10"),
        ("0 0 2 1\n", "0 0 2 1\n0 0 2 1\n", "refused 9 10"),
        // 4: a resource that is not in the map, or has no extent
        ("1\n8 8 16 16", "2\n8 8 16 16\n8 8 16 17", "refused 4 1"),
        ("8 8 16 16", "-1 8 16 16", "refused 4 0"),
        ("8 8 16 16", "8 8 8 16", "refused 4 0"),
        ("8 8 16 16", "8 8 25 16", "refused 4 0"),
        ("8 8 16 16", "8 16 16 8", "refused 4 0"),
        ("8 8 16 16", "-2147483648 8 2147483647 16", "refused 4 0"),
        // 6: a target box that is empty or not in the map
        ("0 0 2 1\n", "0 0 3 1\n", "refused 6 0"),
        ("0 0 2 1\n", "0 0 2 2\n", "refused 6 0"),
        ("0 0 2 1\n", "-1 0 2 1\n", "refused 6 0"),
        ("0 0 2 1\n", "2 0 1 1\n", "refused 6 0"),
        ("0 0 2 1\n", "0 1 2 0\n", "refused 6 0"),
        // 4 comes before 6, and 9 before both
        (
            "8 8 16 16\n1\n0 0 2 1",
            "8 8 8 16\n1\n0 0 9 9",
            "refused 4 0",
        ),
        ("8 8 16 16\n1\n0 0 2 1", "8 8 8 16\n1\n0 0 9", "refused 9 9"),
    ];
    let mut refusals: Vec<(String, &str)> = edits
        .into_iter()
        .map(|(before, after, answer)| {
            assert_eq!(ROOM.matches(before).count(), 1, "{before}");
            (ROOM.replace(before, after), answer)
        })
        .collect();

    // the empty text, and texts that end early
    refusals.push((String::new(), "refused 9 1"));
    refusals.push(("\n".to_string(), "refused 9 1"));
    refusals.push(("2".to_string(), "refused 9 1"));
    refusals.push(("2\n".to_string(), "refused 9 2"));
    refusals.push(("2\n...\n".to_string(), "refused 9 3"));

    // one past each limit of 10, and 10 before 4 and 6
    let rows = |count: usize, width: usize| format!("{count}\n{}", line_of(width).repeat(count));
    let fours = |count: usize, four: &str| format!("{count}\n{}", four.repeat(count));
    let rest = "0\n0\n1\n0 0 0 0\n";
    refusals.push((rows(61, 1) + rest, "refused 10 0"));
    refusals.push((rows(1, 61) + rest, "refused 10 0"));
    refusals.push((
        rows(1, 1) + &fours(65, "0 0 8 8\n") + "0\n1\n0 0 0 0\n",
        "refused 10 0",
    ));
    refusals.push((
        rows(1, 1) + "0\n" + &fours(9, "0 0 8 8\n") + "1\n0 0 0 0\n",
        "refused 10 0",
    ));
    refusals.push((rows(61, 1) + "0\n1\n5 5 5 5\n1\n9 9 9 9\n", "refused 10 0"));
    // 8,192 bytes with too many columns, and one byte more
    refusals.push((rows(1, 8_175) + rest, "refused 10 0"));
    refusals.push((rows(1, 8_176) + rest, "refused 10 0"));
    // over 8,192 bytes the form is not looked at; up to 8,192 it comes before the other limits
    refusals.push(("x\n".repeat(4_097), "refused 10 0"));
    refusals.push(("x\n".repeat(4_096), "refused 9 1"));
    refusals.push((rows(61, 1) + "0\n0\n2\n", "refused 9 65"));
    refusals
}

fn line_of(width: usize) -> String {
    ".".repeat(width) + "\n"
}
