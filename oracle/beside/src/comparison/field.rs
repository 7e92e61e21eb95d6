//! The field call, and reading a cell.

use cerandool::exports::{self, FieldAnswer, Part};
use cerandool::{CellBox, PixelRect, ProximityField, Refusal, Window};
use oracle::UnchangedRust;
use oracle::interface::{Engine, Field, FieldCall, LARGEST_SIDE};
use oracle::maps::Random;

use super::{Kept, Tally, compare_accepted, compare_refusals, equal, equal_lists};
use crate::calls::{Buffers, FieldBuffers, FieldInput, grid};
use crate::heap::{target_costs, target_costs_of};

/// Of so many field calls, one is compared with a search for each resource.
const SEARCHED_ONE_IN: u32 = 8;

pub fn compare(
    call: &FieldCall,
    random: &mut Random,
    kept: &mut Kept,
    tally: &mut Tally,
) -> Result<(), String> {
    let expected = UnchangedRust.field(call);
    let used = used_parts(call, &expected).lengths();
    compare_refusals(&FieldInput::from(call), &used, random, tally)?;
    compare_answer(call, &expected, random, kept, tally)?;
    if random.below(SEARCHED_ONE_IN) == 0 {
        let costs = target_costs_of(call, &expected);
        equal_lists("the searched costs", &costs, &target_costs(call))?;
        tally.searched += 1;
    }
    compare_made_up_readings(random, tally)
}

/// The answer to an accepted call, its buffers, and every reading; the same from the field that the
/// library's crate keeps.
pub fn compare_answer(
    call: &FieldCall,
    expected: &Field,
    random: &mut Random,
    kept: &mut Kept,
    tally: &mut Tally,
) -> Result<(), String> {
    tally.count_field(call, expected);
    let input = FieldInput::from(call);
    let answer = FieldAnswer {
        number: 0,
        place: 0,
        left: expected.window.left,
        top: expected.window.top,
        width: expected.window.width,
        height: expected.window.height,
        lanes: call.lanes as u32,
        sweeps: expected.sweeps,
    };
    let buffers = compare_accepted(&input, answer, &used_parts(call, expected), random)?;
    compare_readings(call, expected, &buffers.lanes, tally)?;
    match call.lanes {
        8 => compare_kept(call, expected, &mut kept.eight),
        _ => compare_kept(call, expected, &mut kept.sixteen),
    }
}

/// The used parts of the buffers after an accepted call.
fn used_parts(call: &FieldCall, expected: &Field) -> FieldBuffers {
    if call.resources.is_empty() {
        return FieldBuffers::default();
    }
    let window = expected.window;
    FieldBuffers {
        lanes: expected.lanes.clone(),
        walk: expected.walk.clone(),
        flags: expected.flags.clone(),
        rows: expected.row_intervals.clone(),
        ..FieldBuffers::of_window(window.width, window.height, 0)
    }
}

/// Every cell of the map, and cells past its right and bottom border.
fn compare_readings(
    call: &FieldCall,
    expected: &Field,
    lane_values: &[i16],
    tally: &mut Tally,
) -> Result<(), String> {
    let (window, lanes) = (library_window(expected), call.lanes as u32);
    for y in (0..=call.map.height).chain([u32::MAX]) {
        for x in (0..=call.map.width).chain([u32::MAX]) {
            let part = expected.part(x, y).map_or(Part::default(), |part| Part {
                start: part.start,
                length: part.len(),
            });
            let found = exports::at(window, lanes, lane_values, x, y);
            if found != part {
                return Err(format!("reading {x} {y}: {found:?} for {part:?}"));
            }
            tally.readings += 1;
        }
    }
    Ok(())
}

fn compare_kept<const L: usize>(
    call: &FieldCall,
    expected: &Field,
    field: &mut ProximityField<L>,
) -> Result<(), String> {
    let rectangles = |rectangles: &[[i32; 4]]| -> Vec<PixelRect> {
        rectangles.iter().copied().map(PixelRect::from).collect()
    };
    let outcome: Result<(), Refusal> = field.compute(
        &grid(&call.map),
        &rectangles(&call.blockers),
        &rectangles(&call.resources),
        CellBox::from(call.targets),
    );
    equal("the kept field's outcome", &Ok(()), &outcome)?;
    equal(
        "the kept field's window",
        &library_window(expected),
        &field.window(),
    )?;
    equal("the kept field's sweeps", &expected.sweeps, &field.sweeps())?;
    for y in 0..=call.map.height {
        for x in 0..=call.map.width {
            let lanes = field.at(x, y).map(|lanes| &lanes[..]);
            if lanes != expected.reading(x, y) {
                return Err(format!("the kept field's lanes at {x} {y}: {lanes:?}"));
            }
        }
    }
    Ok(())
}

fn library_window(field: &Field) -> Window {
    Window {
        left: field.window.left,
        top: field.window.top,
        width: field.window.width,
        height: field.window.height,
    }
}

/// How many window records are made up for a call.
const MADE_UP_RECORDS: u32 = 8;

/// The most lanes that are lent to be read by a made-up record.
const MADE_UP_LANES: usize = 200_000;

/// Cells read by records that no field call answered with.
fn compare_made_up_readings(random: &mut Random, tally: &mut Tally) -> Result<(), String> {
    static LANES: [i16; MADE_UP_LANES] = [0; MADE_UP_LANES];
    for _ in 0..MADE_UP_RECORDS {
        let mut sides = [random.below(9), random.below(9)];
        if random.chance(50) {
            let long = random.below(2) as usize;
            let length = LARGEST_SIDE + 1 - random.below(3);
            sides[long] = random.pick(&[length, length, length, u32::MAX]);
        }
        let edge = random.below(4);
        let window = Window {
            left: random.pick(&[0, edge, edge, u32::MAX - edge]),
            top: random.pick(&[0, edge, edge, u32::MAX - edge]),
            width: sides[0],
            height: sides[1],
        };
        let lanes = if random.chance(80) {
            random.pick(&[8, 16])
        } else {
            random.pick(&[0, 1, 7, 9, 15, 17, 24, u32::MAX])
        };
        let cells: u128 = sides.iter().map(|&side| u128::from(side) + 2).product();
        let needed = cells * u128::from(lanes);
        let length = (needed.min(MADE_UP_LANES as u128) as usize + 1)
            .saturating_sub(random.below(3) as usize);
        let lane_values = &LANES[..length.min(MADE_UP_LANES)];
        let x = random_near(window.left, window.width, random);
        let y = random_near(window.top, window.height, random);
        let part = part_by_record(window, lanes, lane_values.len(), x, y);
        let found = exports::at(window, lanes, lane_values, x, y);
        if found != part {
            return Err(format!(
                "reading {x} {y} by {window:?} with {lanes} lanes of {}: {found:?} for {part:?}",
                lane_values.len()
            ));
        }
        tally.made_up_readings += 1;
        tally.made_up_readings_inside += u64::from(part.length != 0);
    }
    Ok(())
}

/// A number of an interval, or one or two past its ends.
fn random_near(start: u32, length: u32, random: &mut Random) -> u32 {
    let offset = random.below(length.saturating_add(3)).wrapping_sub(1);
    start.wrapping_add(offset)
}

/// Document 01's reading of a cell by any record: outside where the record is past the limits of a
/// map, or names more lanes than there are, or has a lane count other than 8 or 16.
fn part_by_record(window: Window, lanes: u32, length: usize, x: u32, y: u32) -> Part {
    let in_window = |start: u32, length: u32, value: u32| value >= start && value - start < length;
    let small = window.width <= LARGEST_SIDE && window.height <= LARGEST_SIDE;
    if !small
        || (lanes != 8 && lanes != 16)
        || !in_window(window.left, window.width, x)
        || !in_window(window.top, window.height, y)
    {
        return Part::default();
    }
    let lanes = lanes as usize;
    let stride = window.width as usize + 2;
    if stride * (window.height as usize + 2) * lanes > length {
        return Part::default();
    }
    let (column, row) = ((x - window.left) as usize, (y - window.top) as usize);
    Part {
        start: ((row + 1) * stride + column + 1) * lanes,
        length: lanes,
    }
}
