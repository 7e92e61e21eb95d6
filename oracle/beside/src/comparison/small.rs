//! Every map of at most 3 by 3 cells, with every resource of one cell and every pair of them.

use oracle::UnchangedRust;
use oracle::interface::{Engine, FieldCall, Map, Rectangle};
use oracle::maps::Random;

use super::{Kept, Tally, field, joining};
use crate::calls::{AccessInput, FieldsInput, ListsInput};

const LARGEST_SIDE: u32 = 3;

/// All maps of at most 3 by 3 cells.
pub fn maps() -> impl Iterator<Item = Map> {
    let sides = 1..=LARGEST_SIDE;
    let sizes = sides
        .clone()
        .flat_map(move |height| sides.clone().map(move |width| (width, height)));
    sizes.flat_map(|(width, height)| {
        let cells = width * height;
        (0..1_u32 << cells).map(move |mask| Map {
            width,
            height,
            cells: (0..cells).map(|cell| (mask >> cell & 1) as u8).collect(),
        })
    })
}

/// The rectangles of all cells of a map.
fn cells(map: &Map) -> Vec<Rectangle> {
    let (width, height) = (map.width as i32, map.height as i32);
    (0..height)
        .flat_map(|y| (0..width).map(move |x| [8 * x, 8 * y, 8 * x + 8, 8 * y + 8]))
        .collect()
}

/// Compares, on a map, the field around the whole map and the access cells of each cell as a
/// resource, and the access cells and fields of each pair. A difference comes with the field call of
/// its map.
pub fn compare(
    map: &Map,
    random: &mut Random,
    kept: &mut Kept,
    tally: &mut Tally,
) -> Result<(), (Box<FieldCall>, String)> {
    let mut call = FieldCall {
        map: map.clone(),
        lanes: 8,
        blockers: Vec::new(),
        resources: Vec::new(),
        targets: [0, 0, map.width as i32 - 1, map.height as i32 - 1],
    };
    for first in cells(map) {
        call.resources = vec![first];
        for lanes in [8, 16] {
            call.lanes = lanes;
            let expected = UnchangedRust.field(&call);
            field::compare_answer(&call, &expected, random, kept, tally)
                .map_err(|difference| (Box::new(call.clone()), difference))?;
        }
        let input = AccessInput {
            map: map.clone(),
            rectangle: first,
        };
        joining::compare_access_of(&input, random, tally)
            .map_err(|difference| (Box::new(call.clone()), difference))?;
        for second in cells(map) {
            call.resources = vec![first, second];
            compare_pair(&call, random, kept, tally)
                .map_err(|difference| (Box::new(call.clone()), difference))?;
        }
    }
    Ok(())
}

fn compare_pair(
    call: &FieldCall,
    random: &mut Random,
    kept: &mut Kept,
    tally: &mut Tally,
) -> Result<(), String> {
    let input = ListsInput {
        map: call.map.clone(),
        rectangles: call.resources.as_flattened().to_vec(),
    };
    let access = joining::compare_listed(&input, &call.resources, random, kept, tally)?;
    let input = FieldsInput {
        map: call.map.clone(),
        access,
    };
    joining::compare_joined(&input, random, kept, tally)
}
