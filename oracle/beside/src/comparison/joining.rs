//! Access cells of a rectangle and of many, and fields of resources.

use cerandool::PixelRect;
use cerandool::exports::CountAnswer;
use oracle::UnchangedRust;
use oracle::interface::{AccessLists, Engine, Map, Rectangle};
use oracle::maps::Random;

use super::{Kept, Tally, compare_accepted, compare_refusals, equal, equal_lists};
use crate::calls::{
    AccessBuffers, AccessInput, Buffers, FieldsBuffers, FieldsInput, ListsBuffers, ListsInput, grid,
};

/// How many of a call's rectangles are asked one by one.
const ONE_BY_ONE: usize = 6;

fn accepted(count: usize) -> CountAnswer {
    CountAnswer {
        number: 0,
        place: 0,
        count: count as u32,
    }
}

/// The access cells of some of the rectangles, one by one.
pub fn compare_access(
    map: &Map,
    rectangles: &[Rectangle],
    random: &mut Random,
    tally: &mut Tally,
) -> Result<(), String> {
    for &rectangle in rectangles.iter().take(ONE_BY_ONE) {
        let input = AccessInput {
            map: map.clone(),
            rectangle,
        };
        compare_access_of(&input, random, tally)?;
    }
    if let Some(&rectangle) = rectangles.first() {
        let input = AccessInput {
            map: map.clone(),
            rectangle,
        };
        let used = UnchangedRust.access_cells(map, rectangle).len();
        compare_refusals(&input, &[used], random, tally)?;
    }
    Ok(())
}

/// The access cells of a rectangle.
pub fn compare_access_of(
    input: &AccessInput,
    random: &mut Random,
    tally: &mut Tally,
) -> Result<(), String> {
    let expected = UnchangedRust.access_cells(&input.map, input.rectangle);
    tally.access_calls += 1;
    tally.without_access_cells += u64::from(expected.is_empty());
    let answer = accepted(expected.len());
    let used = AccessBuffers {
        out: expected.clone(),
    };
    compare_accepted(input, answer, &used, random)?;
    let found = cerandool::access_cells(&grid(&input.map), input.rectangle.into())
        .map_err(|refusal| format!("the crate's access cells: {refusal}"))?;
    equal_lists("the crate's access cells", &expected, &found)
}

/// The access cells of all rectangles in one call, and its refusals. It gives back the lists.
pub fn compare_lists(
    map: &Map,
    rectangles: &[Rectangle],
    random: &mut Random,
    kept: &mut Kept,
    tally: &mut Tally,
) -> Result<AccessLists, String> {
    let input = ListsInput {
        map: map.clone(),
        rectangles: rectangles.as_flattened().to_vec(),
    };
    let expected = compare_listed(&input, rectangles, random, kept, tally)?;
    let used = [expected.cells.len(), expected.ends.len()];
    compare_refusals(&input, &used, random, tally)?;
    Ok(expected)
}

/// The same without refusals.
pub fn compare_listed(
    input: &ListsInput,
    rectangles: &[Rectangle],
    random: &mut Random,
    kept: &mut Kept,
    tally: &mut Tally,
) -> Result<AccessLists, String> {
    let expected = UnchangedRust.access_lists(&input.map, rectangles);
    tally.count_lists(&expected);
    let used = ListsBuffers {
        indices: expected.cells.clone(),
        ends: expected.ends.clone(),
    };
    compare_accepted(input, accepted(expected.cells.len()), &used, random)?;

    let rectangles: Vec<_> = rectangles.iter().copied().map(PixelRect::from).collect();
    let outcome = kept.lists.compute(&grid(&input.map), &rectangles);
    equal("the kept lists' outcome", &Ok(()), &outcome)?;
    equal_lists(
        "the kept lists' indices",
        &expected.cells,
        kept.lists.indices(),
    )?;
    equal_lists("the kept lists' ends", &expected.ends, kept.lists.ends())?;
    Ok(expected)
}

/// The fields of resources, and the call's refusals.
pub fn compare_fields(
    map: &Map,
    access: AccessLists,
    random: &mut Random,
    kept: &mut Kept,
    tally: &mut Tally,
) -> Result<(), String> {
    let input = FieldsInput {
        map: map.clone(),
        access,
    };
    compare_joined(&input, random, kept, tally)?;
    let used = used_of_fields(&input).lengths();
    compare_refusals(&input, &used, random, tally)
}

/// The same without refusals.
pub fn compare_joined(
    input: &FieldsInput,
    random: &mut Random,
    kept: &mut Kept,
    tally: &mut Tally,
) -> Result<(), String> {
    let FieldsInput { map, access } = input;
    let expected = UnchangedRust.fields(map, access);
    let count = expected.iter().max().map_or(0, |&last| last as usize + 1);
    tally.count_fields(map, access, count);
    let used = FieldsBuffers {
        answers: expected.clone(),
        ..used_of_fields(input)
    };
    compare_accepted(input, accepted(count), &used, random)?;

    let lists = cerandool::AccessLists::from_parts(access.cells.clone(), access.ends.clone());
    let outcome = kept.fields.compute(&grid(map), &lists);
    equal("the kept fields' outcome", &Ok(()), &outcome)?;
    equal_lists("the kept fields' numbers", &expected, kept.fields.numbers())?;
    equal("the kept fields' count", &count, &kept.fields.count())
}

/// The used parts of a call's buffers, all 0.
fn used_of_fields(input: &FieldsInput) -> FieldsBuffers {
    FieldsBuffers::of_sizes(input.map.cells.len(), input.access.ends.len())
}
