//! Document 01's maps to try, by the crate's own types, and buffers that are used again.

use cerandool::{
    AccessLists, CellBox, Fields, Grid, LARGEST_SIDE, PixelRect, ProximityField, Window,
    access_cells, access_lists, fields, half_cost,
};

/// A map from its rows, `.` walkable and `#` not.
fn cells(rows: &[&str]) -> Vec<u8> {
    rows.concat()
        .bytes()
        .map(|byte| u8::from(byte == b'.'))
        .collect()
}

/// The rectangle of one cell.
fn cell(x: i32, y: i32) -> PixelRect {
    PixelRect::from([8 * x, 8 * y, 8 * x + 8, 8 * y + 8])
}

#[test]
fn half_costs() {
    assert_eq!(half_cost(-15_234), Some(0));
    assert_eq!(half_cost(-14_734), Some(500));
    assert_eq!(half_cost(32_766), Some(48_000));
    assert_eq!(half_cost(i16::MAX), None);
    assert_eq!(half_cost(-15_235), None);
    assert_eq!(half_cost(i16::MIN), None);
}

#[test]
fn a_first_sweep_that_changes_nothing() {
    let cells = cells(&["...", "...", "#.#", "###"]);
    let grid = Grid {
        width: 3,
        height: 4,
        cells: &cells,
    };
    let mut field = ProximityField::<16>::new();
    let whole = CellBox::from([0, 0, 2, 3]);
    field.compute(&grid, &[], &[cell(1, 3)], whole).unwrap();
    let cost = |x, y| field.at(x, y).and_then(|lanes| half_cost(lanes[0]));
    assert_eq!(cost(1, 1), Some(500));
    assert_eq!(cost(0, 1), Some(1_000));
    assert_eq!(cost(0, 0), Some(1_207));
    assert_eq!(cost(0, 2), None);
    assert_eq!(field.sweeps(), 3);
}

/// A long row, then smaller and larger maps: what an earlier call left in the buffers does not show.
#[test]
fn a_field_is_used_again() {
    let open = vec![1; 120 * 50];
    let row = Grid {
        width: 100,
        height: 1,
        cells: &open[..100],
    };
    let room = Grid {
        width: 5,
        height: 3,
        cells: &open[..15],
    };
    let wide = Grid {
        width: 120,
        height: 50,
        cells: &open,
    };
    let mut field = ProximityField::<8>::new();
    assert_eq!(field.at(0, 0), None);
    let cost = |field: &ProximityField<8>, x, y| -> Option<Option<u16>> {
        field.at(x, y).map(|lanes| half_cost(lanes[0]))
    };
    for _ in 0..2 {
        let targets = CellBox::from([97, 0, 99, 0]);
        field.compute(&row, &[], &[cell(0, 0)], targets).unwrap();
        assert_eq!(cost(&field, 97, 0), Some(Some(48_000)));
        assert_eq!(cost(&field, 98, 0), Some(None));
        assert_eq!(cost(&field, 99, 0), None);

        let targets = CellBox::from([0, 0, 4, 0]);
        field.compute(&room, &[], &[cell(2, 1)], targets).unwrap();
        assert_eq!(
            field.window(),
            Window {
                left: 0,
                top: 0,
                width: 5,
                height: 3
            }
        );
        assert_eq!(cost(&field, 0, 0), Some(Some(500)));
        assert_eq!(cost(&field, 2, 1), Some(Some(500)));
        assert_eq!(cost(&field, 5, 0), None);
        field
            .compute(&room, &[cell(1, 0), cell(2, 1)], &[cell(2, 1)], targets)
            .unwrap();
        assert_eq!(cost(&field, 1, 0), Some(None));
        assert_eq!(cost(&field, 2, 1), Some(None));

        let targets = CellBox::from([97, 0, 97, 0]);
        field.compute(&wide, &[], &[cell(0, 0)], targets).unwrap();
        assert_eq!(cost(&field, 97, 0), Some(Some(48_000)));

        field.compute(&room, &[], &[], targets_of(&room)).unwrap();
        assert_eq!(field.window(), Window::default());
        assert_eq!(field.sweeps(), 0);
        assert_eq!(cost(&field, 0, 0), None);
    }
}

fn targets_of(grid: &Grid) -> CellBox {
    CellBox::from([0, 0, grid.width as i32 - 1, grid.height as i32 - 1])
}

/// The buffers are long enough for the largest window and the longest ring, whatever they had before.
#[test]
fn the_largest_map_is_accepted() {
    let side = LARGEST_SIDE as i32;
    let open = vec![1; (side * side) as usize];
    let grid = Grid {
        width: LARGEST_SIDE,
        height: LARGEST_SIDE,
        cells: &open,
    };
    let corners = [cell(0, 0), cell(side - 1, side - 1)];
    let mut field = ProximityField::<8>::new();
    field
        .compute(&grid, &[], &corners, targets_of(&grid))
        .unwrap();
    assert_eq!(field.window().width, LARGEST_SIDE);
    assert_eq!(field.window().height, LARGEST_SIDE);

    let inner = PixelRect::from([15, 15, 8 * side - 15, 8 * side - 15]);
    assert_eq!(access_cells(&grid, inner).unwrap().len(), 4 * 1_023);
    let mut lists = AccessLists::new();
    lists.compute(&grid, &[inner; 512]).unwrap();
    assert_eq!(lists.indices().len(), 512 * 4 * 1_023);
    assert_eq!(lists.get(511), lists.get(0));
    assert_eq!(lists.get(512), None);
}

#[test]
fn resources_within_32_steps_are_one_field() {
    let open = [1; 69];
    let numbers = |length: usize, places: &[i32]| {
        let row = Grid {
            width: length as u32,
            height: 1,
            cells: &open[..length],
        };
        let resources: Vec<_> = places.iter().map(|&x| cell(x, 0)).collect();
        let lists = access_lists(&row, &resources).unwrap();
        let fields = fields(&row, &lists).unwrap();
        (fields.numbers().to_vec(), fields.count())
    };
    assert_eq!(numbers(36, &[0, 34]), (vec![0, 0], 1));
    assert_eq!(numbers(36, &[0, 35]), (vec![0, 1], 2));
    assert_eq!(numbers(69, &[0, 34, 68]), (vec![0, 0, 0], 1));
    assert_eq!(numbers(69, &[68, 0, 67]), (vec![0, 1, 0], 2));
}

#[test]
fn lists_and_fields_are_used_again() {
    let walled = cells(&[".#...", "##...", "....."]);
    let grid = Grid {
        width: 5,
        height: 3,
        cells: &walled,
    };
    let mut lists = AccessLists::new();
    let mut fields = Fields::new();
    lists
        .compute(&grid, &[cell(0, 0), cell(3, 0), cell(1, 0)])
        .unwrap();
    assert_eq!(lists.indices(), [2, 4, 7, 8, 9, 0, 2, 7]);
    assert_eq!(lists.ends(), [0, 5, 8]);
    assert_eq!(lists.get(0), Some(&[][..]));
    assert_eq!(lists.get(2), Some(&[0, 2, 7][..]));
    fields.compute(&grid, &lists).unwrap();
    assert_eq!(fields.numbers(), [0, 1, 1]);
    assert_eq!(fields.count(), 2);

    lists.compute(&grid, &[cell(4, 2)]).unwrap();
    assert_eq!(lists.indices(), [8, 9, 13]);
    assert_eq!(lists.len(), 1);
    // Any order, twice the same, and cells that are not walkable.
    lists.push(&[1, 14, 14, 10]);
    lists.push(&[5, 6]);
    fields.compute(&grid, &lists).unwrap();
    assert_eq!(fields.numbers(), [0, 0, 1]);
    assert_eq!(fields.count(), 2);

    assert_eq!(grid.position(9), Some((4, 1)));
    assert_eq!(grid.position(15), None);
}
