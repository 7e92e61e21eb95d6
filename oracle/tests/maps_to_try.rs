//! Reruns the stored answers, and checks the Rust against the numbers that document 01 itself states
//! for its maps to try.

use oracle::UnchangedRust;
use oracle::interface::{Engine, Field, FieldCall, Window};
use oracle::room::{Case, read_cases};
use oracle::sheet::sheet;

const CASES: &str = include_str!("../cases/maps-to-try.txt");
const ANSWERS: &str = include_str!("../cases/maps-to-try.answers");

const UNREACHABLE: i16 = 32_767;

fn cases() -> Vec<Case> {
    read_cases(CASES).expect("the cases are accepted")
}

fn call(name: &str) -> FieldCall {
    let mut found = cases().into_iter().filter(|case| case.name == name);
    let case = found.next().expect("the case is in the file");
    assert!(found.next().is_none(), "{name} is there twice");
    case.call
}

fn field(name: &str) -> Field {
    UnchangedRust.field(&call(name))
}

/// The lane of the first resource at a cell, or `None` for outside.
fn lane(field: &Field, x: u32, y: u32) -> Option<i16> {
    field.reading(x, y).map(|lanes| lanes[0])
}

/// Document 01: a lane holds the half cost minus 15,234.
fn lane_of(half_cost: i32) -> Option<i16> {
    Some((half_cost - 15_234) as i16)
}

fn fields(name: &str) -> Vec<u16> {
    let call = call(name);
    let access = UnchangedRust.access_lists(&call.map, &call.resources);
    UnchangedRust.fields(&call.map, &access)
}

#[test]
fn the_stored_answers_are_the_rusts() {
    let mut stored = ANSWERS;
    for case in cases() {
        let answer = case.head() + &sheet(&UnchangedRust, &case.call);
        stored = stored
            .strip_prefix(&answer)
            .unwrap_or_else(|| panic!("{} now answers\n{answer}", case.name));
    }
    assert_eq!(stored, "", "answers without a case");
}

#[test]
fn lanes() {
    let field = field("row-of-100");
    assert_eq!(lane(&field, 1, 0), Some(-15_234));
    assert_eq!(lane(&field, 97, 0), Some(32_766));
    assert_eq!(lane(&field, 98, 0), Some(UNREACHABLE));
    let mut beyond_the_count = field.lanes.chunks(8).flat_map(|lanes| &lanes[1..]);
    assert!(beyond_the_count.all(|&lane| lane == UNREACHABLE));
}

#[test]
fn a_negative_sum_is_halved_and_then_cut_to_0() {
    assert_eq!(field("halving-of-minus-95").window.left, 0);
}

#[test]
fn blockers_paint_whole_cells() {
    let painted = |name: &str| -> Vec<u32> {
        let field = field(name);
        (0..5)
            .filter(|&x| lane(&field, x, 0) == Some(UNREACHABLE))
            .collect()
    };
    assert_eq!(painted("blocker-8-0-8-8"), []);
    assert_eq!(painted("blocker-minus-5-0-1-8"), [0]);
    assert_eq!(painted("blocker-7-0-9-8"), [0, 1]);
}

#[test]
fn the_map_of_the_room_text() {
    let expected = "window 0 0 5 3\nsweeps 2\ncells 5\n\
        0 0 500\n1 0 0\n2 0 0\n3 0 0\n4 0 500\ngroups 1\n0\n";
    assert_eq!(sheet(&UnchangedRust, &call("five-by-three")), expected);
}

#[test]
fn a_first_sweep_that_changes_nothing_does_not_end_the_run() {
    let field = field("first-sweep-quiet");
    assert_eq!(lane(&field, 1, 1), lane_of(500));
    assert_eq!(lane(&field, 0, 1), lane_of(1_000));
    assert_eq!(lane(&field, 0, 0), lane_of(1_207));
    assert_eq!(field.sweeps, 3);
}

#[test]
fn a_row_of_100_reaches_97_cells() {
    let field = field("row-of-100");
    assert_eq!(lane(&field, 97, 0), lane_of(48_000));
    assert_eq!(lane(&field, 98, 0), Some(UNREACHABLE));
    assert_eq!(lane(&field, 99, 0), None);
}

#[test]
fn an_empty_row_of_the_window_is_skipped() {
    let field = field("120-by-50");
    assert_eq!(lane(&field, 97, 0), lane_of(48_000));
    let empty = field.window.width as u16 + 1;
    assert_eq!(field.row_intervals[2..4], [empty, empty]);
}

#[test]
fn resources_within_32_steps_are_one_field() {
    assert_eq!(fields("row-of-36-steps-32"), [0, 0]);
    assert_eq!(fields("row-of-36-steps-33"), [0, 1]);
    assert_eq!(fields("row-of-69-chained"), [0, 0, 0]);
}

#[test]
fn the_same_rectangle_twice() {
    let call = call("same-rectangle-twice");
    let field = UnchangedRust.field(&call);
    for y in 0..call.map.height {
        for x in 0..call.map.width {
            let lanes = field.reading(x, y).expect("a cell of the window");
            assert_eq!(lanes[0], lanes[1]);
        }
    }
    assert_eq!(fields("same-rectangle-twice"), [0, 0]);
    assert_eq!(fields("same-rectangle-twice-walled-in"), [0, 1]);
}

#[test]
fn with_no_resources_nothing_is_used() {
    let field = field("no-resources");
    let expected = Field {
        window: Window {
            left: 0,
            top: 0,
            width: 0,
            height: 0,
        },
        sweeps: 0,
        lane_count: 8,
        lanes: vec![],
        walk: vec![],
        flags: vec![],
        row_intervals: vec![],
    };
    assert_eq!(field, expected);
}

/// Each used part, as document 01 describes it, on every case with resources: its length, its
/// padding, and the flags and unwalkable lanes that follow from the walk bytes.
#[test]
fn the_used_parts_end_as_document_01_says() {
    for case in cases() {
        if case.call.resources.is_empty() {
            continue;
        }
        let field = UnchangedRust.field(&case.call);
        let (width, height) = (field.window.width as usize, field.window.height as usize);
        let (stride, rows) = (width + 2, height + 2);
        assert_eq!(field.walk.len(), stride * rows);
        assert_eq!(field.flags.len(), stride * rows);
        assert_eq!(field.lanes.len(), stride * rows * case.call.lanes);
        assert_eq!(field.row_intervals.len(), 2 * height);
        assert!((2..=193).contains(&field.sweeps));
        for index in 0..stride * rows {
            let (x, y) = (index % stride, index / stride);
            let padding = x == 0 || y == 0 || x > width || y > height;
            let lanes = &field.lanes[index * case.call.lanes..][..case.call.lanes];
            if padding || field.walk[index] == 0 {
                assert!(lanes.iter().all(|&lane| lane == UNREACHABLE));
            }
            let flags = if padding {
                assert_eq!(field.walk[index], 0);
                0
            } else {
                let [north, west] = [index - stride, index - 1].map(|cell| field.walk[cell]);
                let [south, east] = [index + stride, index + 1].map(|cell| field.walk[cell]);
                field.walk[index]
                    + 2 * (north & west)
                    + 4 * (north & east)
                    + 8 * (south & west)
                    + 16 * (south & east)
            };
            assert_eq!(field.flags[index], flags);
        }
    }
}

#[test]
fn a_cell_can_be_in_the_window_and_unreachable_or_not_in_it() {
    assert_eq!(
        lane(&field("open-60-by-60-near"), 48, 48),
        Some(UNREACHABLE)
    );
    assert_eq!(lane(&field("open-60-by-60-far"), 48, 48), lane_of(33_229));
    assert_eq!(lane(&field("gap-97-outside"), 98, 0), None);
}

#[test]
fn a_ring_that_is_not_inside_starts_nothing() {
    let field = field("row-of-200");
    let mut lanes = field.lanes.chunks(8).map(|lanes| lanes[1]);
    assert!(lanes.all(|lane| lane == UNREACHABLE));
}

#[test]
fn walls_that_wind_take_34_sweeps() {
    assert_eq!(field("winding-two-rows").sweeps, 34);
}
