//! Every refusal of the table: its number and place, its words, and that nothing changes.

use cerandool::exports::{self, FieldBuffers, FieldsBuffers};
use cerandool::{
    AccessLists, CellBox, Fields, Grid, LARGEST_SIDE, MOST_BLOCKERS, MOST_RESOURCES, PixelRect,
    ProximityField, Refusal, access_cells, access_lists, fields,
};

const OPEN: [u8; 15] = [1; 15];

/// 5 by 3 walkable cells.
const GRID: Grid = Grid {
    width: 5,
    height: 3,
    cells: &OPEN,
};
const MINERAL: PixelRect = PixelRect {
    left: 16,
    top: 8,
    right: 24,
    bottom: 16,
};
const FIRST_ROW: CellBox = CellBox {
    x0: 0,
    y0: 0,
    x1: 4,
    y1: 0,
};

fn refused<T: std::fmt::Debug>(outcome: Result<T, Refusal>) -> (u32, u32) {
    let refusal = outcome.expect_err("a refused call");
    (refusal.number, refusal.place)
}

/// A refused call leaves the field that was computed before.
fn field_refused<const L: usize>(
    grid: &Grid,
    blockers: &[PixelRect],
    resources: &[PixelRect],
    targets: CellBox,
) -> (u32, u32) {
    let mut field = ProximityField::<L>::new();
    field.compute(&GRID, &[], &[MINERAL], FIRST_ROW).unwrap();
    let before = field.clone();
    let refusal = refused(field.compute(grid, blockers, resources, targets));
    assert_eq!(field.window(), before.window());
    assert_eq!(field.sweeps(), before.sweeps());
    for y in 0..3 {
        for x in 0..5 {
            assert_eq!(field.at(x, y), before.at(x, y));
        }
    }
    refusal
}

fn lists_refused(grid: &Grid, resources: &[PixelRect]) -> (u32, u32) {
    let mut lists = access_lists(&GRID, &[MINERAL]).unwrap();
    let before = lists.clone();
    let refusal = refused(lists.compute(grid, resources));
    assert_eq!(lists, before);
    refusal
}

fn fields_refused(grid: &Grid, lists: &AccessLists) -> (u32, u32) {
    let mut fields = Fields::new();
    let before = access_lists(&GRID, &[MINERAL, MINERAL]).unwrap();
    fields.compute(&GRID, &before).unwrap();
    let refusal = refused(fields.compute(grid, lists));
    assert_eq!(fields.numbers(), [0, 0]);
    assert_eq!(fields.count(), 1);
    refusal
}

#[test]
fn a_bad_grid_is_refused_by_1() {
    let long = vec![1; 2 * (LARGEST_SIDE as usize + 1)];
    let mut with_2 = OPEN;
    with_2[14] = 2;
    let grid = |width, height, cells| Grid {
        width,
        height,
        cells,
    };
    let bad = [
        grid(0, 3, &[][..]),
        grid(5, 0, &[]),
        grid(LARGEST_SIDE + 1, 2, &long),
        grid(2, LARGEST_SIDE + 1, &long),
        grid(1 << 16, 1 << 16, &[]),
        grid(u32::MAX, u32::MAX, &OPEN),
        grid(5, 3, &OPEN[1..]),
        grid(5, 2, &OPEN),
        grid(5, 3, &with_2),
    ];
    // What stands later in the table does not matter.
    let nowhere = PixelRect {
        left: i32::MIN,
        right: i32::MAX,
        ..MINERAL
    };
    let bad_lists = AccessLists::from_parts(vec![15], vec![9, 3]);
    for grid in &bad {
        assert_eq!(
            field_refused::<8>(grid, &[], &[MINERAL], FIRST_ROW),
            (1, 0),
            "{grid:?}"
        );
        assert_eq!(field_refused::<16>(grid, &[], &[], FIRST_ROW), (1, 0));
        assert_eq!(
            field_refused::<16>(grid, &[], &[nowhere; 17], FIRST_ROW),
            (1, 0)
        );
        assert_eq!(refused(access_cells(grid, nowhere)), (1, 0));
        assert_eq!(lists_refused(grid, &[nowhere; 513]), (1, 0));
        assert_eq!(fields_refused(grid, &bad_lists), (1, 0));
    }
}

#[test]
fn lanes_other_than_8_and_16_are_refused_by_2() {
    for lanes in [0, 1, 7, 9, 15, 17, 24, u32::MAX] {
        let mut buffers = Buffers::new(16);
        assert_eq!(buffers.field(lanes, &[], &[16, 8, 24, 16]), (2, 0));
    }
    for lanes in [8, 16] {
        let mut buffers = Buffers::new(lanes as usize);
        assert_eq!(buffers.field(lanes, &[], &[16, 8, 24, 16]), (0, 0));
    }
}

#[test]
fn too_many_resources_are_refused_by_3() {
    assert_eq!(
        field_refused::<8>(&GRID, &[], &[MINERAL; 9], FIRST_ROW),
        (3, 0)
    );
    assert_eq!(
        field_refused::<16>(&GRID, &[], &[MINERAL; 17], FIRST_ROW),
        (3, 0)
    );
    let compute_16 = |count| {
        let minerals = vec![MINERAL; count];
        ProximityField::<16>::new().compute(&GRID, &[], &minerals, FIRST_ROW)
    };
    assert_eq!(compute_16(9), Ok(()));
    assert_eq!(compute_16(16), Ok(()));

    let most = vec![MINERAL; MOST_RESOURCES];
    let lists = access_lists(&GRID, &most).unwrap();
    assert_eq!(lists.len(), MOST_RESOURCES);
    assert_eq!(fields(&GRID, &lists).unwrap().numbers(), [0; 512]);
    let too_many = vec![MINERAL; MOST_RESOURCES + 1];
    assert_eq!(lists_refused(&GRID, &too_many), (3, 0));
    let mut too_many = lists;
    too_many.push(&[]);
    assert_eq!(fields_refused(&GRID, &too_many), (3, 0));
}

#[test]
fn numbers_not_in_fours_are_refused_by_3_and_5() {
    let mut buffers = Buffers::new(8);
    for length in [1, 2, 3, 5] {
        let numbers = &[16, 8, 24, 16, 16][..length];
        assert_eq!(buffers.field(8, &[], numbers), (3, 0));
        assert_eq!(buffers.field(8, numbers, &[]), (5, 0));
        let (indices, ends) = (&mut [7; 20], &mut [7; 2]);
        let answer = exports::access_lists(&GRID, numbers, indices, ends);
        assert_eq!((answer.number, answer.place, answer.count), (3, 0, 0));
        assert_eq!((indices, ends), (&mut [7; 20], &mut [7; 2]));
    }
}

#[test]
fn a_bad_resource_is_refused_by_4_with_its_place() {
    let bad = [
        [-1, 8, 24, 16],
        [16, -1, 24, 16],
        [i32::MIN, 8, i32::MAX, 16],
        [24, 8, 24, 16],
        [16, 16, 24, 16],
        [24, 8, 16, 16],
        [16, 8, 41, 16],
        [16, 8, 24, 25],
        [16, 8, i32::MAX, 16],
        [16, 8, 24, i32::MIN],
    ];
    for bad in bad.map(PixelRect::from) {
        assert_eq!(
            field_refused::<8>(&GRID, &[], &[MINERAL, MINERAL, bad, bad], FIRST_ROW),
            (4, 2),
            "{bad:?}"
        );
        assert_eq!(refused(access_cells(&GRID, bad)), (4, 0));
        assert_eq!(lists_refused(&GRID, &[bad]), (4, 0));
        assert_eq!(lists_refused(&GRID, &[MINERAL, bad, MINERAL, bad]), (4, 1));
    }
    let whole = PixelRect::from([0, 0, 40, 24]);
    assert_eq!(access_cells(&GRID, whole), Ok(vec![]));
}

#[test]
fn too_many_blockers_are_refused_by_5() {
    let mut blockers = vec![PixelRect::from([0, 0, 8, 8]); MOST_BLOCKERS];
    let mut field = ProximityField::<8>::new();
    assert_eq!(
        field.compute(&GRID, &blockers, &[MINERAL], FIRST_ROW),
        Ok(())
    );
    blockers.push(blockers[0]);
    assert_eq!(
        field_refused::<8>(&GRID, &blockers, &[MINERAL], FIRST_ROW),
        (5, 0)
    );
    assert_eq!(field_refused::<8>(&GRID, &blockers, &[], FIRST_ROW), (5, 0));
}

#[test]
fn targets_that_are_empty_or_not_in_the_map_are_refused_by_6() {
    let bad = [
        [-1, 0, 4, 0],
        [0, -1, 4, 0],
        [3, 0, 2, 0],
        [0, 2, 4, 1],
        [0, 0, 5, 0],
        [0, 0, 4, 3],
        [i32::MIN, 0, i32::MAX, 0],
    ];
    for bad in bad.map(CellBox::from) {
        assert_eq!(
            field_refused::<8>(&GRID, &[], &[MINERAL], bad),
            (6, 0),
            "{bad:?}"
        );
        assert_eq!(field_refused::<16>(&GRID, &[], &[], bad), (6, 0));
    }
}

/// The buffers of a field call on the whole of 5 by 3 cells.
#[derive(Clone, Debug, Eq, PartialEq)]
struct Buffers {
    lanes: Vec<i16>,
    walk: Vec<u8>,
    flags: Vec<u8>,
    rows: Vec<u16>,
    versions: Vec<u32>,
    pulled_down: Vec<u32>,
    pulled_up: Vec<u32>,
}

impl Buffers {
    fn new(lanes: usize) -> Self {
        Self {
            lanes: vec![77; 7 * 5 * lanes],
            walk: vec![77; 7 * 5],
            flags: vec![77; 7 * 5],
            rows: vec![77; 6],
            versions: vec![77; 5],
            pulled_down: vec![77; 5],
            pulled_up: vec![77; 5],
        }
    }

    /// Number and place; a refusal must leave the buffers as they were, and its rest must be 0.
    fn field(&mut self, lanes: u32, blockers: &[i32], resources: &[i32]) -> (u32, u32) {
        let before = self.clone();
        let buffers = FieldBuffers {
            lanes: &mut self.lanes,
            walk: &mut self.walk,
            flags: &mut self.flags,
            rows: &mut self.rows,
            versions: &mut self.versions,
            pulled_down: &mut self.pulled_down,
            pulled_up: &mut self.pulled_up,
        };
        let answer = exports::field(&GRID, lanes, blockers, resources, FIRST_ROW, buffers);
        if answer.number != 0 {
            let expected = exports::FieldAnswer {
                number: answer.number,
                place: answer.place,
                ..exports::FieldAnswer::default()
            };
            assert_eq!(answer, expected);
            assert_eq!(*self, before);
        }
        (answer.number, answer.place)
    }
}

#[test]
fn a_short_buffer_is_refused_by_7() {
    let mineral = [16, 8, 24, 16];
    let shortened: [fn(&mut Buffers); 7] = [
        |buffers| _ = buffers.lanes.pop(),
        |buffers| _ = buffers.walk.pop(),
        |buffers| _ = buffers.flags.pop(),
        |buffers| _ = buffers.rows.pop(),
        |buffers| _ = buffers.versions.pop(),
        |buffers| _ = buffers.pulled_down.pop(),
        |buffers| _ = buffers.pulled_up.pop(),
    ];
    for shorten in shortened {
        let mut buffers = Buffers::new(8);
        shorten(&mut buffers);
        assert_eq!(buffers.field(8, &[], &mineral), (7, 0));
        // With no resources no length is needed.
        assert_eq!(buffers.field(8, &[], &[]), (0, 0));
    }
    assert_eq!(Buffers::new(8).field(8, &[], &mineral), (0, 0));

    let mut out = [77; 8];
    let answer = exports::access(&GRID, MINERAL, &mut out[..7]);
    assert_eq!((answer.number, answer.place, answer.count), (7, 0, 0));
    assert_eq!(out, [77; 8]);
    let answer = exports::access(&GRID, MINERAL, &mut out);
    assert_eq!((answer.number, answer.place, answer.count), (0, 0, 8));

    for (listed, ended, number) in [(15, 2, 7), (16, 1, 7), (16, 2, 0)] {
        let (mut indices, mut ends) = (vec![77; listed], vec![77; ended]);
        let two = [mineral, mineral];
        let answer = exports::access_lists(&GRID, two.as_flattened(), &mut indices, &mut ends);
        assert_eq!((answer.number, answer.place), (number, 0));
        if number != 0 {
            assert_eq!(answer.count, 0);
            assert_eq!((indices, ends), (vec![77; listed], vec![77; ended]));
        }
    }
}

#[test]
fn a_short_buffer_of_a_fields_call_is_refused_by_7() {
    for shortened in 0..6 {
        let length = |buffer, length: usize| length - usize::from(buffer == shortened);
        let mut states = vec![77; length(0, 15)];
        let mut queue = vec![77; length(1, 15)];
        let mut parents = vec![77; length(2, 2)];
        let mut ranks = vec![77; length(3, 2)];
        let mut answers = vec![77; length(4, 2)];
        let buffers = FieldsBuffers {
            states: &mut states,
            queue: &mut queue,
            parents: &mut parents,
            ranks: &mut ranks,
            answers: &mut answers,
        };
        let answer = exports::fields(&GRID, &[0, 14], &[1, 2], buffers);
        if shortened == 5 {
            assert_eq!((answer.number, answer.place, answer.count), (0, 0, 1));
            assert_eq!((&states[..], &queue[..]), (&[0; 15][..], &[0; 15][..]));
            assert_eq!((&parents[..], &ranks[..]), (&[0, 0][..], &[0, 0][..]));
            assert_eq!(answers, [0, 0]);
        } else {
            assert_eq!((answer.number, answer.place, answer.count), (7, 0, 0));
            assert!(states.iter().all(|&entry| entry == 77));
            assert!(queue.iter().all(|&entry| entry == 77));
            assert!(parents.iter().all(|&entry| entry == 77));
            assert!(ranks.iter().all(|&entry| entry == 77));
            assert!(answers.iter().all(|&entry| entry == 77));
        }
    }
}

#[test]
fn bad_access_lists_are_refused_by_8() {
    let bad: [(&[u32], &[u32]); 7] = [
        (&[0, 1], &[2, 1, 2]),
        (&[0, 1], &[1]),
        (&[0, 1], &[3]),
        (&[0], &[]),
        (&[], &[1]),
        (&[0, 15], &[2]),
        (&[0, u32::MAX], &[1, 2]),
    ];
    for (indices, ends) in bad {
        let lists = AccessLists::from_parts(indices.to_vec(), ends.to_vec());
        assert_eq!(fields_refused(&GRID, &lists), (8, 0), "{lists:?}");
    }
    let none = AccessLists::new();
    assert_eq!(fields(&GRID, &none).unwrap().count(), 0);
}

#[test]
fn a_refusal_says_why() {
    let words = |number, place| Refusal { number, place }.to_string();
    let expected = [
        "refused 1, bad grid: size off its limits, length not width x height, or a byte above 1",
        "refused 2, lanes: not 8 or 16",
        "refused 3, count: resource numbers not in fours, or too many resources",
        "refused 4, bad resource: of resource 6, counted from 0, \
         not 0 <= left < right <= 8 x width, or the same vertically",
        "refused 5, blockers: numbers not in fours, or over 4,096",
        "refused 6, targets: box empty or not in the map",
        "refused 7, scratch: a lent buffer is shorter than needed",
        "refused 8, access: ends fall, the last end is not the list's length, \
         or an index is not that of a cell",
    ];
    for (number, expected) in (1..).zip(expected) {
        let place = if number == 4 { 6 } else { 0 };
        assert_eq!(words(number, place), expected);
    }
}
