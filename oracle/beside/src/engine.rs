//! The engine that is the library.

use std::hint::black_box;

use cerandool::PixelRect;
use oracle::interface::{AccessLists, Engine, Field, FieldCall, Map, Rectangle, Run};

use crate::calls::{Call, FieldBuffers, FieldInput, FieldsBuffers, FieldsInput, ListsBuffers};
use crate::calls::{ListsInput, grid};

pub struct Cerandool;

impl Engine for Cerandool {
    fn name(&self) -> &str {
        "Cerandool"
    }

    fn field(&self, call: &FieldCall) -> Field {
        let mut buffers = buffers_for(call);
        let answer = FieldInput::from(call).ask(&mut buffers);
        assert_eq!(answer.number, 0, "an accepted call is refused: {answer:?}");
        let used = if call.resources.is_empty() {
            FieldBuffers::default()
        } else {
            FieldBuffers::of_window(answer.width, answer.height, call.lanes)
        };
        buffers.lanes.truncate(used.lanes.len());
        buffers.walk.truncate(used.walk.len());
        buffers.flags.truncate(used.flags.len());
        buffers.rows.truncate(used.rows.len());
        Field {
            window: oracle::interface::Window {
                left: answer.left,
                top: answer.top,
                width: answer.width,
                height: answer.height,
            },
            sweeps: answer.sweeps,
            lane_count: answer.lanes as usize,
            lanes: buffers.lanes,
            walk: buffers.walk,
            flags: buffers.flags,
            row_intervals: buffers.rows,
        }
    }

    fn access_cells(&self, map: &Map, rectangle: Rectangle) -> Vec<u32> {
        cerandool::access_cells(&grid(map), rectangle.into()).expect("an accepted call")
    }

    fn access_lists(&self, map: &Map, resources: &[Rectangle]) -> AccessLists {
        let resources: Vec<_> = resources.iter().copied().map(PixelRect::from).collect();
        let lists = cerandool::access_lists(&grid(map), &resources).expect("an accepted call");
        AccessLists {
            cells: lists.indices().to_vec(),
            ends: lists.ends().to_vec(),
        }
    }

    fn fields(&self, map: &Map, access: &AccessLists) -> Vec<u16> {
        let lists = cerandool::AccessLists::from_parts(access.cells.clone(), access.ends.clone());
        let fields = cerandool::fields(&grid(map), &lists).expect("an accepted call");
        fields.numbers().to_vec()
    }

    /// The buffers are kept between runs, as the Rust keeps them: each run refills them.
    fn field_run<'a>(&'a self, call: &'a FieldCall) -> Run<'a> {
        let input = FieldInput::from(call);
        let mut buffers = buffers_for(call);
        Box::new(move || {
            black_box(black_box(&input).ask(&mut buffers));
            black_box(&buffers);
        })
    }

    fn access_run<'a>(&'a self, map: &'a Map, resources: &'a [Rectangle]) -> Run<'a> {
        let needed = self.access_lists(map, resources);
        let input = ListsInput {
            map: map.clone(),
            rectangles: resources.as_flattened().to_vec(),
        };
        let mut buffers = ListsBuffers {
            indices: vec![0; needed.cells.len()],
            ends: vec![0; needed.ends.len()],
        };
        Box::new(move || {
            black_box(black_box(&input).ask(&mut buffers));
            black_box(&buffers);
        })
    }

    fn fields_run<'a>(&'a self, map: &'a Map, access: &'a AccessLists) -> Run<'a> {
        let input = FieldsInput {
            map: map.clone(),
            access: access.clone(),
        };
        let mut buffers = FieldsBuffers::of_sizes(map.cells.len(), access.ends.len());
        Box::new(move || {
            black_box(black_box(&input).ask(&mut buffers));
            black_box(&buffers);
        })
    }
}

/// Long enough for any window of the call's map.
fn buffers_for(call: &FieldCall) -> FieldBuffers {
    FieldBuffers::of_window(call.map.width, call.map.height, call.lanes)
}
