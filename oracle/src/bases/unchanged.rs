//! The engine that is broodmap's own text.
//!
//! Readings, access cells and fields come from the unchanged files, and only they are timed. The
//! window, the buffers and the sweep count come from the probed copy of `proximity.rs`; each of its
//! readings is compared with the unchanged file's on every cell of the map, and a difference ends
//! the program.

use std::hint::black_box;

use super::clustering::{cluster_sets, clusters_from_sets, perimeter_access_cells};
use super::selection::MiningResource;
use super::{probed, proximity};
use crate::interface::{
    AccessLists, CellBox, Engine, Field, FieldCall, Map, Rectangle, Run, Window,
};
use crate::{PixelRect, TerrainGrid};

pub struct UnchangedRust;

impl Engine for UnchangedRust {
    fn name(&self) -> &str {
        "Rust"
    }

    fn field(&self, call: &FieldCall) -> Field {
        match call.lanes {
            8 => field::<8>(call),
            16 => field::<16>(call),
            lanes => panic!("a field call with {lanes} lanes is refused"),
        }
    }

    fn access_cells(&self, map: &Map, rectangle: Rectangle) -> Vec<u32> {
        access_cells(&terrain_grid(map), rectangle)
    }

    fn access_lists(&self, map: &Map, resources: &[Rectangle]) -> AccessLists {
        let grid = terrain_grid(map);
        let mut access = AccessLists::default();
        for &resource in resources {
            access.push(&access_cells(&grid, resource));
        }
        access
    }

    fn fields(&self, map: &Map, access: &AccessLists) -> Vec<u16> {
        let grid = terrain_grid(map);
        let mining = mining_resources(&grid, access);
        let mut fields = vec![0; mining.len()];
        for (number, members) in clusters(&grid, &mining).iter().enumerate() {
            for &member in members {
                fields[member] = number as u16;
            }
        }
        fields
    }

    fn field_run<'a>(&'a self, call: &'a FieldCall) -> Run<'a> {
        match call.lanes {
            8 => field_run::<8>(call),
            16 => field_run::<16>(call),
            lanes => panic!("a field call with {lanes} lanes is refused"),
        }
    }

    fn access_run<'a>(&'a self, map: &'a Map, resources: &'a [Rectangle]) -> Run<'a> {
        let grid = terrain_grid(map);
        let resources = pixel_rects(resources);
        Box::new(move || {
            for &bounds in &resources {
                black_box(perimeter_access_cells(black_box(&grid), bounds));
            }
        })
    }

    fn fields_run<'a>(&'a self, map: &'a Map, access: &'a AccessLists) -> Run<'a> {
        let grid = terrain_grid(map);
        let mining = mining_resources(&grid, access);
        Box::new(move || {
            black_box(clusters(black_box(&grid), black_box(&mining)));
        })
    }
}

fn field<const L: usize>(call: &FieldCall) -> Field {
    let grid = terrain_grid(&call.map);
    let blockers = pixel_rects(&call.blockers);
    let resources = pixel_rects(&call.resources);
    let [x0, y0, x1, y1] = call.targets.map(i64::from);

    let mut probed = probed::ProximityField::<L>::new();
    probed::take_sweeps();
    let targets = probed::CellBox { x0, y0, x1, y1 };
    probed.compute(&grid, &blockers, &resources, targets);
    let [left, top, width, height] = probed.window().map(|number| number as u32);
    let field = Field {
        window: Window {
            left,
            top,
            width,
            height,
        },
        sweeps: probed::take_sweeps(),
        lane_count: L,
        lanes: probed.distances().as_flattened().to_vec(),
        walk: probed.walk().to_vec(),
        flags: probed.flags().to_vec(),
        row_intervals: probed
            .rows()
            .iter()
            .flat_map(|&(first, end)| [first as u16, end as u16])
            .collect(),
    };

    let mut unchanged = proximity::ProximityField::<L>::new();
    unchanged.compute(&grid, &blockers, &resources, cell_box(call.targets));
    for y in 0..grid.height() {
        for x in 0..grid.width() {
            assert_eq!(
                field.reading(x, y),
                unchanged.at(x, y).map(|lanes| &lanes[..]),
                "the probed copy differs from the unchanged file at {x} {y}"
            );
        }
    }
    field
}

/// The field is kept between runs, as broodmap keeps it: `compute` refills its buffers.
fn field_run<'a, const L: usize>(call: &FieldCall) -> Run<'a> {
    let grid = terrain_grid(&call.map);
    let blockers = pixel_rects(&call.blockers);
    let resources = pixel_rects(&call.resources);
    let targets = cell_box(call.targets);
    let mut field = proximity::ProximityField::<L>::new();
    Box::new(move || {
        field.compute(black_box(&grid), &blockers, &resources, targets);
        black_box(&field);
    })
}

fn access_cells(grid: &TerrainGrid, rectangle: Rectangle) -> Vec<u32> {
    perimeter_access_cells(grid, pixel_rect(rectangle))
        .unwrap_or_default()
        .into_iter()
        .map(|point| grid.index(point).expect("an access cell is in the map") as u32)
        .collect()
}

fn clusters(grid: &TerrainGrid, mining: &[MiningResource]) -> Vec<Vec<usize>> {
    let mut sets = cluster_sets(grid, mining);
    clusters_from_sets(&mut sets, mining.len())
}

/// A resource without access cells keeps its place, with an empty list: `cluster_sets` then leaves
/// it by itself. broodmap drops such a resource before it joins the others.
fn mining_resources(grid: &TerrainGrid, access: &AccessLists) -> Vec<MiningResource> {
    access
        .parts()
        .map(|part| MiningResource {
            access: part
                .iter()
                .map(|&index| grid.position(index as usize))
                .collect(),
        })
        .collect()
}

fn terrain_grid(map: &Map) -> TerrainGrid {
    TerrainGrid::from_walkable(map.width, map.height, &map.cells)
}

fn pixel_rect([left, top, right, bottom]: Rectangle) -> PixelRect {
    PixelRect {
        left,
        top,
        right,
        bottom,
    }
}

fn pixel_rects(rectangles: &[Rectangle]) -> Vec<PixelRect> {
    rectangles.iter().copied().map(pixel_rect).collect()
}

fn cell_box(cells: CellBox) -> proximity::CellBox {
    let [x0, y0, x1, y1] = cells.map(i64::from);
    proximity::CellBox { x0, y0, x1, y1 }
}
