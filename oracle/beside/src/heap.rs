//! A plain search with a heap, one for each resource: what the sweeps stand in place of. It gives the
//! same costs at target cells.

use std::cmp::Reverse;
use std::collections::BinaryHeap;

use cerandool::{HALF_CAP, half_cost};
use oracle::interface::{Field, FieldCall, Rectangle};

const STRAIGHT: u16 = 500;
const DIAGONAL: u16 = 707;
const REACH: i32 = 96;
const UNREACHED: u16 = u16::MAX;

/// The window of a field call with padding of one cell on each side, painted, and the costs of each
/// resource on it. The buffers are kept from one call to the next.
#[derive(Default)]
pub struct HeapSearch {
    left: i32,
    top: i32,
    width: i32,
    height: i32,
    walk: Vec<u8>,
    costs: Vec<Vec<u16>>,
    heap: BinaryHeap<Reverse<(u16, u32)>>,
}

impl HeapSearch {
    /// Searches from the access cells of each resource of an accepted call.
    pub fn compute(&mut self, call: &FieldCall) {
        self.set_window(call);
        self.paint(call);
        let cells = self.walk.len();
        self.costs.resize(call.resources.len(), Vec::new());
        for (resource, rectangle) in call.resources.iter().enumerate() {
            let mut costs = std::mem::take(&mut self.costs[resource]);
            costs.clear();
            costs.resize(cells, UNREACHED);
            self.start(call, *rectangle, &mut costs);
            self.search(&mut costs);
            self.costs[resource] = costs;
        }
    }

    /// The half costs at a cell, one per resource.
    fn at(&self, x: i32, y: i32) -> impl Iterator<Item = Option<u16>> {
        let index = self.index(x, y);
        self.costs.iter().map(move |costs| {
            index
                .map(|index| costs[index])
                .filter(|&cost| cost != UNREACHED)
        })
    }

    /// The place of a map's cell in the window, or `None` for one outside.
    fn index(&self, x: i32, y: i32) -> Option<usize> {
        let (column, row) = (x - self.left, y - self.top);
        let inside = 0 <= column && column < self.width && 0 <= row && row < self.height;
        inside.then(|| ((row + 1) * (self.width + 2) + column + 1) as usize)
    }

    fn set_window(&mut self, call: &FieldCall) {
        let rings = |axis: usize, side: u32| {
            let low = call.resources.iter().map(|r| r[axis] / 8 - 1).min();
            let high = call
                .resources
                .iter()
                .map(|r| (r[axis + 2] - 1) / 8 + 1)
                .max();
            low.zip(high)
                .map(|(low, high)| (low.max(0), high.min(side as i32 - 1)))
        };
        let along = |axis: usize, side: u32| {
            let Some((low, high)) = rings(axis, side) else {
                return (0, 0);
            };
            let start = (low + call.targets[axis] - REACH).div_euclid(2).max(0);
            let end = (high + call.targets[axis + 2] + REACH).div_euclid(2);
            (start, end.min(side as i32 - 1) - start + 1)
        };
        (self.left, self.width) = along(0, call.map.width);
        (self.top, self.height) = along(1, call.map.height);
    }

    fn paint(&mut self, call: &FieldCall) {
        let stride = self.width as usize + 2;
        self.walk.clear();
        self.walk.resize(stride * (self.height as usize + 2), 0);
        for row in 0..self.height as usize {
            let from = (self.top as usize + row) * call.map.width as usize + self.left as usize;
            let to = (row + 1) * stride + 1;
            let width = self.width as usize;
            self.walk[to..to + width].copy_from_slice(&call.map.cells[from..from + width]);
        }
        let sides = [call.map.width, call.map.height].map(|side| 8 * side as i32);
        for &[left, top, right, bottom] in &call.blockers {
            let [left, right] = [left, right].map(|pixel| pixel.clamp(0, sides[0]));
            let [top, bottom] = [top, bottom].map(|pixel| pixel.clamp(0, sides[1]));
            if left >= right || top >= bottom {
                continue;
            }
            for y in top / 8..(bottom + 7) / 8 {
                for x in left / 8..(right + 7) / 8 {
                    if let Some(index) = self.index(x, y) {
                        self.walk[index] = 0;
                    }
                }
            }
        }
    }

    /// The walkable cells around a resource cost 0.
    fn start(&mut self, call: &FieldCall, rectangle: Rectangle, costs: &mut [u16]) {
        let [left, top, right, bottom] = rectangle;
        let [left, top, right, bottom] = [left / 8, top / 8, (right - 1) / 8, (bottom - 1) / 8];
        let last = [call.map.width, call.map.height].map(|side| side as i32 - 1);
        for y in (top - 1).max(0)..=(bottom + 1).min(last[1]) {
            for x in (left - 1).max(0)..=(right + 1).min(last[0]) {
                if (left..=right).contains(&x) && (top..=bottom).contains(&y) {
                    continue;
                }
                let Some(index) = self.index(x, y) else {
                    continue;
                };
                if self.walk[index] == 1 {
                    costs[index] = 0;
                    self.heap.push(Reverse((0, index as u32)));
                }
            }
        }
    }

    fn search(&mut self, costs: &mut [u16]) {
        let stride = self.width as usize + 2;
        let walk = &self.walk[..];
        while let Some(Reverse((cost, index))) = self.heap.pop() {
            let index = index as usize;
            if cost > costs[index] {
                continue;
            }
            let mut step = |next: usize, price: u16| {
                let next_cost = cost + price;
                if walk[next] == 1 && next_cost <= HALF_CAP && next_cost < costs[next] {
                    costs[next] = next_cost;
                    self.heap.push(Reverse((next_cost, next as u32)));
                }
            };
            let (north, south) = (index - stride, index + stride);
            let (west, east) = (index - 1, index + 1);
            for next in [north, west, east, south] {
                step(next, STRAIGHT);
            }
            for (vertical, horizontal) in
                [(north, west), (north, east), (south, west), (south, east)]
            {
                if walk[vertical] == 1 && walk[horizontal] == 1 {
                    step(vertical + horizontal - index, DIAGONAL);
                }
            }
        }
    }
}

/// The half costs at the target cells by row, then column, one per resource and cell.
pub fn target_costs(call: &FieldCall) -> Vec<Option<u16>> {
    let mut search = HeapSearch::default();
    search.compute(call);
    target_cells(call)
        .flat_map(|(x, y)| search.at(x, y).collect::<Vec<_>>())
        .collect()
}

/// The same from a field.
pub fn target_costs_of(call: &FieldCall, field: &Field) -> Vec<Option<u16>> {
    let resources = call.resources.len();
    target_cells(call)
        .flat_map(|(x, y)| {
            let lanes = field.reading(x as u32, y as u32);
            (0..resources).map(move |lane| lanes.and_then(|lanes| half_cost(lanes[lane])))
        })
        .collect()
}

fn target_cells(call: &FieldCall) -> impl Iterator<Item = (i32, i32)> {
    let [left, top, right, bottom] = call.targets;
    (top..=bottom).flat_map(move |y| (left..=right).map(move |x| (x, y)))
}
