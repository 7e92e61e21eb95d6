//! Access cells of resources, and which resources are one field.

use crate::exports::{self, FieldsBuffers};
use crate::map::{lengthen, set_numbers};
use crate::{Grid, LARGEST_SIDE, MOST_RESOURCES, PixelRect, Refusal};

/// The access cells of a rectangle: the walkable cells that border it, as indices into the map's
/// cells, by row, then column.
///
/// # Errors
///
/// Refusals 1 and 4.
pub fn access_cells(grid: &Grid, rectangle: PixelRect) -> Result<Vec<u32>, Refusal> {
    let mut cells = vec![0; most_access_cells(&rectangle)];
    let answer = exports::access(grid, rectangle, &mut cells);
    Refusal::judge(answer.number, answer.place)?;
    cells.truncate(answer.count as usize);
    Ok(cells)
}

/// The access cells of each of several resources.
///
/// # Errors
///
/// Refusals 1, 3 and 4.
pub fn access_lists(grid: &Grid, resources: &[PixelRect]) -> Result<AccessLists, Refusal> {
    let mut lists = AccessLists::new();
    lists.compute(grid, resources)?;
    Ok(lists)
}

/// The fields of resources, from their access cells.
///
/// # Errors
///
/// Refusals 1, 3 and 8.
pub fn fields(grid: &Grid, lists: &AccessLists) -> Result<Fields, Refusal> {
    let mut fields = Fields::new();
    fields.compute(grid, lists)?;
    Ok(fields)
}

/// At least as many as the rectangle has access cells, if it is accepted.
fn most_access_cells(rectangle: &PixelRect) -> usize {
    let cells = |low: i32, high: i32| {
        let pixels = (i64::from(high) - i64::from(low)).clamp(0, 8 * i64::from(LARGEST_SIDE));
        pixels as usize / 8 + 2
    };
    let across = cells(rectangle.left, rectangle.right);
    let down = cells(rectangle.top, rectangle.bottom);
    2 * (across + down) + 4
}

/// The access cells of several resources: indices of cells, one resource's after another's, and for
/// each resource where its own end. They may be computed, or put together from any lists.
#[derive(Debug, Clone, Default)]
pub struct AccessLists {
    indices: Vec<u32>,
    ends: Vec<u32>,
    rectangles: Vec<i32>,
}

impl PartialEq for AccessLists {
    fn eq(&self, other: &Self) -> bool {
        self.indices == other.indices && self.ends == other.ends
    }
}

impl Eq for AccessLists {}

impl AccessLists {
    /// No resources.
    pub fn new() -> Self {
        Self::default()
    }

    /// The indices of all resources, and each one's end. Nothing is tested here: [`Fields::compute`]
    /// refuses what is not so, with number 8.
    pub fn from_parts(indices: Vec<u32>, ends: Vec<u32>) -> Self {
        Self {
            indices,
            ends,
            rectangles: Vec::new(),
        }
    }

    /// Lists the access cells of each of several rectangles, in place of what was here before. The
    /// buffers are reused.
    ///
    /// # Errors
    ///
    /// Refusals 1, 3 and 4. The lists are then as they were before.
    pub fn compute(&mut self, grid: &Grid, resources: &[PixelRect]) -> Result<(), Refusal> {
        set_numbers(&mut self.rectangles, resources);
        let (listed, ended) = (self.indices.len(), self.ends.len());
        // Any length does for a call that is refused, as one with more resources is.
        let resources = &resources[..resources.len().min(MOST_RESOURCES)];
        let most = resources.iter().map(most_access_cells).sum();
        lengthen(&mut self.indices, most);
        lengthen(&mut self.ends, resources.len());
        let answer =
            exports::access_lists(grid, &self.rectangles, &mut self.indices, &mut self.ends);
        let outcome = Refusal::judge(answer.number, answer.place);
        let (listed, ended) = match outcome {
            Ok(()) => (answer.count as usize, resources.len()),
            Err(_) => (listed, ended),
        };
        self.indices.truncate(listed);
        self.ends.truncate(ended);
        outcome
    }

    /// Adds a resource with these access cells.
    pub fn push(&mut self, access_cells: &[u32]) {
        self.indices.extend_from_slice(access_cells);
        self.ends.push(self.indices.len() as u32);
    }

    /// How many resources there are.
    pub fn len(&self) -> usize {
        self.ends.len()
    }

    pub fn is_empty(&self) -> bool {
        self.ends.is_empty()
    }

    /// The access cells of a resource, or `None` where there is no such resource, or its ends are
    /// not those of a list.
    pub fn get(&self, resource: usize) -> Option<&[u32]> {
        let end = *self.ends.get(resource)? as usize;
        let start = match resource {
            0 => 0,
            _ => self.ends[resource - 1] as usize,
        };
        self.indices.get(start..end)
    }

    /// The access cells of all resources, one resource's after another's.
    pub fn indices(&self) -> &[u32] {
        &self.indices
    }

    /// For each resource the end of its access cells.
    pub fn ends(&self) -> &[u32] {
        &self.ends
    }
}

/// Which resources are one field: each resource's field number, how many fields there are, and the
/// buffers to compute them in, which are reused from one computation to the next.
#[derive(Debug, Clone, Default)]
pub struct Fields {
    resources: usize,
    count: usize,
    states: Vec<u16>,
    queue: Vec<u32>,
    parents: Vec<u16>,
    ranks: Vec<u8>,
    answers: Vec<u16>,
}

impl Fields {
    /// No resources, and no fields.
    pub fn new() -> Self {
        Self::default()
    }

    /// Joins resources: two are linked if a walk of at most 32 steps leads from an access cell of one
    /// to an access cell of the other, and chains of links make a field. A resource without a
    /// walkable access cell is a field by itself.
    ///
    /// # Errors
    ///
    /// Refusals 1, 3 and 8. The fields are then as they were before.
    pub fn compute(&mut self, grid: &Grid, lists: &AccessLists) -> Result<(), Refusal> {
        // Any length does for a call that is refused, as one with more resources or cells is.
        let resources = lists.len().min(MOST_RESOURCES);
        let cells = grid.cells.len().min((LARGEST_SIDE * LARGEST_SIDE) as usize);
        lengthen(&mut self.states, cells);
        lengthen(&mut self.queue, cells);
        lengthen(&mut self.parents, resources);
        lengthen(&mut self.ranks, resources);
        lengthen(&mut self.answers, resources);
        let answer = exports::fields(
            grid,
            &lists.indices,
            &lists.ends,
            FieldsBuffers {
                states: &mut self.states,
                queue: &mut self.queue,
                parents: &mut self.parents,
                ranks: &mut self.ranks,
                answers: &mut self.answers,
            },
        );
        Refusal::judge(answer.number, answer.place)?;
        self.resources = resources;
        self.count = answer.count as usize;
        Ok(())
    }

    /// Each resource's field. Fields are numbered from 0 by their smallest member.
    pub fn numbers(&self) -> &[u16] {
        &self.answers[..self.resources]
    }

    /// How many fields there are.
    pub fn count(&self) -> usize {
        self.count
    }
}
