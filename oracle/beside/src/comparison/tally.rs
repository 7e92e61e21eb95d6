//! What was compared.

use std::collections::BTreeMap;
use std::fmt;

use oracle::interface::{AccessLists, Field, FieldCall, MOST_BLOCKERS, MOST_RESOURCES, Map};

use crate::calls::Call;

/// Of a call's name and a refusal's number, how many inputs were damaged in one way and in two.
type Refusals = BTreeMap<(&'static str, u32), [u64; 2]>;

#[derive(Default)]
pub struct Tally {
    pub field_calls: u64,
    pub with_16_lanes: u64,
    pub without_resources: u64,
    pub with_most_blockers: u64,
    /// Calls with resources in whose window no cell is inside.
    pub without_inside_cells: u64,
    pub most_sweeps: u32,
    /// Calls whose costs at target cells were compared with a search for each resource.
    pub searched: u64,
    /// Cells of a map, and past its border, that were read.
    pub readings: u64,
    /// Readings by a window record that was made up, and how many of them found a part.
    pub made_up_readings: u64,
    pub made_up_readings_inside: u64,

    /// Rectangles asked one by one.
    pub access_calls: u64,
    pub without_access_cells: u64,
    /// Calls for many rectangles.
    pub lists_calls: u64,
    pub lists_without_rectangles: u64,
    pub lists_of_most_rectangles: u64,
    pub access_cells_listed: u64,

    pub fields_calls: u64,
    pub fields_of_made_up_lists: u64,
    pub fields_without_resources: u64,
    pub fields_of_most_resources: u64,
    pub fields_with_an_empty_list: u64,
    pub fields_with_a_cell_twice: u64,
    pub fields_with_falling_indices: u64,
    pub fields_with_unwalkable_indices: u64,
    /// Calls with more than one field, one of them of several resources.
    pub fields_partly_joined: u64,
    pub most_fields: usize,

    pub sides_of_1024: u64,
    refusals: Refusals,
}

impl Tally {
    pub fn count_field(&mut self, call: &FieldCall, field: &Field) {
        let no_resources = call.resources.is_empty();
        let mut rows = field.row_intervals.chunks(2);
        let no_inside_cells = !no_resources && rows.all(|row| row[0] == row[1]);
        self.field_calls += 1;
        self.with_16_lanes += u64::from(call.lanes == 16);
        self.without_resources += u64::from(no_resources);
        self.with_most_blockers += u64::from(call.blockers.len() == MOST_BLOCKERS);
        self.without_inside_cells += u64::from(no_inside_cells);
        self.most_sweeps = self.most_sweeps.max(field.sweeps);
        self.sides_of_1024 += u64::from(call.map.width == 1_024 || call.map.height == 1_024);
    }

    pub fn count_lists(&mut self, access: &AccessLists) {
        self.lists_calls += 1;
        self.lists_without_rectangles += u64::from(access.ends.is_empty());
        self.lists_of_most_rectangles += u64::from(access.ends.len() == MOST_RESOURCES);
        self.access_cells_listed += access.cells.len() as u64;
    }

    pub fn count_fields(&mut self, map: &Map, access: &AccessLists, fields: usize) {
        let resources = access.ends.len();
        let empty = access.parts().any(|part| part.is_empty());
        let falling = access.parts().any(|part| !part.is_sorted());
        let twice = access.parts().any(|part| {
            let mut sorted = part.to_vec();
            sorted.sort_unstable();
            sorted.windows(2).any(|pair| pair[0] == pair[1])
        });
        let mut indices = access.cells.iter();
        let unwalkable = indices.any(|&index| map.cells[index as usize] == 0);
        self.fields_calls += 1;
        self.fields_without_resources += u64::from(resources == 0);
        self.fields_of_most_resources += u64::from(resources == MOST_RESOURCES);
        self.fields_with_an_empty_list += u64::from(empty);
        self.fields_with_a_cell_twice += u64::from(twice);
        self.fields_with_falling_indices += u64::from(falling);
        self.fields_with_unwalkable_indices += u64::from(unwalkable);
        self.fields_partly_joined += u64::from(1 < fields && fields < resources);
        self.most_fields = self.most_fields.max(fields);
    }

    pub fn refused_in_one_way<C: Call>(&mut self, number: u32) {
        self.refusals.entry((C::NAME, number)).or_default()[0] += 1;
    }

    pub fn refused_in_two_ways<C: Call>(&mut self, number: u32) {
        self.refusals.entry((C::NAME, number)).or_default()[1] += 1;
    }
}

impl fmt::Display for Tally {
    fn fmt(&self, formatter: &mut fmt::Formatter<'_>) -> fmt::Result {
        let mut line = |count: u64, what: &str| writeln!(formatter, "  {count:9} {what}");
        line(self.field_calls, "field calls")?;
        line(self.with_16_lanes, "with 16 lanes")?;
        line(self.without_resources, "without resources")?;
        line(self.with_most_blockers, "with 4,096 blockers")?;
        line(self.without_inside_cells, "without inside cells")?;
        line(self.sides_of_1024, "on maps with a side of 1,024")?;
        line(u64::from(self.most_sweeps), "sweeps at most")?;
        line(self.searched, "with a search for each resource beside")?;
        line(self.readings, "cells read")?;
        line(self.made_up_readings, "cells read by made-up records")?;
        line(self.made_up_readings_inside, "of these not outside")?;
        line(self.access_calls, "access calls of one rectangle")?;
        line(self.without_access_cells, "without access cells")?;
        line(self.lists_calls, "access calls of many rectangles")?;
        line(self.lists_without_rectangles, "of none")?;
        line(self.lists_of_most_rectangles, "of 512")?;
        line(self.access_cells_listed, "access cells listed by them")?;
        line(self.fields_calls, "fields calls")?;
        line(self.fields_of_made_up_lists, "on made-up access lists")?;
        line(self.fields_without_resources, "without resources")?;
        line(self.fields_of_most_resources, "with 512 resources")?;
        line(self.fields_with_an_empty_list, "with an empty list")?;
        line(self.fields_with_a_cell_twice, "with a cell twice in a list")?;
        line(self.fields_with_falling_indices, "with falling indices")?;
        line(self.fields_with_unwalkable_indices, "with unwalkable cells")?;
        line(
            self.fields_partly_joined,
            "with several fields, and one of several",
        )?;
        line(self.most_fields as u64, "fields at most")?;
        for ((call, number), [one, two]) in &self.refusals {
            writeln!(
                formatter,
                "  {:9} {call} calls refused by {number}, {two} of them damaged in two ways",
                one + two
            )?;
        }
        Ok(())
    }
}
