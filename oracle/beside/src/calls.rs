//! The library's calls with all that goes into them, which may be what document 01 refuses, and the
//! buffers that they are lent.

use std::fmt::Debug;

use cerandool::Grid;
use cerandool::exports::{self, CountAnswer, FieldAnswer};
use oracle::interface::{AccessLists, CellBox, FieldCall, Map, Rectangle, Refusal};
use oracle::maps::Random;

use crate::damage;

/// A call of the library.
pub trait Call: Clone {
    const NAME: &'static str;

    /// The numbers of the refusals that the input decides, in the call's order. Number 7 follows.
    const ORDER: &'static [u32];

    type Buffers: Buffers;
    type Answer: Debug + Eq;

    fn ask(&self, buffers: &mut Self::Buffers) -> Self::Answer;

    fn refused(refusal: Refusal) -> Self::Answer;

    /// Changes a copy of this accepted call, which may be damaged already, so that the table's test
    /// of a number no longer holds, and gives back the refusal's place. There is none, and nothing is
    /// changed, where no such damage can be done to the call.
    fn damage(&self, number: u32, damaged: &mut Self, random: &mut Random) -> Option<usize>;

    /// The input in words. Its bytes are the map's, but for those that their number or the largest of
    /// them tell.
    fn described(&self) -> String;
}

/// The buffers that a call is lent.
pub trait Buffers: Clone + Debug + Eq {
    /// Buffers that hold anything, each a few entries longer than what is used of it, or not longer.
    fn random(used: &[usize], random: &mut Random) -> Self;

    fn lengths(&self) -> Vec<usize>;

    /// Cuts a buffer to a length, and says whether there is such a buffer.
    fn cut(&mut self, buffer: usize, length: usize) -> bool;

    /// Whether the used parts are as expected, and the entries past them are as they were.
    fn compare(&self, expected: &Self, before: &Self) -> Result<(), String>;
}

macro_rules! buffers {
    ($(#[$documentation:meta])* $name:ident { $($buffer:ident: $entry:ty),* }) => {
        $(#[$documentation])*
        #[derive(Debug, Clone, Default, Eq, PartialEq)]
        pub struct $name {
            $(pub $buffer: Vec<$entry>),*
        }

        impl Buffers for $name {
            fn random(used: &[usize], random: &mut Random) -> Self {
                let mut used = used.iter();
                Self {
                    $($buffer: {
                        let used = used.next().expect("a length for each buffer");
                        let length = used + random.pick(&[0, 0, 1, 2, 9]);
                        (0..length).map(|_| random.bits() as $entry).collect()
                    }),*
                }
            }

            fn lengths(&self) -> Vec<usize> {
                vec![$(self.$buffer.len()),*]
            }

            fn cut(&mut self, buffer: usize, length: usize) -> bool {
                let mut cuts: Vec<Box<dyn FnMut(usize)>> =
                    vec![$(Box::new(|length| self.$buffer.truncate(length))),*];
                match cuts.get_mut(buffer) {
                    None => false,
                    Some(cut) => {
                        cut(length);
                        true
                    }
                }
            }

            fn compare(&self, expected: &Self, before: &Self) -> Result<(), String> {
                $(filled(
                    stringify!($buffer),
                    &expected.$buffer,
                    &before.$buffer,
                    &self.$buffer,
                )?;)*
                Ok(())
            }
        }
    };
}

/// The used part is as expected, and the entries past it are as they were.
fn filled<T: PartialEq + Debug>(
    buffer: &str,
    expected: &[T],
    before: &[T],
    after: &[T],
) -> Result<(), String> {
    let all = expected.iter().chain(&before[expected.len()..]);
    for (index, (expected, found)) in all.zip(after).enumerate() {
        if found != expected {
            return Err(format!(
                "{buffer}, entry {index}: {found:?} for {expected:?}"
            ));
        }
    }
    Ok(())
}

buffers! {
    /// Of a field call.
    FieldBuffers {
        lanes: i16,
        walk: u8,
        flags: u8,
        rows: u16,
        versions: u32,
        pulled_down: u32,
        pulled_up: u32
    }
}

buffers! {
    /// Of an access call.
    AccessBuffers {
        out: u32
    }
}

buffers! {
    /// Of an access call for many rectangles.
    ListsBuffers {
        indices: u32,
        ends: u32
    }
}

buffers! {
    /// Of a fields call.
    FieldsBuffers {
        states: u16,
        queue: u32,
        parents: u16,
        ranks: u8,
        answers: u16
    }
}

impl FieldBuffers {
    /// As many entries as a call with a window of `width` by `height` cells uses.
    pub fn of_window(width: u32, height: u32, lanes: usize) -> Self {
        let (width, height) = (width as usize, height as usize);
        let cells = (width + 2) * (height + 2);
        Self {
            lanes: vec![0; cells * lanes],
            walk: vec![0; cells],
            flags: vec![0; cells],
            rows: vec![0; 2 * height],
            versions: vec![0; height + 2],
            pulled_down: vec![0; height + 2],
            pulled_up: vec![0; height + 2],
        }
    }
}

impl FieldsBuffers {
    /// As many entries as a call with so many cells and resources uses.
    pub fn of_sizes(cells: usize, resources: usize) -> Self {
        Self {
            states: vec![0; cells],
            queue: vec![0; cells],
            parents: vec![0; resources],
            ranks: vec![0; resources],
            answers: vec![0; resources],
        }
    }
}

/// The map as the library takes it.
pub fn grid(map: &Map) -> Grid<'_> {
    Grid {
        width: map.width,
        height: map.height,
        cells: &map.cells,
    }
}

/// The field call. Rectangles are numbers in fours, or not.
#[derive(Debug, Clone)]
pub struct FieldInput {
    pub map: Map,
    pub lanes: u32,
    pub blockers: Vec<i32>,
    pub resources: Vec<i32>,
    pub targets: CellBox,
}

impl From<&FieldCall> for FieldInput {
    fn from(call: &FieldCall) -> Self {
        Self {
            map: call.map.clone(),
            lanes: call.lanes as u32,
            blockers: call.blockers.as_flattened().to_vec(),
            resources: call.resources.as_flattened().to_vec(),
            targets: call.targets,
        }
    }
}

impl Call for FieldInput {
    const NAME: &'static str = "field";
    const ORDER: &'static [u32] = &[1, 2, 3, 4, 5, 6];
    type Buffers = FieldBuffers;
    type Answer = FieldAnswer;

    fn ask(&self, buffers: &mut FieldBuffers) -> FieldAnswer {
        exports::field(
            &grid(&self.map),
            self.lanes,
            &self.blockers,
            &self.resources,
            self.targets.into(),
            exports::FieldBuffers {
                lanes: &mut buffers.lanes,
                walk: &mut buffers.walk,
                flags: &mut buffers.flags,
                rows: &mut buffers.rows,
                versions: &mut buffers.versions,
                pulled_down: &mut buffers.pulled_down,
                pulled_up: &mut buffers.pulled_up,
            },
        )
    }

    fn refused(refusal: Refusal) -> FieldAnswer {
        FieldAnswer {
            number: refusal.number,
            place: refusal.place as u32,
            ..FieldAnswer::default()
        }
    }

    fn damage(&self, number: u32, damaged: &mut Self, random: &mut Random) -> Option<usize> {
        let (map, resources) = (&self.map, &mut damaged.resources);
        match number {
            1 => damage::map(map, &mut damaged.map, random),
            2 => damaged.lanes = damage::lanes(random),
            3 => damage::count(resources, self.lanes as usize, random),
            4 => return damage::rectangles(map, self.resources.len() / 4, resources, random),
            5 => damage::blockers(&mut damaged.blockers, random),
            _ => damage::targets(map, &mut damaged.targets, random),
        }
        Some(0)
    }

    fn described(&self) -> String {
        format!(
            "{}, {} lanes,\nblockers {:?},\nresources {:?}, targets {:?}",
            described_map(&self.map),
            self.lanes,
            self.blockers,
            self.resources,
            self.targets
        )
    }
}

/// Access of a rectangle.
#[derive(Debug, Clone)]
pub struct AccessInput {
    pub map: Map,
    pub rectangle: Rectangle,
}

impl Call for AccessInput {
    const NAME: &'static str = "access";
    const ORDER: &'static [u32] = &[1, 4];
    type Buffers = AccessBuffers;
    type Answer = CountAnswer;

    fn ask(&self, buffers: &mut AccessBuffers) -> CountAnswer {
        exports::access(&grid(&self.map), self.rectangle.into(), &mut buffers.out)
    }

    fn refused(refusal: Refusal) -> CountAnswer {
        count_refused(refusal)
    }

    fn damage(&self, number: u32, damaged: &mut Self, random: &mut Random) -> Option<usize> {
        match number {
            1 => damage::map(&self.map, &mut damaged.map, random),
            _ => return damage::rectangles(&self.map, 1, &mut damaged.rectangle, random),
        }
        Some(0)
    }

    fn described(&self) -> String {
        format!(
            "{}, rectangle {:?}",
            described_map(&self.map),
            self.rectangle
        )
    }
}

/// Access of many rectangles, numbers in fours, or not.
#[derive(Debug, Clone)]
pub struct ListsInput {
    pub map: Map,
    pub rectangles: Vec<i32>,
}

impl Call for ListsInput {
    const NAME: &'static str = "access lists";
    const ORDER: &'static [u32] = &[1, 3, 4];
    type Buffers = ListsBuffers;
    type Answer = CountAnswer;

    fn ask(&self, buffers: &mut ListsBuffers) -> CountAnswer {
        exports::access_lists(
            &grid(&self.map),
            &self.rectangles,
            &mut buffers.indices,
            &mut buffers.ends,
        )
    }

    fn refused(refusal: Refusal) -> CountAnswer {
        count_refused(refusal)
    }

    fn damage(&self, number: u32, damaged: &mut Self, random: &mut Random) -> Option<usize> {
        let (map, rectangles) = (&self.map, &mut damaged.rectangles);
        match number {
            1 => damage::map(map, &mut damaged.map, random),
            3 => damage::count(rectangles, oracle::interface::MOST_RESOURCES, random),
            _ => return damage::rectangles(map, self.rectangles.len() / 4, rectangles, random),
        }
        Some(0)
    }

    fn described(&self) -> String {
        format!(
            "{}, rectangles {:?}",
            described_map(&self.map),
            self.rectangles
        )
    }
}

/// Fields of resources, by their access cells.
#[derive(Debug, Clone)]
pub struct FieldsInput {
    pub map: Map,
    pub access: AccessLists,
}

impl Call for FieldsInput {
    const NAME: &'static str = "fields";
    const ORDER: &'static [u32] = &[1, 3, 8];
    type Buffers = FieldsBuffers;
    type Answer = CountAnswer;

    fn ask(&self, buffers: &mut FieldsBuffers) -> CountAnswer {
        exports::fields(
            &grid(&self.map),
            &self.access.cells,
            &self.access.ends,
            exports::FieldsBuffers {
                states: &mut buffers.states,
                queue: &mut buffers.queue,
                parents: &mut buffers.parents,
                ranks: &mut buffers.ranks,
                answers: &mut buffers.answers,
            },
        )
    }

    fn refused(refusal: Refusal) -> CountAnswer {
        count_refused(refusal)
    }

    fn damage(&self, number: u32, damaged: &mut Self, random: &mut Random) -> Option<usize> {
        match number {
            1 => damage::map(&self.map, &mut damaged.map, random),
            3 => damage::ends(&mut damaged.access, random),
            _ => damage::access(self.map.cells.len(), &mut damaged.access, random),
        }
        Some(0)
    }

    fn described(&self) -> String {
        format!("{}, {:?}", described_map(&self.map), self.access)
    }
}

fn count_refused(refusal: Refusal) -> CountAnswer {
    CountAnswer {
        number: refusal.number,
        place: refusal.place as u32,
        count: 0,
    }
}

fn described_map(map: &Map) -> String {
    format!(
        "Size {} by {}, {} bytes, the largest {:?}",
        map.width,
        map.height,
        map.cells.len(),
        map.cells.iter().max()
    )
}
