//! `bench [REPETITIONS]` times engines on the same calls and prints the least time of each.
//!
//! The first engine is the one that the others are compared with: their answers must be equal to
//! its answers before anything is timed, and their times are also printed as ratios to its time. In
//! each repetition every engine runs once, in turn. Beside field calls a heap search for each
//! resource is timed too, which must give the same costs at target cells.

use std::env;
use std::hint::black_box;
use std::time::{Duration, Instant};

use beside::Cerandool;
use beside::heap::{HeapSearch, target_costs, target_costs_of};
use oracle::UnchangedRust;
use oracle::interface::{AccessLists, Engine, Field, FieldCall, Map, Rectangle, Run};
use oracle::maps;

const REPETITIONS: u32 = 100;

const ENGINES: [&dyn Engine; 2] = [&UnchangedRust, &Cerandool];

/// A call that every engine answers.
enum Work {
    Field(FieldCall),
    Access(Map, Vec<Rectangle>),
    Fields(Map, AccessLists),
}

#[derive(PartialEq)]
enum Answer {
    Field(Field),
    Access(AccessLists),
    Fields(Vec<u16>),
}

/// What is timed, and by whose name.
struct Entry<'a> {
    name: &'a str,
    run: Run<'a>,
}

impl Work {
    /// The engine's answer to the call.
    fn answer(&self, engine: &dyn Engine) -> Answer {
        match self {
            Work::Field(call) => Answer::Field(engine.field(call)),
            Work::Access(map, resources) => Answer::Access(engine.access_lists(map, resources)),
            Work::Fields(map, access) => Answer::Fields(engine.fields(map, access)),
        }
    }

    fn run<'a>(&'a self, engine: &'a dyn Engine) -> Run<'a> {
        match self {
            Work::Field(call) => engine.field_run(call),
            Work::Access(map, resources) => engine.access_run(map, resources),
            Work::Fields(map, access) => engine.fields_run(map, access),
        }
    }

    /// What is timed: each engine, and beside a field call the heap search.
    fn entries(&self) -> Vec<Entry<'_>> {
        let engines = ENGINES.iter().map(|&engine| Entry {
            name: engine.name(),
            run: self.run(engine),
        });
        let mut entries: Vec<_> = engines.collect();
        if let Work::Field(call) = self {
            let mut search = HeapSearch::default();
            entries.push(Entry {
                name: "heap",
                run: Box::new(move || {
                    search.compute(black_box(call));
                    black_box(&search);
                }),
            });
        }
        entries
    }

    /// The first engine's answer, which is that of all others.
    fn agreed_answer(&self, name: &str) -> Answer {
        let first = self.answer(ENGINES[0]);
        for &engine in &ENGINES[1..] {
            assert!(
                self.answer(engine) == first,
                "{name}: {} differs from {}",
                engine.name(),
                ENGINES[0].name()
            );
        }
        if let (Work::Field(call), Answer::Field(field)) = (self, &first) {
            assert!(
                target_costs(call) == target_costs_of(call, field),
                "{name}: the heap search differs from {}",
                ENGINES[0].name()
            );
        }
        first
    }
}

impl Answer {
    fn summary(&self) -> String {
        match self {
            Answer::Field(field) => format!(
                "window {} by {}, {} sweeps",
                field.window.width, field.window.height, field.sweeps
            ),
            Answer::Access(access) => format!("{} access cells", access.cells.len()),
            Answer::Fields(fields) => {
                format!("{} fields", fields.iter().max().map_or(0, |&last| last + 1))
            }
        }
    }
}

/// Minerals in a block with a target box of 60 by 60 cells around them; they are blockers too.
fn field_work(map: &Map, lanes: usize) -> Work {
    let (x, y) = (map.width / 2, map.height / 2);
    let minerals = maps::mineral_block(x - 20, y - 20, lanes as u32);
    let [left, top] = [x - 30, y - 30].map(|edge| edge as i32);
    Work::Field(FieldCall {
        map: map.clone(),
        lanes,
        blockers: minerals.clone(),
        resources: minerals,
        targets: [left, top, left + 59, top + 59],
    })
}

/// One mineral in the map's corner with a target box of 4 by 4 cells beside it: the window is small
/// for the map, so that reading the map is most of the work.
fn corner_work(map: &Map, lanes: usize) -> Work {
    Work::Field(FieldCall {
        map: map.clone(),
        lanes,
        blockers: Vec::new(),
        resources: vec![[0, 0, 16, 8]],
        targets: [3, 0, 6, 3],
    })
}

fn works() -> Vec<(String, Work)> {
    let mut works = Vec::new();
    let field_maps = [
        ("256 open", maps::open(256, 256)),
        ("1,024 walls 30 %", maps::random_walls(1_024, 1_024, 30, 1)),
        ("256 winding walls", maps::winding_walls(256, 256)),
        ("256 zigzag comb", maps::zigzag_comb(256, 256)),
    ];
    for (name, map) in &field_maps {
        for lanes in [8, 16] {
            works.push((
                format!("field, {lanes} lanes, {name}"),
                field_work(map, lanes),
            ));
        }
    }
    let side = 1_024;
    for lanes in [8, 16] {
        works.push((
            format!("field, {lanes} lanes, 1,024 open, in a corner"),
            corner_work(&maps::open(side, side), lanes),
        ));
    }
    let join_maps = [
        ("1,024 open", maps::open(side, side)),
        ("1,024 walls 30 %", maps::random_walls(side, side, 30, 2)),
    ];
    let minerals = [
        ("spread", maps::spread_minerals(side, side, 512, 3)),
        ("in eights", maps::clustered_minerals(side, side, 512, 4)),
    ];
    for (map_name, map) in &join_maps {
        for (name, resources) in &minerals {
            let access = UnchangedRust.access_lists(map, resources);
            works.push((
                format!("access, 512 {name}, {map_name}"),
                Work::Access(map.clone(), resources.clone()),
            ));
            works.push((
                format!("fields, 512 {name}, {map_name}"),
                Work::Fields(map.clone(), access),
            ));
        }
    }
    works
}

/// The least time of each entry, the entries running in turn.
fn least_times(entries: &mut [Entry], repetitions: u32) -> Vec<Duration> {
    let mut least = vec![Duration::MAX; entries.len()];
    for _ in 0..repetitions {
        for (entry, least) in entries.iter_mut().zip(&mut least) {
            let start = Instant::now();
            (entry.run)();
            *least = start.elapsed().min(*least);
        }
    }
    least
}

fn main() {
    let repetitions = match env::args().nth(1) {
        None => REPETITIONS,
        Some(text) => text.parse().expect("usage: bench [REPETITIONS]"),
    };
    println!("least of {repetitions} repetitions, in milliseconds");
    for (name, work) in works() {
        let answer = work.agreed_answer(&name);
        let mut entries = work.entries();
        let times = least_times(&mut entries, repetitions);
        print!("{name:44} {:32}", answer.summary());
        for (entry, time) in entries.iter().zip(&times) {
            print!(" {} {:9.3}", entry.name, time.as_secs_f64() * 1_000.0);
        }
        for (entry, time) in entries.iter().zip(&times).skip(1) {
            let ratio = time.as_secs_f64() / times[0].as_secs_f64();
            print!(" {} / {} {ratio:.2}", entry.name, entries[0].name);
        }
        println!();
    }
}
