//! `stored FOLDER [SEED]` writes the stored answers of the program crate in FOLDER: `data/000` and
//! on, a room text each, `args`, their names, and `stdout`, what program `sheet` prints of them, one
//! after the other. What is accepted is answered by the unchanged Rust; the refusals are those of
//! `rooms.rs`, which were checked by hand, and a reader that differs from one of them ends the
//! program.
//!
//! The texts: the cases of `cases/maps-to-try.txt` that the program's limits allow, the rooms of
//! `rooms/`, the refusals, the limits exactly, and random rooms from SEED on, 1 unless told otherwise.

use std::path::Path;
use std::{env, fs};

use oracle::UnchangedRust;
use oracle::interface::FieldCall;
use oracle::maps::{self, Random};
use oracle::room::{
    MOST_BLOCKERS, MOST_RESOURCES, PROGRAM_LANES, read_cases, read_room, room_text,
};
use oracle::rooms::{random_room, refusals};
use oracle::sheet::program;

/// How many random rooms there are, and of so many target cells at most; one in 25 has more.
const RANDOM_ROOMS: u64 = 300;
const TARGET_CELLS: u32 = 40;
const MORE_TARGET_CELLS: u32 = 600;

fn main() {
    let mut arguments = env::args().skip(1);
    let folder = arguments.next().expect("usage: stored FOLDER [SEED]");
    let seed: u64 = arguments
        .next()
        .map_or(1, |text| text.parse().expect("usage: stored FOLDER [SEED]"));
    let package = Path::new(env!("CARGO_MANIFEST_DIR"));

    let mut texts: Vec<Vec<u8>> = Vec::new();
    let cases = fs::read_to_string(package.join("cases/maps-to-try.txt")).expect("the cases");
    for case in read_cases(&cases).expect("the cases are accepted") {
        let text = room_text(&case.call).into_bytes();
        if case.call.lanes == PROGRAM_LANES && read_room(&text).is_ok() {
            texts.push(text);
        }
    }
    for room in rooms(&package.join("../rooms")) {
        texts.push(fs::read(room).expect("a room"));
    }
    for (text, answer) in refusals() {
        let found = program(&UnchangedRust, text.as_bytes());
        assert_eq!(found, format!("{answer}\n"), "of {text:?}");
        texts.push(text.into_bytes());
    }
    texts.extend(limits().iter().map(|call| room_text(call).into_bytes()));
    for seed in seed..seed + RANDOM_ROOMS {
        let cells = if seed % 25 == 0 {
            MORE_TARGET_CELLS
        } else {
            TARGET_CELLS
        };
        let room = random_room(&mut Random::new(seed), cells);
        texts.push(room_text(&room).into_bytes());
    }

    let data = Path::new(&folder).join("data");
    if data.exists() {
        fs::remove_dir_all(&data).expect("the old texts go");
    }
    fs::create_dir_all(&data).expect("a folder for the texts");
    let mut names = String::new();
    let mut answers = String::new();
    for (number, text) in texts.iter().enumerate() {
        let name = format!("{number:03}");
        fs::write(data.join(&name), text).expect("a text is written");
        names += &format!("{name}\n");
        answers += &program(&UnchangedRust, text);
    }
    fs::write(Path::new(&folder).join("args"), &names).expect("the names are written");
    fs::write(Path::new(&folder).join("stdout"), &answers).expect("the answers are written");
    println!("{} texts, {} bytes of answers", texts.len(), answers.len());
}

/// The example rooms, by name.
fn rooms(folder: &Path) -> Vec<std::path::PathBuf> {
    let mut rooms: Vec<_> = fs::read_dir(folder)
        .expect("the example rooms")
        .map(|entry| entry.expect("an example room").path())
        .collect();
    rooms.sort();
    rooms
}

/// Rooms at the limits of refusal 10 exactly: 60 by 60, 64 blockers, 8 resources. One has the
/// longest numbers that there are.
fn limits() -> Vec<FieldCall> {
    let call = FieldCall {
        map: maps::open(60, 60),
        lanes: PROGRAM_LANES,
        blockers: (0..MOST_BLOCKERS as i32)
            .map(|index| [8 * index, 300, 8 * index + 4, 304])
            .collect(),
        resources: (0..MOST_RESOURCES as u32)
            .map(|index| maps::mineral(7 * (index % 4), 20 * (index / 4)))
            .collect(),
        targets: [59, 59, 59, 59],
    };
    let longest = FieldCall {
        blockers: vec![[i32::MIN; 4]; MOST_BLOCKERS],
        ..call.clone()
    };
    vec![call, longest]
}
