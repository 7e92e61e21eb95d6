//! The library's sheets of room texts, of damaged ones and of the refusals that were checked by hand.

use oracle::UnchangedRust;
use oracle::maps::Random;
use oracle::room::room_text;
use oracle::rooms::{damaged, random_room, refusals};
use oracle::sheet::program;

#[test]
fn the_refusals_are_the_librarys() {
    for (text, answer) in refusals() {
        assert_eq!(
            cerandool::sheet(text.as_bytes()),
            format!("{answer}\n"),
            "of {text:?}"
        );
    }
}

#[test]
fn the_sheets_are_the_rusts() {
    for seed in 1..=2_000 {
        let mut random = Random::new(seed);
        let text = room_text(&random_room(&mut random, 60));
        assert_eq!(
            cerandool::sheet(text.as_bytes()),
            program(&UnchangedRust, text.as_bytes())
        );
        let text = damaged(&mut random, &text);
        assert_eq!(
            cerandool::sheet(&text),
            program(&UnchangedRust, &text),
            "of {text:?}"
        );
    }
}
