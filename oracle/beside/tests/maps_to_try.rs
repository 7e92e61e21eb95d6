//! The library's sheets of the stored cases are the Rust's.

use beside::Cerandool;
use oracle::room::read_cases;
use oracle::sheet::sheet;

const CASES: &str = include_str!("../../cases/maps-to-try.txt");
const ANSWERS: &str = include_str!("../../cases/maps-to-try.answers");

#[test]
fn the_stored_answers_are_the_librarys() {
    let mut stored = ANSWERS;
    for case in read_cases(CASES).expect("the cases are accepted") {
        let answer = case.head() + &sheet(&Cerandool, &case.call);
        stored = stored
            .strip_prefix(&answer)
            .unwrap_or_else(|| panic!("the library answers to {}\n{answer}", case.name));
    }
    assert_eq!(stored, "", "answers without a case");
}
