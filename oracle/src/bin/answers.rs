//! `answers FILE...` prints the unchanged Rust's answer to every case of the case files: the case's
//! line, then document 01's sheet. If a file cannot be read or a case is refused, it says so, prints
//! no answer and ends with 1.

use std::{env, fs, process::ExitCode};

use oracle::UnchangedRust;
use oracle::room::{Case, read_cases};
use oracle::sheet::sheet;

fn main() -> ExitCode {
    let files: Vec<String> = env::args().skip(1).collect();
    if files.is_empty() {
        eprintln!("usage: answers FILE...");
        return ExitCode::FAILURE;
    }
    let mut cases = Vec::new();
    for file in &files {
        match read_file(file) {
            Ok(read) => cases.extend(read),
            Err(message) => {
                eprintln!("{file}: {message}");
                return ExitCode::FAILURE;
            }
        }
    }
    for case in &cases {
        print!("{}{}", case.head(), sheet(&UnchangedRust, &case.call));
    }
    ExitCode::SUCCESS
}

fn read_file(file: &str) -> Result<Vec<Case>, String> {
    let text = fs::read_to_string(file).map_err(|error| error.to_string())?;
    read_cases(&text)
}
