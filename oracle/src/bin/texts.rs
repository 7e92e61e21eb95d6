//! `texts PROGRAM [COUNT] [SEED]` feeds random room texts, damaged ones and random bytes to program
//! `sheet` through a pipe, in pieces, and compares what it prints with the answer made from the
//! unchanged Rust: a sheet, or one refusal line. The program must always end with status 0.
//!
//! Text number n, from 0, is made from the seed SEED + n. At the first difference it prints the text
//! and both answers, and ends with 1.

use std::io::{Read, Write};
use std::process::{Command, ExitCode, Stdio};
use std::{env, thread};

use oracle::UnchangedRust;
use oracle::maps::Random;
use oracle::room::room_text;
use oracle::rooms::{damaged, random_room};
use oracle::sheet::program;

const USAGE: &str = "usage: texts PROGRAM [COUNT] [SEED]";
const COUNT: u64 = 3_000;
const SEED: u64 = 1;

fn main() -> ExitCode {
    let mut arguments = env::args().skip(1);
    let path = arguments.next().expect(USAGE);
    let mut number = |otherwise: u64| match arguments.next() {
        None => otherwise,
        Some(text) => text.parse().expect(USAGE),
    };
    let (count, seed) = (number(COUNT), number(SEED));

    let mut refused = [0_u64; 11];
    let mut sheets = 0;
    for seed in seed..seed + count {
        let mut random = Random::new(seed);
        let text = random_text(&mut random);
        let expected = program(&UnchangedRust, &text);
        let (printed, status) = run(&path, &text, &mut random);
        if printed != expected.as_bytes() || status != Some(0) {
            println!("`texts {path} 1 {seed}` differs, status {status:?}. The text:");
            println!("{}", String::from_utf8_lossy(&text));
            println!("printed:\n{}", String::from_utf8_lossy(&printed));
            println!("expected:\n{expected}");
            return ExitCode::FAILURE;
        }
        match expected.strip_prefix("refused ") {
            None => sheets += 1,
            Some(rest) => {
                let number = rest.split(' ').next().and_then(|text| text.parse().ok());
                refused[number.unwrap_or(0_usize)] += 1;
            }
        }
    }
    println!("{count} texts from seed {seed} on, no difference: {sheets} sheets");
    for (number, count) in refused.iter().enumerate().filter(|(_, count)| **count > 0) {
        println!("{count} refused by number {number}");
    }
    ExitCode::SUCCESS
}

fn random_text(random: &mut Random) -> Vec<u8> {
    if random.chance(3) {
        let length = random.below(9_000) as usize;
        return (0..length).map(|_| random.bits() as u8).collect();
    }
    let text = room_text(&random_room(random, 60));
    if random.chance(40) {
        return text.into_bytes();
    }
    damaged(random, &text)
}

/// What the program prints for a text that comes in pieces, and its status.
fn run(path: &str, text: &[u8], random: &mut Random) -> (Vec<u8>, Option<i32>) {
    let mut child = Command::new(path)
        .stdin(Stdio::piped())
        .stdout(Stdio::piped())
        .spawn()
        .expect("the program runs");
    let mut input = child.stdin.take().expect("a pipe to the program");
    let first = random.below(text.len() as u32 + 1) as usize;
    let pieces = [text[..first].to_vec(), text[first..].to_vec()];
    // A program that refuses a text early may not read all of it.
    let writer = thread::spawn(move || {
        for piece in pieces {
            if input
                .write_all(&piece)
                .and_then(|()| input.flush())
                .is_err()
            {
                return;
            }
        }
    });
    let mut printed = Vec::new();
    let mut output = child.stdout.take().expect("a pipe from the program");
    output
        .read_to_end(&mut printed)
        .expect("the program's output");
    writer.join().expect("the text is written");
    let status = child.wait().expect("the program ends");
    (printed, status.code())
}
