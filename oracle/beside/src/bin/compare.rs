//! `compare [COUNT] [SEED]` runs the library and the unchanged Rust on the same calls and compares
//! all that they answer, each used entry of each buffer and the entries past them, the reading of
//! every cell of the map, and the refusals of damaged inputs, which must change nothing.
//!
//! First come all maps of at most 3 by 3 cells, then COUNT random ones. Number n of these, from 0, is
//! made from the seed SEED + n. At the first difference it says where it is, what differs, and prints
//! the map's field call as a case of a case file; then it ends with 1.

use std::collections::BTreeMap;
use std::env;
use std::process::ExitCode;

use beside::cases::{kinds, random_call};
use beside::comparison::{Kept, Tally, compare, small};
use oracle::interface::FieldCall;
use oracle::maps::Random;
use oracle::room::Case;

const COUNT: u64 = 1_000;
const SEED: u64 = 1;

fn main() -> ExitCode {
    let mut arguments = env::args().skip(1);
    let mut number = |otherwise: u64| match arguments.next() {
        None => otherwise,
        Some(text) => text.parse().expect("usage: compare [COUNT] [SEED]"),
    };
    let (count, seed) = (number(COUNT), number(SEED));
    let mut kept = Kept::default();

    let mut tally = Tally::default();
    let mut random = Random::new(0);
    let mut maps = 0;
    for map in small::maps() {
        if let Err((call, difference)) = small::compare(&map, &mut random, &mut kept, &mut tally) {
            println!("A map of at most 3 by 3 cells differs.");
            return differs(difference, "small".to_string(), *call);
        }
        maps += 1;
    }
    println!(
        "all {maps} maps of at most 3 by 3 cells, no difference: {} field calls, {} access calls, \
         {} pairs listed and joined",
        tally.field_calls, tally.access_calls, tally.fields_calls
    );

    let mut tally = Tally::default();
    let mut maps_of_kind: BTreeMap<&str, u64> = BTreeMap::new();
    for seed in seed..seed + count {
        let mut random = Random::new(seed);
        let (kind, call) = random_call(&mut random);
        if let Err(difference) = compare(&call, &mut random, &mut kept, &mut tally) {
            println!("`compare 1 {seed}`, a map of the kind `{kind}`, differs.");
            return differs(difference, format!("seed-{seed}"), call);
        }
        *maps_of_kind.entry(kind).or_default() += 1;
    }
    println!("{count} maps from seed {seed} on, no difference");
    for kind in kinds() {
        println!("  {:9} {kind}", maps_of_kind.get(kind).unwrap_or(&0));
    }
    print!("{tally}");
    ExitCode::SUCCESS
}

fn differs(difference: String, name: String, call: FieldCall) -> ExitCode {
    println!("{difference}");
    print!("{}", Case { name, call }.text());
    ExitCode::FAILURE
}
