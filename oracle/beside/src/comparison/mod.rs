//! Compares the library with the unchanged Rust on accepted calls, and with the table of document 01
//! on inputs that must be refused. A difference is an error in words.

mod field;
mod joining;
pub mod small;
mod tally;

use std::fmt::Debug;

use cerandool::{AccessLists, Fields, ProximityField};
use oracle::interface::{FieldCall, Refusal};
use oracle::maps::Random;

use crate::calls::{Buffers, Call};
use crate::cases;
pub use tally::Tally;

/// What the library's crate keeps from one call to the next, asked beside the library itself.
#[derive(Default)]
pub struct Kept {
    eight: ProximityField<8>,
    sixteen: ProximityField<16>,
    lists: AccessLists,
    fields: Fields,
}

/// Compares all calls on one map, with the resources of the field call and with others.
pub fn compare(
    call: &FieldCall,
    random: &mut Random,
    kept: &mut Kept,
    tally: &mut Tally,
) -> Result<(), String> {
    field::compare(call, random, kept, tally)?;
    let resources = cases::resources_to_join(random, &call.map);
    joining::compare_access(&call.map, &resources, random, tally)?;
    let access = joining::compare_lists(&call.map, &resources, random, kept, tally)?;
    joining::compare_fields(&call.map, access, random, kept, tally)?;
    tally.fields_of_made_up_lists += 1;
    let access = cases::access_to_join(random, &call.map);
    joining::compare_fields(&call.map, access, random, kept, tally)
}

/// An accepted call: its answer, the used parts of its buffers, and the entries past them. The answer
/// is what the call leaves in the buffers.
fn compare_accepted<C: Call>(
    call: &C,
    answer: C::Answer,
    expected: &C::Buffers,
    random: &mut Random,
) -> Result<C::Buffers, String> {
    let before = C::Buffers::random(&expected.lengths(), random);
    let mut after = before.clone();
    let found = call.ask(&mut after);
    equal("the answer", &answer, &found)
        .and_then(|()| after.compare(expected, &before))
        .map_err(|difference| described(call, &before, &difference))?;
    Ok(after)
}

/// The input damaged in one way, and then in two: the first in the call's order decides. Then each
/// buffer one entry too short. `used` is how much of each buffer the call uses.
fn compare_refusals<C: Call>(
    call: &C,
    used: &[usize],
    random: &mut Random,
    tally: &mut Tally,
) -> Result<(), String> {
    let untouched = C::Buffers::random(used, random);
    let mut buffers = untouched.clone();
    for (order, &number) in C::ORDER.iter().enumerate() {
        let mut damaged = call.clone();
        let Some(place) = call.damage(number, &mut damaged, random) else {
            continue;
        };
        let refusal = Refusal { number, place };
        expect_refusal(&damaged, refusal, &untouched, &mut buffers)?;
        tally.refused_in_one_way::<C>(number);

        let later = &C::ORDER[order + 1..];
        let second = random.below(later.len() as u32 + 1) as usize;
        match later.get(second) {
            Some(&second) => {
                if call.damage(second, &mut damaged, random).is_none() {
                    continue;
                }
                expect_refusal(&damaged, refusal, &untouched, &mut buffers)?;
            }
            None => {
                let buffer = random.below(used.len() as u32) as usize;
                let Some(before) = too_short(&untouched, used, buffer) else {
                    continue;
                };
                expect_refusal(&damaged, refusal, &before, &mut before.clone())?;
            }
        }
        tally.refused_in_two_ways::<C>(number);
    }
    let refusal = Refusal {
        number: 7,
        place: 0,
    };
    for buffer in 0..used.len() {
        let Some(before) = too_short(&untouched, used, buffer) else {
            continue;
        };
        expect_refusal(call, refusal, &before, &mut before.clone())?;
        tally.refused_in_one_way::<C>(7);
    }
    Ok(())
}

/// The buffers with one of them an entry too short, if any entry of it is used.
fn too_short<B: Buffers>(buffers: &B, used: &[usize], buffer: usize) -> Option<B> {
    let length = used[buffer].checked_sub(1)?;
    let mut buffers = buffers.clone();
    assert!(buffers.cut(buffer, length), "there is no buffer {buffer}");
    Some(buffers)
}

/// The call is refused so, and the buffers stay equal to what they were.
fn expect_refusal<C: Call>(
    call: &C,
    refusal: Refusal,
    before: &C::Buffers,
    buffers: &mut C::Buffers,
) -> Result<(), String> {
    let answer = call.ask(buffers);
    let outcome = if buffers == before {
        equal("the refusal", &C::refused(refusal), &answer)
    } else {
        Err(format!("{refusal} expected, and a buffer changed"))
    };
    outcome.map_err(|difference| described(call, before, &difference))
}

/// A difference with the call where it is.
fn described<C: Call>(call: &C, buffers: &C::Buffers, difference: &str) -> String {
    format!(
        "{difference}\nin the {} call: {}.\nLengths of the buffers {:?}. The field call of this seed:",
        C::NAME,
        call.described(),
        buffers.lengths()
    )
}

/// Two lists are equal, or the first entry that differs is told, or their lengths.
fn equal_lists<T: PartialEq + Debug>(
    what: &str,
    expected: &[T],
    found: &[T],
) -> Result<(), String> {
    let differs = expected.iter().zip(found).position(|(a, b)| a != b);
    match differs {
        Some(index) => Err(format!(
            "{what}, entry {index}: {:?} for {:?}",
            found[index], expected[index]
        )),
        None => equal(what, &expected.len(), &found.len()),
    }
}

fn equal<T: PartialEq + Debug>(what: &str, expected: &T, found: &T) -> Result<(), String> {
    if found == expected {
        Ok(())
    } else {
        Err(format!("{what}: {found:?} for {expected:?}"))
    }
}
