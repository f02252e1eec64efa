//! A range as the single calls that it stands for.

use crate::{numbers, Answer, Call, Engine, Memory, Shape, Step, SETUP};

/// The pieces of a range, in rising order: address, frame and size of each, which is the largest that fits what is left and divides both.
pub fn pieces(shape: Shape, address: u64, frame: u64, length: u64) -> impl Iterator<Item = (u64, u64, u64)> {
    let mut done = 0;
    std::iter::from_fn(move || {
        let (at, from, left) = (address + done, frame + done, length - done);
        let size = shape.sizes().iter().rev().find(|&&size| size <= left && at % size == 0 && from % size == 0)?;
        done += size;
        Some((at, from, *size))
    })
}

/// What the single calls of an accepted range answer together, and leave of a memory: a map for each piece, or an unmap for each mapping, in rising
/// order. They are the engine's own. None of another step.
pub fn one_by_one(
    step: &Step, answer: &Answer, before: &Memory, engine: &mut impl Engine,
) -> Result<Option<([u64; SETUP + 6], Memory)>, String> {
    let (call, words, second, places) = match (step, answer.refusal) {
        (&Step::Call { call, words, second, places }, 0) => (call, words, second, places),
        _ => return Ok(None),
    };
    let mut memory = before.clone();
    let mut make = |call: Call| memory.apply(&Step::Call { call, words, second, places }, engine).expect("a call has an answer");
    let all = match call {
        Call::MapRange { mut setup, address, frame, length, attributes } => {
            let mut taken = 0;
            for (address, frame, size) in pieces(Shape::of(setup.granule), address, frame, length) {
                let answer = make(Call::Map { setup, address, frame, size, attributes });
                if answer.refusal != 0 {
                    return Err(format!("the piece at {address:x} alone gets {}", answer.refusal));
                }
                setup = answer.setup();
                taken += answer.numbers[SETUP];
            }
            Answer::new(0, &[&numbers(setup)[..], &[taken]].concat())
        }
        Call::UnmapRange { mut setup, address, length } => {
            let page = Shape::of(setup.granule).page();
            let (mut at, mut removed, mut given) = (address, 0, 0);
            while at < address + length {
                let answer = make(Call::Unmap { setup, address: at });
                let [_, size, _, tables, hole, hole_size] = std::array::from_fn(|i| answer.numbers[SETUP + i]);
                match answer.refusal {
                    0 => (setup, at, removed, given) = (answer.setup(), at + size.max(page), removed + 1, given + tables),
                    9 => at = hole.wrapping_add(hole_size).max(at + page),
                    number => return Err(format!("the mapping at {at:x} alone gets {number}")),
                }
            }
            Answer::new(0, &[&numbers(setup)[..], &[removed, given]].concat())
        }
        _ => return Ok(None),
    };
    Ok(Some((all.numbers, memory)))
}
