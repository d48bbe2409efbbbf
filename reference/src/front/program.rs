//! The program through a front: a feed with ticks in, lines out.

use std::fmt::Write;

use super::{Damped, Places, Told};
use crate::address::Address;
use crate::memory::{Memory, ARRAY_WORDS};
use crate::program::{answered, sent, MOST_INPUT, REPLY_BYTES};

/// All that the program prints for an input.
pub fn output(input: &[u8]) -> String {
    if input.len() > MOST_INPUT {
        return "too long\n".to_string();
    }
    let mut memory = Memory::new(ARRAY_WORDS * (<u32 as Address>::PROGRAM_ARRAYS + 1), None);
    memory.clear().expect("so many arrays are a right size");
    let mut damped = Damped { places: Some(Places::new()), memory };
    let mut text = String::new();
    let ran = damped.run_and_tell(input, &mut [0; REPLY_BYTES], |told| {
        match told {
            Told::Record(record, answer) => writeln!(text, "{} {}", sent(record), answered(answer)),
            Told::Tick(held) => writeln!(text, "tick held back {}", held.held_back),
        }
        .expect("a String takes every text");
    });
    let ran = ran.expect("both are cleared");
    let counts = damped.memory.check().expect("a run leaves a table");
    format!(
        "{text}routes {} arrays {} accepted {} refused {}\nstopped {} at {}\n",
        counts.routes, counts.arrays, ran.accepted, ran.refused, ran.stop as u8, ran.consumed
    )
}
