//! The program: a feed in, lines out, as docs/FEED.md says.

use std::fmt::Write;

use crate::address::Address;
use crate::feed::{Answer, Record};
use crate::memory::{Lookup, Memory, ARRAY_WORDS};

/// The longest feed that the program takes.
pub const MOST_INPUT: usize = 4_096;
pub(crate) const REPLY_BYTES: usize = 4_096;

/// All that the program of a family prints for an input.
pub fn output<A: Address>(input: &[u8]) -> String {
    if input.len() > MOST_INPUT {
        return "too long\n".to_string();
    }
    let mut memory = Memory::<A>::new(ARRAY_WORDS * (A::PROGRAM_ARRAYS + 1), None);
    memory.clear().expect("so many arrays are a right size");
    let mut text = String::new();
    let mut reply = [0; REPLY_BYTES];
    let ran = memory
        .run_and_tell(input, &mut reply, |record, answer| {
            writeln!(text, "{} {}", sent(record), answered(answer)).expect("a String takes every text");
        })
        .expect("a cleared table is one");
    let counts = memory.check().expect("a run leaves a table");
    let (routes, arrays) = (counts.routes, counts.arrays);
    let (accepted, refused) = (ran.accepted, ran.refused);
    format!(
        "{text}routes {routes} arrays {arrays} accepted {accepted} refused {refused}\nstopped {} at {}\n",
        ran.stop as u8, ran.consumed
    )
}

pub(crate) fn sent<A: Address>(record: Record<A>) -> String {
    match record {
        Record::End => "end".to_string(),
        Record::Announce { address, length, .. } => format!("announce {}/{length}", address.text()),
        Record::Withdraw { address, length, .. } => format!("withdraw {}/{length}", address.text()),
        Record::Lookup { address } => format!("lookup {}", address.text()),
    }
}

pub(crate) fn answered<A: Address>(answer: Answer<A>) -> String {
    match answer {
        Answer::Done(update) => format!("via {} cells {}", update.hop, update.cells),
        Answer::Looked(Lookup { route: Some(route), block }) => {
            format!("via {} length {} block {block}", route.hop, route.prefix.length)
        }
        Answer::Looked(Lookup { route: None, block }) => format!("none block {block}"),
        Answer::Refused(refusal) => format!("refused {}", refusal.number()),
    }
}
