//! The run of a feed through a front: that of a table, with ticks.

use super::{Damped, Held};
use crate::feed::{first_record, Answer, Ran, Record, Stop, REPLY_ROOM};
use crate::memory::Update;
use crate::refusal::Refusal;

/// A tick's kind.
const TICK: u8 = 9;
/// What a tick is replied to by.
const TICKED: Answer<u32> = Answer::Done(Update { hop: 0, cells: 0 });

/// What a run took, with its answer.
#[derive(Clone, Copy, Debug, PartialEq, Eq)]
pub enum Told {
    Record(Record<u32>, Answer<u32>),
    Tick(Held),
}

impl Damped {
    /// Takes the records and ticks of a feed in order, replies to each and tells it.
    pub fn run_and_tell(&mut self, feed: &[u8], reply: &mut [u8], mut tell: impl FnMut(Told)) -> Result<Ran, Refusal> {
        self.memory.room()?;
        self.places()?;
        let mut ran = Ran { stop: Stop::End, consumed: 0, written: 0, accepted: 0, refused: 0 };
        loop {
            let rest = &feed[ran.consumed..];
            let (record, size) = match first_record(rest) {
                _ if rest.first() == Some(&TICK) => (None, 1),
                Ok((record, size)) => (Some(record), size),
                Err(stop) => return Ok(Ran { stop, ..ran }),
            };
            if record == Some(Record::End) {
                ran.consumed += size;
                return Ok(ran);
            }
            if reply.len() - ran.written < REPLY_ROOM {
                return Ok(Ran { stop: Stop::ReplyFull, ..ran });
            }
            ran.consumed += size;
            let told = match record {
                Some(record) => Told::Record(record, self.take(record)),
                None => Told::Tick(self.tick()?),
            };
            let answer = match told {
                Told::Record(_, answer) => answer,
                Told::Tick(_) => TICKED,
            };
            let bytes = answer.encoding();
            reply[ran.written..ran.written + bytes.len()].copy_from_slice(&bytes);
            ran.written += bytes.len();
            ran.accepted += usize::from(matches!(told, Told::Record(_, Answer::Done(_))));
            ran.refused += usize::from(matches!(answer, Answer::Refused(_)));
            tell(told);
        }
    }

    /// What one record is answered; there is no end among them.
    fn take(&mut self, record: Record<u32>) -> Answer<u32> {
        let done = |result: Result<Update, Refusal>| result.map_or_else(Answer::Refused, Answer::Done);
        match record {
            Record::End => unreachable!("an end stops the run"),
            Record::Announce { address, length, hop, feed, preference } => {
                done(self.announce(address, length, hop, feed, preference))
            }
            Record::Withdraw { address, length, feed } => done(self.withdraw(address, length, feed)),
            Record::Lookup { address } => self.memory.lookup(address).map_or_else(Answer::Refused, Answer::Looked),
        }
    }
}
