//! Calls through a front that test only what they touch: before a table they answer, and leave every word, as those that test all
//! of it. On any other words the front's part of them is compared, and a refused one changes neither memory.

use reference::feed::Record;
use reference::front::{self, lay, Name, Places};
use reference::Update;
use toggleash::damp;

use crate::damps::{plain, Both, Damps, UNTOUCHED};
use crate::guard::{begin_call, Lent, Side};
use crate::pair::{left, library, same, Same, Told};

/// What a run tells: stop, consumed, written, accepted, refused.
pub type Counted = Told<(u8, usize, usize, usize, usize)>;

impl Both {
    /// A copy of both memories as they are.
    pub fn twin(&self, side: Side) -> Both {
        let is = self.is.clone();
        Both { front: Lent::copy_of(&self.front, side), words: Lent::copy_of(&self.words, side), is }
    }

    fn is_table(&self) -> bool {
        self.is.memory.list().is_ok()
    }

    /// An update on a copy, beside the one that tested all of it.
    pub fn update_local(
        mut self,
        record: Record<u32>,
        (told, checked): (Told<(u32, u32)>, &Both),
        seen: &mut Damps,
    ) -> Same {
        let (table, (front, words)) = (self.is_table(), self.before());
        let what = || format!("local {record:?} through a front");
        begin_call("a local update through a front");
        let local = library(match record {
            Record::Announce { address, length, hop, feed, preference } => {
                let candidate = toggleash::Candidate { hop, feed, preference };
                damp::announce_local(&mut self.front, &mut self.words, address.into(), length, candidate)
            }
            Record::Withdraw { address, length, feed } => {
                damp::withdraw_local(&mut self.front, &mut self.words, address.into(), length, feed)
            }
            Record::Lookup { .. } | Record::End => return Ok(()),
        })
        .map(|update| (update.hop, update.cells));
        if table {
            same(what, local, told)?;
            return self.as_checked(what, checked);
        }
        let behind = local.map(|(hop, cells)| Update { hop, cells });
        let aside = match record {
            Record::Announce { address, length, hop, feed, preference } => {
                self.is.announce_local((address, length), (hop, feed, preference), behind)
            }
            Record::Withdraw { address, length, feed } => self.is.withdraw_local((address, length), feed, behind),
            Record::Lookup { .. } | Record::End => return Ok(()),
        };
        seen.other(aside.passed, local.is_ok());
        same(what, local, aside.answer.map(|update| (update.hop, update.cells)))?;
        let kept = if aside.passed && local.is_ok() { self.words.to_vec() } else { words };
        self.left_as(what, (&front, &kept), local.is_err())
    }

    /// A tick on a copy. On words that are no table the front's own words tell what was installed.
    pub fn tick_local(mut self, told: Told<(u32, u32)>, checked: &Both) -> Same {
        let (table, (front, words)) = (self.is_table(), self.before());
        let what = || "a local tick".to_string();
        begin_call("a local tick");
        let local =
            library(damp::tick_local(&mut self.front, &mut self.words)).map(|held| (held.places, held.held_back));
        if table {
            same(what, local, told)?;
            return self.as_checked(what, checked);
        }
        let after = front::read(&self.front).unwrap_or_default();
        let gone = |name: &Name, places: &Places| places.get(name).is_none_or(|place| place.kept.is_none());
        same(what, local, plain(self.is.tick_local(|name| gone(name, &after))))?;
        let kept = if local.is_ok() { self.words.to_vec() } else { words };
        self.left_as(what, (&front, &kept), local.is_err())
    }

    /// A run on a copy, with reply bytes of its own.
    pub fn run_local(mut self, feed: &[u8], side: Side, (told, replies): (Counted, &[u8]), checked: &Both) -> Same {
        let (table, (front, words)) = (self.is_table(), self.before());
        let what = || format!("local run of {} bytes through a front", feed.len());
        let mut written = Lent::copy_of(&vec![UNTOUCHED; replies.len()], side);
        begin_call("a local run through a front");
        let (f, w) = (&mut self.front, &mut self.words);
        let local = library(Lent::copy_of(feed, side).sealed(|feed| damp::run_local(f, w, feed, &mut written)))
            .map(|ran| (ran.stop.number(), ran.consumed, ran.written, ran.accepted, ran.refused));
        if table {
            same(what, local, told)?;
            left(|| format!("replies of {}", what()), replies, &written)?;
            return self.as_checked(what, checked);
        }
        let end = local.map_or(0, |(_, _, end, ..)| end);
        same(what, written[end..].iter().all(|&byte| byte == UNTOUCHED), true)?;
        match local {
            Ok(_) => same(what, front::read(&self.front).is_some(), true),
            Err(_) => {
                left(|| format!("front after {}", what()), &front, &self.front)?;
                left(|| format!("words after {}", what()), &words, &self.words)
            }
        }
    }

    /// Every word is as the call that tests all of it left it.
    fn as_checked(&self, what: impl Fn() -> String, checked: &Both) -> Same {
        left(|| format!("front after {}", what()), &checked.front, &self.front)?;
        left(|| format!("words after {}", what()), &checked.words, &self.words)
    }

    /// The front is as it was where the call was refused, else as the reference has it; the words are these.
    fn left_as(&self, what: impl Fn() -> String, (front, words): (&[u32], &[u32]), refused: bool) -> Same {
        let places = self.is.places.as_ref().filter(|_| !refused);
        left(|| format!("front after {}", what()), &places.map_or(front.to_vec(), lay), &self.front)?;
        left(|| format!("words after {}", what()), words, &self.words)
    }
}
