//! The read-only copy of a list: its words for the lookups, and its need and build by themselves.

use reference::CandidateList;
use toggleash::copy;

use crate::clock::{measure, Way};
use crate::lists::Load;
use crate::{title, Scale};

/// A copy of the list's winners.
pub fn words(list: &CandidateList) -> Vec<u32> {
    let bytes = list.encoding();
    let mut words = vec![0; copy::need(&bytes).expect("a list")];
    copy::build(&bytes, &mut words).expect("words enough");
    words
}

/// The calls that read the whole list.
pub fn whole(scale: &Scale, load: &Load) {
    let (bytes, mut words) = (&load.candidates.encoding(), words(&load.candidates));
    let count = words.len();
    let need = || copy::need(bytes).expect("a list") as u64;
    let build = || copy::build(bytes, &mut words).map_or(0, |built| (built.routes + built.markers) as u64);
    let ways =
        [("copy need", Way::new("toggleash_copy_need", need)), ("copy build", Way::new("toggleash_copy_build", build))];
    for (what, way) in ways {
        measure(&title(what, load, &format!("{count} words, one call")), scale.rounds, 1, vec![way]);
    }
}
