//! The four words of a slot, one for each feed: a preference and a hop, or 0 for no candidate.

/// The words of a slot.
pub const SLOT: usize = 4;
/// Above the hop's bits stands the preference.
pub const HOPS: u32 = 65_536;

/// The word of a feed's candidate.
pub fn word(preference: u8, hop: u32) -> u32 {
    u32::from(preference) * HOPS + hop
}

/// Preference and hop of a word that is not 0, if a candidate can have them.
pub fn candidate(word: u32) -> Option<(u8, u32)> {
    let preference = u8::try_from(word / HOPS).ok()?;
    Some((preference, word % HOPS)).filter(|&(_, hop)| hop != 0)
}

/// Whether the word is one that a table may have.
pub fn is_right(word: u32) -> bool {
    word == 0 || candidate(word).is_some()
}

/// The hop that wins in a slot: of the words that are not 0 that of the lowest preference, the first such. None if all are 0.
pub fn winner(slot: &[u32]) -> Option<u32> {
    let taken = slot.iter().filter(|&&word| word != 0);
    taken.min_by_key(|&&word| word / HOPS).map(|word| word % HOPS)
}

/// The winning hop of each slot of a page, by the slot's number. There is no slot 0: its words are the tag and words
/// without a use.
pub fn winners(page: &[u32]) -> Vec<Option<u32>> {
    let slots = page[SLOT..super::CELLS].chunks_exact(SLOT);
    [None].into_iter().chain(slots.map(winner)).collect()
}
