//! The text of an IPv6 address by RFC 5952: eight groups of hexadecimal digits without leading zeros, in small letters, the
//! longest run of zero groups as `::`, the first of several as long; a single zero group stays 0.
//!
//! No address is told to have an IPv4 address in it, so that section 5 never applies: all groups are hexadecimal.

/// The text of an address.
pub fn text(address: u128) -> String {
    let groups: [u16; 8] = std::array::from_fn(|at| (address >> (112 - 16 * at)) as u16);
    let (start, length) = longest_zeros(&groups);
    if length < 2 {
        return joined(&groups);
    }
    format!("{}::{}", joined(&groups[..start]), joined(&groups[start + length..]))
}

fn joined(groups: &[u16]) -> String {
    groups.iter().map(|group| format!("{group:x}")).collect::<Vec<_>>().join(":")
}

/// Start and length of the longest run of zero groups, the first of several as long.
fn longest_zeros(groups: &[u16]) -> (usize, usize) {
    let run = |start: usize| groups[start..].iter().take_while(|&&group| group == 0).count();
    let runs = (0..groups.len()).map(|start| (start, run(start)));
    runs.fold((0, 0), |longest, other| if other.1 > longest.1 { other } else { longest })
}
