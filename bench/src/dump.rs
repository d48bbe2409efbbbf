//! Two peers of a real dump as two uplinks: the lines that bench/real prints, as announcements of two feeds.

use std::cmp::Reverse;
use std::collections::BTreeMap;
use std::net::Ipv4Addr;
use std::process::Command;

use reference::{Candidate, Prefix};

/// One route of one peer, with its AS path.
struct Line<'a> {
    peer: &'a str,
    prefix: Prefix,
    path: Vec<&'a str>,
}

/// The announcements, in the order of the dump. None where there is none to read.
pub fn announcements() -> Option<Vec<Candidate>> {
    let output = Command::new("./real").output().expect("bench/run starts this where bench/real is");
    if !output.status.success() {
        println!("real lists took no part: {}", String::from_utf8_lossy(&output.stderr).trim());
        return None;
    }
    let text = String::from_utf8_lossy(&output.stdout);
    let lines: Vec<Line> = text.lines().filter_map(line).collect();
    let peers = most(&lines);
    Some(candidates(&lines, &peers))
}

/// None for what is no IPv4 route, and for length 0, as rte_lpm has none.
fn line(text: &str) -> Option<Line<'_>> {
    let mut parts = text.split('|');
    let (peer, (address, length)) = (parts.next()?, parts.next()?.split_once('/')?);
    let (address, length): (Ipv4Addr, u32) = (address.parse().ok()?, length.parse().ok()?);
    let path = parts.next()?.split_whitespace().collect();
    (1..=32).contains(&length).then(|| Line { peer, prefix: Prefix::around(address.into(), length), path })
}

/// The two peers with the most routes.
fn most<'a>(lines: &[Line<'a>]) -> Vec<&'a str> {
    let mut routes: BTreeMap<&str, usize> = BTreeMap::new();
    lines.iter().for_each(|line| *routes.entry(line.peer).or_default() += 1);
    let mut peers: Vec<(&str, usize)> = routes.into_iter().collect();
    peers.sort_by_key(|&(_, routes)| Reverse(routes));
    println!("real list: a dump of {} peers; as two uplinks the two with the most IPv4 routes", peers.len());
    peers.truncate(2);
    peers.iter().zip(1..).for_each(|((peer, routes), feed)| println!("  feed {feed}: peer {peer}, {routes} routes"));
    peers.into_iter().map(|(peer, _)| peer).collect()
}

/// The peers' routes as candidates of feeds 1 and 2. The shorter AS path is preferred, as BGP does. A hop stands for a peer and
/// the AS that a path ends in: with a hop for each peer alone nearly all answers would be one, and no sum would tell ways apart.
fn candidates<'a>(lines: &[Line<'a>], peers: &[&str]) -> Vec<Candidate> {
    let mut hops: BTreeMap<(u32, Option<&'a str>), u32> = BTreeMap::new();
    let candidate = |line: &Line<'a>| {
        let feed = 1 + peers.iter().position(|&peer| peer == line.peer)? as u32;
        let (preference, next) = (line.path.len().min(255) as u8, 1 + hops.len() as u32);
        let hop = *hops.entry((feed, line.path.last().copied())).or_insert(next);
        assert!(hop < 65_536, "more hops than there are numbers");
        Some(Candidate { prefix: line.prefix, feed, preference, hop })
    };
    lines.iter().filter_map(candidate).collect()
}
