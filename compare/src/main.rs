//! Compares the library, through the bindings, with the reference on random input; or, with `--programs`, `--programs6` or
//! `--flaps`, the proved program of IPv4, of IPv6 or through a front with the reference. Exits with status 1 on any difference.

use std::process::ExitCode;

use compare::family::Family;
use compare::feeds::{self, Terrain};
use compare::flapping::Flock;
use compare::pair::Same;
use compare::random::Random;
use compare::resolves::{self, Resolves};
use compare::tally::Tally;
use compare::{copies, damage, face, foreign, guard, made_up, programs, rooms, unlisted};
use reference::CandidateList;

const USAGE: &str = "usage: compare [--long] [--seed NUMBER] [(--programs | --programs6 | --flaps) PROVED SECOND]";

/// What a plain run does of a family's tables: records that the rooms take between them, the largest rooms, memories that are
/// damaged, and those that are made up; and the feeds that its program takes.
struct Share {
    records: u64,
    largest: u64,
    damaged: u64,
    made_up: u64,
    feeds: usize,
    /// The parts that the cases are of.
    parts: [&'static str; 7],
}

/// One record in ten is of IPv6.
const FOUR: Share = Share {
    records: 216_000,
    largest: 3,
    damaged: 3_600,
    made_up: 1_500,
    feeds: 800,
    parts: ["sizes", "damage", "rooms", "largest", "programs", "depths", "made up"],
};
const SIX: Share = Share {
    records: 24_000,
    largest: 1,
    damaged: 400,
    made_up: 500,
    feeds: 200,
    parts: [
        "sizes of IPv6",
        "damage of IPv6",
        "rooms of IPv6",
        "largest of IPv6",
        "programs of IPv6",
        "depths of IPv6",
        "made up of IPv6",
    ],
};

/// Of the program through a front.
const FLAPS: Share =
    Share { records: 0, largest: 0, damaged: 0, made_up: 0, feeds: 200, parts: ["", "", "", "", "flaps", "", ""] };

/// Copies that a plain run builds from lists, and lists and copies that it damages.
const COPIES: u64 = 600;
/// The arrays that lists need, beside those: as many as a table has, more, those of a full internet table, and still more.
const ROOMS: [usize; 5] = [4_096, 4_097, 4_098, 26_065, 44_096];
const DAMAGED_COPIES: u64 = 24_000;
/// Memories that a plain run resolves addresses in.
const RESOLVED: u64 = 2_000;
/// How much more a long run does.
const LONG: u64 = 20;

struct Options {
    seed: u64,
    times: u64,
    /// Which program, the proved one and the reference.
    programs: Option<(String, String, String)>,
}

fn main() -> ExitCode {
    let Some(options) = options() else {
        eprintln!("{USAGE}");
        return ExitCode::from(2);
    };
    let differences = match &options.programs {
        Some((which, proved, second)) => match which.as_str() {
            "--programs6" => compare_programs(&options, &SIX, program_feed::<u128>, proved, &[second, "6"]),
            "--flaps" => compare_programs(&options, &FLAPS, flaps_feed, proved, &[second, "flaps"]),
            _ => compare_programs(&options, &FOUR, program_feed::<u32>, proved, &[second]),
        },
        None => compare_library(&options),
    };
    ExitCode::from(u8::from(differences > 0))
}

fn options() -> Option<Options> {
    let mut options = Options { seed: 1, times: 1, programs: None };
    let mut words = std::env::args().skip(1);
    while let Some(word) = words.next() {
        match word.as_str() {
            "--long" => options.times = LONG,
            "--seed" => options.seed = words.next()?.parse().ok()?,
            "--programs" | "--programs6" | "--flaps" => {
                options.programs = Some((word, words.next()?, words.next()?));
            }
            _ => return None,
        }
    }
    Some(options)
}

fn compare_library(options: &Options) -> u64 {
    guard::watch();
    let mut tally = Tally::default();
    tally.case("face", 0, face::compare());
    tables::<u32>(options, &FOUR, &mut tally);
    tables::<u128>(options, &SIX, &mut tally);
    others::<u32, u128>(options, "IPv6 tables for IPv4", &mut tally);
    others::<u128, u32>(options, "IPv4 tables for IPv6", &mut tally);
    all_copies(options, &mut tally);
    copies_of_any_room(options, &mut tally);
    damaged_copies(options, &mut tally);
    compare::shorts::compare(|part, case| begin(options, part, case), options.times, &mut tally);
    compare::packs::compare(|part, case| begin(options, part, case), options.times, &mut tally);
    all_resolves(options, &mut tally);
    compare::damps::compare(|part, case| begin(options, part, case), options.times, &mut tally);
    tally.answers::<u32>();
    tally.answers::<u128>();
    tally.copies();
    println!("compare, seed {}: {} differences", options.seed, tally.differences);
    tally.differences
}

/// The tables of a family.
fn tables<A: Family>(options: &Options, share: &Share, tally: &mut Tally) {
    wrong_sizes::<A>(options, share, tally);
    damaged::<A>(options, share, tally);
    depths::<A>(options, share, tally);
    all_made_up::<A>(options, share, tally);
    all_rooms::<A>(options, share, tally);
    largest_rooms::<A>(options, share, tally);
}

/// The generator of one case, whose part and number a difference or a fault names.
fn begin(options: &Options, part: &'static str, case: u64) -> Random {
    guard::begin_case(part, case);
    Random::for_case(options.seed, part, case)
}

/// So many cases of a part, and more in a long run, until enough differ.
fn cases(
    options: &Options,
    tally: &mut Tally,
    (part, count): (&'static str, u64),
    compare: impl Fn(&mut Random, u64, &mut Tally) -> Same,
) {
    for case in 0..count * options.times {
        if tally.enough() {
            return;
        }
        let result = compare(&mut begin(options, part, case), case % count, tally);
        tally.case(part, case, result);
    }
}

fn all_rooms<A: Family>(options: &Options, share: &Share, tally: &mut Tally) {
    let part = share.parts[2];
    let end = A::counts(tally).records + share.records * options.times;
    for case in 0.. {
        if A::counts(tally).records >= end || tally.enough() {
            return;
        }
        let mut random = begin(options, part, case);
        let arrays = A::arrays(&mut random);
        // Each update reads every word of its table.
        let records = 3_000 / (1 + arrays as u64 / 16);
        let result = rooms::room::<A>(&mut random, arrays, records, A::counts(tally));
        tally.case(part, case, result.map_err(|text| format!("{text} (in {arrays} arrays)")));
    }
}

/// Rooms of 4,096 arrays, or nearly, that are full or nearly.
fn largest_rooms<A: Family>(options: &Options, share: &Share, tally: &mut Tally) {
    cases(options, tally, (share.parts[3], share.largest), |random, _, tally| {
        let arrays = random.pick(&[4_096, 4_095, 4_089, 4_088]);
        rooms::room::<A>(random, arrays, 60, A::counts(tally)).map_err(|text| format!("{text} (in {arrays} arrays)"))
    });
}

fn wrong_sizes<A: Family>(options: &Options, share: &Share, tally: &mut Tally) {
    let part = share.parts[0];
    for (case, &count) in damage::SIZES.iter().enumerate() {
        let mut random = begin(options, part, case as u64);
        let result = damage::size::<A>(&mut random, count, A::counts(tally));
        tally.case(part, case as u64, result.map_err(|text| format!("{text} (in {count} words)")));
    }
}

fn damaged<A: Family>(options: &Options, share: &Share, tally: &mut Tally) {
    cases(options, tally, (share.parts[1], share.damaged), |random, case, tally| {
        let arrays = match case % 1_000 {
            0 => 4_096,
            1..=60 => random.within(9..=60),
            _ => random.within(1..=2 * A::LEVELS as usize),
        };
        damage::memory::<A>(random, arrays, A::counts(tally)).map_err(|text| format!("{text} (in {arrays} arrays)"))
    });
}

/// Tables of a family for the calls of another.
fn others<A: Family, B: Family>(options: &Options, part: &'static str, tally: &mut Tally) {
    cases(options, tally, (part, 60), |random, _, tally| damage::other::<A, B>(random, A::counts(tally)));
}

/// Something that no table has on each level, where ways are too long for random damage to meet them all.
fn depths<A: Family>(options: &Options, share: &Share, tally: &mut Tally) {
    cases(options, tally, (share.parts[5], 3 * damage::depths(A::LEVELS)), |random, case, tally| {
        damage::depth::<A>(random, case, A::counts(tally))
    });
}

/// Words that are a table on some paths alone.
fn all_made_up<A: Family>(options: &Options, share: &Share, tally: &mut Tally) {
    cases(options, tally, (share.parts[6], share.made_up), |random, _, tally| {
        made_up::memory::<A>(random, A::counts(tally))
    });
}

/// Few large lists: a build goes over the bytes about 130 times.
fn all_copies(options: &Options, tally: &mut Tally) {
    cases(options, tally, ("copies", COPIES), |random, case, tally| {
        let prefixes = match case {
            0 => 50_000,
            1 => random.within(6_000..=50_000),
            2..=11 => random.within(1_000..=6_000),
            12..=99 => random.within(60..=1_000),
            _ => case as usize % 60,
        };
        copies::list(random, prefixes, tally).map_err(|text| format!("{text} (for {prefixes} prefixes)"))
    });
}

/// Lists that no table has room for, but for the first.
fn copies_of_any_room(options: &Options, tally: &mut Tally) {
    cases(options, tally, ("copies of any room", ROOMS.len() as u64), |random, case, tally| {
        let arrays = ROOMS[case as usize];
        copies::of_any_room(random, arrays, tally).map_err(|text| format!("{text} (for {arrays} arrays)"))
    });
}

/// Bytes that are hardly a list, and words that are hardly a copy. The first lists are of IPv6.
fn damaged_copies(options: &Options, tally: &mut Tally) {
    cases(options, tally, ("damaged copies", DAMAGED_COPIES), |random, case, tally| match case {
        0..=50 => unlisted::of_ipv6(random, tally),
        _ if case % 3 == 0 => unlisted::torn(random, tally),
        _ if case % 3 == 1 => foreign::damaged(random, tally),
        _ => foreign::made_up(random, tally),
    });
}

/// Tables and other words with runs of hop entries.
fn all_resolves(options: &Options, tally: &mut Tally) {
    let mut seen = Resolves::default();
    tally.case("resolves", 0, resolves::far_entries());
    for case in 0..RESOLVED * options.times {
        if tally.enough() {
            return;
        }
        let result = resolves::memory(&mut begin(options, "resolves", case), case, &mut seen);
        tally.case("resolves", case, result);
    }
    tally.differences += seen.told();
}

/// A feed of so many bytes for the program of a family.
fn program_feed<A: Family>(random: &mut Random, length: usize) -> Vec<u8> {
    feeds::program_feed::<A>(random, A::PROGRAM_ARRAYS, length)
}

/// The same with ticks, for the program through a front.
fn flaps_feed(random: &mut Random, length: usize) -> Vec<u8> {
    let terrain = Terrain::new(random, 3);
    Flock::new(random, &terrain, &CandidateList::default()).program_feed(random, length)
}

fn compare_programs(
    options: &Options,
    share: &Share,
    feed: impl Fn(&mut Random, usize) -> Vec<u8>,
    proved: &str,
    second: &[&str],
) -> u64 {
    let (mut feeds, mut lines, mut tally) = (0, 0, Tally::default());
    let part = share.parts[4];
    for case in 0..share.feeds * options.times as usize {
        feeds += 1;
        let mut random = begin(options, part, case as u64);
        let result = programs::compare(&mut random, case, &feed, proved, second).map(|count| lines += count);
        tally.case(part, case as u64, result);
        if tally.enough() {
            break;
        }
    }
    let (seed, differences) = (options.seed, tally.differences);
    println!("compare {part}, seed {seed}: {feeds} feeds, {lines} lines: {differences} differences");
    differences
}
