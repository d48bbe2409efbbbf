//! A caller in Rust: `cargo run --example caller`.

use std::error::Error;

use toggleash::{words_for, Candidate, Prefix, Table};

fn main() -> Result<(), Box<dyn Error>> {
    let mut table = Table::new(vec![0; words_for(7).expect("1 to 4,096 arrays")])?;
    let prefix: Prefix = "10.0.0.0/8".parse()?;
    let done = table.announce(prefix, Candidate { hop: 1, feed: 1, preference: 10 })?;
    table.announce(prefix, Candidate { hop: 2, feed: 2, preference: 20 })?;
    let found = table.lookup([10, 1, 5, 9].into())?;
    println!("{prefix} takes {} cell; 10.1.5.9 gets {found:?}", done.cells);
    table.withdraw(prefix, 1)?;
    let found = table.lookup([10, 1, 5, 9].into())?;
    println!("without feed 1 it gets {found:?}");
    Ok(())
}
