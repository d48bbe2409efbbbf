//! The reference as a program: the same input and output as the proved one, `reference` for that of IPv4, `reference 6` for
//! that of IPv6, `reference flaps` for that through a front.

use std::io::{self, Read, Write};

use reference::{front, program};

fn main() -> io::Result<()> {
    let output = match std::env::args().nth(1).as_deref() {
        None => program::output::<u32>,
        Some("6") => program::output::<u128>,
        Some("flaps") => front::output,
        Some(_) => panic!("usage: reference [6 | flaps]"),
    };
    let mut input = Vec::new();
    // One byte more than is taken shows that the input is too long; the rest need not be read.
    io::stdin().lock().take(program::MOST_INPUT as u64 + 1).read_to_end(&mut input)?;
    io::stdout().lock().write_all(output(&input).as_bytes())
}
