//! The proved program beside the reference: the same bytes on standard input, the same bytes on standard output.

use std::io::{ErrorKind, Write};
use std::process::{Command, Output, Stdio};
use std::thread;
use std::time::Duration;

use crate::random::Random;

/// Lengths of input at the limit of 4,096 and far over it.
const LENGTHS: [usize; 8] = [0, 1, 4_095, 4_096, 4_097, 4_098, 8_192, 200_000];

/// Runs both on one feed of a length, the second by these words. Gives the number of lines, or what differs.
pub fn compare(
    random: &mut Random,
    case: usize,
    feed: impl Fn(&mut Random, usize) -> Vec<u8>,
    proved: &str,
    reference: &[&str],
) -> Result<usize, String> {
    let length = LENGTHS.get(case).copied().unwrap_or_else(|| random.below(4_098));
    let feed = feed(random, length);
    // A program must not take the first part of a pipe's bytes for all of them.
    let cut = random.chance(5).then(|| random.below(length + 1));
    let mut second = Command::new(reference[0]);
    second.args(&reference[1..]);
    let (ours, theirs) = (output(Command::new(proved), &feed, cut)?, output(second, &feed, cut)?);
    if ours == theirs {
        return Ok(ours.iter().filter(|&&byte| byte == b'\n').count());
    }
    let (ours, theirs) = (String::from_utf8_lossy(&ours), String::from_utf8_lossy(&theirs));
    let mut lines = ours.lines().zip(theirs.lines()).enumerate();
    Err(match lines.find(|(_, (our, their))| our != their) {
        Some((at, (our, their))) => format!("line {}: '{our}' and '{their}' for {} bytes", at + 1, feed.len()),
        None => format!("one output goes on where the other ends, for {} bytes", feed.len()),
    })
}

fn output(mut command: Command, feed: &[u8], cut: Option<usize>) -> Result<Vec<u8>, String> {
    let program = format!("{command:?}");
    let told = |error: std::io::Error| format!("{program}: {error}");
    let mut child = command.stdin(Stdio::piped()).stdout(Stdio::piped()).spawn().map_err(told)?;
    let mut input = child.stdin.take().expect("it is piped");
    let (first, rest) = feed.split_at(cut.unwrap_or(feed.len()));
    let send = move || {
        input.write_all(first)?;
        if !rest.is_empty() {
            thread::sleep(Duration::from_millis(3));
        }
        input.write_all(rest)
    };
    let (sent, output) = thread::scope(|scope| {
        let sender = scope.spawn(send);
        let output = child.wait_with_output();
        (sender.join().expect("the sender does not panic"), output)
    });
    // A program need not read more of an input that is too long.
    sent.or_else(|error| if error.kind() == ErrorKind::BrokenPipe { Ok(()) } else { Err(error) }).map_err(told)?;
    let Output { status, stdout, .. } = output.map_err(told)?;
    match status.code() {
        Some(_) => Ok(stdout),
        None => Err(format!("{program} did not end by itself: {status}")),
    }
}
