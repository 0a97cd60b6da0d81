//! Speed: the scripts that bench/run plays, by name, and the time that the original takes for a script.

use std::{ffi::c_long, hint::black_box};

use crate::{
    desk::{play, MOST_HEAD},
    format::{put, Case, Command, Side},
    generate::WHOLE_LOG,
    refusals::PAIR,
};

/// No script may be longer, and no log.
const MOST_BYTES: usize = WHOLE_LOG as usize;

/// A side that hides nothing.
fn plain(node: u32, _: u32) -> Side {
    Side::plain(node)
}

/// What is left of a node of so many outputs: left sides lose the first and the last one, right sides by turns the
/// first or the last. Two outputs or one are left whole.
fn window(node: u32, length: u32) -> Side {
    let (offset, limit) = match node % 4 {
        _ if length < 3 => (0, 0),
        1 => (1, 0),
        3 => (0, length - 1),
        _ => (1, length - 2),
    };
    Side { node, offset, limit }
}

/// A head, and so many leaves on the variables just below the first output variable.
fn leaves_below(variable: u32, step: u32, count: u32) -> Vec<u8> {
    let mut script = vec![];
    put(&mut script, variable);
    put(&mut script, step);
    (variable - count..variable).for_each(|leaf| Command::Leaf(2 * leaf).put(&mut script));
    script
}

/// The same from variable 0 and step 1 on.
fn leaves(count: u32) -> Vec<u8> {
    leaves_below(count, 1, count)
}

/// A request both ways.
fn request(node: u32, value: u32) -> Command {
    Command::Request { node, value, direction: 3 }
}

/// After so many leaves, joins of the two nodes that have waited longest, up to one root; then requests for the root's
/// values 1 to `values`. `side` says what a join takes of a node of so many outputs.
fn balanced(mut script: Vec<u8>, count: u32, side: fn(u32, u32) -> Side, values: u32) -> Vec<u8> {
    let mut lengths = vec![1; count as usize];
    for i in 0..count - 1 {
        let [left, right] = [2 * i, 2 * i + 1].map(|node| side(node, lengths[node as usize]));
        Command::Join(left, right).put(&mut script);
        let length = |s: Side| if s.limit > 0 { s.limit } else { lengths[s.node as usize] - s.offset };
        lengths.push(length(left) + length(right));
    }
    let root = 2 * count - 2;
    (1..=values).for_each(|value| request(root, value).put(&mut script));
    script
}

/// Four balanced counters of eight leaves, the joins made level by level. Each two of them are joined, with all outputs but the
/// first of either, so that each counter stands under three joins by one window, and every output of these six is requested.
fn shared() -> Vec<u8> {
    let mut script = leaves(32);
    let joined = |left: Side, right: Side| Command::Join(left, right);
    (0..28).for_each(|i| joined(Side::plain(2 * i), Side::plain(2 * i + 1)).put(&mut script));
    let side = |node, limit| Side { node, offset: 1, limit };
    let counters = 56..60;
    let pairs = counters.clone().flat_map(|left| (left + 1..counters.end).map(move |right| (left, right)));
    pairs.for_each(|(left, right)| joined(side(left, 0), side(right, 7)).put(&mut script));
    (60..66).for_each(|node| (1..=14).for_each(|value| request(node, value).put(&mut script)));
    script
}

/// A script, and then a command as often as it fits.
fn repeated(mut script: Vec<u8>, command: Command) -> Vec<u8> {
    let mut bytes = vec![];
    command.put(&mut bytes);
    while script.len() + bytes.len() <= MOST_BYTES {
        script.extend(&bytes);
    }
    script
}

pub fn script(name: &str) -> Option<Vec<u8>> {
    Some(match name {
        "head" => PAIR[..2].to_vec(),
        "whole" => PAIR.to_vec(),
        "balanced-16" => balanced(leaves(16), 16, plain, 16),
        // value 41 finds 45 bytes left and is refused by 14
        "balanced-41" => balanced(leaves(41), 41, plain, 40),
        // value 15 finds 76 bytes left and is refused by 14
        "large-38" => balanced(leaves_below(MOST_HEAD, MOST_HEAD, 38), 38, plain, 14),
        "windows" => balanced(leaves(64), 64, window, 19),
        "shared" => shared(),
        // a leaf that is there: newest and oldest, since a search may begin at either end
        "leaf-newest" => repeated(leaves(64), Command::Leaf(126)),
        "leaf-oldest" => repeated(leaves(64), Command::Leaf(0)),
        // of two leaves, so that most requests fit
        "held" => repeated(balanced(leaves(2), 2, plain, 1), request(2, 1)),
        "held-leaf" => repeated(leaves(1), request(0, 1)),
        // value 14 finds 999 bytes left and is refused by 14. rustsat knows no end of a log: it carries out the refused
        // request, and desk.rs then asks question 14 and drops what the request wrote
        "full" => balanced(leaves(64), 64, plain, 64),
        _ => return None,
    })
}

extern "C" {
    /// The processor time of this process in microseconds: libc's, as bench/library.c takes it for the library.
    fn clock() -> c_long;
}

/// A round takes at least so many microseconds.
const ROUND: i64 = 50_000;

/// A play with the duty of the library: every byte of a log that is lent is written, the records and then zeros. The
/// records are copied, since `play` has them in a vector of its own.
fn play_into(case: &Case, log: &mut [u8]) {
    let answer = play(black_box(case));
    let (records, rest) = log.split_at_mut(answer.log.len());
    records.copy_from_slice(&answer.log);
    rest.fill(0);
    // as if both were read: else the compiler may leave out what nobody reads
    black_box(log);
    black_box(answer);
}

/// The microseconds of so many plays.
fn round(case: &Case, plays: u32, log: &mut [u8]) -> i64 {
    // SAFETY: clock has no preconditions.
    let now = || unsafe { clock() };
    let start = now();
    (0..plays).for_each(|_| play_into(case, log));
    now() - start
}

/// The nanoseconds of a play, the median of so many rounds.
pub fn time(case: &Case, rounds: usize) -> i64 {
    let mut log = vec![0; case.capacity as usize];
    let mut plays = 1;
    while round(case, plays, &mut log) < ROUND {
        plays *= 2;
    }
    let mut times: Vec<i64> =
        (0..rounds).map(|_| 1000 * round(case, plays, &mut log) / i64::from(plays)).collect();
    times.sort_unstable();
    times[rounds / 2]
}
