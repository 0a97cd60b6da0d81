//! The recorded answers: a fixed list of scripts with what rustsat and document 01's questions give for them.

use crate::{
    desk::{play, MOST_HEAD},
    format::{put, Answer, Case, Command, Side, LEAST_OF_GROUPS},
    generate::{case, damaged, large_script, script, shared_script, tree_script, WHOLE_LOG},
    random::Random,
    refusals,
};

/// Cases whose logs are longer than this are left out, but for the large ones: the file stays small.
const MOST_LOG: u32 = 2_500;

/// Two leaves, their join, each output both ways, and a close.
fn joined(variable: u32, step: u32, leaves: [u32; 2]) -> Vec<u8> {
    let mut script = vec![];
    put(&mut script, variable);
    put(&mut script, step);
    leaves.iter().for_each(|literal| Command::Leaf(*literal).put(&mut script));
    Command::Join(Side::plain(0), Side::plain(1)).put(&mut script);
    [1, 2].iter().for_each(|value| Command::Request { node: 2, value: *value, direction: 3 }.put(&mut script));
    Command::Close.put(&mut script);
    script
}

/// Numbers of the head and literals of leaves at the largest number of so many groups, at the least of one group more, and
/// at the head's limit.
fn at_limits() -> Vec<Vec<u8>> {
    let numbers = LEAST_OF_GROUPS.iter().flat_map(|least| [least - 1, *least]).chain([MOST_HEAD]);
    numbers
        .flat_map(|n| {
            [
                joined(n, 1, [0, 3]),
                joined(n / 2, 1, [0, 3]),
                joined(2, n, [0, 3]),
                joined(n / 2 + 1, 1, [n, 3]),
                joined(MOST_HEAD, MOST_HEAD - 5, [0, n]),
            ]
        })
        .collect()
}

/// A chain over four leaves. `first` has the limits of the two leaves of its first join, of length 2, `second` the offset and
/// the limit of that one in the next, `third` the limits of the two sides of the last, where `true` is the whole length.
/// Then each output of the last both ways, and a close.
fn chain(first: [u32; 2], second: [u32; 2], third: [bool; 2]) -> Vec<u8> {
    let mut script = vec![4, 1];
    let side = |node, offset, limit| Side { node, offset, limit };
    [0, 2, 5, 7].iter().for_each(|literal| Command::Leaf(*literal).put(&mut script));
    Command::Join(side(0, 0, first[0]), side(1, 0, first[1])).put(&mut script);
    let [offset, limit] = second;
    Command::Join(side(4, offset, limit), side(2, 0, 0)).put(&mut script);
    let length = if limit > 0 { limit + 1 } else { 3 - offset };
    let full = |place: usize, length| if third[place] { length } else { 0 };
    Command::Join(side(5, 0, full(0, length)), side(3, 0, full(1, 1))).put(&mut script);
    (1..=length + 1).for_each(|value| Command::Request { node: 6, value, direction: 3 }.put(&mut script));
    Command::Close.put(&mut script);
    script
}

/// Limits that are the whole length: of leaves, of a join, of a join over a window, on the left, on the right and on both
/// sides; and one past the length.
fn full_limits() -> Vec<Vec<u8>> {
    let seconds = [[0, 0], [0, 2], [1, 0], [0, 1]];
    let on_both = seconds.iter().flat_map(|second| {
        [[0, 0], [1, 0], [0, 1], [1, 1]].map(|first| chain(first, *second, [true, true]))
    });
    let on_one = seconds
        .iter()
        .flat_map(|second| [[true, false], [false, true]].map(|third| chain([0, 0], *second, third)));
    let past = [([2, 0], [0, 0]), ([0, 2], [0, 0]), ([0, 0], [0, 3]), ([0, 0], [1, 2])]
        .map(|(first, second)| chain(first, second, [false, false]));
    on_both.chain(on_one).chain(past).collect()
}

/// 64 leaves in pairs, each pair joined before the next. Then the newest leaf, the oldest and one between them again, an
/// output of the first join and of the last both ways, and such leaves as are given.
fn runs(more: &[u32]) -> Vec<u8> {
    let mut script = vec![65, 1];
    for pair in 0..32 {
        [4 * pair, 4 * pair + 2].iter().for_each(|literal| Command::Leaf(*literal).put(&mut script));
        Command::Join(Side::plain(3 * pair), Side::plain(3 * pair + 1)).put(&mut script);
    }
    [126, 0, 62].iter().for_each(|literal| Command::Leaf(*literal).put(&mut script));
    [2, 95].iter().for_each(|node| Command::Request { node: *node, value: 1, direction: 3 }.put(&mut script));
    more.iter().for_each(|literal| Command::Leaf(*literal).put(&mut script));
    script
}

/// The negations of the newest leaf and of the oldest, and a leaf too many, are refused.
fn leaf_runs() -> Vec<Vec<u8>> {
    [&[][..], &[126, 0], &[127], &[1], &[126, 1], &[128]].map(runs).to_vec()
}

/// A counter of the leaves 0 up to `length` - 1 under two joins, by one window of it with the next leaf, by another with the
/// one after. Then an output of each join both ways, of the second first where `turned`, and a close.
fn two_windows(length: u32, windows: [[u32; 2]; 2], turned: bool) -> Vec<u8> {
    let leaves = length + 2;
    let mut script = vec![leaves as u8, 1];
    (0..leaves).for_each(|leaf| Command::Leaf(2 * leaf).put(&mut script));
    let mut counter = 0;
    for leaf in 1..length {
        Command::Join(Side::plain(counter), Side::plain(leaf)).put(&mut script);
        counter = leaves + leaf - 1;
    }
    for ([offset, limit], leaf) in windows.into_iter().zip(length..) {
        Command::Join(Side { node: counter, offset, limit }, Side::plain(leaf)).put(&mut script);
    }
    let joins = if turned { [counter + 2, counter + 1] } else { [counter + 1, counter + 2] };
    joins.iter().for_each(|node| Command::Request { node: *node, value: 2, direction: 3 }.put(&mut script));
    Command::Close.put(&mut script);
    script
}

/// A counter of three under two joins: whole, its limit set or not, and by windows of two outputs and of one. Then, of three
/// and of four, windows of the same outputs: rustsat defines them once, whether a limit is set or not.
fn windows_of_one_node() -> Vec<Vec<u8>> {
    let windows = [[0, 0], [0, 3], [1, 0], [0, 2], [2, 0], [1, 1]];
    let pairs = windows.iter().flat_map(|first| windows.map(|second| [*first, second]));
    let other = pairs.enumerate().map(|(i, windows)| two_windows(3, windows, i % 2 == 1));
    let lengths = [(3, 1), (4, 1), (4, 2)];
    let forms = [(false, false), (false, true), (true, false), (true, true)];
    let same = lengths.iter().flat_map(|&(length, offset)| {
        let shown = move |limited| [offset, if limited { length - offset } else { 0 }];
        forms.map(|(first, second)| two_windows(length, [shown(first), shown(second)], second))
    });
    other.chain(same).collect()
}

pub fn list() -> Vec<(Case, Answer)> {
    let mut list = vec![];
    for expected in refusals::list() {
        let answer = play(&expected.case);
        let got = (answer.number, answer.place);
        let script = crate::format::hex(&expected.case.script[..expected.case.script.len().min(40)]);
        assert_eq!(got, (expected.number, expected.place), "the script {script}");
        list.push((expected.case, answer));
    }

    let mut random = Random::new(1);
    let mut add = |case: Case, most: u32| {
        let answer = play(&case);
        let kept = answer.length <= most;
        if kept {
            list.push((case, answer));
        }
        kept
    };
    for script in at_limits().into_iter().chain(full_limits()).chain(leaf_runs()).chain(windows_of_one_node()) {
        add(Case { script, capacity: WHOLE_LOG }, MOST_LOG);
    }
    for (count, script) in [(1_000, tree_script as fn(&mut Random, u32) -> Vec<u8>), (300, shared_script)] {
        let mut left = count;
        while left > 0 {
            let script = script(&mut random, 16);
            left -= u32::from(add(Case { script, capacity: WHOLE_LOG }, MOST_LOG));
        }
    }
    let mut left = 300;
    while left > 0 {
        let whole = script(&mut random, 8);
        let script = damaged(&mut random, &whole);
        left -= u32::from(add(Case { script, capacity: WHOLE_LOG }, MOST_LOG));
    }
    let mut left = 120;
    while left > 0 {
        let script = script(&mut random, 8);
        let length = play(&Case { script: script.clone(), capacity: WHOLE_LOG }).length;
        if length == 0 || length > MOST_LOG {
            continue;
        }
        add(Case { script: script.clone(), capacity: length }, MOST_LOG);
        add(Case { script, capacity: length - 1 }, MOST_LOG);
        left -= 1;
    }
    for _ in 0..150 {
        let case = case(&mut random, 12);
        add(case, MOST_LOG);
    }
    for _ in 0..6 {
        let script = large_script(&mut random);
        add(Case { script, capacity: WHOLE_LOG }, WHOLE_LOG);
    }
    list
}
