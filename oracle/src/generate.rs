//! Random scripts of every shape: chains, balanced and random trees, nodes under several joins, windows of every kind, the
//! same ones again, as many joins as there may be, negated leaves, leaves in runs between the joins, old ones again, all
//! directions, repeats, requests between joins, with and without a close; and damaged copies.

use std::collections::HashSet;

use crate::{
    desk::{play, MOST_HEAD, MOST_JOINS},
    format::{commands, put, Answer, Case, Command, Reader, Side, LEAST_OF_GROUPS},
    random::Random,
};

pub const WHOLE_LOG: u32 = 65_536;

/// A script being written: the literals of its leaves, the lengths of its nodes, the leaves below each as bits in the order of
/// their making, the sides of its joins, and the nodes that no join has taken.
struct Draft {
    script: Vec<u8>,
    leaves: Vec<u32>,
    lengths: Vec<u32>,
    below: Vec<u64>,
    sides: Vec<Side>,
    free: Vec<u32>,
}

impl Draft {
    fn with_head(variable: u32, step: u32) -> Draft {
        let mut script = vec![];
        put(&mut script, variable);
        put(&mut script, step);
        Draft { script, leaves: vec![], lengths: vec![], below: vec![], sides: vec![], free: vec![] }
    }

    fn command(&mut self, command: Command) {
        command.put(&mut self.script);
    }

    fn leaf(&mut self, literal: u32) {
        self.command(Command::Leaf(literal));
        self.below.push(1 << self.leaves.len());
        self.leaves.push(literal);
        self.free.push(self.lengths.len() as u32);
        self.lengths.push(1);
    }

    fn nodes(&self) -> u32 {
        self.lengths.len() as u32
    }

    fn joins(&self) -> usize {
        self.lengths.len() - self.leaves.len()
    }

    /// A leaf that is there already, half of the time the newest; now and then the negation of one, which question 7 refuses.
    fn leaf_again(&mut self, random: &mut Random) {
        let last = self.leaves.len() as u32 - 1;
        let place = if random.chance(50) { last } else { random.from(0, last) };
        let negation = u32::from(random.chance(2));
        self.command(Command::Leaf(self.leaves[place as usize] ^ negation));
    }

    /// A free node, which is free no longer.
    fn take(&mut self, place: usize) -> u32 {
        self.free.remove(place)
    }

    /// The outputs that a side shows.
    fn length(&self, side: Side) -> u32 {
        match side.limit {
            0 => self.lengths[side.node as usize] - side.offset,
            limit => limit,
        }
    }

    /// More often than not the outputs of an earlier window of the node, where there is one. A limit that the node's end makes
    /// needless is set or not.
    fn window(&self, random: &mut Random, node: u32) -> Side {
        let length = self.lengths[node as usize];
        let is_earlier = |side: &Side| side.node == node && self.length(*side) < length;
        let earlier: Vec<Side> = self.sides.iter().copied().filter(is_earlier).collect();
        let (offset, outputs) = if !earlier.is_empty() && random.chance(60) {
            let side = random.pick(&earlier);
            (side.offset, self.length(side))
        } else {
            let offset = if random.chance(30) { 0 } else { random.from(0, length - 1) };
            let left = length - offset;
            (offset, if random.chance(40) { left } else { random.from(1, left) })
        };
        let limit = if offset + outputs == length && random.chance(50) { 0 } else { outputs };
        Side { node, offset, limit }
    }

    fn join(&mut self, random: &mut Random, [left, right]: [u32; 2], percent: &Percent) {
        let [l, r] = [left, right].map(|node| {
            if random.chance(percent.windows) {
                return self.window(random, node);
            }
            let limit = if random.chance(percent.full) { self.lengths[node as usize] } else { 0 };
            Side { node, offset: 0, limit }
        });
        let joined = self.length(l) + self.length(r);
        self.command(Command::Join(l, r));
        self.sides.extend([l, r]);
        self.free.push(self.lengths.len() as u32);
        self.lengths.push(joined);
        self.below.push(self.below[left as usize] | self.below[right as usize]);
        if random.chance(percent.requests) {
            let node = random.from(0, self.nodes() - 1);
            self.request(random, node);
        }
        if random.chance(percent.leaves) {
            self.leaf_again(random);
        }
    }

    /// Two nodes with a leaf below both, or with none, in either order. The first is one of those given, or of the last
    /// made, or any. It may have no such other one: a few are tried.
    fn pair(&self, random: &mut Random, given: &[u32], common: bool) -> Option<[u32; 2]> {
        let last = self.nodes() - 1;
        for _ in 0..20 {
            let first = match random.from(0, 4) {
                0 => random.from(0, last),
                1 => random.from(last - last / 4, last),
                _ if given.is_empty() => continue,
                _ => random.pick(given),
            };
            let both = |node: u32| self.below[first as usize] & self.below[node as usize];
            let others: Vec<u32> = (0..=last).filter(|node| (both(*node) != 0) == common).collect();
            if !others.is_empty() {
                let other = random.pick(&others);
                return Some(if random.chance(50) { [first, other] } else { [other, first] });
            }
        }
        None
    }

    /// So many more joins of any two nodes with no leaf below both: a node may stand under several. Often it is one of
    /// length 3 or more, which has windows of two outputs, or a join that stands under one already.
    fn share(&mut self, random: &mut Random, joins: usize, percent: &Percent) {
        let long: Vec<u32> = (0..self.nodes()).filter(|node| self.lengths[*node as usize] > 2).collect();
        let favourite = if random.chance(60) && !long.is_empty() { vec![random.pick(&long)] } else { vec![] };
        for _ in 0..joins {
            let taken: Vec<u32> = self.sides.iter().map(|side| side.node).collect();
            let given = if favourite.is_empty() { &taken } else { &favourite };
            let Some(nodes) = self.pair(random, given, false) else { break };
            self.join(random, nodes, percent);
        }
    }

    /// A join of one node twice, of a node and one below it, or of two over one leaf, which question 9 refuses.
    fn join_in_common(&mut self, random: &mut Random, percent: &Percent) {
        let nodes = self.pair(random, &[], true).expect("a leaf lies below itself");
        self.join(random, nodes, percent);
    }

    fn request(&mut self, random: &mut Random, node: u32) {
        let value = random.from(1, self.lengths[node as usize]);
        let direction = random.from(1, 3);
        self.command(Command::Request { node, value, direction });
    }

    /// Every output of a node, in a random order, with repeats.
    fn request_all(&mut self, random: &mut Random, node: u32) {
        let length = self.lengths[node as usize];
        let mut left: Vec<u32> = (1..=length).collect();
        while !left.is_empty() {
            let value = left.remove(random.from(0, left.len() as u32 - 1) as usize);
            let direction = random.pick(&[1, 2, 3, 3]);
            self.command(Command::Request { node, value, direction });
            if random.chance(10) {
                self.command(Command::Request { node, value, direction: random.from(1, 3) });
            }
        }
    }
}

/// Of a hundred sides, so many may be windows, and of a hundred others, so many have a limit that hides nothing. After so
/// many of a hundred joins a request follows, or a leaf that is there already.
struct Percent {
    windows: u32,
    full: u32,
    requests: u32,
    leaves: u32,
}

impl Percent {
    fn of(random: &mut Random) -> Percent {
        Percent {
            windows: random.pick(&[0, 0, 20, 50, 90]),
            full: random.pick(&[0, 0, 20, 60]),
            requests: random.pick(&[0, 0, 10, 40]),
            leaves: random.pick(&[0, 0, 20]),
        }
    }
}

/// A number of the head, some just below or at a number that takes a group more, some at the limit or, now and then, past
/// it. Literals are twice as large as variables, and the numbers made from it go on from there.
fn head_number(random: &mut Random, least: u32) -> u32 {
    match random.from(0, 99) {
        0..=9 => MOST_HEAD - random.from(0, 1),
        10..=21 => {
            let limit = random.pick(&LEAST_OF_GROUPS) / random.pick(&[1, 2]);
            (limit + 2).saturating_sub(random.from(1, 20)).max(least)
        }
        22..=29 => random.from(least, MOST_HEAD),
        30 => MOST_HEAD + 1,
        _ => least + random.from(0, 3),
    }
}

/// Leaves on different variables below the first output variable, up to `number` of the script's `count`, some of them
/// repeated.
fn leaves(random: &mut Random, draft: &mut Draft, number: usize, count: u32, first_variable: u32) {
    let negated = random.pick(&[0, 30, 50, 100]);
    while draft.leaves.len() < number {
        let variable = if first_variable < 2 * count {
            random.from(0, first_variable - 1)
        } else {
            random.from(0, 2 * count - 1) + random.pick(&[0, 0, first_variable - 2 * count])
        };
        if draft.leaves.iter().any(|literal| literal / 2 == variable) {
            continue;
        }
        draft.leaf(2 * variable + u32::from(random.chance(negated)));
        if random.chance(5) {
            draft.leaf_again(random);
        }
    }
}

/// Leaves in runs, and between them joins of nodes that no join has taken. Of a hundred turns so many end it early.
fn tree(
    random: &mut Random,
    draft: &mut Draft,
    count: u32,
    first_variable: u32,
    ends: u32,
    percent: &Percent,
) {
    let first_run = if random.chance(60) { count } else { random.from(1, count) };
    leaves(random, draft, first_run as usize, count, first_variable);
    let shape = random.from(0, 2);
    loop {
        let to_make = count - draft.leaves.len() as u32;
        if random.chance(ends) || (to_make == 0 && draft.free.len() < 2) {
            break;
        }
        if to_make > 0 && (draft.free.len() < 2 || random.chance(30)) {
            let number = draft.leaves.len() + random.from(1, to_make) as usize;
            leaves(random, draft, number, count, first_variable);
            continue;
        }
        let last = draft.free.len() - 1;
        let (first, second) = match shape {
            0 if random.chance(50) => (last, 0),
            0 => (0, last - 1),
            1 => (0, 0),
            _ => (random.from(0, last as u32) as usize, random.from(0, last as u32 - 1) as usize),
        };
        let nodes = [draft.take(first), draft.take(second)];
        draft.join(random, nodes, percent);
    }
}

fn close(random: &mut Random, mut draft: Draft) -> Vec<u8> {
    if random.chance(40) {
        draft.command(Command::Close);
    }
    draft.script
}

/// A script over at most so many leaves, each node under one join at most.
pub fn tree_script(random: &mut Random, most_leaves: u32) -> Vec<u8> {
    let small = most_leaves.min(8);
    let count = if random.chance(70) { random.from(1, small) } else { random.from(1, most_leaves) };
    let first_variable = head_number(random, count);
    let mut draft = Draft::with_head(first_variable, head_number(random, 1));
    let percent = Percent::of(random);
    tree(random, &mut draft, count, first_variable, 2, &percent);

    let root = draft.nodes() - 1;
    match random.from(0, 5) {
        0 => (),
        1 => draft.request(random, root),
        2 if count <= 20 => draft.request_all(random, root),
        3 if count <= 12 => (0..=root).rev().for_each(|node| draft.request_all(random, node)),
        _ => {
            for _ in 0..random.from(1, 6) {
                let node = if random.chance(50) { root } else { random.from(0, root) };
                draft.request(random, node);
            }
        }
    }
    close(random, draft)
}

/// A script over at most so many leaves, nodes under several joins; now and then a join that question 9 refuses.
pub fn shared_script(random: &mut Random, most_leaves: u32) -> Vec<u8> {
    let small = most_leaves.min(8);
    let count =
        if random.chance(80) { random.from(small.min(3), small) } else { random.from(1, most_leaves) };
    let first_variable = head_number(random, count);
    let mut draft = Draft::with_head(first_variable, head_number(random, 1));
    let percent = Percent { windows: random.pick(&[0, 20, 50, 90]), ..Percent::of(random) };
    tree(random, &mut draft, count, first_variable, 10, &percent);
    let made = draft.nodes();
    let joins = random.from(1, 2 * count) as usize;
    draft.share(random, joins, &percent);
    if random.chance(6) {
        draft.join_in_common(random, &percent);
    }

    let root = draft.nodes() - 1;
    match random.from(0, 3) {
        0 if count <= 20 => draft.request_all(random, root),
        1 | 2 => (made..=root).rev().for_each(|node| draft.request(random, node)),
        _ => {
            for _ in 0..random.from(1, 6) {
                let node = random.from(0, root);
                draft.request(random, node);
            }
        }
    }
    close(random, draft)
}

/// An undamaged script over at most so many leaves.
pub fn script(random: &mut Random, most_leaves: u32) -> Vec<u8> {
    if random.chance(40) {
        shared_script(random, most_leaves)
    } else {
        tree_script(random, most_leaves)
    }
}

/// A script of 64 leaves with the head's numbers as large as they may be.
pub fn large_script(random: &mut Random) -> Vec<u8> {
    let mut draft = Draft::with_head(MOST_HEAD, MOST_HEAD);
    leaves(random, &mut draft, 64, 64, MOST_HEAD);
    let chain = random.chance(50);
    while draft.free.len() > 1 {
        let nodes = [draft.take(if chain { draft.free.len() - 1 } else { 0 }), draft.take(0)];
        let percent = Percent { windows: random.pick(&[0, 10]), full: 10, requests: 0, leaves: 0 };
        draft.join(random, nodes, &percent);
    }
    let root = draft.nodes() - 1;
    let value = random.pick(&[1, 2, draft.lengths[root as usize]]);
    let direction = random.from(1, 2);
    draft.command(Command::Request { node: root, value, direction });
    draft.script
}

/// 253 to 255 joins, of which 255 are the most. Sometimes there is one more, with faults of its own or none: questions 8 and
/// 9 come before 15, question 10 after it. Then requests, and sometimes a close.
pub fn many_joins(random: &mut Random) -> Vec<u8> {
    let count = random.pick(&[3, 4, 5, 6, 12, 64]);
    let first_variable = head_number(random, count).min(MOST_HEAD);
    let mut draft = Draft::with_head(first_variable, head_number(random, 1).min(MOST_HEAD));
    leaves(random, &mut draft, count as usize, count, first_variable);
    let percent = Percent { requests: 0, ..Percent::of(random) };
    let few = random.pick(&[0, 0, 0, 1, 2]);
    while draft.joins() < MOST_JOINS - few {
        draft.share(random, 1, &percent);
    }
    let last = draft.nodes() - 1;
    let too_far = |node| Side { offset: 65, ..Side::plain(node) };
    match random.from(0, 9) {
        0 | 1 => draft.share(random, 1, &percent),
        2 => draft.join_in_common(random, &percent),
        3 => draft.command(Command::Join(Side::plain(0), too_far(1))),
        4 => draft.command(Command::Join(too_far(last), Side::plain(last))),
        5 => draft.command(Command::Join(too_far(last), Side::plain(last + 1))),
        _ => (),
    }
    for _ in 0..random.from(0, 4) {
        let node = random.from(0, last);
        draft.request(random, node);
    }
    close(random, draft)
}

/// Numbers of four groups, the largest of all too, and bytes that are no number: not the shortest form, five groups.
const LONG: [&[u8]; 5] = [
    &[0x80, 0x80, 0x80, 1],
    &[0xff, 0xff, 0xff, 0x7f],
    &[0x80, 0x80, 0x80, 0],
    &[0x80, 0x80, 0x80, 0x80, 1],
    &[0xff, 0xff, 0xff, 0xff, 0x7f],
];

/// A bit flipped, a byte changed, added or dropped, the end cut off, a part doubled, or a byte made a long number.
pub fn damaged(random: &mut Random, script: &[u8]) -> Vec<u8> {
    let mut bytes = script.to_vec();
    for _ in 0..random.from(1, 3) {
        if bytes.is_empty() {
            break;
        }
        let at = random.from(0, bytes.len() as u32 - 1) as usize;
        match random.from(0, 7) {
            0 => bytes[at] ^= 1 << random.from(0, 7),
            1 => bytes[at] = random.from(0, 255) as u8,
            2 => bytes[at] = random.from(0, 5) as u8,
            3 => bytes.insert(at, random.from(0, 8) as u8),
            4 => drop(bytes.remove(at)),
            5 => bytes.truncate(at),
            6 => drop(bytes.splice(at..=at, random.pick(&LONG).iter().copied())),
            _ => bytes.extend(bytes[at..].to_vec()),
        }
    }
    bytes
}

/// Capacities around the length that the script's whole log takes, others, and now and then one past 65,536.
pub fn capacity(random: &mut Random, script: &[u8]) -> u32 {
    match random.from(0, 99) {
        0..=79 => WHOLE_LOG,
        80..=94 => {
            let whole = play(&Case { script: script.to_vec(), capacity: WHOLE_LOG });
            (whole.length + random.from(0, 4)).saturating_sub(2).min(WHOLE_LOG)
        }
        95..=98 => random.from(0, 400),
        _ => WHOLE_LOG + random.from(1, 3),
    }
}

/// Two in a hundred have the head's numbers as large as they may be, one in a hundred has many joins.
fn any_script(random: &mut Random) -> Vec<u8> {
    match random.from(0, 99) {
        0 | 1 => large_script(random),
        2 => many_joins(random),
        _ => script(random, 64),
    }
}

pub fn case(random: &mut Random, most_leaves: u32) -> Case {
    let mut script = if most_leaves == 64 { any_script(random) } else { script(random, most_leaves) };
    if random.chance(25) {
        script = damaged(random, &script);
    }
    let capacity = capacity(random, &script);
    Case { script, capacity }
}

/// So many cases come from one script.
pub const AROUND: u32 = 9;

/// A script with a whole log, with logs around the length that it takes, and with damage; each with its answer.
pub fn around(random: &mut Random) -> [(Case, Answer); AROUND as usize] {
    let script = any_script(random);
    let at = random.from(0, script.len() as u32 - 1) as usize;
    let mut flipped = script.clone();
    flipped[at] ^= 1 << random.from(0, 7);
    let cut = script[..at].to_vec();
    let spoiled = damaged(random, &script);

    let answered = |script: &Vec<u8>, capacity| {
        let case = Case { script: script.clone(), capacity };
        let answer = play(&case);
        (case, answer)
    };
    let whole = answered(&script, WHOLE_LOG);
    let needed = whole.1.length;
    [
        whole,
        answered(&script, needed.saturating_sub(1)),
        answered(&script, needed),
        answered(&script, needed + 1),
        answered(&script, 0),
        answered(&script, 1),
        answered(&flipped, WHOLE_LOG),
        answered(&cut, WHOLE_LOG),
        answered(&spoiled, WHOLE_LOG),
    ]
}

/// Does a node of the script's joins stand under two of them?
pub fn has_shared_node(script: &[u8]) -> bool {
    let sides = commands(script).into_iter().flat_map(|command| match command {
        Command::Join(left, right) => vec![left.node, right.node],
        _ => vec![],
    });
    let mut seen = HashSet::new();
    sides.into_iter().any(|node| !seen.insert(node))
}

/// The first step number of a script whose head reads.
pub fn first_step(script: &[u8]) -> Option<u32> {
    let mut reader = Reader { rest: script };
    reader.number()?;
    reader.number()
}
