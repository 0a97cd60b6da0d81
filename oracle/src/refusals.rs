//! Scripts that the documents refuse, and neighbours that they accept, with the number and the place written by hand from
//! their questions.

use crate::format::{Case, Command, Side};

/// A script, the log's length, and the number and place expected.
pub struct Expected {
    pub case: Case,
    pub number: u32,
    pub place: u32,
}

const WHOLE: u32 = 65_536;

/// Head 4 and 1, leaves 0 2 4 6, node 4 joins the first two, node 5 that and the third: three outputs.
const THREE: &[u8] = &[4, 1, 1, 0, 1, 2, 1, 4, 1, 6, 2, 0, 0, 0, 1, 0, 0, 2, 4, 0, 0, 2, 0, 0];

/// Document 01's whole case.
pub const PAIR: &[u8] = &[2, 1, 1, 0, 1, 2, 2, 0, 0, 0, 1, 0, 0, 3, 2, 1, 1];

/// Leaves 0 2 4; node 3 joins the first two, node 4 the first and the last.
const LEG: &[u8] = &[3, 1, 1, 0, 1, 2, 1, 4, 2, 0, 0, 0, 1, 0, 0, 2, 0, 0, 0, 2, 0, 0];

/// Leaves 0 2 4 6; node 4 joins the first two, node 5 its second output and the third leaf.
const HIDDEN: &[u8] = &[4, 1, 1, 0, 1, 2, 1, 4, 1, 6, 2, 0, 0, 0, 1, 0, 0, 2, 4, 1, 1, 2, 0, 0];

/// Leaves 0 2 4 6 8; node 6 joins the first three, node 7 its second output and on with the fourth, node 8 all of it with the
/// fifth. Output 2 of each, the last node first.
const SHARED: &[u8] = &[
    5, 1, 1, 0, 1, 2, 1, 4, 1, 6, 1, 8, 2, 0, 0, 0, 1, 0, 0, 2, 5, 0, 0, 2, 0, 0, //
    2, 6, 1, 0, 3, 0, 0, 2, 6, 0, 2, 4, 0, 0, 3, 8, 2, 3, 3, 7, 2, 3,
];

/// 268,435,455, the largest number.
const LARGEST: &[u8] = &[0xff, 0xff, 0xff, 0x7f];

/// 100,000,000, the largest number of a head, and one more.
const MOST: &[u8] = &[0x80, 0xc2, 0xd7, 0x2f];
const OVER: &[u8] = &[0x81, 0xc2, 0xd7, 0x2f];

/// Both numbers of the head as large as they may be; leaves x99999999 and ¬x99999998, joined, each output both ways, close.
const LARGE: &[u8] = &[
    0x80, 0xc2, 0xd7, 0x2f, 0x80, 0xc2, 0xd7, 0x2f, 1, 0xfe, 0x83, 0xaf, 0x5f, 1, 0xfd, 0x83, 0xaf, 0x5f, //
    2, 0, 0, 0, 1, 0, 0, 3, 2, 1, 3, 3, 2, 2, 3, 4,
];

/// Steps from 2,097,150 on: the third takes four groups.
const STEPS: &[u8] = &[2, 0xfe, 0xff, 0x7f, 1, 0, 1, 2, 2, 0, 0, 0, 1, 0, 0, 3, 2, 1, 3];

/// The head 200 and 1 and the leaves 0, 2, 4 up to 2 (count - 1).
pub fn many_leaves(count: u32) -> Vec<u8> {
    let mut script = vec![0xc8, 1, 1];
    for leaf in 0..count {
        Command::Leaf(2 * leaf).put(&mut script);
    }
    script
}

/// Two leaves, and so many joins of them, nodes from 2 on.
pub fn many_joins(count: usize) -> Vec<u8> {
    let mut script = PAIR[..6].to_vec();
    (0..count).for_each(|_| Command::Join(Side::plain(0), Side::plain(1)).put(&mut script));
    script
}

pub fn list() -> Vec<Expected> {
    let mut list = vec![];
    let mut add = |number, place, capacity, parts: &[&[u8]]| {
        list.push(Expected { case: Case { script: parts.concat(), capacity }, number, place });
    };
    let longest = [&[2, 1][..], &[1, 0].repeat(32_767)].concat();

    // 1: script and log at most 65,536 bytes, before everything else
    add(0, 32_767, 8, &[&longest]);
    add(1, 0, 8, &[&longest, &[1]]);
    add(1, 0, 8, &[&[0x80; 65_537]]);
    add(1, 0, WHOLE + 1, &[PAIR]);
    add(1, 0, WHOLE + 1, &[]);
    add(0, 0, WHOLE, &[&[2, 1]]);
    add(0, 0, 0, &[&[2, 1]]);

    // 2: every number, at its place; both head numbers before question 3
    add(2, 0, WHOLE, &[]);
    add(2, 0, WHOLE, &[&[2]]);
    add(2, 0, WHOLE, &[&[0x80, 0, 1]]);
    add(2, 0, WHOLE, &[&[0x80, 0x80, 0, 1]]);
    add(2, 0, WHOLE, &[&[0x80, 0x80, 0x80, 0, 1]]);
    add(2, 0, WHOLE, &[&[0x80, 0x80, 0x80, 0x80, 1, 1]]);
    add(2, 0, WHOLE, &[&[0xff, 0xff, 0xff, 0xff, 1, 1]]);
    add(2, 0, WHOLE, &[&[0xff; 8]]);
    add(2, 0, WHOLE, &[&[2, 0x80, 0x80, 0x80, 0x80, 1]]);
    add(2, 0, WHOLE, &[LARGEST]);
    add(2, 0, WHOLE, &[LARGEST, &[0x80]]);
    add(2, 1, WHOLE, &[&[2, 1, 0x80]]);
    add(2, 1, WHOLE, &[&[2, 1, 0x81, 0]]);
    add(2, 1, WHOLE, &[&[2, 1, 1]]);
    add(2, 1, WHOLE, &[&[2, 1, 1, 0x80]]);
    add(2, 1, WHOLE, &[&[2, 1, 0x80, 0x80, 0x80, 0x80, 1]]);
    add(2, 2, WHOLE, &[MOST, &[1, 1, 0, 1, 0xff, 0xff, 0xff, 0xff, 1]]);
    for cut in 1..7 {
        add(2, 3, WHOLE, &[&PAIR[..6 + cut]]);
    }
    for cut in 1..4 {
        add(2, 4, WHOLE, &[&PAIR[..13 + cut]]);
    }
    add(2, 5, WHOLE, &[PAIR, &[0xff]]);

    // 3: the head's limits
    add(0, 0, WHOLE, &[&[0xff, 0xff, 0x7f, 1]]);
    add(0, 0, WHOLE, &[&[0xff, 0xff, 0xff, 1, 1]]);
    add(0, 0, WHOLE, &[MOST, &[1]]);
    add(3, 0, WHOLE, &[OVER, &[1]]);
    add(3, 0, WHOLE, &[LARGEST, &[1]]);
    add(0, 0, WHOLE, &[&[2], MOST]);
    add(3, 0, WHOLE, &[&[2], OVER]);
    add(3, 0, WHOLE, &[&[2], LARGEST]);
    add(0, 0, WHOLE, &[MOST, MOST]);
    add(3, 0, WHOLE, &[MOST, OVER]);
    add(3, 0, WHOLE, &[&[2, 0]]);
    add(0, 0, WHOLE, &[&[0, 1]]);
    add(3, 0, WHOLE, &[&[2, 0, 0x80]]);

    // 4: after a close, once the code is read, before question 5
    add(0, 1, WHOLE, &[&[2, 1, 4]]);
    add(4, 2, WHOLE, &[&[2, 1, 4, 4]]);
    add(4, 2, WHOLE, &[&[2, 1, 4, 0]]);
    add(4, 2, WHOLE, &[&[2, 1, 4, 1]]);
    add(4, 2, WHOLE, &[&[2, 1, 4, 1, 0]]);
    add(2, 2, WHOLE, &[&[2, 1, 4, 0x80]]);
    add(4, 6, WHOLE, &[PAIR, &[4, 3, 2, 1, 1]]);

    // 5: the code, before its other numbers
    add(5, 1, WHOLE, &[&[2, 1, 0]]);
    add(5, 1, WHOLE, &[&[2, 1, 5]]);
    add(5, 1, WHOLE, &[&[2, 1, 5, 0x80]]);
    add(5, 5, WHOLE, &[PAIR, &[0x80, 1]]);
    add(5, 5, WHOLE, &[PAIR, LARGEST]);

    // 6: a leaf's variable is below the first output variable, before question 7
    add(6, 1, WHOLE, &[&[2, 1, 1, 4]]);
    add(6, 1, WHOLE, &[&[2, 1, 1, 5]]);
    add(6, 1, WHOLE, &[&[0, 1, 1, 0]]);
    add(0, 1, WHOLE, &[&[2, 1, 1, 3]]);
    add(6, 65, WHOLE, &[&many_leaves(64), &[1, 0x90, 3]]);
    add(0, 1, WHOLE, &[MOST, &[1, 1, 0xff, 0x83, 0xaf, 0x5f]]);
    add(6, 1, WHOLE, &[MOST, &[1, 1, 0x80, 0x84, 0xaf, 0x5f]]);
    add(6, 1, WHOLE, &[MOST, &[1, 1], LARGEST]);

    // 7: a new literal's negation is no leaf, and there are fewer than 64
    add(7, 2, WHOLE, &[&[2, 1, 1, 0, 1, 1]]);
    add(7, 2, WHOLE, &[&[2, 1, 1, 1, 1, 0]]);
    add(0, 2, WHOLE, &[&[2, 1, 1, 0, 1, 0]]);
    add(0, 64, WHOLE, &[&many_leaves(64)]);
    add(7, 65, WHOLE, &[&many_leaves(65)]);
    add(0, 65, WHOLE, &[&many_leaves(64), &[1, 0]]);
    add(7, 65, WHOLE, &[&many_leaves(64), &[1, 1]]);

    // 8: each node exists, before 9, 10, 11 and 12
    add(8, 3, WHOLE, &[&PAIR[..6], &[2, 0, 0, 0, 2, 0, 0]]);
    add(8, 3, WHOLE, &[&PAIR[..6], &[2, 2, 0, 0, 0, 0, 0]]);
    add(8, 3, WHOLE, &[&PAIR[..6], &[2, 2, 9, 9, 2, 9, 9]]);
    add(8, 4, WHOLE, &[&PAIR[..13], &[3, 3, 1, 1]]);
    add(8, 4, WHOLE, &[&PAIR[..13], &[3, 3, 0, 0]]);
    add(8, 1, WHOLE, &[&[2, 1, 3, 0, 1, 1]]);
    add(8, 4, WHOLE, &[&PAIR[..13], &[3], LARGEST, &[1, 1]]);

    // 9: no leaf below both sides, a leaf below itself, whatever windows hide; before 15 and 10
    add(9, 3, WHOLE, &[&PAIR[..6], &[2, 0, 0, 0, 0, 0, 0]]);
    add(9, 4, WHOLE, &[&PAIR[..13], &[2, 0, 0, 0, 2, 0, 0]]);
    add(9, 4, WHOLE, &[&PAIR[..13], &[2, 2, 0, 0, 1, 0, 0]]);
    add(9, 4, WHOLE, &[&PAIR[..13], &[2, 2, 7, 7, 1, 7, 7]]);
    add(9, 4, WHOLE, &[&PAIR[..13], &[2, 2, 7, 0, 2, 0, 0]]);
    add(9, 4, WHOLE, &[&PAIR[..13], &[2, 2, 0, 1, 2, 1, 0]]);
    add(0, 5, WHOLE, &[LEG]);
    add(0, 7, WHOLE, &[LEG, &[3, 3, 1, 1, 3, 4, 1, 1]]);
    add(0, 7, WHOLE, &[LEG, &[2, 0, 0, 0, 1, 0, 0, 2, 1, 0, 0, 4, 0, 0]]);
    add(9, 6, WHOLE, &[LEG, &[2, 0, 0, 0, 0, 0, 0]]);
    add(9, 6, WHOLE, &[LEG, &[2, 3, 0, 0, 4, 0, 0]]);
    add(9, 6, WHOLE, &[LEG, &[2, 4, 1, 1, 3, 1, 1]]);
    add(9, 6, WHOLE, &[LEG, &[2, 4, 2, 0, 3, 0, 0]]);
    add(0, 7, WHOLE, &[HIDDEN, &[2, 5, 1, 1, 3, 0, 0]]);
    add(9, 7, WHOLE, &[HIDDEN, &[2, 5, 0, 0, 0, 0, 0]]);
    add(9, 7, WHOLE, &[HIDDEN, &[2, 5, 1, 1, 1, 0, 0]]);
    add(9, 7, WHOLE, &[HIDDEN, &[2, 2, 0, 0, 5, 0, 1]]);
    add(9, 7, WHOLE, &[HIDDEN, &[2, 4, 0, 1, 5, 1, 0]]);

    // 15: fewer than 255 joins, after 8 and 9 and before 10; leaves, requests and a close go on
    add(0, 257, WHOLE, &[&many_joins(255)]);
    add(15, 258, WHOLE, &[&many_joins(256)]);
    add(15, 258, WHOLE, &[&many_joins(300)]);
    add(8, 258, WHOLE, &[&many_joins(255), &[2, 0, 0, 0, 0x81, 2, 0, 0]]);
    add(9, 258, WHOLE, &[&many_joins(255), &[2, 0, 0, 0, 0x80, 2, 0, 0]]);
    add(9, 258, WHOLE, &[&many_joins(255), &[2, 1, 7, 7, 1, 7, 7]]);
    add(15, 258, WHOLE, &[&many_joins(255), &[2, 0, 7, 7, 1, 7, 7]]);
    add(10, 257, WHOLE, &[&many_joins(254), &[2, 0, 7, 7, 1, 7, 7]]);
    add(9, 257, WHOLE, &[&many_joins(254), &[2, 0, 0, 0, 0, 0, 0]]);
    add(0, 261, WHOLE, &[&many_joins(255), &[1, 0, 3, 2, 1, 1, 3, 0x80, 2, 2, 3, 4]]);
    add(15, 259, WHOLE, &[&many_joins(255), &[3, 0x80, 2, 2, 3, 2, 0, 0, 0, 1, 0, 0]]);

    // 10: what a side shows lies in its node; the whole node passes
    add(0, 7, WHOLE, &[THREE, &[2, 5, 2, 0, 3, 0, 0]]);
    add(10, 7, WHOLE, &[THREE, &[2, 5, 3, 0, 3, 0, 0]]);
    add(0, 7, WHOLE, &[THREE, &[2, 5, 0, 2, 3, 0, 0]]);
    add(0, 7, WHOLE, &[THREE, &[2, 5, 0, 3, 3, 0, 0]]);
    add(10, 7, WHOLE, &[THREE, &[2, 5, 0, 4, 3, 0, 0]]);
    add(0, 7, WHOLE, &[THREE, &[2, 5, 1, 2, 3, 0, 0]]);
    add(10, 7, WHOLE, &[THREE, &[2, 5, 1, 3, 3, 0, 0]]);
    add(10, 7, WHOLE, &[THREE, &[2, 3, 0, 0, 5, 3, 0]]);
    add(0, 7, WHOLE, &[THREE, &[2, 5, 0, 0, 3, 0, 1]]);
    add(10, 7, WHOLE, &[THREE, &[2, 5, 0, 0, 3, 0, 2]]);
    add(10, 7, WHOLE, &[THREE, &[2, 5, 0, 0, 3, 1, 0]]);
    add(10, 7, WHOLE, &[THREE, &[2, 5], LARGEST, LARGEST, &[3, 0, 0]]);

    // 11: value 1 to the length, before 12
    add(11, 4, WHOLE, &[&PAIR[..13], &[3, 2, 0, 1]]);
    add(11, 4, WHOLE, &[&PAIR[..13], &[3, 2, 3, 1]]);
    add(11, 4, WHOLE, &[&PAIR[..13], &[3, 2, 3, 0]]);
    add(0, 4, WHOLE, &[&PAIR[..13], &[3, 2, 2, 1]]);
    add(11, 4, WHOLE, &[&PAIR[..13], &[3, 0, 2, 1]]);
    add(11, 4, WHOLE, &[&PAIR[..13], &[3, 2], LARGEST, &[1]]);
    add(0, 4, WHOLE, &[&PAIR[..13], &[3, 0, 1, 3]]);

    // 12: direction 1 to 3
    add(12, 4, WHOLE, &[&PAIR[..13], &[3, 2, 1, 0]]);
    add(12, 4, WHOLE, &[&PAIR[..13], &[3, 2, 1, 4]]);
    add(12, 4, 0, &[&PAIR[..13], &[3, 2, 1, 4]]);
    add(12, 4, WHOLE, &[&PAIR[..13], &[3, 0, 1, 4]]);
    add(12, 4, WHOLE, &[&PAIR[..13], &[3, 2, 1], LARGEST]);

    // 14: all that the command writes fits; a refused request leaves what stood before it
    add(0, 4, 46, &[PAIR]);
    add(14, 4, 45, &[PAIR]);
    add(14, 4, 0, &[PAIR]);
    add(14, 5, 46, &[PAIR, &[3, 2, 2, 1]]);
    add(0, 5, 46, &[PAIR, &[3, 2, 1, 1]]);
    add(14, 1, 1, &[&[2, 1, 4]]);
    add(0, 1, 2, &[&[2, 1, 4]]);
    add(14, 5, 49, &[PAIR, &[4]]);
    add(0, 5, 50, &[PAIR, &[4]]);
    add(0, 3, 0, &[&PAIR[..13]]);
    add(0, 11, 604, &[SHARED]);
    add(14, 11, 603, &[SHARED]);
    add(0, 6, 270, &[LARGE]);
    add(14, 6, 269, &[LARGE]);
    add(0, 4, 72, &[STEPS]);
    add(14, 4, 71, &[STEPS]);

    list
}
