//! Numbers, scripts and the files of cases: bytes to values and back.

pub use pigeons::write_number;

/// A number takes at most so many groups of seven bits.
const GROUPS: usize = 4;

/// The least numbers of two, three and four groups.
pub const LEAST_OF_GROUPS: [u32; 3] = [1 << 7, 1 << 14, 1 << 21];

/// Reads numbers from the front of a byte string.
pub struct Reader<'a> {
    pub rest: &'a [u8],
}

impl<'a> Reader<'a> {
    /// The next number, or nothing where it does not read: too few bytes, too many groups, or not the
    /// shortest form.
    pub fn number(&mut self) -> Option<u32> {
        let length = 1 + self.rest.iter().position(|b| *b < 128)?;
        if length > GROUPS || (length > 1 && self.rest[length - 1] == 0) {
            return None;
        }
        let (groups, rest) = self.rest.split_at(length);
        self.rest = rest;
        Some(groups.iter().rev().fold(0, |x, b| 128 * x + u32::from(b % 128)))
    }

    pub fn bytes(&mut self, length: usize) -> Option<&'a [u8]> {
        let (bytes, rest) = self.rest.split_at_checked(length)?;
        self.rest = rest;
        Some(bytes)
    }
}

pub fn put(out: &mut Vec<u8>, number: u32) {
    write_number(out, u64::from(number)).expect("a vector takes every byte");
}

/// A side of a join: a node, an offset and a limit, 0 for none.
#[derive(Clone, Copy)]
pub struct Side {
    pub node: u32,
    pub offset: u32,
    pub limit: u32,
}

impl Side {
    /// The whole node.
    pub fn plain(node: u32) -> Side {
        Side { node, offset: 0, limit: 0 }
    }
}

#[derive(Clone, Copy)]
pub enum Command {
    Leaf(u32),
    Join(Side, Side),
    Request { node: u32, value: u32, direction: u32 },
    Close,
}

impl Command {
    /// The numbers after a code, or nothing where one of them does not read. The code is 1 to 4.
    pub fn arguments(code: u32, reader: &mut Reader) -> Option<Command> {
        let mut next = || reader.number();
        Some(match code {
            1 => Command::Leaf(next()?),
            2 => Command::Join(
                Side { node: next()?, offset: next()?, limit: next()? },
                Side { node: next()?, offset: next()?, limit: next()? },
            ),
            3 => Command::Request { node: next()?, value: next()?, direction: next()? },
            4 => Command::Close,
            _ => unreachable!("question 5 comes first"),
        })
    }

    pub fn put(self, out: &mut Vec<u8>) {
        match self {
            Command::Leaf(literal) => [1, literal].iter().for_each(|n| put(out, *n)),
            Command::Join(l, r) => {
                [2, l.node, l.offset, l.limit, r.node, r.offset, r.limit].iter().for_each(|n| put(out, *n))
            }
            Command::Request { node, value, direction } => {
                [3, node, value, direction].iter().for_each(|n| put(out, *n))
            }
            Command::Close => put(out, 4),
        }
    }
}

/// The commands after the head, up to the first that does not read.
pub fn commands(script: &[u8]) -> Vec<Command> {
    let mut reader = Reader { rest: script };
    let head = [reader.number(), reader.number()];
    let next = || {
        let code = reader.number().filter(|code| (1..=4).contains(code))?;
        Command::arguments(code, &mut reader)
    };
    if head.contains(&None) {
        vec![]
    } else {
        std::iter::from_fn(next).collect()
    }
}

/// A script and the length of the log lent to it.
#[derive(Clone)]
pub struct Case {
    pub script: Vec<u8>,
    pub capacity: u32,
}

/// The answer's six numbers and the log up to its length.
#[derive(Clone, PartialEq, Eq, Debug, Default)]
pub struct Answer {
    pub number: u32,
    pub place: u32,
    pub length: u32,
    pub steps: u32,
    pub clauses: u32,
    pub nodes: u32,
    pub log: Vec<u8>,
}

impl Answer {
    pub fn numbers(&self) -> [u32; 6] {
        [self.number, self.place, self.length, self.steps, self.clauses, self.nodes]
    }
}

/// A file of cases: their count, then for each the capacity, the script's length and the script. A file of
/// recorded answers has after each case the answer's six numbers and the log up to its length.
pub fn put_case(out: &mut Vec<u8>, case: &Case) {
    put(out, case.capacity);
    put(out, case.script.len() as u32);
    out.extend(&case.script);
}

pub fn put_answer(out: &mut Vec<u8>, answer: &Answer) {
    answer.numbers().iter().for_each(|n| put(out, *n));
    out.extend(&answer.log);
}

pub fn get_case(reader: &mut Reader) -> Option<Case> {
    let capacity = reader.number()?;
    let length = reader.number()?;
    let script = reader.bytes(length as usize)?.to_vec();
    Some(Case { script, capacity })
}

pub fn get_answer(reader: &mut Reader) -> Option<Answer> {
    let mut next = || reader.number();
    let [number, place, length, steps, clauses, nodes] =
        [next()?, next()?, next()?, next()?, next()?, next()?];
    let log = reader.bytes(length as usize)?.to_vec();
    Some(Answer { number, place, length, steps, clauses, nodes, log })
}

pub fn hex(bytes: &[u8]) -> String {
    bytes.iter().map(|b| format!("{b:02x}")).collect::<Vec<_>>().join(" ")
}
