//! Document 01's questions in their order, with document 02's, put to each command before rustsat sees it.

use crate::{
    counters::Counters,
    format::{Answer, Case, Command, Reader, Side},
};

/// Script and log each (question 1).
const MOST_BYTES: usize = 65_536;
/// First output variable and first step number (question 3).
pub const MOST_HEAD: u32 = 100_000_000;
/// Leaves (question 7).
const MOST_LEAVES: usize = 64;
/// Joins (question 15).
pub const MOST_JOINS: usize = 255;

/// The number of the question that was answered no.
struct Refusal(u32);

fn ask(number: u32, yes: bool) -> Result<(), Refusal> {
    if yes {
        Ok(())
    } else {
        Err(Refusal(number))
    }
}

/// What the questions need to know of the commands before.
struct Desk {
    first_variable: u32,
    leaves: Vec<u32>,
    below: Vec<u64>,
    closed: bool,
}

impl Desk {
    fn exists(&self, node: u32) -> bool {
        (node as usize) < self.below.len()
    }

    /// The leaves below a node, whatever windows hide: bit i for the i-th made. A leaf lies below itself.
    fn below(&self, side: Side) -> u64 {
        self.below[side.node as usize]
    }

    fn joins(&self) -> usize {
        self.below.len() - self.leaves.len()
    }

    fn fits(&self, side: Side, counters: &Counters) -> bool {
        let length = counters.length_of(side.node);
        side.offset < length && side.limit <= length - side.offset
    }

    /// Questions 4 and 5, and 2 for each number.
    fn read(&self, reader: &mut Reader) -> Result<Command, Refusal> {
        let code = reader.number().ok_or(Refusal(2))?;
        ask(4, !self.closed)?;
        ask(5, (1..=4).contains(&code))?;
        Command::arguments(code, reader).ok_or(Refusal(2))
    }

    /// Questions 6 to 12, and 15.
    fn judge(&self, command: Command, counters: &Counters) -> Result<(), Refusal> {
        match command {
            Command::Leaf(literal) => {
                ask(6, literal / 2 < self.first_variable)?;
                let new = !self.leaves.contains(&literal);
                let negation_free = !self.leaves.contains(&(literal ^ 1));
                ask(7, !new || (negation_free && self.leaves.len() < MOST_LEAVES))
            }
            Command::Join(left, right) => {
                ask(8, self.exists(left.node) && self.exists(right.node))?;
                ask(9, self.below(left) & self.below(right) == 0)?;
                ask(15, self.joins() < MOST_JOINS)?;
                ask(10, self.fits(left, counters) && self.fits(right, counters))
            }
            Command::Request { node, value, direction } => {
                ask(8, self.exists(node))?;
                ask(11, 1 <= value && value <= counters.length_of(node))?;
                ask(12, (1..=3).contains(&direction))
            }
            Command::Close => Ok(()),
        }
    }

    fn note(&mut self, command: Command) {
        match command {
            Command::Leaf(literal) => {
                if !self.leaves.contains(&literal) {
                    self.below.push(1 << self.leaves.len());
                    self.leaves.push(literal);
                }
            }
            Command::Join(left, right) => self.below.push(self.below(left) | self.below(right)),
            Command::Request { .. } => (),
            Command::Close => self.closed = true,
        }
    }
}

/// A side as it joins: limit 0 for the whole length at offset 0, which hides nothing (document 02, §3).
fn plain_form(side: Side, counters: &Counters) -> Side {
    let hides_nothing = side.offset == 0 && side.limit == counters.length_of(side.node);
    Side { limit: if hides_nothing { 0 } else { side.limit }, ..side }
}

/// The command that rustsat is given: a join's sides as they join.
fn for_rustsat(command: Command, counters: &Counters) -> Command {
    match command {
        Command::Join(left, right) => Command::Join(plain_form(left, counters), plain_form(right, counters)),
        other => other,
    }
}

/// Hands a command to rustsat.
pub fn act(command: Command, counters: &mut Counters) {
    match command {
        Command::Leaf(literal) => counters.leaf(literal),
        Command::Join(left, right) => counters.join(left, right),
        Command::Request { node, value, direction } => counters.request(node, value, direction),
        Command::Close => counters.close(),
    }
}

/// One command: read, judged, done, and question 14.
fn command(
    reader: &mut Reader,
    capacity: u32,
    desk: &mut Desk,
    counters: &mut Counters,
) -> Result<(), Refusal> {
    let command = desk.read(reader)?;
    desk.judge(command, counters)?;
    act(for_rustsat(command, counters), counters);
    desk.note(command);
    ask(14, counters.log_length() <= capacity as usize)
}

/// The head, questions 2 and 3.
fn head(reader: &mut Reader) -> Result<(u32, u32), Refusal> {
    let variable = reader.number().ok_or(Refusal(2))?;
    let step = reader.number().ok_or(Refusal(2))?;
    ask(3, variable <= MOST_HEAD && (1..=MOST_HEAD).contains(&step))?;
    Ok((variable, step))
}

pub fn play(case: &Case) -> Answer {
    let refused = |Refusal(number)| Answer { number, ..Answer::default() };
    if case.script.len() > MOST_BYTES || case.capacity as usize > MOST_BYTES {
        return refused(Refusal(1));
    }
    let mut reader = Reader { rest: &case.script };
    let (first_variable, first_step) = match head(&mut reader) {
        Ok(numbers) => numbers,
        Err(refusal) => return refused(refusal),
    };
    let mut counters = Counters::new(first_variable, first_step);
    let mut desk = Desk { first_variable, leaves: vec![], below: vec![], closed: false };
    let mut answer = Answer::default();
    while !reader.rest.is_empty() {
        let result = command(&mut reader, case.capacity, &mut desk, &mut counters);
        answer.place += 1;
        if let Err(Refusal(number)) = result {
            answer.number = number;
            break;
        }
        answer.length = counters.log_length() as u32;
        answer.steps = counters.steps();
        answer.clauses = counters.clauses();
        answer.nodes = counters.nodes();
    }
    answer.log = counters.log();
    answer.log.truncate(answer.length as usize);
    answer
}
