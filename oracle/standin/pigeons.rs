//! Stand-in for `pigeons`, the proof writer that rustsat calls. It records the log of document 01 in
//! place of a VeriPB file: sums as records of kind 1, derivations as kind 2, deletions as kind 4.
//!
//! Steps are numbered one by one. A derivation is written left operand, right operand, operation;
//! adding the empty sequence or multiplying by 1 writes nothing, multiplying by 0 gives the empty
//! sequence. What the log has no token for panics.

use std::{
    fmt, io,
    marker::PhantomData,
    ops::{Add, AddAssign, Div, Mul},
};

/// Groups of seven bits, low group first, top bit set where another follows.
pub fn write_number<W: io::Write>(out: &mut W, number: u64) -> io::Result<()> {
    let mut rest = number;
    while rest >= 128 {
        out.write_all(&[(rest % 128 + 128) as u8])?;
        rest /= 128;
    }
    out.write_all(&[rest as u8])
}

fn write_all_numbers<W: io::Write>(out: &mut W, numbers: &[u64]) -> io::Result<()> {
    numbers.iter().try_for_each(|n| write_number(out, *n))
}

/// The step of a constraint.
#[derive(Debug, Clone, Copy, PartialEq, Eq, PartialOrd, Ord, Hash)]
pub struct AbsConstraintId(pub u64);

#[derive(Debug, Clone, Copy)]
pub struct ConstraintId(AbsConstraintId);

impl From<AbsConstraintId> for ConstraintId {
    fn from(id: AbsConstraintId) -> Self {
        ConstraintId(id)
    }
}

/// A literal axiom; the number is 2 times the variable, plus 1 if negated.
#[derive(Debug, Clone, Copy, PartialEq, Eq)]
pub struct Axiom<V> {
    literal: u64,
    variable: PhantomData<V>,
}

/// A variable fixed to a truth value: the literal made true.
#[derive(Debug, Clone, Copy)]
pub struct Substitution<V>(Axiom<V>);

/// Subproofs of a redundance step. rustsat gives none here.
#[derive(Debug, Clone, Copy)]
pub enum ProofGoal {}

pub trait VarLike: Sized + Copy {
    /// Prints the variable `v` as `x` and `v + 1`.
    type Formatter: fmt::Display + From<Self>;

    fn axiom(self, negated: bool) -> Axiom<Self> {
        let name = Self::Formatter::from(self).to_string();
        let place: u64 = name[1..].parse().expect("a variable prints as x and a number");
        Axiom { literal: 2 * (place - 1) + u64::from(negated), variable: PhantomData }
    }

    fn pos_axiom(self) -> Axiom<Self> {
        self.axiom(false)
    }

    fn neg_axiom(self) -> Axiom<Self> {
        self.axiom(true)
    }

    fn substitute_fixed(self, value: bool) -> Substitution<Self> {
        Substitution(self.axiom(!value))
    }
}

pub trait ConstraintLike<V: VarLike> {
    fn rhs(&self) -> isize;
    fn sum_iter(&self) -> impl Iterator<Item = (isize, Axiom<V>)>;
}

#[derive(Debug, Clone, Copy, PartialEq, Eq)]
enum Token {
    Step(u64),
    Literal(u64),
    Add,
    Divide(u64),
    Saturate,
}

/// A derivation in postfix order.
#[derive(Debug, Clone, PartialEq, Eq)]
pub struct OperationSequence<V> {
    tokens: Vec<Token>,
    variable: PhantomData<V>,
}

impl<V> OperationSequence<V> {
    fn of(tokens: Vec<Token>) -> Self {
        OperationSequence { tokens, variable: PhantomData }
    }

    #[must_use]
    pub fn empty() -> Self {
        Self::of(vec![])
    }
}

impl<V> From<AbsConstraintId> for OperationSequence<V> {
    fn from(id: AbsConstraintId) -> Self {
        Self::of(vec![Token::Step(id.0)])
    }
}

impl<V> From<Axiom<V>> for OperationSequence<V> {
    fn from(axiom: Axiom<V>) -> Self {
        Self::of(vec![Token::Literal(axiom.literal)])
    }
}

/// What can be an operand.
pub trait OperationLike<V>: Into<OperationSequence<V>> {
    #[must_use]
    fn saturate(self) -> OperationSequence<V> {
        let mut sequence = self.into();
        assert!(!sequence.tokens.is_empty(), "nothing to saturate");
        sequence.tokens.push(Token::Saturate);
        sequence
    }
}

impl<V> OperationLike<V> for OperationSequence<V> {}
impl<V> OperationLike<V> for AbsConstraintId {}
impl<V> OperationLike<V> for Axiom<V> {}

impl<V, R: OperationLike<V>> AddAssign<R> for OperationSequence<V> {
    fn add_assign(&mut self, right: R) {
        let right = right.into();
        if right.tokens.is_empty() {
            return;
        }
        let first = self.tokens.is_empty();
        self.tokens.extend(right.tokens);
        if !first {
            self.tokens.push(Token::Add);
        }
    }
}

impl<V, R: OperationLike<V>> Add<R> for OperationSequence<V> {
    type Output = OperationSequence<V>;

    fn add(mut self, right: R) -> Self::Output {
        self += right;
        self
    }
}

impl<V, R: OperationLike<V>> Add<R> for Axiom<V> {
    type Output = OperationSequence<V>;

    fn add(self, right: R) -> Self::Output {
        OperationSequence::from(self) + right
    }
}

impl<V> Add<Axiom<V>> for AbsConstraintId {
    type Output = OperationSequence<V>;

    fn add(self, right: Axiom<V>) -> Self::Output {
        OperationSequence::from(self) + right
    }
}

impl<V> Add<OperationSequence<V>> for AbsConstraintId {
    type Output = OperationSequence<V>;

    fn add(self, right: OperationSequence<V>) -> Self::Output {
        OperationSequence::from(self) + right
    }
}

impl<V> Div<usize> for OperationSequence<V> {
    type Output = OperationSequence<V>;

    fn div(mut self, divisor: usize) -> Self::Output {
        assert!(!self.tokens.is_empty(), "nothing to divide");
        self.tokens.push(Token::Divide(divisor as u64));
        self
    }
}

impl<V> Mul<usize> for OperationSequence<V> {
    type Output = OperationSequence<V>;

    fn mul(self, factor: usize) -> Self::Output {
        match factor {
            0 => OperationSequence::empty(),
            1 => self,
            _ => panic!("the log has no token for a multiplication by {factor}"),
        }
    }
}

impl<V> Mul<usize> for Axiom<V> {
    type Output = OperationSequence<V>;

    fn mul(self, factor: usize) -> Self::Output {
        OperationSequence::from(self) * factor
    }
}

/// Writes records and numbers steps.
#[derive(Debug)]
pub struct Proof<W> {
    log: W,
    next_step: u64,
}

impl<W: io::Write> Proof<W> {
    pub fn new(log: W, first_step: u64) -> Self {
        Proof { log, next_step: first_step }
    }

    #[must_use]
    pub fn next_step(&self) -> u64 {
        self.next_step
    }

    fn number_step(&mut self) -> AbsConstraintId {
        let id = AbsConstraintId(self.next_step);
        self.next_step += 1;
        id
    }

    /// Kind 1: witness, count, terms, bound. The witness is the literal made true plus 1, or 0.
    pub fn redundant<V, C, S, G>(
        &mut self,
        constraint: &C,
        witness: S,
        goals: G,
    ) -> io::Result<AbsConstraintId>
    where
        V: VarLike,
        C: ConstraintLike<V>,
        S: IntoIterator<Item = Substitution<V>>,
        G: IntoIterator<Item = ProofGoal>,
    {
        assert!(goals.into_iter().next().is_none());
        let mut witness = witness.into_iter();
        let made_true = witness.next().map_or(0, |s| s.0.literal + 1);
        assert!(witness.next().is_none(), "the log has room for one witness");
        let terms: Vec<_> = constraint.sum_iter().collect();
        write_all_numbers(&mut self.log, &[1, made_true, terms.len() as u64])?;
        for (coefficient, axiom) in terms {
            let coefficient = u64::try_from(coefficient).expect("no negative coefficient");
            write_all_numbers(&mut self.log, &[coefficient, axiom.literal])?;
        }
        let bound = u64::try_from(constraint.rhs()).expect("no negative bound");
        write_number(&mut self.log, bound)?;
        Ok(self.number_step())
    }

    /// Kind 2: count, tokens.
    pub fn operations<V>(&mut self, sequence: &OperationSequence<V>) -> io::Result<AbsConstraintId> {
        write_all_numbers(&mut self.log, &[2, sequence.tokens.len() as u64])?;
        for token in &sequence.tokens {
            match *token {
                Token::Step(step) => write_all_numbers(&mut self.log, &[0, step])?,
                Token::Literal(literal) => write_all_numbers(&mut self.log, &[1, literal])?,
                Token::Add => write_number(&mut self.log, 2)?,
                Token::Divide(divisor) => write_all_numbers(&mut self.log, &[3, divisor])?,
                Token::Saturate => write_number(&mut self.log, 4)?,
            }
        }
        Ok(self.number_step())
    }

    /// Kind 4: count, steps. rustsat gives them in the order of a hash map; the log has them ascending.
    pub fn delete_ids<V, C, I, G>(&mut self, ids: I, goals: G) -> io::Result<()>
    where
        V: VarLike,
        C: ConstraintLike<V>,
        I: IntoIterator<Item = ConstraintId>,
        G: IntoIterator<Item = ProofGoal>,
    {
        assert!(goals.into_iter().next().is_none());
        let mut steps: Vec<_> = ids.into_iter().map(|id| id.0 .0).collect();
        steps.sort_unstable();
        write_all_numbers(&mut self.log, &[4, steps.len() as u64])?;
        write_all_numbers(&mut self.log, &steps)
    }
}
