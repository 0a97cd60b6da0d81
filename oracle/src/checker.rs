//! Works out every derivation of a log by the cutting-planes rules and holds each clause to its step's sum.
//! Sums are kept in normal form: one term per variable, positive coefficients, a bound that falls below 0
//! counts as 0.

use std::collections::BTreeMap;

use crate::format::Reader;

/// Terms by variable: the literal and its coefficient.
#[derive(Clone, PartialEq, Eq, Default)]
pub struct Sum {
    terms: BTreeMap<u32, (u32, i64)>,
    bound: i64,
}

impl Sum {
    /// Adds a term, cancelling a literal against its negation: x + ¬x = 1.
    fn add_term(&mut self, coefficient: i64, literal: u32) {
        let variable = literal / 2;
        let (held, old) = self.terms.get(&variable).copied().unwrap_or((literal, 0));
        let new = if held == literal {
            (held, old + coefficient)
        } else {
            self.bound -= old.min(coefficient);
            let kept = if old >= coefficient { held } else { literal };
            (kept, (old - coefficient).abs())
        };
        self.terms.insert(variable, new);
        self.terms.retain(|_, term| term.1 > 0);
    }

    fn of(terms: impl IntoIterator<Item = (i64, u32)>, bound: i64) -> Self {
        let mut sum = Sum { bound, ..Sum::default() };
        terms.into_iter().for_each(|(coefficient, literal)| sum.add_term(coefficient, literal));
        sum.bound = sum.bound.max(0);
        sum
    }

    fn pairs(&self) -> impl Iterator<Item = (i64, u32)> + '_ {
        self.terms.values().map(|(literal, coefficient)| (*coefficient, *literal))
    }

    fn plus(&self, other: &Sum) -> Self {
        Sum::of(self.pairs().chain(other.pairs()), self.bound + other.bound)
    }

    fn over(&self, divisor: i64) -> Self {
        let up = |x: i64| (x + divisor - 1) / divisor;
        Sum::of(self.pairs().map(|(c, l)| (up(c), l)), up(self.bound))
    }

    fn saturated(&self) -> Self {
        Sum::of(self.pairs().map(|(c, l)| (c.min(self.bound), l)), self.bound)
    }
}

impl std::fmt::Display for Sum {
    fn fmt(&self, f: &mut std::fmt::Formatter<'_>) -> std::fmt::Result {
        for (coefficient, literal) in self.pairs() {
            let sign = if literal % 2 == 1 { "¬" } else { "" };
            write!(f, "{coefficient} {sign}x{} ", literal / 2)?;
        }
        write!(f, ">= {}", self.bound)
    }
}

/// One record of a log.
pub enum Record {
    Sum { witness: u32, terms: Vec<(i64, u32)>, bound: i64 },
    Derivation(Vec<(u32, u32)>),
    Clause { step: u32, literals: Vec<u32> },
    Close(Vec<u32>),
}

fn get_list<'a, T>(reader: &mut Reader<'a>, get: impl Fn(&mut Reader<'a>) -> Option<T>) -> Option<Vec<T>> {
    let count = reader.number()?;
    (0..count).map(|_| get(reader)).collect()
}

/// The next record, or nothing where the bytes are no record.
pub fn get_record(reader: &mut Reader) -> Option<Record> {
    Some(match reader.number()? {
        1 => Record::Sum {
            witness: reader.number()?,
            terms: get_list(reader, |r| Some((i64::from(r.number()?), r.number()?)))?,
            bound: i64::from(reader.number()?),
        },
        2 => Record::Derivation(get_list(reader, |r| {
            let token = r.number()?;
            let operand = if matches!(token, 0 | 1 | 3) { r.number()? } else { 0 };
            (token <= 4).then_some((token, operand))
        })?),
        3 => Record::Clause { step: reader.number()?, literals: get_list(reader, Reader::number)? },
        4 => Record::Close(get_list(reader, Reader::number)?),
        _ => return None,
    })
}

/// What a derivation comes to over the steps before it.
fn evaluate(tokens: &[(u32, u32)], first_step: u32, steps: &[Sum]) -> Result<Sum, String> {
    let mut stack: Vec<Sum> = vec![];
    for (token, operand) in tokens {
        let mut pop = || stack.pop().ok_or("an operand is missing");
        let sum = match token {
            0 => steps
                .get(operand.wrapping_sub(first_step) as usize)
                .ok_or_else(|| format!("step {operand} is not written"))?
                .clone(),
            1 => Sum::of([(1, *operand)], 0),
            2 => pop()?.plus(&pop()?),
            3 => pop()?.over(i64::from(*operand)),
            _ => pop()?.saturated(),
        };
        stack.push(sum);
    }
    match <[Sum; 1]>::try_from(stack) {
        Ok([sum]) => Ok(sum),
        Err(stack) => Err(format!("{} operands are left", stack.len())),
    }
}

/// Checks every derivation and clause of a log; the error says what is wrong and at which record.
pub fn check(log: &[u8], first_step: u32) -> Result<(), String> {
    let mut reader = Reader { rest: log };
    let mut steps: Vec<Sum> = vec![];
    let mut place = 0;
    while !reader.rest.is_empty() {
        place += 1;
        let fault = |what: String| format!("record {place}: {what}");
        match get_record(&mut reader).ok_or_else(|| fault("not a record".into()))? {
            Record::Sum { terms, bound, .. } => steps.push(Sum::of(terms, bound)),
            Record::Derivation(tokens) => {
                steps.push(evaluate(&tokens, first_step, &steps).map_err(fault)?);
            }
            Record::Clause { step, literals } => {
                let clause = Sum::of(literals.iter().map(|l| (1, *l)), 1);
                let sum = steps.get(step.wrapping_sub(first_step) as usize);
                if sum != Some(&clause) {
                    let got = sum.map_or("nothing".into(), ToString::to_string);
                    return Err(fault(format!("the clause is {clause}, its step comes to {got}")));
                }
            }
            Record::Close(deleted) => {
                let written = |s: &u32| (s.wrapping_sub(first_step) as usize) < steps.len();
                if !deleted.iter().all(written) || !deleted.is_sorted() {
                    return Err(fault("a deleted step was not written, or they do not ascend".into()));
                }
            }
        }
    }
    Ok(())
}
