//! The comparison with rustsat 0.7.5: plays scripts on the real `define_unweighted_cert`, behind document 01's
//! questions, and makes random scripts and recorded answers. `oracle` alone prints its commands.

mod checker;
mod counters;
mod desk;
mod differences;
mod format;
mod generate;
mod random;
mod record;
mod refusals;
mod speed;

use std::{
    collections::BTreeMap,
    fmt,
    io::{self, Read, Write},
    process::ExitCode,
};

use checker::check;
use desk::play;
use format::{get_answer, get_case, hex, put, put_answer, put_case, Answer, Case, Reader};
use random::Random;

const USAGE: &str =
    "oracle play [LOG-LENGTH]      a script from standard input: the answer and the log in words
oracle run SEED COUNT         plays random scripts and checks their logs; prints what came out
oracle generate SEED COUNT    writes random cases
oracle fresh SEED COUNT       writes random scripts, each with logs around the length it takes and with damage, answered
oracle answer                 cases from standard input: writes them with their answers
oracle record                 writes the recorded answers
oracle check                  recorded answers from standard input: plays and compares each
oracle differences            what rustsat does where document 01 differs
oracle script NAME            writes a script of bench/run
oracle time ROUNDS            a script from standard input: the answer, the log, the nanoseconds of a play";

fn standard_input() -> Vec<u8> {
    let mut bytes = vec![];
    io::stdin().read_to_end(&mut bytes).expect("standard input reads");
    bytes
}

fn write_out(bytes: &[u8]) {
    io::stdout().write_all(bytes).expect("standard output takes the bytes");
}

/// How many scripts were accepted and how many refused by each number, how many of the accepted have a node under several
/// joins, and what all wrote.
#[derive(Default)]
struct Answered {
    by_number: BTreeMap<u32, u32>,
    shared: u32,
    bytes: u64,
    clauses: u64,
}

impl Answered {
    fn add(&mut self, case: &Case, answer: &Answer) {
        *self.by_number.entry(answer.number).or_default() += 1;
        self.shared += u32::from(answer.number == 0 && generate::has_shared_node(&case.script));
        self.bytes += u64::from(answer.length);
        self.clauses += u64::from(answer.clauses);
    }
}

impl fmt::Display for Answered {
    fn fmt(&self, f: &mut fmt::Formatter<'_>) -> fmt::Result {
        for (number, count) in &self.by_number {
            match number {
                0 => write!(f, "{count} accepted, {} of them with a node under several joins", self.shared)?,
                _ => write!(f, ", {count} refused by {number}")?,
            }
        }
        write!(f, "; {} bytes of log, {} clauses", self.bytes, self.clauses)
    }
}

/// Every record of the log reads, every derivation works out, every clause is its step's sum.
fn check_answer(case: &Case, answer: &Answer) -> Result<(), String> {
    match generate::first_step(&case.script) {
        Some(first_step) => check(&answer.log, first_step),
        None => Ok(()),
    }
}

fn show(capacity: u32) {
    let case = Case { script: standard_input(), capacity };
    let answer = play(&case);
    println!("answer {:?}", answer.numbers());
    println!("log {}", hex(&answer.log));
    differences::show_log(&answer.log).iter().for_each(|line| println!("  {line}"));
}

fn time(rounds: usize) {
    let case = Case { script: standard_input(), capacity: generate::WHOLE_LOG };
    let answer = play(&case);
    println!("answer {:?}", answer.numbers());
    println!("log {}", hex(&answer.log));
    println!("time {}", speed::time(&case, rounds));
}

fn random_cases(seed: u64, count: u32) -> impl Iterator<Item = Case> {
    let mut random = Random::new(seed);
    (0..count).map(move |_| generate::case(&mut random, 64))
}

fn run(seed: u64, count: u32) -> ExitCode {
    println!("seed {seed}, {count} scripts");
    let mut answered = Answered::default();
    for case in random_cases(seed, count) {
        let answer = play(&case);
        if let Err(fault) = check_answer(&case, &answer) {
            println!("{fault}\nscript {}", hex(&case.script));
            return ExitCode::FAILURE;
        }
        answered.add(&case, &answer);
    }
    println!("{answered}; every clause is its step's sum");
    ExitCode::SUCCESS
}

fn generate_cases(seed: u64, count: u32) {
    let mut out = vec![];
    put(&mut out, count);
    random_cases(seed, count).for_each(|case| put_case(&mut out, &case));
    write_out(&out);
}

fn put_recorded(list: &[(Case, Answer)]) {
    let mut out = vec![];
    put(&mut out, list.len() as u32);
    for (case, answer) in list {
        put_case(&mut out, case);
        put_answer(&mut out, answer);
    }
    write_out(&out);
}

fn fresh_cases(seed: u64, count: u32) {
    let mut random = Random::new(seed);
    let mut out = vec![];
    put(&mut out, count * generate::AROUND);
    for _ in 0..count {
        for (case, answer) in generate::around(&mut random) {
            put_case(&mut out, &case);
            put_answer(&mut out, &answer);
        }
        write_out(&out);
        out.clear();
    }
}

fn answer_cases() {
    let input = standard_input();
    let mut reader = Reader { rest: &input };
    let count = reader.number().expect("a file of cases");
    let cases = (0..count).map(|_| get_case(&mut reader).expect("a file of cases"));
    let list: Vec<_> = cases.map(|case| (case.clone(), play(&case))).collect();
    assert!(reader.rest.is_empty(), "bytes after the last case");
    put_recorded(&list);
}

fn check_recorded() -> ExitCode {
    let input = standard_input();
    let mut reader = Reader { rest: &input };
    let mut answered = Answered::default();
    let count = reader.number().unwrap_or(0);
    for place in 1..=count {
        let recorded = get_case(&mut reader).and_then(|case| Some((case, get_answer(&mut reader)?)));
        let Some((case, recorded)) = recorded else {
            println!("case {place} does not read");
            return ExitCode::FAILURE;
        };
        let answer = play(&case);
        let checked = check_answer(&case, &answer);
        if answer != recorded || checked.is_err() {
            println!("case {place} differs: script {}", hex(&case.script));
            println!("recorded {:?} {}", recorded.numbers(), hex(&recorded.log));
            println!("rustsat  {:?} {}", answer.numbers(), hex(&answer.log));
            println!("{}", checked.err().unwrap_or_default());
            return ExitCode::FAILURE;
        }
        answered.add(&case, &answer);
    }
    if count == 0 || !reader.rest.is_empty() {
        println!("no recorded answers, or bytes after the last");
        return ExitCode::FAILURE;
    }
    println!("recorded answers: {answered}; no difference");
    ExitCode::SUCCESS
}

fn main() -> ExitCode {
    let arguments: Vec<String> = std::env::args().skip(1).collect();
    let words: Vec<&str> = arguments.iter().map(String::as_str).collect();
    let seed_and_count = |seed: &str, count: &str| Some((seed.parse().ok()?, count.parse().ok()?));
    match words[..] {
        ["play"] => show(generate::WHOLE_LOG),
        ["play", length] if length.parse::<u32>().is_ok() => show(length.parse().expect("a number")),
        ["run", seed, count] if seed_and_count(seed, count).is_some() => {
            let (seed, count) = seed_and_count(seed, count).expect("two numbers");
            return run(seed, count);
        }
        ["generate", seed, count] if seed_and_count(seed, count).is_some() => {
            let (seed, count) = seed_and_count(seed, count).expect("two numbers");
            generate_cases(seed, count);
        }
        ["fresh", seed, count] if seed_and_count(seed, count).is_some() => {
            let (seed, count) = seed_and_count(seed, count).expect("two numbers");
            fresh_cases(seed, count);
        }
        ["answer"] => answer_cases(),
        ["record"] => put_recorded(&record::list()),
        ["check"] => return check_recorded(),
        ["differences"] => differences::print(),
        ["script", name] if speed::script(name).is_some() => {
            write_out(&speed::script(name).expect("a script's name"));
        }
        ["time", rounds] if rounds.parse::<usize>().is_ok_and(|n| n > 0) => {
            time(rounds.parse().expect("a number"));
        }
        _ => {
            eprintln!("{USAGE}");
            return ExitCode::FAILURE;
        }
    }
    ExitCode::SUCCESS
}
