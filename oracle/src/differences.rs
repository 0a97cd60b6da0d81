//! What rustsat does with commands that the documents refuse or settle another way: each played with the
//! questions off. docs/DIFFERENCES.md quotes what this prints.

use std::panic::{catch_unwind, AssertUnwindSafe};

use crate::{
    checker::{check, get_record, Record},
    counters::Counters,
    desk::{act, play},
    format::{hex, Answer, Case, Command, Reader},
    generate::{first_step, WHOLE_LOG},
    refusals::{many_joins, many_leaves},
};

/// Two leaves and their join, node 2 of length 2, on the variables 2 and 3.
const PAIR: &[u8] = &[2, 1, 1, 0, 1, 2, 2, 0, 0, 0, 1, 0, 0];
/// Three leaves and the join of the first two, node 3 of length 2, on the variables 3 and 4.
const PAIR_AND_LEAF: &[u8] = &[3, 1, 1, 0, 1, 2, 1, 4, 2, 0, 0, 0, 1, 0, 0];

/// Four leaves; node 5 joins the first three, node 6 takes its outputs from the second on, node 7 the same by a limit.
const WINDOWS: &[u8] = &[
    4, 1, 1, 0, 1, 2, 1, 4, 1, 6, 2, 0, 0, 0, 1, 0, 0, 2, 4, 0, 0, 2, 0, 0, //
    2, 5, 1, 0, 3, 0, 0, 2, 5, 1, 2, 3, 0, 0, 3, 6, 2, 1, 3, 7, 2, 1,
];

/// Of a script so many bytes are shown.
const SHOWN: usize = 200;

/// A title, and the smallest script that shows the difference, or what the documents leave to rustsat.
fn differences() -> Vec<(&'static str, Vec<u8>)> {
    let on_pair = |rest: &[u8]| [PAIR, rest].concat();
    let on_both = |rest: &[u8]| [PAIR_AND_LEAF, rest].concat();
    vec![
        ("a limit that is the node's length (document 02, §3)", on_both(&[2, 3, 0, 2, 2, 0, 0, 3, 4, 1, 1])),
        ("a limit that is a leaf's length (document 02, §3)", vec![2, 1, 1, 0, 1, 2, 2, 0, 0, 1, 1, 0, 0, 3, 2, 1, 1]),
        ("a limit past the node (question 10)", on_both(&[2, 3, 0, 3, 2, 0, 0, 3, 4, 1, 1])),
        ("a limit past the rest of the node (question 10)", on_both(&[2, 3, 1, 2, 2, 0, 0, 3, 4, 1, 1])),
        ("an offset equal to the length (question 10)", on_both(&[2, 3, 2, 0, 2, 0, 0, 3, 4, 1, 1])),
        ("a request after a close (question 4)", on_pair(&[3, 2, 1, 1, 4, 3, 2, 1, 2])),
        (
            "a leaf variable among the outputs (question 6)",
            vec![1, 1, 1, 0, 1, 2, 2, 0, 0, 0, 1, 0, 0, 3, 2, 1, 1],
        ),
        ("a leaf and its negation (question 7)", vec![2, 1, 1, 0, 1, 1, 2, 0, 0, 0, 1, 0, 0, 3, 2, 1, 1]),
        ("a 65th leaf (question 7)", many_leaves(65)),
        ("one node on both sides (question 9)", vec![2, 1, 1, 0, 2, 0, 0, 0, 0, 0, 0, 3, 1, 1, 1]),
        ("a leaf and a join over it (question 9)", on_pair(&[2, 2, 0, 0, 0, 0, 0, 3, 3, 1, 1])),
        ("a leaf and a window of a join over it (question 9)", on_pair(&[2, 2, 1, 0, 0, 0, 0, 3, 3, 1, 1])),
        ("a 256th join (question 15)", many_joins(256)),
        ("two windows of the same outputs, one by a limit (document 02, §5)", WINDOWS.to_vec()),
        ("value 0 (question 11)", on_pair(&[3, 2, 0, 1])),
        ("the value one above the last (question 11)", on_pair(&[3, 2, 3, 1])),
        ("a leaf's value 2 (question 11)", vec![2, 1, 1, 0, 3, 0, 2, 1]),
    ]
}

/// All commands, with no question put. The scripts are whole.
fn play_unasked(script: &[u8]) -> Counters {
    let mut reader = Reader { rest: script };
    let mut next = || reader.number().expect("a whole script");
    let mut counters = Counters::new(next(), next());
    while !reader.rest.is_empty() {
        let code = reader.number().expect("a whole script");
        act(Command::arguments(code, &mut reader).expect("a whole script"), &mut counters);
    }
    counters
}

fn record_line(record: &Record) -> String {
    let literal = |l: &u32| format!("{}x{}", if l % 2 == 1 { "¬" } else { "" }, l / 2);
    match record {
        Record::Sum { witness, terms, bound } => {
            let terms: Vec<_> = terms.iter().map(|(c, l)| format!("{c} {}", literal(l))).collect();
            let witness = match witness {
                0 => String::new(),
                made_true => format!(", witness {}", literal(&(made_true - 1))),
            };
            format!("sum {} >= {bound}{witness}", terms.join(" + "))
        }
        Record::Derivation(tokens) => {
            let tokens = tokens.iter().map(|(token, operand)| match token {
                0 => format!("#{operand}"),
                1 => literal(operand),
                2 => "+".into(),
                3 => format!("/{operand}"),
                _ => "saturate".into(),
            });
            format!("derivation {}", tokens.collect::<Vec<_>>().join(" "))
        }
        Record::Clause { step, literals } => {
            format!("clause {} by step {step}", literals.iter().map(literal).collect::<Vec<_>>().join(" "))
        }
        Record::Close(steps) => format!("deleted {steps:?}"),
    }
}

/// The log, a record to a line.
pub fn show_log(log: &[u8]) -> Vec<String> {
    let mut reader = Reader { rest: log };
    let mut lines = vec![];
    while !reader.rest.is_empty() {
        match get_record(&mut reader) {
            Some(record) => lines.push(record_line(&record)),
            None => return [lines, vec!["no record".into()]].concat(),
        }
    }
    lines
}

fn panic_text(cause: Box<dyn std::any::Any + Send>) -> String {
    let text = cause.downcast_ref::<String>().map(String::as_str);
    let text = text.or_else(|| cause.downcast_ref::<&str>().copied()).unwrap_or("no message");
    text.lines().map(str::trim).collect::<Vec<_>>().join(" ")
}

fn print_played(counters: &Counters, script: &[u8], ours: &Answer) {
    let [steps, clauses, nodes] = [counters.steps(), counters.clauses(), counters.nodes()];
    let log = counters.log();
    if ours.number == 0 && log == ours.log {
        println!("  rustsat: the same log");
    } else {
        println!("  rustsat: {} bytes, {steps} steps, {clauses} clauses, {nodes} nodes", log.len());
        show_log(&log).iter().for_each(|line| println!("    {line}"));
    }
    let first_step = first_step(script).expect("a whole script");
    let verdict = check(&log, first_step).err().unwrap_or("every clause is its step's sum".into());
    println!("  checked: {verdict}");
}

pub fn print() {
    let assertions = if cfg!(debug_assertions) { "on" } else { "off" };
    println!("rustsat with debug assertions {assertions}");
    std::panic::set_hook(Box::new(|_| ()));
    for (title, script) in differences() {
        let cut = if script.len() > SHOWN { " .." } else { "" };
        println!("\n{title}\n  script {}{cut}", hex(&script[..script.len().min(SHOWN)]));
        let ours = play(&Case { script: script.clone(), capacity: WHOLE_LOG });
        println!("  documents: {} at {}", ours.number, ours.place);
        if ours.number == 0 {
            println!("  {} bytes, {} steps, {} clauses, {} nodes", ours.length, ours.steps, ours.clauses, ours.nodes);
            show_log(&ours.log).iter().for_each(|line| println!("    {line}"));
        }
        match catch_unwind(AssertUnwindSafe(|| play_unasked(&script))) {
            Err(cause) => println!("  rustsat: panics: {}", panic_text(cause)),
            Ok(counters) => print_played(&counters, &script, &ours),
        }
    }
}
