//! Prints how many stages an arbitration takes at most, for each rule and width: the lines, which
//! are the bound, and the most stages that were found. The first table is of runs from a fresh
//! state, the second of the states in such runs with anything on the lines.
//!
//! `--check FILE` holds the tables of a document against the printed ones.

#[path = "../timer/built.rs"]
mod built;
#[path = "../timer/cell.rs"]
mod cell;
#[path = "../timer/run.rs"]
mod run;
#[path = "../timer/walk.rs"]
mod walk;

use cell::Cell;
use compare::rackstate::Shared;
use compare::report::Report;
use std::fs;
use std::process::ExitCode;

const USAGE: &str = "compare/timer [--check FILE]";

/// Each rule by number, with what its row says of the lines.
const ROWS: [&str; 5] = [
    "0 fixed | k",
    "1 round-robin | k + 1",
    "2 arrival | 2k",
    "3 batch | k",
    "4 inhibit | k",
];

const HEAD: [&str; 2] = [
    "| Rule | Lines m | k = 1 | k = 2 | k = 3 | k = 4 | k = 5 | k = 6 |",
    "|---|---|---|---|---|---|---|---|",
];

fn repeat(check: Option<&str>) -> String {
    match check {
        Some(file) => format!("compare/timer --check {file}"),
        None => "compare/timer".to_string(),
    }
}

/// The rule's rows in both tables.
fn rows(number: u8, program: &Shared, repeat: &str, report: &mut Report) -> [String; 2] {
    let head = format!("| {} |", ROWS[usize::from(number)]);
    let mut rows = [head.clone(), head];
    for k in 1..=6 {
        let cell = Cell::of(number, k);
        let name = format!("rule {number}, k = {k}");
        report.test(&name, cell.hold(), repeat);
        let from_any = format!("{name}, anything on the lines");
        report.test(&from_any, cell.hold_from_any(program), repeat);
        rows[0] += &format!(" {} |", cell.shown());
        rows[1] += &format!(" {} |", cell.shown_from_any());
    }
    rows
}

fn table(rows: impl Iterator<Item = String>) -> Vec<String> {
    HEAD.map(str::to_string).into_iter().chain(rows).collect()
}

/// The document has these tables and no other.
fn in_document(file: &str, tables: &[Vec<String>; 2]) -> Result<(), String> {
    let text = fs::read_to_string(file).map_err(|error| format!("{file}: {error}"))?;
    let rows: Vec<&str> = text.lines().filter(|line| line.starts_with('|')).collect();
    if rows == tables.concat() {
        return Ok(());
    }
    Err(format!("{file} has\n{}", rows.join("\n")))
}

fn run(check: Option<&str>) -> ExitCode {
    let repeat = repeat(check);
    let mut report = Report::new();
    let program = Shared::default();
    let rows = (0..ROWS.len() as u8).map(|number| rows(number, &program, &repeat, &mut report));
    let rows: Vec<[String; 2]> = rows.collect();
    let tables = [0, 1].map(|which| table(rows.iter().map(|both| both[which].clone())));
    for table in &tables {
        println!("{}\n", table.join("\n"));
    }
    if let Some(file) = check {
        let outcome = in_document(file, &tables);
        report.test("the document's tables", outcome, &repeat);
    }
    report.finish()
}

fn main() -> ExitCode {
    let words: Vec<String> = std::env::args().skip(1).collect();
    match words.iter().map(String::as_str).collect::<Vec<_>>()[..] {
        [] => run(None),
        ["--check", file] => run(Some(file)),
        _ => {
            eprintln!("{USAGE}");
            ExitCode::FAILURE
        }
    }
}
