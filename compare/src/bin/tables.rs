//! Simulates document 001's bus with the product as its arbiter, and holds what comes out against
//! the document's tables 4.1 and 4.2.
//!
//! `tables full` runs all rows in the document's own design; `tables short` a few rows in smaller
//! batches. `--seed S` changes the random numbers; `--agents N` and `--load L` pick out one row.

#[path = "../tables/arbiter.rs"]
mod arbiter;
#[path = "../tables/batches.rs"]
mod batches;
#[path = "../tables/bus.rs"]
mod bus;
#[path = "../tables/comparison.rs"]
mod comparison;
#[path = "../tables/controls.rs"]
mod controls;
#[path = "../tables/load.rs"]
mod load;
#[path = "../tables/options.rs"]
mod options;
#[path = "../tables/published.rs"]
mod published;
#[path = "../tables/row.rs"]
mod row;
#[path = "../tables/runs.rs"]
mod runs;
#[path = "../tables/tolerance.rs"]
mod tolerance;

use compare::report::Report;
use comparison::Comparison;
use options::{Options, USAGE};
use published::{loads, System, SYSTEMS};
use row::Row;
use std::process::ExitCode;

fn print_table(title: &str, agents: usize, rows: &[Row], columns: fn(&Row) -> &Vec<Comparison>) {
    let Some(first) = rows.first() else { return };
    println!("\n{title}, {agents} agents: printed, then simulated");
    let heads: String = columns(first).iter().map(Comparison::head).collect();
    println!("load{}", heads.trim_end());
    for row in rows {
        let cells: String = columns(row).iter().map(Comparison::cell).collect();
        println!("{}{}", row.load, cells.trim_end());
    }
}

fn test_system(report: &mut Report, options: &Options, system: &System) {
    let mut rows = Vec::new();
    for load in loads(system.bandwidth) {
        if !options.takes(system.agents, load) {
            continue;
        }
        let repeat = options.repeat(system.agents, load);
        match Row::simulate(system, load, options.mode.batch_size, options.seed) {
            Ok(row) => rows.push((row, repeat)),
            Err(what) => {
                let name = format!("{} agents, load {load}", system.agents);
                report.test(&name, Err(what), &repeat);
            }
        }
    }
    report_rows(report, system.agents, rows);
}

fn report_rows(report: &mut Report, agents: usize, rows: Vec<(Row, String)>) {
    let (rows, repeats): (Vec<Row>, Vec<String>) = rows.into_iter().unzip();
    print_table("Table 4.1", agents, &rows, |row| &row.bandwidth);
    print_table("Table 4.2", agents, &rows, |row| &row.waits);
    for (row, repeat) in rows.iter().zip(&repeats) {
        for comparison in row.bandwidth.iter().chain(&row.waits) {
            let name = format!("{agents} agents, load {}, {}", row.load, comparison.name);
            report.test(&name, comparison.outcome(), repeat);
        }
        for control in &row.controls {
            let name = format!("{agents} agents, load {}, {}", row.load, control.name);
            report.test(&name, control.must_differ(), repeat);
        }
    }
}

fn run(options: &Options) -> ExitCode {
    let (batches, size) = (batches::BATCHES, options.mode.batch_size);
    println!(
        "{batches} batches of {size} transactions, seed {}",
        options.seed
    );
    let mut report = Report::new();
    for system in &SYSTEMS {
        test_system(&mut report, options, system);
    }
    println!();
    report.finish()
}

fn main() -> ExitCode {
    let words: Vec<String> = std::env::args().skip(1).collect();
    match Options::read(&words) {
        Some(options) => run(&options),
        None => {
            eprintln!("{USAGE}");
            ExitCode::FAILURE
        }
    }
}
