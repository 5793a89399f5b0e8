//! Holds the product against the reference on named and generated cases.

use compare::judge::kind::Kind;
use compare::judge::met::Met;
use compare::judge::{bounds, groups, Sizes};
use compare::report::Report;
use std::process::ExitCode;

const USAGE: &str = "judge [--settlings N] [--tables N] [--traces N] [--reports N]
      [--states N] [--times N] [--seed S]
judge --case KIND SEED";

struct Options {
    sizes: Sizes,
    seed: u64,
    case: Option<(String, u64)>,
}

fn number(words: &mut impl Iterator<Item = String>) -> Result<u64, String> {
    let word = words.next().ok_or("a number is missing")?;
    word.parse().map_err(|_| format!("{word} is no number"))
}

fn options(mut words: impl Iterator<Item = String>) -> Result<Options, String> {
    let mut options = Options {
        sizes: Sizes {
            settlings: 200_000,
            tables: 100_000,
            traces: 4_000,
            reports: 400,
            states: 30_000,
        },
        seed: 1,
        case: None,
    };
    let mut times = 1;
    while let Some(word) = words.next() {
        match word.as_str() {
            "--times" => times = number(&mut words)?,
            "--settlings" => options.sizes.settlings = number(&mut words)?,
            "--tables" => options.sizes.tables = number(&mut words)?,
            "--traces" => options.sizes.traces = number(&mut words)?,
            "--reports" => options.sizes.reports = number(&mut words)?,
            "--states" => options.sizes.states = number(&mut words)?,
            "--seed" => options.seed = number(&mut words)?,
            "--case" => {
                let kind = words.next().ok_or("a kind is missing")?;
                options.case = Some((kind, number(&mut words)?));
            }
            _ => return Err(format!("{word} is no option")),
        }
    }
    options.sizes = options.sizes.times(times);
    Ok(options)
}

fn repeat_case(kinds: &[Kind], name: &str, seed: u64) -> Result<Report, String> {
    let kind = kinds.iter().find(|kind| kind.name == name);
    let kind = kind.ok_or(format!("{name} is no kind"))?;
    let mut report = Report::new();
    let outcome = kind.run_case(seed, &mut Met::nothing(bounds()));
    report.test(name, outcome, &kind.command(seed));
    Ok(report)
}

/// What no case met is a failure of the cases.
fn judge_met(name: &str, times: u64, seed: u64, report: &mut Report) {
    let outcome = match times {
        0 => Err("never met".to_string()),
        _ => Ok(()),
    };
    report.test(name, outcome, &format!("compare/run --seed {seed}"));
}

fn judge_all_met(met: &Met, seed: u64, report: &mut Report) {
    for (number, times) in met.all() {
        println!("number {number:2} met {times} times");
        judge_met(&format!("number-{number}-is-met"), times, seed, report);
    }
    for (bound, times) in met.bounds_reached() {
        println!("{bound} reached its bound {times} times");
        judge_met(&format!("{bound}-is-reached"), times, seed, report);
    }
}

fn run(options: Options) -> Result<Report, String> {
    let groups = groups(&options.sizes);
    if let Some((name, seed)) = &options.case {
        let kinds: Vec<Kind> = groups.into_iter().flat_map(|group| group.kinds).collect();
        return repeat_case(&kinds, name, *seed);
    }
    println!("seed {}", options.seed);
    let mut report = Report::new();
    let mut met = Met::nothing(bounds());
    for group in &groups {
        group.run(options.seed, &mut met, &mut report);
    }
    judge_all_met(&met, options.seed, &mut report);
    Ok(report)
}

fn main() -> ExitCode {
    match options(std::env::args().skip(1)).and_then(run) {
        Ok(report) => report.finish(),
        Err(what) => {
            eprintln!("{what}\n{USAGE}");
            ExitCode::FAILURE
        }
    }
}
