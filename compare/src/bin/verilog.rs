//! Holds the product's settling against cards modelled in Verilog on wired-OR nets.
//!
//! Icarus Verilog resolves the nets, so what the product is held against is not our code.

#[path = "../verilog/lists.rs"]
mod lists;
#[path = "../verilog/model.rs"]
mod model;

use compare::entries;
use compare::judge::named_settlings::KNOWN;
use compare::report::Report;
use compare::rng::Rng;
use compare::seen_from_c;
use compare::settling::{Settled, MOST_LINES};
use model::{Case, Stages};
use std::process::ExitCode;

const PROGRAM: &str = "compare/verilog/run";
const USAGE: &str = "compare/verilog/run [--seed S] [--settlings N]
compare/verilog/run --settle M NUMBERS START    as in 4 2,5,9,10 15 or 1 none 0";

struct Options {
    seed: u64,
    settlings: u64,
    one: Option<(u32, Case)>,
}

fn number<T: std::str::FromStr>(word: Option<&str>) -> Result<T, String> {
    let word = word.ok_or("a number is missing")?;
    word.parse().map_err(|_| format!("{word} is no number"))
}

fn list(word: Option<&str>) -> Result<Vec<u16>, String> {
    match word {
        Some("none") => Ok(Vec::new()),
        Some(numbers) => numbers.split(',').map(|one| number(Some(one))).collect(),
        None => Err("the numbers are missing".to_string()),
    }
}

fn options(words: &[String]) -> Result<Options, String> {
    let mut options = Options {
        seed: 1,
        settlings: 2400,
        one: None,
    };
    let mut words = words.iter().map(String::as_str);
    while let Some(word) = words.next() {
        match word {
            "--seed" => options.seed = number(words.next())?,
            "--settlings" => options.settlings = number(words.next())?,
            "--settle" => {
                let m = number(words.next())?;
                let numbers = list(words.next())?;
                let start = number(words.next())?;
                options.one = Some((m, Case { start, numbers }));
            }
            _ => return Err(format!("{word} is no option")),
        }
    }
    Ok(options)
}

fn settle_in_product(m: u32, case: &Case) -> Result<Settled, String> {
    let mut buffer = vec![0; 2 * (m as usize + 1)];
    let competing = seen_from_c::bytes(&case.numbers);
    let answer = entries::settle(m, &competing, &mut buffer, case.start.into());
    let no_answer = || format!("{case:?}: the product answered {answer}");
    let done = seen_from_c::settled(answer).map_err(|_| no_answer())?;
    let stages = seen_from_c::numbers(&buffer);
    Ok(Settled {
        stages: stages.get(..=done.t as usize).ok_or_else(no_answer)?.into(),
        copies: done.copies.try_into().map_err(|_| no_answer())?,
    })
}

/// The lines are the model's; a card whose number they carry at the end takes the bus.
fn settled_in_verilog(case: &Case, stages: Stages) -> Settled {
    let takes_the_bus = |number: &&u16| stages.last() == Some(*number);
    let copies = case.numbers.iter().filter(takes_the_bus).count();
    Settled {
        copies: copies as u8,
        stages,
    }
}

/// Both must show the same lines, stage by stage, and so the same t, and as many copies.
fn hold(case: &Case, who: &str, shown: &Settled, expected: &Settled) -> Result<(), String> {
    if shown == expected {
        return Ok(());
    }
    let (t, expected_t) = (shown.t(), expected.t());
    Err(format!(
        "{case:?}: {who} shows {shown:?}, t = {t}; expected {expected:?}, t = {expected_t}"
    ))
}

fn repeat(m: u32, case: &Case) -> String {
    let words: Vec<String> = case.numbers.iter().map(u16::to_string).collect();
    let list = match words.len() {
        0 => "none".to_string(),
        _ => words.join(","),
    };
    format!("{PROGRAM} --settle {m} {list} {}", case.start)
}

/// Here the lines are written out, and both sides must show them.
fn test_known(report: &mut Report) {
    for known in &KNOWN {
        let m = known.m;
        let case = Case {
            start: known.lines[0],
            numbers: known.competing.to_vec(),
        };
        let stated = known.settled();
        let outcome = model::settle(m, std::slice::from_ref(&case))
            .map(|answers| settled_in_verilog(&case, answers[0].clone()))
            .and_then(|verilog| hold(&case, "Verilog", &verilog, &stated))
            .and_then(|()| settle_in_product(m, &case))
            .and_then(|product| hold(&case, "the product", &product, &stated));
        report.test(known.name, outcome, &repeat(m, &case));
    }
    println!("{} known settlings", KNOWN.len());
}

/// One test: all cases of one m. The first difference is shown.
fn test_cases(report: &mut Report, m: u32, cases: &[Case]) {
    let name = format!("m = {m}");
    let answers = match model::settle(m, cases) {
        Ok(answers) => answers,
        Err(what) => return report.test(&name, Err(what), PROGRAM),
    };
    for (case, stages) in cases.iter().zip(&answers) {
        let verilog = settled_in_verilog(case, stages.clone());
        let outcome = settle_in_product(m, case)
            .and_then(|product| hold(case, "the product", &product, &verilog));
        if outcome.is_err() {
            return report.test(&name, outcome, &repeat(m, case));
        }
    }
    let longest = answers.iter().map(|stages| stages.len() - 1).max();
    let longest = longest.unwrap_or(0);
    println!("m = {m}: {} settlings, greatest t {longest}", cases.len());
    report.test(&name, Ok(()), PROGRAM);
}

/// Every extreme list from every extreme start.
fn extreme_cases(m: u32) -> Vec<Case> {
    let of = |numbers: Vec<u16>| {
        lists::extreme_starts(m).map(|start| Case {
            start,
            numbers: numbers.clone(),
        })
    };
    lists::extreme_lists(m).into_iter().flat_map(of).collect()
}

fn random_case(rng: &mut Rng, m: u32) -> Case {
    let numbers = lists::random_list(rng, m);
    Case {
        start: lists::random_start(rng, m, &numbers),
        numbers,
    }
}

fn test_every_m(report: &mut Report, seed: u64, settlings: u64) {
    let mut rng = Rng::new(seed);
    for m in 1..=MOST_LINES {
        let mut cases = extreme_cases(m);
        let random = settlings.div_ceil(u64::from(MOST_LINES));
        cases.extend((0..random).map(|_| random_case(&mut rng, m)));
        test_cases(report, m, &cases);
    }
}

fn run(options: Options) -> ExitCode {
    let mut report = Report::new();
    match options.one {
        Some((m, case)) => test_cases(&mut report, m, &[case]),
        None => {
            println!("seed {}", options.seed);
            test_known(&mut report);
            test_every_m(&mut report, options.seed, options.settlings);
        }
    }
    report.finish()
}

fn main() -> ExitCode {
    let words: Vec<String> = std::env::args().skip(1).collect();
    match options(&words) {
        Ok(options) => run(options),
        Err(what) => {
            eprintln!("{what}\n{USAGE}");
            ExitCode::FAILURE
        }
    }
}
