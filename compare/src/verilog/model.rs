//! Runs the Verilog model: cases into a file, answers out of what it prints.

use std::fs;
use std::path::{Path, PathBuf};
use std::process::Command;

const SOURCES: [&str; 2] = ["compare/verilog/card.v", "compare/verilog/settling.v"];
const WORKING_FOLDER: &str = "target/tools/verilog";

/// The lines after stages 0 to t.
pub type Stages = Vec<u16>;

/// What the lines start from and the competing numbers.
#[derive(Clone, Debug)]
pub struct Case {
    pub start: u16,
    pub numbers: Vec<u16>,
}

/// Settles every case on m lines.
pub fn settle(m: u32, cases: &[Case]) -> Result<Vec<Stages>, String> {
    let printed = run(&build(m)?, &write_cases(m, cases)?)?;
    let answers: Result<Vec<Stages>, String> = printed.lines().map(parse_answer).collect();
    match answers {
        Ok(answers) if answers.len() != cases.len() => {
            Err(format!("{} cases, {} answers", cases.len(), answers.len()))
        }
        other => other,
    }
}

/// A model with m lines.
fn build(m: u32) -> Result<PathBuf, String> {
    let model = working_file(m, "vvp")?;
    let mut iverilog = Command::new("iverilog");
    iverilog.args(["-g2005", "-Wall", "-s", "settling"]);
    iverilog.arg(format!("-Psettling.M={m}"));
    iverilog.arg("-o").arg(&model).args(SOURCES);
    output_of(&mut iverilog)?;
    Ok(model)
}

fn run(model: &Path, cases: &Path) -> Result<String, String> {
    let mut vvp = Command::new("vvp");
    vvp.arg("-n").arg(model);
    vvp.arg(format!("+cases={}", cases.display()));
    output_of(&mut vvp)
}

fn written(case: &Case) -> String {
    let numbers = case.numbers.iter().map(|number| format!(" {number}"));
    let numbers: String = numbers.collect();
    format!("{} {}{numbers}\n", case.start, case.numbers.len())
}

/// A case is its start, the count of its numbers, then the numbers.
fn write_cases(m: u32, cases: &[Case]) -> Result<PathBuf, String> {
    let text: String = cases.iter().map(written).collect();
    let path = working_file(m, "cases")?;
    match fs::write(&path, text) {
        Ok(()) => Ok(path),
        Err(error) => Err(format!("{}: {error}", path.display())),
    }
}

fn working_file(m: u32, kind: &str) -> Result<PathBuf, String> {
    fs::create_dir_all(WORKING_FOLDER).map_err(|error| format!("{WORKING_FOLDER}: {error}"))?;
    Ok(PathBuf::from(WORKING_FOLDER).join(format!("{m}.{kind}")))
}

/// What a command printed. A complaint is an error even if the command ends well.
fn output_of(command: &mut Command) -> Result<String, String> {
    let output = command.output();
    let output = output.map_err(|error| format!("{command:?}: {error}"))?;
    let printed = String::from_utf8_lossy(&output.stdout).into_owned();
    if !output.status.success() || !output.stderr.is_empty() {
        let complaint = String::from_utf8_lossy(&output.stderr);
        return Err(format!("{command:?}: {printed}{complaint}"));
    }
    Ok(printed)
}

/// An answer is t, then the lines after stages 0 to t.
fn parse_answer(line: &str) -> Result<Stages, String> {
    let fields: Result<Vec<u16>, _> = line.split(' ').map(str::parse).collect();
    match fields.as_deref() {
        Ok([t, stages @ ..]) if stages.len() == usize::from(*t) + 1 => Ok(stages.to_vec()),
        _ => Err(format!("the model printed '{line}'")),
    }
}
