//! Reaches each limit of a table once, and asks for one more: `full_size [--only NAMES] [--record FILE]`.
//!
//! Each limit has its own process, to measure its processor time and peak memory. The program prints a
//! line of tab-separated fields for each: the name, what was reached, what one more is, the number and
//! name of its refusal, the seconds of processor time, and the peak memory in MB. Far contents are in
//! files, so that the memory is the table's. --only takes names separated by commas. --record writes the
//! lines into a file, and replaces lines with the same name; `tools/documents` makes a table of it.

use std::collections::BTreeMap;
use std::error::Error;
use std::process::{Command, ExitCode};
use std::{env, fs};

mod limits;

use limits::LIMITS;

const HEAD: &str = "limit\tmet\tone more\trefusal\tseconds\tMB";
/// No limit may take more memory, in MB.
const MOST_MEMORY: u64 = 6_000;

/// The result of a limit: what was reached, what one more is, and its refusal.
pub struct Met {
    pub met: String,
    pub more: &'static str,
    pub refusal: String,
}

/// A function that reaches a limit.
pub type Meet = fn() -> Result<Met, Box<dyn Error>>;

// The processor time of this process: fields 14 and 15 of its stat file, in hundredths of a second.
fn seconds() -> Result<f64, Box<dyn Error>> {
    let stat = fs::read_to_string("/proc/self/stat")?;
    let behind_name = stat.rsplit(')').next().unwrap_or_default();
    let fields = behind_name.split_whitespace().skip(11).take(2);
    let ticks: Result<Vec<f64>, _> = fields.map(str::parse).collect();
    Ok(ticks?.iter().sum::<f64>() / 100.0)
}

// The peak memory of this process, in MB.
fn most_memory() -> Result<u64, Box<dyn Error>> {
    let status = fs::read_to_string("/proc/self/status")?;
    let line = status.lines().find(|line| line.starts_with("VmHWM:"));
    let kb: u64 = line
        .and_then(|line| line.split_whitespace().nth(1))
        .ok_or("no VmHWM")?
        .parse()?;
    Ok(kb / 1_000)
}

// Reaches a limit in this process, and prints its line.
fn meet(name: &str) -> Result<(), Box<dyn Error>> {
    let found = LIMITS.iter().find(|(it, _)| *it == name);
    let (_, meet) = found.ok_or("there is no such limit")?;
    let it = meet()?;
    let (seconds, memory) = (seconds()?, most_memory()?);
    let (met, more, refusal) = (it.met, it.more, it.refusal);
    println!("{name}\t{met}\t{more}\t{refusal}\t{seconds:.1}\t{memory}");
    if memory > MOST_MEMORY {
        return Err(format!("{memory} MB of memory are too much").into());
    }
    Ok(())
}

// Reaches a limit in a new process. Returns its line.
fn met_apart(name: &str) -> Result<String, Box<dyn Error>> {
    let ran = Command::new(env::current_exe()?)
        .args(["--meet", name])
        .output()?;
    if !ran.status.success() {
        return Err(format!("{name}: {}", String::from_utf8_lossy(&ran.stderr)).into());
    }
    Ok(String::from_utf8(ran.stdout)?.trim_end().to_owned())
}

fn name_of(line: &str) -> &str {
    line.split('\t').next().unwrap_or_default()
}

fn record(file: &str, lines: &[String]) -> Result<(), Box<dyn Error>> {
    let before = fs::read_to_string(file).unwrap_or_default();
    let all = before
        .lines()
        .skip(1)
        .chain(lines.iter().map(String::as_str));
    let by_name: BTreeMap<&str, &str> = all.map(|line| (name_of(line), line)).collect();
    let sorted = LIMITS.iter().filter_map(|(name, _)| by_name.get(name));
    let text: String = sorted.map(|line| format!("{line}\n")).collect();
    Ok(fs::write(file, format!("{HEAD}\n{text}"))?)
}

fn meet_all(only: Option<&str>, file: Option<&str>) -> Result<(), Box<dyn Error>> {
    println!("{HEAD}");
    for (name, _) in LIMITS {
        if only.is_none_or(|only| only.split(',').any(|it| it == *name)) {
            let line = met_apart(name)?;
            println!("{line}");
            if let Some(file) = file {
                record(file, &[line])?;
            }
        }
    }
    Ok(())
}

fn main() -> ExitCode {
    let words: Vec<String> = env::args().skip(1).collect();
    let value = |name: &str| {
        let at = words.iter().position(|word| word == name)?;
        words.get(at + 1).map(String::as_str)
    };
    let met = match value("--meet") {
        Some(name) => meet(name),
        None => meet_all(value("--only"), value("--record")),
    };
    if let Err(error) = met {
        eprintln!("{error}");
        return ExitCode::FAILURE;
    }
    ExitCode::SUCCESS
}
