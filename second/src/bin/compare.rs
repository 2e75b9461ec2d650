//! `compare`: play scripts against another program, or look for each deliberate fault.

use second::compare::comparison::Comparison;
use second::compare::damage::look_for_each_fault;
use second::compare::program::Program;
use second::compare::report::Report;
use second::compare::scenes::{write_script, FIRST_LONG, LONG_SCRIPTS};
use second::compare::sides::{Pair, Side};
use std::collections::HashMap;
use std::io::Write;
use std::path::PathBuf;
use std::process::ExitCode;
use std::sync::atomic::AtomicU64;
use std::sync::Mutex;
use std::time::{Duration, SystemTime, UNIX_EPOCH};

const USAGE: &str = "\
usage: compare --program CMD [--against CMD] [--seed S] [--scripts N] [--jobs J]
               [--first I] [--batch B] [--timeout SECONDS] [--odd]
               [--shrink N] [--shrink-seconds T] [--most-differing D] [--save FOLDER]
       compare --program CMD --long [--timeout SECONDS]
       compare --damage [--seed S] [--scripts N]
       compare --print I --seed S

Plays N scripts (1000) against CMD and against the model in this process, or the program of
--against. Script I of seed S is always the same one: --first I --scripts 1 plays it again, --print
I shows it. --batch is the number of scripts for one process (100), --timeout the longest silence
(60), --odd sends lines the protocol leaves open too. The first N differing scripts (3) are shrunk,
T seconds each (60); after D differing ones (100) the comparison stops. Shrunk scripts are kept in
FOLDER if one is named. --long plays instead the four longest rounds there are, some hundred
million transfers each. --damage looks for each deliberate fault of the model instead, in N scripts
(2000).

It needs nothing else and writes nothing but FOLDER. The exit status is 0 where all agree, or each
fault was found; 1 where not; 2 where it could not begin. A thousand scripts take seconds.";

const WITH_VALUE: [&str; 13] = [
    "--program",
    "--against",
    "--seed",
    "--scripts",
    "--jobs",
    "--first",
    "--batch",
    "--timeout",
    "--shrink",
    "--shrink-seconds",
    "--most-differing",
    "--save",
    "--print",
];
const WITHOUT_VALUE: [&str; 3] = ["--odd", "--damage", "--long"];

type Options = HashMap<String, String>;

fn main() -> ExitCode {
    if std::env::args().skip(1).any(|word| word == "-h" || word == "--help") {
        println!("{USAGE}");
        return ExitCode::SUCCESS;
    }
    let done = read_options().and_then(|options| {
        if options.contains_key("--damage") {
            damage(&options)
        } else if options.contains_key("--print") {
            print_script(&options)
        } else {
            compare(&options)
        }
    });
    match done {
        Ok(code) => code,
        Err(problem) => {
            eprintln!("compare: {problem}");
            ExitCode::from(2)
        }
    }
}

fn read_options() -> Result<Options, String> {
    let mut options = Options::new();
    let mut arguments = std::env::args().skip(1);
    while let Some(name) = arguments.next() {
        let value = if WITH_VALUE.contains(&name.as_str()) {
            arguments.next().ok_or(format!("{name} wants a value\n{USAGE}"))?
        } else if WITHOUT_VALUE.contains(&name.as_str()) {
            String::new()
        } else {
            return Err(format!("what is {name}?\n{USAGE}"));
        };
        options.insert(name, value);
    }
    Ok(options)
}

fn number(options: &Options, name: &str, otherwise: u64) -> Result<u64, String> {
    match options.get(name) {
        None => Ok(otherwise),
        Some(value) => value.parse().map_err(|_| format!("{name} {value}: no number")),
    }
}

fn seed(options: &Options) -> Result<u64, String> {
    let since = SystemTime::now().duration_since(UNIX_EPOCH).unwrap_or_default();
    let fresh = since.as_nanos() as u64 ^ u64::from(std::process::id()) << 40;
    let seed = number(options, "--seed", fresh % 1_000_000_000_000)?;
    println!("seed {seed}");
    Ok(seed)
}

fn compare(options: &Options) -> Result<ExitCode, String> {
    let patience = Duration::from_secs(number(options, "--timeout", 60)?);
    let command = options.get("--program").ok_or(format!("--program is missing\n{USAGE}"))?;
    let first = Side::Program(started(command, patience)?);
    let (second, second_name) = match options.get("--against") {
        None => (Side::Model(None), "model"),
        Some(command) => (Side::Program(started(command, patience)?), "against"),
    };
    let long = options.contains_key("--long");
    let (first_script, scripts) = match long {
        true => (FIRST_LONG, LONG_SCRIPTS),
        false => (number(options, "--first", 0)?, number(options, "--scripts", 1_000)?),
    };
    let names = ["program".to_string(), second_name.to_string()];
    let save_in = options.get("--save").map(PathBuf::from);
    let comparison = Comparison {
        sides: Pair { first, second },
        seed: seed(options)?,
        first_script,
        scripts,
        jobs: number(options, "--jobs", 1)?.max(1),
        batch: if long { 1 } else { number(options, "--batch", 100)?.max(1) },
        odd: options.contains_key("--odd"),
        shrunk: number(options, "--shrink", 3)?,
        shrink_time: Duration::from_secs(number(options, "--shrink-seconds", 60)?),
        most_differing: number(options, "--most-differing", 100)?.max(1),
        report: Mutex::new(Report::new(scripts, names, save_in)),
        next_batch: AtomicU64::new(0),
    };
    comparison.run();
    finish(&comparison)
}

fn finish(comparison: &Comparison) -> Result<ExitCode, String> {
    let report = comparison.report.lock().map_err(|problem| problem.to_string())?;
    report.end_progress();
    if report.differ >= comparison.most_differing {
        println!("stopped at {} differing scripts", report.differ);
    }
    println!("{} scripts a minute", report.scripts_a_minute());
    println!("{} agree, {} differ", report.agree, report.differ);
    if report.differ == 0 && report.agree > 0 {
        return Ok(ExitCode::SUCCESS);
    }
    Ok(ExitCode::FAILURE)
}

fn started(command: &str, patience: Duration) -> Result<Program, String> {
    let program = Program::new(command, patience)?;
    program.try_start()?;
    Ok(program)
}

fn print_script(options: &Options) -> Result<ExitCode, String> {
    let index = number(options, "--print", 0)?;
    let seed = number(options, "--seed", 0)?;
    let script = write_script(seed, index, options.contains_key("--odd"));
    let mut output = std::io::stdout().lock();
    for line in &script.lines {
        let written = output.write_all(&line.text).and_then(|()| output.write_all(b"\n"));
        written.map_err(|problem| problem.to_string())?;
    }
    Ok(ExitCode::SUCCESS)
}

fn damage(options: &Options) -> Result<ExitCode, String> {
    let scripts = number(options, "--scripts", 2_000)?;
    let all = look_for_each_fault(seed(options)?, scripts);
    let mut missed = 0;
    for found in &all {
        match &found.after {
            Some((after, line, _)) => println!("{:24} {after:5}  {}", found.name, shown(line)),
            None => {
                missed += 1;
                println!("{:24}  not found in {scripts} scripts", found.name);
            }
        }
    }
    println!("{} found, {missed} missed", all.len() - missed);
    Ok(if missed == 0 { ExitCode::SUCCESS } else { ExitCode::FAILURE })
}

fn shown(line: &str) -> String {
    line.chars().take(50).map(|c| if c.is_control() { ' ' } else { c }).collect()
}
