//! Compares our proved programs with Cranelift's own harvester, its text unchanged, and with a plain second implementation.
//! README.md says how to run it, and what each file holds.

// the harvester's text names `souper_ir::ast` and `crate::ir`
extern crate self as souper_ir;
use cranelift::{ast, ir};

mod bench;
mod codes;
mod cranelift;
mod damage;
mod evaluate;
mod generate;
mod graph;
mod harvests;
mod image;
mod judge;
mod meaning;
mod numbers;
mod ours;
mod random;
mod refusal;
mod run;
mod table;
#[cfg(test)]
mod tests;
mod translation;
mod verdicts;
mod views;

use ours::Programs;
use run::Run;
use std::io;
use std::path::PathBuf;
use std::process::ExitCode;
use table::Line;

const USAGE: &str = "\
usage: compare [COMMAND] [OPTION]..

    all           all comparisons that follow, and what is done where no command is named
    harvests      candidates of random graphs: texts and lists
    views         candidates and numbers behind pins and resolved operands
    verdicts      verdicts on damaged images, and the candidates of those that are accepted
    numbers       IR numbers of values and numbers on rows
    bench         how long harvests take
    built-from    which text of Cranelift's harvester was compiled

    --seed N      what is drawn at random follows from it: 1
    --graphs N    so many random graphs for `harvests`: 1000
    --damaged N   so many damaged images for `verdicts`: 10000
    --views N     so many graphs behind views: 500
    --numbers N   so many questions for `numbers`: 10000
    --rounds N    so many rounds of `bench`: 5
    --crates DIR  the folder of our crates, with their programs in CRATE/out: crates/ beside this project
    --work DIR    for files, and what disagreements leave behind: target/compare in this project

The status is 1 if anything disagreed, and 2 if nothing could be compared.";

/// What is asked for.
struct Options {
    command: String,
    seed: u64,
    graphs: usize,
    damaged: usize,
    views: usize,
    numbers: usize,
    rounds: u32,
    crates: PathBuf,
    work: PathBuf,
}

impl Options {
    fn read(mut words: impl Iterator<Item = String>) -> Result<Options, String> {
        let project = PathBuf::from(env!("CARGO_MANIFEST_DIR"));
        let mut options = Options {
            command: "all".to_string(),
            seed: 1,
            graphs: 1000,
            damaged: 10_000,
            views: 500,
            numbers: 10_000,
            rounds: 5,
            crates: project.with_file_name("crates"),
            work: project.join("target").join("compare"),
        };
        let mut has_command = false;
        while let Some(word) = words.next() {
            if word == "--help" || (!word.starts_with("--") && !has_command) {
                options.command = word.trim_start_matches('-').to_string();
                has_command = true;
                continue;
            }
            let argument = words.next().ok_or(format!("{word}: unknown, or lacks what it says"))?;
            let number = argument.parse::<u64>().map_err(|_| format!("{word} {argument}: a number is wanted"));
            match word.as_str() {
                "--seed" => options.seed = number?,
                "--graphs" => options.graphs = number? as usize,
                "--damaged" => options.damaged = number? as usize,
                "--views" => options.views = number? as usize,
                "--numbers" => options.numbers = number? as usize,
                "--rounds" => options.rounds = number?.max(1) as u32,
                "--crates" => options.crates = argument.into(),
                "--work" => options.work = argument.into(),
                _ => return Err(format!("{word}: unknown")),
            }
        }
        Ok(options)
    }
}

/// The text that was compiled: where it is, and its length and hash (FNV-1a, 64 bits).
fn built_from() -> String {
    let hash = cranelift::TEXT.iter().fold(0xcbf29ce484222325_u64, |hash, byte| (hash ^ u64::from(*byte)).wrapping_mul(0x100000001b3));
    format!("{}, {} bytes, FNV-1a {hash:016x}", cranelift::TEXT_PATH, table::grouped(cranelift::TEXT.len()))
}

/// The lines of a comparison, or what kept it from its end.
fn lines_of(what: &str, compared: io::Result<Vec<Line>>) -> Result<Vec<Line>, String> {
    compared.map_err(|why| format!("{what}: {why}"))
}

/// Does what is asked for; answers how many disagreements there were.
fn compare(options: &Options) -> Result<usize, String> {
    let is_wanted = |command: &str| options.command == command || (options.command == "all" && command != "bench");
    let programs = Programs { crates: options.crates.clone() };
    match options.command.as_str() {
        "all" | "harvests" | "verdicts" => programs.need(&["replay", "souper_harvest"])?,
        "numbers" => programs.need(&["replay"])?,
        "views" => programs.need(&["souper_harvest"])?,
        "bench" => programs.need(&["bench"])?,
        command => return Err(format!("{command}: no such command\n\n{USAGE}")),
    }
    let run = Run::new(options.seed, programs, options.work.clone());
    let mut run = run.map_err(|why| format!("{}: {why}", options.work.display()))?;
    println!("The Rust: {}", built_from());
    println!("Seed {}\n", options.seed);
    let mut lines = vec![];
    if is_wanted("harvests") {
        lines.extend(lines_of("harvests", harvests::compare(&mut run, options.graphs))?);
    }
    if is_wanted("views") {
        lines.extend(lines_of("views", views::compare(&mut run, options.views))?);
    }
    if is_wanted("verdicts") {
        lines.extend(lines_of("verdicts", verdicts::compare(&mut run, options.damaged))?);
    }
    if is_wanted("numbers") {
        lines.extend(lines_of("numbers", numbers::compare(&mut run, options.numbers))?);
    }
    if is_wanted("bench") {
        bench::bench(&mut run, options.rounds).map_err(|why| format!("bench: {why}"))?;
    } else {
        table::print(&lines);
    }
    println!("\n{} disagreements", run.disagreements);
    Ok(run.disagreements)
}

fn main() -> ExitCode {
    let options = match Options::read(std::env::args().skip(1)) {
        Ok(options) => options,
        Err(why) => {
            eprintln!("{why}\n\n{USAGE}");
            return ExitCode::from(2);
        }
    };
    match options.command.as_str() {
        "help" => println!("{USAGE}"),
        "built-from" => println!("{}", built_from()),
        _ => match compare(&options) {
            Ok(0) => {}
            Ok(_) => return ExitCode::from(1),
            Err(why) => {
                eprintln!("{why}");
                return ExitCode::from(2);
            }
        },
    }
    ExitCode::SUCCESS
}
