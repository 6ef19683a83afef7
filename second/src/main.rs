//! Command line of the second program; see the README for its commands.

use std::fs;
use std::io::{self, BufRead, BufWriter, Read, Write};
use std::path::Path;
use std::process::ExitCode;

use second::generate::{Case, Generator};
use second::rules::{Cover, Least};
use second::{lines, DOCUMENT};

const USAGE: &str = "usage: second judge | mask | clean | lookup | generate SEED COUNT [DIR] \
                     | lookups SEED COUNT | listings | types";

type Outcome = Result<ExitCode, Box<dyn std::error::Error>>;

fn main() -> ExitCode {
    let arguments = std::env::args().skip(1).collect::<Vec<_>>();
    let arguments = arguments.iter().map(String::as_str).collect::<Vec<_>>();
    let mut out = BufWriter::new(io::stdout().lock());
    let outcome = run(&arguments, &mut out).and_then(|code| {
        out.flush()?;
        Ok(code)
    });
    outcome.unwrap_or_else(|error| {
        eprintln!("second: {error}");
        ExitCode::from(2)
    })
}

fn run(arguments: &[&str], out: &mut impl Write) -> Outcome {
    match *arguments {
        ["judge"] => judge(out),
        ["mask"] => copied(DOCUMENT.mask_program(&input()?), out),
        ["clean"] => copied(DOCUMENT.clean_program(&input()?), out),
        ["lookup"] => lookup(out),
        ["generate", seed, count] => generate(seed.parse()?, count.parse()?, None, out),
        ["generate", seed, count, dir] => generate(seed.parse()?, count.parse()?, Some(dir), out),
        ["lookups", seed, count] => lookups(seed.parse()?, count.parse()?, out),
        ["listings"] => listings(out),
        ["types"] => types(out),
        _ => Err(USAGE.into()),
    }
}

fn input() -> io::Result<Vec<u8>> {
    let mut input = Vec::new();
    io::stdin().lock().read_to_end(&mut input)?;
    Ok(input)
}

fn judge(out: &mut impl Write) -> Outcome {
    out.write_all(DOCUMENT.program(&input()?).as_bytes())?;
    Ok(ExitCode::SUCCESS)
}

/// A copy goes out raw, a refusal to standard error.
fn copied(copy: Result<Vec<u8>, String>, out: &mut impl Write) -> Outcome {
    match copy {
        Ok(copy) => {
            out.write_all(&copy)?;
            Ok(ExitCode::SUCCESS)
        }
        Err(refusal) => {
            eprint!("{refusal}");
            Ok(ExitCode::FAILURE)
        }
    }
}

fn lookup(out: &mut impl Write) -> Outcome {
    for line in io::stdin().lock().lines() {
        let lookup = lines::lookup(&line?)?;
        writeln!(out, "{}", lines::answer_line(&DOCUMENT, &lookup))?;
    }
    Ok(ExitCode::SUCCESS)
}

fn generate(seed: u64, count: usize, dir: Option<&str>, out: &mut impl Write) -> Outcome {
    if let Some(dir) = dir {
        fs::create_dir_all(dir)?;
    }
    for (number, case) in Generator::new(seed).inputs(count).iter().enumerate() {
        writeln!(out, "{}", lines::case_line(case))?;
        if let Some(dir) = dir {
            write_input(Path::new(dir), number, case)?;
        }
    }
    Ok(ExitCode::SUCCESS)
}

/// A kind over 255 has no form that the judge program reads, and its number is
/// left out.
fn write_input(dir: &Path, number: usize, case: &Case) -> io::Result<()> {
    match case.input() {
        Some(input) => fs::write(dir.join(format!("{number:06}.in")), input),
        None => Ok(()),
    }
}

fn lookups(seed: u64, count: usize, out: &mut impl Write) -> Outcome {
    let mut generator = Generator::new(seed);
    for _ in 0..count {
        writeln!(out, "{}", lines::lookup_line(&generator.lookup()))?;
    }
    Ok(ExitCode::SUCCESS)
}

fn listings(out: &mut impl Write) -> Outcome {
    for message in &DOCUMENT.messages {
        writeln!(out, "{message}")?;
        for line in message.lines() {
            writeln!(out, "{line}")?;
        }
    }
    Ok(ExitCode::SUCCESS)
}

fn types(out: &mut impl Write) -> Outcome {
    for (typ, facts) in DOCUMENT.types.iter().enumerate() {
        let least = match &facts.least {
            Least::Fixed(least) => least.to_string(),
            Least::ByFirst(by) => format!("{:?}", by.least).replace(' ', ""),
        };
        let group = if facts.group { "group" } else { "-" };
        let cover = facts.cover.map(|cover| match cover {
            Cover::Nothing => "-",
            Cover::Rest => "rest",
            Cover::Whole => "whole",
            Cover::Values => "values",
        });
        writeln!(out, "{typ} {least} {group} {}", cover.join(" "))?;
    }
    Ok(ExitCode::SUCCESS)
}
