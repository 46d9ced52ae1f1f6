//! The oracle: document 01 implemented a second time, with generators of test inputs.

mod call;
mod compare;
mod count;
mod draft;
mod engine;
mod explain;
mod make;
mod names;
mod raw;
mod rng;
mod station;
mod trial;
mod wrong;

#[cfg(test)]
mod bench_set;

use std::error::Error;
use std::fs::File;
use std::io::{self, BufReader, BufWriter, Read, Write};
use std::process::ExitCode;

use wrong::Wrong;

const USAGE: &str = "\
oracle station [--wrong NAME]        records on standard input, lines on standard output
oracle raw [--wrong NAME]            raw cases on standard input, outputs on standard output
oracle make station SEED COUNT       a stream of records to standard output
oracle make raw SEED COUNT           raw cases to standard output
oracle count station|raw FILE        how often what happens in an input
oracle explain station|raw FILE N    record or case N of an input in plain words
oracle compare station|raw IN OUT    another program's output, the first difference explained
oracle wrongs                        the deliberate mistakes
oracle wrong [NAME ..]               tries mistakes (all) on generated inputs
";

type Result<T> = std::result::Result<T, Box<dyn Error>>;

/// The two kinds of input.
#[derive(Clone, Copy)]
enum Format {
    Station,
    Raw,
}

impl Format {
    fn named(name: &str) -> Result<Format> {
        match name {
            "station" => Ok(Format::Station),
            "raw" => Ok(Format::Raw),
            _ => Err(format!("{name}: neither station nor raw").into()),
        }
    }
}

fn main() -> ExitCode {
    let arguments: Vec<String> = std::env::args().skip(1).collect();
    let arguments: Vec<&str> = arguments.iter().map(String::as_str).collect();
    match run(&arguments) {
        Ok(code) => code,
        Err(error) if is_broken_pipe(error.as_ref()) => ExitCode::SUCCESS,
        Err(error) => {
            eprintln!("oracle: {error}");
            ExitCode::FAILURE
        }
    }
}

fn run(arguments: &[&str]) -> Result<ExitCode> {
    match *arguments {
        ["station" | "raw"] => answer(Format::named(arguments[0])?, None),
        ["station" | "raw", "--wrong", name] => {
            answer(Format::named(arguments[0])?, Some(mistake(name)?))
        }
        ["make", format, seed, count] => {
            make(Format::named(format)?, seed.parse()?, count.parse()?)
        }
        ["count", format, file] => count(Format::named(format)?, file),
        ["explain", format, file, number] => explain(Format::named(format)?, file, number.parse()?),
        ["compare", format, input, output] => compare(Format::named(format)?, input, output),
        ["wrongs"] => {
            for wrong in Wrong::ALL {
                print(&format!("{wrong}\n"))?;
            }
            Ok(ExitCode::SUCCESS)
        }
        ["wrong", ref names @ ..] => try_mistakes(names),
        _ => {
            print(USAGE)?;
            Ok(ExitCode::FAILURE)
        }
    }
}

fn is_broken_pipe(error: &(dyn Error + 'static)) -> bool {
    let io_error = error.downcast_ref::<io::Error>();
    io_error.map_or(false, |error| error.kind() == io::ErrorKind::BrokenPipe)
}

fn print(text: &str) -> Result<()> {
    io::stdout().write_all(text.as_bytes())?;
    Ok(())
}

fn standard_output() -> impl Write {
    BufWriter::with_capacity(1 << 20, io::stdout().lock())
}

fn open(file: &str) -> Result<BufReader<Box<dyn Read>>> {
    let input: Box<dyn Read> = match file {
        "-" => Box::new(io::stdin()),
        _ => Box::new(File::open(file).map_err(|error| format!("{file}: {error}"))?),
    };
    Ok(BufReader::with_capacity(1 << 20, input))
}

fn mistake(name: &str) -> Result<Wrong> {
    Wrong::named(name).ok_or_else(|| format!("{name}: no such mistake").into())
}

fn answer(format: Format, wrong: Option<Wrong>) -> Result<ExitCode> {
    let input = open("-")?;
    match format {
        Format::Station => station::run(input, standard_output(), wrong)?,
        Format::Raw => raw::run(input, standard_output(), wrong)?,
    }
    Ok(ExitCode::SUCCESS)
}

fn make(format: Format, seed: u64, count: u64) -> Result<ExitCode> {
    match format {
        Format::Station => make::station(seed, count, standard_output())?,
        Format::Raw => make::raw(seed, count, standard_output())?,
    }
    Ok(ExitCode::SUCCESS)
}

fn count(format: Format, file: &str) -> Result<ExitCode> {
    let counts = match format {
        Format::Station => count::Counts::of_station(open(file)?)?,
        Format::Raw => count::Counts::of_raw(open(file)?)?,
    };
    print(&counts.to_string())?;
    Ok(ExitCode::SUCCESS)
}

fn explain(format: Format, file: &str, number: u64) -> Result<ExitCode> {
    let text = match format {
        Format::Station => explain::station(open(file)?, number)?,
        Format::Raw => explain::raw(open(file)?, number)?,
    };
    print(&text)?;
    Ok(ExitCode::SUCCESS)
}

fn compare(format: Format, input: &str, output: &str) -> Result<ExitCode> {
    let difference = match format {
        Format::Station => {
            let mut records = Vec::new();
            open(input)?.read_to_end(&mut records)?;
            let mut lines = String::new();
            open(output)?.read_to_string(&mut lines)?;
            compare::station(&records, &lines)?
        }
        Format::Raw => compare::raw(open(input)?, open(output)?)?,
    };
    match difference {
        None => Ok(ExitCode::SUCCESS),
        Some(text) => {
            print(&text)?;
            Ok(ExitCode::FAILURE)
        }
    }
}

/// Fails if a mistake is caught by neither kind of input.
fn try_mistakes(names: &[&str]) -> Result<ExitCode> {
    let mut chosen: Vec<Wrong> = names
        .iter()
        .map(|name| mistake(name))
        .collect::<Result<_>>()?;
    if chosen.is_empty() {
        chosen = Wrong::ALL.to_vec();
    }
    let trial = trial::Trial::new(1, 100_000, 4_000)?;
    let mut code = ExitCode::SUCCESS;
    for wrong in chosen {
        let (station, raw) = (trial.station(wrong), trial.raw(wrong));
        print(&format!(
            "{:28} station: {:28} raw: {}\n",
            wrong.name(),
            station.in_words(),
            raw.in_words()
        ))?;
        if !station.is_caught() && !raw.is_caught() {
            code = ExitCode::FAILURE;
        }
    }
    Ok(code)
}
