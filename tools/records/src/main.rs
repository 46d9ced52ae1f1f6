//! Record files of the station program as text, and its answers in plain words.

mod call;
mod explain;
mod fields;
mod known;
mod make;
mod numbers;
mod packet;
mod places;
mod record;
mod registers;
mod reply;
mod text;

use std::fs;
use std::io::{self, Read, Write};
use std::path::Path;
use std::process::ExitCode;

use numbers::Result;

const USAGE: &str = "\
records write FILE.txt               the record file of a text, to standard output
records read FILE.bin                the text of a record file, to standard output
records explain FILE.bin LINES.txt   records and the station's lines for them in plain words
records packet FIELD ..              a well formed packet in hexadecimal digits; fields are
                                     dst= slot= src= incarnation= offset= size= (numbers)
                                     use_size use_offset ack, meta=1,2,3,4 meta_len=
                                     payload= (digits or a file)
A file named - is standard input.
";

fn main() -> ExitCode {
    let arguments: Vec<String> = std::env::args().skip(1).collect();
    let arguments: Vec<&str> = arguments.iter().map(String::as_str).collect();
    // All is worked out before a byte is written, so that an error leaves nothing half-written.
    match run(&arguments).and_then(|output| put_out(&output)) {
        Ok(()) => ExitCode::SUCCESS,
        Err(error) => {
            eprintln!("{error}");
            ExitCode::FAILURE
        }
    }
}

fn run(arguments: &[&str]) -> Result<Vec<u8>> {
    match *arguments {
        ["write", name] => text::to_records(&content(name)?, name, folder_of(name)),
        ["read", name] => Ok(text::from_records(&content(name)?).into_bytes()),
        ["explain", records, lines] => {
            let answers = reply::lines(&content(lines)?, lines)?;
            Ok(explain::all(&content(records)?, &answers).into_bytes())
        }
        ["packet", ref fields @ ..] => {
            let packet = make::packet(fields, Path::new(""))
                .map_err(|error| format!("records packet: {error}"))?;
            Ok((numbers::hex_words(&packet) + "\n").into_bytes())
        }
        ["help" | "--help" | "-h"] => Ok(USAGE.into()),
        [] => Err(format!("records without a command; {}", usage())),
        [command @ ("write" | "read" | "explain"), ref files @ ..] => {
            let files = match files.len() {
                1 => "1 file".to_string(),
                count => format!("{count} files"),
            };
            Err(format!("records {command} with {files}; {}", usage()))
        }
        [other, ..] => Err(format!("{other:?} is no command; {}", usage())),
    }
}

fn usage() -> String {
    format!("expected one of\n{}", USAGE.trim_end())
}

fn content(name: &str) -> Result<Vec<u8>> {
    let read = match name {
        "-" => {
            let mut bytes = Vec::new();
            io::stdin().read_to_end(&mut bytes).map(|_| bytes)
        }
        _ => fs::read(name),
    };
    read.map_err(|error| format!("{name}: {error}; expected a file that can be read"))
}

/// Packet files are looked for where the text stands.
fn folder_of(name: &str) -> &Path {
    match name {
        "-" => Path::new(""),
        _ => Path::new(name).parent().unwrap_or(Path::new("")),
    }
}

fn put_out(output: &[u8]) -> Result<()> {
    let mut out = io::stdout().lock();
    match out.write_all(output).and_then(|()| out.flush()) {
        // Who reads no further, as `head` does, has what is wanted.
        Err(error) if error.kind() != io::ErrorKind::BrokenPipe => {
            Err(format!("standard output: {error}"))
        }
        _ => Ok(()),
    }
}
