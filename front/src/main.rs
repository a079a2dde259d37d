//! The commands: make a circuit file from its text, and explain refusals. Messages
//! bear the name of the project's one command, which calls this program.

use std::ffi::{OsStr, OsString};
use std::fs::File;
use std::io::{self, ErrorKind, Read, Write};
use std::process::ExitCode;

use front::explain::explain;
use front::text::{make, Slip};
use second::format::LONGEST_FILE;

const USAGE: &str = "usage: front make [TEXT]
       front explain [FILE...]
";

const REFUSED: u8 = 1;
const FAILED: u8 = 2;
/// What a shell reports of a program that a closed pipe ended.
const PIPE_CLOSED: u8 = 141;

const MOST_SLIPS: usize = 10;

fn main() -> ExitCode {
    let words: Vec<OsString> = std::env::args_os().skip(1).collect();
    let command = words.first().and_then(|word| word.to_str());
    let names = words.get(1..).unwrap_or_default();
    let status = match (command, names) {
        (Some("make"), []) => make_from(None),
        (Some("make"), [name]) => make_from(Some(name)),
        (Some("explain"), []) => explain_file(None),
        (Some("explain"), names) => {
            let statuses = names.iter().map(|name| explain_file(Some(name)));
            statuses.max().unwrap_or(0)
        }
        _ => {
            eprint!("{USAGE}");
            FAILED
        }
    };
    ExitCode::from(status)
}

fn title(name: Option<&OsString>) -> &OsStr {
    name.map_or(OsStr::new("standard input"), |name| name.as_os_str())
}

/// The lines of one file's message, each beginning with the command and the file.
fn message(title: &OsStr, lines: impl IntoIterator<Item = String>) -> Vec<u8> {
    let mut text = Vec::new();
    for line in lines {
        text.extend_from_slice(b"togyamiru: ");
        text.extend_from_slice(title.as_encoded_bytes());
        text.extend_from_slice(format!(": {line}\n").as_bytes());
    }
    text
}

/// Where standard error takes nothing there is nobody left to tell.
fn complain(title: &OsStr, lines: impl IntoIterator<Item = String>) -> u8 {
    let _ = io::stderr().write_all(&message(title, lines));
    FAILED
}

/// The reason without the number that the library adds to it.
fn reason(error: &io::Error) -> String {
    let text = error.to_string();
    let end = text.find(" (os error ").unwrap_or(text.len());
    text[..end].to_string()
}

fn read_most(name: Option<&OsString>, most: u64) -> io::Result<Vec<u8>> {
    let mut bytes = Vec::new();
    match name {
        None => io::stdin().lock().take(most).read_to_end(&mut bytes)?,
        Some(name) => File::open(name)?.take(most).read_to_end(&mut bytes)?,
    };
    Ok(bytes)
}

fn print(bytes: &[u8]) -> u8 {
    let mut output = io::stdout().lock();
    let written = output.write_all(bytes).and_then(|()| output.flush());
    match written {
        Ok(()) => 0,
        Err(error) if error.kind() == ErrorKind::BrokenPipe => PIPE_CLOSED,
        Err(error) => complain(OsStr::new("standard output"), [reason(&error)]),
    }
}

fn make_from(name: Option<&OsString>) -> u8 {
    let title = title(name);
    let text = match read_most(name, u64::MAX) {
        Ok(text) => text,
        Err(error) => return complain(title, [reason(&error)]),
    };
    match make(&text) {
        Ok(bytes) => print(&bytes),
        Err(slips) => complain(title, slip_lines(&slips)),
    }
}

/// The first slips; a file that is no text at all has very many.
fn slip_lines(slips: &[Slip]) -> Vec<String> {
    let shown = slips.iter().take(MOST_SLIPS);
    let mut lines: Vec<String> = shown
        .map(|slip| format!("line {}: {}", slip.line, slip.message))
        .collect();
    if slips.len() > MOST_SLIPS {
        lines.push(format!("{} more lines are wrong", slips.len() - MOST_SLIPS));
    }
    lines
}

fn explain_file(name: Option<&OsString>) -> u8 {
    let title = title(name);
    // One byte more than the limit is enough to know that a file is too long.
    let bytes = match read_most(name, LONGEST_FILE as u64 + 1) {
        Ok(bytes) => bytes,
        Err(error) => return complain(title, [reason(&error)]),
    };
    match explain(&bytes) {
        None => 0,
        Some(explanation) => print(&message(title, explanation.lines())).max(REFUSED),
    }
}
