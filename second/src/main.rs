//! The commands: grade files, show circuits, make circuits, damage circuits, lay
//! the files at the limits or the samples, and tally which refusals a set of files
//! reaches.

use std::ffi::{OsStr, OsString};
use std::fs::{create_dir_all, write, File};
use std::io::{self, Read, Write};
use std::path::Path;
use std::process::ExitCode;

use second::builder::NamedFile;
use second::damage::damaged_file;
use second::format::LONGEST_FILE;
use second::limits::limit_files;
use second::make::made_file;
use second::read::read;
use second::report::report_of;
use second::samples::sample_files;
use second::show::show_of;

const USAGE: &str = "usage: second grade [FILE...]
       second show [FILE...]
       second make OUTDIR SEED COUNT
       second damage OUTDIR SEED COUNT
       second limits OUTDIR
       second samples OUTDIR
       second refusals [FILE...]
";

const LAST_FILE_REFUSAL: u8 = 14;

/// A command ends well or not; words that are no command have no ending.
type Ending = Option<bool>;

fn main() -> ExitCode {
    let words: Vec<OsString> = std::env::args_os().skip(1).collect();
    let command = words.first().and_then(|word| word.to_str());
    let rest = words.get(1..).unwrap_or_default();
    let ending = match command {
        Some("grade") => print_each(rest, report_of),
        Some("show") => print_each(rest, show_of),
        Some("refusals") => tally_refusals(rest),
        Some("make") => lay_from_seed(rest, "made", made_file),
        Some("damage") => lay_from_seed(rest, "damaged", damaged_file),
        Some("limits") => lay_named(rest, limit_files),
        Some("samples") => lay_named(rest, sample_files),
        _ => None,
    };
    match ending {
        Some(true) => ExitCode::SUCCESS,
        Some(false) => ExitCode::FAILURE,
        None => {
            eprint!("{USAGE}");
            ExitCode::from(2)
        }
    }
}

/// Tells a failure on standard error; answers whether there was none.
fn is_well(name: &OsStr, result: io::Result<()>) -> bool {
    if let Err(reason) = &result {
        eprintln!("second: {}: {reason}", name.to_string_lossy());
    }
    result.is_ok()
}

/// One byte more than the limit is enough to know that a file is too long.
fn read_some(source: impl Read) -> io::Result<Vec<u8>> {
    let mut bytes = Vec::new();
    source
        .take(LONGEST_FILE as u64 + 1)
        .read_to_end(&mut bytes)?;
    Ok(bytes)
}

/// Visits the bytes of each file that can be read, or of standard input if none
/// is named; answers whether all could be read and visited.
fn visit_files(files: &[OsString], mut visit: impl FnMut(&OsStr, &[u8]) -> bool) -> bool {
    let mut all_well = true;
    let mut take = |name: &OsStr, source: io::Result<Vec<u8>>| {
        let read = source.map(|bytes| all_well &= visit(name, &bytes));
        all_well &= is_well(name, read);
    };
    if files.is_empty() {
        take(OsStr::new("standard input"), read_some(io::stdin().lock()));
    }
    for name in files {
        take(name, File::open(name).and_then(read_some));
    }
    all_well
}

fn print(text: &[u8]) -> bool {
    let mut output = io::stdout().lock();
    let written = output.write_all(text).and_then(|()| output.flush());
    is_well(OsStr::new("standard output"), written)
}

/// Prints the text of each file; more than one file get headings.
fn print_each(files: &[OsString], text_of: fn(&[u8]) -> String) -> Ending {
    let mut blank = "";
    let all_well = visit_files(files, |name, bytes| {
        let mut text = Vec::new();
        if files.len() > 1 {
            text.extend_from_slice(blank.as_bytes());
            text.extend_from_slice(b"==> ");
            text.extend_from_slice(name.as_encoded_bytes());
            text.extend_from_slice(b" <==\n");
            blank = "\n";
        }
        text.extend_from_slice(text_of(bytes).as_bytes());
        print(&text)
    });
    Some(all_well)
}

fn tally_refusals(files: &[OsString]) -> Ending {
    let mut tally = [0usize; LAST_FILE_REFUSAL as usize + 1];
    let all_read = visit_files(files, |_, bytes| {
        let number = read(bytes).map_or_else(|refusal| refusal.number, |_| 0);
        tally[usize::from(number)] += 1;
        true
    });
    let mut lines = format!("accepted {}\n", tally[0]);
    for number in 1..=LAST_FILE_REFUSAL {
        lines += &format!("refused {number} {}\n", tally[usize::from(number)]);
    }
    Some(print(lines.as_bytes()) && all_read)
}

fn lay_from_seed(words: &[OsString], name: &str, file: fn(u64, u64) -> Vec<u8>) -> Ending {
    let [directory, seed, count] = words else {
        return None;
    };
    let seed: u64 = seed.to_str()?.parse().ok()?;
    let count: u64 = count.to_str()?.parse().ok()?;
    let files = (0..count).map(|index| (format!("{name}-{index:05}.cir"), file(seed, index)));
    Some(is_well(directory, lay(directory, files)))
}

fn lay_named(words: &[OsString], files: fn() -> Vec<NamedFile>) -> Ending {
    let [directory] = words else {
        return None;
    };
    let files = files().into_iter().map(|file| (file.name, file.bytes));
    Some(is_well(directory, lay(directory, files)))
}

/// Writes files with these names and bytes into the directory.
fn lay(directory: &OsStr, files: impl Iterator<Item = (String, Vec<u8>)>) -> io::Result<()> {
    create_dir_all(directory)?;
    for (name, bytes) in files {
        write(Path::new(directory).join(name), bytes)?;
    }
    Ok(())
}
