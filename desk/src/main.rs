//! The data desk's program: loads a delivery as the planner does, and says what is to be mended.
//!
//!     desk [--all] [--most N] [--json] [--today DD.MM.YYYY] [DIRECTORY]
//!     desk --compare OLD NEW
//!     desk --clean DIRECTORY OUT
//!
//! It reads the six files by name from the directory (without one: from the directory at hand). The first line is the proved answer: `accepted ..`, `refused N file F line L column C` or
//! `unread file F`. What follows is worked out by this program: the line, the field, what the number means and how to mend it. Lines that begin with `look:` name what is accepted and still odd.
//! `--all` shows what else of all six files is likely to be refused, by kind with counts, and of each kind at most `--most` (5); it mends nothing. `--json` says the same as one object.
//! `--compare` loads two deliveries, and says what the new one changes. `--clean` loads the delivery, writes it to a new or empty directory OUT with FPLAN in one clean form beside copies of the other files,
//! loads that again, and says that it is the same timetable. The exit status is 0 for accepted, 3 for accepted with a `look:`, 1 for refused, 2 for unread, and where something could
//! not be written. Progress of a load that takes over a second goes to standard error.

mod clean;
mod compare;
mod dates;
mod explain;
mod form;
mod json;
mod lines;
mod looks;
mod mend;
mod mend_field;
mod mend_number;
mod moved;
mod read;
mod report;
mod screen;
mod service;
mod survey;
#[cfg(test)]
mod tests;

use std::env;
use std::ffi::OsString;
use std::io::{stdout, ErrorKind, Write};
use std::path::{Path, PathBuf};
use std::process::exit;
use std::time::{SystemTime, UNIX_EPOCH};

use estelunya_planner::raw::VERSION;
use estelunya_planner::Date;

use report::{Options, ACCEPTED, UNREAD};

/// The crate's version; a program that was made without cargo does not know it.
const RELEASE: &str = match option_env!("CARGO_PKG_VERSION") {
    Some(version) => version,
    None => "without a number",
};

const USAGE: &str =
    "desk [--all] [--most N] [--json] [--today DD.MM.YYYY] [DIRECTORY]: loads the delivery there, or at hand
  status 0 accepted, 3 accepted with a `look:`, 1 refused, 2 unread or not written
  --all: what else is likely to be refused, by kind; of each kind at most N are shown (5)
  --json: one object in place of the text; --today: another day than today, for periods that are over
desk --compare OLD NEW: what the delivery NEW changes against OLD
desk --clean DIRECTORY OUT: writes the delivery to a new or empty directory OUT, with FPLAN in one clean form
desk --version; -- before a directory whose name begins with -
REFUSALS.md says what each number means and how to mend it";

/// The day number of 01.01.1970, from 01.01.1900 on.
const EPOCH: u64 = 25_567;

/// What is asked of one call of the program.
#[derive(Clone, Copy, PartialEq, Eq)]
enum Work {
    Load,
    Compare,
    Clean,
}

fn main() {
    let (work, options, given) = asked(env::args_os().skip(1));
    let (status, text) = match (work, &given[..]) {
        (Work::Load, []) => report::run(Path::new("."), &options),
        (Work::Load, [directory]) => report::run(directory, &options),
        (Work::Load, _) => usage("more than one directory"),
        (Work::Compare, [old, new]) => compare::run(old, new, &options),
        (Work::Compare, _) => usage("--compare takes two directories"),
        (Work::Clean, [directory, out]) if !options.all && !options.json => clean::run(directory, out, &options),
        (Work::Clean, _) => usage("--clean takes a directory and another, and nothing else"),
    };
    print(status, &text)
}

/// The words of the command line.
fn asked(words: impl Iterator<Item = OsString>) -> (Work, Options, Vec<PathBuf>) {
    let (mut work, mut options, mut given) = (Work::Load, Options::new(today()), Vec::new());
    let (mut named, mut words) = (false, words);
    while let Some(word) = words.next() {
        match word.to_str() {
            // After it every word is a directory.
            _ if named => given.push(PathBuf::from(word)),
            Some("--") => named = true,
            Some("--all") => options.all = true,
            Some("--json") => options.json = true,
            Some("--most") => options.most = Some(value(words.next(), "--most", "a number")),
            Some("--today") => options.today = value(words.next(), "--today", "a date, DD.MM.YYYY"),
            Some("--compare") if work == Work::Load => work = Work::Compare,
            Some("--clean") if work == Work::Load => work = Work::Clean,
            Some("--help" | "-h") => print(ACCEPTED, &format!("{}\n", USAGE)),
            Some("--version") => print(ACCEPTED, &format!("desk {}, of boundary {}\n", RELEASE, VERSION)),
            Some(option) if option.starts_with('-') => usage(&format!("`{}` is not understood", option)),
            _ => given.push(PathBuf::from(word)),
        }
    }
    (work, options, given)
}

/// The value after an option.
fn value<T: std::str::FromStr>(word: Option<OsString>, option: &str, what: &str) -> T {
    let given = word.as_ref().map_or_else(|| "nothing".into(), |word| word.to_string_lossy());
    match word.as_ref().and_then(|word| word.to_str()).and_then(|word| word.parse().ok()) {
        Some(value) => value,
        None => usage(&format!("{} is followed by {}, and not by `{}`", option, what, given)),
    }
}

/// By the system's clock, in UTC.
fn today() -> Date {
    let days = SystemTime::now().duration_since(UNIX_EPOCH).map_or(0, |since| since.as_secs() / 86_400);
    let number = u32::try_from(EPOCH + days).ok();
    number.and_then(Date::from_day_number).unwrap_or_else(|| usage("the clock is past 2199: give --today"))
}

/// Where REFUSALS.md is: beside the program, if it was installed with it.
fn refusals() -> String {
    let beside = env::current_exe().ok().and_then(|program| Some(program.parent()?.join("REFUSALS.md")));
    match beside.filter(|path| path.is_file()) {
        Some(path) => path.display().to_string(),
        None => "docs/REFUSALS.md".to_string(),
    }
}

/// Prints, and ends with the status. What could not be written is not said: then the status is that of an unread delivery, so that no script goes on with it. A reader that has seen enough, such
/// as `head`, is no reason to end otherwise.
fn print(status: i32, text: &str) -> ! {
    let mut out = stdout();
    match out.write_all(text.as_bytes()).and_then(|()| out.flush()) {
        Err(error) if error.kind() != ErrorKind::BrokenPipe => {
            eprintln!("desk: not written: {}", error);
            exit(UNREAD)
        }
        _ => exit(status),
    }
}

fn usage(why: &str) -> ! {
    eprintln!("desk: {}\n{}", why, USAGE);
    exit(UNREAD)
}
