//! `--clean`: a delivery written back in one clean form (document 02, No. 11): FPLAN as the archive writes it, beside copies of the other files.

use std::fs;
use std::io;
use std::path::Path;

use estelunya_planner::by_number::Table;
use estelunya_planner::layout::{FIRST_SERVICE_AT, OPENING_LINE_AT, SERVICES_AT, SIZE_AT};
use estelunya_planner::File;

use super::lines::{Delivery, FPLAN};
use super::read::read;
use super::report::{self, loaded, outcome, Options, Outcome, UNREAD};

/// The bytes of a line, with LF.
const LINE: usize = 60;

/// The exit status, and what is printed.
pub fn run(directory: &Path, out: &Path, options: &Options) -> (i32, String) {
    let delivery = match read(directory) {
        Ok(delivery) => delivery,
        Err(_) => return report::run(directory, options),
    };
    let outcome = outcome(&delivery, options);
    let text = report::text(&delivery, &outcome, options);
    let words = match &outcome {
        Outcome::Accepted(accepted) => &accepted.words,
        // Nothing is written of a refused delivery.
        _ => return (outcome.status(), text),
    };
    match written(&delivery, words, out) {
        Ok(told) => (outcome.status(), text + &told),
        Err(why) => (UNREAD, format!("{}clean: not written: {}: {}\n", text, out.display(), why)),
    }
}

/// Writes the clean delivery, and loads it again.
fn written(delivery: &Delivery, words: &[u32], out: &Path) -> Result<String, String> {
    let plan = Table::new(words).fplan().map_err(|refusal| refusal.to_string())?;
    fill(delivery, &plan, out).map_err(|error| error.to_string())?;
    let again =
        read(out).map_err(|unread| unread.files.into_iter().map(|(_, why)| why).collect::<Vec<_>>().join("; "))?;
    let same = loaded(&again).map_err(|answer| format!("refused {} when loaded again", answer.number))?;
    if without_lines(&same) != without_lines(words) {
        return Err("loaded again it is another timetable".to_string());
    }
    if Table::new(&same).fplan().as_ref() != Ok(&plan) {
        return Err("written again it is another text".to_string());
    }
    let (lines, bytes) = (plan.len() / LINE, delivery.file(FPLAN).len());
    Ok(format!(
        "clean: {}: FPLAN of {} lines, {} bytes (it had {}), and copies of the other files\n\
         clean: loaded again from there: the same timetable but for the opening lines; written again: the same bytes\n",
        out.display(),
        lines,
        plan.len(),
        bytes
    ))
}

/// Six files in a new directory, or in one that is empty: what is there is not written over.
fn fill(delivery: &Delivery, plan: &[u8], out: &Path) -> io::Result<()> {
    fs::create_dir_all(out)?;
    if fs::read_dir(out)?.next().is_some() {
        return Err(io::Error::new(io::ErrorKind::AlreadyExists, "the directory is not empty"));
    }
    for file in File::ALL {
        let bytes = if file == File::Fplan { plan } else { delivery.file(file.number()) };
        fs::write(out.join(file.name()), bytes)?;
    }
    Ok(())
}

/// The words of a table with the opening line of each service left out.
fn without_lines(words: &[u32]) -> Vec<u32> {
    let (mut bare, mut place) = (words.to_vec(), words[FIRST_SERVICE_AT] as usize);
    for _ in 0..words[SERVICES_AT] {
        bare[place + OPENING_LINE_AT] = 0;
        place += words[place + SIZE_AT] as usize;
    }
    bare
}
