//! What the program says of one delivery: the answer, and what is worked out of it.

use std::path::Path;
use std::sync::mpsc::{channel, RecvTimeoutError};
use std::thread;
use std::time::{Duration, Instant};

use estelunya_planner::by_number::{load, room};
use estelunya_planner::layout::{
    BIT_FIELDS_AT, CLASSES_AT, FIRST_DAY_AT, INTERCHANGES_AT, PERIOD_DAYS_AT, SERVICES_AT, STOPS_AT,
};
use estelunya_planner::{Date, Files, LoadRefusal};

use super::explain::{tell, Answer, Told};
use super::json;
use super::lines::Delivery;
use super::looks::{self, of_file, Look};
use super::read::{read, Unread};
use super::screen::{screen, short};
use super::survey::Survey;

/// The exit status of an accepted delivery.
pub const ACCEPTED: i32 = 0;
/// Of a refused one.
pub const REFUSED: i32 = 1;
/// Of one that could not be read, and where something could not be written.
pub const UNREAD: i32 = 2;
/// Of an accepted one at which somebody should look.
pub const LOOK: i32 = 3;

/// A load that takes longer says that it goes on, and says it again each time.
const LONG_WAIT: Duration = Duration::from_secs(1);

/// Offences of a kind that `--all` shows, if nothing else is asked for.
pub const MOST_SHOWN: usize = 5;

/// Services that `--all` names at most as not checked as a whole.
const MOST_NAMED: usize = 10;

/// What is asked for.
#[derive(Clone, Debug)]
pub struct Options {
    /// What else is likely to be refused.
    pub all: bool,
    /// How many of each kind are shown, if it is said.
    pub most: Option<usize>,
    /// One object in place of the text.
    pub json: bool,
    /// The day on which a period is over or not.
    pub today: Date,
}

impl Options {
    /// As without a word.
    pub fn new(today: Date) -> Options {
        Options { all: false, most: None, json: false, today }
    }
}

/// A delivery that was accepted.
#[derive(Clone, Debug)]
pub struct Accepted {
    /// The words of its table.
    pub words: Vec<u32>,
    /// What is odd in it.
    pub looks: Vec<Look>,
}

/// A delivery that was refused.
#[derive(Clone, Debug)]
pub struct Refused {
    /// The proved answer.
    pub answer: Answer,
    /// What it means.
    pub told: Told,
    /// What else is likely to be refused, if it was asked for.
    pub survey: Option<Survey>,
}

/// What became of a delivery.
#[derive(Clone, Debug)]
pub enum Outcome {
    /// It is taken.
    Accepted(Accepted),
    /// It is not.
    Refused(Box<Refused>),
    /// It is not there.
    Unread(Unread),
}

impl Outcome {
    /// The exit status.
    pub fn status(&self) -> i32 {
        match self {
            Outcome::Accepted(accepted) if accepted.looks.is_empty() => ACCEPTED,
            Outcome::Accepted(_) => LOOK,
            Outcome::Refused(_) => REFUSED,
            Outcome::Unread(_) => UNREAD,
        }
    }
}

/// The exit status, and what is printed.
pub fn run(directory: &Path, options: &Options) -> (i32, String) {
    match read(directory) {
        Ok(delivery) => told(&delivery, options),
        Err(unread) => written(&Delivery { files: Default::default() }, &Outcome::Unread(unread), options),
    }
}

/// The exit status, and what is printed of a delivery.
pub fn told(delivery: &Delivery, options: &Options) -> (i32, String) {
    written(delivery, &outcome(delivery, options), options)
}

/// What becomes of a delivery.
pub fn outcome(delivery: &Delivery, options: &Options) -> Outcome {
    match loaded(delivery) {
        Ok(words) => {
            let looks = looks::accepted(delivery, words[SERVICES_AT], options.today);
            Outcome::Accepted(Accepted { words, looks })
        }
        Err(answer) => {
            let survey = options.all.then(|| Survey::of(delivery));
            Outcome::Refused(Box::new(Refused { told: tell(delivery, &answer), answer, survey }))
        }
    }
}

fn written(delivery: &Delivery, outcome: &Outcome, options: &Options) -> (i32, String) {
    let text = if options.json { json::outcome(delivery, outcome, options) } else { text(delivery, outcome, options) };
    (outcome.status(), text)
}

/// The text of a delivery.
pub fn text(delivery: &Delivery, outcome: &Outcome, options: &Options) -> String {
    match outcome {
        Outcome::Accepted(accepted) => accepted.text(),
        Outcome::Refused(refused) => {
            let mut text = screen(delivery, &refused.answer, &refused.told);
            if let Some(survey) = &refused.survey {
                text.push_str(&further(delivery, survey, options.most.unwrap_or(MOST_SHOWN)));
            }
            text
        }
        Outcome::Unread(unread) => unread_text(unread),
    }
}

fn unread_text(unread: &Unread) -> String {
    let first = unread.files.first().map_or(0, |(file, _)| file.number());
    let mut text = format!("unread file {}\n", first);
    for (file, why) in &unread.files {
        text.push_str(&format!("{}: {}\n", file.name(), why));
    }
    for look in &unread.looks {
        text.push_str(&format!("look: {}\n", look));
    }
    text
}

impl Accepted {
    /// The counts of the header, by their names.
    pub fn counts(&self) -> [(&'static str, u32); 7] {
        [
            ("days", self.words[PERIOD_DAYS_AT]),
            ("bitfields", self.words[BIT_FIELDS_AT]),
            ("stops", self.words[STOPS_AT]),
            ("interchange", self.words[INTERCHANGES_AT]),
            ("categories", self.words[CLASSES_AT]),
            ("services", self.words[SERVICES_AT]),
            ("words", self.words.len() as u32),
        ]
    }

    /// The first and last day, as the table has them.
    pub fn period(&self) -> [String; 2] {
        let first = self.words[FIRST_DAY_AT];
        [first, first + self.words[PERIOD_DAYS_AT] - 1]
            .map(|day| Date::from_day_number(day).map_or_else(String::new, |date| date.to_string()))
    }

    /// The line of the answer, and a line for each that is odd.
    pub fn text(&self) -> String {
        let counts: Vec<String> = self.counts().iter().map(|(name, count)| format!("{} {}", name, count)).collect();
        let [first, last] = self.period();
        let mut text = format!("accepted {} from {} to {}\n", counts.join(" "), first, last);
        for look in &self.looks {
            text.push_str(&format!("look: {}: {}\n", of_file(look.file, look.line), look.says));
            text.push_str(&format!("see:  {}#{}\n", super::refusals(), look.see));
        }
        text
    }
}

/// The words of the table, or the refusal.
pub fn loaded(delivery: &Delivery) -> Result<Vec<u32>, Answer> {
    with_progress(|| {
        // So many are enough: that is proved.
        let mut words = vec![0; room(&files(delivery))];
        let used = load(&files(delivery), &mut words).map_err(answer)?;
        words.truncate(used.words as usize);
        Ok(words)
    })
}

/// The files as the loader takes them.
pub fn files(delivery: &Delivery) -> Files<'_> {
    let [eckdaten, bitfeld, bahnhof, umsteigb, fplan, zugart] = &delivery.files;
    Files { eckdaten, bitfeld, bahnhof, umsteigb, fplan, zugart }
}

/// A refusal as numbers.
pub fn answer(refusal: LoadRefusal) -> Answer {
    let LoadRefusal { offence, file, line, column, needed, .. } = refusal;
    Answer { number: offence.number(), file: file.map_or(0, |file| file.number()), line, column, needed }
}

/// Says on standard error that the work goes on, if it takes long.
fn with_progress<T>(work: impl FnOnce() -> T) -> T {
    let (done, wait) = channel::<()>();
    let start = Instant::now();
    let teller = thread::spawn(move || {
        while wait.recv_timeout(LONG_WAIT) == Err(RecvTimeoutError::Timeout) {
            eprintln!("desk: loading, {} s", start.elapsed().as_secs());
        }
    });
    let result = work();
    drop(done);
    teller.join().ok();
    result
}

/// `--all`: the offences by kind, of each kind at most so many.
fn further(delivery: &Delivery, survey: &Survey, most: usize) -> String {
    let kinds = survey.kinds(delivery);
    let count = |count: usize, what: &str| format!("{} {}{}", count, what, if count == 1 { "" } else { "s" });
    let mut text = format!(
        "\n--all: {} of {} in all six files; the refused one is proved, the others are likely\n",
        count(survey.found.len(), "offence"),
        count(kinds.len(), "kind")
    );
    for (heading, found) in &kinds {
        text.push_str(&format!("  {:>7}  {}\n", found.len(), heading));
    }
    for (heading, found) in &kinds {
        text.push_str(&format!("\n{}: {}\n", heading, found.len()));
        for answer in found.iter().take(most) {
            let word = if Some(answer) == survey.found.first() { "refused" } else { "likely" };
            text.push_str(&short(delivery, answer, &tell(delivery, answer), word));
        }
        if found.len() > most {
            let lines: Vec<String> =
                found[most..].iter().take(MOST_NAMED).map(|answer| answer.line.to_string()).collect();
            let more = if found.len() - most > MOST_NAMED { " .." } else { "" };
            text.push_str(&format!(
                "and {} more, in lines {}{} (--most N shows more)\n",
                found.len() - most,
                lines.join(", "),
                more
            ));
        }
    }
    text.push_str(&not_checked(survey));
    text
}

/// What `--all` could not look at.
fn not_checked(survey: &Survey) -> String {
    let mut text = String::new();
    if survey.no_period {
        text.push_str(
            "\n--all: ECKDATEN has no period, so that the frames of BITFELD (8) and stretches (19) were not checked\n",
        );
    }
    let named: Vec<String> = survey.unchecked.iter().take(MOST_NAMED).map(u32::to_string).collect();
    let more = match survey.unchecked.len() {
        0 => return text,
        count if count > MOST_NAMED => format!(" and {} more", count - MOST_NAMED),
        _ => String::new(),
    };
    let s = if survey.unchecked.len() == 1 { "" } else { "s" };
    text.push_str(&format!(
        "\n--all: in the service{s} of line{s} {}{} not all of 14 to 19 could be checked: ask again when mended\n",
        named.join(", "),
        more,
        s = s
    ));
    text
}
