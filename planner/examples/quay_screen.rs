//! A quay screen: the next departures at a stop, in a language, from a clock that can be set.
//!
//!     quay_screen [DIRECTORY STOP LANGUAGE DD.MM.YYYY HH:MM [COUNT [MINUTES]]]
//!
//! LANGUAGE is a letter of the standard's list (5.1), such as d, e or f. Without words it shows the market of `examples/night` at 23:40 on the last
//! night of 2025. Last night's runs are there too, by the date on which they start: their times read 25:10 in their own timetable,
//! and 01:10 here. Beside the time stand the category and the number that hold from this stop on, and where the run ends. COUNT is how many are shown
//! (8); with MINUTES the clock goes on for so many, one each second.

use std::env;
use std::error::Error;
use std::path::{Path, PathBuf};
use std::thread::sleep;
use std::time::Duration;

use estelunya_planner::{Coding, Departure, Language, Moment, NameType, Stop, Timetable};

fn main() -> Result<(), Box<dyn Error>> {
    let words: Vec<String> = env::args().skip(1).collect();
    let sample = Path::new(option_env!("CARGO_MANIFEST_DIR").unwrap_or("planner")).join("examples/night");
    let default = ["1000022", "e", "31.12.2025", "23:40"].map(String::from);
    let (directory, asked) = match words.split_first() {
        Some((directory, asked)) => (PathBuf::from(directory), asked),
        None => (sample, &default[..]),
    };
    let (stop, language, now, count, minutes) = match asked {
        [stop, language, date, clock, rest @ ..] => {
            let language = language.parse().ok().and_then(Language::from_letter).ok_or("no such language")?;
            let count = rest.first().map_or(Ok(8), |count| count.parse())?;
            let minutes = rest.get(1).map_or(Ok(0), |minutes| minutes.parse())?;
            (stop.parse()?, language, Moment::new(date.parse()?, clock.parse()?), count, minutes)
        }
        _ => return Err("quay_screen DIRECTORY STOP LANGUAGE DD.MM.YYYY HH:MM [COUNT [MINUTES]]".into()),
    };
    let timetable = Timetable::read(directory)?;
    // One scope for as long as the screen is shown.
    timetable.scope(|timetable| {
        let stop = timetable.stop_by_number(stop).ok_or("no such stop")?;
        for minute in 0..=minutes {
            if minute > 0 {
                sleep(Duration::from_secs(1));
                println!();
            }
            print!("{}", screen(stop, language, (now + minute).by_clock(), count));
        }
        Ok(())
    })
}

fn screen(stop: Stop<'_>, language: Language, now: Moment, count: usize) -> String {
    let lines: Vec<String> = stop.departures(now).take(count).map(|departure| line(departure, language)).collect();
    let none = if lines.is_empty() { "no departures\n" } else { "" };
    format!("{:<44}{}\n\n{}{}", name(stop, language), now, lines.concat(), none)
}

fn line(departure: Departure<'_>, language: Language) -> String {
    let (call, wall) = (departure.call(), departure.moment().by_clock());
    let category = call.departing_category().map_or(String::new(), |category| category.to_string());
    let to = departure.run().calls().last().map_or(String::new(), |last| name(last.stop(), language));
    let started = match departure.time().days_after() {
        0 => String::new(),
        _ => format!("  {} of {}", departure.time(), departure.run().date()),
    };
    let text = format!("{}  {:<3} {:<5} {:<28}{}", wall.time(), category, call.number(), to, started);
    format!("{}\n", text.trim_end())
}

fn name(stop: Stop<'_>, language: Language) -> String {
    stop.name_text(language, NameType::ANY, Coding::Utf8).into_owned()
}
