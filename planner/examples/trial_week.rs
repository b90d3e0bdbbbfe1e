//! Reads the six files of a delivery, loads them, and walks the first service on 05.12.2025 and 06.12.2025.
//!
//!     trial_week [DIRECTORY]
//!
//! Without a directory it takes the sample delivery, document 01's trial week, which runs on the first of these days only.

use std::env;
use std::error::Error;
use std::path::{Path, PathBuf};

use estelunya_planner::{Call, Coding, Date, Day, Language, Minutes, Month, NameType, Service, Timetable};

fn main() -> Result<(), Box<dyn Error>> {
    let timetable = Timetable::read(directory())?;
    println!("accepted: {:?}", timetable);
    for day in [5, 6] {
        let date = Date::new(day, Month::December, 2025).ok_or("no such date")?;
        timetable.scope(|timetable| {
            let day = timetable.day(date).ok_or("outside the period")?;
            timetable.services().take(1).for_each(|service| show(service, day));
            Ok::<(), Box<dyn Error>>(())
        })?;
    }
    Ok(())
}

/// The directory given, or that of the sample delivery; a program made without cargo looks for it from the root.
fn directory() -> PathBuf {
    match env::args_os().nth(1) {
        Some(given) => PathBuf::from(given),
        None => Path::new(option_env!("CARGO_MANIFEST_DIR").unwrap_or("planner")).join("../crates/ferry/data"),
    }
}

fn show<'t>(service: Service<'t>, day: Day<'t>) {
    let runs = service.runs(day);
    println!("service {:05} on {}: {} runs", service.number(), day, runs.len());
    for run in runs {
        run.calls().for_each(|call| println!("  {}", call_text(&call)));
    }
}

fn call_text(call: &Call<'_>) -> String {
    let name = call.stop().name_text(Language::English, NameType::ANY, Coding::Utf8);
    let category = call.departing_category().map_or(String::new(), |category| category.to_string());
    let administration = call.administration();
    let (times, service) = ([call.arrival(), call.departure()].map(clock), Coding::Utf8.text(&administration));
    let stop = call.stop().number();
    format!("{} {} {:3} {:05} {} {} {}", times[0], times[1], category, call.number(), service, stop, name)
}

fn clock(time: Option<Minutes>) -> String {
    time.map_or("  -  ".to_string(), |time| time.to_string())
}
