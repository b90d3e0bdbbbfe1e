//! Every run of every service on a day, with all its calls, and the next 8 departures of every stop from 08:00 on: how many, and in how much processor time.
//!
//!     every_run DIRECTORY DD.MM.YYYY

use std::env;
use std::error::Error;
use std::fs;

use estelunya_planner::{Date, Minutes, Moment, Timetable};

fn main() -> Result<(), Box<dyn Error>> {
    let words: Vec<String> = env::args().skip(1).collect();
    let (directory, date): (&String, Date) = match &words[..] {
        [directory, date] => (directory, date.parse()?),
        _ => return Err("every_run DIRECTORY DD.MM.YYYY".into()),
    };
    let start = processor_time();
    let timetable = Timetable::read(directory)?;
    let loaded = processor_time();
    println!("{:?}: loaded in {:.3} s", timetable, loaded - start);
    let (mut runs, mut calls, mut minutes) = (0u64, 0u64, 0u64);
    timetable.scope(|timetable| {
        let day = timetable.day(date).ok_or("outside the period")?;
        for service in timetable.services() {
            for run in service.runs(day) {
                runs += 1;
                for call in run.calls() {
                    calls += 1;
                    minutes += u64::from(call.departure().unwrap_or_default().count());
                }
            }
        }
        Ok::<(), Box<dyn Error>>(())
    })?;
    let asked = processor_time() - loaded;
    println!("on {}: {} runs, {} calls, {} minutes together, in {:.4} s", date, runs, calls, minutes, asked);
    let (eight, start) = (Moment::new(date, Minutes::new(8, 0)), processor_time());
    let (stops, departures) = timetable.scope(|timetable| {
        let stops = timetable.stops();
        (stops.len(), stops.map(|stop| stop.departures(eight).take(8).count()).sum::<usize>())
    });
    let asked = processor_time() - start;
    println!("from {}: the next 8 at each of {} stops, {} departures, in {:.4} s", eight, stops, departures, asked);
    Ok(())
}

/// Seconds that this thread has had a processor; 0 where the system does not say.
fn processor_time() -> f64 {
    // the system counts up to the last time that it looked: let it look
    std::thread::yield_now();
    let told = fs::read_to_string("/proc/thread-self/schedstat").unwrap_or_default();
    told.split(' ').next().and_then(|nanoseconds| nanoseconds.parse::<f64>().ok()).unwrap_or(0.0) / 1e9
}
