//! A day in the host: how a planner lives with timetables from night to night. This is a chapter; there is nothing to call in it.
//!
//! # Size
//!
//! [`Timetable::load`](crate::Timetable::load) takes what it needs from the heap, and knows beforehand how much that is: the words that are enough for files of these sizes ([`room`](crate::by_number::room); that they are is
//! proved), which take less than the bytes of the files once again, and four words of four bytes (helper words) for each line of BITFELD, BAHNHOF and UMSTEIGB. A delivery is loaded once, never a second time with more words. Afterwards the
//! timetable keeps the table's own words, its index, which is shorter, and BAHNHOF's bytes; the rest is given back. No file is over 16 MiB (16,777,216 bytes): a longer one is refused. So a host can say its most before it reads a file
//! ([`room_for`](crate::by_number::room_for)): 55 MB for the words of the table if all files have 16 MiB. The helper words are the larger part, since every line counts, a blank one too: three files of 16 MiB that are nothing but LF
//! need 805,306,624 bytes, so that the most is about 860 MB, besides the files themselves. No delivery that is meant needs that (BAHNHOF's shortest line has 13 bytes), but a broken export may: a host whose memory is
//! bounded caps the sizes of the files, or the number of lines of BITFELD, BAHNHOF and UMSTEIGB ([`helper_words`](crate::by_number::helper_words) says the words before a load), and does not load what is over. Where the memory is not there, [`Timetable::load`](crate::Timetable::load) says so ([`NoMemory`](crate::NoMemory)) and the host goes on with what it has; it does not abort. The archive itself takes no heap, and of the stack at most 32 KiB for a load (measured in the gate): the crate's tests load and walk the largest service on a thread of 64 KiB.
//!
//! # Load
//!
//! One call for a delivery, at night, on any thread. It is accepted or refused as a whole. A refusal is an `Err` and yields no timetable, so there is nothing that could be asked by
//! mistake; the one of the night before stands as it stood, and goes on answering for its own period. Write the refusal to the log (its text begins as the program's line does) and to the
//! operator's data desk (docs/REFUSALS.md says how to mend it).
//!
//! The crate and the archive that it is linked with have to be of one version. They are compared once, before the first call; a host that was built with an archive of another version panics at its first load, and not with a wrong answer later.
//!
//! An accepted delivery may be empty: no services, or a period that is over. That is for the host to see, before it swaps:
//!
//! ```
//! use estelunya_planner::{Date, Timetable};
//!
//! fn fit(timetable: &Timetable, today: Date) -> bool {
//!     timetable.service_count() > 0 && timetable.period().contains(today)
//! }
//!
//! # fn main() -> Result<(), Box<dyn std::error::Error>> {
//! let timetable = Timetable::read("../crates/ferry/data")?;
//! assert!(fit(&timetable, "01.12.2025".parse()?));
//! assert!(!fit(&timetable, "08.12.2025".parse()?));
//! # Ok(())
//! # }
//! ```
//!
//! # Share, and threads
//!
//! A timetable is never changed, and is `Send` and `Sync`: put it into an [`Arc`](std::sync::Arc), and give a clone of that to whoever asks. No lock is needed to ask: the archive keeps no
//! state between calls. Each request enters a scope of the timetable, asks, and gives back plain values (keys, numbers, dates, strings); handles stay inside the scope. Threads that end
//! inside it may share its handles.
//!
//! # Swap at night, drop when the last run has ended
//!
//! The place where the timetable of the day stands is the only thing that is locked, and only for as long as a pointer is copied. A request that has begun keeps the timetable that
//! it began with; the old one is dropped when the last of them has ended.
//!
//! A run belongs to the date on which it *starts*. At half past midnight last night's ferry is still on its way: ask for it with yesterday's date, its times are then over 24:00. If
//! the new period begins today, the new timetable has no such [day](crate::Scope::day), and does not know that run. So do not drop the old timetable at midnight, but when its
//! last run has ended:
//!
//! ```
//! use estelunya_planner::{Date, Minutes, Timetable};
//! use std::sync::{Arc, RwLock};
//!
//! /// Today's timetable, and yesterday's while its last runs are on their way.
//! struct Host {
//!     today: RwLock<Arc<Timetable>>,
//!     yesterday: RwLock<Option<Arc<Timetable>>>,
//! }
//!
//! impl Host {
//!     fn current(&self) -> Arc<Timetable> {
//!         Arc::clone(&self.today.read().unwrap())
//!     }
//!
//!     fn swap(&self, new: Timetable) {
//!         let old = std::mem::replace(&mut *self.today.write().unwrap(), Arc::new(new));
//!         *self.yesterday.write().unwrap() = Some(old);
//!     }
//! }
//!
//! /// When the last run that starts on a date has ended, from the start of that date; found once, when the timetable is loaded.
//! fn last_arrival(timetable: &Timetable, date: Date) -> Option<Minutes> {
//!     timetable.scope(|timetable| {
//!         let day = timetable.day(date)?;
//!         let last_runs = timetable.services().filter_map(|service| service.runs(day).next_back());
//!         last_runs.filter_map(|run| run.calls().last()?.arrival()).max()
//!     })
//! }
//!
//! # fn main() -> Result<(), Box<dyn std::error::Error>> {
//! let timetable = Timetable::read("../crates/ferry/data")?;
//! assert_eq!(last_arrival(&timetable, "05.12.2025".parse()?), Some(Minutes::new(8, 55)));
//! let host = Host { today: RwLock::new(Arc::new(timetable)), yesterday: RwLock::new(None) };
//!
//! let asked = host.current();
//! host.swap(Timetable::read("../crates/ferry/data")?);
//! // a request that began before the swap goes on with what it began with
//! assert_eq!(asked.scope(|timetable| timetable.services().len()), 1);
//! // the last run has ended
//! *host.yesterday.write().unwrap() = None;
//! # Ok(())
//! # }
//! ```
//!
//! A run may be on its way for longer than a night (hours count up to 999): the old timetable stays until the last runs of *all* its earlier dates have ended, not of yesterday's alone. And this host keeps one old
//! timetable: who swaps twice in a night, for a corrected delivery, keeps a list of them, or the first swap's is dropped too early.
//!
//! # Serve all day inside one scope
//!
//! A scope may be as long as the day. Then handles are made once and stay at hand, in maps and on threads, and none outlives the swap, since the scope ends with it: what a thread keeps of a timetable goes with the
//! timetable. The requests come in by a channel; the one that brings a new timetable ends the scope.
//!
//! ```
//! use estelunya_planner::{Coding, Language, Moment, NameType, Stop, Timetable};
//! use std::collections::HashMap;
//! use std::sync::mpsc::{channel, Receiver, Sender};
//! use std::thread;
//!
//! enum Request {
//!     /// The next departure from the stop of a name, by calendar and clock.
//!     Next { stop: String, now: Moment, answer: Sender<Option<Moment>> },
//!     Swap(Timetable),
//! }
//!
//! /// Serves until another timetable comes, and gives that back; none when nobody asks any more.
//! fn serve(timetable: &Timetable, requests: &Receiver<Request>) -> Option<Timetable> {
//!     timetable.scope(|timetable| {
//!         // once a day: stops by their names, as handles
//!         let name = |stop: Stop<'_>| stop.name_text(Language::English, NameType::ANY, Coding::Utf8).into_owned();
//!         let stops: HashMap<String, Stop<'_>> = timetable.stops().map(|stop| (name(stop), stop)).collect();
//!         for request in requests {
//!             match request {
//!                 Request::Next { stop, now, answer } => {
//!                     let next = stops.get(&stop).and_then(|stop| stop.departures(now).next());
//!                     // who asked may be gone
//!                     answer.send(next.map(|departure| departure.moment().by_clock())).ok();
//!                 }
//!                 Request::Swap(new) => return Some(new),
//!             }
//!         }
//!         None
//!     })
//! }
//!
//! # fn main() -> Result<(), Box<dyn std::error::Error>> {
//! let (ask, requests) = channel();
//! let mut timetable = Timetable::read("../crates/ferry/data")?;
//! let server = thread::spawn(move || {
//!     while let Some(new) = serve(&timetable, &requests) {
//!         timetable = new;
//!     }
//! });
//!
//! let next = |stop: &str, now: &str| -> Result<Option<Moment>, Box<dyn std::error::Error>> {
//!     let (answer, answered) = channel();
//!     ask.send(Request::Next { stop: stop.to_string(), now: now.parse()?, answer })?;
//!     Ok(answered.recv()?)
//! };
//! assert_eq!(next("Quay B", "05.12.2025 08:00")?, Some("05.12.2025 08:12".parse()?));
//! // the night's delivery: nothing that was kept of the old timetable is left
//! ask.send(Request::Swap(Timetable::read("examples/night")?))?;
//! assert_eq!(next("Quay B", "05.12.2025 08:00")?, None);
//! assert_eq!(next("Market", "31.12.2025 23:55")?, Some("01.01.2026 00:10".parse()?));
//! drop(ask);
//! server.join().unwrap();
//! # Ok(())
//! # }
//! ```
//!
//! Several threads may serve one timetable in this way, each with its own scope and an `Arc` of it, or inside one scope by [`std::thread::scope`].
//!
//! # Keep keys
//!
//! Numbers do not survive the night: an index of a service, and the number of a bit field, mean something in their own delivery only. So handles do not say them. What a host keeps during the day it keeps by
//! [keys](crate::Key): after the swap they find nothing, and never another's. What it keeps over the night it keeps by what people know: service number, administration, stop numbers, dates.
//!
//! # What a question costs
//!
//! Its answer, and not the timetable's size: with the load an index is made, and every question of a handle is asked by it. A walk takes some microseconds, a day, a name or an interchange
//! time a fraction of one (docs/MEASURED.md), of a village's ferry and of a nation's railway alike. So ask when you need to know, and ask again the next time. **Put no cache in front**: what a
//! cache holds is last night's once the timetable has been swapped, and a ferry has sailed empty for that. A list costs as much as it gives: [`Scope::bit_fields`](crate::Scope::bit_fields) and its like
//! a step for each, [`Service::runs`](crate::Service::runs) one walk and a step for each run, [`Run::calls`](crate::Run::calls) one walk,
//! [`Stop::board`](crate::Stop::board) a step for each call at the stop and each departure, and [`Stop::departures`](crate::Stop::departures) as much for each look ahead. Arithmetic on days takes some microseconds.
//!
//! The index is made of the words that were just loaded, and the timetable keeps the two together: nothing can part them. (Who lends the words himself has to, see
//! [`Table::with_index`](crate::by_number::Table::with_index).)
//!
//! # What a class is
//!
//! The quality of a means of transport, 0 the highest to 13 the lowest. Two classes that are both 0, 1 or 2 take a stop's first time, all others its second. Which category (*G, such as `BAT`) has which class stands
//! in ZUGART (5.5), and [`Category::class`](crate::Category::class) says it. So a host does not handle classes: the change from one run to another at a stop is
//! [`Call::interchange_to`](crate::Call::interchange_to), by the categories of the leg that arrives and of the one that leaves; that both are listed is proved.
//! [`Stop::interchange`](crate::Stop::interchange) takes two classes, for a service that is in no timetable.
//!
//! ```
//! # fn main() -> Result<(), Box<dyn std::error::Error>> {
//! # let timetable = estelunya_planner::Timetable::read("../crates/ferry/data")?;
//! # let friday = "05.12.2025".parse()?;
//! timetable.scope(|timetable| {
//!     let (friday, ferry) = (timetable.day(friday).expect("in the period"), timetable.services().next().expect("a service"));
//!     let run = ferry.runs(friday).next().expect("it runs on Fridays");
//!     let calls: Vec<_> = run.calls().collect();
//!     // it comes back to the second quay: from the last call to the second, boat to boat
//!     assert_eq!(calls[3].interchange_to(&calls[1]), Some(3));
//!     assert_eq!(calls[3].interchange_to(&calls[0]), None);
//! });
//! # Ok(())
//! # }
//! ```
