//! `--compare`: what a delivery changes against an earlier one, on the days that both have: services, stops, bit fields, categories and interchange times that went, came or are others under the same
//! name. A bit field's number that has other days is the accident of a host that keeps numbers over a night: it is a `look:`.

use std::collections::{BTreeMap, BTreeSet};
use std::path::Path;

use estelunya_planner::by_number::Table;
use estelunya_planner::{Date, Period};

use super::dates::period;
use super::json;
use super::lines::{
    column, columns, digits, gives_days, kind, lines, number, passed_over, text, trimmed, Delivery, Kind, BAHNHOF,
    BITFELD, ECKDATEN, UMSTEIGB, ZUGART,
};
use super::read::read;
use super::report::{outcome, Accepted, Options, Outcome, LOOK, UNREAD};
use super::service::bit;

/// Changes of a kind that are shown, if nothing else is asked for.
const MOST_SHOWN: usize = 20;

/// Dates that are named of a bit field.
const MOST_DATES: usize = 5;

/// One thing that is another in the new delivery.
#[derive(Clone, Debug, PartialEq, Eq, PartialOrd, Ord)]
pub struct Change {
    /// `service`, `stop`, `bit field`, `category`, `interchange`.
    pub what: &'static str,
    /// `went`, `came` or `changed`.
    pub how: &'static str,
    /// Its number or code.
    pub name: String,
    /// In what.
    pub says: String,
}

/// The exit status, and what is printed.
pub fn run(old: &Path, new: &Path, options: &Options) -> (i32, String) {
    let mut sides = Vec::new();
    for directory in [old, new] {
        match read(directory) {
            Ok(delivery) => sides.push(delivery),
            Err(_) => {
                let (status, told) = super::report::run(directory, options);
                return (status, format!("{}compare: {} cannot be read\n", told, directory.display()));
            }
        }
    }
    let plain = Options { json: false, all: false, ..options.clone() };
    match (outcome(&sides[0], &plain), outcome(&sides[1], &plain)) {
        (Outcome::Accepted(before), Outcome::Accepted(after)) => told(&sides, &before, &after, options),
        (Outcome::Accepted(_), _) => super::report::told(&sides[1], options),
        (refused, _) => {
            let told = super::report::text(&sides[0], &refused, &plain);
            (
                UNREAD,
                format!("{}compare: {} is refused, so that nothing can be compared with it\n", told, old.display()),
            )
        }
    }
}

fn told(sides: &[Delivery], before: &Accepted, after: &Accepted, options: &Options) -> (i32, String) {
    let changes = changes([&sides[0], &sides[1]], [before, after]);
    let accident = |change: &&Change| (change.what, change.how) == ("bit field", "changed");
    let most = options.most.unwrap_or(MOST_SHOWN);
    let other: Vec<&Change> = changes.iter().filter(accident).collect();
    let mut looks: Vec<String> =
        other.iter().take(most).map(|change| format!("bit field {} {}", change.name, change.says)).collect();
    if other.len() > most {
        looks.push(format!(
            "{} more bit fields have other days than before: numbers were given anew",
            other.len() - most
        ));
    }
    looks.extend(fewer(before, after));
    let status = if looks.is_empty() && after.looks.is_empty() { 0 } else { LOOK };
    if options.json {
        return (status, json::compared(status, after, &looks, &changes));
    }
    let mut text = after.text();
    for look in &looks {
        text.push_str(&format!("look: {}\n", look));
    }
    text.push_str(&periods(before, after));
    let mut kinds: BTreeMap<(&str, &str), Vec<&Change>> = BTreeMap::new();
    for change in changes.iter().filter(|change| !accident(change)) {
        kinds.entry((change.what, change.how)).or_default().push(change);
    }
    for ((what, how), found) in &kinds {
        text.push_str(&format!("{}: {} {}\n", how, what, found.len()));
        for change in found.iter().take(most) {
            text.push_str(format!("  {} {}", change.name, change.says).trim_end());
            text.push('\n');
        }
        if found.len() > most {
            text.push_str(&format!("  and {} more (--most N shows more)\n", found.len() - most));
        }
    }
    if changes.is_empty() {
        text.push_str("compare: nothing has changed but the period, if that has\n");
    }
    (status, text)
}

fn periods(before: &Accepted, after: &Accepted) -> String {
    let ([first, last], [was, until]) = (after.period(), before.period());
    if (&first, &last) == (&was, &until) {
        return String::new();
    }
    format!(
        "compare: the period is {} to {}, and was {} to {}; days are compared where both have them\n",
        first, last, was, until
    )
}

/// Far fewer services or stops than before are hardly meant.
fn fewer(before: &Accepted, after: &Accepted) -> Vec<String> {
    let pairs = before.counts().into_iter().zip(after.counts());
    let few = pairs.filter(|((name, was), (_, is))| {
        ["services", "stops"].contains(name) && u64::from(*is) * 10 < u64::from(*was) * 9
    });
    few.map(|((name, was), (_, is))| format!("{} {}, and {} before: over a tenth went", is, name, was)).collect()
}

/// All changes, by what and how they are.
pub fn changes(sides: [&Delivery; 2], tables: [&Accepted; 2]) -> Vec<Change> {
    let periods = sides.map(|side| period(side.file(ECKDATEN)));
    let shared = match periods {
        [Some(before), Some(after)] => Period::new(before.first.max(after.first), before.last.min(after.last)),
        _ => None,
    };
    let dates: Vec<Date> = shared.map_or_else(Vec::new, |shared| shared.dates().collect());
    let fields = [0, 1].map(|side| days_of(sides[side], periods[side], &dates));
    let services = [0, 1].map(|side| services_of(tables[side], &fields[side]));
    let mut found = service_changes(&services);
    let mut means: BTreeMap<&str, u32> = BTreeMap::new();
    for number in services[1].values().flatten().flat_map(|block| &block.fields) {
        *means.entry(number).or_default() += 1;
    }
    found.extend(listed("bit field", &fields, |name, was, is| {
        let on = |wanted: &dyn Fn(usize) -> bool| -> Vec<String> {
            (0..dates.len()).filter(|day| wanted(*day)).map(|day| dates[day].to_string()).collect()
        };
        let named = |days: &[String]| {
            let shown = days[..days.len().min(MOST_DATES)].join(", ");
            format!("{} days: {}{}", days.len(), shown, if days.len() > MOST_DATES { " .." } else { "" })
        };
        let (gone, new) = (on(&|day| was[day] && !is[day]), on(&|day| is[day] && !was[day]));
        let count = means.get(name).copied().unwrap_or(0);
        let mut says = format!("has other days than before (services that mean it: {})", count);
        if !gone.is_empty() {
            says.push_str(&format!("; no more on {}", named(&gone)));
        }
        if !new.is_empty() {
            says.push_str(&format!("; newly on {}", named(&new)));
        }
        says
    }));
    let another = |_: &str, was: &String, is: &String| format!("is `{}`, and was `{}`", is, was);
    found.extend(listed("stop", &sides.map(|side| entries(side.file(BAHNHOF), 7, (13, 62))), another));
    found.extend(listed("category", &sides.map(|side| entries(side.file(ZUGART), 3, (5, 6))), another));
    found.extend(listed("interchange", &sides.map(minutes_of), another));
    found.sort();
    found
}

/// What a file lists: number or code, and the columns that say something of it.
fn entries(file: &[u8], width: usize, (first, last): (usize, usize)) -> BTreeMap<String, String> {
    let entry = |line: &[u8]| (text(&columns(line, 1, width)), text(trimmed(&columns(line, first, last))));
    lines(file).filter(|line| !passed_over(line)).map(entry).collect()
}

/// The minutes of each record of UMSTEIGB, as numbers.
fn minutes_of(side: &Delivery) -> BTreeMap<String, String> {
    let file = side.file(UMSTEIGB);
    let number = |line: &[u8], first: usize| number(trimmed(&columns(line, first, first + 1))).unwrap_or(0);
    let entry = |line: &[u8]| (text(&columns(line, 1, 7)), format!("{} {}", number(line, 9), number(line, 12)));
    lines(file).filter(|line| !passed_over(line)).map(entry).collect()
}

/// Whether each bit field runs, for each of the dates.
fn days_of(side: &Delivery, period: Option<Period>, dates: &[Date]) -> BTreeMap<String, Vec<bool>> {
    let start = period.map_or(0, |period| period.first.day_number());
    let runs = |line: &[u8], date: &Date| bit(line, (date.day_number() - start) as usize + 2);
    lines(side.file(BITFELD))
        .filter(|line| !passed_over(line))
        .map(|line| (text(&columns(line, 1, 6)), dates.iter().map(|date| runs(line, date)).collect()))
        .collect()
}

/// What went, came and changed in what is listed by name.
fn listed<T: PartialEq>(
    what: &'static str,
    [was, is]: &[BTreeMap<String, T>; 2],
    says: impl Fn(&str, &T, &T) -> String,
) -> Vec<Change> {
    let change = |how, name: &String, says| Change { what, how, name: name.clone(), says };
    let gone = was.keys().filter(|name| !is.contains_key(*name)).map(|name| change("went", name, String::new()));
    let new = is.keys().filter(|name| !was.contains_key(*name)).map(|name| change("came", name, String::new()));
    let other = is.iter().filter_map(|(name, is)| {
        let was = was.get(name).filter(|was| *was != is)?;
        Some(change("changed", name, says(name, was, is)))
    });
    gone.chain(new).chain(other).collect()
}

/// Which lines of a service are looked at.
type Wanted = fn(&[u8]) -> bool;

/// A service as the archive writes it back.
#[derive(Clone, Debug, PartialEq, Eq)]
struct Block {
    /// Its lines, a bit field by its days.
    lines: Vec<Vec<u8>>,
    /// The numbers of its bit fields.
    fields: BTreeSet<String>,
}

impl Block {
    /// Where and when it starts, for people.
    fn start(&self) -> String {
        let call = self.lines.iter().find(|line| kind(line) == Kind::Call);
        call.map_or_else(String::new, |call| {
            format!("from {} at {}", text(&columns(call, 1, 7)), text(trimmed(&columns(call, 37, 42))))
        })
    }

    /// In what it differs from another.
    fn differs(&self, other: &Block) -> String {
        let of = |block: &Block, wanted: Wanted| -> Vec<Vec<u8>> {
            block.lines.iter().filter(|line| wanted(line)).cloned().collect()
        };
        let parts: [(&str, Wanted); 5] = [
            ("repeats", |line| kind(line) == Kind::Opening),
            ("categories", |line| kind(line) == Kind::Category),
            ("days", |line| kind(line) == Kind::Attribute && gives_days(line)),
            ("attributes", |line| kind(line) == Kind::Attribute && !gives_days(line)),
            ("calls", |line| kind(line) == Kind::Call),
        ];
        let found: Vec<&str> =
            parts.iter().filter(|(_, wanted)| of(self, *wanted) != of(other, *wanted)).map(|(name, _)| *name).collect();
        found.join(", ")
    }
}

/// The services by number and administration.
fn services_of(table: &Accepted, fields: &BTreeMap<String, Vec<bool>>) -> BTreeMap<String, Vec<Block>> {
    let mut found: BTreeMap<String, Vec<Block>> = BTreeMap::new();
    let mut last = String::new();
    for line in lines(&Table::new(&table.words).fplan().unwrap_or_default()) {
        let mut line = line.to_vec();
        if kind(&line) == Kind::Opening {
            last = text(&columns(&line, 4, 15));
            found.entry(last.clone()).or_default().push(Block { lines: Vec::new(), fields: BTreeSet::new() });
        }
        let block = match found.get_mut(&last).and_then(|blocks| blocks.last_mut()) {
            Some(block) => block,
            None => continue,
        };
        if kind(&line) == Kind::Attribute && column(&line, 23) != b' ' && digits(&line, 23, 28) != Some(0) {
            let number = text(&columns(&line, 23, 28));
            let days = fields.get(&number).into_iter().flatten().map(|runs| u8::from(*runs));
            line.splice(22..28, days.collect::<Vec<u8>>());
            block.fields.insert(number);
        }
        block.lines.push(line);
    }
    found
}

/// Services that are the same in both are left out; of the others those of one name are paired in the order of the file.
fn service_changes([was, is]: &[BTreeMap<String, Vec<Block>>; 2]) -> Vec<Change> {
    let names: BTreeSet<&String> = was.keys().chain(is.keys()).collect();
    let none = Vec::new();
    let mut found = Vec::new();
    for name in names {
        let [was, is] = [was, is].map(|side| side.get(name).unwrap_or(&none));
        let (mut old, mut new): (Vec<&Block>, Vec<&Block>) = (was.iter().collect(), Vec::new());
        for block in is {
            match old.iter().position(|other| other.lines == block.lines) {
                Some(place) => drop(old.remove(place)),
                None => new.push(block),
            }
        }
        let change = |how, says| Change { what: "service", how, name: name.clone(), says };
        let pairs = old.len().min(new.len());
        found.extend(old.iter().zip(&new).map(|(old, new)| change("changed", format!("in {}", new.differs(old)))));
        found.extend(old[pairs..].iter().map(|block| change("went", block.start())));
        found.extend(new[pairs..].iter().map(|block| change("came", block.start())));
    }
    found
}
