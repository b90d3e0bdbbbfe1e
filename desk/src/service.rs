//! One service of FPLAN: its calls and ranges, and what is wrong with it as a whole (14 to 19).

use std::collections::HashMap;

use estelunya_planner::Period;

use super::dates::period;
use super::form::offences;
use super::lines::{
    blank, column, columns, digits, gives_days, hashed, kind, lines, minutes, numbered, passed_over, text, Delivery,
    Kind, BITFELD, ECKDATEN, FPLAN,
};

/// A schedule line. Of one that breaks its form the stop may be unknown, and a time broken: then nothing is said of it.
#[derive(Clone, Debug)]
pub struct Call {
    line: u32,
    stop: Option<u32>,
    arrival: Option<u32>,
    departure: Option<u32>,
    broken: [bool; 2],
}

impl Call {
    fn stop(&self) -> String {
        self.stop.map_or_else(|| "???????".to_string(), |stop| format!("{:07}", stop))
    }
}

/// What a range gives.
#[derive(Clone, Copy, Debug, PartialEq, Eq)]
enum Gives {
    Category,
    Days(u32),
    Other,
}

/// A *G or *A line, with the first column of *from* and of its detail, and of *to* and of its detail.
#[derive(Clone, Debug)]
struct Range {
    line: u32,
    bytes: Vec<u8>,
    gives: Gives,
    ends: [(usize, usize); 2],
    /// Whether its ends, details or bit field break their form, so that nothing is said of it.
    broken: bool,
}

/// A *Z or *T line and what follows it.
#[derive(Clone, Debug)]
pub struct Service {
    /// The line that opens it.
    pub opening: u32,
    /// Its last line.
    pub ends: u32,
    calls: Vec<Call>,
    ranges: Vec<Range>,
    counts: [u32; 4],
    /// Whether a line is of no kind, so that a call or range may be missing.
    loose: bool,
}

/// How many of each kind of line a service has at most: calls, *G, *A VE, other *A.
const MOST: [u32; 4] = [200, 50, 50, 100];

/// Lines to show, each with the columns to mark.
pub type Marks = Vec<(u32, Vec<(usize, usize)>)>;

/// Columns to mark in a line, and what is to be said of them.
#[derive(Clone, Debug, Default, PartialEq, Eq)]
pub struct Finding {
    /// Further lines to show, each with the columns to mark.
    pub marks: Marks,
    /// Sentences.
    pub says: Vec<String>,
}

impl Finding {
    /// One sentence, and one mark.
    pub fn at(line: u32, columns: (usize, usize), says: String) -> Finding {
        Finding { marks: vec![(line, vec![columns])], says: vec![says] }
    }

    /// One sentence.
    pub fn says(says: String) -> Finding {
        Finding { marks: Vec::new(), says: vec![says] }
    }
}

/// The service to which a line of FPLAN belongs, as far as `last`; `None` before the first.
pub fn service_of(fplan: &[u8], at: u32, last: u32) -> Option<Service> {
    let mut found: Option<Service> = None;
    for (number, line) in
        numbered(fplan).take_while(|(number, _)| *number <= last).filter(|(_, line)| !passed_over(line))
    {
        if kind(line) == Kind::Opening {
            if number > at {
                break;
            }
            found = Some(Service::opened(number));
        } else if let Some(service) = &mut found {
            service.add(number, line);
        }
    }
    found
}

/// HHHMM as in the file, and as a clock shows it.
fn clock(minutes: u32) -> String {
    format!("{:03}{:02}", minutes / 60, minutes % 60)
}

fn listed(lines: &[u32]) -> String {
    let lines: Vec<String> = lines.iter().map(u32::to_string).collect();
    lines.join(" and ")
}

impl Service {
    /// One that a line opens.
    pub fn opened(line: u32) -> Service {
        Service { opening: line, ends: line, calls: Vec::new(), ranges: Vec::new(), counts: [0; 4], loose: false }
    }

    /// Takes a further line of the service, and says whether it is the first of its kind that is too many.
    pub fn add(&mut self, number: u32, line: &[u8]) -> bool {
        self.ends = number;
        let gives = match kind(line) {
            Kind::Call => {
                let time = |first: usize| columns(line, first, first + 5);
                self.counts[0] += 1;
                self.calls.push(Call {
                    line: number,
                    stop: digits(line, 1, 7),
                    arrival: minutes(&time(30)),
                    departure: minutes(&time(37)),
                    broken: [30, 37].map(|first| !blank(&time(first)) && minutes(&time(first)).is_none()),
                });
                return self.counts[0] == MOST[0] + 1;
            }
            Kind::Category => Gives::Category,
            Kind::Attribute if gives_days(line) => Gives::Days(digits(line, 23, 28).unwrap_or(0)),
            Kind::Attribute => Gives::Other,
            _ => {
                // another kind of the standard is no call and no range
                self.loose |= !(line[0] == b'*' && column(line, 2).is_ascii_uppercase() && column(line, 3) == b' ');
                return false;
            }
        };
        let (count, ends) = match gives {
            Gives::Category => (1, [(8, 24), (16, 31)]),
            Gives::Days(_) => (2, [(7, 30), (15, 37)]),
            Gives::Other => (3, [(7, 30), (15, 37)]),
        };
        self.counts[count] += 1;
        let broken = offences(FPLAN, line).iter().any(|at| *at > 5 && *at < 59);
        self.ranges.push(Range { line: number, bytes: line.to_vec(), gives, ends, broken });
        self.counts[count] == MOST[count] + 1
    }

    /// 13: how many there are of what the line is one of.
    pub fn too_many(&self, line: &[u8]) -> String {
        let (which, name) = match kind(line) {
            Kind::Call => (0, "call"),
            Kind::Category => (1, "*G"),
            _ if gives_days(line) => (2, "*A VE"),
            _ => (3, "other *A"),
        };
        format!(
            "it is {} number {} of the service that line {} opens; {} are taken",
            name, self.counts[which], self.opening, MOST[which]
        )
    }

    /// 14.
    pub fn calls_found(&self) -> Finding {
        match self.calls.first() {
            None => {
                Finding::says("there is no schedule line before the next *Z or *T, or the end of the file".to_string())
            }
            Some(call) => Finding::at(call.line, (1, 7), format!("the only call is that of line {}", call.line)),
        }
    }

    /// The time that the call of a line needs and has not: its first column, and its name.
    pub fn missing_time(&self, at: u32) -> Option<(usize, &'static str)> {
        let index = self.calls.iter().position(|call| call.line == at)?;
        let (call, last) = (&self.calls[index], index + 1 == self.calls.len());
        if index > 0 && call.arrival.is_none() && !call.broken[0] {
            return Some((30, "arrival"));
        }
        (!last && call.departure.is_none() && !call.broken[1]).then_some((37, "departure"))
    }

    /// What is wrong with the service as a whole, as numbers with their lines, in the order of document 01; and whether all of it could be checked. What only follows from
    /// a line that is broken itself is left out.
    pub fn offences(&self, days: &Days) -> (Vec<(u32, u32)>, bool) {
        if self.loose {
            return (Vec::new(), false);
        }
        if self.calls.len() < 2 {
            return (vec![(14, self.opening)], self.ranges.is_empty());
        }
        let mut found: Vec<(u32, u32)> = self.late_calls().into_iter().map(|line| (15, line)).collect();
        let mut whole = !self.calls.iter().any(|call| call.stop.is_none() || call.broken.contains(&true));
        let mut good = [true; 2];
        for range in &self.ranges {
            let wrong = !range.broken && !self.placed(range);
            if wrong && self.judged(range) {
                found.push((16, range.line));
            }
            whole &= !range.broken && (!wrong || self.judged(range));
            match range.gives {
                Gives::Category => good[0] &= !range.broken && !wrong,
                Gives::Days(_) => good[1] &= !range.broken && !wrong,
                Gives::Other => {}
            }
        }
        let legs = || 0..self.calls.len() - 1;
        let covered = |categories: bool, good: bool| {
            legs().all(|leg| match self.over(leg, categories).len() {
                0 => !good,
                count => count == 1,
            })
        };
        for (number, categories, good) in [(17, true, good[0]), (18, false, good[1])] {
            if !covered(categories, good) {
                found.push((number, self.opening));
            }
        }
        whole &= good[0] && good[1];
        // days that are the same on every leg make one stretch, whatever they are
        let days_of = |range: &Range| match range.gives {
            Gives::Days(number) => Some(number),
            _ => None,
        };
        let numbers: Vec<u32> = self.ranges.iter().filter_map(days_of).collect();
        let differ = numbers.windows(2).any(|pair| pair[0] != pair[1]);
        if good[1] && differ && covered(false, true) {
            match self.known_days(days) {
                true if !self.stretches(days).says.is_empty() => found.push((19, self.opening)),
                known => whole &= known,
            }
        }
        (found, whole)
    }

    /// The lines of the calls of 15.
    fn late_calls(&self) -> Vec<u32> {
        let (mut found, mut before) = (Vec::new(), None);
        for call in &self.calls {
            let mut late = self.missing_time(call.line).is_some();
            for time in [call.arrival, call.departure].into_iter().flatten() {
                late |= before.map_or(false, |before| time < before);
                before = Some(time);
            }
            if late {
                found.push(call.line);
            }
        }
        found
    }

    /// Whether both ends of a range are found, in order.
    fn placed(&self, range: &Range) -> bool {
        match (self.end(range, false), self.end(range, true)) {
            (Ok(from), Ok(to)) if range.gives == Gives::Other => from <= to,
            (Ok(from), Ok(to)) => from < to,
            _ => false,
        }
    }

    /// Whether a range that is not placed would not be either if broken calls were mended.
    fn judged(&self, range: &Range) -> bool {
        let by_stop = range.ends.iter().any(|(first, _)| digits(&range.bytes, *first, first + 6).is_some());
        !by_stop || !self.calls.iter().any(|call| call.stop.is_none() || call.broken.contains(&true))
    }

    /// Whether BITFELD lists the bit fields of the ranges, each in its form and frame.
    fn known_days(&self, days: &Days) -> bool {
        self.ranges.iter().all(|range| !matches!(range.gives, Gives::Days(number) if number > 0 && !days.good(number)))
    }

    /// 15: the time that is missing, or the two times.
    pub fn times(&self, at: u32) -> Finding {
        let mut before: Option<(u32, u32, &str)> = None;
        for (index, call) in self.calls.iter().enumerate() {
            let last = index + 1 == self.calls.len();
            let times =
                [(call.arrival, "arrival", (30, 35), index > 0), (call.departure, "departure", (37, 42), !last)];
            if call.line == at {
                if let Some((_, name, columns, _)) = times.iter().find(|(time, _, _, needed)| *needed && time.is_none())
                {
                    let place = if index == 0 {
                        "the first call"
                    } else if last {
                        "the last call"
                    } else {
                        "a call between"
                    };
                    return Finding::at(at, *columns, format!("no {}, which {} needs", name, place));
                }
            }
            for (time, name, columns, _) in times {
                if let (Some(time), Some((earlier, line, what))) = (time, before) {
                    if time < earlier && call.line == at {
                        let told = format!(
                            "the {} {} is earlier than {}, the {} of line {}",
                            name,
                            clock(time),
                            clock(earlier),
                            what,
                            line
                        );
                        let mut found = Finding::at(at, columns, told);
                        if line != at {
                            found.marks.push((line, vec![if what == "arrival" { (30, 35) } else { (37, 42) }]));
                        }
                        if earlier >= time + 720 {
                            let next = clock(time + 1_440);
                            found.says.push(format!("if it is after midnight, the hours go on: {}", next));
                        }
                        return found;
                    }
                }
                before = time.map(|time| (time, call.line, name)).or(before);
            }
        }
        Finding::default()
    }

    /// The call that an end of a range means, or why there is none and in which columns.
    fn end(&self, range: &Range, to: bool) -> Result<usize, ((usize, usize), String)> {
        let (first, detail) = range.ends[usize::from(to)];
        let place = columns(&range.bytes, first, first + 6);
        if blank(&place) {
            return Ok(if to { self.calls.len().saturating_sub(1) } else { 0 });
        }
        if let Some(index) = hashed(&place) {
            let count = self.calls.len();
            return if (index as usize) < count {
                Ok(index as usize)
            } else {
                Err((
                    (first, first + 6),
                    format!("there is no call #{}: the {} calls are #0 to #{}", index, count, count.saturating_sub(1)),
                ))
            };
        }
        let stop = digits(&range.bytes, first, first + 6);
        let seen: Vec<usize> = (0..self.calls.len()).filter(|at| self.calls[*at].stop == stop).collect();
        if seen.is_empty() {
            return Err(((first, first + 6), format!("the service does not call at {}", text(&place))));
        }
        let given = columns(&range.bytes, detail, detail + 5);
        let found = if blank(&given) {
            if to {
                seen.last()
            } else {
                seen.first()
            }
        } else if let Some(nth) = hashed(&given) {
            seen.get(nth as usize)
        } else if to {
            seen.iter().rev().find(|at| self.calls[**at].arrival == minutes(&given))
        } else {
            seen.iter().find(|at| self.calls[**at].departure == minutes(&given))
        };
        let lines: Vec<u32> = seen.iter().map(|at| self.calls[*at].line).collect();
        let why = match hashed(&given) {
            Some(nth) => format!(
                "there is no call #{} at {}: it is called at {} times (line {})",
                nth,
                text(&place),
                seen.len(),
                listed(&lines)
            ),
            None => {
                let what = if to { "arrives" } else { "departs" };
                format!(
                    "no call at {} {} at {} (it is called at in line {})",
                    text(&place),
                    what,
                    text(trim(&given)),
                    listed(&lines)
                )
            }
        };
        found.copied().ok_or(((detail, detail + 5), why))
    }

    /// 16: which end, and why.
    pub fn range(&self, at: u32) -> Finding {
        let range = match self.ranges.iter().find(|range| range.line == at) {
            Some(range) => range,
            None => return Finding::default(),
        };
        let mut found = self.wrong_end(range, at);
        found.says.push("the service's calls:".to_string());
        let time = |time: Option<u32>| time.map_or_else(|| "-----".to_string(), clock);
        let told = |(index, call): (usize, &Call)| {
            format!(
                "  #{} {} arrives {} departs {} (line {})",
                index,
                call.stop(),
                time(call.arrival),
                time(call.departure),
                call.line
            )
        };
        found.says.extend(self.calls.iter().enumerate().map(told));
        found
    }

    fn wrong_end(&self, range: &Range, at: u32) -> Finding {
        // an end by its stop's number and a detail is said by both
        let detailed = |(first, detail): (usize, usize)| {
            digits(&range.bytes, first, first + 6).is_some() && !blank(&columns(&range.bytes, detail, detail + 5))
        };
        let mut spans: Vec<(usize, usize)> = range.ends.iter().map(|(first, _)| (*first, first + 6)).collect();
        spans.extend(range.ends.iter().filter(|ends| detailed(**ends)).map(|(_, detail)| (*detail, detail + 5)));
        match (self.end(range, false), self.end(range, true)) {
            (Err((columns, why)), _) => Finding::at(at, columns, format!("from is not found: {}", why)),
            (_, Err((columns, why))) => Finding::at(at, columns, format!("to is not found: {}", why)),
            (Ok(from), Ok(to)) => {
                let rule = if range.gives == Gives::Other { "at or before" } else { "before" };
                let says = format!(
                    "from is call #{} (line {}), to is call #{} (line {}): from must stand {} to",
                    from, self.calls[from].line, to, self.calls[to].line, rule
                );
                Finding { marks: vec![(at, spans)], says: vec![says] }
            }
        }
    }

    /// The ranges over a leg that give categories, or operating days.
    fn over(&self, leg: usize, categories: bool) -> Vec<&Range> {
        let wanted = |range: &&Range| match range.gives {
            Gives::Category => categories,
            Gives::Days(_) => !categories,
            Gives::Other => false,
        };
        let covers = |range: &&Range| matches!((self.end(range, false), self.end(range, true)), (Ok(from), Ok(to)) if from <= leg && leg < to);
        self.ranges.iter().filter(wanted).filter(covers).collect()
    }

    fn leg(&self, first: usize, last: usize) -> String {
        let (from, to) = (&self.calls[first], &self.calls[last]);
        format!("from {} (line {}) to {} (line {})", from.stop(), from.line, to.stop(), to.line)
    }

    /// 17 and 18: the first leg that is not covered once.
    pub fn cover(&self, categories: bool) -> Finding {
        let name = if categories { "*G" } else { "*A VE" };
        for leg in 0..self.calls.len().saturating_sub(1) {
            let over = self.over(leg, categories);
            if over.len() != 1 {
                let lines: Vec<u32> = over.iter().map(|range| range.line).collect();
                let (way, call) = (self.leg(leg, leg + 1), self.calls[leg].line);
                let says = match lines.len() {
                    0 => format!("the leg {} has no {}", way, name),
                    count => format!("the leg {} has {} {}: lines {}", way, count, name, listed(&lines)),
                };
                let mut marks = vec![(call, vec![(1, 7)]), (self.calls[leg + 1].line, vec![(1, 7)])];
                let spans = |range: &&Range| (range.line, range.ends.map(|(first, _)| (first, first + 6)).to_vec());
                marks.extend(over.iter().map(spans));
                marks.sort();
                return Finding { marks, says: vec![says] };
            }
        }
        Finding::default()
    }

    /// 19: the first day with two stretches, and these.
    pub fn stretches(&self, days: &Days) -> Finding {
        let period = match days.period {
            Some(period) => period,
            None => return Finding::default(),
        };
        let legs = self.calls.len().saturating_sub(1);
        let fields: Vec<(u32, u32)> = (0..legs)
            .filter_map(|leg| match self.over(leg, false)[..] {
                [Range { gives: Gives::Days(number), line, .. }] => Some((*number, *line)),
                _ => None,
            })
            .collect();
        let bits: Vec<Option<&[u8]>> = fields.iter().map(|(number, _)| days.line(*number)).collect();
        if bits.windows(2).all(|pair| pair[0] == pair[1]) {
            return Finding::default();
        }
        for (day, date) in period.dates().enumerate() {
            let runs: Vec<bool> = bits.iter().map(|bits| bits.map_or(true, |line| bit(line, day + 2))).collect();
            let found = stretches(&runs);
            if found.len() > 1 {
                let mut says = vec![format!(
                    "on {}, day {} of {}, it would run on {} stretches:",
                    date,
                    day + 1,
                    period.day_count(),
                    found.len()
                )];
                says.extend(found.iter().map(|(first, last)| format!("  {}", self.leg(*first, *last))));
                for (leg, (number, line)) in fields.iter().enumerate().filter(|(leg, _)| !runs[*leg]) {
                    if leg > found[0].1 - 1 && leg < found[found.len() - 1].0 {
                        says.push(format!(
                            "and not {}: bit field {:06} of line {}",
                            self.leg(leg, leg + 1),
                            number,
                            line
                        ));
                    }
                }
                let mut lines: Vec<u32> = fields.iter().map(|(_, line)| *line).collect();
                lines.sort_unstable();
                lines.dedup();
                return Finding { marks: lines.into_iter().map(|line| (line, vec![(23, 28)])).collect(), says };
            }
        }
        Finding::default()
    }
}

fn trim(bytes: &[u8]) -> &[u8] {
    super::lines::trimmed(bytes)
}

/// The bit fields of a delivery, by number, and its period.
pub struct Days<'a> {
    /// If ECKDATEN states one.
    pub period: Option<Period>,
    fields: HashMap<u32, &'a [u8]>,
}

impl<'a> Days<'a> {
    /// Of each number the first line.
    pub fn of(delivery: &'a Delivery) -> Days<'a> {
        let mut fields = HashMap::new();
        for line in lines(delivery.file(BITFELD)).filter(|line| !passed_over(line)) {
            if let Some(number) = digits(line, 1, 6) {
                fields.entry(number).or_insert(line);
            }
        }
        Days { period: period(delivery.file(ECKDATEN)), fields }
    }

    /// Whether a number is listed, in its form or not.
    pub fn lists(&self, number: u32) -> bool {
        self.fields.contains_key(&number)
    }

    /// The line of a bit field; `None` for 0, which is daily, and for one that is not there.
    pub fn line(&self, number: u32) -> Option<&'a [u8]> {
        self.fields.get(&number).copied().filter(|_| number > 0)
    }

    fn good(&self, number: u32) -> bool {
        match (self.line(number), self.period) {
            (Some(line), Some(period)) => {
                offences(BITFELD, line).is_empty() && super::form::frame(line, period.day_count() as usize).is_none()
            }
            _ => false,
        }
    }
}

/// A bit of a bit field's line, from 0.
pub fn bit(line: &[u8], at: usize) -> bool {
    let digit = char::from(column(line, 8 + at / 4)).to_digit(16).unwrap_or(0);
    digit & (8 >> (at % 4)) != 0
}

/// First and last call of each stretch of legs that run.
fn stretches(runs: &[bool]) -> Vec<(usize, usize)> {
    let mut found: Vec<(usize, usize)> = Vec::new();
    for (leg, _) in runs.iter().enumerate().filter(|(_, runs)| **runs) {
        match found.last_mut() {
            Some(stretch) if stretch.1 == leg => stretch.1 = leg + 1,
            _ => found.push((leg, leg + 1)),
        }
    }
    found
}

/// The service of a line in a delivery's FPLAN.
pub fn of_delivery(delivery: &Delivery, at: u32) -> Option<Service> {
    service_of(delivery.file(FPLAN), at, u32::MAX)
}
