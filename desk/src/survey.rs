//! `--all`: all offences of all six files in one pass, by this program's own reading of the rules. The loader's answer is the first of them (the tests hold the two against each other); the others are
//! likely. What only follows from a line that is broken itself is left out as far as that can be seen, and what could not be checked is said.

use std::collections::{BTreeMap, BTreeSet, HashMap, HashSet};

use estelunya_planner::layout::{MOST_FILE_BYTES, MOST_PERIOD_DAYS};
use estelunya_planner::Period;

use super::dates::{existing, stated};
use super::explain::Answer;
use super::form::{frame, names, offences};
use super::lines::{
    blank, column, columns, digits, field_at, file_name, kind, line, lines, numbered, passed_over, Delivery, Kind,
    BAHNHOF, BITFELD, ECKDATEN, FPLAN, UMSTEIGB, ZUGART,
};
use super::mend_field::of_section_5_5_1;
use super::mend_number::entry;
use super::service::{Days, Service};

/// All that was found.
#[derive(Clone, Debug, Default)]
pub struct Survey {
    /// In the order of document 01, so that the first is the loader's answer; a line has all of its own.
    pub found: Vec<Answer>,
    /// Lines that open services of which not everything could be checked.
    pub unchecked: BTreeSet<u32>,
    /// Whether frames could not be checked, since there is no period.
    pub no_period: bool,
}

/// What a delivery lists, in its form or not: what is listed and broken is told once, where it is listed.
struct Listed<'a> {
    days: Days<'a>,
    stops: HashSet<u32>,
    codes: HashSet<Vec<u8>>,
}

impl Survey {
    /// Of a delivery.
    pub fn of(delivery: &Delivery) -> Survey {
        let mut survey = Survey::default();
        let own = |of: u32| numbered(delivery.file(of)).filter(|(_, line)| !passed_over(line));
        let listed = Listed {
            days: Days::of(delivery),
            stops: own(BAHNHOF).filter_map(|(_, line)| digits(line, 1, 7)).collect(),
            codes: own(ZUGART).map(|(_, line)| columns(line, 1, 3)).collect(),
        };
        for of in [ECKDATEN, BITFELD, BAHNHOF, UMSTEIGB, ZUGART, FPLAN] {
            if delivery.file(of).len() > MOST_FILE_BYTES {
                survey.tell(1, of, 0);
            }
        }
        survey.period(delivery.file(ECKDATEN));
        survey.bit_fields(delivery.file(BITFELD), &listed);
        survey.stops(delivery.file(BAHNHOF));
        survey.records(delivery.file(UMSTEIGB), &listed);
        survey.categories(delivery.file(ZUGART));
        survey.services(delivery.file(FPLAN), &listed);
        survey
    }

    fn tell(&mut self, number: u32, file: u32, line: u32) {
        self.found.push(Answer { number, file, line, column: 0, needed: 0 });
    }

    /// Tells where a line breaks its form, and whether it does.
    fn form(&mut self, file: u32, line: u32, bytes: &[u8]) -> bool {
        let mut broken = offences(file, bytes);
        if file == ZUGART && of_section_5_5_1(bytes) {
            broken.truncate(1);
        }
        self.found.extend(broken.iter().map(|column| Answer { number: 4, file, line, column: *column, needed: 0 }));
        !broken.is_empty()
    }

    fn period(&mut self, file: &[u8]) {
        let mut dates = [None; 2];
        for at in 1..=2 {
            let bytes = match line(file, at) {
                Some(bytes) => bytes,
                None => break,
            };
            if self.form(ECKDATEN, at, bytes) {
                continue;
            }
            let date = stated(bytes).and_then(existing);
            dates[at as usize - 1] = date;
            let period = dates[0].zip(dates[1]).map(|(first, last)| Period::new(first, last));
            let fits = |period: Option<Period>| {
                period.map_or(false, |period| period.day_count() as usize <= MOST_PERIOD_DAYS as usize)
            };
            if date.is_none() || !period.map_or(true, fits) {
                self.tell(5, ECKDATEN, at);
            }
        }
        match lines(file).count() as u32 {
            count @ 0..=2 => self.tell(2, ECKDATEN, count + 1),
            3 => {}
            _ => self.tell(3, ECKDATEN, 4),
        }
    }

    fn bit_fields(&mut self, file: &[u8], listed: &Listed) {
        let mut seen = HashSet::new();
        for (at, bytes) in numbered(file).filter(|(_, line)| !passed_over(line)) {
            if self.form(BITFELD, at, bytes) {
                seen.extend(digits(bytes, 1, 6));
                continue;
            }
            let number = digits(bytes, 1, 6);
            if number == Some(0) {
                self.tell(7, BITFELD, at);
            }
            if !seen.insert(number.unwrap_or(0)) && number != Some(0) {
                self.tell(6, BITFELD, at);
            }
            match listed.days.period {
                Some(period) if frame(bytes, period.day_count() as usize).is_some() => self.tell(8, BITFELD, at),
                Some(_) => {}
                None => self.no_period = true,
            }
        }
    }

    fn stops(&mut self, file: &[u8]) {
        let mut seen = HashSet::new();
        for (at, bytes) in numbered(file).filter(|(_, line)| !passed_over(line)) {
            let broken = self.form(BAHNHOF, at, bytes);
            if !blank(&columns(bytes, 13, 62)) && names(bytes).is_some() {
                self.tell(39, BAHNHOF, at);
            }
            if let Some(number) = digits(bytes, 1, 7) {
                if !broken && (number == 9_999_999 || number % 100_000 == 0) {
                    self.tell(7, BAHNHOF, at);
                }
                if !seen.insert(number) && !broken {
                    self.tell(6, BAHNHOF, at);
                }
            }
        }
    }

    fn records(&mut self, file: &[u8], listed: &Listed) {
        let (mut seen, mut first) = (HashSet::new(), true);
        for (at, bytes) in numbered(file).filter(|(_, line)| !passed_over(line)) {
            let broken = self.form(UMSTEIGB, at, bytes);
            let number = match digits(bytes, 1, 7) {
                Some(number) => number,
                None => {
                    first = false;
                    continue;
                }
            };
            if first && !broken && number != 9_999_999 {
                self.tell(7, UMSTEIGB, at);
            }
            if !seen.insert(number) && !broken {
                self.tell(6, UMSTEIGB, at);
            }
            if !first && !broken && number != 9_999_999 && !listed.stops.contains(&number) {
                self.tell(9, UMSTEIGB, at);
            }
            first = false;
        }
        if first {
            self.tell(2, UMSTEIGB, lines(file).count() as u32 + 1);
        }
    }

    fn categories(&mut self, file: &[u8]) {
        let (mut seen, mut first) = (HashSet::new(), None);
        for (at, bytes) in numbered(file).filter(|(_, line)| !passed_over(line)) {
            if self.form(ZUGART, at, bytes) {
                seen.insert(columns(bytes, 1, 3));
                continue;
            }
            if !seen.insert(columns(bytes, 1, 3)) {
                self.tell(6, ZUGART, at);
            }
            let group = column(bytes, 8) != b' ';
            if *first.get_or_insert(group) != group {
                self.tell(37, ZUGART, at);
            }
        }
    }

    fn services(&mut self, file: &[u8], listed: &Listed) {
        let mut service: Option<Service> = None;
        for (at, bytes) in numbered(file).filter(|(_, line)| !passed_over(line)) {
            if kind(bytes) == Kind::Opening {
                self.close(service.take(), listed);
                service = Some(Service::opened(at));
                self.form(FPLAN, at, bytes);
            } else if let Some(open) = &mut service {
                let over = open.add(at, bytes);
                self.line(at, bytes, over, listed);
            } else {
                self.tell(12, FPLAN, at);
            }
        }
        self.close(service, listed);
    }

    /// A line of a service by itself.
    fn line(&mut self, at: u32, bytes: &[u8], over: bool, listed: &Listed) {
        let of = kind(bytes);
        if of == Kind::Other {
            return self.tell(11, FPLAN, at);
        }
        self.form(FPLAN, at, bytes);
        if over {
            self.tell(13, FPLAN, at);
        }
        match of {
            Kind::Call if digits(bytes, 1, 7).map_or(false, |stop| !listed.stops.contains(&stop)) => {
                self.tell(9, FPLAN, at)
            }
            Kind::Attribute
                if digits(bytes, 23, 28).map_or(false, |number| number > 0 && !listed.days.lists(number)) =>
            {
                self.tell(10, FPLAN, at);
            }
            Kind::Category if column(bytes, 4) != b' ' && !listed.codes.contains(&columns(bytes, 4, 6)) => {
                self.tell(38, FPLAN, at);
            }
            _ => {}
        }
    }

    /// A service as a whole.
    fn close(&mut self, service: Option<Service>, listed: &Listed) {
        if let Some(service) = service {
            let (found, whole) = service.offences(&listed.days);
            for (number, line) in found {
                self.tell(number, FPLAN, line);
            }
            if !whole {
                self.unchecked.insert(service.opening);
            }
        }
    }

    /// The offences by kind, each kind where its first stands: its heading, and all of them.
    pub fn kinds(&self, delivery: &Delivery) -> Vec<(String, Vec<Answer>)> {
        let mut starts: HashMap<u32, Vec<&[u8]>> = HashMap::new();
        let mut places: BTreeMap<String, usize> = BTreeMap::new();
        let mut kinds: Vec<(String, Vec<Answer>)> = Vec::new();
        for answer in &self.found {
            let lines = starts.entry(answer.file).or_insert_with(|| lines(delivery.file(answer.file)).collect());
            let bytes = lines.get((answer.line as usize).wrapping_sub(1)).copied().unwrap_or(b"");
            let heading = heading(answer, bytes);
            let place = *places.entry(heading.clone()).or_insert_with(|| {
                kinds.push((heading, Vec::new()));
                kinds.len() - 1
            });
            kinds[place].1.push(*answer);
        }
        kinds
    }
}

/// `FPLAN, 4 - form, departure`
fn heading(answer: &Answer, bytes: &[u8]) -> String {
    let what = match (answer.number, field_at(answer.file, bytes, answer.column.max(1))) {
        (4, Some(field)) => format!(", {}", field.2),
        (4, None) => ", a column that no field has".to_string(),
        _ => String::new(),
    };
    format!("{}, {} - {}{}", file_name(answer.file), answer.number, entry(answer).0, what)
}
