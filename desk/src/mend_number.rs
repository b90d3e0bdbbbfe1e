//! What each number means, and how to mend what is no broken form.

use super::dates::period;
use super::explain::Answer;
use super::form::{frame, names, offences};
use super::lines::{
    blank, column, columns, digits, file_name, kind, line, lines, numbered, passed_over, text, trimmed, Delivery, Kind,
    BAHNHOF, BITFELD, ECKDATEN, FPLAN, UMSTEIGB, ZUGART,
};
use super::mend::{counted, Cause};
use super::service::bit;

/// How to mend what is no form.
pub fn of_number(delivery: &Delivery, answer: &Answer, bytes: &[u8]) -> Cause {
    let file = delivery.file(answer.file);
    match (answer.number, answer.file) {
        (1, _) => Cause::mend("remove what does not belong in it, or split the delivery"),
        (2, ECKDATEN) if answer.line == 3 => Cause::mend("add line 3, the name of the period; it may be blank"),
        (2, ECKDATEN) => Cause::mend("find out the dates that are meant, and write them in lines 1 and 2, the name in line 3"),
        (2, _) => Cause::mend("find out the minutes that hold for all stops, and write the record of 9999999 as the first"),
        (3, _) if line(file, 4).map_or(true, blank) => Cause::mend("remove line 4"),
        (3, _) => Cause::mend("remove line 4; what belongs to the name stands in line 3"),
        (5, _) => Cause::mend("find out the date that is meant, and write it; cut a longer period in two deliveries"),
        (6, of) => seen_earlier(of, file, answer.line, bytes),
        (7, BITFELD) => reserved(delivery, answer.line, bytes),
        (7, BAHNHOF) => Cause::mend("give the stop another number, here, in UMSTEIGB and in FPLAN"),
        (7, _) => match numbered(file).find(|(_, line)| line.starts_with(b"9999999")) {
            Some((at, _)) => Cause::mend(format!("move line {} before line {}", at, answer.line)),
            None => Cause::mend("find out the minutes that hold for all stops, and write the record of 9999999 before all others"),
        },
        (8, _) => other_period(delivery),
        (9, _) => absent(delivery, BAHNHOF, "stop", &columns(bytes, 1, 7)),
        (10, _) => absent(delivery, BITFELD, "bit field", &columns(bytes, 23, 28)),
        (11, _) if of_the_standard(bytes) => {
            Cause::mend("put a \"%\" in column 1 of the line: other lines of the standard are not taken")
        }
        (11, _) => Cause::mend("find out what the line is, and write it as one of these; a remark begins with \"%\""),
        (12, _) => Cause::mend("find out which service the line belongs to, and write the line that opens it before it"),
        (13, _) => Cause::mend("join ranges that give the same; make two services of one with more calls"),
        (14, _) => Cause::mend("find out the schedule lines that are missing, and write them"),
        (15, _) => Cause::mend("find out the time that is meant, and write it; after midnight the hours go on, 024 and more"),
        (16, _) => Cause::mend("find out the calls that are meant, and write from and to"),
        (17, _) => Cause::mend("find out the category of each leg, and let the *G ranges meet at one call, from the first call to the last"),
        (18, _) => Cause::mend("find out the days of each leg, and let the *A VE ranges meet at one call, from the first call to the last"),
        (19, _) => Cause::mend("find out the days that are meant, and correct the bit fields; or make a service of each stretch"),
        (20 | 51, _) => Cause::mend("nothing in the files: tell the planner's operators"),
        (37, _) => Cause::mend("find out the tariff groups that are meant, and give each line its own; or take them all away"),
        (38, _) => category(delivery, bytes),
        (39, _) => name_list(bytes),
        _ => Cause::mend("see the paper"),
    }
}

/// Whether a line is of another kind of the standard: `*` and one to three capitals, then a blank.
fn of_the_standard(bytes: &[u8]) -> bool {
    let word = bytes.split(|byte| *byte == b' ').next().unwrap_or(b"");
    word.first() == Some(&b'*') && (2..=4).contains(&word.len()) && word[1..].iter().all(u8::is_ascii_uppercase)
}

/// 9 and 10: a number that is not listed: nothing is, or its line is passed over, or stands inside another; else it is mistyped, or new.
fn absent(delivery: &Delivery, of: u32, what: &str, number: &[u8]) -> Cause {
    let (name, file) = (file_name(of), delivery.file(of));
    let inside = |line: &[u8]| line.windows(number.len()).position(|window| window == number);
    Cause::mend(match numbered(file).find_map(|(at, line)| Some((at, line, inside(line)?))) {
        _ if lines(file).all(passed_over) => format!("find out why {} lists none, and get it whole", name),
        Some((at, line, _)) if passed_over(line) => {
            format!("find out whether the {} is meant: then take the \"%\" out of line {} of {}", what, at, name)
        }
        Some((at, _, place)) => format!(
            "find out whether line {} of {} is two: then break it after column {}; else correct the number here",
            at, name, place
        ),
        None => format!(
            "find out the {} that is meant, and correct the number; a {} that is new is listed in {}",
            what, what, name
        ),
    })
}

/// 6: two lines that are alike are one too many; of two that differ only who made the file knows which is meant.
fn seen_earlier(of: u32, file: &[u8], at: u32, bytes: &[u8]) -> Cause {
    let width = match of {
        BITFELD => 6,
        ZUGART => 3,
        _ => 7,
    };
    let end = |bytes: &[u8]| bytes.iter().rposition(|byte| *byte != b' ').map_or(0, |last| last + 1);
    let same = |line: &&[u8]| !passed_over(line) && columns(line, 1, width) == columns(bytes, 1, width);
    let alike =
        lines(file).take(at as usize - 1).find(same).map_or(false, |other| other[..end(other)] == bytes[..end(bytes)]);
    if alike {
        return Cause::mend(format!("remove line {}: it is byte for byte the same", at));
    }
    Cause::mend(match of {
        BITFELD => "find out which days are meant: give one of them a number of its own, here and where FPLAN means it, or remove it",
        BAHNHOF => "find out which is meant: correct the number of one, or remove it",
        ZUGART => "find out which is meant: correct the code of one, or remove it",
        _ => "find out which minutes are meant, and remove the other line",
    })
}

/// 7 of BITFELD: 000000 is daily by itself.
fn reserved(delivery: &Delivery, at: u32, bytes: &[u8]) -> Cause {
    let daily = period(delivery.file(ECKDATEN))
        .map_or(false, |period| (0..period.day_count() as usize).all(|day| bit(bytes, day + 2)));
    if daily {
        return Cause::here(
            "its days are all days of the period",
            format!("remove line {}: 000000 runs daily without it", at),
        );
    }
    let means = |line: &&[u8]| kind(line) == Kind::Attribute && matches!(digits(line, 23, 28), Some(0));
    let count = lines(delivery.file(FPLAN)).filter(means).count();
    Cause::here(
        format!("its days are not all days of the period; FPLAN has 000000 in {}", counted(count, "line")),
        "give the bit field another number, here and in those lines of FPLAN that mean these days",
    )
}

/// 8: whether the bit fields all have the frame of another period.
fn other_period(delivery: &Delivery) -> Cause {
    let fields =
        || lines(delivery.file(BITFELD)).filter(|line| !passed_over(line) && offences(BITFELD, line).is_empty());
    let all = fields().count();
    let meant =
        (1..=380).map(|days| (fields().take(2_000).filter(|line| frame(line, days).is_none()).count(), days)).max();
    match (meant, period(delivery.file(ECKDATEN))) {
        (Some((count, days)), Some(period)) if count * 2 > all.min(2_000) && days != period.day_count() as usize => {
            Cause::look(
                format!(
                    "bit fields made for a period of {} days: {} of {}; ECKDATEN has {} days",
                    days,
                    count,
                    all,
                    period.day_count()
                ),
                "find out which period is meant: correct ECKDATEN, or make all bit fields again from it",
            )
        }
        _ => Cause::mend("make this bit field again from the period in ECKDATEN"),
    }
}

/// 38: a code that is listed in other letters.
fn category(delivery: &Delivery, bytes: &[u8]) -> Cause {
    let code = columns(bytes, 4, 6);
    let alike = |line: &&[u8]| !passed_over(line) && trimmed(&columns(line, 1, 3)).eq_ignore_ascii_case(trimmed(&code));
    match lines(delivery.file(ZUGART)).find(alike) {
        Some(line) => Cause::mend(format!("write `{}` in columns 4-6", text(&columns(line, 1, 3)))),
        None => Cause::mend(format!(
            "find out the category that is meant, and correct the code; one that is new is listed in ZUGART with its class: `{} NN   0 {}      0`",
            text(&code),
            text(&code)
        )),
    }
}

/// 39: what to do about the list of names.
fn name_list(bytes: &[u8]) -> Cause {
    match names(bytes) {
        // behind another sign the "$" may have been mistyped
        Some((at, why)) if why.starts_with("no \"$\"") && column(bytes, at - 1).is_ascii_alphabetic() => Cause::look(
            format!("the name before column {} may lack more than its \"$\": then find out what", at),
            format!("put `$` in before column {}", at),
        ),
        Some((at, why)) if why.ends_with("no name after it") && column(bytes, 63) == b' ' => Cause::look(
            format!("a name may be missing behind column {}: then find out which", at),
            format!("take out column {}", at),
        ),
        Some((_, why)) if why.contains("not closed") || column(bytes, 63) != b' ' => Cause::mend(
            "find out the names that are meant, and shorten them to 50 columns; the \"$\" after a pattern may be left out",
        ),
        _ => Cause::mend(
            "find out the names that are meant, and write them: names parted by \"$\", patterns such as `Genf$<d>`, none at the end",
        ),
    }
}

/// Title and meaning of a number, by the file.
pub fn entry(answer: &Answer) -> (&'static str, &'static str) {
    match (answer.number, answer.file) {
        (1, _) => ("file too long", "a file has at most 16,777,216 bytes"),
        (2, ECKDATEN) => ("line missing", "ECKDATEN has three lines: first day, last day, name"),
        (2, _) => ("no record", "UMSTEIGB has at least the record of 9999999"),
        (3, _) => ("fourth line", "ECKDATEN has exactly three lines; a blank one counts too"),
        (4, ECKDATEN) => ("form", "columns 1-10 are DD.MM.YYYY"),
        (4, BITFELD) => ("form", "1-6 digits, 7 blank, 8-103 hex digits in capitals, then blank"),
        (4, BAHNHOF) => ("form", "1-7 digits, 8 and 12 blank, 13-62 a name"),
        (4, UMSTEIGB) => ("form", "1-7 digits, 9-10 and 12-13 numbers, 8, 11 and 14 blank"),
        (4, ZUGART) => (
            "form",
            "1-3 a code, 5-6 a class, 8 tariff group, 10 output, 21 supplement, 23 flag; 4, 7, 9, 11, 20, 22 and 24 blank",
        ),
        (4, _) => (
            "form",
            "a field breaks its rule, or a column that no field has is not blank, or column 59 is not \"%\"",
        ),
        (5, _) => ("no such date or period", "dates are 01.01.1900 to 31.12.2199, and a period has 1 to 380 days"),
        (6, BITFELD) => ("number seen earlier", "each bit field is listed once"),
        (6, BAHNHOF) => ("number seen earlier", "each stop is listed once"),
        (6, ZUGART) => ("code seen earlier", "each category is listed once"),
        (6, _) => ("stop seen earlier", "each stop, and 9999999, has one record"),
        (7, BITFELD) => ("number 000000", "it is reserved"),
        (7, BAHNHOF) => ("number not for a stop", "9999999 and numbers that end with 00000 are no stops"),
        (7, _) => ("first record not 9999999", "the first record holds for all stops without their own"),
        (8, _) => ("frame wrong", "two bits 1, a bit for each day of the period, two bits 1, then 0"),
        (9, _) => ("stop unknown", "each stop is in BAHNHOF"),
        (10, _) => ("bit field unknown", "a bit field is 000000 or in BITFELD of this delivery"),
        (11, _) => ("kind of line not taken", "a line begins with `*Z `, `*T `, `*G `, `*A ` or a digit"),
        (12, _) => ("no service opened yet", "the first line is a *Z or *T"),
        (13, _) => ("too many lines in a service", "at most 200 calls, 50 *G, 50 *A VE, 100 other *A"),
        (14, _) => ("fewer than two calls", "a service has at least two schedule lines"),
        (15, _) => ("times", "each call has the times that it needs, none earlier than the one before"),
        (16, _) => ("range not on the route", "from and to are calls of this service, in order"),
        (17, _) => ("categories", "each leg has exactly one *G"),
        (18, _) => ("operating days", "each leg has exactly one *A VE"),
        (19, _) => ("two stretches on a day", "on each day the legs that run form one stretch"),
        (20, _) => ("table too short", "the delivery is right, but its table needs more words than were lent"),
        (37, _) => ("tariff group missing or alone", "all categories have a tariff group, or none"),
        (38, _) => ("category unknown", "each category of a *G line is in ZUGART of this delivery"),
        (39, _) => ("name field", "columns 13-62 are names parted by \"$\", with patterns such as `Genf$<d>`"),
        (51, _) => ("helper words too few", "a load works in words that were not lent"),
        _ => ("unknown to this program", "its numbers end earlier"),
    }
}
