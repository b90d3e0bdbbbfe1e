//! What makes a file that looks right be refused, and what is accepted and still odd.

use std::collections::BTreeMap;

use estelunya_planner::Date;

use super::dates::period;
use super::form::{end_of, named};
use super::lines::{
    blank, column, columns, digits, file_name, kind, lines, numbered, passed_over, plain, text, Delivery, Kind,
    BAHNHOF, BITFELD, ECKDATEN, FPLAN, UMSTEIGB, ZUGART,
};
use super::moved::second;

/// What is odd in an accepted delivery.
#[derive(Clone, Debug, PartialEq, Eq)]
pub struct Look {
    /// Its file.
    pub file: u32,
    /// Its line; 0 for the whole file.
    pub line: u32,
    /// What it is.
    pub says: String,
    /// Where REFUSALS.md says more.
    pub see: &'static str,
}

/// What the file as a whole looks like, and how it is saved.
pub fn file(bytes: &[u8]) -> Option<(&'static str, &'static str)> {
    let head = &bytes[..bytes.len().min(1_000)];
    let zeros = head.iter().filter(|byte| **byte == 0).count();
    if bytes.starts_with(&[0xFF, 0xFE]) || bytes.starts_with(&[0xFE, 0xFF]) || zeros * 3 > head.len() {
        Some((
            "the file is UTF-16, two bytes for each letter",
            "save the file as plain text, one byte for each letter (ISO 8859-1, or UTF-8 without a byte order mark)",
        ))
    } else if bytes.starts_with(&[0xEF, 0xBB, 0xBF]) {
        Some((
            "the file begins with a byte order mark (hex EF BB BF), which editors do not show: it moves line 1 by three columns",
            "save the file without a byte order mark",
        ))
    } else if bytes.contains(&b'\r') && !bytes.contains(&b'\n') {
        Some((
            "the file's lines end with CR alone, so that all of it is one line",
            "save the file with LF or CR LF at the ends of its lines",
        ))
    } else {
        None
    }
}

/// Whether a file ends inside a line, as one does that was cut.
pub fn cut(bytes: &[u8]) -> bool {
    !bytes.is_empty() && !bytes.ends_with(b"\n") && file(bytes).is_none()
}

/// What a file looks like in which a number or code was not found.
pub fn searched(bytes: &[u8]) -> Vec<String> {
    let mut found = Vec::new();
    let first = |byte: u8| numbered(bytes).find(|(_, line)| line.contains(&byte)).map(|(number, _)| number);
    if let Some(number) = first(b'\r') {
        found
            .push(format!("line {} has a CR inside, which ends no line: what follows it is not read as lines", number));
    }
    if let Some(number) = first(b'\t') {
        found.push(format!("line {} has a tab, which is one column and no blank", number));
    }
    if cut(bytes) {
        found.push("its last line has no line end: it may have been cut".to_string());
    }
    found
}

/// What is odd in a delivery that keeps the rules.
pub fn accepted(delivery: &Delivery, services: u32, today: Date) -> Vec<Look> {
    let mut found = Vec::new();
    if services == 0 {
        let says = "there are no services: every line is passed over, or there is none. The delivery keeps the rules, and nothing runs.";
        found.push(Look { file: FPLAN, line: 0, says: says.to_string(), see: "no-services" });
    }
    if let Some(last) = period(delivery.file(ECKDATEN)).map(|period| period.last).filter(|last| *last < today) {
        let ago = today.day_number() - last.day_number();
        let says = format!("the period is over: its last day, {}, was {} before today, {}", last, days(ago), today);
        found.push(Look { file: ECKDATEN, line: 2, says, see: "looks" });
    }
    for of in [ECKDATEN, BITFELD, BAHNHOF, UMSTEIGB, ZUGART, FPLAN] {
        let bytes = delivery.file(of);
        if let Some((says, _)) = file(bytes) {
            found.push(Look { file: of, line: 0, says: says.to_string(), see: "looks-right" });
            continue;
        }
        let mut odd: BTreeMap<&'static str, (u32, u32, String)> = BTreeMap::new();
        for (number, line) in numbered(bytes).filter(|(_, line)| of == ECKDATEN || !passed_over(line)) {
            for (which, says) in odd_line(of, line) {
                odd.entry(which).or_insert((number, 0, says)).1 += 1;
            }
        }
        // one of a kind is shown, the others are counted
        let mut told: Vec<(u32, u32, String)> = odd.into_values().collect();
        told.sort();
        found.extend(told.into_iter().map(|(line, count, says)| {
            let more = if count > 1 { format!(" ({} such lines)", count) } else { String::new() };
            Look { file: of, line, says: says + &more, see: "looks" }
        }));
        if cut(bytes) {
            let says = "the last line has no line end: the file may have been cut there".to_string();
            found.push(Look { file: of, line: lines(bytes).count() as u32, says, see: "looks" });
        }
    }
    found.extend(twice(delivery.file(FPLAN)));
    found.extend(open_ends(delivery.file(FPLAN), services));
    found
}

/// A first call with an arrival, or a last one with a departure, which need none: a call may be missing before or behind it. Where most services have them the exporter writes them always.
fn open_ends(fplan: &[u8], services: u32) -> Vec<Look> {
    let calls: Vec<(u32, &[u8])> =
        numbered(fplan).filter(|(_, line)| matches!(kind(line), Kind::Call | Kind::Opening)).collect();
    let opens = |at: usize| calls.get(at).map_or(true, |(_, line)| kind(line) == Kind::Opening);
    let states = |at: usize, first: usize| !opens(at) && !blank(&columns(calls[at].1, first, first + 5));
    let arrives = (1..calls.len()).filter(|at| opens(at - 1) && states(*at, 30)).map(|at| calls[at].0);
    let departs = (1..calls.len()).filter(|at| opens(at + 1) && states(*at, 37)).map(|at| calls[at].0);
    let told = |lines: Vec<u32>, says: &str| {
        let few = !lines.is_empty() && lines.len() * 2 <= services as usize;
        let more = if lines.len() > 1 { format!(" ({} such lines)", lines.len()) } else { String::new() };
        few.then(|| Look { file: FPLAN, line: lines[0], says: format!("{}{}", says, more), see: "looks" })
    };
    let first = told(arrives.collect(), "the service's first call has an arrival: a call before it may be missing");
    let last = told(departs.collect(), "the service's last call has a departure: a call behind it may be missing");
    first.into_iter().chain(last).collect()
}

fn days(count: u32) -> String {
    format!("{} day{}", count, if count == 1 { "" } else { "s" })
}

/// What is odd in a line by itself, each with the name of its kind.
fn odd_line(of: u32, line: &[u8]) -> Vec<(&'static str, String)> {
    let mut found = Vec::new();
    let inside = |byte: &u8| *byte < 32 || *byte == 127;
    if let Some(at) = line.iter().position(inside) {
        found.push(("control", format!("column {} is {}, which is no letter", at + 1, named(line[at]))));
    }
    if of == BAHNHOF {
        found.extend(odd_name(line));
    }
    if of == FPLAN {
        if let Some(after) = second(FPLAN, line) {
            let rest = text(&columns(line, after + 1, after + 12));
            found.push((
                "second",
                format!(
                    "behind column {} stands `{}`, a whole line of its own, which is not read: is a line end missing?",
                    after, rest
                ),
            ));
        }
        if kind(line) == Kind::Attribute
            && columns(line, 4, 5) != b"VE"
            && columns(line, 4, 5).eq_ignore_ascii_case(b"VE")
        {
            found.push((
                "days",
                format!("the code is `{}`, which gives no operating days: is `VE` meant?", text(&columns(line, 4, 5))),
            ));
        }
        found.extend(unread_detail(line));
    }
    found
}

fn odd_name(line: &[u8]) -> Option<(&'static str, String)> {
    let rest = columns(line, 63, 74);
    if column(line, 62) != b' ' && column(line, 63) != b' ' {
        let says = format!(
            "the name goes on behind column 62, where `{}` is not read: what stands there of it is gone",
            text(super::lines::trimmed(&rest))
        );
        return Some(("name", says));
    }
    if column(line, 62) != b' ' {
        return Some(("name", "the name fills its 50 columns to the last: it may have been cut".to_string()));
    }
    if column(line, 13) == b' ' {
        return Some(("name", "the name begins with a blank: it may have been moved".to_string()));
    }
    None
}

/// A detail beside no stop, which the loader does not read: a bit field that was moved stands there.
fn unread_detail(line: &[u8]) -> Option<(&'static str, String)> {
    let details: &[usize] = match kind(line) {
        Kind::Category => &[24, 31],
        Kind::Attribute => &[30, 37],
        _ => &[],
    };
    let unread = |first: &&usize| {
        let end = end_of(line, **first);
        digits(line, end, end + 6).is_none() && !blank(&columns(line, **first, **first + 5))
    };
    details.iter().find(unread).map(|first| {
        let bytes = columns(line, *first, first + 5);
        let says = format!(
            "`{}` in columns {}-{} is a detail beside no stop, and is not read: was it moved there?",
            text(&bytes),
            first,
            first + 5
        );
        ("detail", says)
    })
}

/// A service that stands in the file twice, line by line, and a call that does.
fn twice(fplan: &[u8]) -> Vec<Look> {
    let mut found = Vec::new();
    let mut seen: BTreeMap<Vec<&[u8]>, u32> = BTreeMap::new();
    let (mut block, mut start): (Vec<&[u8]>, u32) = (Vec::new(), 0);
    let mut services = 0;
    let lines: Vec<(u32, &[u8])> = numbered(fplan).filter(|(_, line)| !passed_over(line)).collect();
    let ends = lines.iter().map(|(number, line)| (*number, Some(*line))).chain([(0, None)]);
    for (number, line) in ends {
        if line.map_or(true, |line| kind(line) == Kind::Opening) {
            if !block.is_empty() {
                let first = *seen.entry(std::mem::take(&mut block)).or_insert(start);
                if first != start {
                    if services == 0 {
                        let says = format!("the service is that of line {} once more, line by line", first);
                        found.push(Look { file: FPLAN, line: start, says, see: "looks" });
                    }
                    services += 1;
                }
            }
            start = number;
        }
        block.extend(line);
    }
    if let (true, Some(look)) = (services > 1, found.first_mut()) {
        look.says.push_str(&format!(" ({} such services)", services));
    }
    let call = |line: &[u8]| kind(line) == Kind::Call;
    let same = lines.windows(2).filter(|pair| call(pair[0].1) && pair[0].1 == pair[1].1).map(|pair| pair[1].0);
    let same: Vec<u32> = same.collect();
    if let Some(first) = same.first() {
        let more = if same.len() > 1 { format!(" ({} such lines)", same.len()) } else { String::new() };
        let says = format!("the call is that of the line before once more, byte for byte{}", more);
        found.push(Look { file: FPLAN, line: *first, says, see: "looks" });
    }
    found
}

/// The bytes of a line that a screen shows as `?`, in hex; at most eight.
pub fn hidden(line: &[u8]) -> Option<String> {
    let found: Vec<String> = (1..)
        .zip(line)
        .filter(|(_, byte)| !plain(**byte))
        .map(|(at, byte)| format!("{} is {:02X}", at, byte))
        .collect();
    let more = if found.len() > 8 { format!(" and {} more", found.len() - 8) } else { String::new() };
    (!found.is_empty())
        .then(|| format!("shown as ?, in hex: column {}{}", found[..found.len().min(8)].join(", "), more))
}

/// The name and the number of a file.
pub fn of_file(of: u32, line: u32) -> String {
    match line {
        0 => file_name(of).to_string(),
        line => format!("{} line {}", file_name(of), line),
    }
}
