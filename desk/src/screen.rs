//! Screens: the proved answer, the lines with marks under a ruler, what it means and how to mend it. None is wider than 80 columns where a line of a file is shown.

use super::explain::{Answer, Told};
use super::lines::{file_name, line, row, Delivery};
use super::looks::hidden;
use super::service::Finding;

/// Columns of a file's line that a row shows.
const WIDE: usize = 66;

/// A line's number, the line if it is there, and the columns to mark.
type Shown<'a> = (u32, Option<&'a [u8]>, Vec<(usize, usize)>);

/// The whole screen of a refusal.
pub fn screen(delivery: &Delivery, answer: &Answer, told: &Told) -> String {
    let mut out = vec![answer.line_of_answer("refused")];
    out.push("(so far the proved answer; the rest this program has worked out)".to_string());
    out.push(String::new());
    out.push(told.place.clone());
    out.extend(rows(delivery.file(answer.file), answer, &told.found, true));
    out.push(format!("  {} - {}: {}", answer.number, told.title, told.meaning));
    out.extend(told.found.says.iter().map(|says| format!("  here: {}", says)));
    out.extend(told.looks.iter().map(|look| format!("  look: {}", look)));
    out.push(format!("  mend: {}", told.mend));
    out.push(format!("  see:  {}", told.see));
    out.push(String::new());
    out.join("\n")
}

/// A further offence in short: place and reason in a line, then the line itself.
pub fn short(delivery: &Delivery, answer: &Answer, told: &Told, word: &str) -> String {
    let here = told.found.says.first().cloned().unwrap_or_else(|| told.title.to_string());
    let mut out = vec![format!("{}: {}", answer.line_of_answer(word), here)];
    let marks = told.found.marks.iter().filter(|(line, _)| *line == answer.line).cloned().collect();
    out.extend(rows(delivery.file(answer.file), answer, &Finding { marks, says: Vec::new() }, false));
    out.push(String::new());
    out.join("\n")
}

/// The lines with their marks, the refused one among them, in pieces that an 80-column screen shows: the first piece and each that has a mark.
fn rows(file: &[u8], answer: &Answer, found: &Finding, ruler: bool) -> Vec<String> {
    if answer.line == 0 {
        return Vec::new();
    }
    let mut marks = found.marks.clone();
    if !marks.iter().any(|(line, _)| *line == answer.line) {
        marks.push((answer.line, Vec::new()));
    }
    marks.sort();
    let shown: Vec<Shown> = marks.into_iter().map(|(number, columns)| (number, line(file, number), columns)).collect();
    let end = |(_, bytes, columns): &Shown| {
        let last = columns.iter().map(|(_, last)| *last).max().unwrap_or(0);
        bytes.map_or(0, <[u8]>::len).max(last)
    };
    let longest = shown.iter().map(end).max().unwrap_or(0);
    let marked = |piece: usize| {
        let (first, last) = (piece * WIDE + 1, (piece + 1) * WIDE);
        shown.iter().flat_map(|(_, _, columns)| columns).any(|(from, to)| *from <= last && first <= *to)
    };
    let pieces: Vec<usize> =
        (0..=longest.saturating_sub(1) / WIDE).filter(|piece| *piece == 0 || marked(*piece)).collect();
    let mut out = Vec::new();
    for piece in &pieces {
        let (first, last) = (piece * WIDE + 1, longest.min((piece + 1) * WIDE));
        if longest > 0 && (ruler || pieces.len() > 1) {
            out.extend(ruled(first, last));
        }
        for (number, bytes, columns) in &shown {
            out.extend(part(*number, *bytes, columns, (first, last)));
        }
    }
    let bytes = shown.iter().filter_map(|(number, bytes, _)| Some((number, hidden((*bytes)?)?)));
    out.extend(bytes.map(|(number, told)| format!("  line {}: {}", number, told)));
    out
}

fn ruled(first: usize, last: usize) -> Vec<String> {
    let tens =
        (first..=last).map(|at| if at % 10 == 0 { char::from(b'0' + (at / 10 % 10) as u8) } else { ' ' }).collect();
    let ones = (first..=last).map(|at| char::from(b'0' + (at % 10) as u8)).collect();
    let rows: [String; 2] = [tens, ones];
    rows.iter().filter(|row| !row.trim().is_empty()).map(|row| format!("{:>7} |{}", "", row.trim_end())).collect()
}

/// The columns `first` to `last` of a line, and its marks there.
fn part(number: u32, bytes: Option<&[u8]>, marks: &[(usize, usize)], (first, last): (usize, usize)) -> Vec<String> {
    let text = match bytes {
        Some(bytes) => {
            let end = bytes.len().min(last);
            let more = if bytes.len() > last { " .." } else { "" };
            row(bytes.get(first - 1..end).unwrap_or(b"")) + more
        }
        None => "(this line is not there)".to_string(),
    };
    let mut out = vec![format!("{:>7} |{}", number, text).trim_end().to_string()];
    let marked = |at: usize| marks.iter().any(|(from, to)| *from <= at && at <= *to);
    let carets: String = (first..=last).map(|at| if marked(at) { '^' } else { ' ' }).collect();
    if carets.contains('^') {
        out.push(format!("{:>7} |{}", "", carets.trim_end()));
    }
    out
}

/// File, line and field.
pub fn place(delivery: &Delivery, answer: &Answer, field: &str) -> String {
    match (answer.file, answer.line) {
        (0, _) => "no file".to_string(),
        (file, 0) => format!("{}, {} bytes", file_name(file), delivery.file(file).len()),
        (file, line) => format!("{} line {}{}", file_name(file), line, field),
    }
}
