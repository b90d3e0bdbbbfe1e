//! `--json`: what the program says of a delivery, as one object in one line. docs/REFUSALS.md has its form.

use super::compare::Change;
use super::explain::{Answer, Told};
use super::lines::{file_name, line, Delivery};
use super::looks::Look;
use super::read::Unread;
use super::report::{Accepted, Options, Outcome, Refused, MOST_SHOWN};

/// A value that is written already.
struct Value(String);

fn string(text: &str) -> Value {
    let mut out = String::from('"');
    for sign in text.chars() {
        match sign {
            '"' => out.push_str("\\\""),
            '\\' => out.push_str("\\\\"),
            '\n' => out.push_str("\\n"),
            sign if u32::from(sign) < 32 => out.push_str(&format!("\\u{:04x}", u32::from(sign))),
            sign => out.push(sign),
        }
    }
    out.push('"');
    Value(out)
}

fn number(value: impl Into<u64>) -> Value {
    Value(value.into().to_string())
}

fn list(values: impl IntoIterator<Item = Value>) -> Value {
    let values: Vec<String> = values.into_iter().map(|value| value.0).collect();
    Value(format!("[{}]", values.join(",")))
}

fn object(members: Vec<(&str, Value)>) -> Value {
    let members: Vec<String> =
        members.into_iter().map(|(name, value)| format!("{}:{}", string(name).0, value.0)).collect();
    Value(format!("{{{}}}", members.join(",")))
}

/// The object of a delivery, and a line end.
pub fn outcome(delivery: &Delivery, outcome: &Outcome, options: &Options) -> String {
    let members = match outcome {
        Outcome::Accepted(found) => accepted(found),
        Outcome::Refused(found) => refused(delivery, found, options),
        Outcome::Unread(found) => unread(found),
    };
    let head = vec![("desk", string(super::RELEASE)), ("status", number(outcome.status() as u32))];
    object(head.into_iter().chain(members).collect()).0 + "\n"
}

fn accepted(found: &Accepted) -> Vec<(&'static str, Value)> {
    let [first, last] = found.period();
    let mut members = vec![("answer", string("accepted")), ("from", string(&first)), ("to", string(&last))];
    members.extend(found.counts().map(|(name, count)| (name, number(count))));
    members.push(("looks", list(found.looks.iter().map(look))));
    members
}

fn look(look: &Look) -> Value {
    object(vec![
        ("file", number(look.file)),
        ("name", string(file_name(look.file))),
        ("line", number(look.line)),
        ("says", string(&look.says)),
        ("see", string(look.see)),
    ])
}

fn refused(delivery: &Delivery, found: &Refused, options: &Options) -> Vec<(&'static str, Value)> {
    let mut members = vec![("answer", string("refused"))];
    members.extend(place(&found.answer));
    members.extend(meaning(delivery, &found.answer, &found.told));
    if let Some(survey) = &found.survey {
        let kind = |(heading, answers): (String, Vec<Answer>)| {
            let shown = answers.iter().take(options.most.unwrap_or(MOST_SHOWN)).map(|answer| object(place(answer)));
            object(vec![("kind", string(&heading)), ("count", number(answers.len() as u64)), ("first", list(shown))])
        };
        members.push(("all", list(survey.kinds(delivery).into_iter().map(kind))));
        members.push(("unchecked", list(survey.unchecked.iter().map(|line| number(*line)))));
    }
    members
}

fn place(answer: &Answer) -> Vec<(&'static str, Value)> {
    vec![
        ("number", number(answer.number)),
        ("file", number(answer.file)),
        ("name", string(file_name(answer.file))),
        ("line", number(answer.line)),
        ("column", number(answer.column as u64)),
    ]
}

fn meaning(delivery: &Delivery, answer: &Answer, told: &Told) -> Vec<(&'static str, Value)> {
    let own = told.found.marks.iter().filter(|(line, _)| *line == answer.line).flat_map(|(_, columns)| columns);
    let marks = list(own.map(|(first, last)| list([number(*first as u64), number(*last as u64)])));
    let bytes = line(delivery.file(answer.file), answer.line).unwrap_or(b"");
    vec![
        ("place", string(&told.place)),
        ("text", string(&super::lines::text(&bytes[..bytes.len().min(1_000)]))),
        ("marks", marks),
        ("title", string(told.title)),
        ("meaning", string(told.meaning)),
        ("here", list(told.found.says.iter().map(|says| string(says)))),
        ("looks", list(told.looks.iter().map(|look| string(look)))),
        ("mend", string(&told.mend)),
        ("see", string(&told.see)),
    ]
}

/// The object of a comparison, and a line end.
pub fn compared(status: i32, new: &Accepted, looks: &[String], changes: &[Change]) -> String {
    let change = |change: &Change| {
        object(vec![
            ("what", string(change.what)),
            ("how", string(change.how)),
            ("name", string(&change.name)),
            ("says", string(&change.says)),
        ])
    };
    let mut members = vec![("desk", string(super::RELEASE)), ("status", number(status as u32))];
    members.extend(accepted(new));
    members.push(("accidents", list(looks.iter().map(|look| string(look)))));
    members.push(("changes", list(changes.iter().map(change))));
    object(members).0 + "\n"
}

fn unread(found: &Unread) -> Vec<(&'static str, Value)> {
    let file = |(file, why): &(estelunya_planner::File, String)| {
        object(vec![("file", number(file.number())), ("name", string(file.name())), ("why", string(why))])
    };
    vec![
        ("answer", string("unread")),
        ("files", list(found.files.iter().map(file))),
        ("looks", list(found.looks.iter().map(|look| string(look)))),
    ]
}
