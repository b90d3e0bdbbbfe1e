//! `--json`: one object a delivery, of the form that docs/REFUSALS.md says, whatever the bytes are.

use super::{broken, options, trial_week, with_file};
use crate::lines::{Delivery, BAHNHOF, FPLAN};
use crate::report::{self, Options};

fn object(delivery: &Delivery, all: bool) -> String {
    report::told(delivery, &Options { json: true, all, ..options() }).1
}

/// The place after a value of JSON, if there is one.
fn after(text: &[u8], at: usize) -> Option<usize> {
    match text.get(at)? {
        b'{' => members(text, at + 1, b'}', |text, at| {
            let at = after(text, at).filter(|_| text[at] == b'"')?;
            after(text, at + usize::from(text.get(at) == Some(&b':')))
        }),
        b'[' => members(text, at + 1, b']', after),
        b'"' => {
            let mut at = at + 1;
            loop {
                match text.get(at)? {
                    b'"' => return Some(at + 1),
                    b'\\' if b"\"\\n".contains(text.get(at + 1)?) => at += 2,
                    b'\\' if text.get(at + 1) == Some(&b'u') => at += 6,
                    byte if *byte < 32 || *byte == b'\\' => return None,
                    _ => at += 1,
                }
            }
        }
        b'0'..=b'9' => Some(at + text[at..].iter().take_while(|byte| byte.is_ascii_digit()).count()),
        _ => None,
    }
}

fn members(text: &[u8], start: usize, end: u8, member: fn(&[u8], usize) -> Option<usize>) -> Option<usize> {
    let mut at = start;
    if text.get(at) == Some(&end) {
        return Some(at + 1);
    }
    loop {
        at = member(text, at)?;
        match text.get(at)? {
            b',' => at += 1,
            byte if *byte == end => return Some(at + 1),
            _ => return None,
        }
    }
}

#[test]
fn accepted() {
    let release = crate::RELEASE;
    let said = object(&trial_week(), false);
    let wanted = format!(
        "{{\"desk\":\"{}\",\"status\":0,\"answer\":\"accepted\",\"from\":\"01.12.2025\",\"to\":\"07.12.2025\",\"days\":7,\"bitfields\":1,\
         \"stops\":3,\"interchange\":1,\"categories\":1,\"services\":1,\"words\":82,\"looks\":[]}}\n",
        release
    );
    assert_eq!(said, wanted);
    let said = object(&with_file(FPLAN, b""), false);
    assert!(
        said.contains("\"status\":3,\"answer\":\"accepted\"") && said.contains("\"see\":\"no-services\"}]}"),
        "{}",
        said
    );
}

#[test]
fn refused() {
    let said = object(&with_file(BAHNHOF, b"1000011     Quay \x07\"A\\<d>\n"), false);
    let wanted = "\"status\":1,\"answer\":\"refused\",\"number\":39,\"file\":3,\"name\":\"BAHNHOF\",\"line\":1,\"column\":0,\
                  \"place\":\"BAHNHOF line 1, column 22, name\",\"text\":\"1000011     Quay \\\\x07\\\"A\\\\<d>\",\"marks\":[[22,22]],\
                  \"title\":\"name field\",";
    assert!(said.contains(wanted), "{}", said);
    for member in
        ["\"meaning\":\"", "\"here\":[\"", "\"looks\":[]", "\"mend\":\"", "\"see\":\"docs/REFUSALS.md#bahnhof-39\"}"]
    {
        assert!(said.contains(member), "{}: {}", member, said);
    }
}

#[test]
fn unread() {
    let (status, said) = report::run(std::path::Path::new("no such directory"), &Options { json: true, ..options() });
    assert_eq!(status, 2);
    assert!(said.contains("\"answer\":\"unread\",\"files\":[{\"file\":1,\"name\":\"ECKDATEN\",\"why\":\""), "{}", said);
}

/// Each is one object in one line, and the same with all that is likely.
#[test]
fn well_formed() {
    for (name, delivery) in broken::cases() {
        for all in [false, true] {
            let said = object(&delivery, all);
            let (line, end) = said.split_at(said.len() - 1);
            assert!(end == "\n" && !line.contains('\n'), "{}: {}", name, said);
            assert_eq!(after(line.as_bytes(), 0), Some(line.len()), "{}: {}", name, said);
            assert!(
                !all || !said.contains("\"answer\":\"refused\"") || said.contains("\"all\":[{\"kind\":\""),
                "{}",
                said
            );
        }
    }
}
