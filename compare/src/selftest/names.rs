//! Names of stops (document 02, No. 3) by the reader: each clause of a list's form, and lists that were planned.

use std::collections::BTreeMap;

use crate::differ::rng_of;
use crate::generate::names::{bad_list, list, written, FIELD};
use crate::layout::{HEADER_WORDS, STOP_WORDS};
use crate::reader::names::names;
use crate::reader::{load, stop_name, Loaded, Named};

fn is_list(field: &str) -> bool {
    names(field.as_bytes()).is_some()
}

/// "names parted by "$"; after a name may come "$" and one or more patterns .. After the last pattern a "$" before the next name may
/// be there or not. A name is not empty and has no "$", "<" or ">"."
#[test]
fn lists() {
    for right in ["A", "A$B", "A$ $B", " ", "A$<d>", "A$<d>B", "A$<d>$B", "A$<d><e>", "A$<d><e>$B$C", "A$B$<1>C$<2>"] {
        assert!(is_list(right), "{}", right);
    }
    for wrong in
        ["", "$", "A$", "$A", "A$$B", "A$<d>$", "A$<d>$$B", "A$<d>$<e>", "<d>", "$<d>", "A<d>", "A>", "A<", "A$B<"]
    {
        assert!(!is_list(wrong), "{}", wrong);
    }
}

/// "each "<", letters of its list for languages, then digits 1 to 9 for types, ">", with at least one letter or digit"
#[test]
fn patterns() {
    for byte in 0..=255_u8 {
        let alone = [b'A', b'$', b'<', byte, b'>'];
        let expected = b"defhijnopstuwx123456789".contains(&byte);
        assert_eq!(names(&alone).is_some(), expected, "{}", byte);
        let after_letter = [b'A', b'$', b'<', b'd', byte, b'>'];
        assert_eq!(names(&after_letter).is_some(), expected, "d{}", byte);
        let after_digit = [b'A', b'$', b'<', b'1', byte, b'>'];
        assert_eq!(names(&after_digit).is_some(), (b'1'..=b'9').contains(&byte), "1{}", byte);
    }
    for right in ["A$<dd>", "A$<d1>", "A$<11>", "A$<dehijnopstuwx123456789>"] {
        assert!(is_list(right), "{}", right);
    }
    for wrong in ["A$<>", "A$<1d>", "A$<d1e>", "A$<d", "A$<", "A$<<d>", "A$<d>>", "A$<d$>", "A$<d><>", "A$<d e>"] {
        assert!(!is_list(wrong), "{}", wrong);
    }
}

/// A list of 50 bytes, and one of 51, right but for that.
#[test]
fn fifty_bytes() {
    for length in 1..60 {
        assert_eq!(is_list(&"A".repeat(length)), length <= FIELD);
    }
    assert!(is_list(&"A$<d>".repeat(10)));
    assert!(!is_list(&format!("{}A", "A$<d>".repeat(10))));
}

/// Lists as they were planned: read back, and every language and type answered as the plan says.
#[test]
fn planned() {
    let letters = b"defhijnopstuwx";
    let mut met: BTreeMap<&str, u32> = BTreeMap::new();
    for index in 0..3_000 {
        let rng = &mut rng_of(11, index);
        let entries = list(rng);
        let field = written(&entries);
        let found = names(&field).unwrap_or_else(|| panic!("{}", String::from_utf8_lossy(&field)));
        let read: Vec<_> = found.iter().map(|name| field[name.start..][..name.length].to_vec()).collect();
        assert_eq!(read, entries.iter().map(|entry| entry.name.clone()).collect::<Vec<_>>());
        for language in letters.iter().map(|letter| u32::from(*letter)).chain([0]) {
            for kind in 0..=9 {
                let fits = |(letters, digits): &(Vec<u8>, Vec<u8>)| {
                    let language_fits = language == 0 || letters.is_empty() || letters.contains(&(language as u8));
                    let type_fits = kind == 0 || digits.is_empty() || digits.contains(&(b'0' + kind as u8));
                    language_fits && type_fits
                };
                let first = entries.iter().position(|entry| entry.patterns.iter().any(fits));
                *met.entry(match first {
                    None => "default",
                    Some(0) => "the first fits",
                    Some(_) => "a later one fits",
                })
                .or_insert(0) += 1;
                let (start, length) = (found[first.unwrap_or(0)].start, found[first.unwrap_or(0)].length);
                assert_eq!(asked(&field, language, kind), Named::Part { start: 100 + start, length });
            }
        }
    }
    println!("names asked: {:?}", met);
    assert!(met.len() == 3 && met.values().all(|times| *times > 10_000));
}

/// A table of one stop, whose name field starts at byte 100.
fn asked(field: &[u8], language: u32, kind: u32) -> Named {
    let table = [15, 0, 7, 0, 1, 1, 0, 15, 0, 5, 100, field.len() as u32, 9_999_999, 2, 3];
    assert_eq!(table.len(), HEADER_WORDS + 2 * STOP_WORDS);
    stop_name(&table, &[&[b'$'; 100][..], field].concat(), 5, language, kind)
}

#[test]
fn bad_lists() {
    for index in 0..20_000 {
        let field = bad_list(&mut rng_of(12, index));
        let cut = &field[..field.len().min(FIELD)];
        assert!(names(cut).is_none(), "{}", String::from_utf8_lossy(cut));
        assert!(cut.last() != Some(&b' ') && !cut.is_empty());
    }
}

/// "39 after 4", before 7 and 6; columns from 63 on are free, and trailing blanks are not of the list.
#[test]
fn at_load() {
    let refusal = |bahnhof: &str| {
        let files: [&[u8]; 6] = [b"01.12.2025\n07.12.2025\n\n", b"", bahnhof.as_bytes(), b"9999999  2  3", b"", b""];
        match load(files, &mut [0; 100], &mut [0; 100]) {
            Loaded::Accepted { .. } => [0; 4],
            Loaded::Refused { number, file, line, column, .. } => [number, file, line, column as u32],
        }
    };
    assert_eq!(refusal("1000011     A$<d>  \n"), [0; 4]);
    assert_eq!(refusal("1000011     A$ \n"), [39, 3, 1, 0]);
    assert_eq!(refusal("1000011x    A$\n"), [4, 3, 1, 8]);
    assert_eq!(refusal("9999999     A$\n"), [39, 3, 1, 0]);
    assert_eq!(refusal("9999999     A\n"), [7, 3, 1, 0]);
    assert_eq!(refusal("1000011     A\n1000011     <d>\n"), [39, 3, 2, 0]);
    assert_eq!(refusal("1000011     A\n1000011     A\n"), [6, 3, 2, 0]);
    let fifty = "A$<d>".repeat(10);
    assert_eq!(refusal(&format!("1000011     {}$<\n", fifty)), [0; 4]);
    assert_eq!(refusal(&format!("1000011     B{}\n", fifty)), [39, 3, 1, 0]);
}

/// "in order, 21, 40 language or type outside the standard's list, 27, 41 name not inside the bytes given, 39"
#[test]
fn refusals_of_the_question() {
    let table = |place, length| [15, 0, 7, 0, 1, 1, 0, 15, 0, 5, place, length, 9_999_999, 2, 3];
    let number = |table: &[u32], stop, language, kind| match stop_name(table, b"A$B", stop, language, kind) {
        Named::Refused { number } => number,
        Named::Part { .. } => 0,
    };
    let d = u32::from(b'd');
    assert_eq!(number(&table(9, 9)[..14], 6, 1, 10), 21);
    assert_eq!([number(&table(9, 9), 6, 1, 0), number(&table(9, 9), 6, 0, 10)], [40; 2]);
    assert_eq!(number(&table(9, 9), 6, d, 9), 27);
    for (place, length) in [(9, 9), (0, 4), (4, 0), (3, 1), (u32::MAX, 1), (1, u32::MAX), (u32::MAX, u32::MAX)] {
        assert_eq!(number(&table(place, length), 5, d, 9), 41, "{} {}", place, length);
    }
    assert_eq!([number(&table(3, 0), 5, d, 0), number(&table(0, 2), 5, d, 0), number(&table(1, 2), 5, d, 0)], [39; 3]);
    assert_eq!(stop_name(&table(2, 1), b"A$B", 5, d, 0), Named::Part { start: 2, length: 1 });
    assert_eq!(stop_name(&table(0, 3), b"A$B", 5, 0, 0), Named::Part { start: 0, length: 1 });
}
