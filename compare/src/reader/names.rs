//! The names of a stop (document 02, No. 3, and section 5.1 of the standard): the name field read as a list, and the name that a
//! language and a type ask for.

/// 5.1's "possible language codes".
const LANGUAGES: &[u8] = b"defhijnopstuwx";

/// "digits 1 to 9 for types"
const TYPES: std::ops::RangeInclusive<u8> = b'1'..=b'9';

/// Columns 13-62. Open point: a longer list cannot stand there, whatever the words of a table say of it.
const MOST_BYTES: usize = 50;

/// A pattern: its letters and its digits, as they stand.
#[derive(Clone, Debug, PartialEq, Eq)]
pub struct Pattern {
    pub letters: Vec<u8>,
    pub digits: Vec<u8>,
}

/// A name by its place and length in the field, and the patterns that follow it.
#[derive(Clone, Debug, PartialEq, Eq)]
pub struct Name {
    pub start: usize,
    pub length: usize,
    pub patterns: Vec<Pattern>,
}

/// What is asked for: a letter and a digit of the list, `None` for any.
#[derive(Clone, Copy, Debug, PartialEq, Eq)]
pub struct Wanted {
    letter: Option<u8>,
    digit: Option<u8>,
}

/// 40: "language or type outside the standard's list"; "(0 for any)".
pub fn wanted(language: u32, kind: u32) -> Option<Wanted> {
    let letter = match language {
        0 => None,
        _ => Some(*LANGUAGES.iter().find(|letter| u32::from(**letter) == language)?),
    };
    let digit = match kind {
        0 => None,
        1..=9 => Some(b'0' + kind as u8),
        _ => return None,
    };
    Some(Wanted { letter, digit })
}

/// The names of a field; `None` if it is a bad list (39).
pub fn names(field: &[u8]) -> Option<Vec<Name>> {
    if field.len() > MOST_BYTES {
        return None;
    }
    let (mut found, mut at) = (Vec::new(), 0);
    loop {
        // "A name is not empty and has no "$", "<" or ">"."
        let start = at;
        at += field[at..].iter().take_while(|byte| !b"$<>".contains(byte)).count();
        if at == start {
            return None;
        }
        let length = at - start;
        // "after a name may come "$" and one or more patterns"
        let mut patterns = Vec::new();
        if field[at..].starts_with(b"$<") {
            at += 1;
            while field[at..].starts_with(b"<") {
                let (pattern, bytes) = pattern(&field[at..])?;
                patterns.push(pattern);
                at += bytes;
            }
        }
        let bare = patterns.is_empty();
        found.push(Name { start, length, patterns });
        match field.get(at) {
            None => return Some(found),
            // "names parted by "$""; "After the last pattern a "$" before the next name may be there or not."
            Some(b'$') => at += 1,
            Some(_) if bare => return None,
            Some(_) => {}
        }
    }
}

/// "each "<", letters of its list for languages, then digits 1 to 9 for types, ">", with at least one letter or digit": the one at the
/// start of the text, and its bytes.
fn pattern(text: &[u8]) -> Option<(Pattern, usize)> {
    let inside = text.strip_prefix(b"<")?;
    let end = inside.iter().position(|byte| *byte == b'>')?;
    let inside = &inside[..end];
    let letters = inside.iter().take_while(|byte| LANGUAGES.contains(byte)).count();
    let (letters, digits) = inside.split_at(letters);
    if inside.is_empty() || !digits.iter().all(|byte| TYPES.contains(byte)) {
        return None;
    }
    Some((Pattern { letters: letters.to_vec(), digits: digits.to_vec() }, end + 2))
}

/// "(no letters fits every language, no digits every type)". Open point: what is asked for as 0 fits every pattern, and one pattern
/// must fit both.
pub fn fits(pattern: &Pattern, wanted: Wanted) -> bool {
    let fits =
        |listed: &[u8], asked: Option<u8>| listed.is_empty() || asked.map_or(true, |byte| listed.contains(&byte));
    fits(&pattern.letters, wanted.letter) && fits(&pattern.digits, wanted.digit)
}

/// "answer the first name with a fitting pattern .., else the first name". Open point: a name without patterns fits nothing.
pub fn chosen(names: &[Name], wanted: Wanted) -> &Name {
    let fitting = |name: &&Name| name.patterns.iter().any(|pattern| fits(pattern, wanted));
    names.iter().find(fitting).unwrap_or(&names[0])
}
