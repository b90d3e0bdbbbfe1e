//! A stop's name field: "names parted by "$"", each perhaps with patterns (document 02, No. 3).

/// The letters of the standard's languages (5.1).
const LANGUAGES: &[u8] = b"defhijnopstuwx";

/// A language and a type that are asked for; 0 is any.
#[derive(Clone, Copy, Debug)]
pub struct Wanted {
    language: u8,
    kind: u8,
}

impl Wanted {
    /// `None` where the standard's list has no such language or type.
    pub fn new(language: u32, kind: u32) -> Option<Wanted> {
        let language = u8::try_from(language).ok().filter(|letter| *letter == 0 || LANGUAGES.contains(letter))?;
        let kind = u8::try_from(kind).ok().filter(|kind| *kind <= 9)?;
        Some(Wanted { language, kind })
    }

    /// Whether a pattern's letters and digits fit: none of a sort fits everything.
    fn fits(self, pattern: &[u8]) -> bool {
        let (letters, digits) = pattern.split_at(pattern.iter().take_while(|byte| byte.is_ascii_lowercase()).count());
        (self.language == 0 || letters.is_empty() || letters.contains(&self.language))
            && (self.kind == 0 || digits.is_empty() || digits.contains(&(b'0' + self.kind)))
    }
}

/// The first name with a fitting pattern, else the first name; `None` if the field is no list.
pub fn fitting(field: &[u8], wanted: Wanted) -> Option<&[u8]> {
    if !is_list(field) {
        return None;
    }
    let (mut rest, mut first) = (field, None);
    while !rest.is_empty() {
        let (name, behind) = rest.split_at(rest.iter().position(|byte| *byte == b'$').unwrap_or(rest.len()));
        first = first.or(Some(name));
        rest = behind.strip_prefix(b"$").unwrap_or(behind);
        let mut patterned = false;
        while let Some(pattern) = rest.strip_prefix(b"<") {
            let (pattern, behind) = pattern.split_at(pattern.iter().position(|byte| *byte == b'>')?);
            if wanted.fits(pattern) {
                return Some(name);
            }
            rest = &behind[1..];
            patterned = true;
        }
        if patterned {
            rest = rest.strip_prefix(b"$").unwrap_or(rest);
        }
    }
    first
}

/// Where a byte stands in a list.
#[derive(Clone, Copy)]
enum At {
    /// A name must begin.
    NameStart,
    Name,
    /// Behind the "$" after a name: a name or a pattern.
    NameOrPattern,
    /// Behind "<": no letter or digit yet.
    PatternStart,
    Languages,
    Types,
    /// Behind ">": a further pattern, "$", a name, or the end.
    PatternEnd,
}

/// Whether these bytes are a list of names; read byte by byte, with no name kept.
pub fn is_list(field: &[u8]) -> bool {
    let end = field.iter().try_fold(At::NameStart, |at, byte| next(at, *byte));
    matches!(end, Some(At::Name | At::PatternEnd))
}

fn next(at: At, byte: u8) -> Option<At> {
    match (at, byte) {
        (At::Name, b'$') => Some(At::NameOrPattern),
        (At::PatternEnd, b'$') => Some(At::NameStart),
        (At::NameOrPattern | At::PatternEnd, b'<') => Some(At::PatternStart),
        (At::PatternStart | At::Languages, letter) if LANGUAGES.contains(&letter) => Some(At::Languages),
        (At::PatternStart | At::Languages | At::Types, b'1'..=b'9') => Some(At::Types),
        (At::Languages | At::Types, b'>') => Some(At::PatternEnd),
        (At::NameStart | At::Name | At::NameOrPattern | At::PatternEnd, byte) if !b"$<>".contains(&byte) => {
            Some(At::Name)
        }
        _ => None,
    }
}
