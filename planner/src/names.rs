//! Languages and types of stop names, and how their bytes are read.

use std::borrow::Cow;

/// A language of the standard's list (5.1), or any of them.
#[derive(Clone, Copy, Debug, PartialEq, Eq, PartialOrd, Ord, Hash)]
#[allow(missing_docs)]
pub enum Language {
    /// Any language: it fits every pattern.
    Any = 0,
    German = b'd' as isize,
    English = b'e' as isize,
    French = b'f' as isize,
    Spanish = b'h' as isize,
    Italian = b'i' as isize,
    Japanese = b'j' as isize,
    Dutch = b'n' as isize,
    Norwegian = b'o' as isize,
    Polish = b'p' as isize,
    Swedish = b's' as isize,
    Turkish = b't' as isize,
    Hungarian = b'u' as isize,
    Danish = b'w' as isize,
    Irish = b'x' as isize,
}

impl Language {
    /// The languages of the list, by their letters.
    pub const ALL: [Language; 14] = [
        Language::German,
        Language::English,
        Language::French,
        Language::Spanish,
        Language::Italian,
        Language::Japanese,
        Language::Dutch,
        Language::Norwegian,
        Language::Polish,
        Language::Swedish,
        Language::Turkish,
        Language::Hungarian,
        Language::Danish,
        Language::Irish,
    ];

    /// The language of a letter of the list: `d`, `e`, `f`; `None` if the list does not have it.
    #[must_use]
    pub fn from_letter(letter: char) -> Option<Language> {
        Language::ALL.iter().copied().find(|language| language.number() == u32::from(letter))
    }

    /// Its letter; `None` of any language.
    #[must_use]
    pub fn letter(self) -> Option<char> {
        char::from_u32(self.number()).filter(|_| self != Language::Any)
    }

    /// As the archive takes it: the byte of its letter, 0 for any.
    #[must_use]
    pub fn number(self) -> u32 {
        self as u32
    }
}

/// A type of names, 1 to 9, or any; what each means is for the delivery's makers to say.
#[derive(Clone, Copy, Debug, PartialEq, Eq, PartialOrd, Ord, Hash)]
pub struct NameType(u32);

impl NameType {
    /// Any type: it fits every pattern.
    pub const ANY: NameType = NameType(0);

    /// The type of a number; `None` unless 1 to 9.
    #[must_use]
    pub fn new(number: u32) -> Option<NameType> {
        Some(NameType(number)).filter(|_| (1..=9).contains(&number))
    }

    /// Its number, 0 for any.
    #[must_use]
    pub fn number(self) -> u32 {
        self.0
    }
}

/// How the bytes of a delivery's names are meant: no file says it, so the host knows it of its operator. Bytes below 128 are ASCII in all of them.
///
/// ```
/// use estelunya_planner::Coding;
///
/// assert_eq!(Coding::Utf8.text("Zürich".as_bytes()), "Zürich");
/// assert_eq!(Coding::Latin1.text(b"Z\xFCrich"), "Zürich");
/// assert_eq!(Coding::IbmPc.text(b"Z\x81rich"), "Zürich");
/// // what is no UTF-8 is marked, never refused
/// assert_eq!(Coding::Utf8.text(b"Z\xFCrich"), "Z\u{FFFD}rich");
/// ```
#[derive(Clone, Copy, Debug, PartialEq, Eq, Hash)]
#[non_exhaustive]
pub enum Coding {
    /// UTF-8; what is none is shown as U+FFFD.
    Utf8,
    /// ISO 8859-1: each byte is the character of its number.
    Latin1,
    /// The IBM PC character set, code page 437, which the standard names for all files (section 4).
    IbmPc,
}

/// The characters 128 to 255 of code page 437.
const IBM_PC: &str = "ÇüéâäàåçêëèïîìÄÅÉæÆôöòûùÿÖÜ¢£¥₧ƒáíóúñÑªº¿⌐¬½¼¡«»░▒▓│┤╡╢╖╕╣║╗╝╜╛┐└┴┬├─┼╞╟╚╔╩╦╠═╬╧╨╤╥╙╘╒╓╫╪┘┌█▄▌▐▀αßΓπΣσµτΦΘΩδ∞φε∩≡±≥≤⌠⌡÷≈°∙·√ⁿ²■\u{A0}";

impl Coding {
    /// The text of bytes in this coding. Any bytes have one.
    #[must_use]
    pub fn text(self, bytes: &[u8]) -> Cow<'_, str> {
        match self {
            Coding::Utf8 => String::from_utf8_lossy(bytes),
            _ if bytes.is_ascii() => String::from_utf8_lossy(bytes),
            Coding::Latin1 => bytes.iter().map(|byte| char::from(*byte)).collect(),
            Coding::IbmPc => bytes.iter().map(|byte| ibm_pc(*byte)).collect(),
        }
    }
}

fn ibm_pc(byte: u8) -> char {
    match byte.checked_sub(128) {
        Some(high) => IBM_PC.chars().nth(high.into()).unwrap_or(char::REPLACEMENT_CHARACTER),
        None => char::from(byte),
    }
}

#[cfg(test)]
mod tests {
    use super::{ibm_pc, Language, NameType, IBM_PC};

    #[test]
    fn every_byte() {
        assert_eq!(IBM_PC.chars().count(), 128);
        assert_eq!([0x80, 0xE1, 0xFF, b'A'].map(ibm_pc), ['Ç', 'ß', '\u{A0}', 'A']);
    }

    #[test]
    fn letters() {
        let letters: String = Language::ALL.iter().filter_map(|language| language.letter()).collect();
        assert_eq!(letters, "defhijnopstuwx");
        assert!(Language::ALL
            .iter()
            .all(|language| language.letter().and_then(Language::from_letter) == Some(*language)));
        assert_eq!(
            (Language::from_letter('D'), Language::from_letter('\0'), Language::Any.letter()),
            (None, None, None)
        );
        assert_eq!([0, 1, 9, 10].map(|number| NameType::new(number).is_some()), [false, true, true, false]);
    }
}
