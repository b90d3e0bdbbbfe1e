//! Lines written by their columns, counted from 1.

/// A line of blanks with texts at their columns; a FPLAN line gets its "%".
pub fn line(fields: &[(usize, &str)]) -> String {
    let mut text = Vec::new();
    for (column, field) in fields {
        let end = column - 1 + field.len();
        if text.len() < end {
            text.resize(end, b' ');
        }
        text[column - 1..end].copy_from_slice(field.as_bytes());
    }
    String::from_utf8(text).unwrap()
}

pub fn z(number: &str, administration: &str, repeats: &str, offset: &str) -> String {
    line(&[(1, "*Z"), (4, number), (10, administration), (23, repeats), (27, offset), (59, "%")])
}

/// A *T line: running time in minutes, density in seconds.
pub fn t(number: &str, administration: &str, running_time: &str, density: &str) -> String {
    line(&[(1, "*T"), (4, number), (10, administration), (17, running_time), (22, density), (59, "%")])
}

/// A *G line; the ends are pairs of end and detail.
pub fn g(category: &str, from: (&str, &str), to: (&str, &str)) -> String {
    line(&[(1, "*G"), (4, category), (8, from.0), (16, to.0), (24, from.1), (31, to.1), (59, "%")])
}

pub fn a(code: &str, from: (&str, &str), to: (&str, &str), bitfield: &str) -> String {
    line(&[(1, "*A"), (4, code), (7, from.0), (15, to.0), (23, bitfield), (30, from.1), (37, to.1), (59, "%")])
}

pub fn call(stop: &str, arrival: &str, departure: &str) -> String {
    line(&[(1, stop), (30, arrival), (37, departure), (59, "%")])
}

/// A ZUGART line: output control 0, no text for the output, no supplement; a blank group is none.
pub fn category(code: &str, class: u32, group: &str) -> String {
    line(&[(1, code), (5, &format!("{:>2}", class)), (8, group), (10, "0"), (21, "0")])
}

/// A BITFELD line whose digits go on with zeros.
pub fn bitfield(number: &str, digits: &str) -> String {
    format!("{} {:0<96}", number, digits)
}

/// The 96 hex digits of a bit field.
pub fn bit_digits(words: &[u32; 12]) -> String {
    words.iter().map(|word| format!("{:08X}", word)).collect()
}

pub fn file(lines: &[String]) -> Vec<u8> {
    lines.iter().map(|line| format!("{}\n", line)).collect::<String>().into_bytes()
}

pub fn text(lines: &[&str]) -> Vec<u8> {
    let owned: Vec<String> = lines.iter().map(|line| line.to_string()).collect();
    file(&owned)
}
