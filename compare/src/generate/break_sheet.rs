//! Damages to a sheet: refusals 2, 3, 5, 11, 12 and 39, which are about lines more than about what they mean.

use super::break_plan::{At, Hit};
use super::names::bad_list;
use super::plan::Plan;
use super::rng::Rng;
use super::sheet::{date_text, skipped_row, Row, Sheet, Tag};
use crate::reader::calendar::{LAST_DAY, MOST_PERIOD_DAYS};

pub type SheetDamage = fn(&mut Rng, &Plan, &mut Sheet) -> Hit;

/// Every damage with its refusal.
pub const DAMAGES: &[(u32, SheetDamage)] = &[
    (2, few_lines),
    (2, no_record),
    (3, fourth_line),
    (5, no_such_date),
    (5, end_before_start),
    (5, over_380),
    (11, other_kind),
    (12, before_first_opening),
    (39, bad_names),
];

fn few_lines(rng: &mut Rng, _: &Plan, sheet: &mut Sheet) -> Hit {
    let left = rng.index(3);
    sheet.files[0].truncate(left);
    Some((1, At::Line(left as u32 + 1)))
}

fn no_record(rng: &mut Rng, _: &Plan, sheet: &mut Sheet) -> Hit {
    let rows = &mut sheet.files[3];
    rows.retain(|row| row.tag == Tag::Skipped);
    for _ in 0..rng.below(3) {
        rows.push(skipped_row(rng));
    }
    Some((4, At::Line(rows.len() as u32 + 1)))
}

fn fourth_line(rng: &mut Rng, _: &Plan, sheet: &mut Sheet) -> Hit {
    for _ in 0..rng.pick(&[1, 1, 2]) {
        let text = match rng.below(4) {
            0 => Vec::new(),
            1 => b"% 4".to_vec(),
            2 => b"\r".to_vec(),
            _ => b"01.01.2000".to_vec(),
        };
        sheet.files[0].push(Row { tag: Tag::Free, text });
    }
    Some((1, At::Line(4)))
}

/// Writes a date over columns 1-10 of an ECKDATEN line.
fn redate(sheet: &mut Sheet, line: usize, date: &[u8]) -> Hit {
    sheet.files[0][line].text[..10].copy_from_slice(date);
    Some((1, At::Tag(Tag::Date(line))))
}

fn no_such_date(rng: &mut Rng, _: &Plan, sheet: &mut Sheet) -> Hit {
    let date = rng.pick(&[
        b"00.00.0000",
        b"31.12.1899",
        b"01.01.2200",
        b"29.02.1900",
        b"29.02.2100",
        b"29.02.2025",
        b"30.02.2000",
        b"31.04.2025",
        b"31.06.2025",
        b"31.09.2025",
        b"31.11.2025",
        b"32.01.2025",
        b"00.05.2025",
        b"12.00.2025",
        b"12.13.2025",
        b"99.99.9999",
    ]);
    redate(sheet, rng.index(2), date)
}

fn end_before_start(rng: &mut Rng, plan: &Plan, sheet: &mut Sheet) -> Hit {
    let earlier = if rng.coin() { 1 } else { rng.between(1, 400) };
    let end = plan.first_day.checked_sub(earlier)?;
    redate(sheet, 1, &date_text(end))
}

fn over_380(rng: &mut Rng, plan: &Plan, sheet: &mut Sheet) -> Hit {
    let end = plan.first_day + MOST_PERIOD_DAYS + if rng.coin() { 0 } else { rng.below(50_000) };
    if end > LAST_DAY {
        return None;
    }
    redate(sheet, 1, &date_text(end))
}

/// A line of FPLAN that is not skipped and of no kind.
fn kindless(rng: &mut Rng) -> Vec<u8> {
    let start = rng.pick(&[
        "*L ", "*Zx", "*GR ", "*AVE", "*z ", "*TT", "*TT 00001", "*T\t", "*t ", "*ZT", "* T", "T ", "*", "**", "* Z",
        " 1000011", "\t", "Z ", "+1", "\r1", "-", "\u{e4}",
    ]);
    let mut text = start.as_bytes().to_vec();
    if rng.coin() {
        text.resize(58, b' ');
        text.push(b'%');
    }
    text
}

fn first_opening(rows: &[Row]) -> Option<usize> {
    rows.iter().position(|row| matches!(row.tag, Tag::Z(_) | Tag::T(_)))
}

fn other_kind(rng: &mut Rng, _: &Plan, sheet: &mut Sheet) -> Hit {
    let rows = &mut sheet.files[4];
    let first = first_opening(rows)?;
    // The services before must be whole: put the line behind an opening line, or behind a line of the same service.
    let at = rng.between(first as u32 + 1, rows.len() as u32) as usize;
    rows.insert(at, Row { tag: Tag::Free, text: kindless(rng) });
    Some((5, At::Line(at as u32 + 1)))
}

fn before_first_opening(rng: &mut Rng, _: &Plan, sheet: &mut Sheet) -> Hit {
    let rows = &mut sheet.files[4];
    let stray: Vec<Vec<u8>> = rows
        .iter()
        .filter(|row| matches!(row.tag, Tag::Call(..) | Tag::G(..) | Tag::Ve(..) | Tag::Other(..)))
        .map(|row| row.text.clone())
        .collect();
    let text = match rng.below(3) {
        0 if !stray.is_empty() => stray[rng.index(stray.len())].clone(),
        1 => rng.pick(&["*G", "*A VE", "1", "*G BAT"]).as_bytes().to_vec(),
        _ => kindless(rng),
    };
    let at = rng.index(first_opening(rows).unwrap_or(rows.len()) + 1);
    rows.insert(at, Row { tag: Tag::Free, text });
    Some((5, At::Line(at as u32 + 1)))
}

/// A name field that is no list. It comes before 7 and 6, so that the number may be wrong as well.
fn bad_names(rng: &mut Rng, _: &Plan, sheet: &mut Sheet) -> Hit {
    let rows = &mut sheet.files[2];
    let stops: Vec<usize> = (0..rows.len()).filter(|i| matches!(rows[*i].tag, Tag::Stop(_))).collect();
    if stops.is_empty() {
        return None;
    }
    let (at, before) = (rng.pick(&stops), rng.pick(&stops));
    let number = rows[before].text[..7].to_vec();
    let text = &mut rows[at].text;
    text.truncate(12);
    text.extend(bad_list(rng));
    match rng.below(8) {
        0 => text[..7].copy_from_slice(rng.pick(&[b"9999999", b"1200000", b"0000000"])),
        1 => text[..7].copy_from_slice(&number),
        2 => text.extend_from_slice(b"   "),
        _ => {}
    }
    Some((3, At::Tag(rows[at].tag)))
}
