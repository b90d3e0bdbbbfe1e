//! The comparison of requests 9, 11, 12 and 14 and of the quick questions: it passes the reader, reaches every answer, and finds a boundary that slips in one thing.

use crate::boundary::{Boundary, Reader};
use crate::edge::{Edge, Edges, Side};
use crate::functions::{Boards, Connections, Indexes, Quick, Writes};
use crate::generate::raw_table::parts;
use crate::layout::{
    CALLS_AT, CALL_FLAGS_AT, CALL_PLACE_AT, CALL_WORDS, DEPARTURE, FIRST_SERVICE_AT, KIND_AT, KIND_T, NO_ALIGHTING,
    NO_BOARDING, OFFSET_AT, REPEATS_AT, SERVICE_WORDS, SIZE_AT, STOPS_AT, USED_AT,
};
use crate::reader::board::{departures, BOARD_ROW_WORDS};
use crate::reader::connection::PART_WORDS;
use crate::reader::index_words;
use crate::reader::quick_board::quick_departures;
use crate::reader::write::text_of;
use crate::reader::{is_table, BoardQuestion};
use crate::requests::{boards, case, connections, indexes, isolation, quick, writes, Counts, Difference, Turn};

/// So many cases, all right; every answer that there is came.
fn passes(cases: u64, answers: &[&str], compare: impl Fn(&mut Turn<'_>, u64) -> Result<(), Box<Difference>>) {
    let (mut edges, mut counts) = (Edges::default(), Counts::default());
    for index in 0..cases {
        if let Err(difference) = case(5, index, &mut edges, &mut counts, &compare) {
            panic!("case {}: {}", index, difference.text);
        }
    }
    assert_eq!(counts.missing(answers), [""; 0]);
}

/// Whether so many cases find a slip.
fn finds(cases: u64, compare: impl Fn(&mut Turn<'_>, u64) -> Result<(), Box<Difference>>) -> bool {
    let (mut edges, mut counts) = (Edges::default(), Counts::default());
    (0..cases).any(|index| case(6, index, &mut edges, &mut counts, &compare).is_err())
}

#[test]
fn memory_at_the_edge() {
    let mut edge = Edge::default();
    for side in [Side::Front, Side::Behind] {
        let (sum, after, whole) = edge.lend(&[1, 2, 3], side, |words| {
            words[1] = 7;
            words.iter().sum::<u32>()
        });
        assert_eq!((sum, after, whole), (11, vec![1, 7, 3], true));
        let (_, after, whole) = edge.lend_bytes(b"abc", side, |bytes| {
            let outside = if side == Side::Front { 3 } else { -1 };
            // SAFETY: the guard stands on this side.
            unsafe { *bytes.as_mut_ptr().offset(outside) ^= 1 };
        });
        assert_eq!((after, whole), (b"abc".to_vec(), false));
    }
}

/// The reader with one slip each, and the list of them.
macro_rules! slips {
    ($all:ident, $name:ident: $($slip:ident),* $(,)?) => {
        #[derive(Clone, Copy, Debug, PartialEq, Eq)]
        enum $name {
            $($slip),*
        }

        const $all: &[$name] = &[$($name::$slip),*];
    };
}

slips!(INDEX_SLIPS, IndexSlip: WordMoreTaken, WordLessTaken, LastWordFree, HeadFree, LinkFree, OnShort, NeededLost, LastMatch);

impl Indexes for IndexSlip {
    fn index(&self, table: &[u32], lent: &mut [u32]) -> [u64; 2] {
        let answer = Reader.index(table, lent);
        match self {
            IndexSlip::OnShort if answer[0] == 29 => lent.iter_mut().take(1).for_each(|word| *word = 0),
            IndexSlip::NeededLost if answer[0] == 29 => return [29, 0],
            // as if records counted from the front
            IndexSlip::LastMatch if answer[0] == 0 && lent.len() > 1 => lent.swap(0, 1),
            _ => {}
        }
        answer
    }

    fn check_index(&self, table: &[u32], index: &[u32]) -> [u64; 1] {
        let own = match index_words(table) {
            Some(own) => own,
            None => return [21],
        };
        let same = |from: usize, to: usize| index.len() == own.len() && own[from..to] == index[from..to];
        let is_taken = match self {
            IndexSlip::WordMoreTaken => index.starts_with(&own),
            IndexSlip::WordLessTaken => own.starts_with(index),
            IndexSlip::LastWordFree => same(0, own.len() - 1),
            IndexSlip::HeadFree => own.len() > 1 && same(1, own.len()),
            IndexSlip::LinkFree => own.len() > 1 && same(0, 1) && same(2, own.len()),
            _ => own == index,
        };
        [if is_taken { 0 } else { 43 }]
    }
}

#[test]
fn indexes_compared() {
    passes(400, indexes::ANSWERS, |turn, index| indexes::compare(turn, index, &Reader));
    for slip in INDEX_SLIPS {
        assert!(finds(400, |turn, index| indexes::compare(turn, index, slip)), "{:?} was not found", slip);
    }
}

slips!(
    BOARD_SLIPS,
    BoardSlip: EndLeftOut, StartLeftOut, ByService, RunTwice, LastRunLost, NoBoardingListed, RoundedDown, AnyIndex, IndexFirst, OnShort, NeededInRows, EmptyNeedsRoom,
    WordBehind, UnknownEmpty
);

impl Boards for BoardSlip {
    fn board(&self, table: &[u32], index: &[u32], asked: &BoardQuestion, list: &mut [u32]) -> [u64; 3] {
        use BoardSlip::*;
        let mut asked = *asked;
        let mut seen = table.to_vec();
        match self {
            EndLeftOut if asked.last > 0 => asked.last -= 1,
            StartLeftOut => asked.first = asked.first.saturating_add(1),
            EmptyNeedsRoom if asked.first > asked.last && list.len() < BOARD_ROW_WORDS => {
                return match Reader.board(table, index, &asked, list) {
                    [0, ..] => [29, 0, 4],
                    refused => refused,
                }
            }
            NoBoardingListed | RoundedDown if is_table(table) => {
                let mut raw = parts(&table[..table[USED_AT] as usize]);
                for service in &mut raw.services {
                    if *self == NoBoardingListed {
                        service.calls.iter_mut().for_each(|call| call[CALL_FLAGS_AT] &= !NO_BOARDING);
                    } else if service.head[KIND_AT] == KIND_T && service.head[OFFSET_AT] % 60 == 1 {
                        service.head[OFFSET_AT] = (service.head[OFFSET_AT] - 1).max(1);
                    }
                }
                seen = raw.words();
                if index_words(table).as_deref() == Some(index) {
                    return given(departures(&seen, None, &asked), list);
                }
            }
            IndexFirst if is_table(table) && index_words(table).as_deref() != Some(index) => return [43, 0, 0],
            AnyIndex => return given(departures(table, None, &asked), list),
            _ => {}
        }
        let mut rows = match departures(&seen, Some(index), &asked) {
            Err(27) if *self == UnknownEmpty => Vec::new(),
            Ok(rows) => rows,
            Err(number) => return [number.into(), 0, 0],
        };
        match self {
            ByService => rows.sort_by_key(|row| (row.service, row.time, row.repeat, row.place)),
            RunTwice if !rows.is_empty() => rows.insert(0, rows[0]),
            LastRunLost => rows.retain(|row| row.repeat == 0 || rows_late(table, row.service) != row.repeat),
            _ => {}
        }
        let answer = given(Ok(rows), list);
        match self {
            OnShort if answer[0] == 29 => list.iter_mut().take(1).for_each(|word| *word ^= 1),
            NeededInRows if answer[0] == 29 => return [29, 0, answer[2] / 4],
            WordBehind if answer[0] == 0 => {
                let behind = BOARD_ROW_WORDS * answer[1] as usize;
                list.iter_mut().skip(behind).take(1).for_each(|word| *word ^= 1);
            }
            _ => {}
        }
        answer
    }
}

/// The last run of a service.
fn rows_late(table: &[u32], service: u32) -> u32 {
    let head = parts(&table[..table[USED_AT] as usize]).services[service as usize].head;
    match head[KIND_AT] {
        KIND_T => 60 * head[REPEATS_AT] / head[OFFSET_AT],
        _ => head[REPEATS_AT],
    }
}

fn given(rows: Result<Vec<crate::reader::board::Departure>, u32>, list: &mut [u32]) -> [u64; 3] {
    let rows = match rows {
        Ok(rows) => rows,
        Err(number) => return [number.into(), 0, 0],
    };
    let words: Vec<u32> = rows.iter().flat_map(|row| row.words()).collect();
    match list.get_mut(..words.len()) {
        Some(front) => front.copy_from_slice(&words),
        None => return [29, 0, words.len() as u64],
    }
    [0, rows.len() as u64, 0]
}

/// Quick boards of the reader; checked ones where it has none.
struct Quickly;

impl Boards for Quickly {
    fn board(&self, table: &[u32], index: &[u32], asked: &BoardQuestion, list: &mut [u32]) -> [u64; 3] {
        match quick_departures(table, index, asked) {
            Some(rows) => given(rows, list),
            None => Reader.board(table, index, asked, list),
        }
    }
}

slips!(
    MARK_SLIPS,
    MarkSlip: MarkUnread, MarkTaken, NotZeroTaken, LowBitTaken, TableAlone, FlagsCut, PlaceCut, DepartureStated
);

impl Boards for MarkSlip {
    fn board(&self, table: &[u32], index: &[u32], asked: &BoardQuestion, list: &mut [u32]) -> [u64; 3] {
        use MarkSlip::*;
        let mut words = index.to_vec();
        if let Some(mark) = words.last_mut() {
            match self {
                MarkUnread => *mark = 0,
                MarkTaken => *mark = 1,
                NotZeroTaken => *mark = u32::from(*mark != 0),
                LowBitTaken => *mark &= 1,
                TableAlone if !is_table(table) => *mark = 0,
                _ => {}
            }
        }
        let seen = match self {
            FlagsCut => calls_changed(table, |call| call[CALL_FLAGS_AT] &= 15),
            PlaceCut => calls_changed(table, |call| call[CALL_PLACE_AT] %= table[STOPS_AT].max(1)),
            // as a walk needs it
            DepartureStated => calls_changed(table, |call| {
                if call[CALL_FLAGS_AT] & DEPARTURE == 0 {
                    call[CALL_FLAGS_AT] |= NO_BOARDING;
                }
            }),
            _ => table.to_vec(),
        };
        Quickly.board(&seen, &words, asked, list)
    }
}

/// The words with each call changed, as far as records stand one behind the other.
fn calls_changed(table: &[u32], change: impl Fn(&mut [u32])) -> Vec<u32> {
    let mut words = table.to_vec();
    let mut at = if is_headed(table) { table[FIRST_SERVICE_AT] as usize } else { table.len() };
    while let Some(head) = words.get(at..).filter(|head| head.len() >= SERVICE_WORDS) {
        let (size, calls) = (head[SIZE_AT] as usize, CALL_WORDS * head[CALLS_AT] as usize);
        if size < SERVICE_WORDS + calls || size > head.len() {
            break;
        }
        words[at + SERVICE_WORDS..][..calls].chunks_exact_mut(CALL_WORDS).for_each(&change);
        at += size;
    }
    words
}

#[test]
fn boards_compared() {
    passes(1_500, boards::ANSWERS, |turn, _| boards::compare(turn, boards::By::Checked, &Reader));
    passes(3_000, &boards::quick_answers(), |turn, _| boards::compare(turn, boards::By::Quick, &Quickly));
    for slip in MARK_SLIPS {
        let found = finds(3_000, |turn, _| boards::compare(turn, boards::By::Quick, slip));
        assert!(found, "{:?} was not found", slip);
    }
    for slip in BOARD_SLIPS {
        let found = finds(3_000, |turn, _| boards::compare(turn, boards::By::Checked, slip));
        assert!(found, "{:?} was not found", slip);
    }
}

slips!(
    CONNECTION_SLIPS,
    ConnectionSlip: PartBefore, TenTaken, ElevenTaken, NotRunningHolds, AlightingFree, BoardingFree, EqualCalls, DatesForgotten, MinuteShort, MinuteMore, EarlierDateRefused,
    LonePartListed
);

impl Connections for ConnectionSlip {
    fn connection(&self, table: &[u32], _: &[u32], parts_words: &[u32]) -> [u32; 2] {
        use ConnectionSlip::*;
        let plain = |table: &[u32], words: &[u32]| Reader.connection(table, &[], words);
        let answer = plain(table, parts_words);
        let bent = |bend: &dyn Fn(&mut crate::generate::raw_table::RawTable)| {
            let mut raw = parts(&table[..table[USED_AT] as usize]);
            bend(&mut raw);
            plain(&raw.words(), parts_words)
        };
        if answer[0] == 21 {
            return answer;
        }
        match (self, answer) {
            (PartBefore, [49 | 38 | 50, part]) => [answer[0], part - 1],
            (TenTaken, [0, _]) if parts_words.len() == 70 => [46, 0],
            (ElevenTaken, [46, _]) if parts_words.len() == 77 => plain(table, &parts_words[..70]),
            (NotRunningHolds, [47, 1]) if parts_words.len() == 7 => [0, 0],
            (AlightingFree | BoardingFree, _) => bent(&|raw| {
                let flag = if *self == AlightingFree { NO_ALIGHTING } else { NO_BOARDING };
                let calls = raw.services.iter_mut().flat_map(|service| service.calls.iter_mut());
                calls.for_each(|call| call[CALL_FLAGS_AT] &= !flag);
            }),
            (EqualCalls, [48, part]) => {
                let own = &parts_words[PART_WORDS * (part as usize - 1)..][..PART_WORDS];
                if own[5] == own[6] && part as usize * PART_WORDS == parts_words.len() {
                    [0, 0]
                } else {
                    answer
                }
            }
            (DatesForgotten, [0, _]) if parts_words.chunks_exact(PART_WORDS).any(|part| part[2] != parts_words[2]) => {
                let mut words = parts_words.to_vec();
                words.chunks_exact_mut(PART_WORDS).for_each(|part| part[2..5].copy_from_slice(&parts_words[2..5]));
                match plain(table, &words) {
                    [50, part] => [50, part],
                    _ => answer,
                }
            }
            (MinuteShort | MinuteMore, _) => bent(&|raw| {
                for record in &mut raw.records {
                    for word in &mut record[1..] {
                        *word = if *self == MinuteShort { word.saturating_sub(1) } else { word.saturating_add(1) };
                    }
                }
            }),
            (EarlierDateRefused, [0, _]) => {
                let days: Vec<[u32; 3]> =
                    parts_words.chunks_exact(PART_WORDS).map(|part| [part[4], part[3], part[2]]).collect();
                match (1..days.len()).find(|i| days[*i] < days[*i - 1]) {
                    Some(part) => [50, part as u32 + 1],
                    None => answer,
                }
            }
            (LonePartListed, [0, _]) if parts_words.len() == 7 => {
                // where it would be refused as a change
                match plain(table, &[parts_words, parts_words].concat()) {
                    [38, _] => [38, 1],
                    _ => answer,
                }
            }
            _ => answer,
        }
    }
}

#[test]
fn connections_compared() {
    passes(12_000, connections::ANSWERS, |turn, _| connections::compare(turn, connections::By::Table, &Reader));
    passes(500, &["of another index"], |turn, _| connections::compare(turn, connections::By::Index, &PlainByIndex));
    for slip in CONNECTION_SLIPS {
        let found = finds(6_000, |turn, _| connections::compare(turn, connections::By::Table, slip));
        assert!(found, "{:?} was not found", slip);
    }
}

/// Questions that take an index and answer as the plain ones do; 43 where the words are no table but their header is sound.
struct PlainByIndex;

impl Connections for PlainByIndex {
    fn connection(&self, table: &[u32], _: &[u32], parts: &[u32]) -> [u32; 2] {
        Reader.connection(table, &[], parts)
    }
}

/// Whether the header alone lets the words be a table: with no services they are one.
fn is_headed(table: &[u32]) -> bool {
    let used = table.first().map_or(0, |used| *used as usize);
    if used > table.len() || used < 9 || table[FIRST_SERVICE_AT] as usize > used {
        return false;
    }
    let mut empty = table[..table[FIRST_SERVICE_AT] as usize].to_vec();
    if empty.len() < 9 {
        return false;
    }
    empty[0] = empty.len() as u32;
    empty[6] = 0;
    // classes over 13 are not the header's
    let classes = empty[8] as usize;
    let first = empty.len().saturating_sub(2 * classes);
    if 2 * classes <= empty.len() {
        (first..empty.len()).skip(1).step_by(2).for_each(|at| empty[at] = 0);
    }
    is_table(&empty)
}

impl Quick for PlainByIndex {
    fn day(&self, table: &[u32], _: &[u32], date: [u32; 3], field: u32) -> [u32; 2] {
        quickly(table, Reader.day(table, date, field))
    }

    fn interchange(&self, table: &[u32], _: &[u32], stop: u32, classes: [u32; 2]) -> [u32; 2] {
        quickly(table, Reader.interchange(table, stop, classes))
    }

    fn interchange_between(&self, table: &[u32], _: &[u32], stop: u32, categories: [u32; 2]) -> [u32; 2] {
        quickly(table, Reader.interchange_between(table, stop, categories))
    }

    fn stop_name(&self, table: &[u32], _: &[u32], bahnhof: &[u8], stop: u32, wanted: [u32; 2]) -> [u32; 3] {
        quickly(table, Reader.stop_name(table, bahnhof, stop, wanted))
    }

    fn walk(&self, table: &[u32], _: &[u32], service: u32, repeat: u32, date: [u32; 3], rows: &mut [u32]) -> [u32; 3] {
        quickly(table, Reader.walk(table, service, repeat, date, rows))
    }
}

fn quickly<const N: usize>(table: &[u32], answer: [u32; N]) -> [u32; N] {
    let mut other = answer;
    if answer[0] == 21 && is_headed(table) {
        other[0] = 43;
    }
    other
}

slips!(QUICK_SLIPS, QuickSlip: LastField, OtherDays, OtherStop, FirstServiceAlways, RowsOnRefusal, HeaderUnread);

impl Quick for QuickSlip {
    fn day(&self, table: &[u32], index: &[u32], date: [u32; 3], field: u32) -> [u32; 2] {
        let answer = PlainByIndex.day(table, index, date, field);
        match self {
            QuickSlip::LastField if is_table(table) => {
                let mut raw = parts(&table[..table[USED_AT] as usize]);
                raw.bitfields.reverse();
                Reader.day(&raw.words(), date, field)
            }
            // the days of another number, where the index is not this table's
            QuickSlip::OtherDays if answer[0] == 28 && index_words(table).as_deref() != Some(index) => [0, 1],
            QuickSlip::HeaderUnread if answer[0] == 21 => [43, 0],
            _ => answer,
        }
    }

    fn interchange(&self, table: &[u32], index: &[u32], stop: u32, classes: [u32; 2]) -> [u32; 2] {
        match (self, PlainByIndex.interchange(table, index, stop, classes)) {
            (QuickSlip::OtherStop, [27, _]) => [0, 2],
            (_, answer) => answer,
        }
    }

    fn interchange_between(&self, table: &[u32], index: &[u32], stop: u32, categories: [u32; 2]) -> [u32; 2] {
        PlainByIndex.interchange_between(table, index, stop, categories)
    }

    fn stop_name(&self, table: &[u32], index: &[u32], bahnhof: &[u8], stop: u32, wanted: [u32; 2]) -> [u32; 3] {
        PlainByIndex.stop_name(table, index, bahnhof, stop, wanted)
    }

    fn walk(
        &self,
        table: &[u32],
        index: &[u32],
        service: u32,
        repeat: u32,
        date: [u32; 3],
        rows: &mut [u32],
    ) -> [u32; 3] {
        let asked = if *self == QuickSlip::FirstServiceAlways { 0 } else { service };
        let answer = PlainByIndex.walk(table, index, asked, repeat, date, rows);
        if *self == QuickSlip::RowsOnRefusal && answer[0] != 0 {
            rows.iter_mut().take(1).for_each(|word| *word ^= 1);
        }
        answer
    }
}

#[test]
fn quick_questions_compared() {
    passes(3_000, quick::ANSWERS, |turn, index| quick::compare(turn, index, &PlainByIndex));
    for slip in QUICK_SLIPS {
        assert!(finds(2_000, |turn, index| quick::compare(turn, index, slip)), "{:?} was not found", slip);
    }
}

slips!(
    WRITE_SLIPS,
    WriteSlip: LeftEdge, OffsetBlank, FrequencyAsRepeats, OpeningAdministration, RoomBefore44, SignBlank, OthersFirst, CrLf, ByteBehind, OnShort, NoPercent
);

impl Writes for WriteSlip {
    fn write(&self, table: &[u32], text: &mut [u8]) -> [u64; 2] {
        use WriteSlip::*;
        let answer = Reader.write(table, text);
        let own = match text_of(table) {
            Ok(own) => own,
            Err(44) if *self == RoomBefore44 && text.len() < 60 => return [45, 60],
            Err(44) if *self == SignBlank => {
                let mut raw = parts(&table[..table[USED_AT] as usize]);
                for call in raw.services.iter_mut().flat_map(|service| service.calls.iter_mut()) {
                    let flags = call[CALL_FLAGS_AT];
                    call[CALL_FLAGS_AT] =
                        flags & !(if flags & 1 == 0 { 4 } else { 0 }) & !(if flags & 2 == 0 { 8 } else { 0 });
                }
                return Reader.write(&raw.words(), text);
            }
            Err(_) => return answer,
        };
        if answer[0] == 45 {
            if *self == OnShort {
                text.iter_mut().take(1).for_each(|byte| *byte ^= 1);
            }
            return answer;
        }
        let mut lines: Vec<Vec<u8>> = own.chunks(60).map(<[u8]>::to_vec).collect();
        match self {
            LeftEdge => lines.iter_mut().filter(|line| line.starts_with(b"*G")).for_each(|line| {
                let end = line[7..14].to_vec();
                let digits: Vec<u8> = end.iter().copied().filter(|byte| *byte != b' ').collect();
                line[7..14].copy_from_slice(format!("{:<7}", String::from_utf8(digits).unwrap()).as_bytes());
            }),
            OffsetBlank => lines
                .iter_mut()
                .filter(|line| line.starts_with(b"*Z") && line[22..25] == *b"000")
                .for_each(|line| line[26..29].fill(b' ')),
            FrequencyAsRepeats => lines.iter_mut().filter(|line| line.starts_with(b"*T")).for_each(|line| {
                line.copy_within(16..25, 22);
                line[16..22].fill(b' ');
            }),
            OpeningAdministration => {
                let mut opening = [b' '; 6];
                for line in &mut lines {
                    if line[0] == b'*' && (line[1] == b'Z' || line[1] == b'T') {
                        opening.copy_from_slice(&line[9..15]);
                    } else if line[0] != b'*' {
                        line[49..55].copy_from_slice(&opening);
                    }
                }
            }
            OthersFirst => {
                for at in 1..lines.len() {
                    let is_other = |line: &[u8]| line.starts_with(b"*A ") && &line[3..5] != b"VE";
                    if lines[at - 1].starts_with(b"*A VE") && is_other(&lines[at]) {
                        lines.swap(at - 1, at);
                    }
                }
            }
            CrLf => lines.iter_mut().for_each(|line| line[58..].copy_from_slice(b"\r\n")),
            NoPercent => lines.iter_mut().for_each(|line| line[58] = b' '),
            ByteBehind => text.iter_mut().skip(own.len()).take(1).for_each(|byte| *byte ^= 1),
            _ => {}
        }
        text[..own.len()].copy_from_slice(&lines.concat());
        answer
    }
}

#[test]
fn writing_compared() {
    passes(600, writes::ANSWERS, |turn, _| writes::compare(turn, &Reader, &Reader));
    for slip in WRITE_SLIPS {
        assert!(finds(600, |turn, _| writes::compare(turn, slip, &Reader)), "{:?} was not found", slip);
    }
}

#[test]
fn isolation_compared() {
    passes(1_500, isolation::ANSWERS, |turn, _| isolation::compare(turn, &Reader));
}
