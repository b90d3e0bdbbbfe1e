//! The comparison itself: it passes the reader, and finds a boundary that slips in one thing.

use crate::boundary::{Boundary, Reader};
use crate::differ::{compare, Tally, CALLS, OVERSIZED_EVERY};
use crate::generate::questions::head_of;
use crate::generate::raw_table::parts;
use crate::layout::{
    ADMINISTRATION_AT, CALLS_AT, CALL_NUMBER_AT, CALL_PLACE_AT, CALL_WORDS, CLASSES_AT, CLASS_AT, CLASS_WORDS,
    FIRST_SERVICE_AT, HELPER_LINE_WORDS, KIND_AT, KIND_T, KIND_Z, MOST_CALLS, MOST_CLASS, NUMBER_AT, OFFSET_AT,
    REPEATS_AT, ROW_ARRIVAL_AT, ROW_CATEGORY_AT, ROW_DEPARTURE_AT, ROW_NUMBER_AT, ROW_WORDS, SERVICES_AT,
    SERVICE_WORDS, STOPS_AT, STOP_NUMBER_AT, STOP_WORDS, USED_AT,
};
use crate::reader::fields::{column, columns};
use crate::reader::lines::{lines, skipped, Line};
use crate::reader::load::MOST_FILE_BYTES;
use crate::reader::names::{fits, names, wanted, Name};
use crate::reader::runs::Runs;
use crate::reader::{helper_needed, is_table, Combination};

/// The reader with one slip each, and the list of them.
macro_rules! slips {
    ($($slip:ident),* $(,)?) => {
        #[derive(Clone, Copy, Debug)]
        enum Slip {
            $($slip),*
        }

        use Slip::*;

        const SLIPS: &[Slip] = &[$($slip),*];
    };
}

slips!(
    WordAfterUsed,
    WordOutside,
    WordOnRefusal,
    LastWord,
    NeededLost,
    LineOfRefusal,
    ColumnLost,
    ColumnOfRun,
    RepeatsBlamed,
    ColumnOfDate,
    RefusesAll,
    HelperWordLeft,
    HelperLeftOnRefusal,
    FurtherHelperWord,
    HelperOutside,
    HelperOnShort,
    HelperOnLength,
    HelperNeededLost,
    HelperBeforeLength,
    HelperAfterFiles,
    SkippedLinesFree,
    LastLineFree,
    OtherFilesCounted,
    NumberOfOpening,
    NumberOfNextCall,
    BothTakenOver,
    FirstRowOfOpening,
    LastRowUnnumbered,
    FrequencyIsOther,
    FrequencyNeverFirst,
    DoubleLetterTaken,
    BareLetterOther,
    DensityZeroTaken,
    SignDropped,
    ColumnOfFrequency,
    KindLost,
    FrequencySwapped,
    NumberOfFrequency,
    RoundedDown,
    RoundedToNearest,
    RoundedRunByRun,
    LateInSeconds,
    RunningTimeInSeconds,
    LastRunLost,
    OneRunMore,
    MinuteOver,
    ProductWraps,
    FrequencyRepeats,
    RepeatsFrequent,
    FrequencyLimit999,
    RepeatsLimit9999,
    DensityZeroTable,
    AnyKind,
    ZugartLengthLast,
    EmptyZugartRefused,
    GroupsBeforeCodes,
    GroupsAfterAll,
    GroupOfFirstLine,
    CodesInAnyCase,
    CodesByTwoBytes,
    CategoriesUnread,
    UnlistedBefore13,
    UnlistedAfterService,
    ClassLost,
    NumberInCall,
    PlaceInWords,
    PlaceFromOne,
    PlaceUnchecked,
    Class14Table,
    ArrivingForBoth,
    LastClass,
    UnlistedBeforeStop,
    TwoBytesAsked,
    NamesUnread,
    NamesAfterNumbers,
    LastFittingName,
    NoLettersNoLanguage,
    TwoPatternsTogether,
    AnyFitsNothing,
    AlwaysFirstName,
    BareNameFits,
    ReadToTheFit,
    LongListRead,
    PlaceWraps,
    LanguageAfterStop,
    NameBehindItsDollar,
    DayZeroRests,
    OldClassTwo,
    NoRows,
    RowsOnShort,
    WordAfterRows,
    FirstServiceOnly,
    AlwaysIdle,
    FrameFlipped,
    FramesJoined,
    SecondFrameOnly,
    SecondWithoutFirst,
    ThirteenWords,
    FieldOnRefusal,
    FrameCounted,
);

fn bump(words: &mut [u32], at: usize) {
    if let Some(word) = words.get_mut(at) {
        *word ^= 1;
    }
}

impl Boundary for Slip {
    fn load(&self, files: [&[u8]; 6], table: &mut [u32], helper: &mut [u32]) -> [u32; 5] {
        if let RefusesAll = self {
            return [4, 1, 1, 0, 1];
        }
        if let NamesUnread = self {
            let plain = without_marks(files[2]);
            return Reader.load([files[0], files[1], &plain, files[3], files[4], files[5]], table, helper);
        }
        if let Some(fplan) = self.fplan_read(files[4]) {
            return Reader.load([files[0], files[1], files[2], files[3], &fplan, files[5]], table, helper);
        }
        let (needed, before) = (helper_needed(files), helper.to_vec());
        let asked = self.helper_asked(files, needed);
        let mut own = vec![0; needed];
        let answer = match self {
            HelperBeforeLength if helper.len() < needed => [51, 0, 0, needed as u32, 0],
            HelperAfterFiles if helper.len() < needed => match Reader.load(files, &mut [], &mut own) {
                [20, ..] => [51, 0, 0, needed as u32, 0],
                refused => refused,
            },
            _ if asked < needed && (asked..needed).contains(&helper.len()) => Reader.load(files, table, &mut own),
            _ if asked > needed && (needed..asked).contains(&helper.len()) => [51, 0, 0, asked as u32, 0],
            _ => Reader.load(files, table, helper),
        };
        if let Some(other) = self.categories_read(files, answer) {
            return other;
        }
        let [number, file, line, words, column] = answer;
        match self {
            HelperWordLeft if number == 0 => bump(helper, needed - 1),
            HelperLeftOnRefusal if number == 20 => helper.copy_from_slice(&before),
            FurtherHelperWord if number != 1 && number != 51 && helper.len() > needed => helper[needed] = 0,
            // SAFETY: the comparison keeps guard words behind the helper words.
            HelperOutside if number == 0 => unsafe { *helper.as_mut_ptr().add(helper.len()) = 0 },
            HelperOnShort if number == 51 => helper.fill(0),
            HelperOnLength if number == 1 => helper.fill(0),
            HelperNeededLost if number == 51 => return [51, 0, 0, 0, 0],
            _ => {}
        }
        match self {
            WordAfterUsed if number == 0 => bump(table, words as usize),
            // SAFETY: the comparison keeps guard words behind the words lent.
            WordOutside if number == 0 => unsafe { *table.as_mut_ptr().add(table.len()) ^= 1 },
            WordOnRefusal if number == 19 => bump(table, 0),
            LastWord if number == 0 => bump(table, words as usize - 1),
            ClassLost if number == 0 && table[CLASSES_AT] > 0 => bump(table, table[FIRST_SERVICE_AT] as usize - 1),
            NeededLost if number == 20 => return [20, 0, 0, 0, 0],
            LineOfRefusal if number == 15 => return [number, file, line - 1, words, column],
            ColumnLost => return [number, file, line, words, 0],
            ColumnOfRun if number == 4 && file == 5 && (51..=55).contains(&column) => return [4, 5, line, 0, 50],
            RepeatsBlamed if number == 4 && column == 27 => return [4, file, line, 0, 23],
            ColumnOfDate if number == 5 => return [5, file, line, 0, 1],
            BareLetterOther if number == 4 && file == 5 && line_of(files[4], line) == b"*T" => {
                return [11, 5, line, 0, 0]
            }
            ColumnOfFrequency
                if number == 4 && file == 5 && line_of(files[4], line).starts_with(b"*T") && column > 26 =>
            {
                return [4, 5, line, 0, 26]
            }
            NumberInCall | PlaceInWords | PlaceFromOne if number == 0 => {
                self.replace_places(&mut table[..words as usize])
            }
            KindLost | FrequencySwapped | NumberOfFrequency if number == 0 => self.reopen(&mut table[..words as usize]),
            NamesAfterNumbers if number == 39 => {
                let stop = String::from_utf8_lossy(&lines(files[2])[line as usize - 1].text[..7]).into_owned();
                if stop == "9999999" || stop.ends_with("00000") {
                    return [7, file, line, words, column];
                }
            }
            NumberOfOpening | NumberOfNextCall | BothTakenOver if number == 0 => {
                self.renumber(&mut table[..words as usize])
            }
            _ => {}
        }
        answer
    }

    fn day(&self, table: &[u32], date: [u32; 3], field: u32) -> [u32; 2] {
        match (self, Reader.day(&self.seen(table), date, field)) {
            (DayZeroRests, [0, _]) if field == 0 => [0, 0],
            (_, answer) => answer,
        }
    }

    fn interchange(&self, table: &[u32], stop: u32, classes: [u32; 2]) -> [u32; 2] {
        let like_third = |class: u32| if class == 2 { 3 } else { class };
        let classes = if let OldClassTwo = self { classes.map(like_third) } else { classes };
        Reader.interchange(&self.seen(table), stop, classes)
    }

    fn interchange_between(&self, table: &[u32], stop: u32, [arriving, departing]: [u32; 2]) -> [u32; 2] {
        let seen = self.seen(table);
        let answer = Reader.interchange_between(&seen, stop, [arriving, departing]);
        if !is_table(&seen) {
            return answer;
        }
        let mut raw = parts(&seen[..seen[USED_AT] as usize]);
        let listed = |code: u32| raw.classes.iter().any(|class| class[0] == code);
        match self {
            ArrivingForBoth => Reader.interchange_between(&seen, stop, [arriving, arriving]),
            UnlistedBeforeStop if answer[0] == 27 && !(listed(arriving) && listed(departing)) => [38, 0],
            LastClass => {
                raw.classes.reverse();
                Reader.interchange_between(&raw.words(), stop, [arriving, departing])
            }
            TwoBytesAsked => {
                raw.classes.iter_mut().for_each(|class| class[0] &= !0xFF);
                Reader.interchange_between(&raw.words(), stop, [arriving & !0xFF, departing & !0xFF])
            }
            _ => answer,
        }
    }

    fn stop_name(&self, table: &[u32], bahnhof: &[u8], stop: u32, [language, kind]: [u32; 2]) -> [u32; 3] {
        let answer = Reader.stop_name(table, bahnhof, stop, [language, kind]);
        let record = stop_record(table, stop);
        match (self, answer) {
            (LanguageAfterStop, [40, ..]) if record.is_none() => [27, 0, 0],
            (NameBehindItsDollar, [0, start, length]) => [0, start + 1, length],
            (PlaceWraps, [41, ..]) => match record {
                Some([_, place, length]) if place.wrapping_add(length) as usize <= bahnhof.len() => [39, 0, 0],
                _ => answer,
            },
            (ReadToTheFit | LongListRead, [39, ..]) => match record {
                Some([_, place, length]) => self.read_on(&bahnhof[place as usize..][..length as usize], place, answer),
                None => answer,
            },
            (_, [0, ..]) => match record {
                Some([_, place, length]) => {
                    let field = &bahnhof[place as usize..][..length as usize];
                    let (start, length) = self.choose(&names(field).unwrap(), [language, kind]);
                    [0, place + start as u32, length as u32]
                }
                None => answer,
            },
            _ => answer,
        }
    }

    fn walk(&self, table: &[u32], service: u32, repeat: u32, date: [u32; 3], rows: &mut [u32]) -> [u32; 3] {
        let before = rows.to_vec();
        let seen = self.seen(table);
        let table = &seen[..];
        if let Some(answer) = self.walk_otherwise(table, service, repeat, date, rows) {
            return answer;
        }
        let asked = if let FirstServiceOnly = self { 0 } else { service };
        let answer = Reader.walk(table, asked, repeat, date, rows);
        match self {
            NoRows => rows.copy_from_slice(&before),
            RowsOnShort if answer[0] == 29 => bump(rows, 0),
            WordAfterRows if answer[0] == 0 => bump(rows, ROW_WORDS * answer[1] as usize),
            AlwaysIdle if answer[0] == 0 => return [0, 0, 0],
            FirstRowOfOpening if answer[1] > 0 => {
                let head = parts(table).services[service as usize].head;
                rows[ROW_NUMBER_AT..ROW_CATEGORY_AT].copy_from_slice(&head[NUMBER_AT..=ADMINISTRATION_AT + 1]);
            }
            LastRowUnnumbered if answer[1] > 0 => rows[ROW_WORDS * (answer[1] as usize - 1) + ROW_NUMBER_AT] = 0,
            _ => {}
        }
        answer
    }

    fn combine(&self, of: Combination, n: u32, first: &[u32], second: &[u32], result: &mut [u32]) -> [u32; 1] {
        let (first, second) = match (self, of) {
            (SecondWithoutFirst, Combination::Difference) => (second, first),
            _ => (first, second),
        };
        let answer = Reader.combine(of, n, first, second, result);
        let all_twelve = [first.len(), second.len(), result.len()] == [12; 3];
        match self {
            FieldOnRefusal if answer == [42] => bump(result, 0),
            SecondFrameOnly if all_twelve && Reader.day_count(n, second)[0] == 0 => return [0],
            FramesJoined if all_twelve && of == Combination::Union && Reader.day_count(n, first)[0] == 0 => {
                (0..12).for_each(|i| result[i] = first[i] | second[i]);
                return [0];
            }
            _ => {}
        }
        answer
    }

    fn complement(&self, n: u32, field: &[u32], result: &mut [u32]) -> [u32; 1] {
        let answer = Reader.complement(n, field, result);
        if let (FrameFlipped, [0]) = (self, answer) {
            (0..12).for_each(|i| result[i] = !field[i]);
        }
        answer
    }

    fn day_count(&self, n: u32, field: &[u32]) -> [u32; 2] {
        let twelve = field.len().min(12);
        match self {
            ThirteenWords => Reader.day_count(n, &field[..twelve]),
            FrameCounted => match Reader.day_count(n, field) {
                [0, days] => [0, days + 4],
                refused => refused,
            },
            _ => Reader.day_count(n, field),
        }
    }
}

/// The text of a line of FPLAN.
fn line_of(fplan: &[u8], line: u32) -> &[u8] {
    lines(fplan)[line as usize - 1].text
}

/// The lines of ZUGART that are not skipped.
fn category_lines(zugart: &[u8]) -> Vec<Line<'_>> {
    lines(zugart).into_iter().filter(|line| !skipped(line.text)).collect()
}

/// Whether a line of ZUGART has a tariff group.
fn has_group(line: &Line) -> bool {
    column(line.text, 8) != b' '
}

/// BAHNHOF with nothing in its columns that parts names or opens and closes patterns.
fn without_marks(bahnhof: &[u8]) -> Vec<u8> {
    bahnhof.iter().map(|byte| if b"$<>".contains(byte) { b'A' } else { *byte }).collect()
}

/// The first record of a stop in a table.
fn stop_record(table: &[u32], stop: u32) -> Option<[u32; STOP_WORDS]> {
    if !is_table(table) {
        return None;
    }
    parts(&table[..table[USED_AT] as usize]).stops.into_iter().find(|record| record[STOP_NUMBER_AT] == stop)
}

impl Slip {
    /// The name that a slip in the question chooses: its place in the field and its length.
    fn choose(&self, names: &[Name], [language, kind]: [u32; 2]) -> (usize, usize) {
        let only = |language, kind| wanted(language, kind).unwrap();
        let asked = only(language, kind);
        let fitting = |name: &&Name| match self {
            NoLettersNoLanguage => name
                .patterns
                .iter()
                .any(|pattern| fits(pattern, asked) && (language == 0 || !pattern.letters.is_empty())),
            TwoPatternsTogether => [only(language, 0), only(0, kind)]
                .iter()
                .all(|part| name.patterns.iter().any(|pattern| fits(pattern, *part))),
            AnyFitsNothing => language != 0 && name.patterns.iter().any(|pattern| fits(pattern, asked)),
            AlwaysFirstName => false,
            BareNameFits => name.patterns.is_empty() || name.patterns.iter().any(|pattern| fits(pattern, asked)),
            _ => name.patterns.iter().any(|pattern| fits(pattern, asked)),
        };
        let found = match self {
            LastFittingName => names.iter().rev().find(fitting),
            _ => names.iter().find(fitting),
        };
        let name = found.unwrap_or(&names[0]);
        (name.start, name.length)
    }

    /// A list that is refused, read as far as it is one, or though it is too long.
    fn read_on(&self, field: &[u8], place: u32, refused: [u32; 3]) -> [u32; 3] {
        let first = |length: usize| names(&field[..length]).map(|names| [0, place, names[0].length as u32]);
        let so_far = (1..field.len().min(51)).rev().find_map(first);
        match self {
            LongListRead if field.len() <= 50 => refused,
            _ => so_far.unwrap_or(refused),
        }
    }

    /// Numbers and administrations of calls as a slip in No. 5 has them.
    fn renumber(&self, table: &mut [u32]) {
        let mut raw = parts(table);
        for service in &mut raw.services {
            let mut before: Vec<u32> = service.head[NUMBER_AT..=ADMINISTRATION_AT + 1].to_vec();
            let calls = service.calls.clone();
            for (i, call) in service.calls.iter_mut().enumerate() {
                let held = &mut call[CALL_NUMBER_AT..];
                match self {
                    NumberOfNextCall if i + 1 < calls.len() => held.copy_from_slice(&calls[i + 1][CALL_NUMBER_AT..]),
                    // the administration is taken over where the number is
                    BothTakenOver if held[0] == before[0] => held.copy_from_slice(&before),
                    NumberOfOpening => held.copy_from_slice(&before),
                    _ => {}
                }
                if !matches!(self, NumberOfOpening) {
                    before = held.to_vec();
                }
            }
        }
        table.copy_from_slice(&raw.words());
    }

    /// What a slip in ZUGART, or in 38, answers where it does not answer as the reader.
    fn categories_read(&self, files: [&[u8]; 6], answer: [u32; 5]) -> Option<[u32; 5]> {
        let [number, file, line, ..] = answer;
        let records = category_lines(files[5]);
        let other_group = |line: &Line| has_group(line) != has_group(&records[0]);
        // The category of the *G line that is told, and whether one is listed that fits it.
        let told = || columns(line_of(files[4], line), 4, 6);
        let listed = |fits: fn(&[u8], &[u8]) -> bool| records.iter().any(|one| fits(&columns(one.text, 1, 3), &told()));
        let otherwise = |changed: Vec<u8>| {
            let [a, b, c, d, e, _] = files;
            let mut helper = vec![0; helper_needed(files)];
            Reader.load([a, b, c, d, e, &changed], &mut [], &mut helper)
        };
        let is = match (self, number) {
            (ZugartLengthLast, 1) if file == 6 && files[4].len() > MOST_FILE_BYTES => [1, 5, 0, 0, 0],
            (EmptyZugartRefused, 0) if records.is_empty() => [2, 6, lines(files[5]).len() as u32 + 1, 0, 0],
            (GroupsBeforeCodes, 6) if file == 6 && other_group(&lines(files[5])[line as usize - 1]) => {
                [37, 6, line, 0, 0]
            }
            (GroupsAfterAll, 37) => {
                let mut plain = files[5].to_vec();
                records.iter().filter(|one| has_group(one)).for_each(|one| plain[one.start + 7] = b' ');
                Some(otherwise(plain)).filter(|later| later[1] == 6)?
            }
            (GroupOfFirstLine, 0) if !records.is_empty() && other_group(&lines(files[5])[0]) => {
                [37, 6, records[0].no, 0, 0]
            }
            (CodesInAnyCase, 38) if listed(<[u8]>::eq_ignore_ascii_case) => [0; 5],
            (CodesByTwoBytes, 38) if listed(|one, other| one[..2] == other[..2]) => [0; 5],
            (CategoriesUnread, 38) => [0; 5],
            (UnlistedBefore13, 13)
                if line_of(files[4], line).starts_with(b"*G ") && !listed(|one, other| one == other) =>
            {
                [38, 5, line, 0, 0]
            }
            (UnlistedAfterService, 38) => {
                let mut more = [files[5], b"\n"].concat();
                for one in lines(files[4]).iter().filter(|one| one.text.starts_with(b"*G ")) {
                    let code = columns(one.text, 4, 6);
                    if category_lines(&more).iter().all(|listed| columns(listed.text, 1, 3) != code) {
                        let group = if records.first().map_or(false, has_group) { b'A' } else { b' ' };
                        more.extend([&code[..], b"  1 ", &[group], b" 0          0\n"].concat());
                    }
                }
                Some(otherwise(more)).filter(|later| (14..=19).contains(&later[0]))?
            }
            _ => return None,
        };
        Some(is)
    }

    /// FPLAN as a slip in the lines that open services reads it.
    fn fplan_read(&self, fplan: &[u8]) -> Option<Vec<u8>> {
        if !matches!(self, FrequencyIsOther | FrequencyNeverFirst | DoubleLetterTaken | DensityZeroTaken | SignDropped)
        {
            return None;
        }
        let mut read = fplan.to_vec();
        let mut opened = false;
        for line in lines(fplan) {
            let text = &mut read[line.start..line.start + line.text.len()];
            opened |= text.starts_with(b"*Z ");
            let frequent = text.starts_with(b"*T ");
            match self {
                FrequencyIsOther if frequent => text[1] = b'L',
                FrequencyNeverFirst if frequent && !opened => text[1] = b'L',
                DoubleLetterTaken if text.starts_with(b"*TT") => text[2] = b' ',
                DensityZeroTaken if frequent && text.get(21..25) == Some(b"0000") => text[24] = b'1',
                SignDropped if frequent && text.get(21) == Some(&b'-') => text[21] = b'0',
                _ => {}
            }
        }
        Some(read)
    }

    /// The services as a slip in their opening lines writes them.
    fn reopen(&self, table: &mut [u32]) {
        let mut raw = parts(table);
        for service in raw.services.iter_mut().filter(|service| service.head[KIND_AT] == KIND_T) {
            match self {
                KindLost => service.head[KIND_AT] = KIND_Z,
                FrequencySwapped => service.head.swap(REPEATS_AT, OFFSET_AT),
                _ => service.calls[0][CALL_NUMBER_AT] = 0,
            }
        }
        table.copy_from_slice(&raw.words());
    }

    /// Calls as a slip in No. 10 writes them.
    fn replace_places(&self, table: &mut [u32]) {
        let mut raw = parts(table);
        for call in raw.services.iter_mut().flat_map(|service| &mut service.calls) {
            let place = call[CALL_PLACE_AT];
            call[CALL_PLACE_AT] = match self {
                NumberInCall => raw.stops[place as usize][STOP_NUMBER_AT],
                PlaceInWords => place * STOP_WORDS as u32,
                _ => place + 1,
            };
        }
        table.copy_from_slice(&raw.words());
    }

    /// The words that a slip in 21 takes these for.
    fn seen(&self, table: &[u32]) -> Vec<u32> {
        let mut seen = table.to_vec();
        if let PlaceUnchecked = self {
            let stops = table.get(STOPS_AT).copied().unwrap_or(0);
            for service in 0..table.get(SERVICES_AT).copied().unwrap_or(0).min(1_000) {
                let head = match head_of(table, service) {
                    Some(head) => head,
                    None => break,
                };
                let at = (head.as_ptr() as usize - table.as_ptr() as usize) / 4 + SERVICE_WORDS;
                for call in 0..MOST_CALLS.min(head[CALLS_AT] as usize) {
                    if let Some(place) = seen.get_mut(at + CALL_WORDS * call) {
                        *place = (*place).min(stops.saturating_sub(1));
                    }
                }
            }
            return seen;
        }
        if let Class14Table = self {
            let end = table.get(FIRST_SERVICE_AT).copied().unwrap_or(0) as usize;
            let classes = table.get(CLASSES_AT).copied().unwrap_or(0).min(1_000) as usize;
            let start = end.saturating_sub(CLASS_WORDS * classes);
            let records = seen.get_mut(start..end).unwrap_or(&mut []);
            records
                .chunks_exact_mut(CLASS_WORDS)
                .for_each(|record| record[CLASS_AT] = record[CLASS_AT].min(MOST_CLASS));
            return seen;
        }
        if !matches!(self, FrequencyLimit999 | RepeatsLimit9999 | DensityZeroTable | AnyKind) {
            return seen;
        }
        for service in 0..table.get(SERVICES_AT).copied().unwrap_or(0).min(1_000) {
            let head = match head_of(table, service) {
                Some(head) => head,
                None => break,
            };
            let at = (head.as_ptr() as usize - table.as_ptr() as usize) / 4;
            let ends = [REPEATS_AT, OFFSET_AT];
            match (self, head[KIND_AT]) {
                (FrequencyLimit999, KIND_T) if ends.iter().any(|end| head[*end] > 999) => return Vec::new(),
                (RepeatsLimit9999, KIND_Z) if ends.iter().all(|end| head[*end] <= 9_999) => {
                    ends.iter().for_each(|end| seen[at + end] = head[*end].min(999))
                }
                (DensityZeroTable, KIND_T) if head[OFFSET_AT] == 0 => seen[at + OFFSET_AT] = 1,
                (AnyKind, 2..=u32::MAX) => seen[at + KIND_AT] = KIND_Z,
                _ => {}
            }
        }
        seen
    }

    /// How late a run is by a slip in No. 8's rule, `None` in the inner if there is no such run; `None` if it does not slip there.
    fn late(&self, runs: Runs, run: u32) -> Option<Option<u32>> {
        let j = u64::from(run);
        let (most, density) = match (self, runs) {
            (RepeatsFrequent, Runs::Repeated { repeats, offset }) => {
                return Some(Some(run * offset).filter(|_| j * u64::from(offset) <= 60 * u64::from(repeats)))
            }
            (_, Runs::Repeated { .. }) => return None,
            (_, Runs::Frequent { running_time, density }) => (60 * u64::from(running_time), u64::from(density)),
        };
        let seconds = j * density;
        let (is, late) = match self {
            RoundedDown => (seconds <= most, seconds / 60),
            RoundedToNearest => (seconds <= most, (seconds + 30) / 60),
            RoundedRunByRun => (seconds <= most, j * ((density + 59) / 60)),
            LateInSeconds => (seconds <= most, seconds),
            RunningTimeInSeconds => (60 * seconds <= most, (seconds + 59) / 60),
            LastRunLost => (seconds < most || j == 0, (seconds + 59) / 60),
            OneRunMore => (seconds < most + density, (seconds + 59) / 60),
            MinuteOver => (seconds < most + 60, (seconds + 59) / 60),
            ProductWraps => (seconds % (1 << 32) <= most, (seconds % (1 << 32) + 59) / 60),
            FrequencyRepeats => (j <= most / 60, seconds),
            _ => return None,
        };
        Some(Some(late as u32).filter(|_| is))
    }

    /// A walk by a slip in No. 8's rule: the first run's rows, so much later.
    fn walk_otherwise(
        &self,
        table: &[u32],
        service: u32,
        run: u32,
        date: [u32; 3],
        rows: &mut [u32],
    ) -> Option<[u32; 3]> {
        if !is_table(table) {
            return None;
        }
        let head = parts(&table[..table[USED_AT] as usize]).services.get(service as usize)?.head;
        let late = self.late(Runs::of_words(head[KIND_AT], [head[REPEATS_AT], head[OFFSET_AT]])?, run)?;
        let before = rows.to_vec();
        let answer = Reader.walk(table, service, 0, date, rows);
        let listed = match (answer, late) {
            ([21..=24, ..], _) => return Some(answer),
            (_, None) => {
                rows.copy_from_slice(&before);
                return Some([25, 0, 0]);
            }
            ([_, listed, _], Some(_)) => listed as usize,
        };
        for (i, row) in rows.chunks_mut(ROW_WORDS).take(listed).enumerate() {
            row[ROW_ARRIVAL_AT] += if i > 0 { late.unwrap_or(0) } else { 0 };
            row[ROW_DEPARTURE_AT] += if i + 1 < listed { late.unwrap_or(0) } else { 0 };
        }
        Some(answer)
    }

    /// The helper words that a slip asks for, where so many are needed.
    fn helper_asked(&self, files: [&[u8]; 6], needed: usize) -> usize {
        let of = |at: usize| lines(files[at]);
        match self {
            SkippedLinesFree => {
                needed - HELPER_LINE_WORDS * (1..4).flat_map(of).filter(|line| skipped(line.text)).count()
            }
            LastLineFree => {
                needed
                    - HELPER_LINE_WORDS * (1..4).filter(|at| !matches!(files[*at].last(), None | Some(b'\n'))).count()
            }
            OtherFilesCounted => needed + HELPER_LINE_WORDS * [0, 4, 5].iter().map(|at| of(*at).len()).sum::<usize>(),
            _ => needed,
        }
    }
}

/// The first of so many cases that differs, or of some with long files behind them.
fn first_difference(boundary: &dyn Boundary, cases: u64) -> Option<u64> {
    let mut tally = Tally::default();
    let long = (1..=12).map(|nth| nth * OVERSIZED_EVERY - 1);
    (0..cases).chain(long).find(|index| compare(9, *index, &[("slip", boundary)], &mut tally).is_err())
}

#[test]
fn the_reader_passes() {
    assert_eq!(first_difference(&Reader, 3_000), None);
}

/// As many cases as the programs ask for reach every kind of answer, and every kind of run.
#[test]
fn every_answer_comes() {
    let mut tally = Tally::default();
    (0..20_000).for_each(|index| assert!(compare(9, index, &[], &mut tally).is_ok()));
    println!("{}", tally);
    assert_eq!(tally.missing(&CALLS), Vec::<String>::new());
}

#[test]
fn slips_are_found() {
    let missed: Vec<&Slip> = SLIPS.iter().filter(|slip| first_difference(*slip, 6_000).is_none()).collect();
    assert!(missed.is_empty(), "{:?}", missed);
}
