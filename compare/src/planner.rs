//! The linked archive as a `Boundary`, through the planner's safe layer, its answers turned back into numbers. A module of
//! the programs that link it.

use compare::boundary::{size_word, Boundary};
use compare::reader::Combination;
use estelunya_planner::by_number::{load, load_with, room, BitField, Date, Loaded, Table, Walk};
use estelunya_planner::layout::{BIT_WORDS, FIRST_SERVICE_AT, HEADER_WORDS, PERIOD_DAYS_AT, USED_AT};
use estelunya_planner::{
    Class, File, Files, Language, LoadError, LoadRefusal, Minutes, Moment, NameType, Refusal, Scope, Stop, Timetable,
};

pub struct Planner;

impl Boundary for Planner {
    /// With these helper words; where they are enough, the load that lends them by itself must do the same.
    fn load(&self, files: [&[u8]; 6], table: &mut [u32], helper: &mut [u32]) -> [u32; 5] {
        let [eckdaten, bitfeld, bahnhof, umsteigb, fplan, zugart] = files;
        let files = Files { eckdaten, bitfeld, bahnhof, umsteigb, fplan, zugart };
        let mut own = table.to_vec();
        let answer = numbers(load_with(&files, table, helper));
        if answer[0] != 51 {
            assert_eq!(numbers(load(&files, &mut own)), answer, "with helper words from the heap");
            assert!(own == table, "with helper words from the heap, the table");
            owned(&files, table, answer);
        }
        answer
    }

    fn day(&self, table: &[u32], date: [u32; 3], field: u32) -> [u32; 2] {
        match Table::new(table).day(field, dated(date)) {
            Ok(runs) => [0, u32::from(runs)],
            Err(refusal) => [refusal.number(), 0],
        }
    }

    fn interchange(&self, table: &[u32], stop: u32, [arriving, departing]: [u32; 2]) -> [u32; 2] {
        match Table::new(table).interchange(stop, arriving, departing) {
            Ok(minutes) => [0, minutes],
            Err(refusal) => [refusal.number(), 0],
        }
    }

    fn interchange_between(&self, table: &[u32], stop: u32, [arriving, departing]: [u32; 2]) -> [u32; 2] {
        let words = Table::new(table);
        match words.interchange_between(stop, arriving, departing) {
            Ok(minutes) => {
                let classes = (words.class_of(arriving), words.class_of(departing));
                let by_class = match classes {
                    (Some(arriving), Some(departing)) => words.interchange(stop, arriving, departing),
                    _ => panic!("minutes between {:?}", classes),
                };
                assert_eq!(by_class, Ok(minutes), "by the classes of the two categories");
                [0, minutes]
            }
            Err(refusal) => [refusal.number(), 0],
        }
    }

    fn stop_name(&self, table: &[u32], bahnhof: &[u8], stop: u32, [language, kind]: [u32; 2]) -> [u32; 3] {
        match Table::new(table).stop(stop, bahnhof).name(language, kind) {
            // The layer gives the part itself; where it starts is told by the pointers.
            Ok(name) => [0, size_word(name.as_ptr() as usize - bahnhof.as_ptr() as usize), size_word(name.len())],
            Err(refusal) => [refusal.number(), 0, 0],
        }
    }

    fn walk(&self, table: &[u32], service: u32, repeat: u32, date: [u32; 3], rows: &mut [u32]) -> [u32; 3] {
        let late = Table::new(table).kind(service).and_then(|kind| kind.late(repeat));
        let walked = Table::new(table).walk(service, repeat, dated(date), rows);
        match walked {
            Ok(_) => assert!(late.is_some(), "the run that was walked"),
            Err(Refusal::NoSuchRepeat) => assert_eq!(late, None, "the run that is refused"),
            Err(_) => {}
        }
        match walked {
            Ok(Walk::Rows(rows)) => [0, rows.iter().len() as u32, 0],
            Ok(Walk::NotRunning) => [0, 0, 0],
            Err(Refusal::RowsTooShort { needed }) => [29, 0, size_word(needed)],
            Err(refusal) => [refusal.number(), 0, 0],
        }
    }

    fn combine(&self, of: Combination, n: u32, first: &[u32], second: &[u32], result: &mut [u32]) -> [u32; 1] {
        let header = header(n);
        let table = Table::new(&header);
        let fields = table.bit_field_from(first).and_then(|first| Ok((first, table.bit_field_from(second)?)));
        let made = fields.map(|(first, second)| match of {
            Combination::Union => first | second,
            Combination::Intersection => first & second,
            Combination::Difference => first - second,
        });
        lent(made, result)
    }

    fn complement(&self, n: u32, field: &[u32], result: &mut [u32]) -> [u32; 1] {
        lent(Table::new(&header(n)).bit_field_from(field).map(|field| !field), result)
    }

    fn day_count(&self, n: u32, field: &[u32]) -> [u32; 2] {
        match Table::new(&header(n)).bit_field_from(field) {
            Ok(field) => [0, field.day_count()],
            Err(refusal) => [refusal.number(), 0],
        }
    }
}

fn numbers(answer: Result<Loaded, LoadRefusal>) -> [u32; 5] {
    match answer {
        Ok(loaded) => [0, 0, 0, loaded.words, 0],
        Err(refusal) => {
            let file = refusal.file.map_or(0, File::number);
            [refusal.offence.number(), file, refusal.line, refusal.needed, size_word(refusal.column)]
        }
    }
}

/// The header of a table of n days that lists nothing.
fn header(n: u32) -> [u32; HEADER_WORDS] {
    let mut words = [0; HEADER_WORDS];
    words[USED_AT] = HEADER_WORDS as u32;
    words[PERIOD_DAYS_AT] = n;
    words[FIRST_SERVICE_AT] = HEADER_WORDS as u32;
    words
}

/// The planner's layer gives a field by value. What it would do with words lent is said here: it takes twelve only.
fn lent(made: Result<BitField<'_>, Refusal>, result: &mut [u32]) -> [u32; 1] {
    match made {
        Ok(field) if result.len() == BIT_WORDS => {
            result.copy_from_slice(&field.words());
            [0]
        }
        Ok(_) => [42],
        Err(refusal) => [refusal.number()],
    }
}

/// The same delivery as a timetable: it has the same words or the same refusal, and its handles say what the numbers say.
fn owned(files: &Files<'_>, table: &[u32], answer: [u32; 5]) {
    match Timetable::load(files) {
        Err(LoadError::Refused(refusal)) => assert_eq!(numbers(Err(refusal)), answer, "the timetable's refusal"),
        Err(error) => panic!("{}", error),
        Ok(timetable) => {
            let words = timetable.by_number().words();
            assert_eq!(words.len(), answer[3] as usize, "the timetable's words");
            assert!(answer[0] == 20 || table.starts_with(words), "the timetable's table");
            assert!(words.len() <= room(files), "{} words, and {} are said to be enough", words.len(), room(files));
            timetable.scope(handled);
        }
    }
}

/// Each word of the table through the handles; of the runs of the first and the last day, the first and the last.
fn handled(timetable: Scope<'_>) {
    let period = timetable.period();
    for service in timetable.services() {
        let calls = service.route().len();
        let ends = service.categories().map(|part| (part.from, part.to));
        let ends = ends.chain(service.operating_days().map(|part| (part.from, part.to)));
        let ends = ends.chain(service.attributes().map(|part| (part.from, part.to)));
        ends.for_each(|(from, to)| assert!(from <= to && to < calls, "a range of {:?}", service));
        for day in [period.first, period.last].into_iter().filter_map(|date| timetable.day(date)) {
            let days = service.operating_days().any(|part| part.from < part.to && part.field.has(day));
            let mut runs = service.runs(day);
            assert_eq!(days, runs.len() > 0, "{:?} on {}", service, day);
            for run in [runs.next(), runs.next_back()].into_iter().flatten() {
                let calls: Vec<_> = run.calls().collect();
                for pair in calls.windows(2) {
                    let (leg, same) = (pair[0].departing_category(), pair[1].arriving_category());
                    assert!(leg.is_some() && leg == same, "the category of a leg of {:?}", run);
                    assert_eq!(pair[1].interchange_to(&pair[1]).is_some(), pair[1].departure().is_some());
                }
                for call in calls {
                    let known = service.route().nth(call.place()).map(|stated| stated.stop()) == Some(call.stop());
                    assert!(known && !call.stop().name_field().is_empty(), "a call of {:?}", run);
                    assert!(
                        !call.stop().name(Language::English, NameType::ANY).is_empty(),
                        "a name of {:?}",
                        call.stop()
                    );
                    assert!(call.departing_attributes().count() <= call.attributes().count());
                }
            }
        }
    }
    for field in timetable.bit_fields() {
        assert_eq!(field.days().count() + (!field).days().count(), period.day_count() as usize);
        assert_eq!(field.days().count(), field.day_count() as usize);
        let last = timetable.days().next_back();
        assert_eq!(last.map(|day| field.has(day)), Some(field.days().next_back() == last));
    }
    timetable.stops().take(2).for_each(|stop| departing(timetable, stop));
    for category in timetable.categories() {
        assert_eq!(timetable.category_by_code(category.code()), Some(category), "a code that is listed once");
        for stop in timetable.stops().take(3) {
            let between = stop.interchange_between(category, category);
            let classes = stop.interchange(category.class(), category.class());
            assert_eq!(between, classes, "{:?} at {:?}", category, stop);
        }
    }
    for record in timetable.interchanges() {
        if let Some(stop) = record.stop {
            let of = |arriving, departing| Some(stop.interchange(Class::new(arriving)?, Class::new(departing)?));
            assert_eq!([of(0, 2), of(3, 0)], record.times.map(Some));
        }
    }
}

/// What leaves a stop in the first day and a half of the period, by calendar and clock: what the boards of its days have.
fn departing<'t>(timetable: Scope<'t>, stop: Stop<'t>) {
    let (first, until) = (timetable.period().first, Minutes::new(36, 0));
    let (from, until) = (Moment::new(first, Minutes::default()), Moment::new(first, until));
    let listed: Vec<_> = stop.departures(from).take_while(|leaves| leaves.moment() <= until).collect();
    let boards = timetable.days().take(2).flat_map(|day| stop.board(day, from.time()..=until.time()));
    let mut boards: Vec<_> = boards.filter(|leaves| leaves.moment() <= until).collect();
    boards.sort_by_key(|leaves| leaves.moment());
    assert!(listed == boards, "what leaves {:?}", stop);
}

fn dated([day, month, year]: [u32; 3]) -> Date {
    Date { day, month, year }
}
