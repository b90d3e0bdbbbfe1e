//! The archive's functions and their answers, as `include/estelunya.h` and `crates/estelunya/src/lib.rt` declare them. A slice is a pointer, then its length in items.
//!
//! Written by `tools/boundary.sh` from the two: change those.

/// The version of the archive's functions and of a table's words that this crate was written for. `estelunya-planner` compares it with
/// [`estelunya_version`] before its first call; who calls a function of this module compares it himself.
pub const VERSION: u32 = 2;

/// The answer of [`estelunya_load`].
#[repr(C)]
#[derive(Clone, Copy, Debug, PartialEq, Eq)]
pub struct LoadResult {
    /// 0: accepted; else the refusal, 1 to 20, 37, 38, 39 or 51.
    pub number: u32,
    /// 1 ECKDATEN, 2 BITFELD, 3 BAHNHOF, 4 UMSTEIGB, 5 FPLAN, 6 ZUGART; 0 if accepted, and for 20 and 51.
    pub file: u32,
    /// The line, counted from 1; 0 if accepted, and for 1, 20 and 51.
    pub line: u32,
    /// Accepted: the words used; 20: the words needed; 51: the helper words needed; else 0.
    pub words: u32,
    /// 4: the column, counted from 1, where the leftmost field or unnamed column that breaks the form starts; else 0.
    pub column: usize,
}

/// The answer of [`estelunya_day`] and [`estelunya_quick_day`].
#[repr(C)]
#[derive(Clone, Copy, Debug, PartialEq, Eq)]
pub struct DayResult {
    /// 0: answered; else the refusal: 21, 22, 23 or 28; of a quick question also 43, here and below.
    pub number: u32,
    /// 1 if the bit field runs on the date; else, and if refused, 0.
    pub runs: u32,
}

/// The answer of [`estelunya_interchange`], [`estelunya_interchange_between`], [`estelunya_quick_interchange`] and [`estelunya_quick_interchange_between`].
#[repr(C)]
#[derive(Clone, Copy, Debug, PartialEq, Eq)]
pub struct InterchangeResult {
    /// 0: answered; else the refusal: 21, 26 or 27 between classes, 21, 27 or 38 between categories.
    pub number: u32,
    /// The interchange time; 0 if refused.
    pub minutes: u32,
}

/// The answer of [`estelunya_stop_name`] and [`estelunya_quick_stop_name`].
#[repr(C)]
#[derive(Clone, Copy, Debug, PartialEq, Eq)]
pub struct NameResult {
    /// 0: answered; else the refusal: 21, 27, 39, 40 or 41.
    pub number: u32,
    /// The byte of BAHNHOF at which the name starts, counted from 0; 0 if refused.
    pub start: usize,
    /// How many bytes the name has, one or more; 0 if refused.
    pub length: usize,
}

/// The answer of [`estelunya_walk`] and [`estelunya_quick_walk`].
#[repr(C)]
#[derive(Clone, Copy, Debug, PartialEq, Eq)]
pub struct WalkResult {
    /// 0: answered; else the refusal: 21 to 25, 29, 31, 33 to 36.
    pub number: u32,
    /// The rows listed, two or more; 0 if the service is not running on the date, and if refused.
    pub rows: u32,
    /// 29: the words needed; else 0.
    pub needed: u32,
}

/// The answer of [`estelunya_index`].
#[repr(C)]
#[derive(Clone, Copy, Debug, PartialEq, Eq)]
pub struct IndexResult {
    /// 0: made; else the refusal: 21 or 29.
    pub number: u32,
    /// The words of the index; 29: the words needed, which are the same; 21: 0.
    pub words: usize,
}

/// The answer of [`estelunya_board`] and [`estelunya_quick_board`].
#[repr(C)]
#[derive(Clone, Copy, Debug, PartialEq, Eq)]
pub struct BoardResult {
    /// 0: answered; else the refusal: 21, 22, 23, 27, 43 or 29.
    pub number: u32,
    /// The departures listed; 0 if there are none, and if refused.
    pub rows: usize,
    /// 29: the words needed, which may pass 2^32; else 0.
    pub needed: usize,
}

/// The answer of [`estelunya_connection`] and [`estelunya_quick_connection`].
#[repr(C)]
#[derive(Clone, Copy, Debug, PartialEq, Eq)]
pub struct ConnectionResult {
    /// 0: it holds; else the refusal: 21, 43 (quick), 46, or of a part 22 to 25, 31, 33 to 36, 38, 47 to 50, 43 (quick).
    pub number: u32,
    /// The first bad part, counted from 1; 0 if it holds, and for 21, 46, and 43 by the index's length.
    pub part: u32,
}

/// The answer of [`estelunya_write`].
#[repr(C)]
#[derive(Clone, Copy, Debug, PartialEq, Eq)]
pub struct WriteResult {
    /// 0: written; else the refusal: 21, 44 or 45.
    pub number: u32,
    /// The bytes written; 45: the bytes needed, which are the same; else 0.
    pub bytes: usize,
}

/// The answer of [`estelunya_days_union`], [`estelunya_days_intersection`], [`estelunya_days_difference`] and [`estelunya_days_complement`].
#[repr(C)]
#[derive(Clone, Copy, Debug, PartialEq, Eq)]
pub struct DaySetResult {
    /// 0: the result holds the bit field; else the refusal, 42.
    pub number: u32,
}

/// The answer of [`estelunya_days_count`].
#[repr(C)]
#[derive(Clone, Copy, Debug, PartialEq, Eq)]
pub struct DayCountResult {
    /// 0: answered; else the refusal, 42.
    pub number: u32,
    /// The number of days; 0 if refused.
    pub days: u32,
}

// The contract of all: each pointer is good for its length (reads, and writes where it is `*mut`), and what is lent for writing overlaps no other argument. Nothing is asked of what the bytes, words and
// numbers say.
extern "C" {
    /// The version of the archive, to be compared with VERSION, for which its declarations here were written.
    pub fn estelunya_version() -> u32;

    /// Words that are enough for the table of any delivery whose files have so many bytes: lent so many, no load is refused with 20. That is proved. No file is looked
    /// into, so most tables are shorter; the load says how many words it used, and the others may be given back. ECKDATEN does not count. Any sizes may be asked: bytes
    /// over MOST_FILE_BYTES add nothing, since such a file is refused.
    pub fn estelunya_room(bitfeld: usize, bahnhof: usize, umsteigb: usize, fplan: usize, zugart: usize) -> usize;

    /// Loads a delivery: the bytes of its six files, each of any length (over MOST_FILE_BYTES is refusal 1). They are given by their numbers, and checked in the order
    /// ECKDATEN, BITFELD, BAHNHOF, UMSTEIGB, ZUGART, FPLAN.
    ///
    /// Accepted: the first `words` words of `table` are the table, and the words after them hold what they held. Refused: all words of `table` hold
    /// what they held, also for 20, which comes last: a delivery that is right needs so many words, and was lent fewer (estelunya_room says how many are enough).
    ///
    /// `helper` are words to work in: HELPER_HEAD_WORDS, and HELPER_LINE_WORDS for each line of BITFELD, BAHNHOF and UMSTEIGB. Every LF ends a line, and
    /// what stands behind the last LF is one; lines that are skipped count. They may hold anything. Afterwards the words needed hold 0, whatever the answer, and
    /// the words after them what they held. Fewer words are refused with 51, before any file is looked into, and the answer says how many are needed: a call with
    /// none asks for their number. After 1 and 51 all words of `helper` hold what they held. They are not needed once the call is over.
    ///
    /// A load takes no heap and at most 32 KiB of stack: give its thread 64 KiB.
    ///
    /// The table lives in the caller's words: it is good as long as they are neither changed nor given back, and may be copied, kept in a file, or
    /// asked by another program. It holds no pointers and does not need the files; only a stop's names are not in it, but their place and length in BAHNHOF.
    pub fn estelunya_load(
        eckdaten: *const u8,
        eckdaten_len: usize,
        bitfeld: *const u8,
        bitfeld_len: usize,
        bahnhof: *const u8,
        bahnhof_len: usize,
        umsteigb: *const u8,
        umsteigb_len: usize,
        fplan: *const u8,
        fplan_len: usize,
        zugart: *const u8,
        zugart_len: usize,
        table: *mut u32,
        table_len: usize,
        helper: *mut u32,
        helper_len: usize,
    ) -> LoadResult;

    // AN INDEX BELONGS TO THE WORDS IT WAS MADE OF: beside the words of another table, or of last night's, a quick question may refuse, or walk ANOTHER SERVICE
    // than the one that was meant; so make the index anew with every load, keep the two together, and ask estelunya_check_index once whenever words or index came
    // out of a file.
    //
    // (A bit field, a stop, an interchange record or a category is only ever answered from a record of the words given that has the number asked for.)

    /// Makes the index of a table. Made: `index` begins with its words, as many as the answer says, and the words after them hold what they held. Refused (21, or
    /// 29: fewer words were lent than it needs, and the answer says how many): all words of `index` hold what they held. A call with none asks for their number. The
    /// time that it takes grows with the table, once.
    pub fn estelunya_index(table: *const u32, table_len: usize, index: *mut u32, index_len: usize) -> IndexResult;

    /// 0 exactly if the words of `index`, all of them and no more, are the index of this table; else 21, or 43. Its time grows with the table.
    pub fn estelunya_check_index(table: *const u32, table_len: usize, index: *const u32, index_len: usize) -> u32;

    // In the five questions `table` may be any words. Words that are not a table are refused with 21; words after the table's own are not looked at,
    // so that all words lent to the load may be given.

    /// Whether bit field number `field` runs on a date of the period; 0 always runs. The date is `day`.`month`.`year`, such as 5, 12, 2025.
    pub fn estelunya_day(table: *const u32, table_len: usize, day: u32, month: u32, year: u32, field: u32) -> DayResult;

    /// The time to change at stop number `stop` from a service of class `arriving` to one of class `departing`, each 0 to MOST_CLASS.
    pub fn estelunya_interchange(
        table: *const u32,
        table_len: usize,
        stop: u32,
        arriving: u32,
        departing: u32,
    ) -> InterchangeResult;

    /// The same from a service of category `arriving` to one of category `departing`, each as a row has it: three bytes in a word, the first highest. Their classes are
    /// those of the table; a category that it does not list is refused with 38.
    pub fn estelunya_interchange_between(
        table: *const u32,
        table_len: usize,
        stop: u32,
        arriving: u32,
        departing: u32,
    ) -> InterchangeResult;

    /// The name of stop number `stop` in a language and of a type: the first name with a pattern that fits both, else the first name. `language` is the byte of its
    /// letter in the standard's list (5.1: d e f h i j n o p s t u w x), `kind` is 1 to 9; 0 stands for any, and fits every pattern. A pattern without letters fits
    /// every language, one without digits every type; a name without patterns is answered only as the first name.
    ///
    /// `bahnhof` are the bytes that were loaded, and the name is a part of them. With other bytes there is an answer too: 41 where the stop's names are not inside
    /// them, 39 where what stands there is no list of names.
    pub fn estelunya_stop_name(
        table: *const u32,
        table_len: usize,
        bahnhof: *const u8,
        bahnhof_len: usize,
        stop: u32,
        language: u32,
        kind: u32,
    ) -> NameResult;

    /// Walks a run that starts on a date: `service` is the index of the service from 0, in the order of FPLAN; `repeat` is 0 for the run itself, up to the
    /// service's last run (see the kinds of a service); a higher one is refused with 25.
    ///
    /// Listed: `rows` begins with the rows, as many as the answer says, ROW_WORDS each, one for each call of the stretch that is operated on that
    /// date; the words after them hold what they held. Not running, or refused: all words of `rows` hold what they held.
    pub fn estelunya_walk(
        table: *const u32,
        table_len: usize,
        service: u32,
        repeat: u32,
        day: u32,
        month: u32,
        year: u32,
        rows: *mut u32,
        rows_len: usize,
    ) -> WalkResult;

    // The same questions by an index: of a table and its own index exactly the answers and the rows of the questions above, and what one costs does not grow with
    // the table. `table` and `index` may be any words. The words are not looked through: 21 where there is no header of a table, 43 where the index has a length
    // that this table's cannot have, or points to a place where no sound record stands. That both belong together is for the caller to keep: see above.

    /// As [`estelunya_day`], by an index.
    pub fn estelunya_quick_day(
        table: *const u32,
        table_len: usize,
        index: *const u32,
        index_len: usize,
        day: u32,
        month: u32,
        year: u32,
        field: u32,
    ) -> DayResult;

    /// As [`estelunya_interchange`], by an index.
    pub fn estelunya_quick_interchange(
        table: *const u32,
        table_len: usize,
        index: *const u32,
        index_len: usize,
        stop: u32,
        arriving: u32,
        departing: u32,
    ) -> InterchangeResult;

    /// As [`estelunya_interchange_between`], by an index.
    pub fn estelunya_quick_interchange_between(
        table: *const u32,
        table_len: usize,
        index: *const u32,
        index_len: usize,
        stop: u32,
        arriving: u32,
        departing: u32,
    ) -> InterchangeResult;

    /// As [`estelunya_stop_name`], by an index.
    pub fn estelunya_quick_stop_name(
        table: *const u32,
        table_len: usize,
        index: *const u32,
        index_len: usize,
        bahnhof: *const u8,
        bahnhof_len: usize,
        stop: u32,
        language: u32,
        kind: u32,
    ) -> NameResult;

    /// As [`estelunya_walk`], by an index.
    pub fn estelunya_quick_walk(
        table: *const u32,
        table_len: usize,
        index: *const u32,
        index_len: usize,
        service: u32,
        repeat: u32,
        day: u32,
        month: u32,
        year: u32,
        rows: *mut u32,
        rows_len: usize,
    ) -> WalkResult;

    /// A departure board: every departure from stop number `stop` of runs that start on the date, where boarding is allowed and the time is not below `first` nor
    /// above `last`, each once, by time, then service, repeat and place in the route. After midnight ask also for the date before, with 1,440 minutes more: last
    /// night's runs belong to the date on which they start.
    ///
    /// Listed: `list` begins with the rows, as many as the answer says, BOARD_ROW_WORDS each; the words after them hold what they held. Refused, 29 among
    /// them: all words of `list` hold what they held; a call with none asks for their number. `first` after `last` is an empty board.
    ///
    /// estelunya_board looks through all words of table and index each time (21, and 43 exactly if the index is not this table's). estelunya_quick_board costs as
    /// much as its answer and the calls at the stop, and is for an index that is known to be this table's. Where its mark is 1 and a service's ranges
    /// follow each other, only its calls at the stop are looked at: of words altered since, it may list a run that a walk refuses.
    pub fn estelunya_board(
        table: *const u32,
        table_len: usize,
        index: *const u32,
        index_len: usize,
        stop: u32,
        day: u32,
        month: u32,
        year: u32,
        first: u32,
        last: u32,
        list: *mut u32,
        list_len: usize,
    ) -> BoardResult;

    /// As [`estelunya_board`], by an index.
    pub fn estelunya_quick_board(
        table: *const u32,
        table_len: usize,
        index: *const u32,
        index_len: usize,
        stop: u32,
        day: u32,
        month: u32,
        year: u32,
        first: u32,
        last: u32,
        list: *mut u32,
        list_len: usize,
    ) -> BoardResult;

    /// Whether a proposed connection holds: 1 to MOST_PARTS parts of PART_WORDS words each, in the order in which they are ridden. It holds exactly if
    /// each part lies in that day's rows, boards before it alights, where boarding and alighting are allowed, and the next part boards at the same stop, after a
    /// wait, over date and minutes together, of at least the interchange time between the categories of the leg that arrives and of the leg that departs. A later
    /// part may have an earlier date; to stay on the same run is a change like any other.
    ///
    /// Else the first bad part and, in this order: 21 and 46 (not 1 to MOST_PARTS whole parts) with part 0; then part by part the walk's own refusals but 29, 47 not
    /// among that day's rows (not running that day too), 48 order or permission, and from the second part on 49 another stop, 38, 50 the wait is too short; these
    /// three name the later part.
    ///
    /// estelunya_quick_connection asks by an index, at the cost of its parts: of a table and its own index the same answers.
    pub fn estelunya_connection(
        table: *const u32,
        table_len: usize,
        parts: *const u32,
        parts_len: usize,
    ) -> ConnectionResult;

    /// As [`estelunya_connection`], by an index.
    pub fn estelunya_quick_connection(
        table: *const u32,
        table_len: usize,
        index: *const u32,
        index_len: usize,
        parts: *const u32,
        parts_len: usize,
    ) -> ConnectionResult;

    /// Writes the services of a table back as FPLAN, in one clean form: lines of 60 bytes, the last of them LF. Loaded beside the same other files it gives the same
    /// table but for the opening lines, if the table is that of an accepted delivery.
    ///
    /// Written: `text` begins with the bytes, as many as the answer says, and the bytes after them hold what they held; none for a table without services. Refused:
    /// all bytes hold what they held: 21; 44, a value does not fit its columns or would not be read back as it is (never for the table of an accepted delivery); 45,
    /// fewer bytes were lent than are needed, and the answer says how many. A call with none asks for their number.
    pub fn estelunya_write(table: *const u32, table_len: usize, text: *mut u8, text_len: usize) -> WriteResult;

    // Arithmetic on operating days, inside a period of `n` days: no table is asked for. A field is the BIT_WORDS words that a table has after a bit field's
    // number: bits 0 and 1 are 1, bit d + 2 is day d, bits n + 2 and n + 3 are 1, the rest 0. The result is such a field again.
    //
    // Refused with 42: `n` is not 1 to MOST_PERIOD_DAYS; a field, or `result`, does not have exactly so many words; or a field's bits that are no days are not
    // those above. All words of `result` then hold what they held.

    /// The days of either.
    pub fn estelunya_days_union(
        n: u32,
        first: *const u32,
        first_len: usize,
        second: *const u32,
        second_len: usize,
        result: *mut u32,
        result_len: usize,
    ) -> DaySetResult;

    /// The days of both.
    pub fn estelunya_days_intersection(
        n: u32,
        first: *const u32,
        first_len: usize,
        second: *const u32,
        second_len: usize,
        result: *mut u32,
        result_len: usize,
    ) -> DaySetResult;

    /// The days of the first that the second has not.
    pub fn estelunya_days_difference(
        n: u32,
        first: *const u32,
        first_len: usize,
        second: *const u32,
        second_len: usize,
        result: *mut u32,
        result_len: usize,
    ) -> DaySetResult;

    /// The days of the period that the field has not.
    pub fn estelunya_days_complement(
        n: u32,
        field: *const u32,
        field_len: usize,
        result: *mut u32,
        result_len: usize,
    ) -> DaySetResult;

    /// How many days the field has.
    pub fn estelunya_days_count(n: u32, field: *const u32, field_len: usize) -> DayCountResult;
}
