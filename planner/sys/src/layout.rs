//! The table's layout and the limits of the rules, as `include/estelunya.h` says them under the same names: how many words a
//! record has, where a word stands in it, counted from 0, and the most of what is taken.
//!
//! Written by `tools/boundary.sh` from the header and the Rattle source: change those.

/// Header: its words.
pub const HEADER_WORDS: usize = 9;
/// Header: words used.
pub const USED_AT: usize = 0;
/// Header: first day of the period; 01.01.1900 is 0.
pub const FIRST_DAY_AT: usize = 1;
/// Header: days of the period.
pub const PERIOD_DAYS_AT: usize = 2;
/// Header: how many bit fields there are.
pub const BIT_FIELDS_AT: usize = 3;
/// Header: how many stops.
pub const STOPS_AT: usize = 4;
/// Header: how many interchange records.
pub const INTERCHANGES_AT: usize = 5;
/// Header: how many services.
pub const SERVICES_AT: usize = 6;
/// Header: place of the first service: the words of the header and of all records before it.
pub const FIRST_SERVICE_AT: usize = 7;
/// Header: how many categories, each with its class.
pub const CLASSES_AT: usize = 8;

/// Bit field: its words.
pub const BIT_FIELD_WORDS: usize = 13;
/// Bit field: its number.
pub const BIT_FIELD_NUMBER_AT: usize = 0;
/// Bit field: its bits, bit 0 the highest of the first word; bit d + 2 is day d of the period, counted from 0.
pub const BIT_FIELD_BITS_AT: usize = 1;
/// Bit field: words of its bits.
pub const BIT_WORDS: usize = 12;

/// Stop: its words.
pub const STOP_WORDS: usize = 3;
/// Stop: its number.
pub const STOP_NUMBER_AT: usize = 0;
/// Stop: byte of BAHNHOF at which its name field starts, counted from 0.
pub const STOP_NAME_AT: usize = 1;
/// Stop: length of the field without trailing blanks.
pub const STOP_NAME_LENGTH_AT: usize = 2;

/// Interchange: its words.
pub const INTERCHANGE_WORDS: usize = 3;
/// Interchange: number of the stop; EVERY_STOP in the first record.
pub const INTERCHANGE_STOP_AT: usize = 0;
/// Interchange: time for two classes that are both 0, 1 or 2.
pub const INTERCHANGE_FIRST_TIME_AT: usize = 1;
/// Interchange: time for all other classes.
pub const INTERCHANGE_SECOND_TIME_AT: usize = 2;
/// Interchange: number of every stop without its own.
pub const EVERY_STOP: u32 = 9_999_999;

/// Category: its words.
pub const CLASS_WORDS: usize = 2;
/// Category: its code in three bytes.
pub const CLASS_CODE_AT: usize = 0;
/// Category: its class, 0 to MOST_CLASS.
pub const CLASS_AT: usize = 1;

/// Head of a service: its words.
pub const SERVICE_WORDS: usize = 12;
/// Head of a service: words of this service, with its head.
pub const SIZE_AT: usize = 0;
/// Head of a service: its number.
pub const NUMBER_AT: usize = 1;
/// Head of a service: its administration, two words of three bytes.
pub const ADMINISTRATION_AT: usize = 2;
/// Head of a service: repeats; of a *T service its running time in minutes.
pub const REPEATS_AT: usize = 4;
/// Head of a service: offset in minutes; of a *T service its density in seconds, 1 or more.
pub const OFFSET_AT: usize = 5;
/// Head of a service: how many calls it has.
pub const CALLS_AT: usize = 6;
/// Head of a service: how many *G.
pub const CATEGORIES_AT: usize = 7;
/// Head of a service: how many *A VE.
pub const DAYS_AT: usize = 8;
/// Head of a service: how many other *A.
pub const EXTRAS_AT: usize = 9;
/// Head of a service: line of its *Z or *T in FPLAN.
pub const OPENING_LINE_AT: usize = 10;
/// Head of a service: its kind.
pub const KIND_AT: usize = 11;

/// Kind of a service: opened by *Z, with repeats and an offset.
pub const KIND_Z: u32 = 0;
/// Kind of a service: opened by *T, with a running time and a density.
pub const KIND_T: u32 = 1;

/// Call: its words.
pub const CALL_WORDS: usize = 7;
/// Call: place of the stop among the stops.
pub const CALL_PLACE_AT: usize = 0;
/// Call: arrival in minutes; 0 if there is none.
pub const CALL_ARRIVAL_AT: usize = 1;
/// Call: departure in the same way.
pub const CALL_DEPARTURE_AT: usize = 2;
/// Call: its flags.
pub const CALL_FLAGS_AT: usize = 3;
/// Call: the service's number that holds from this call on.
pub const CALL_NUMBER_AT: usize = 4;
/// Call: the administration in the same way, two words of three bytes.
pub const CALL_ADMINISTRATION_AT: usize = 5;

/// *G: its words.
pub const CATEGORY_WORDS: usize = 3;
/// *G: category in three bytes, which is one of ZUGART's.
pub const CATEGORY_CODE_AT: usize = 0;
/// *G: index of the first call.
pub const CATEGORY_FROM_AT: usize = 1;
/// *G: index of the last call.
pub const CATEGORY_TO_AT: usize = 2;

/// *A VE: its words.
pub const DAYS_WORDS: usize = 3;
/// *A VE: number of the bit field, 0 for daily.
pub const DAYS_FIELD_AT: usize = 0;
/// *A VE: index of the first call.
pub const DAYS_FROM_AT: usize = 1;
/// *A VE: index of the last call.
pub const DAYS_TO_AT: usize = 2;

/// Other *A: its words.
pub const EXTRA_WORDS: usize = 4;
/// Other *A: code in two bytes.
pub const EXTRA_CODE_AT: usize = 0;
/// Other *A: number of the bit field, 0 for daily.
pub const EXTRA_FIELD_AT: usize = 1;
/// Other *A: index of the first call.
pub const EXTRA_FROM_AT: usize = 2;
/// Other *A: index of the last call.
pub const EXTRA_TO_AT: usize = 3;

/// Row of a walk: its words.
pub const ROW_WORDS: usize = 10;
/// Row of a walk: number of the stop.
pub const ROW_STOP_AT: usize = 0;
/// Row of a walk: arrival in minutes from the start of the date, so that it may pass 1,440; 0 in the first row.
pub const ROW_ARRIVAL_AT: usize = 1;
/// Row of a walk: departure in the same way; 0 in the last row.
pub const ROW_DEPARTURE_AT: usize = 2;
/// Row of a walk: its flags: ARRIVAL and NO_ALIGHTING are not set in the first row, DEPARTURE and NO_BOARDING not in the last.
pub const ROW_FLAGS_AT: usize = 3;
/// Row of a walk: the service's number that holds from this call on; in every row.
pub const ROW_NUMBER_AT: usize = 4;
/// Row of a walk: the administration in the same way, two words of three bytes.
pub const ROW_ADMINISTRATION_AT: usize = 5;
/// Row of a walk: category of the leg that leaves: columns 4-6 of its *G line; 0 in the last row.
pub const ROW_CATEGORY_AT: usize = 7;
/// Row of a walk: the stop's interchange time for two classes that are both 0, 1 or 2.
pub const ROW_FIRST_TIME_AT: usize = 8;
/// Row of a walk: the stop's interchange time for all other classes.
pub const ROW_SECOND_TIME_AT: usize = 9;

/// Row of a board: its words.
pub const BOARD_ROW_WORDS: usize = 4;
/// Row of a board: its time, in minutes from the start of the date, with the run's lateness, so that it may pass 1,440.
pub const BOARD_TIME_AT: usize = 0;
/// Row of a board: index of the service, from 0.
pub const BOARD_SERVICE_AT: usize = 1;
/// Row of a board: number of its run, as a walk takes it.
pub const BOARD_REPEAT_AT: usize = 2;
/// Row of a board: place of the call in the service's route, from 0.
pub const BOARD_PLACE_AT: usize = 3;

/// Part of a proposed connection: its words.
pub const PART_WORDS: usize = 7;
/// Part of a proposed connection: index of the service, from 0.
pub const PART_SERVICE_AT: usize = 0;
/// Part of a proposed connection: number of its run, as a walk takes it.
pub const PART_REPEAT_AT: usize = 1;
/// Part of a proposed connection: day of the date on which the run starts.
pub const PART_DAY_AT: usize = 2;
/// Part of a proposed connection: its month.
pub const PART_MONTH_AT: usize = 3;
/// Part of a proposed connection: its year in full.
pub const PART_YEAR_AT: usize = 4;
/// Part of a proposed connection: the call where one boards, counted from 0 along the route.
pub const PART_BOARDING_AT: usize = 5;
/// Part of a proposed connection: the call where one alights, in the same way.
pub const PART_ALIGHTING_AT: usize = 6;

/// Helper words of a load: of every load.
pub const HELPER_HEAD_WORDS: usize = 64;
/// Helper words of a load: besides, for each line of BITFELD, BAHNHOF and UMSTEIGB.
pub const HELPER_LINE_WORDS: usize = 4;

/// The most that the rules take: bytes of a file; one more is refusal 1.
pub const MOST_FILE_BYTES: usize = 16_777_216;
/// The most that the rules take: days of a period.
pub const MOST_PERIOD_DAYS: u32 = 380;
/// The most that the rules take: class of a category.
pub const MOST_CLASS: u32 = 13;
/// The most that the rules take: calls of a service.
pub const MOST_CALLS: usize = 200;
/// The most that the rules take: parts of a connection.
pub const MOST_PARTS: usize = 10;

/// Words that are enough for the rows of every walk.
pub const MOST_ROW_WORDS: usize = MOST_CALLS * ROW_WORDS;

/// Flag of a call and of a row: has an arrival.
pub const ARRIVAL: u32 = 1;
/// Flag of a call and of a row: has a departure.
pub const DEPARTURE: u32 = 2;
/// Flag of a call and of a row: alighting is forbidden.
pub const NO_ALIGHTING: u32 = 4;
/// Flag of a call and of a row: boarding is forbidden.
pub const NO_BOARDING: u32 = 8;
