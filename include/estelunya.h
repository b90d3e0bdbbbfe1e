/*
 * Estelunya: the proved timetable loader. Link libestelunya.a.
 *
 * A load makes a table from the six files of a delivery; day, interchange (between classes or between categories), stop name and walk are asked of a table, or
 * of a table and its index at the cost of the answer (estelunya_quick_..); so are departure boards, and whether a proposed connection holds; FPLAN is written
 * back from a table; and there is arithmetic on operating days. The rules, and the numbers of the refusals, are those of documents 01 and 02; docs/REFUSALS.md
 * tells them to people.
 *
 * What the caller owes: each pointer is good for its length, given in items (bytes or 32-bit words), and aligned as its type is; it may be null where that
 * length is 0. The words and bytes that a call writes (table and helper of a load, rows of a walk, an index, a list, a text, result of arithmetic) overlap none of
 * its other arguments. Nothing else: any bytes, any words and any numbers may be given, and have exactly one answer.
 *
 * A call writes into the words lent to it and nowhere else. It keeps nothing: no pointer, no memory, no state between calls. So calls may run
 * side by side. Many questions may read one table at a time; words that a call writes may be used by no other call meanwhile.
 */
#ifndef ESTELUNYA_H
#define ESTELUNYA_H

#include <stddef.h>
#include <stdint.h>

#ifdef __cplusplus
extern "C" {
#endif

/*
 * The version that this header was written for: of the functions below, and of the words of a table. It grows whenever one of them changes. A program compares it
 * once, before any other call, with estelunya_version() of the archive that it was linked with; where they differ it has to be built again, and words that
 * were kept have to be loaded again.
 */
#define ESTELUNYA_VERSION 2u

typedef struct EstelunyaLoadResult {
    uint32_t number; /* 0: accepted; else the refusal, 1 to 20, 37, 38, 39 or 51 */
    uint32_t file;   /* 1 ECKDATEN, 2 BITFELD, 3 BAHNHOF, 4 UMSTEIGB, 5 FPLAN, 6 ZUGART; 0 if accepted, and for 20 and 51 */
    uint32_t line;   /* the line, counted from 1; 0 if accepted, and for 1, 20 and 51 */
    uint32_t words;  /* accepted: the words used; 20: the words needed; 51: the helper words needed; else 0 */
    size_t column;   /* 4: the column, counted from 1, where the leftmost field or unnamed column that breaks the form starts; else 0 */
} EstelunyaLoadResult;

typedef struct EstelunyaDayResult {
    uint32_t number; /* 0: answered; else the refusal: 21, 22, 23 or 28; of a quick question also 43, here and below */
    uint32_t runs;   /* 1 if the bit field runs on the date; else, and if refused, 0 */
} EstelunyaDayResult;

typedef struct EstelunyaInterchangeResult {
    uint32_t number;  /* 0: answered; else the refusal: 21, 26 or 27 between classes, 21, 27 or 38 between categories */
    uint32_t minutes; /* the interchange time; 0 if refused */
} EstelunyaInterchangeResult;

typedef struct EstelunyaNameResult {
    uint32_t number; /* 0: answered; else the refusal: 21, 27, 39, 40 or 41 */
    size_t start;    /* the byte of BAHNHOF at which the name starts, counted from 0; 0 if refused */
    size_t length;   /* how many bytes the name has, one or more; 0 if refused */
} EstelunyaNameResult;

typedef struct EstelunyaWalkResult {
    uint32_t number; /* 0: answered; else the refusal: 21 to 25, 29, 31, 33 to 36 */
    uint32_t rows;   /* the rows listed, two or more; 0 if the service is not running on the date, and if refused */
    uint32_t needed; /* 29: the words needed; else 0 */
} EstelunyaWalkResult;

typedef struct EstelunyaIndexResult {
    uint32_t number; /* 0: made; else the refusal: 21 or 29 */
    size_t words;    /* the words of the index; 29: the words needed, which are the same; 21: 0 */
} EstelunyaIndexResult;

typedef struct EstelunyaBoardResult {
    uint32_t number; /* 0: answered; else the refusal: 21, 22, 23, 27, 43 or 29 */
    size_t rows;     /* the departures listed; 0 if there are none, and if refused */
    size_t needed;   /* 29: the words needed, which may pass 2^32; else 0 */
} EstelunyaBoardResult;

typedef struct EstelunyaConnectionResult {
    uint32_t number; /* 0: it holds; else the refusal: 21, 43 (quick), 46, or of a part 22 to 25, 31, 33 to 36, 38, 47 to 50, 43 (quick) */
    uint32_t part;   /* the first bad part, counted from 1; 0 if it holds, and for 21, 46, and 43 by the index's length */
} EstelunyaConnectionResult;

typedef struct EstelunyaWriteResult {
    uint32_t number; /* 0: written; else the refusal: 21, 44 or 45 */
    size_t bytes;    /* the bytes written; 45: the bytes needed, which are the same; else 0 */
} EstelunyaWriteResult;

typedef struct EstelunyaDaySetResult {
    uint32_t number; /* 0: the result holds the bit field; else the refusal, 42 */
} EstelunyaDaySetResult;

typedef struct EstelunyaDayCountResult {
    uint32_t number; /* 0: answered; else the refusal, 42 */
    uint32_t days;   /* the number of days; 0 if refused */
} EstelunyaDayCountResult;

/*
 * A table is 32-bit words: a header, then all bit fields, stops, interchange records, categories and services, each in the order of their file, and within a
 * service its head, then all its calls, *G, *A VE and other *A. Below, .._WORDS is how many words a record has, and .._AT is where a word stands in it,
 * counted from 0. Bytes share a word with the first byte highest.
 *
 * The numbers that the loader names are those of its source, and planner/sys/src/layout.rs has all of them: tools/boundary.sh writes them.
 */

/* Header */
#define ESTELUNYA_HEADER_WORDS 9
#define ESTELUNYA_USED_AT 0          /* words used */
#define ESTELUNYA_FIRST_DAY_AT 1     /* first day of the period; 01.01.1900 is 0 */
#define ESTELUNYA_PERIOD_DAYS_AT 2   /* days of the period */
#define ESTELUNYA_BIT_FIELDS_AT 3    /* how many bit fields there are */
#define ESTELUNYA_STOPS_AT 4         /* how many stops */
#define ESTELUNYA_INTERCHANGES_AT 5  /* how many interchange records */
#define ESTELUNYA_SERVICES_AT 6      /* how many services */
#define ESTELUNYA_FIRST_SERVICE_AT 7 /* place of the first service: the words of the header and of all records before it */
#define ESTELUNYA_CLASSES_AT 8       /* how many categories, each with its class */

/* Bit field */
#define ESTELUNYA_BIT_FIELD_WORDS 13
#define ESTELUNYA_BIT_FIELD_NUMBER_AT 0 /* its number */
#define ESTELUNYA_BIT_FIELD_BITS_AT 1   /* its bits, bit 0 the highest of the first word; bit d + 2 is day d of the period, counted from 0 */
#define ESTELUNYA_BIT_WORDS 12          /* words of its bits */

/* Stop. All its names stand in its name field, with their patterns: estelunya_stop_name finds one of them. */
#define ESTELUNYA_STOP_WORDS 3
#define ESTELUNYA_STOP_NUMBER_AT 0      /* its number */
#define ESTELUNYA_STOP_NAME_AT 1        /* byte of BAHNHOF at which its name field starts, counted from 0 */
#define ESTELUNYA_STOP_NAME_LENGTH_AT 2 /* length of the field without trailing blanks */

/* Interchange */
#define ESTELUNYA_INTERCHANGE_WORDS 3
#define ESTELUNYA_INTERCHANGE_STOP_AT 0        /* number of the stop; EVERY_STOP in the first record */
#define ESTELUNYA_INTERCHANGE_FIRST_TIME_AT 1  /* time for two classes that are both 0, 1 or 2 */
#define ESTELUNYA_INTERCHANGE_SECOND_TIME_AT 2 /* time for all other classes */
#define ESTELUNYA_EVERY_STOP 9999999u          /* number of every stop without its own */

/* Category, from a line of ZUGART */
#define ESTELUNYA_CLASS_WORDS 2
#define ESTELUNYA_CLASS_CODE_AT 0 /* its code in three bytes */
#define ESTELUNYA_CLASS_AT 1      /* its class, 0 to MOST_CLASS */

/* Head of a service */
#define ESTELUNYA_SERVICE_WORDS 12
#define ESTELUNYA_SIZE_AT 0           /* words of this service, with its head */
#define ESTELUNYA_NUMBER_AT 1         /* its number */
#define ESTELUNYA_ADMINISTRATION_AT 2 /* its administration, two words of three bytes */
#define ESTELUNYA_REPEATS_AT 4        /* repeats; of a *T service its running time in minutes */
#define ESTELUNYA_OFFSET_AT 5         /* offset in minutes; of a *T service its density in seconds, 1 or more */
#define ESTELUNYA_CALLS_AT 6          /* how many calls it has */
#define ESTELUNYA_CATEGORIES_AT 7     /* how many *G */
#define ESTELUNYA_DAYS_AT 8           /* how many *A VE */
#define ESTELUNYA_EXTRAS_AT 9         /* how many other *A */
#define ESTELUNYA_OPENING_LINE_AT 10  /* line of its *Z or *T in FPLAN */
#define ESTELUNYA_KIND_AT 11          /* its kind */

/*
 * Kind of a service. Opened by *Z: runs 0 to `repeats`, run j late by j times the offset. Opened by *T: runs j = 0, 1, 2.. while j times the density is at
 * most sixty times the running time, run j late by j times the density over sixty, rounded up, in minutes.
 */
#define ESTELUNYA_KIND_Z 0u /* opened by *Z, with repeats and an offset */
#define ESTELUNYA_KIND_T 1u /* opened by *T, with a running time and a density */

/*
 * Call. The place of its stop is counted in records from 0, so that the stop's record begins at word
 *
 *     ESTELUNYA_HEADER_WORDS + ESTELUNYA_BIT_FIELD_WORDS * (word ESTELUNYA_BIT_FIELDS_AT) + ESTELUNYA_STOP_WORDS * place.
 *
 * (A row shows the stop's number.) A place that is not below the number of stops is no table's: 21.
 */
#define ESTELUNYA_CALL_WORDS 7
#define ESTELUNYA_CALL_PLACE_AT 0          /* place of the stop among the stops */
#define ESTELUNYA_CALL_ARRIVAL_AT 1        /* arrival in minutes; 0 if there is none */
#define ESTELUNYA_CALL_DEPARTURE_AT 2      /* departure in the same way */
#define ESTELUNYA_CALL_FLAGS_AT 3          /* its flags */
#define ESTELUNYA_CALL_NUMBER_AT 4         /* the service's number that holds from this call on */
#define ESTELUNYA_CALL_ADMINISTRATION_AT 5 /* the administration in the same way, two words of three bytes */

/* *G. Indexes of calls count from 0, here and below. */
#define ESTELUNYA_CATEGORY_WORDS 3
#define ESTELUNYA_CATEGORY_CODE_AT 0 /* category in three bytes, which is one of ZUGART's */
#define ESTELUNYA_CATEGORY_FROM_AT 1 /* index of the first call */
#define ESTELUNYA_CATEGORY_TO_AT 2   /* index of the last call */

/* *A VE */
#define ESTELUNYA_DAYS_WORDS 3
#define ESTELUNYA_DAYS_FIELD_AT 0 /* number of the bit field, 0 for daily */
#define ESTELUNYA_DAYS_FROM_AT 1  /* index of the first call */
#define ESTELUNYA_DAYS_TO_AT 2    /* index of the last call */

/* Other *A */
#define ESTELUNYA_EXTRA_WORDS 4
#define ESTELUNYA_EXTRA_CODE_AT 0  /* code in two bytes */
#define ESTELUNYA_EXTRA_FIELD_AT 1 /* number of the bit field, 0 for daily */
#define ESTELUNYA_EXTRA_FROM_AT 2  /* index of the first call */
#define ESTELUNYA_EXTRA_TO_AT 3    /* index of the last call */

/* Row of a walk */
#define ESTELUNYA_ROW_WORDS 10
#define ESTELUNYA_ROW_STOP_AT 0           /* number of the stop */
#define ESTELUNYA_ROW_ARRIVAL_AT 1        /* arrival in minutes from the start of the date, so that it may pass 1,440; 0 in the first row */
#define ESTELUNYA_ROW_DEPARTURE_AT 2      /* departure in the same way; 0 in the last row */
#define ESTELUNYA_ROW_FLAGS_AT 3          /* its flags: ARRIVAL and NO_ALIGHTING are not set in the first row, DEPARTURE and NO_BOARDING not in the last */
#define ESTELUNYA_ROW_NUMBER_AT 4         /* the service's number that holds from this call on; in every row */
#define ESTELUNYA_ROW_ADMINISTRATION_AT 5 /* the administration in the same way, two words of three bytes */
#define ESTELUNYA_ROW_CATEGORY_AT 7       /* category of the leg that leaves: columns 4-6 of its *G line; 0 in the last row */
#define ESTELUNYA_ROW_FIRST_TIME_AT 8     /* the stop's interchange time for two classes that are both 0, 1 or 2 */
#define ESTELUNYA_ROW_SECOND_TIME_AT 9    /* the stop's interchange time for all other classes */

/* Row of a board: a departure */
#define ESTELUNYA_BOARD_ROW_WORDS 4
#define ESTELUNYA_BOARD_TIME_AT 0    /* its time, in minutes from the start of the date, with the run's lateness, so that it may pass 1,440 */
#define ESTELUNYA_BOARD_SERVICE_AT 1 /* index of the service, from 0 */
#define ESTELUNYA_BOARD_REPEAT_AT 2  /* number of its run, as a walk takes it */
#define ESTELUNYA_BOARD_PLACE_AT 3   /* place of the call in the service's route, from 0 */

/* Part of a proposed connection */
#define ESTELUNYA_PART_WORDS 7
#define ESTELUNYA_PART_SERVICE_AT 0   /* index of the service, from 0 */
#define ESTELUNYA_PART_REPEAT_AT 1    /* number of its run, as a walk takes it */
#define ESTELUNYA_PART_DAY_AT 2       /* day of the date on which the run starts */
#define ESTELUNYA_PART_MONTH_AT 3     /* its month */
#define ESTELUNYA_PART_YEAR_AT 4      /* its year in full */
#define ESTELUNYA_PART_BOARDING_AT 5  /* the call where one boards, counted from 0 along the route */
#define ESTELUNYA_PART_ALIGHTING_AT 6 /* the call where one alights, in the same way */

/*
 * Index: words beside a table, made of it by estelunya_index. It is never longer than the table. With B bit fields, S stops, M interchange records, C categories and
 * V services it holds, one after the other:
 *
 *     2 words for each bit field, then for each stop, for each interchange record, and for each category: chains, by which a record is found by its first word;
 *     V words: the place of each service;
 *     S words: the last call at each stop, 0 if there is none. Calls are numbered through the table, from 1;
 *     4 words for each call: the call before it at the same stop (0 if there is none), its service, the place of that service's record, and its place in the route;
 *     1 word, its last, the mark: 1 if all services are steady, else 0. In a steady service the first call's departure, both times of each call between and the
 *     last call's arrival are stated, and none of them is below the one before it. That holds of every delivery that is accepted (15).
 *
 * The chains of a section of n records: its records are counted from the end, 1 to n, so that the first is record n. Word 2 * b is the greatest record in
 * bucket b, and word 2 * e - 1 the next lower record in the bucket of record e; 0 ends a chain. A record whose first word is k is in bucket (k * 2654435761 mod
 * 2^32) * n / 2^32.
 */

/* Helper words of a load */
#define ESTELUNYA_HELPER_HEAD_WORDS 64 /* of every load */
#define ESTELUNYA_HELPER_LINE_WORDS 4  /* besides, for each line of BITFELD, BAHNHOF and UMSTEIGB */

/* The most that the rules take */
#define ESTELUNYA_MOST_FILE_BYTES 16777216 /* bytes of a file; one more is refusal 1 */
#define ESTELUNYA_MOST_PERIOD_DAYS 380u    /* days of a period */
#define ESTELUNYA_MOST_CLASS 13u           /* class of a category */
#define ESTELUNYA_MOST_CALLS 200           /* calls of a service */
#define ESTELUNYA_MOST_PARTS 10            /* parts of a connection */

/* Words that are enough for the rows of every walk. */
#define ESTELUNYA_MOST_ROW_WORDS (ESTELUNYA_MOST_CALLS * ESTELUNYA_ROW_WORDS)

/* Flag of a call and of a row */
#define ESTELUNYA_ARRIVAL 1u      /* has an arrival */
#define ESTELUNYA_DEPARTURE 2u    /* has a departure */
#define ESTELUNYA_NO_ALIGHTING 4u /* alighting is forbidden */
#define ESTELUNYA_NO_BOARDING 8u  /* boarding is forbidden */

/* The version of the archive, to be compared with ESTELUNYA_VERSION, for which its declarations here were written. */
uint32_t estelunya_version(void);

/*
 * Words that are enough for the table of any delivery whose files have so many bytes: lent so many, no load is refused with 20. That is proved. No file is looked
 * into, so most tables are shorter; the load says how many words it used, and the others may be given back. ECKDATEN does not count. Any sizes may be asked: bytes
 * over MOST_FILE_BYTES add nothing, since such a file is refused.
 */
size_t estelunya_room(size_t bitfeld, size_t bahnhof, size_t umsteigb, size_t fplan, size_t zugart);

/*
 * Loads a delivery: the bytes of its six files, each of any length (over MOST_FILE_BYTES is refusal 1). They are given by their numbers, and checked in the order
 * ECKDATEN, BITFELD, BAHNHOF, UMSTEIGB, ZUGART, FPLAN.
 *
 * Accepted: the first `words` words of `table` are the table, and the words after them hold what they held. Refused: all words of `table` hold
 * what they held, also for 20, which comes last: a delivery that is right needs so many words, and was lent fewer (estelunya_room says how many are enough).
 *
 * `helper` are words to work in: HELPER_HEAD_WORDS, and HELPER_LINE_WORDS for each line of BITFELD, BAHNHOF and UMSTEIGB. Every LF ends a line, and
 * what stands behind the last LF is one; lines that are skipped count. They may hold anything. Afterwards the words needed hold 0, whatever the answer, and
 * the words after them what they held. Fewer words are refused with 51, before any file is looked into, and the answer says how many are needed: a call with
 * none asks for their number. After 1 and 51 all words of `helper` hold what they held. They are not needed once the call is over.
 *
 * A load takes no heap and at most 32 KiB of stack: give its thread 64 KiB.
 *
 * The table lives in the caller's words: it is good as long as they are neither changed nor given back, and may be copied, kept in a file, or
 * asked by another program. It holds no pointers and does not need the files; only a stop's names are not in it, but their place and length in BAHNHOF.
 */
EstelunyaLoadResult estelunya_load(
    const uint8_t *eckdaten, size_t eckdaten_len,
    const uint8_t *bitfeld, size_t bitfeld_len,
    const uint8_t *bahnhof, size_t bahnhof_len,
    const uint8_t *umsteigb, size_t umsteigb_len,
    const uint8_t *fplan, size_t fplan_len,
    const uint8_t *zugart, size_t zugart_len,
    uint32_t *table, size_t table_len,
    uint32_t *helper, size_t helper_len);

/*
 * AN INDEX BELONGS TO THE WORDS IT WAS MADE OF: beside the words of another table, or of last night's, a quick question may refuse, or walk ANOTHER SERVICE
 * than the one that was meant; so make the index anew with every load, keep the two together, and ask estelunya_check_index once whenever words or index came
 * out of a file.
 *
 * (A bit field, a stop, an interchange record or a category is only ever answered from a record of the words given that has the number asked for.)
 */

/*
 * Makes the index of a table. Made: `index` begins with its words, as many as the answer says, and the words after them hold what they held. Refused (21, or
 * 29: fewer words were lent than it needs, and the answer says how many): all words of `index` hold what they held. A call with none asks for their number. The
 * time that it takes grows with the table, once.
 */
EstelunyaIndexResult estelunya_index(
    const uint32_t *table, size_t table_len,
    uint32_t *index, size_t index_len);

/* 0 exactly if the words of `index`, all of them and no more, are the index of this table; else 21, or 43. Its time grows with the table. */
uint32_t estelunya_check_index(
    const uint32_t *table, size_t table_len,
    const uint32_t *index, size_t index_len);

/*
 * In the five questions `table` may be any words. Words that are not a table are refused with 21; words after the table's own are not looked at,
 * so that all words lent to the load may be given.
 */

/* Whether bit field number `field` runs on a date of the period; 0 always runs. The date is `day`.`month`.`year`, such as 5, 12, 2025. */
EstelunyaDayResult estelunya_day(
    const uint32_t *table, size_t table_len,
    uint32_t day, uint32_t month, uint32_t year,
    uint32_t field);

/* The time to change at stop number `stop` from a service of class `arriving` to one of class `departing`, each 0 to MOST_CLASS. */
EstelunyaInterchangeResult estelunya_interchange(
    const uint32_t *table, size_t table_len,
    uint32_t stop, uint32_t arriving, uint32_t departing);

/*
 * The same from a service of category `arriving` to one of category `departing`, each as a row has it: three bytes in a word, the first highest. Their classes are
 * those of the table; a category that it does not list is refused with 38.
 */
EstelunyaInterchangeResult estelunya_interchange_between(
    const uint32_t *table, size_t table_len,
    uint32_t stop, uint32_t arriving, uint32_t departing);

/*
 * The name of stop number `stop` in a language and of a type: the first name with a pattern that fits both, else the first name. `language` is the byte of its
 * letter in the standard's list (5.1: d e f h i j n o p s t u w x), `kind` is 1 to 9; 0 stands for any, and fits every pattern. A pattern without letters fits
 * every language, one without digits every type; a name without patterns is answered only as the first name.
 *
 * `bahnhof` are the bytes that were loaded, and the name is a part of them. With other bytes there is an answer too: 41 where the stop's names are not inside
 * them, 39 where what stands there is no list of names.
 */
EstelunyaNameResult estelunya_stop_name(
    const uint32_t *table, size_t table_len,
    const uint8_t *bahnhof, size_t bahnhof_len,
    uint32_t stop, uint32_t language, uint32_t kind);

/*
 * Walks a run that starts on a date: `service` is the index of the service from 0, in the order of FPLAN; `repeat` is 0 for the run itself, up to the
 * service's last run (see the kinds of a service); a higher one is refused with 25.
 *
 * Listed: `rows` begins with the rows, as many as the answer says, ESTELUNYA_ROW_WORDS each, one for each call of the stretch that is operated on that
 * date; the words after them hold what they held. Not running, or refused: all words of `rows` hold what they held.
 */
EstelunyaWalkResult estelunya_walk(
    const uint32_t *table, size_t table_len,
    uint32_t service, uint32_t repeat,
    uint32_t day, uint32_t month, uint32_t year,
    uint32_t *rows, size_t rows_len);

/*
 * The same questions by an index: of a table and its own index exactly the answers and the rows of the questions above, and what one costs does not grow with
 * the table. `table` and `index` may be any words. The words are not looked through: 21 where there is no header of a table, 43 where the index has a length
 * that this table's cannot have, or points to a place where no sound record stands. That both belong together is for the caller to keep: see above.
 */

EstelunyaDayResult estelunya_quick_day(
    const uint32_t *table, size_t table_len,
    const uint32_t *index, size_t index_len,
    uint32_t day, uint32_t month, uint32_t year,
    uint32_t field);

EstelunyaInterchangeResult estelunya_quick_interchange(
    const uint32_t *table, size_t table_len,
    const uint32_t *index, size_t index_len,
    uint32_t stop, uint32_t arriving, uint32_t departing);

EstelunyaInterchangeResult estelunya_quick_interchange_between(
    const uint32_t *table, size_t table_len,
    const uint32_t *index, size_t index_len,
    uint32_t stop, uint32_t arriving, uint32_t departing);

EstelunyaNameResult estelunya_quick_stop_name(
    const uint32_t *table, size_t table_len,
    const uint32_t *index, size_t index_len,
    const uint8_t *bahnhof, size_t bahnhof_len,
    uint32_t stop, uint32_t language, uint32_t kind);

EstelunyaWalkResult estelunya_quick_walk(
    const uint32_t *table, size_t table_len,
    const uint32_t *index, size_t index_len,
    uint32_t service, uint32_t repeat,
    uint32_t day, uint32_t month, uint32_t year,
    uint32_t *rows, size_t rows_len);

/*
 * A departure board: every departure from stop number `stop` of runs that start on the date, where boarding is allowed and the time is not below `first` nor
 * above `last`, each once, by time, then service, repeat and place in the route. After midnight ask also for the date before, with 1,440 minutes more: last
 * night's runs belong to the date on which they start.
 *
 * Listed: `list` begins with the rows, as many as the answer says, ESTELUNYA_BOARD_ROW_WORDS each; the words after them hold what they held. Refused, 29 among
 * them: all words of `list` hold what they held; a call with none asks for their number. `first` after `last` is an empty board.
 *
 * estelunya_board looks through all words of table and index each time (21, and 43 exactly if the index is not this table's). estelunya_quick_board costs as
 * much as its answer and the calls at the stop, and is for an index that is known to be this table's. Where its mark is 1 and a service's ranges
 * follow each other, only its calls at the stop are looked at: of words altered since, it may list a run that a walk refuses.
 */
EstelunyaBoardResult estelunya_board(
    const uint32_t *table, size_t table_len,
    const uint32_t *index, size_t index_len,
    uint32_t stop,
    uint32_t day, uint32_t month, uint32_t year,
    uint32_t first, uint32_t last,
    uint32_t *list, size_t list_len);

EstelunyaBoardResult estelunya_quick_board(
    const uint32_t *table, size_t table_len,
    const uint32_t *index, size_t index_len,
    uint32_t stop,
    uint32_t day, uint32_t month, uint32_t year,
    uint32_t first, uint32_t last,
    uint32_t *list, size_t list_len);

/*
 * Whether a proposed connection holds: 1 to MOST_PARTS parts of ESTELUNYA_PART_WORDS words each, in the order in which they are ridden. It holds exactly if
 * each part lies in that day's rows, boards before it alights, where boarding and alighting are allowed, and the next part boards at the same stop, after a
 * wait, over date and minutes together, of at least the interchange time between the categories of the leg that arrives and of the leg that departs. A later
 * part may have an earlier date; to stay on the same run is a change like any other.
 *
 * Else the first bad part and, in this order: 21 and 46 (not 1 to MOST_PARTS whole parts) with part 0; then part by part the walk's own refusals but 29, 47 not
 * among that day's rows (not running that day too), 48 order or permission, and from the second part on 49 another stop, 38, 50 the wait is too short; these
 * three name the later part.
 *
 * estelunya_quick_connection asks by an index, at the cost of its parts: of a table and its own index the same answers.
 */
EstelunyaConnectionResult estelunya_connection(
    const uint32_t *table, size_t table_len,
    const uint32_t *parts, size_t parts_len);

EstelunyaConnectionResult estelunya_quick_connection(
    const uint32_t *table, size_t table_len,
    const uint32_t *index, size_t index_len,
    const uint32_t *parts, size_t parts_len);

/*
 * Writes the services of a table back as FPLAN, in one clean form: lines of 60 bytes, the last of them LF. Loaded beside the same other files it gives the same
 * table but for the opening lines, if the table is that of an accepted delivery.
 *
 * Written: `text` begins with the bytes, as many as the answer says, and the bytes after them hold what they held; none for a table without services. Refused:
 * all bytes hold what they held: 21; 44, a value does not fit its columns or would not be read back as it is (never for the table of an accepted delivery); 45,
 * fewer bytes were lent than are needed, and the answer says how many. A call with none asks for their number.
 */
EstelunyaWriteResult estelunya_write(
    const uint32_t *table, size_t table_len,
    uint8_t *text, size_t text_len);

/*
 * Arithmetic on operating days, inside a period of `n` days: no table is asked for. A field is the BIT_WORDS words that a table has after a bit field's
 * number: bits 0 and 1 are 1, bit d + 2 is day d, bits n + 2 and n + 3 are 1, the rest 0. The result is such a field again.
 *
 * Refused with 42: `n` is not 1 to MOST_PERIOD_DAYS; a field, or `result`, does not have exactly so many words; or a field's bits that are no days are not
 * those above. All words of `result` then hold what they held.
 */

/* The days of either. */
EstelunyaDaySetResult estelunya_days_union(
    uint32_t n,
    const uint32_t *first, size_t first_len,
    const uint32_t *second, size_t second_len,
    uint32_t *result, size_t result_len);

/* The days of both. */
EstelunyaDaySetResult estelunya_days_intersection(
    uint32_t n,
    const uint32_t *first, size_t first_len,
    const uint32_t *second, size_t second_len,
    uint32_t *result, size_t result_len);

/* The days of the first that the second has not. */
EstelunyaDaySetResult estelunya_days_difference(
    uint32_t n,
    const uint32_t *first, size_t first_len,
    const uint32_t *second, size_t second_len,
    uint32_t *result, size_t result_len);

/* The days of the period that the field has not. */
EstelunyaDaySetResult estelunya_days_complement(
    uint32_t n,
    const uint32_t *field, size_t field_len,
    uint32_t *result, size_t result_len);

/* How many days the field has. */
EstelunyaDayCountResult estelunya_days_count(
    uint32_t n,
    const uint32_t *field, size_t field_len);

#ifdef __cplusplus
}
#endif

#endif
