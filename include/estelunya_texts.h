/*
 * A sentence for each refusal, for people; docs/REFUSALS.md says how to mend what is refused. They are those of the planner's crate (planner/src/refusal.rs):
 * tools/drift.sh holds them together. There is nothing of them in the archive.
 */
#ifndef ESTELUNYA_TEXTS_H
#define ESTELUNYA_TEXTS_H

#include <stdint.h>

/* Why a delivery is refused, by the number of a load. A number that no load answers has the empty text. */
static inline const char *estelunya_offence_text(uint32_t number) {
    switch (number) {
    case 1: return "the file has more than 16,777,216 bytes";
    case 2: return "a line is missing: ECKDATEN needs three lines, UMSTEIGB at least the record of 9999999";
    case 3: return "ECKDATEN has more than three lines";
    case 4: return "the line does not have its form";
    case 5: return "there is no such date, or the period ends before it starts or has more than 380 days";
    case 6: return "an earlier line of the same file has this number, or this code";
    case 7: return "this number cannot stand here: 000000, a stop 9999999 or ending 00000, or a first record that is not 9999999";
    case 8: return "the frame is wrong: two bits 1 before and two after the days of the period, then 0";
    case 9: return "the stop is not in BAHNHOF";
    case 10: return "the bit field is not in BITFELD";
    case 11: return "a line of this kind is not taken";
    case 12: return "no *Z or *T line has opened a service yet";
    case 13: return "the service has over 200 calls, 50 *G, 50 *A VE or 100 other *A lines";
    case 14: return "the service has fewer than two calls";
    case 15: return "a time of this call is missing, or earlier than the time before it";
    case 16: return "an end of this range is not on the route, or its ends stand in the wrong order";
    case 17: return "a leg of the service does not have exactly one *G line";
    case 18: return "a leg of the service does not have exactly one *A VE line";
    case 19: return "on some day the service runs on two or more separate stretches";
    case 20: return "the delivery is right, but the table lent is too short for it";
    case 37: return "a tariff group is missing or alone: all categories have one, or none";
    case 38: return "the category is not in ZUGART";
    case 39: return "the name field is no list of names with their patterns, such as Genf$<d>$Geneva$<e>";
    case 51: return "the helper words lent are too few for the lines of BITFELD, BAHNHOF and UMSTEIGB";
    default: return "";
    }
}

/*
 * Why a question, or arithmetic on operating days, is refused, by its number; 38 and 39 mean something else here than for a load. A number that no question answers
 * has the empty text.
 */
static inline const char *estelunya_refusal_text(uint32_t number) {
    switch (number) {
    case 21: return "the words are not a table";
    case 22: return "there is no such date";
    case 23: return "the date is outside the period";
    case 24: return "the service index is not below the number of services";
    case 25: return "the service has no run of this number";
    case 26: return "a class is over 13";
    case 27: return "the stop is not in the table";
    case 28: return "there is no such bit field in the table";
    case 29: return "the words lent are too few";
    case 31: return "the bit field of a leg is not in the table";
    case 33: return "a leg does not have exactly one category";
    case 34: return "a leg does not have exactly one range of operating days";
    case 35: return "on that day the service runs on two or more separate stretches";
    case 36: return "a time that the run needs is missing, or earlier than the one before it";
    case 38: return "the category is not in the table";
    case 39: return "the name field of the stop is no list of names";
    case 40: return "there is no such language or type";
    case 41: return "the names of the stop are not inside the bytes of BAHNHOF given";
    case 42: return "the words are not a bit field with the frame of the period";
    case 43: return "the words are not this table's index";
    case 44: return "a value of the table does not fit its columns of FPLAN, or would not be read back as it is";
    case 45: return "the bytes lent are too few for the text";
    case 46: return "a connection has 1 to 10 whole parts";
    case 47: return "the boarding or the alighting call is not among the rows of that day";
    case 48: return "boarding is not before alighting, or one of them is forbidden there";
    case 49: return "the part boards at another stop than the one before it alights at";
    case 50: return "the wait is shorter than the interchange time";
    default: return "";
    }
}

#endif
