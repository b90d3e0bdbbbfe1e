/*
 * A whole program in C: loads a delivery, makes its index, asks the name of its last call's stop, and walks its first service on 05.12.2025 and 06.12.2025.
 *
 *     cc -Iinclude include/example.c -Llib -lestelunya -o example
 *     ./example [DIRECTORY]
 *
 * Without a directory it takes the sample delivery, document 01's trial week, from the repository's root. tools/planner.sh makes it, runs it, and holds what it
 * writes to include/example.txt. Its status is 0 for accepted, 1 for refused, 2 for whatever else is wrong.
 */
#include <stdio.h>
#include <stdlib.h>
#include <string.h>

#include "estelunya.h"
#include "estelunya_texts.h"

typedef struct File {
    uint8_t *bytes;
    size_t length;
} File;

/* A table, the index that was made of it, and the bytes of BAHNHOF that were loaded with it: the three stay together. */
typedef struct Loaded {
    const uint32_t *table;
    size_t words;
    const uint32_t *index;
    size_t index_words;
    const File *bahnhof;
} Loaded;

/* In the order in which a load is given them. */
enum { ECKDATEN, BITFELD, BAHNHOF, UMSTEIGB, FPLAN, ZUGART, FILES };
static const char *const names[FILES] = {"ECKDATEN", "BITFELD", "BAHNHOF", "UMSTEIGB", "FPLAN", "ZUGART"};

static void *lent(size_t items, size_t size) {
    /* one more, so that nothing is not null */
    void *memory = calloc(items + 1, size);
    if (memory == NULL) {
        fputs("out of memory\n", stderr);
        exit(2);
    }
    return memory;
}

static File file_read(const char *directory, const char *name) {
    File file = {NULL, 0};
    long length = -1;
    char *path = lent(strlen(directory) + strlen(name) + 1, 1);
    FILE *stream;
    sprintf(path, "%s/%s", directory, name);
    stream = fopen(path, "rb");
    if (stream != NULL && fseek(stream, 0, SEEK_END) == 0) length = ftell(stream);
    if (length >= 0) {
        rewind(stream);
        file.bytes = lent((size_t)length, 1);
        file.length = fread(file.bytes, 1, (size_t)length, stream);
    }
    if (length < 0 || file.length != (size_t)length) {
        fprintf(stderr, "unread %s\n", path);
        exit(2);
    }
    fclose(stream);
    free(path);
    return file;
}

static EstelunyaLoadResult load(const File *files, uint32_t *table, size_t table_len, uint32_t *helper, size_t helper_len) {
    return estelunya_load(
        files[ECKDATEN].bytes, files[ECKDATEN].length, files[BITFELD].bytes, files[BITFELD].length,
        files[BAHNHOF].bytes, files[BAHNHOF].length, files[UMSTEIGB].bytes, files[UMSTEIGB].length,
        files[FPLAN].bytes, files[FPLAN].length, files[ZUGART].bytes, files[ZUGART].length,
        table, table_len, helper, helper_len);
}

/* A time of a row, if its flag is set. */
static const char *clock_text(char *text, const uint32_t *row, size_t at, uint32_t flag) {
    if ((row[ESTELUNYA_ROW_FLAGS_AT] & flag) == 0) return "  -  ";
    sprintf(text, "%02u:%02u", (unsigned)(row[at] / 60), (unsigned)(row[at] % 60));
    return text;
}

static void show_name(const Loaded *of, uint32_t stop) {
    const File *bahnhof = of->bahnhof;
    EstelunyaNameResult name =
        estelunya_quick_stop_name(of->table, of->words, of->index, of->index_words, bahnhof->bytes, bahnhof->length, stop, 'e', 0);
    if (name.number != 0) {
        printf("refused %u: %s", (unsigned)name.number, estelunya_refusal_text(name.number));
    } else {
        fwrite(bahnhof->bytes + name.start, 1, name.length, stdout);
    }
}

/* The run itself of the first service, on a day of a month of 2025. */
static void walk(const Loaded *of, uint32_t day, uint32_t month) {
    static uint32_t rows[ESTELUNYA_MOST_ROW_WORDS];
    EstelunyaWalkResult walked = estelunya_quick_walk(
        of->table, of->words, of->index, of->index_words, 0, 0, day, month, 2025, rows, ESTELUNYA_MOST_ROW_WORDS);
    const uint32_t *row = rows;
    printf("on %02u.%02u.2025: ", (unsigned)day, (unsigned)month);
    if (walked.number != 0) {
        printf("refused %u: %s\n", (unsigned)walked.number, estelunya_refusal_text(walked.number));
        return;
    }
    if (walked.rows == 0) {
        puts("not running");
        return;
    }
    printf("%u calls\n", (unsigned)walked.rows);
    for (; row < rows + ESTELUNYA_ROW_WORDS * walked.rows; row += ESTELUNYA_ROW_WORDS) {
        char arrival[32], departure[32];
        printf("  %s %s ", clock_text(arrival, row, ESTELUNYA_ROW_ARRIVAL_AT, ESTELUNYA_ARRIVAL),
               clock_text(departure, row, ESTELUNYA_ROW_DEPARTURE_AT, ESTELUNYA_DEPARTURE));
        printf("%07u ", (unsigned)row[ESTELUNYA_ROW_STOP_AT]);
        show_name(of, row[ESTELUNYA_ROW_STOP_AT]);
        putchar('\n');
    }
}

/* The number of the stop at the last call of the first service, read from the words of the table. */
static uint32_t last_stop(const uint32_t *table) {
    const uint32_t *stops = table + ESTELUNYA_HEADER_WORDS + ESTELUNYA_BIT_FIELD_WORDS * (size_t)table[ESTELUNYA_BIT_FIELDS_AT];
    const uint32_t *service = table + table[ESTELUNYA_FIRST_SERVICE_AT];
    const uint32_t *call = service + ESTELUNYA_SERVICE_WORDS + ESTELUNYA_CALL_WORDS * (size_t)(service[ESTELUNYA_CALLS_AT] - 1);
    return stops[ESTELUNYA_STOP_WORDS * (size_t)call[ESTELUNYA_CALL_PLACE_AT] + ESTELUNYA_STOP_NUMBER_AT];
}

static void ask(const Loaded *of) {
    const uint32_t *table = of->table;
    if (table[ESTELUNYA_SERVICES_AT] == 0) {
        puts("no services");
        return;
    }
    printf("service %05u ends at ", (unsigned)table[table[ESTELUNYA_FIRST_SERVICE_AT] + ESTELUNYA_NUMBER_AT]);
    show_name(of, last_stop(table));
    putchar('\n');
    walk(of, 5, 12);
    walk(of, 6, 12);
    walk(of, 31, 11);
}

/* Makes the index, once after the load, and asks by it. */
static void ask_by_index(const uint32_t *table, size_t words, const File *bahnhof) {
    /* An index lent no words says how many it needs: 29. */
    size_t needed = estelunya_index(table, words, NULL, 0).words;
    uint32_t *index = lent(needed, sizeof *index);
    Loaded of;
    of.table = table;
    of.words = words;
    of.index = index;
    of.index_words = estelunya_index(table, words, index, needed).words;
    of.bahnhof = bahnhof;
    ask(&of);
    free(index);
}

int main(int count, char **words) {
    const char *directory = count > 1 ? words[1] : "crates/ferry/data";
    File files[FILES];
    uint32_t *table, *helper;
    size_t room, at;
    EstelunyaLoadResult loaded;

    if (estelunya_version() != ESTELUNYA_VERSION) {
        fprintf(stderr, "the archive is of version %u, and this program was built for %u\n", (unsigned)estelunya_version(),
                (unsigned)ESTELUNYA_VERSION);
        return 2;
    }
    for (at = 0; at < FILES; at++) files[at] = file_read(directory, names[at]);

    room = estelunya_room(files[BITFELD].length, files[BAHNHOF].length, files[UMSTEIGB].length, files[FPLAN].length, files[ZUGART].length);
    table = lent(room, sizeof *table);
    /* A load without helper words says how many it needs: 51. */
    loaded = load(files, NULL, 0, NULL, 0);
    helper = lent(loaded.words, sizeof *helper);
    if (loaded.number == 51) loaded = load(files, table, room, helper, loaded.words);

    if (loaded.number == 0) {
        printf("accepted: %u words, and %lu are enough\n", (unsigned)loaded.words, (unsigned long)room);
        ask_by_index(table, loaded.words, &files[BAHNHOF]);
    } else {
        printf("refused %u file %u line %u column %lu: %s\n", (unsigned)loaded.number, (unsigned)loaded.file, (unsigned)loaded.line,
               (unsigned long)loaded.column, estelunya_offence_text(loaded.number));
    }
    free(helper);
    free(table);
    for (at = 0; at < FILES; at++) free(files[at].bytes);
    return loaded.number == 0 ? 0 : 1;
}
