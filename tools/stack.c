/*
 * stack.c: how deep a load goes on the stack. Each delivery is loaded on a thread whose stack is memory of this program's own, filled with a mark before;
 * the lowest byte that is no longer the mark says how deep it went. Status 1 if a load goes deeper than is said, or than it should.
 *
 *     stack MOST_BYTES
 *
 * The deliveries: the least that is accepted, the largest service that 13 allows, and a ZUGART whose codes fall, so that repeats are sought by passes. tools/planner.sh makes
 * it over the archive that is shipped, and runs it.
 */
#define _GNU_SOURCE
#include <pthread.h>
#include <stdint.h>
#include <stdio.h>
#include <stdlib.h>
#include <string.h>

#include "estelunya.h"

enum { STACK = 256 * 1024, WORDS = 16384, TEXT = 65536, MARK = 0xA5, CALLS = 200, RANGES = 50 };

static const char eckdaten[] = "01.12.2025\n07.12.2025\nStack\n";
static const char bahnhof[] = "1000011     A\n1000022     B\n";
static const char umsteigb[] = "9999999  2  3\n";
static const char one_class[] = "BAT  4   0 BAT      0 B\n";

typedef struct Case {
    const char *name;
    const char *fplan;
    const char *zugart;
    EstelunyaLoadResult result;
    uintptr_t top;
} Case;

static uint32_t table[WORDS];
static uint32_t helper[WORDS];

static void *run(void *given) {
    Case *c = given;
    char here = 0;
    c->top = (uintptr_t)&here;
    c->result = estelunya_load(
        (const uint8_t *)eckdaten, strlen(eckdaten), (const uint8_t *)"", 0, (const uint8_t *)bahnhof, strlen(bahnhof),
        (const uint8_t *)umsteigb, strlen(umsteigb), (const uint8_t *)c->fplan, strlen(c->fplan),
        (const uint8_t *)c->zugart, strlen(c->zugart), table, WORDS, helper, WORDS);
    return NULL;
}

static size_t depth_of(Case *c) {
    uint8_t *stack = NULL;
    size_t low = 0;
    pthread_attr_t attributes;
    pthread_t thread;
    if (posix_memalign((void **)&stack, 65536, STACK) != 0) exit(2);
    memset(stack, MARK, STACK);
    if (pthread_attr_init(&attributes) != 0 || pthread_attr_setstack(&attributes, stack, STACK) != 0) exit(2);
    if (pthread_create(&thread, &attributes, run, c) != 0 || pthread_join(thread, NULL) != 0) exit(2);
    while (low < STACK && stack[low] == MARK) low++;
    low = (size_t)(c->top - (uintptr_t)(stack + low));
    free(stack);
    return low;
}

/* A line of FPLAN: 59 columns, the last of them "%". */
static char *line(char *to, const char *first, int second_column, const char *second, int third_column, const char *third) {
    memset(to, ' ', 58);
    to[58] = '%';
    to[59] = '\n';
    memcpy(to, first, strlen(first));
    memcpy(to + second_column - 1, second, strlen(second));
    memcpy(to + third_column - 1, third, strlen(third));
    return to + 60;
}

static char *ranges(char *to, const char *kind, int from_column, int i) {
    char from[16], end[16];
    sprintf(from, "#%d", 4 * i);
    sprintf(end, "#%d", 4 * i + 4 < CALLS - 1 ? 4 * i + 4 : CALLS - 1);
    return line(to, kind, from_column, from, from_column + 8, end);
}

/* As many calls and ranges as one service may have. */
static void largest(char *to) {
    char arrival[16], departure[16];
    to = line(to, "*Z 00042 FERRY_", 59, "%", 59, "%");
    for (int i = 0; i < RANGES; i++) {
        to = ranges(to, "*G BAT", 8, i);
        to = ranges(to, "*A VE", 7, i);
        to = ranges(to, "*A BR", 7, i);
        to = ranges(to, "*A BW", 7, i);
    }
    for (int i = 0; i < CALLS; i++) {
        sprintf(arrival, " %03d%02d", 2 * i / 60, 2 * i % 60);
        sprintf(departure, " %03d%02d", (2 * i + 1) / 60, (2 * i + 1) % 60);
        to = line(to, i % 2 == 0 ? "1000011" : "1000022", 30, arrival, 37, departure);
    }
    *to = 0;
}

/* Categories of falling codes. */
static void falling(char *to) {
    for (char first = 'Z'; first >= 'A'; first--) {
        memcpy(to, one_class, strlen(one_class));
        to[0] = first;
        to += strlen(one_class);
    }
    *to = 0;
}

int main(int words, char **word) {
    static char service[TEXT], classes[TEXT];
    Case cases[3] = {
        {"no service", "", "", {0}, 0},
        {"the largest service", service, one_class, {0}, 0},
        {"falling codes", "", classes, {0}, 0},
    };
    size_t most = words == 2 ? (size_t)atol(word[1]) : 0, deepest = 0;
    largest(service);
    falling(classes);
    for (int i = 0; i < 3; i++) {
        size_t depth = depth_of(&cases[i]);
        printf("  stack: %s: %zu bytes\n", cases[i].name, depth);
        if (cases[i].result.number != 0) {
            printf("stack: refused %u\n", (unsigned)cases[i].result.number);
            return 1;
        }
        if (deepest < depth) deepest = depth;
    }
    if (most < deepest) {
        printf("stack: a load goes %zu bytes deep, over %zu\n", deepest, most);
        return 1;
    }
    return 0;
}
