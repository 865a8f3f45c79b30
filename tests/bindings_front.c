// A library in front of the archive, which tests/bindings makes: it has the functions of pethuvazh.h and passes each call on to the
// archive, whose functions have other names here. The bindings are linked with it, to see what they make of rare answers:
// - BINDINGS_CALLS names a file, which gets a line for each call: the flags, -1 for lines; the lengths of the input, of the room and of the
//   text; the status; how many allocations there were so far.
// - BINDINGS_FAIL is a number: that allocation fails.
// - BINDINGS_ANSWER is a status, `:` and a text, with which each call ends.
#include "pethuvazh.h"
#include <stdio.h>
#include <stdlib.h>
#include <string.h>

uint32_t archive_report_into(const uint8_t *, size_t, uint32_t, uint8_t *, size_t, size_t *);
uint32_t archive_answer_into(const uint8_t *, size_t, uint8_t *, size_t, size_t *);

// These are of no other object, so that the archive alone calls them.
void *front_malloc(size_t);
void *front_realloc(void *, size_t);

static long allocations;

static int fails(void) {
    const char *number = getenv("BINDINGS_FAIL");
    allocations++;
    return number != NULL && strtol(number, NULL, 10) == allocations;
}

void *front_malloc(size_t size) { return fails() ? NULL : malloc(size); }

void *front_realloc(void *old, size_t size) { return fails() ? NULL : realloc(old, size); }

// Ends a call as BINDINGS_ANSWER says. Returns whether it says so.
static int is_answered(uint32_t *status, uint8_t *text, size_t room, size_t *length) {
    const char *answer = getenv("BINDINGS_ANSWER");
    if (answer == NULL) return 0;
    char *rest;
    *status = (uint32_t)strtoul(answer, &rest, 10);
    *length = strlen(rest + 1);
    if (*length <= room) memcpy(text, rest + 1, *length);
    return 1;
}

static uint32_t noted(long flags, size_t input, size_t room, size_t length, uint32_t status) {
    const char *name = getenv("BINDINGS_CALLS");
    FILE *file = name == NULL ? NULL : fopen(name, "a");
    if (file == NULL) return status;
    fprintf(file, "%ld %zu %zu %zu %u %ld\n", flags, input, room, length, (unsigned)status, allocations);
    fclose(file);
    return status;
}

uint32_t pethuvazh_report_into(const uint8_t *json, size_t json_length, uint32_t flags, uint8_t *text, size_t room, size_t *length) {
    uint32_t status;
    if (!is_answered(&status, text, room, length)) status = archive_report_into(json, json_length, flags, text, room, length);
    return noted((long)flags, json_length, room, *length, status);
}

uint32_t pethuvazh_answer_into(const uint8_t *lines, size_t lines_length, uint8_t *text, size_t room, size_t *length) {
    uint32_t status;
    if (!is_answered(&status, text, room, length)) status = archive_answer_into(lines, lines_length, text, room, length);
    return noted(-1, lines_length, room, *length, status);
}
