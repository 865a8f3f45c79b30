// Tries the calls of pethuvazh.h on buffers of seven sizes near that of the text, and with allocations that fail: tests/bindings links it
// with the archive and --wrap for malloc, realloc and free, and gives it a module on standard input. It prints a line 'passed' or
// 'failed WHAT' for each check.
#include "pethuvazh.h"
#include <stdio.h>
#include <stdlib.h>
#include <string.h>

#ifdef TWICE
// A second copy of the archive, whose functions have other names.
uint32_t other_report_into(const uint8_t *, size_t, uint32_t, uint8_t *, size_t, size_t *);
uint32_t other_answer_into(const uint8_t *, size_t, uint8_t *, size_t, size_t *);
#endif

enum { MOST = 1 << 20, BEFORE = 0xa5, MOST_LINES = 1048576 };
static uint8_t input[MOST], buffer[4 * MOST], whole[4 * MOST], lines[MOST_LINES + 1];
static size_t input_length;

void *__real_malloc(size_t);
void *__real_realloc(void *, size_t);
void __real_free(void *);

// How many blocks are in use, and which allocation fails next; 0 for none.
static long live, left;
static int has_failed;

static int fails(void) {
    if (left == 0 || --left > 0) return 0;
    return has_failed = 1;
}

void *__wrap_malloc(size_t size) {
    void *at = fails() ? NULL : __real_malloc(size);
    live += at != NULL;
    return at;
}

void *__wrap_realloc(void *old, size_t size) {
    void *at = fails() ? NULL : __real_realloc(old, size);
    live += old == NULL && at != NULL;
    return at;
}

void __wrap_free(void *at) {
    live -= at != NULL;
    __real_free(at);
}

static void check(int is_fine, const char *what, unsigned long number) {
    if (is_fine) printf("passed\n");
    else printf("failed %s %lu\n", what, number);
}

static int is_untouched(size_t from, size_t to) {
    while (from < to && buffer[from] == BEFORE) from++;
    return from >= to;
}

// A call with this much room: of a report, or where flags are negative of answers to lines.
static uint32_t call(long flags, size_t room, size_t *length) {
    memset(buffer, BEFORE, sizeof buffer);
    *length = 77;
    if (flags < 0) return pethuvazh_answer_into(input, input_length, buffer, room, length);
    return pethuvazh_report_into(input, input_length, (uint32_t)flags, buffer, room, length);
}

// The text is written exactly where it fits, and nothing else is.
static void try_rooms(long flags) {
    size_t length, found;
    uint32_t status = call(flags, sizeof buffer, &length);
    memcpy(whole, buffer, length);
    check(length > 0 && whole[length - 1] == '\n' && is_untouched(length, sizeof buffer), "a large buffer", length);
    size_t rooms[] = {0, 1, length / 2, length - 1, length, length + 1, length + 4096};
    for (size_t index = 0; index < sizeof rooms / sizeof *rooms; index++) {
        size_t room = rooms[index];
        int is_same = call(flags, room, &found) == status && found == length;
        if (room < length) check(is_same && is_untouched(0, sizeof buffer), "a buffer without room", room);
        else check(is_same && memcmp(buffer, whole, length) == 0 && is_untouched(length, sizeof buffer), "a buffer with room", room);
    }
}

// Each allocation fails in turn: then there is no text, no block is left, and nothing is written.
static void try_failures(long flags) {
    size_t wanted, length;
    uint32_t status = call(flags, sizeof buffer, &wanted);
    memcpy(whole, buffer, wanted);
    long number = 0;
    int is_fine = 1;
    for (has_failed = 1; has_failed && is_fine;) {
        has_failed = 0;
        left = ++number;
        uint32_t ended = call(flags, sizeof buffer, &length);
        left = 0;
        int is_whole = ended == status && length == wanted && memcmp(buffer, whole, wanted) == 0;
        int is_none = ended == PETHUVAZH_OUT_OF_MEMORY && length == 0 && is_untouched(0, sizeof buffer);
        is_fine = live == 0 && (is_whole || (has_failed && is_none));
    }
    check(is_fine && number > 1, "an allocation that fails", (unsigned long)number);
}

static void try_flags(void) {
    size_t length;
    for (int bit = 19; bit < 32; bit++) {
        uint32_t status = call(1L << bit, sizeof buffer, &length);
        check(status == PETHUVAZH_BAD_FLAGS && length == 0 && is_untouched(0, sizeof buffer), "a bit that is no flag", (unsigned long)bit);
    }
    for (int bit = 8; bit < 16; bit += 2) {
        uint32_t status = call(3L << bit, sizeof buffer, &length);
        int is_fine = status == PETHUVAZH_BAD_FLAGS && length == 0 && is_untouched(0, sizeof buffer);
        check(is_fine, "both policies of a kind", (unsigned long)bit);
    }
}

static void try_lines(void) {
    size_t length;
    memset(lines, '\n', sizeof lines);
    memset(buffer, BEFORE, sizeof buffer);
    uint32_t status = pethuvazh_answer_into(lines, MOST_LINES + 1, buffer, sizeof buffer, &length);
    check(status == PETHUVAZH_TOO_LONG && length == 0 && is_untouched(0, sizeof buffer), "lines that are too long", 0);
    status = pethuvazh_answer_into(lines, MOST_LINES, buffer, sizeof buffer, &length);
    check(status == PETHUVAZH_BAD_LINE && length == 11 && memcmp(buffer, "bad line 1\n", 11) == 0, "as many lines as may be", 0);
    status = pethuvazh_answer_into(lines, 0, buffer, sizeof buffer, &length);
    check(status == PETHUVAZH_ANSWERED && length == 0, "no lines", 0);
}

#ifdef TWICE
static void try_other(void) {
    size_t length, other;
    for (uint32_t flags = 0; flags < 256; flags++) {
        uint32_t status = call(flags, sizeof buffer, &length);
        memcpy(whole, buffer, length);
        memset(buffer, BEFORE, sizeof buffer);
        uint32_t found = other_report_into(input, input_length, flags, buffer, sizeof buffer, &other);
        check(status == found && length == other && memcmp(buffer, whole, length) == 0, "the other copy", flags);
    }
    uint32_t status = call(-1, sizeof buffer, &length);
    memcpy(whole, buffer, length);
    uint32_t found = other_answer_into(input, input_length, buffer, sizeof buffer, &other);
    check(status == found && length == other && memcmp(buffer, whole, length) == 0, "the other copy, lines", 0);
}
#endif

int main(void) {
    input_length = fread(input, 1, sizeof input, stdin);
    long flags[] = {0, PETHUVAZH_FOR_PEOPLE, -1};
    for (size_t index = 0; index < sizeof flags / sizeof *flags; index++) {
        try_rooms(flags[index]);
        try_failures(flags[index]);
    }
    try_flags();
    try_lines();
#ifdef TWICE
    try_other();
#endif
    check(live == 0, "blocks that are left", (unsigned long)live);
    return 0;
}
