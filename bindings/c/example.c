/* Prints the report on the module on standard input, or the replies to lines: see USAGE. */
#define _POSIX_C_SOURCE 200809L
#include "pethuvazh.h"
#include <errno.h>
#include <stdio.h>
#include <stdlib.h>
#include <string.h>
#include <unistd.h>

#define USAGE                                                                                         \
    "usage: example [-l | -f FLAGS] < INPUT\n"                                                        \
    "  -f FLAGS  reports on a module by a sum of the flags of pethuvazh.h, in decimal or after 0x\n"  \
    "  -l        answers lines with questions about types\n"                                          \
    "  -h        prints this\n"

/* The exit statuses of `report` that the library has none for. */
enum { BAD_USAGE = 2, READ_FAILED = 3, WRITE_FAILED = 4 };

/* A text in a buffer of its own. */
struct text {
    uint8_t *bytes;
    size_t room, length;
};

/* What is asked: a report by its flags, or replies to lines. */
struct question {
    int is_lines;
    uint32_t flags;
};

/* Reads a file to its end. Returns 0, or an exit status. */
static int read_all(FILE *file, struct text *input) {
    for (;;) {
        if (input->length == input->room) {
            size_t room = input->room == 0 ? 1 << 16 : 2 * input->room;
            uint8_t *larger = realloc(input->bytes, room);
            if (larger == NULL) return PETHUVAZH_OUT_OF_MEMORY;
            input->bytes = larger;
            input->room = room;
        }
        size_t count = fread(input->bytes + input->length, 1, input->room - input->length, file);
        if (count == 0) return ferror(file) ? READ_FAILED : 0;
        input->length += count;
    }
}

/* Gives a text as much room, whose bytes have no value yet. Returns whether there is so much memory. */
static int has_room(struct text *text, size_t room) {
    free(text->bytes);
    text->bytes = malloc(room);
    text->room = text->bytes == NULL ? 0 : room;
    return text->bytes != NULL;
}

static uint32_t call(struct question asked, const struct text *input, struct text *text) {
    if (asked.is_lines) return pethuvazh_answer_into(input->bytes, input->length, text->bytes, text->room, &text->length);
    return pethuvazh_report_into(input->bytes, input->length, asked.flags, text->bytes, text->room, &text->length);
}

/* Answers an input. If there is no memory for the text, it is empty and the status says so. */
static uint32_t answer(struct question asked, const struct text *input, struct text *text) {
    /* A text is seldom longer. Memory that is never written costs nothing. */
    if (!has_room(text, 4096 + 8 * input->length) && !has_room(text, 4096)) return PETHUVAZH_OUT_OF_MEMORY;
    uint32_t status = call(asked, input, text);
    if (text->length <= text->room) return status;
    size_t wanted = text->length;
    text->length = 0;
    return has_room(text, wanted) ? call(asked, input, text) : PETHUVAZH_OUT_OF_MEMORY;
}

/* Reads a number of 32 bits. Returns whether the word is one. */
static int is_number(const char *word, uint32_t *number) {
    char *end;
    errno = 0;
    unsigned long value = strtoul(word, &end, 0);
    *number = (uint32_t)value;
    return word[0] >= '0' && word[0] <= '9' && *end == '\0' && errno == 0 && value <= UINT32_MAX;
}

/* Reads the arguments. Returns whether they are right; getopt, or this, has said what is wrong. */
static int is_asked(int count, char **words, struct question *asked) {
    int has_flags = 0;
    for (int letter; (letter = getopt(count, words, "f:lh")) != -1;) {
        if (letter == 'h') {
            fputs(USAGE, stdout);
            exit(0);
        }
        if (letter == '?') return 0;
        if (letter == 'l') asked->is_lines = 1;
        else if (is_number(optarg, &asked->flags)) has_flags = 1;
        else return fprintf(stderr, "%s: `%s` is no number of 32 bits\n", words[0], optarg), 0;
    }
    if (optind < count) return fprintf(stderr, "%s: `%s` is one argument too many\n", words[0], words[optind]), 0;
    if (has_flags && asked->is_lines) return fprintf(stderr, "%s: -l takes no flags\n", words[0]), 0;
    return 1;
}

int main(int count, char **words) {
    struct question asked = {0, 0};
    struct text input = {NULL, 0, 0}, text = {NULL, 0, 0};
    if (!is_asked(count, words, &asked)) {
        fputs(USAGE, stderr);
        return BAD_USAGE;
    }
    int status = read_all(stdin, &input);
    if (status == READ_FAILED) fprintf(stderr, "%s: standard input: %s\n", words[0], strerror(errno));
    if (status == 0) status = (int)answer(asked, &input, &text);
    if (text.length > 0 && fwrite(text.bytes, 1, text.length, stdout) < text.length) status = WRITE_FAILED;
    if (fflush(stdout) != 0) status = WRITE_FAILED;
    if (status == WRITE_FAILED) fprintf(stderr, "%s: standard output: %s\n", words[0], strerror(errno));
    else if (text.length == 0 && status != 0 && status != READ_FAILED) {
        const char *why = asked.is_lines ? pethuvazh_lines_status_text((uint32_t)status) : pethuvazh_report_status_text((uint32_t)status);
        fprintf(stderr, "%s: %s\n", words[0], why);
    }
    free(text.bytes);
    free(input.bytes);
    return status;
}
