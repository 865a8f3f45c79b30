/* The reports of the program `report` and the answers of the program `typer`, in the process.
 *
 * Link libpethuvazh.a, which bindings/build makes. It calls malloc, realloc, free, memcpy, memmove and memset of the C
 * library, and nothing else. It has no state: calls may run at the same time, in any thread, but not in a signal
 * handler. It is built for x86-64-v2, with a size_t of 64 bits.
 *
 * Each call writes a text into the caller's buffer and its length into *length. If the text is longer than the buffer,
 * it isn't written and the buffer stays as it was: call again with room for *length bytes. After the text the buffer
 * stays as it was, and no NUL is written.
 *
 * No pointer is NULL, even if a length is 0. The buffer and *length overlap neither each other nor the input. Each
 * pointer points to as many bytes as its length says, at most PTRDIFF_MAX.
 *
 * options.json has the numbers of this header for other languages; tests/bindings compares all of them. */
#ifndef PETHUVAZH_H
#define PETHUVAZH_H

#include <stddef.h>
#include <stdint.h>

#ifdef __cplusplus
extern "C" {
#endif

/* The version of this header and of the library that was built with it. */
#define PETHUVAZH_VERSION "0.3.0"

#if defined(__cplusplus) && __cplusplus >= 201103L
static_assert(sizeof(size_t) == 8, "libpethuvazh.a has lengths of 64 bits");
#elif defined(__STDC_VERSION__) && __STDC_VERSION__ >= 201112L
_Static_assert(sizeof(size_t) == 8, "libpethuvazh.a has lengths of 64 bits");
#else
typedef char pethuvazh_has_lengths_of_64_bits[sizeof(size_t) == 8 ? 1 : -1];
#endif

/* The results of pethuvazh_report_into, which are the exit statuses of `report`. */
enum pethuvazh_report_status {
    PETHUVAZH_ACCEPTED = 0,      /* a module without a fault, with a layout for each type; the text is the report on it */
    PETHUVAZH_REFUSED = 1,       /* a module with a fault, or with a type without a layout; the text is the report on it */
    PETHUVAZH_BAD_FLAGS = 2,     /* a bit is set that is no flag, or both policies of a kind are; *length is 0 */
    PETHUVAZH_OUT_OF_MEMORY = 5, /* malloc or realloc failed; *length is 0; also of pethuvazh_answer_into */
    PETHUVAZH_NOT_MODULE = 6     /* the input is no module; the text says why */
};

/* The flags of a report: the sum of some of these, or 0. */
enum pethuvazh_flag {
    PETHUVAZH_NO_CONTROL_FLOW_UNIFORMITY = 1,   /* doesn't check uniform control flow; --uniformity=off */
    PETHUVAZH_NON_UNIFORM_TEXTURES = 2,         /* arrays of sampled textures and samplers may be indexed by non-uniform values */
    PETHUVAZH_NON_UNIFORM_STORAGE_TEXTURES = 4, /* the same of arrays of storage textures */
    PETHUVAZH_FOR_PEOPLE = 8,                   /* reports as text, and not as one line of JSON */
    PETHUVAZH_NAGA_UNIFORMITY = 16,             /* checks uniform control flow as naga specifies it; --uniformity=naga; without effect
                                                   together with PETHUVAZH_NO_CONTROL_FLOW_UNIFORMITY */
    PETHUVAZH_DRAWING = 32,                     /* draws structs in the text; --drawing */
    PETHUVAZH_RESOURCES = 64,                   /* reports the resources of entry points, inputs and outputs; --resources */
    PETHUVAZH_BOUNDS_CHECKS = 128,              /* reports what a back end checks of indexes; --bounds-checks */
    /* Policies of bounds checks, as naga's. Each implies PETHUVAZH_BOUNDS_CHECKS. An access without a policy is unchecked. */
    PETHUVAZH_INDEX_RESTRICT = 1 << 8,
    PETHUVAZH_INDEX_READ_ZERO_SKIP_WRITE = 2 << 8,
    PETHUVAZH_BUFFER_RESTRICT = 1 << 10,
    PETHUVAZH_BUFFER_READ_ZERO_SKIP_WRITE = 2 << 10,
    PETHUVAZH_IMAGE_LOAD_RESTRICT = 1 << 12,
    PETHUVAZH_IMAGE_LOAD_READ_ZERO_SKIP_WRITE = 2 << 12,
    PETHUVAZH_BINDING_ARRAY_RESTRICT = 1 << 14,
    PETHUVAZH_BINDING_ARRAY_READ_ZERO_SKIP_WRITE = 2 << 14,
    /* More in the text. */
    PETHUVAZH_ALL_STRUCTS = 1 << 16, /* declares structs with the layouts of their members; --all-structs */
    PETHUVAZH_EXPLAIN = 1 << 17,     /* what codes mean, and why results of entry points may differ; --explain */
    PETHUVAZH_ALL = 1 << 18          /* all errors, causes, entry points and globals; --all */
};

/* Reports on a module, which `json` has as JSON: `json_length` bytes of UTF-8, as serde_json prints a naga 30 Module.
 * The text is that of the program `report --json`, or with PETHUVAZH_FOR_PEOPLE that of `report`. The result is an
 * enum pethuvazh_report_status. */
uint32_t pethuvazh_report_into(const uint8_t *json, size_t json_length, uint32_t flags, uint8_t *text, size_t room, size_t *length);

/* The results of pethuvazh_answer_into, which are the exit statuses of `typer`. */
enum pethuvazh_lines_status {
    PETHUVAZH_ANSWERED = 0, /* each line has a reply */
    PETHUVAZH_BAD_LINE = 2, /* a line isn't a question; the text ends with its number */
    PETHUVAZH_TOO_LONG = 6  /* the lines have more than 1,048,576 bytes; *length is 0 */
};

/* Answers lines with questions about types, as "call Max u32 AbstractInt\n". The text is that of the program `typer`.
 * The result is an enum pethuvazh_lines_status, or PETHUVAZH_OUT_OF_MEMORY. */
uint32_t pethuvazh_answer_into(const uint8_t *lines, size_t lines_length, uint8_t *text, size_t room, size_t *length);

/* Returns the meaning of a result of pethuvazh_report_into. Any other number is of a library of another version. */
static inline const char *pethuvazh_report_status_text(uint32_t status) {
    switch (status) {
        case PETHUVAZH_ACCEPTED: return "the module is accepted";
        case PETHUVAZH_REFUSED: return "the module is refused";
        case PETHUVAZH_BAD_FLAGS: return "a bit is set that is no flag, or both policies of a kind of access are";
        case PETHUVAZH_OUT_OF_MEMORY: return "out of memory";
        case PETHUVAZH_NOT_MODULE: return "the input is no module";
        default: return "a status that this version of pethuvazh.h doesn't know";
    }
}

/* Returns the meaning of a result of pethuvazh_answer_into. */
static inline const char *pethuvazh_lines_status_text(uint32_t status) {
    switch (status) {
        case PETHUVAZH_ANSWERED: return "each line has a reply";
        case PETHUVAZH_BAD_LINE: return "a line isn't a question";
        case PETHUVAZH_OUT_OF_MEMORY: return "out of memory";
        case PETHUVAZH_TOO_LONG: return "the lines have more than 1,048,576 bytes";
        default: return "a status that this version of pethuvazh.h doesn't know";
    }
}

#ifdef __cplusplus
}
#endif
#endif
