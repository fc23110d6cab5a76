/* liquid.h: Liquid templates, rendered by liquid_core.
 *
 * A call is a function of its arguments. It keeps nothing between calls, opens no file, prints nothing,
 * starts no thread and never ends the process. What it allocates, by malloc, realloc and free, is freed
 * before it returns. It keeps no pointer.
 *
 * What the caller owes, since nothing checks it here:
 *  1. Each pointer, those in structs too, is aligned for its type, and points to as many items as its count says,
 *     or to one if it has no count. They are at most PTRDIFF_MAX bytes. A pointer with a count of 0 may be null, and
 *     no other.
 *  2. During the call nobody writes to page, globals and what they point to. out, message and outcome (outcomes)
 *     overlap neither one another nor these, and nobody else reads or writes them. What they hold before the
 *     call does not matter.
 *  3. malloc, realloc and free are of one allocator. It aligns a block to each power of two up to 16 that
 *     divides its size, as every allocator of C does.
 *  4. No call is made from a signal handler, nor in the forked child of a process with threads.
 *  5. 1 MB of stack is free, for templates as deep as the limits allow.
 *  6. The processor has the instructions of x86-64-v2.
 * What the bytes are is not the caller's to check: any bytes, any options and any limits have an outcome.
 *
 * Calls may run in several threads at once, each with an out, a message and an outcome of its own.
 */
#ifndef LIQUID_H
#define LIQUID_H

#include <stddef.h>
#include <stdint.h>
#include <string.h>

#ifdef __cplusplus
extern "C" {
#endif

#define LIQUID_VERSION 4

/* Bytes of the caller's. No zero byte ends them. */
typedef struct liquid_bytes {
    const uint8_t *at; /* may be null if len is 0 */
    size_t len;
} liquid_bytes;

/* A partial, for {% include %} and {% render %}. Of two of one name the later stays. */
typedef struct liquid_partial {
    liquid_bytes name;
    liquid_bytes text;
} liquid_partial;

/* The options of a page: none of these (0), or some of them, joined by |. */
enum {
    LIQUID_SANDBOXED = 1, /* the globals are the data of a sandbox: what the template assigns goes nowhere. A
                             template of standard Liquid or of Jekyll sees it until the page ends */
    LIQUID_LENIENT = 2,   /* a name or an index without a value is nil instead of an error */
    LIQUID_STANDARD = 4,  /* the template has the tags, blocks and filters of standard Liquid; without it, the few
                             tags and blocks of liquid_tags, and no filters */
    LIQUID_DECIMALS = 8,  /* a number of the globals with a fraction is a decimal: a string of its digits, with which
                             the standard filters calculate exactly. Without it, it is LIQUID_NO_GLOBALS */
    LIQUID_NOW = 16,      /* the page has the member now, which is the moment that "now" and "today" are for the filter
                             date. Without it, the member is not read, and they are no dates */
    LIQUID_JEKYLL = 32    /* the template and the partials are as Jekyll's authors write them, in Jekyll's language: the tags,
                             blocks and filters of standard Liquid and Jekyll's. A missing name is nil, as with
                             LIQUID_LENIENT, and so is a value with an index that is not a scalar. LIQUID_STANDARD
                             changes nothing beside it */
};

typedef struct liquid_page {
    liquid_bytes text;              /* the template */
    liquid_bytes globals;           /* a JSON object: its members are the names that the template sees */
    const liquid_partial *partials; /* may be null if there are none */
    size_t partial_count;
    uint32_t options;
    /* A page that takes more turns of tags and blocks, or writes more bytes, is stopped, and ends as
     * LIQUID_REFUSED. A loop takes a turn for each item and one for its end. 0 means no limit. */
    uint64_t max_turns;
    uint64_t max_bytes;
    /* With LIQUID_NOW, a date or a date time in any form that the filter date reads, such as "2026-11-30 08:05 +0200".
     * A page of a program for version 2 of this header ends before this member. */
    liquid_bytes now;
} liquid_page;

/* The kinds of an outcome. Of several errors it is that of the first, in this order: the options are known; with
 * LIQUID_NOW, now is a date or a date time; the template is UTF-8; the globals are UTF-8, JSON, and an object of values;
 * each partial's name and text are UTF-8; the template is read; it is rendered. */
enum {
    LIQUID_OK = 0,         /* the whole page was rendered, and is in out */
    LIQUID_UNPARSED = 1,   /* the template can't be read: nothing was rendered */
    LIQUID_REFUSED = 2,    /* rendering ended early: what was rendered before is in out. If a limit stopped it,
                              outcome.limit says which */
    LIQUID_BAD_JSON = 3,   /* the globals are not JSON */
    LIQUID_NO_GLOBALS = 4, /* the JSON is not an object, or has a number that is not a whole one of 64 bits, nor, with
                              LIQUID_DECIMALS, a decimal */
    LIQUID_NO_TEXT = 5,    /* a text is not UTF-8: outcome.which says which */
    LIQUID_NO_MEMORY = 6,  /* malloc or realloc failed: a beginning of the page is in out */
    LIQUID_SHORT = 7,      /* the whole page was rendered, but is longer than out: its beginning is in out */
    LIQUID_NO_OPTIONS = 8, /* there are no such options: nothing was read */
    LIQUID_NO_MOMENT = 9   /* now is not a date or a date time, or not UTF-8: nothing else was read */
};

/* outcome.which: the text that is not UTF-8, or that has the place of the error. */
enum { LIQUID_TEMPLATE = 0, LIQUID_GLOBALS = 1, LIQUID_PARTIAL_NAME = 2, LIQUID_PARTIAL_TEXT = 3 };

/* outcome.limit, if a limit of the page stopped it. */
enum { LIQUID_TURNS = 1, LIQUID_BYTES = 2 };

typedef struct liquid_outcome {
    uint32_t kind;
    uint32_t which;
    size_t partial;     /* LIQUID_PARTIAL_NAME and LIQUID_PARTIAL_TEXT: the number of the partial, from 0 */
    size_t line;        /* where the error is in that text (the template, the globals or a partial), from 1; */
    size_t column;      /* 0 if it has no place. Columns count characters, but bytes in JSON. With LIQUID_JEKYLL they are
                           those of the text with quotes, which Jekyll's authors leave out */
    size_t needed;      /* how many bytes were rendered */
    size_t written;     /* how many of them are in out: the smaller of needed and out_len */
    size_t message_len; /* how many bytes the text of the error has; message has the first of them. 0 if there is no
                           error, or no memory for its text */
    uint32_t limit;     /* the limit that stopped the page, or 0 */
} liquid_outcome;

/* Renders a page into out, and writes all of *outcome. out[written] and what comes after it stay as they
 * were. message gets the text of the error, as far as it has room: lines, each with a line feed at its end.
 * The same page is rendered alike each time, unless memory runs out, so after LIQUID_SHORT a call with needed
 * bytes of room has the whole page. */
void liquid_render(const liquid_page *page,
                   uint8_t *out, size_t out_len,
                   uint8_t *message, size_t message_len,
                   liquid_outcome *outcome);

/* Renders the page over each text of globals in turn, as far as there are outcomes. page->globals is not read.
 * The template and the partials are read once. The pages are in out one after another: each begins where the
 * written bytes of those before it end, and has the room that they left. outcomes[i] is that of globals[i], and
 * outcomes that are left over stay as they were. message gets the text of the last error, as far as it has room.
 * Returns how many pages are whole and in out, which are those whose outcome is LIQUID_OK. */
size_t liquid_render_each(const liquid_page *page,
                          const liquid_bytes *globals, size_t globals_count,
                          uint8_t *out, size_t out_len,
                          uint8_t *message, size_t message_len,
                          liquid_outcome *outcomes, size_t outcome_count);

/* Renders a page as liquid_render does, but the call holds at most max_memory bytes at any moment; 0 means no limit.
 * Where it would hold more, memory runs out: the page ends as LIQUID_NO_MEMORY. A block counts with 40 bytes more
 * than its size, for what malloc takes beside it, and with both sizes while it grows. The caller's memory doesn't
 * count. This count is kept in C, and is not proved: what is proved is how a page ends if an allocation fails. */
void liquid_render_within(const liquid_page *page, size_t max_memory,
                          uint8_t *out, size_t out_len,
                          uint8_t *message, size_t message_len,
                          liquid_outcome *outcome);

/* Renders the page over each text of globals, as liquid_render_each does. The whole call has one limit. */
size_t liquid_render_each_within(const liquid_page *page, size_t max_memory,
                                 const liquid_bytes *globals, size_t globals_count,
                                 uint8_t *out, size_t out_len,
                                 uint8_t *message, size_t message_len,
                                 liquid_outcome *outcomes, size_t outcome_count);

/* Returns the LIQUID_VERSION that the library was built for. */
uint32_t liquid_version(void);

/* Returns 1 if the library was proved before it was built, and 0 if it was built without a proof
 * (./liquid c --unproved). */
uint32_t liquid_proved(void);

/* Returns the bytes at a pointer; none for a null pointer. */
static inline liquid_bytes liquid_bytes_of(const void *at, size_t len) {
    liquid_bytes bytes;
    bytes.at = (const uint8_t *)at;
    bytes.len = at ? len : 0;
    return bytes;
}

/* Returns the bytes of a C string, without the zero byte that ends it; none for a null pointer. */
static inline liquid_bytes liquid_text(const char *text) {
    return liquid_bytes_of(text, text ? strlen(text) : 0);
}

/* Returns a page with a template and globals, and with no partials, no options, no limits and no moment, for the caller
 * to add. */
static inline liquid_page liquid_page_of(liquid_bytes text, liquid_bytes globals) {
    liquid_page page;
    page.text = text;
    page.globals = globals;
    page.partials = NULL;
    page.partial_count = 0;
    page.options = 0;
    page.max_turns = 0;
    page.max_bytes = 0;
    page.now = liquid_bytes_of(NULL, 0);
    return page;
}

#ifdef __cplusplus
}
#endif
#endif
