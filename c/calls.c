/* The calls of the header, which allow null pointers with a count of 0. The part of the library that is written in Rattle
 * takes none, so each call hands on other pointers in their place. */
#include "internal.h"
#include <stddef.h>

/* What an empty array points to. */
static liquid_outcome nothing;

/* A page without null pointers, and the partials that were copied for it, if any were. */
typedef struct {
    liquid_page page;
    liquid_partial *copied;
} whole_page;

static const void *at_or_nothing(const void *at, size_t count) { return at || count ? at : &nothing; }

static void *room_or_nothing(void *at, size_t count) { return at || count ? at : &nothing; }

static int is_null(liquid_bytes bytes) { return !bytes.at && !bytes.len; }

static liquid_bytes pointed(liquid_bytes bytes) {
    bytes.at = (const uint8_t *)at_or_nothing(bytes.at, bytes.len);
    return bytes;
}

/* Copies the partials if one of them has a null pointer. Returns 0 if there is no memory for it. */
static int copy_partials(whole_page *made) {
    const liquid_partial *given = made->page.partials;
    size_t i, count = made->page.partial_count;
    for (i = 0; i < count && !is_null(given[i].name) && !is_null(given[i].text); i++) {}
    if (i == count) return 1;
    made->copied = (liquid_partial *)liquid_memory_alloc(count * sizeof *given);
    if (!made->copied) return 0;
    for (i = 0; i < count; i++) {
        made->copied[i].name = pointed(given[i].name);
        made->copied[i].text = pointed(given[i].text);
    }
    made->page.partials = made->copied;
    return 1;
}

/* Copies a page. Without LIQUID_NOW it may be of a program for version 2 of the header, and end before its moment. */
static liquid_page copy_page(const liquid_page *page) {
    liquid_page copy;
    int has_moment = page->options < 2 * LIQUID_JEKYLL && (page->options & LIQUID_NOW);
    size_t size = has_moment ? sizeof copy : offsetof(liquid_page, now);
    copy.now = liquid_bytes_of(NULL, 0);
    memcpy(&copy, page, size);
    copy.now = pointed(copy.now);
    return copy;
}

/* Makes a page without null pointers. Returns 0 if there is no memory for it. */
static int make_whole(const liquid_page *page, whole_page *made) {
    made->page = copy_page(page);
    made->copied = NULL;
    made->page.text = pointed(page->text);
    made->page.globals = pointed(page->globals);
    made->page.partials = (const liquid_partial *)at_or_nothing(page->partials, page->partial_count);
    return copy_partials(made);
}

/* Copies the globals if one of them has a null pointer, into *copied. Returns 0 if there is no memory for it. */
static int copy_globals(const liquid_bytes **globals, size_t count, liquid_bytes **copied) {
    size_t i;
    *copied = NULL;
    for (i = 0; i < count && !is_null((*globals)[i]); i++) {}
    if (i == count) return 1;
    *copied = (liquid_bytes *)liquid_memory_alloc(count * sizeof **copied);
    if (!*copied) return 0;
    for (i = 0; i < count; i++) (*copied)[i] = pointed((*globals)[i]);
    *globals = *copied;
    return 1;
}

static liquid_outcome out_of_memory(void) {
    liquid_outcome outcome = nothing;
    outcome.kind = LIQUID_NO_MEMORY;
    return outcome;
}

void liquid_render(const liquid_page *page,
                   uint8_t *out, size_t out_len,
                   uint8_t *message, size_t message_len,
                   liquid_outcome *outcome) {
    whole_page made;
    out = (uint8_t *)room_or_nothing(out, out_len);
    message = (uint8_t *)room_or_nothing(message, message_len);
    if (make_whole(page, &made)) {
        liquid_core_render(&made.page, out, out_len, message, message_len, outcome);
    } else {
        *outcome = out_of_memory();
    }
    liquid_memory_free(made.copied);
}

size_t liquid_render_each(const liquid_page *page,
                          const liquid_bytes *globals, size_t globals_count,
                          uint8_t *out, size_t out_len,
                          uint8_t *message, size_t message_len,
                          liquid_outcome *outcomes, size_t outcome_count) {
    whole_page made;
    liquid_bytes *copied = NULL;
    size_t i, whole = 0;
    globals = (const liquid_bytes *)at_or_nothing(globals, globals_count);
    out = (uint8_t *)room_or_nothing(out, out_len);
    message = (uint8_t *)room_or_nothing(message, message_len);
    outcomes = (liquid_outcome *)room_or_nothing(outcomes, outcome_count);
    if (make_whole(page, &made) && copy_globals(&globals, globals_count, &copied)) {
        whole = liquid_core_render_each(&made.page, globals, globals_count, out, out_len, message, message_len, outcomes, outcome_count);
    } else {
        for (i = 0; i < globals_count && i < outcome_count; i++) outcomes[i] = out_of_memory();
    }
    liquid_memory_free(copied);
    liquid_memory_free(made.copied);
    return whole;
}
