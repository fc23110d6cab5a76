/* Each promise of liquid.h that a caller can see, as rows. Exits with 0 if all hold.
 * It is linked with --wrap=malloc,--wrap=realloc,--wrap=free, so that blocks are counted and each growth
 * can be made to fail. */
#include "liquid.h"
#include <assert.h>
#include <stddef.h>
#include <stdio.h>
#include <stdlib.h>
#include <string.h>

#define ROOM 64

/* crates/liquid_c/src/page.rt has the same sizes. */
static_assert(sizeof(liquid_page) == 88, "liquid_page");
static_assert(sizeof(liquid_partial) == 32, "liquid_partial");
static_assert(sizeof(liquid_outcome) == 64, "liquid_outcome");

#ifdef __cplusplus
extern "C" {
#endif
void *__real_malloc(size_t size);
void *__real_realloc(void *block, size_t size);
void __real_free(void *block);
void *__wrap_malloc(size_t size);
void *__wrap_realloc(void *block, size_t size);
void __wrap_free(void *block);
#ifdef __cplusplus
}
#endif

static long growths, blocks, failing;

void *__wrap_malloc(size_t size) {
    void *block;
    if (++growths == failing) return NULL;
    block = __real_malloc(size);
    if (block) blocks++;
    return block;
}

void *__wrap_realloc(void *block, size_t size) {
    void *grown;
    if (++growths == failing) return NULL;
    grown = __real_realloc(block, size);
    if (grown && !block) blocks++;
    return grown;
}

void __wrap_free(void *block) {
    if (block) blocks--;
    __real_free(block);
}

static int failed;

static void check(int holds, const char *row, const char *what) {
    if (!holds) {
        failed++;
        printf("%s: %s\n", row, what);
    }
}

typedef struct {
    const char *name, *text, *globals;
    size_t partials;
    uint32_t options;
    uint64_t turns, bytes;
    size_t room;
    uint32_t kind, which;
    size_t partial, line, column, needed;
    const char *written, *message;
} row_type;

static const row_type rows[] = {
    {"empty", "", "{}", 0, 0, 0, 0, 0, LIQUID_OK, 0, 0, 0, 0, 0, "", ""},
    {"a value", "a{{ x }}c", "{\"x\": 7}", 0, 0, 0, 0, ROOM, LIQUID_OK, 0, 0, 0, 0, 3, "a7c", ""},
    {"no room", "a{{ x }}c", "{\"x\": 7}", 0, 0, 0, 0, 0, LIQUID_SHORT, 0, 0, 0, 0, 3, "", ""},
    {"little room", "a{{ x }}c", "{\"x\": 7}", 0, 0, 0, 0, 2, LIQUID_SHORT, 0, 0, 0, 0, 3, "a7", ""},
    {"just enough", "a{{ x }}c", "{\"x\": 7}", 0, 0, 0, 0, 3, LIQUID_OK, 0, 0, 0, 0, 3, "a7c", ""},
    {"names twice", "{{ x }}", "{\"x\": 1, \"x\": 2}", 0, 0, 0, 0, ROOM, LIQUID_OK, 0, 0, 0, 0, 1, "2", ""},
    {"unparsed", "a\n{% wrong %}", "{}", 0, 0, 0, 0, ROOM, LIQUID_UNPARSED, 0, 0, 2, 4, 0, "", NULL},
    {"no such filter", "ab{{ x | append: 1 }}", "{}", 0, 0, 0, 0, ROOM, LIQUID_UNPARSED, 0, 0, 1, 10, 0, "", NULL},
    {"unknown", "ab{{ x }}", "{}", 0, 0, 0, 0, ROOM, LIQUID_REFUSED, 0, 0, 1, 6, 2, "ab", NULL},
    {"unknown in a partial", "a\n{% include 'a' %}", "{}", 1, 0, 0, 0, ROOM, LIQUID_REFUSED, LIQUID_PARTIAL_TEXT, 0, 1, 5, 3, "a\n[", NULL},
    {"no such partial", "\n {% include 'c' %}", "{}", 1, 0, 0, 0, ROOM, LIQUID_REFUSED, 0, 0, 2, 5, 2, "\n ", NULL},
    {"bad JSON", "{{", "{\"a\": }", 2, 0, 0, 0, ROOM, LIQUID_BAD_JSON, LIQUID_GLOBALS, 0, 1, 7, 0, "", NULL},
    {"a list", "{{", "[1]", 2, 0, 0, 0, ROOM, LIQUID_NO_GLOBALS, 0, 0, 0, 0, 0, "", "liquid: Object cannot be an array.\n"},
    {"no template", "\xff", "\xff", 2, 0, 0, 0, ROOM, LIQUID_NO_TEXT, LIQUID_TEMPLATE, 0, 0, 0, 0, "", "liquid: the template is not UTF-8\n"},
    {"no text of JSON", "{{", "\"\xff\"", 2, 0, 0, 0, ROOM, LIQUID_NO_TEXT, LIQUID_GLOBALS, 0, 0, 0, 0, "", "liquid: the text of the globals is not UTF-8\n"},
    {"no partial", "{{", "{}", 2, 0, 0, 0, ROOM, LIQUID_NO_TEXT, LIQUID_PARTIAL_TEXT, 1, 0, 0, 0, "", "liquid: the text of partial 1 is not UTF-8\n"},
    {"a partial", "{% include 'a', y: x %}", "{\"x\": 1}", 1, 0, 0, 0, ROOM, LIQUID_OK, 0, 0, 0, 0, 3, "[1]", ""},
    {"the first of two faults", "{% include 'a', y: 1 %}", "{}", 4, 0, 0, 0, ROOM, LIQUID_NO_TEXT, LIQUID_PARTIAL_TEXT, 1, 0, 0, 0, "", NULL},
    {"sandboxed", "{% assign x = 2 %}{{ x }}", "{\"x\": 1}", 0, LIQUID_SANDBOXED, 0, 0, ROOM, LIQUID_OK, 0, 0, 0, 0, 1, "1", ""},
    {"a sandbox of the standard language", "{% assign x = 2 %}{{ x }}", "{\"x\": 1}", 0, LIQUID_SANDBOXED | LIQUID_STANDARD, 0, 0, ROOM, LIQUID_OK, 0, 0, 0, 0, 1, "2", ""},
    {"not sandboxed", "{% assign x = 2 %}{{ x }}", "{\"x\": 1}", 0, 0, 0, 0, ROOM, LIQUID_OK, 0, 0, 0, 0, 1, "2", ""},
    {"lenient", "<{{ no.such.name }}>", "{}", 0, LIQUID_LENIENT, 0, 0, ROOM, LIQUID_OK, 0, 0, 0, 0, 2, "<>", ""},
    {"decimals", "{{ x }}", "{\"x\": 1.50}", 0, LIQUID_DECIMALS, 0, 0, ROOM, LIQUID_OK, 0, 0, 0, 0, 4, "1.50", ""},
    {"no decimals", "{{ x }}", "{\"x\": 1.50}", 0, 0, 0, 0, ROOM, LIQUID_NO_GLOBALS, 0, 0, 0, 0, 0, "", "liquid: Fractional number\n"},
    {"standard", "{{ 'a' | upcase }}", "{}", 0, LIQUID_STANDARD, 0, 0, ROOM, LIQUID_OK, 0, 0, 0, 0, 1, "A", ""},
    {"standard tags", "{% for i in (1..3) reversed %}{% cycle 'a', 'b' %}{{ i }}{% endfor %}", "{}", 0, LIQUID_STANDARD, 0, 0, ROOM, LIQUID_OK, 0, 0, 0, 0, 6, "a3b2a1", ""},
    {"Jekyll's tags and filters", "{% include a y=1 %}{{ '/d e' | relative_url }}<{{ none[none].b }}>", "{\"site\": {\"baseurl\": \"/b\"}}", 1, LIQUID_JEKYLL, 0, 0, ROOM, LIQUID_OK, 0, 0, 0, 0, 12, "[]/b/d%20e<>", ""},
    {"no standard tags", "{% capture x %}{% endcapture %}", "{}", 0, 0, 0, 0, ROOM, LIQUID_UNPARSED, 0, 0, 1, 4, 0, "", NULL},
    {"all options but a moment", "{{ a | upcase }}", "{}", 0, 47, 0, 0, ROOM, LIQUID_OK, 0, 0, 0, 0, 0, "", ""},
    {"no option", "a", "{}", 0, 64, 0, 0, ROOM, LIQUID_NO_OPTIONS, 0, 0, 0, 0, 0, "", ""},
    {"all bits", "a", "{}", 0, UINT32_MAX, 0, 0, ROOM, LIQUID_NO_OPTIONS, 0, 0, 0, 0, 0, "", ""},
    {"turns", "{% for i in (1..3) %}{{ i }}{% endfor %}", "{}", 0, 0, 4, 0, ROOM, LIQUID_OK, 0, 0, 0, 0, 3, "123", ""},
    {"too many turns", "{% for i in (1..3) %}{{ i }}{% endfor %}", "{}", 0, 0, 2, 0, ROOM, LIQUID_REFUSED, 0, 0, 1, 4, 2, "12", NULL},
    {"bytes", "a{{ 7 }}bc", "{}", 0, 0, 0, 4, ROOM, LIQUID_OK, 0, 0, 0, 0, 4, "a7bc", ""},
    {"too many bytes", "a{{ 7 }}bc", "{}", 0, LIQUID_SANDBOXED, 0, 3, ROOM, LIQUID_REFUSED, 0, 0, 0, 0, 2, "a7", NULL},
};

static liquid_bytes of(const char *text) { return liquid_text(text); }

static uint8_t out[ROOM], message[256];
static liquid_outcome got;
static liquid_partial partials[4];

static liquid_page page_of(const row_type *row) {
    liquid_page page;
    partials[0].name = of("a"), partials[0].text = of("[{{ y }}]");
    partials[1].name = of("b"), partials[1].text = of("\x80");
    partials[2].name = of("a"), partials[2].text = of("({{ y }})");
    partials[3].name = of("a"), partials[3].text = of("");
    page.text = of(row->text), page.globals = of(row->globals);
    page.partials = partials, page.partial_count = row->partials;
    page.options = row->options, page.max_turns = row->turns, page.max_bytes = row->bytes;
    page.now = of(NULL);
    return page;
}

static void render(const row_type *row) {
    liquid_page page = page_of(row);
    size_t i;
    memset(out, '#', sizeof out);
    memset(&got, 0xff, sizeof got);
    blocks = 0;
    liquid_render(&page, out, row->room, message, sizeof message, &got);
    check(blocks == 0, row->name, "a block is left");
    check(got.written == (got.needed < row->room ? got.needed : row->room), row->name, "written");
    for (i = got.written; i < sizeof out; i++) check(out[i] == '#', row->name, "a byte after what was written");
}

/* The limit that stops the page of a row: no row has both. */
static uint32_t limit_of(const row_type *row) {
    if (row->kind != LIQUID_REFUSED || (!row->turns && !row->bytes)) return 0;
    return row->turns ? LIQUID_TURNS : LIQUID_BYTES;
}

static void try_row(const row_type *row) {
    size_t len = strlen(row->written);
    render(row);
    check(got.kind == row->kind, row->name, "kind");
    check(got.which == row->which, row->name, "which");
    check(got.partial == row->partial, row->name, "partial");
    check(got.line == row->line, row->name, "line");
    check(got.column == row->column, row->name, "column");
    check(got.limit == limit_of(row), row->name, "limit");
    check(got.needed == row->needed, row->name, "needed");
    check(got.written == len && !memcmp(out, row->written, len), row->name, "what was written");
    if (row->message) {
        len = strlen(row->message);
        check(got.message_len == len && !memcmp(message, row->message, len), row->name, "message");
    } else {
        check(got.message_len > 0 && message[got.message_len - 1] == '\n', row->name, "no message");
    }
}

/* Each growth fails in turn: the outcome is LIQUID_NO_MEMORY with a beginning of the page, or the page. */
static void try_growths(void) {
    static const row_type row = {"growths", "{% for i in (1..3) %}{% include 'a', y: i %}{% endfor %}{{ x | upcase }}",
                                 "{\"x\": [1, \"two\"]}", 1, LIQUID_STANDARD, 0, 0, ROOM, 0, 0, 0, 0, 0, 0, "", ""};
    static const char *whole = "[1][2][3]1TWO";
    long short_of_memory = 0;
    for (failing = 1;; failing++) {
        growths = 0;
        render(&row);
        if (growths < failing) break;
        check(got.kind == LIQUID_NO_MEMORY || got.kind == LIQUID_OK, row.name, "kind");
        check(got.kind == LIQUID_NO_MEMORY || got.written == strlen(whole), row.name, "the whole page");
        check(!memcmp(out, whole, got.written), row.name, "a beginning of the page");
        short_of_memory += got.kind == LIQUID_NO_MEMORY;
    }
    check(short_of_memory > 20, row.name, "too few");
    printf("growths that were made to fail: %ld, pages out of memory: %ld\n", failing - 1, short_of_memory);
    failing = 0;
}

/* The page over its own globals, others, and its own again: the first and the third outcome are those of liquid_render. */
static void try_turns(const row_type *row) {
    static uint8_t all[3 * ROOM];
    row_type whole = *row;
    liquid_page page;
    liquid_bytes globals[3];
    liquid_outcome each[3];
    size_t third;
    whole.room = ROOM;
    render(&whole);
    page = page_of(row);
    globals[0] = globals[2] = page.globals, globals[1] = of("{\"x\": [3], \"y\": {}}");
    page.globals = of("\xff");
    blocks = 0;
    liquid_render_each(&page, globals, 3, all, sizeof all, message, sizeof message, each, 3);
    third = each[0].written + each[1].written;
    check(blocks == 0, row->name, "a block is left after three turns");
    check(!memcmp(&each[0], &got, sizeof got) && !memcmp(all, out, got.written), row->name, "the first of three turns");
    check(!memcmp(&each[2], &got, sizeof got) && !memcmp(all + third, out, got.written), row->name, "the third of three turns");
}

/* Partials of one name, of no name, and of a name that is not UTF-8; and sizes of 0. */
static void try_names(void) {
    static const row_type row = {"names", "{% include 'a' %}{% include '' %}", "{}", 3, 0, 0, 0, ROOM, 0, 0, 0, 0, 0, 0, "", ""};
    liquid_page page = page_of(&row);
    partials[0].name = of(""), partials[0].text = of("none");
    partials[1].name = of("a"), partials[1].text = of("earlier");
    partials[2].name = of("a"), partials[2].text = of("later");
    liquid_render(&page, out, row.room, message, sizeof message, &got);
    check(got.kind == LIQUID_OK && got.written == 9 && !memcmp(out, "laternone", 9), row.name, "the later of two stays");
    partials[2].text = of("later\n{{ y }}");
    liquid_render(&page, out, row.room, message, sizeof message, &got);
    check(got.kind == LIQUID_REFUSED && got.which == LIQUID_PARTIAL_TEXT && got.partial == 2, row.name, "the later of two fails");
    check(got.line == 2 && got.column == 4, row.name, "where the later of two fails");
    partials[1].name = of("\xff");
    liquid_render(&page, out, row.room, message, sizeof message, &got);
    check(got.kind == LIQUID_NO_TEXT && got.which == LIQUID_PARTIAL_NAME && got.partial == 1, row.name, "not UTF-8");
    page.text = page.globals = liquid_bytes_of(NULL, 7);
    page.partial_count = 0;
    liquid_render(&page, out, 0, message, 0, &got);
    check(got.kind == LIQUID_BAD_JSON && got.needed == 0 && got.message_len > 0, row.name, "sizes of 0");
}

/* What the header makes of texts and of null pointers. */
static void try_texts(void) {
    static const char *name = "texts";
    liquid_page page = liquid_page_of(liquid_text("a{{ x }}c"), liquid_text("{\"x\": 7}"));
    liquid_bytes none = liquid_text(NULL);
    check(none.len == 0 && liquid_text("").len == 0, name, "an empty text");
    check(page.partial_count == 0 && page.options == 0, name, "no partials, no options");
    check(page.max_turns == 0 && page.max_bytes == 0, name, "no limits");
    liquid_render(&page, out, sizeof out, message, sizeof message, &got);
    check(got.kind == LIQUID_OK && got.written == 3 && !memcmp(out, "a7c", 3), name, "the page");
    page = liquid_page_of(none, liquid_text("{}"));
    liquid_render(&page, out, 0, message, 0, &got);
    check(got.kind == LIQUID_OK && got.needed == 0, name, "a template of a null pointer");
}

/* Null pointers with a count of 0, wherever a call takes a pointer with a count. */
static void try_nulls(void) {
    static const char *name = "null pointers";
    liquid_page page = {{NULL, 0}, {NULL, 0}, NULL, 0, LIQUID_STANDARD, 0, 0, {NULL, 0}};
    const liquid_partial parts[] = {{{NULL, 0}, liquid_text("empty")}, {liquid_text("a"), {NULL, 0}}, {liquid_text("b"), liquid_text("B")}};
    liquid_bytes globals[3] = {{NULL, 0}, liquid_text("{}"), {NULL, 0}};
    liquid_outcome each[3];
    size_t whole;
    liquid_render(&page, NULL, 0, NULL, 0, &got);
    check(got.kind == LIQUID_BAD_JSON && got.message_len > 0, name, "globals");
    page.globals = of("{}");
    liquid_render(&page, NULL, 0, NULL, 0, &got);
    check(got.kind == LIQUID_OK && got.needed == 0, name, "a template");
    page.text = of("{% include '' %}{% include 'a' %}{% include 'b' %}");
    page.partials = parts, page.partial_count = 3;
    blocks = 0;
    liquid_render(&page, out, sizeof out, NULL, 0, &got);
    check(got.kind == LIQUID_OK && got.written == 6 && !memcmp(out, "emptyB", 6), name, "partials");
    whole = liquid_render_each(&page, globals, 3, out, sizeof out, NULL, 0, each, 3);
    check(whole == 1 && each[0].kind == LIQUID_BAD_JSON && each[1].kind == LIQUID_OK && each[2].kind == LIQUID_BAD_JSON, name, "each");
    check(blocks == 0, name, "a block is left");
    check(liquid_render_each(&page, NULL, 0, NULL, 0, NULL, 0, NULL, 0) == 0, name, "nothing");
    for (failing = 1; failing < 3; failing++) {
        growths = 0;
        liquid_render(&page, out, sizeof out, NULL, 0, &got);
        check(got.kind == LIQUID_NO_MEMORY && got.written == 0 && got.message_len == 0, name, "no memory");
        growths = 0;
        each[0].kind = each[2].kind = UINT32_MAX;
        whole = liquid_render_each(&page, globals, 3, out, sizeof out, NULL, 0, each, 2);
        check(whole == 0 && each[0].kind == LIQUID_NO_MEMORY && each[2].kind == UINT32_MAX, name, "no memory for each");
        check(blocks == 0, name, "a block is left without memory");
    }
    failing = 0;
}

/* Which limit stops a page that has both. */
static void try_limits(void) {
    static const struct { uint64_t turns, bytes; uint32_t limit; } limits[] = {
        {3, 100, LIQUID_TURNS}, {100, 5, LIQUID_BYTES}, {4, 5, LIQUID_BYTES}, {3, 6, LIQUID_TURNS}, {4, 6, 0}, {0, 0, 0}};
    liquid_page page = liquid_page_of(liquid_text("{% for i in (1..3) %}{{ i }}.{% endfor %}"), liquid_text("{}"));
    size_t i;
    for (i = 0; i < sizeof limits / sizeof limits[0]; i++) {
        page.max_turns = limits[i].turns, page.max_bytes = limits[i].bytes;
        liquid_render(&page, out, sizeof out, message, sizeof message, &got);
        check(got.limit == limits[i].limit && got.kind == (got.limit ? LIQUID_REFUSED : LIQUID_OK), "limits", "which of both");
    }
}

typedef struct {
    const char *name, *now, *text;
    uint32_t options, kind;
    const char *written;
} moment_type;

static const char *const no_moment = "liquid: now is not a date or a date time\n";
static const char *const clock_text = "{{ 'now' | date: '%Y-%m-%d %H:%M:%S %z' }}";

static const moment_type moments[] = {
    {"a date time", "2024-02-29 04:05:06 +0100", clock_text, LIQUID_STANDARD | LIQUID_NOW, LIQUID_OK, "2024-02-29 04:05:06 +0100"},
    {"a date time of RFC 3339", "2024-02-29T23:30:00-05:30", clock_text, LIQUID_STANDARD | LIQUID_NOW, LIQUID_OK, "2024-02-29 23:30:00 -0530"},
    {"a date", "2024-02-29", clock_text, LIQUID_STANDARD | LIQUID_NOW, LIQUID_OK, "2024-02-29 00:00:00 +0000"},
    {"a date in words", "Thu, 29 Feb 2024 04:05:06 GMT", clock_text, LIQUID_STANDARD | LIQUID_NOW, LIQUID_OK, "2024-02-29 04:05:06 +0000"},
    {"seconds since 1970", "86400", clock_text, LIQUID_STANDARD | LIQUID_NOW, LIQUID_OK, "1970-01-02 00:00:00 +0000"},
    {"today", "2024-02-29 04:05", "{{ 'today' | date: '%e %B' }}", LIQUID_STANDARD | LIQUID_NOW, LIQUID_OK, "29 February"},
    {"no moment", "2024-02-29", clock_text, LIQUID_STANDARD, LIQUID_OK, "now"},
    {"a bad moment that is not asked for", "x", clock_text, LIQUID_STANDARD, LIQUID_OK, "now"},
    {"no filters", "2024-02-29", "a", LIQUID_NOW, LIQUID_OK, "a"},
    {"all options", "2024-02-29", "{{ 'now' | date: '%F' }}", 63, LIQUID_OK, "2024-02-29"},
    {"a day that no calendar has", "2023-02-29", "{{", LIQUID_STANDARD | LIQUID_NOW, LIQUID_NO_MOMENT, ""},
    {"words", "in a while", "{{", LIQUID_STANDARD | LIQUID_NOW, LIQUID_NO_MOMENT, ""},
    {"now is now", "now", "{{", LIQUID_STANDARD | LIQUID_NOW, LIQUID_NO_MOMENT, ""},
    {"not UTF-8", "2024-02-29\xff", "\xff", LIQUID_STANDARD | LIQUID_NOW, LIQUID_NO_MOMENT, ""},
    {"no text", "", "a", LIQUID_STANDARD | LIQUID_NOW, LIQUID_NO_MOMENT, ""},
    {"a null pointer", NULL, "a", LIQUID_STANDARD | LIQUID_NOW, LIQUID_NO_MOMENT, ""},
    {"a bad moment without filters", "x", "a", LIQUID_NOW, LIQUID_NO_MOMENT, ""},
    {"a bad moment with unknown options", "x", "a", 64 | LIQUID_NOW, LIQUID_NO_OPTIONS, ""},
};

/* The moment of a page, by one call and by a call over many globals. */
static void try_moment(const moment_type *row) {
    static uint8_t all[2 * ROOM];
    liquid_page page = liquid_page_of(of(row->text), of("{}"));
    liquid_bytes globals[2];
    liquid_outcome each[2];
    size_t len = strlen(row->written), said = row->kind == LIQUID_NO_MOMENT ? strlen(no_moment) : 0, whole;
    page.options = row->options, page.now = of(row->now);
    globals[0] = globals[1] = page.globals;
    blocks = 0;
    memset(message, '#', sizeof message);
    liquid_render(&page, out, sizeof out, message, sizeof message, &got);
    check(got.kind == row->kind, row->name, "kind");
    check(got.written == len && got.needed == len && !memcmp(out, row->written, len), row->name, "what was written");
    check(got.message_len == said && !memcmp(message, no_moment, said) && message[said] == '#', row->name, "message");
    check(!got.which && !got.partial && !got.line && !got.column && !got.limit, row->name, "place");
    memset(message, '#', sizeof message);
    whole = liquid_render_each(&page, globals, 2, all, sizeof all, message, sizeof message, each, 2);
    check(whole == (row->kind == LIQUID_OK ? 2 : 0), row->name, "how many are whole");
    check(!memcmp(&each[0], &got, sizeof got) && !memcmp(&each[1], &got, sizeof got), row->name, "each outcome");
    check(!memcmp(all, row->written, len) && !memcmp(all + len, row->written, len), row->name, "each page");
    check(!memcmp(message, no_moment, said) && message[said] == '#', row->name, "message of each");
    check(blocks == 0, row->name, "a block is left");
}

/* Each growth fails in turn while a moment is read. */
static void try_growths_of_moments(void) {
    static const char *name = "growths of a moment", *now = "2024-02-29 04:05:06 +0100";
    liquid_page page = liquid_page_of(of(clock_text), of("{}"));
    page.options = LIQUID_STANDARD | LIQUID_NOW, page.now = of(now);
    for (failing = 1;; failing++) {
        growths = blocks = 0;
        liquid_render(&page, out, sizeof out, message, sizeof message, &got);
        check(blocks == 0, name, "a block is left");
        check(got.kind == LIQUID_NO_MEMORY || (got.kind == LIQUID_OK && got.written == strlen(now)), name, "kind");
        check(!memcmp(out, now, got.written), name, "a beginning of the page");
        if (growths < failing) break;
    }
    check(got.kind == LIQUID_OK && failing > 20, name, "too few");
    failing = 0;
}

/* A page of a program for version 2 of the header ends before its moment, and nothing after it is read. */
static void try_earlier_page(void) {
    static const char *name = "a page of version 2";
    liquid_page whole = liquid_page_of(of(clock_text), of("{}"));
    liquid_page *page = (liquid_page *)__real_malloc(offsetof(liquid_page, now));
    check(page != NULL && offsetof(liquid_page, now) == 72, name, "its size");
    if (!page) return;
    whole.options = LIQUID_STANDARD;
    memcpy(page, &whole, offsetof(liquid_page, now));
    liquid_render(page, out, sizeof out, message, sizeof message, &got);
    check(got.kind == LIQUID_OK && got.written == 3 && !memcmp(out, "now", 3), name, "the page");
    page->options = UINT32_MAX;
    liquid_render(page, out, sizeof out, message, sizeof message, &got);
    check(got.kind == LIQUID_NO_OPTIONS, name, "all bits");
    __real_free(page);
}

/* One template over many globals, with as many outcomes and less room than they want. */
static void try_each(void) {
    static const row_type row = {"each", "{% include 'a', y: x %}", "\xff", 1, 0, 0, 0, 9, 0, 0, 0, 0, 0, 0, "", ""};
    liquid_bytes globals[4];
    liquid_outcome each[4];
    liquid_page page = page_of(&row);
    size_t whole;
    globals[0] = of("{\"x\": 1}"), globals[1] = of("{}"), globals[2] = of("{"), globals[3] = of("{\"x\": \"seven\"}");
    memset(out, '#', sizeof out);
    memset(each, 0xff, sizeof each);
    blocks = 0;
    whole = liquid_render_each(&page, globals, 4, out, row.room, message, sizeof message, each, 4);
    check(blocks == 0, row.name, "a block is left");
    check(whole == 1, row.name, "how many are whole");
    check(each[0].kind == LIQUID_OK && each[1].kind == LIQUID_REFUSED && each[2].kind == LIQUID_BAD_JSON, row.name, "kinds");
    check(each[3].kind == LIQUID_SHORT && each[3].needed == 7 && each[3].written == 6 - each[1].written, row.name, "short");
    check(!memcmp(out, "[1]", 3) && out[9] == '#', row.name, "out");
    memset(each, 0xff, sizeof each);
    whole = liquid_render_each(&page, globals, 4, out, sizeof out, message, sizeof message, each, 1);
    check(whole == 1 && each[0].kind == LIQUID_OK && each[1].kind == UINT32_MAX, row.name, "fewer outcomes");
    whole = liquid_render_each(&page, globals, 0, out, sizeof out, message, 0, each, 0);
    check(whole == 0, row.name, "no globals");
    page.options = 64;
    whole = liquid_render_each(&page, globals, 2, out, sizeof out, message, sizeof message, each, 4);
    check(whole == 0 && each[0].kind == LIQUID_NO_OPTIONS && each[1].kind == LIQUID_NO_OPTIONS, row.name, "no options");
    check(each[0].needed == 0 && each[0].written == 0 && each[2].kind == UINT32_MAX, row.name, "nothing written");
}

/* Each growth fails in turn while three pages are rendered: a page that isn't whole is out of memory. */
static void try_growths_of_each(void) {
    static const row_type row = {"growths of each", "{% include 'a', y: x %}", "", 1, LIQUID_STANDARD, 0, 0, ROOM, 0, 0, 0, 0, 0, 0, "", ""};
    static const char *pages[] = {"[1]", "[two]", "[1]"};
    liquid_bytes globals[3];
    liquid_outcome each[3];
    liquid_page page = page_of(&row);
    size_t i, place, whole, kinds;
    globals[0] = globals[2] = of("{\"x\": 1}"), globals[1] = of("{\"x\": \"two\"}");
    for (failing = 1;; failing++) {
        growths = blocks = 0;
        whole = liquid_render_each(&page, globals, 3, out, sizeof out, message, sizeof message, each, 3);
        check(blocks == 0, row.name, "a block is left");
        for (i = place = kinds = 0; i < 3; place += each[i].written, i++) {
            check(each[i].kind == LIQUID_NO_MEMORY || (each[i].kind == LIQUID_OK && each[i].needed == strlen(pages[i])), row.name, "kind");
            check(!memcmp(out + place, pages[i], each[i].written), row.name, "a beginning of the page");
            kinds += each[i].kind == LIQUID_OK;
        }
        check(kinds == whole, row.name, "how many are whole");
        if (growths < failing) break;
    }
    check(whole == 3 && failing > 60, row.name, "too few");
    printf("growths of three pages that were made to fail: %ld\n", failing - 1);
    failing = 0;
}

int main(void) {
    size_t i;
    check(liquid_version() == LIQUID_VERSION, "version", "another");
    for (i = 0; i < sizeof rows / sizeof rows[0]; i++) {
        try_row(&rows[i]);
        try_turns(&rows[i]);
    }
    try_names();
    try_texts();
    try_nulls();
    try_limits();
    for (i = 0; i < sizeof moments / sizeof moments[0]; i++) try_moment(&moments[i]);
    try_growths_of_moments();
    try_earlier_page();
    try_each();
    try_growths();
    try_growths_of_each();
    printf("c: %zu rows, %d failed\n", sizeof rows / sizeof rows[0] + sizeof moments / sizeof moments[0], failed);
    return failed != 0;
}
