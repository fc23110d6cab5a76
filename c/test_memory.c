/* The limit of memory, as rows of hostile texts. Each is rendered in a process of its own, whose peak of memory as
 * the system counts it is at most the limit and 4 MB. Afterwards the same thread renders a page whole. Exits with 0 if
 * all hold. With the word 'uncounted' the peak is not looked at, since tools that watch memory take some too. */
#include "liquid.h"
#include <pthread.h>
#include <stdatomic.h>
#include <stdio.h>
#include <stdlib.h>
#include <string.h>
#include <sys/resource.h>
#include <sys/wait.h>
#include <unistd.h>

#define MB ((size_t)1 << 20)
#define TURNS 500

/* A text of parts: a beginning, a part over and over, and an end. */
typedef struct {
    const char *begin, *part;
    size_t parts;
    const char *end;
} text_type;

typedef struct {
    const char *name;
    text_type text, globals;
    size_t limit;
    uint32_t kind;
} row_type;

static const row_type rows[] = {
    {"append that doubles", {"{% assign x = 'ab' %}", "{% assign x = x | append: x %}", 60, ""}, {"{}", "", 0, ""}, 8, 6},
    {"the same with more", {"{% assign x = 'ab' %}", "{% assign x = x | append: x %}", 60, ""}, {"{}", "", 0, ""}, 64, 6},
    {"append by steps",
     {"{% assign x = '' %}{% for i in (1..100000) %}{% assign x = x | append: '", "0123456789", 100, "' %}{% endfor %}"},
     {"{}", "", 0, ""}, 2, 6},
    {"replace that squares", {"{% assign x = 'aaaaaaaa' %}", "{% assign x = x | replace: 'a', x %}", 20, ""}, {"{}", "", 0, ""}, 16, 6},
    {"capture that doubles",
     {"{% assign x = 'ab' %}", "{% capture x %}{{ x }}{{ x }}{% endcapture %}", 60, ""}, {"{}", "", 0, ""}, 32, 6},
    {"captures in captures",
     {"{% assign x = 'ab' %}", "{% capture x %}{% capture y %}{{ x }}{{ x }}{% endcapture %}{{ y }}{{ y }}{% endcapture %}", 30, ""},
     {"{}", "", 0, ""}, 32, 6},
    {"a list that doubles", {"", "{% assign x = x | concat: x %}", 60, ""}, {"{\"x\": [1, \"b\", [3]]}", "", 0, ""}, 16, 6},
    {"a text in pieces",
     {"{% assign x = 'ab' %}", "{% assign x = x | append: x %}", 19, "{% assign y = x | split: '' %}"}, {"{}", "", 0, ""}, 16, 6},
    {"a long page",
     {"{% for i in (1..1000) %}{% for j in (1..1000) %}", "rain and snow", 10, "{% endfor %}{% endfor %}"}, {"{}", "", 0, ""}, 8, 6},
    {"a long template", {"", "{{ x }}", 1000000, ""}, {"{\"x\": 1}", "", 0, ""}, 8, 6},
    {"a long list of JSON", {"{{ x | size }}", "", 0, ""}, {"{\"x\": [0", ", \"rain\"", 1000000, "]}"}, 8, 6},
    {"objects of JSON", {"{{ x | size }}", "", 0, ""}, {"{\"x\": [0", ", {\"a\": [1]}", 1000000, "]}"}, 64, 6},
    {"JSON in JSON", {"{{ x | size }}", "", 0, ""}, {"{\"x\": ", "[", 1000000, ""}, 8, 3},
    {"no memory at all", {"rain", "", 0, ""}, {"{}", "", 0, ""}, 0, 6},
    {"enough, over and over",
     {"{% for i in (1..20000) %}{% assign x = 'a-b-c' | replace: '-', '", "+", 40, "' %}{% endfor %}"}, {"{}", "", 0, ""}, 1, 0},
    {"enough", {"{% assign x = 'ab' %}", "{% assign x = x | append: x %}", 18, "{{ x | size }}"}, {"{}", "", 0, ""}, 4, 0},
};

static char *made(const text_type *text, size_t *len) {
    size_t part = strlen(text->part), begin = strlen(text->begin), end = strlen(text->end), i;
    char *at = malloc(begin + part * text->parts + end + 1);
    if (!at) exit(3);
    memcpy(at, text->begin, begin);
    for (i = 0; i < text->parts; i++) memcpy(at + begin + i * part, text->part, part);
    memcpy(at + begin + part * text->parts, text->end, end);
    *len = begin + part * text->parts + end;
    return at;
}

static size_t peak(void) {
    struct rusage usage;
    getrusage(RUSAGE_SELF, &usage);
    return (size_t)usage.ru_maxrss * 1024;
}

static const liquid_partial no_partials[1];

static liquid_page page_of(const char *text, size_t text_len, const char *globals, size_t globals_len) {
    static const liquid_page empty;
    liquid_page page = empty;
    page.text = liquid_bytes_of(text, text_len);
    page.globals = liquid_bytes_of(globals, globals_len);
    page.partials = no_partials;
    page.options = LIQUID_STANDARD;
    return page;
}

/* Renders a short page in this thread, without a limit and under one, each after the other. */
static int renders_whole(void) {
    const char *text = "{% for i in (1..3) %}{{ x | append: i }}{% endfor %}", *globals = "{\"x\": \"r\"}";
    liquid_page page = page_of(text, strlen(text), globals, strlen(globals));
    uint8_t out[16], message[16];
    liquid_outcome outcome;
    int turn;
    for (turn = 0; turn < 4; turn++) {
        memset(out, 0, sizeof out);
        if (turn % 2) liquid_render_within(&page, (size_t)(turn / 2) * MB, out, sizeof out, message, sizeof message, &outcome);
        else liquid_render(&page, out, sizeof out, message, sizeof message, &outcome);
        if (outcome.kind != LIQUID_OK || outcome.written != 6 || memcmp(out, "r1r2r3", 6) != 0) return 0;
    }
    return 1;
}

/* Renders the row's page, alone and as one of several, and exits with 0 if it ends as it is to end. */
static void try_row(const row_type *row, int is_counted) {
    size_t text_len, globals_len, before, limit = row->limit ? row->limit * MB : 1, whole;
    char *text = made(&row->text, &text_len), *globals = made(&row->globals, &globals_len);
    liquid_page page = page_of(text, text_len, globals, globals_len);
    liquid_bytes both[2];
    static uint8_t out[64], message[64];
    liquid_outcome outcome, outcomes[2];
    before = peak();
    liquid_render_within(&page, limit, out, sizeof out, message, sizeof message, &outcome);
    if (is_counted && peak() > before + limit + 4 * MB) {
        printf("%s: %zu KB more than the limit\n", row->name, (peak() - before - limit) / 1024);
        exit(1);
    }
    both[0] = page.globals;
    both[1] = liquid_bytes_of("{\"x\": \"r\"}", 10);
    whole = liquid_render_each_within(&page, limit, both, 2, out, sizeof out, message, sizeof message, outcomes, 2);
    if (outcome.kind != row->kind || outcomes[0].kind != row->kind || whole > 2 || !renders_whole()) {
        printf("%s: it ends as %u and %u\n", row->name, (unsigned)outcome.kind, (unsigned)outcomes[0].kind);
        exit(1);
    }
    free(text);
    free(globals);
    exit(0);
}

static atomic_int is_done;

/* A thread whose calls have room, beside one whose calls have a limit that no page keeps. */
static void *renders_pages(void *whole) {
    int turn;
    for (turn = 0; turn < TURNS; turn++) *(int *)whole += renders_whole();
    is_done = 1;
    return NULL;
}

static int threads_apart(void) {
    liquid_page page = page_of("rain", 4, "{}", 2);
    liquid_outcome outcome;
    pthread_t thread;
    uint8_t out[8], message[8];
    int whole = 0, turns = 0, refused = 0;
    if (pthread_create(&thread, NULL, renders_pages, &whole)) return 0;
    for (; !is_done; turns++) {
        liquid_render_within(&page, 1, out, sizeof out, message, sizeof message, &outcome);
        refused += outcome.kind == LIQUID_NO_MEMORY;
    }
    pthread_join(thread, NULL);
    return whole == TURNS && refused == turns;
}

int main(int count, char **words) {
    int failed = 0, status, is_counted = !(count > 1 && strcmp(words[1], "uncounted") == 0);
    size_t i;
    for (i = 0; i < sizeof rows / sizeof *rows; i++) {
        pid_t child;
        /* (of the largest rows such a tool would take a minute) */
        if (!is_counted && rows[i].limit > 32) continue;
        child = fork();
        if (child == 0) try_row(&rows[i], is_counted);
        if (child < 0 || waitpid(child, &status, 0) < 0 || status != 0) {
            failed++;
            printf("%s: failed\n", rows[i].name);
        }
    }
    if (!threads_apart()) {
        failed++;
        printf("a limit of one thread is seen in another\n");
    }
    return failed != 0;
}
