/* Renders a template with a partial over several globals, and prints each page, or where its error is. */
#include <liquid.h>
#include <stdio.h>
#include <stdlib.h>

static const char *const days[] = {
    "{\"day\": \"Monday\", \"rain\": 12}",
    "{\"day\": \"Tuesday\", \"rain\": }",
    "{\"day\": \"Wednesday\", \"rain\": 0}",
};
enum { COUNT = sizeof days / sizeof days[0] };

int main(void) {
    liquid_partial amount = {liquid_text("amount"), liquid_text("{% if rain == 0 %}dry{% else %}{{ rain }} mm{% endif %}")};
    liquid_page page = liquid_page_of(liquid_text("{{ day }}: {% include 'amount' %}"), liquid_text(""));
    liquid_bytes globals[COUNT];
    liquid_outcome outcomes[COUNT];
    uint8_t *out = NULL, *at, message[256];
    size_t i, room = 16, needed = room;
    page.partials = &amount;
    page.partial_count = 1;
    page.options = LIQUID_STANDARD;
    for (i = 0; i < COUNT; i++) globals[i] = liquid_text(days[i]);
    /* A second turn has enough room for all pages. */
    do {
        room = needed;
        free(out);
        out = (uint8_t *)malloc(room);
        if (!out) return EXIT_FAILURE;
        liquid_render_each(&page, globals, COUNT, out, room, message, sizeof message, outcomes, COUNT);
        for (needed = 0, i = 0; i < COUNT; i++) needed += outcomes[i].needed;
    } while (needed > room);
    /* The pages are in out one after another. */
    for (at = out, i = 0; i < COUNT; at += outcomes[i].written, i++) {
        if (outcomes[i].kind == LIQUID_OK) {
            printf("%.*s\n", (int)outcomes[i].written, (const char *)at);
        } else {
            printf("%s: error %u, line %zu, column %zu\n", days[i], (unsigned)outcomes[i].kind, outcomes[i].line, outcomes[i].column);
        }
    }
    free(out);
    return EXIT_SUCCESS;
}
